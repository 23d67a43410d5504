#!/usr/bin/env python3
"""designs.py PROGRAM FOLDER [--run EFFORT/SEED ..] [--half choosing|judging] [--abc N] [DESIGN ..]: `improve` on 63 circuits
in Verilog, beside ABC.

S-boxes, dividers, sorters, shifters, comparators, finite state machines, population counts, CRCs, multipliers, ALUs and so
on, of 6 to some 2,500 gates. Yosys makes BLIF of each, in FOLDER; ABC's best is that of the first N of fourteen scripts of
it (14), in nodes of two inputs over all operators. Every second design is for choosing settings, the others only judge.
Each row has the gates before, ABC's best, and for each run (0/1) the gates that `improve` leaves; the last rows have the
sums of both halves, and the user seconds.

Each result is compared with its source by ABC's `cec`; "differs" or "open" stands where that doesn't find them equal. What
is known stays in FOLDER and isn't made again. ABC takes minutes for the large ones. Debian: yosys, berkeley-abc.
"""
import json
import os
import random
import re
import resource
import subprocess
import sys

from usage import usage

C2RS = ('balance -l; resub -K 6 -l; rewrite -l; resub -K 6 -N 2 -l; refactor -l; resub -K 8 -l; balance -l; resub -K 8 -N 2 -l; '
     'rewrite -l; resub -K 10 -l; rewrite -z -l; resub -K 10 -N 2 -l; balance -l; resub -K 12 -l; refactor -z -l; resub -K 12 -N 2 -l; rewrite -z -l; balance -l')
RESYN2 = 'balance; rewrite; refactor; balance; rewrite; rewrite -z; balance; refactor -z; rewrite -z; balance'
RESYN3 = 'balance; resub; resub -K 6; balance; resub -z; resub -z -K 6; balance; resub -z -K 5; balance'
MAPPED = 'if -K 2 -a; mfs2 -a -e -W 4 -M 500 -C 5000'
SCRIPTS = [
    f'strash; {RESYN2}; {RESYN2}; {MAPPED}',
    f'strash; dc2; dc2; {MAPPED}',
    f'strash; {RESYN3}; {RESYN3}; {MAPPED}',
    f'strash; {C2RS}; {MAPPED}',
    f'strash; dch; {MAPPED}',
    f'strash; {C2RS}; dch; {MAPPED}',
    f'strash; &get -n; &dch -x; &put; {MAPPED}',
    f'strash; &get -n; &syn3; &syn3; &syn3; &put; {MAPPED}',
    f'strash; &get -n; &syn4; &syn4; &put; {MAPPED}',
    '; '.join([f'strash; dc2; dch; {MAPPED}'] * 6),
    '; '.join([f'strash; {C2RS}; dch; {MAPPED}'] * 4),
    f'strash; fx; strash; {C2RS}; {C2RS}; dch; {MAPPED}',
    f'strash; &get -n; &deepsyn -T 4; &put; {MAPPED}',
    f'strash; {C2RS}; &get -n; &deepsyn -T 4; &put; {MAPPED}',
]
# `&deepsyn` calls it, and Debian's ABC has no file of aliases.
ALIAS = f'alias compress2rs "{C2RS}"'


def table(name, inputs, outputs, values):
    rows = ''.join(f'    {inputs}\'d{i}: y = {outputs}\'d{v};\n' for i, v in enumerate(values))
    return name, (f'module {name}(input [{inputs - 1}:0] x, output reg [{outputs - 1}:0] y);\n  always @* case (x)\n{rows}'
                  f'    default: y = 0;\n  endcase\nendmodule\n')


def plain(name, ports, body):
    return name, f'module {name}({ports});\n{body}\nendmodule\n'


PRESENT = [12, 5, 6, 11, 9, 0, 10, 13, 3, 14, 15, 8, 4, 7, 1, 2]
PRINCE = [11, 15, 3, 2, 10, 12, 9, 1, 6, 7, 8, 0, 14, 5, 13, 4]
ASCON = [4, 11, 31, 20, 26, 21, 9, 2, 27, 5, 8, 18, 29, 3, 6, 28, 30, 19, 7, 14, 0, 13, 17, 24, 16, 12, 1, 25, 22, 10, 15, 23]


def permutation(seed, bits):
    values = list(range(1 << bits))
    random.Random(seed).shuffle(values)
    return values


def machine(name, states, bits, seed):
    rng = random.Random(seed)
    width = (states - 1).bit_length()
    rows = []
    for s in range(states):
        arms = ''.join(f'        {bits}\'d{v}: n = {width}\'d{rng.randrange(states)};\n' for v in range(1 << bits) if rng.random() < .7)
        rows.append(f'      {width}\'d{s}: case (i)\n{arms}        default: n = {width}\'d{rng.randrange(states)};\n      endcase\n')
    outs = ' '.join(f'assign o[{k}] = ' + ' | '.join(f'(s == {width}\'d{x})' for x in sorted(rng.sample(range(states), states // 3 + 1))) + ';' for k in range(3))
    return plain(name, f'input clk, input [{bits - 1}:0] i, output [2:0] o',
                 f'  reg [{width - 1}:0] s = 0; reg [{width - 1}:0] n;\n  always @* begin n = 0; case (s)\n{"".join(rows)}      default: n = 0;\n    endcase end\n'
                 f'  always @(posedge clk) s <= n;\n  {outs}')


def crc(name, width, polynomial, data):
    return plain(name, f'input [{width - 1}:0] c, input [{data - 1}:0] d, output [{width - 1}:0] y',
                 f'  reg [{width - 1}:0] r; integer k;\n  always @* begin r = c; for (k = {data - 1}; k >= 0; k = k - 1)\n'
                 f'    r = (r[{width - 1}] ^ d[k]) ? ((r << 1) ^ {width}\'h{polynomial:x}) : (r << 1);\n  end\n  assign y = r;')


def popcount(bits):
    return plain(f'popcount{bits}', f'input [{bits - 1}:0] x, output [{bits.bit_length() - 1}:0] y',
                 f'  assign y = {" + ".join(f"x[{k}]" for k in range(bits))};')


def sorter(name, count, bits):
    pairs = [(i, i + 1) for r in range(count) for i in range(r % 2, count - 1, 2)]
    steps = ''.join(f'    if (v[{a}] > v[{b}]) begin t = v[{a}]; v[{a}] = v[{b}]; v[{b}] = t; end\n' for a, b in pairs)
    return plain(name, f'input [{count * bits - 1}:0] x, output reg [{count * bits - 1}:0] y',
                 f'  reg [{bits - 1}:0] v [0:{count - 1}]; reg [{bits - 1}:0] t; integer k;\n  always @* begin\n'
                 f'    for (k = 0; k < {count}; k = k + 1) v[k] = x[k*{bits} +: {bits}];\n{steps}'
                 f'    for (k = 0; k < {count}; k = k + 1) y[k*{bits} +: {bits}] = v[k];\n  end')


def word(name, bits, outs, expression, second=True):
    ports = f'input [{bits - 1}:0] a, ' + (f'input [{bits - 1}:0] b, ' if second else '') + f'output [{outs - 1}:0] y'
    return plain(name, ports, f'  assign y = {expression};')


def alu(name, bits):
    return plain(name, f'input [2:0] f, input [{bits - 1}:0] a, b, output reg [{bits - 1}:0] y, output z',
                 '  always @* case (f) 0: y = a + b; 1: y = a - b; 2: y = a & b; 3: y = a | b; 4: y = a ^ b;\n'
                 '    5: y = a < b; 6: y = a >> b[1:0]; default: y = a << b[1:0]; endcase\n  assign z = y == 0;')


def priority(bits):
    return plain(f'first{bits}', f'input [{bits - 1}:0] x, output reg [{bits.bit_length() - 1}:0] y',
                 f'  integer k;\n  always @* begin y = {bits}; for (k = 0; k < {bits}; k = k + 1) if (x[k] && y == {bits}) y = k; end')


def root(bits):
    return plain(f'root{bits}', f'input [{bits - 1}:0] x, output reg [{bits // 2 - 1}:0] y',
                 f'  integer k; reg [{bits // 2 - 1}:0] t;\n  always @* begin y = 0; for (k = {bits // 2 - 1}; k >= 0; k = k - 1) begin t = y | (1 << k);\n'
                 f'    if ({bits}\'d0 + t * t <= x) y = t; end end')


def decimal(bits, digits):
    return plain(f'decimal{bits}', f'input [{bits - 1}:0] x, output [{4 * digits - 1}:0] y',
                 f'  reg [{4 * digits - 1}:0] r; integer k, j;\n  always @* begin r = 0; for (k = {bits - 1}; k >= 0; k = k - 1) begin\n'
                 f'    for (j = 0; j < {digits}; j = j + 1) if (r[4*j +: 4] >= 5) r[4*j +: 4] = r[4*j +: 4] + 3;\n    r = {{r[{4 * digits - 2}:0], x[k]}}; end end\n  assign y = r;')


def designs():
    yield table('present', 4, 4, PRESENT)
    yield table('prince', 4, 4, PRINCE)
    yield table('ascon', 5, 5, ASCON)
    for k in range(3):
        yield table(f'sbox4_{k}', 4, 4, permutation(k, 4))
    yield table('sbox5', 5, 5, permutation(7, 5))
    yield table('sbox6', 6, 6, permutation(8, 6))
    yield table('sbox8', 8, 8, permutation(9, 8))
    for bits in (4, 6, 8, 10, 16):
        yield word(f'divide{bits}', bits, bits, f'b == 0 ? {bits}\'d0 : a / b')
    yield word('modulo8', 8, 8, 'b == 0 ? a : a % b')
    for count, bits in ((4, 2), (4, 4), (6, 3), (8, 2), (8, 4)):
        yield sorter(f'sort{count}x{bits}', count, bits)
    for bits in (8, 16, 32, 64):
        log = bits.bit_length() - 1
        yield plain(f'shift{bits}', f'input [{bits - 1}:0] a, input [{log - 1}:0] s, input d, output [{bits - 1}:0] y', '  assign y = d ? a >> s : a << s;')
    for bits in (16, 32):
        log = bits.bit_length() - 1
        yield plain(f'rotate{bits}', f'input [{bits - 1}:0] a, input [{log - 1}:0] s, output [{bits - 1}:0] y', f'  assign y = (a << s) | (a >> ({bits} - s));')
    for bits in (8, 16, 32):
        yield word(f'compare{bits}', bits, 3, '{a < b, a == b, $signed(a) < $signed(b)}')
    for states, bits in ((6, 2), (10, 2), (16, 3), (24, 3), (40, 4)):
        yield machine(f'machine{states}', states, bits, states)
    for bits in (8, 16, 24, 32, 64, 128):
        yield popcount(bits)
    yield crc('crc8', 8, 0x07, 8)
    yield crc('crc16', 16, 0x1021, 16)
    yield crc('crc32', 32, 0x04C11DB7, 8)
    yield crc('crc32w', 32, 0x04C11DB7, 32)
    yield word('multiply4', 4, 8, 'a * b')
    yield word('multiply6', 6, 12, 'a * b')
    yield word('multiply8', 8, 16, 'a * b')
    yield word('multiply16', 16, 32, 'a * b')
    yield word('square8', 8, 16, 'a * a', False)
    yield word('square12', 12, 24, 'a * a', False)
    yield alu('alu4', 4)
    yield alu('alu8', 8)
    yield alu('alu16', 16)
    yield word('distance8', 8, 8, 'a > b ? a - b : b - a')
    yield word('saturate8', 8, 8, '({1\'b0, a} + b) > 255 ? 255 : a + b')
    yield word('greatest16', 16, 16, 'a > b ? a : b')
    yield priority(16)
    yield priority(32)
    yield root(8)
    yield root(16)
    yield decimal(8, 3)
    yield decimal(10, 4)
    yield word('gray16', 16, 16, '{' + ', '.join(f'^a[15:{k}]' for k in range(15, -1, -1)) + '}', False)


def made(folder, name, text):
    """The design in BLIF, by yosys."""
    verilog, blif = f'{folder}/{name}.v', f'{folder}/{name}.blif'
    if not os.path.exists(blif):
        with open(verilog, 'w', encoding='utf-8') as file:
            file.write(text)
        script = (f'read_verilog {verilog}; hierarchy -top {name}; proc; opt -full; memory -nomap; memory_map; alumacc; opt; techmap; '
                  f'opt -full; dffunmap; simplemap; opt_clean; write_blif -noalias {blif}')
        subprocess.run(['yosys', '-q', '-p', script], check=True)
    return blif


def known(folder, name):
    """What was measured of a design before."""
    path = f'{folder}/{name}.json'
    if not os.path.exists(path):
        return {}
    with open(path, encoding='utf-8') as file:
        return json.load(file)


def kept(folder, name, values):
    with open(f'{folder}/{name}.json', 'w', encoding='utf-8') as file:
        json.dump(values, file)


def run(words, limit=300):
    """What a program writes, and its user seconds."""
    before = resource.getrusage(resource.RUSAGE_CHILDREN).ru_utime
    last = lambda: resource.setrlimit(resource.RLIMIT_CPU, (limit, limit + 1))
    done = subprocess.run(words, capture_output=True, text=True, preexec_fn=last, check=False)
    used = resource.getrusage(resource.RUSAGE_CHILDREN).ru_utime - before
    return re.sub(r'\x1b\[[0-9;]*m', '', done.stdout), done.stderr, used


def best(blif, values, count):
    """The fewest nodes by ABC's first `count` scripts, or None; a script that fails or takes 300 seconds counts as none."""
    found = values.setdefault('abc', [])
    for script in SCRIPTS[len(found):count]:
        said, _, used = run(['berkeley-abc', '-q', f'{ALIAS}; read_blif {blif}; {script}; print_stats'])
        nodes = re.findall(r'nd\s*=\s*(\d+)', said)
        found.append([int(nodes[-1]) if nodes else None, used])
    return min((nodes for nodes, _ in found[:count] if nodes is not None), default=None)


def improved(program, blif, words):
    """The gates before and after `improve`, its user seconds, and whether ABC finds the result equal."""
    effort, seed = words.split('/')
    less = blif.replace('.blif', f'.{effort}.{seed}.less.blif')
    _, report, used = run([program, 'improve', '--effort', effort, '--seed', seed, blif, '-o', less], 3600)
    before, after = (int(word) for word in report.split()[1:4:2])
    said, _, _ = run(['berkeley-abc', '-q', f'cec -n {blif} {less}'])
    verdict = 'equal' if 'are equivalent' in said else 'differs' if 'NOT EQUIVALENT' in said else 'open'
    return before, after, used, verdict


def measured(program, folder, name, text, runs, count):
    """The gates of a design before, by ABC, and after each run: values and their text."""
    blif, values = made(folder, name, text), known(folder, name)
    least = best(blif, values, count)
    kept(folder, name, values)
    for words in runs:
        if words not in values:
            values[words] = improved(program, blif, words)
            kept(folder, name, values)
    return least, [values[words] for words in runs]


def options(words):
    """The runs, the half, the count of ABC's scripts, and the names."""
    runs, names, half, count = [], [], None, len(SCRIPTS)
    while words:
        word = words.pop(0)
        if word == '--run' and words:
            runs.append(words.pop(0))
        elif word == '--half' and words:
            half = words.pop(0)
        elif word == '--abc' and words:
            count = int(words.pop(0))
        else:
            names.append(word)
    return runs or ['0/1'], half, count, names


def main():
    usage(__doc__, 2)
    program, folder, *words = sys.argv[1:]
    runs, half, count, names = options(words)
    os.makedirs(folder, exist_ok=True)
    print(f'| Circuit | gates | ABC | {" | ".join(runs)} |\n|---|---|---|{"---|" * len(runs)}', flush=True)
    sums = {}
    for place, (name, text) in enumerate(designs()):
        kind = 'judging' if place % 2 else 'choosing'
        if names and name not in names or half not in (None, kind):
            continue
        least, results = measured(program, folder, name, text, runs, count)
        shown = [f'{after}' if verdict == 'equal' else f'{after} {verdict}' for _, after, _, verdict in results]
        print(f'| {name} | {results[0][0]} | {least or "-"} | {" | ".join(shown)} |', flush=True)
        row = [results[0][0], least or 0] + [value for _, after, used, _ in results for value in (after, used)]
        sums[kind] = [one + other for one, other in zip(sums.get(kind, [0] * len(row)), row)]
    for kind, (before, least, *left) in sorted(sums.items()):
        shown = [f'{after}, {used:.1f} s' for after, used in zip(left[::2], left[1::2])]
        print(f'| sum, {kind} | {before} | {least or "-"} | {" | ".join(shown)} |')


if __name__ == '__main__':
    main()
