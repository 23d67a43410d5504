#!/usr/bin/env python3
"""records.py PROGRAM FOLDER [--effort N] [--seeds N] [NAME ..]: small netlists of well-known functions by `improve`.

The S-boxes of DES (1 to 8), PRESENT, Prince and Ascon, from netlists of multiplexers that are made of their tables, and
sums of 7, 15 and 31 bits, from full adders. Each is improved with --effort N (300) and the seeds 1 to N (1), and the
least result stays in FOLDER, as NAME.blif, unless a netlist as small is there already. ABC's `cec` and PROGRAM's `equiv`
compare the netlist in FOLDER with the one that was made. Each row of the table has the gates before, those after each
seed with the user seconds, those of the netlist in FOLDER, and whether both find it equal. With --seeds 0 nothing is
improved.

The tables of DES are checked by what its standard demands of them: each row is a permutation, and inputs that differ in
one bit, or in both middle bits, have outputs that differ in two at least. Debian: berkeley-abc."""
import os
import resource
import subprocess
import sys
import tempfile

from designs import ASCON, PRESENT, PRINCE
from usage import usage

DES = [
    'e4d12fb83a6c5907 0f74e2d1a6cb9538 41e8d62bfc973a50 fc8249175b3ea06d',
    'f18e6b34972dc05a 3d47f28ec01a69b5 0e7ba4d158c6932f d8a13f42b67c05e9',
    'a09e63f51dc7b428 d709346a285ecbf1 d6498f30b12c5ae7 1ad069874fe3b52c',
    '7de3069a1285bc4f d8b56f03472c1ae9 a690cb7df13e5284 3f06a1d8945bc72e',
    '2c417ab6853fd0e9 eb2c47d150fa3986 421bad78f9c5630e b8c71e2d6f09a453',
    'c1af92680d34e75b af427c9561de0b38 9ef528c3704a1db6 432c95fabe17608d',
    '4b2ef08d3c975a61 d0b7491ae35c2f86 14bdc37eaf680592 6bd814a7950fe23c',
    'd2846fb1a93e50c7 1fd8a374c56b0e92 7b419ce206adf358 21e74a8dfc90356b']


def des(number):
    """The values of an S-box of DES, by its six input bits: the outer two choose the row, the others the column."""
    rows = [[int(digit, 16) for digit in row] for row in DES[number - 1].split()]
    return [rows[x >> 5 << 1 | x & 1][x >> 1 & 15] for x in range(64)]


def is_des(values):
    """Whether the table has what the standard demands of an S-box."""
    rows = [[values[row >> 1 << 5 | column << 1 | row & 1] for column in range(16)] for row in range(4)]
    apart = [(values[x] ^ values[x ^ change]).bit_count() for x in range(64) for change in (1, 2, 4, 8, 16, 32, 12)]
    return all(sorted(row) == list(range(16)) for row in rows) and min(apart) >= 2


class Tables:
    """Tables of a netlist that is made from above; equal functions are made once."""

    def __init__(self):
        self.lines, self.names = [], {}

    def table(self, rows, *inputs):
        name = f'n{len(self.lines)}'
        self.lines.append(f'.names {" ".join(inputs)} {name}\n' + ''.join(f'{row} 1\n' for row in rows))
        return name

    def chosen(self, values, inputs):
        """The name of the function with these values of the inputs, the first of which is the most significant bit."""
        key = (tuple(values), len(inputs))
        if key not in self.names:
            self.names[key] = self.made(values, inputs)
        return self.names[key]

    def made(self, values, inputs):
        if len(set(values)) == 1:
            return self.table(('',) if values[0] else ())
        if tuple(values) == (0, 1):
            return inputs[0]
        if tuple(values) == (1, 0):
            return self.table(('0',), inputs[0])
        low, high = values[:len(values) // 2], values[len(values) // 2:]
        if low == high:
            return self.chosen(low, inputs[1:])
        if len(inputs) == 2:
            return self.table([f'{row:02b}' for row in range(4) if values[row]], *inputs)
        return self.table(('01-', '1-1'), inputs[0], self.chosen(low, inputs[1:]), self.chosen(high, inputs[1:]))

    def text(self, inputs, outputs):
        names = ' '.join(f'y{k}' for k in range(len(outputs)))
        copies = ''.join(f'.names {name} y{k}\n1 1\n' for k, name in enumerate(outputs))
        return f'.model made\n.inputs {" ".join(inputs)}\n.outputs {names}\n{"".join(self.lines)}{copies}.end\n'


def box(values, bits):
    """The netlist of a table of numbers: output y0 is the most significant bit."""
    tables, inputs = Tables(), [f'x{k}' for k in range((len(values) - 1).bit_length())]
    outputs = [tables.chosen([value >> bit & 1 for value in values], inputs) for bit in range(bits - 1, -1, -1)]
    return tables.text(inputs, outputs)


def total(bits):
    """How many of the bits (2^k - 1 of them) are true, by full adders of five gates; the output y0 is the least bit."""
    tables, inputs, outputs = Tables(), [f'x{k}' for k in range(bits)], []
    here = list(inputs)
    while here:
        above = []
        while len(here) > 2:
            a, b, c, *here = here
            half = tables.table(('01', '10'), a, b)
            here.append(tables.table(('01', '10'), half, c))
            above.append(tables.table(('01', '10'), tables.table(('11',), half, tables.table(('01', '10'), b, c)), b))
        outputs.append(here[0])
        here = above
    return tables.text(inputs, outputs)


def records():
    for number in range(1, 9):
        values = des(number)
        assert is_des(values), f'S-box {number} of DES'
        yield f'des{number}', box(values, 4)
    yield 'present', box(PRESENT, 4)
    yield 'prince', box(PRINCE, 4)
    yield 'ascon', box(ASCON, 5)
    for bits in (7, 15, 31):
        yield f'sum{bits}', total(bits)


def improved(program, source, effort, seed, out):
    """The gates before and after, and the user seconds."""
    start = resource.getrusage(resource.RUSAGE_CHILDREN).ru_utime
    words = [program, 'improve', '--effort', effort, '--seed', str(seed), source, '-o', out]
    report = subprocess.run(words, capture_output=True, text=True, check=True).stderr.split()
    return int(report[1]), int(report[3]), resource.getrusage(resource.RUSAGE_CHILDREN).ru_utime - start


def gates(program, path):
    """The gates of a netlist as it is."""
    report = subprocess.run([program, 'improve', '--cap', '0', path], capture_output=True, text=True, check=True).stderr
    return int(report.split()[1])


def is_equal(program, first, second):
    """Whether ABC and `equiv` find two netlists equal."""
    said = [subprocess.run(words, capture_output=True, text=True, check=False).stdout for words in (
        ['berkeley-abc', '-q', f'cec -n {first} {second}'], [program, 'equiv', first, second])]
    return 'are equivalent' in said[0] and said[1].startswith('equal')


def row(program, folder, name, text, effort, seeds):
    """A row of the table, after the seeds were tried."""
    least, tried = f'{folder}/{name}.blif', []
    with tempfile.TemporaryDirectory() as scratch:
        source, out = f'{scratch}/source.blif', f'{scratch}/less.blif'
        with open(source, 'w', encoding='ascii') as file:
            file.write(text)
        before = gates(program, source)
        for seed in range(1, seeds + 1):
            _, after, used = improved(program, source, effort, seed, out)
            tried.append(f'{after} ({used:.1f} s)')
            if not os.path.exists(least) or after < gates(program, least):
                with open(out, encoding='ascii') as file, open(least, 'w', encoding='ascii') as kept:
                    kept.write(file.read())
        verdict = 'equal' if is_equal(program, source, least) else 'not shown'
    return f'| {name} | {before} | {", ".join(tried)} | {gates(program, least)} | {verdict} |'


def main():
    usage(__doc__, 2)
    program, folder, *words = sys.argv[1:]
    effort, seeds, names = '300', 1, []
    while words:
        word = words.pop(0)
        if word == '--effort' and words:
            effort = words.pop(0)
        elif word == '--seeds' and words:
            seeds = int(words.pop(0))
        else:
            names.append(word)
    os.makedirs(folder, exist_ok=True)
    print('| Function | made | by each seed | least | judged |\n|---|---|---|---|---|', flush=True)
    for name, text in records():
        if not names or name in names:
            print(row(program, folder, name, text, effort, seeds), flush=True)


if __name__ == '__main__':
    main()
