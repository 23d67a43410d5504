#!/usr/bin/env python3
"""aigs.py PROGRAM FOLDER [--run EFFORT/SEED ..] [--abc N] NETLIST.blif ..: `improve` on AIGs, beside ABC, in AND nodes.

ABC makes a binary AIGER file of each netlist in FOLDER, with all latches starting with 0. Five circuits of designs.py are
added: ascon, divide4, sort4x4, alu4, machine10. Each row has the AND nodes before, those of ABC's best of the first N
of five scripts (5), and those after each run of `improve` (0/1) with its user seconds, all as ABC counts them. ABC's `cec`
compares each result with its source; "not shown" stands where it doesn't find them equal. The last row has the sums.

What is in FOLDER isn't made again. Debian: yosys, berkeley-abc."""
import os
import re
import sys

import designs
from usage import usage

ADDED = ('ascon', 'divide4', 'sort4x4', 'alu4', 'machine10')
SCRIPTS = [
    f'{designs.RESYN2}; {designs.RESYN2}',
    'dc2; dc2; dc2; dc2',
    f'{designs.C2RS}; {designs.C2RS}',
    f'dch; {designs.C2RS}',
    '&get -n; &deepsyn -T 4; &put',
]


def abc(commands, limit=300):
    said, _, used = designs.run(['berkeley-abc', '-q', f'{designs.ALIAS}; {commands}'], limit)
    return said, used


def nodes(path):
    """The AND nodes of an AIGER file."""
    return int(re.findall(r'and\s*=\s*(\d+)', abc(f'read_aiger {path}; print_stats')[0])[-1])


def is_equal(first, second):
    return 'are equivalent' in abc(f'cec -n {first} {second}')[0]


def made(folder, path):
    """The AIGER file of a netlist."""
    aig = f'{folder}/{os.path.basename(path).removesuffix(".blif")}.aig'
    if not os.path.exists(aig):
        abc(f'read_blif {path}; strash; zero; strash; write_aiger -s {aig}')
    return aig


def best(aig, count):
    """The fewest AND nodes that ABC's scripts leave."""
    found = []
    for place, script in enumerate(SCRIPTS[:count]):
        out = aig.replace('.aig', f'.abc{place}.aig')
        if not os.path.exists(out):
            abc(f'read_aiger {aig}; strash; {script}; strash; write_aiger -s {out}')
        if os.path.exists(out) and is_equal(aig, out):
            found.append(nodes(out))
    return min(found, default=None)


def improved(program, aig, words):
    """The AND nodes after `improve`, its user seconds, and whether ABC finds the result equal."""
    effort, seed = words.split('/')
    out = aig.replace('.aig', f'.{effort}.{seed}.less.aig')
    _, _, used = designs.run([program, 'improve', '--effort', effort, '--seed', seed, aig, '-o', out], 3600)
    return nodes(out), used, is_equal(aig, out)


def options(words):
    runs, paths, count = [], [], len(SCRIPTS)
    while words:
        word = words.pop(0)
        if word == '--run' and words:
            runs.append(words.pop(0))
        elif word == '--abc' and words:
            count = int(words.pop(0))
        else:
            paths.append(word)
    return runs or ['0/1'], count, paths


def main():
    usage(__doc__, 2)
    program, folder, *words = sys.argv[1:]
    runs, count, paths = options(words)
    os.makedirs(folder, exist_ok=True)
    paths += [designs.made(folder, name, text) for name, text in designs.designs() if name in ADDED]
    print(f'| Circuit | AND nodes | ABC | {" | ".join(runs)} |\n|---|---|---|{"---|" * len(runs)}', flush=True)
    sums = [0, 0] + [0, 0.0] * len(runs)
    for path in paths:
        aig = made(folder, path)
        results = [improved(program, aig, run) for run in runs]
        shown = [f'{left}' if equal else f'{left} not shown' for left, _, equal in results]
        row = [nodes(aig), best(aig, count)]
        print(f'| {os.path.basename(aig)[:-4]} | {row[0]} | {row[1] or "-"} | {" | ".join(shown)} |', flush=True)
        row += [value for left, used, _ in results for value in (left, used)]
        sums = [one + (other or 0) for one, other in zip(sums, row)]
    shown = [f'{left}, {used:.1f} s' for left, used in zip(sums[2::2], sums[3::2])]
    print(f'| sum | {sums[0]} | {sums[1]} | {" | ".join(shown)} |')


main()
