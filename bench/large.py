#!/usr/bin/env python3
"""large.py PROGRAM FOLDER [--cap N] [NAME ..]: `improve` by default on large netlists, which are made in FOLDER.

Population counts of 64, 256 and 1,024 bits by yosys (popcount64, popcount256, popcount1024); a multiplier of 110 bits of
some 94,000 gates (multiplier110), and one of 80 bits as AIGER by ABC, of 69,120 AND gates (aig80); 100,000 gates of adders,
multipliers and multiplexers side by side (logic); what `gen --blocks 10000` writes (blocks). A row for each: the report,
user seconds, memory, and whether ABC's `&cec` finds the result equal ("open" where it doesn't answer in 300 seconds).
Debian: yosys, berkeley-abc."""
import os
import subprocess
import sys
import tempfile

import circuits
import designs
import netlists
from usage import usage


def written(path, text):
    with open(path, 'w', encoding='ascii') as file:
        file.write(text)
    return path


def aiger(folder, name, text):
    path = f'{folder}/{name}.aig'
    if not os.path.exists(path):
        source = written(f'{folder}/{name}.blif', text)
        designs.run(['berkeley-abc', '-q', f'read_blif {source}; strash; write_aiger -s {path}'])
    return path


def blocks(program):
    return subprocess.run([program, 'gen', '--blocks', '10000'], capture_output=True, text=True, check=True).stdout


NETLISTS = {
    'popcount64': lambda _, folder: designs.made(folder, *designs.popcount(64)),
    'popcount256': lambda _, folder: designs.made(folder, *designs.popcount(256)),
    'popcount1024': lambda _, folder: designs.made(folder, *designs.popcount(1024)),
    'multiplier110': lambda _, folder: written(f'{folder}/multiplier110.blif', circuits.multiplier(110)),
    'aig80': lambda _, folder: aiger(folder, 'aig80', circuits.multiplier(80)),
    'logic': lambda _, folder: written(f'{folder}/logic.blif', netlists.Logic(100_000).text()),
    'blocks': lambda program, folder: written(f'{folder}/blocks.blif', blocks(program)),
}


def improved(program, cap, source, out):
    """The first and the last line of the report, the user seconds, and the most memory in MB."""
    with tempfile.TemporaryFile('w+') as note:
        with subprocess.Popen([program, 'improve', *cap, source, '-o', out], stderr=note) as child:
            _, status, used = os.wait4(child.pid, 0)
            child.returncode = os.waitstatus_to_exitcode(status)
        note.seek(0)
        report = note.read().splitlines()
    return f'{report[0]}, {report[-1]}', used.ru_utime, used.ru_maxrss // 1024


def judged(*paths):
    """What ABC says of two netlists."""
    with tempfile.TemporaryDirectory() as scratch:
        pair = [f'{scratch}/{place}.aig' for place in range(2)]
        for path, other in zip(paths, pair):
            designs.run(['berkeley-abc', '-q', f'read {path}; strash; zero; strash; write_aiger {other}'])
        said, _, _ = designs.run(['berkeley-abc', '-q', f'&cec {pair[0]} {pair[1]}'])
    return 'equal' if 'are equivalent' in said else 'differs' if 'NOT EQUIVALENT' in said else 'open'


def main():
    usage(__doc__, 2)
    program, folder, *names = sys.argv[1:]
    cap = []
    if names[:1] == ['--cap']:
        cap, names = names[:2], names[2:]
    os.makedirs(folder, exist_ok=True)
    print('| Netlist | Report | Time | Memory | ABC |\n|---|---|---|---|---|', flush=True)
    for name in names or NETLISTS:
        source = NETLISTS[name](program, folder)
        out = f'.less{cap[1] if cap else ""}.'.join(source.rsplit('.', 1))
        report, seconds, peak = improved(program, cap, source, out)
        print(f'| {name} | {report} | {seconds:.1f} s | {peak} MB | {judged(source, out)} |', flush=True)


main()
