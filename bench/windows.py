#!/usr/bin/env python3
"""windows.py PROGRAM: makes netlists of 100,000 gates, takes all their windows by PROGRAM (`benchmarks windows`), and prints a
table: the program's output, the user time, and windows with their specifications per second.

The netlists are a ladder of which each gate reads the one before it and an input, one of gates on any earlier signals,
and one of gates on the last 40 signals, in which paths part and meet again."""
import random
import resource
import subprocess
import sys

from usage import usage

GATES = 100_000


def table(first, second, output, rows):
    """A table of two inputs."""
    return f'.names {first} {second} {output}\n' + ''.join(f'{row} 1\n' for row in rows)


def ladder():
    """Gates in a row: XOR and AND by turns."""
    tables = [table(f'n{i}', f'x{i % 16}', f'n{i + 1}', ('01', '10') if i % 2 else ('11',)) for i in range(GATES)]
    inputs = 'n0 ' + ' '.join(f'x{i}' for i in range(16))
    return f'.model ladder\n.inputs {inputs}\n.outputs n{GATES}\n' + ''.join(tables) + '.end\n'


def wide(seed, near):
    """Gates on two of the last so many signals, or of all earlier ones."""
    source = random.Random(seed)
    inputs = [f'x{i}' for i in range(1000)]
    names, tables = list(inputs), []
    for number in range(GATES):
        first, second = source.sample(names[-near:], 2)
        rows = source.choice([('01', '10'), ('11',), ('00', '01', '10'), ('1-', '-1')])
        tables.append(table(first, second, f'n{number}', rows))
        names.append(f'n{number}')
    outputs = source.sample(names[1000:], 5000)
    lists = f'.inputs {" ".join(inputs)}\n.outputs {" ".join(outputs)}\n'
    return '.model wide\n' + lists + ''.join(tables) + '.end\n'


def main():
    program = sys.argv[1]
    print('| Netlist | What it says | Time | Windows a second |')
    print('|---|---|---|---|')
    for name, text in (('ladder', ladder()), ('wide', wide(1, 0)), ('near', wide(2, 40))):
        before = resource.getrusage(resource.RUSAGE_CHILDREN).ru_utime
        done = subprocess.run([program, 'windows'], input=text.encode(), stdout=subprocess.PIPE, check=True)
        spent = resource.getrusage(resource.RUSAGE_CHILDREN).ru_utime - before
        says = done.stdout.decode().strip()
        print(f'| {name} | {says} | {spent:.1f} s | {int(says.split()[0]) / spent:,.0f} |')


if __name__ == '__main__':
    usage(__doc__, 1)
    main()
