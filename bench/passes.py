#!/usr/bin/env python3
"""passes.py PROGRAM [NETLIST ..]: what each pass of `improve` saves, a line per netlist (BLIF, or BENCH by its name).

The program doesn't report passes, so `improve` runs with more and more options, and a column is what one more saves:

    dead     --cap 0: dangling gates, and constants and copies that reading removes
    moves    --cap 1: sharing and the first stage of walks over random windows (where there are 6 to 100,000 gates), with
             exact windows of one gate
    two ..   --cap 2, 3, 4 and 5: structural and functional hashing, and listed windows of at most 2, 3, 4 and 5 gates
    five
    effort5  --effort 5 and 20: further stages of walks
    effort20

A negative number says that more options left more gates, which --effort never does. `left` are the gates after the last
run, and `time` the user seconds of the run by default. Without a netlist it takes the full adder of seven gates and circuits of
`circuits.py`."""
import os
import resource
import subprocess
import sys

import circuits

from usage import usage

ADDER = b""".model adder
.inputs a b c
.outputs s k
.names a b p
10 1
01 1
.names p c s
10 1
01 1
.names a b q
11 1
.names b c r
11 1
.names a c t
11 1
.names q r u
1- 1
-1 1
.names u t k
1- 1
-1 1
.end
"""

RUNS = [('dead', ('--cap', '0')), ('moves', ('--cap', '1')), ('two', ('--cap', '2')), ('three', ('--cap', '3')),
        ('four', ('--cap', '4')), ('five', ('--cap', '5')), ('effort5', ('--effort', '5')), ('effort20', ('--effort', '20'))]


def improved(program, options, text):
    """The gates before and after, and the user seconds; None where the netlist is refused."""
    start = resource.getrusage(resource.RUSAGE_CHILDREN).ru_utime
    done = subprocess.run([program, 'improve', *options], input=text, capture_output=True)
    spent = resource.getrusage(resource.RUSAGE_CHILDREN).ru_utime - start
    report = done.stderr.decode().split()
    if done.returncode or report[:1] != ['gates']:
        return None
    return int(report[1]), int(report[3]), spent


def row(program, name, text, format_options):
    """The line of a netlist."""
    columns, left, spent = [], None, 0.0
    for pass_name, options in RUNS:
        found = improved(program, [*format_options, *options], text)
        if found is None:
            return f'{name:16} refused'
        if left is None:
            first = left = found[0]
        columns.append(left - found[1])
        left = found[1]
        if pass_name == 'five':
            spent = found[2]
    return f'{name:16} {first:6} ' + ' '.join(f'{saved:8}' for saved in columns) + f' {left:6} {spent:7.2f}'


def own():
    """Netlists to start with."""
    yield 'adder', ADDER, []
    yield 'select 8', circuits.carry_select_adder(8, 4).encode(), []
    yield 'multiplier 4', circuits.multiplier(4).encode(), []


def given(paths):
    for path in paths:
        with open(path, 'rb') as file:
            text = file.read()
        yield os.path.basename(path), text, ['--format', 'bench'] if path.endswith('.bench') else []


def main():
    program, *paths = sys.argv[1:]
    print(f'{"netlist":16} {"before":>6} ' + ' '.join(f'{name:>8}' for name, _ in RUNS) + f' {"left":>6} {"time":>7}')
    for name, text, format_options in (given(paths) if paths else own()):
        print(row(program, name, text, format_options), flush=True)


if __name__ == '__main__':
    usage(__doc__, 1)
    main()
