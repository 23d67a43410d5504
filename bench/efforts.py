#!/usr/bin/env python3
"""efforts.py PROGRAM [--efforts N ..] [NETLIST ..]: the gates that `improve` leaves with greater and greater efforts.

A line for each netlist (BLIF, or BENCH by its name): its gates, and those after each effort (0, 1, 2, 5 and 20), with the
user seconds; the last line has the sums. Without a netlist it takes 60 that it makes: random gates, adders and multipliers.

Status 1 where a greater effort leaves more gates than a smaller one, which the line then says."""
import os
import resource
import subprocess
import sys

import circuits

from usage import usage


def improved(program, options, text):
    """The gates before and after, and the user seconds."""
    start = resource.getrusage(resource.RUSAGE_CHILDREN).ru_utime
    done = subprocess.run([program, 'improve', *options], input=text, capture_output=True, check=True)
    report = done.stderr.decode().split()
    return int(report[1]), int(report[3]), resource.getrusage(resource.RUSAGE_CHILDREN).ru_utime - start


def made():
    """Sixty netlists."""
    for seed in range(40):
        inputs = 4 + seed % 17
        yield f'random {seed}', circuits.random_gates(20 + 6 * seed, inputs, 1 + seed % 8, 12 + seed, seed), []
    for bits in range(2, 12):
        yield f'adder {bits}', circuits.ripple_adder(bits), []
    for bits in range(4, 9):
        yield f'select {bits}', circuits.carry_select_adder(bits, 2), []
    for bits in range(2, 7):
        yield f'product {bits}', circuits.multiplier(bits), []


def given(paths):
    """The netlists of files."""
    for path in paths:
        with open(path, encoding='latin1') as file:
            yield os.path.basename(path), file.read(), ['--format', 'bench'] if path.endswith('.bench') else []


def main():
    """Prints the table."""
    program, *paths = sys.argv[1:]
    efforts = [0, 1, 2, 5, 20]
    if paths[:1] == ['--efforts']:
        count = next((at for at, word in enumerate(paths[1:]) if not word.isdigit()), len(paths) - 1)
        efforts, paths = [int(word) for word in paths[1:count + 1]], paths[count + 1:]
    print(f'{"netlist":16} {"before":>6} ' + ' '.join(f'{effort:>6} {"s":>7}' for effort in efforts))
    sums, worse = [0] * (2 * len(efforts) + 1), 0
    for name, text, options in (given(paths) if paths else made()):
        runs = [improved(program, [*options, '--effort', str(effort)], text.encode('latin1')) for effort in efforts]
        left = [after for _, after, _ in runs]
        rises = any(later > earlier for earlier, later in zip(left, left[1:]))
        worse += rises
        values = [runs[0][0]] + [value for _, after, spent in runs for value in (after, spent)]
        sums = [one + other for one, other in zip(sums, values)]
        print(line(name, values) + (' rises' if rises else ''), flush=True)
    print(line('sum', sums))
    return 1 if worse else 0


def line(name, values):
    """A line of the table."""
    pairs = zip(values[1::2], values[2::2])
    return f'{name:16} {values[0]:6} ' + ' '.join(f'{gates:6} {spent:7.2f}' for gates, spent in pairs)


if __name__ == '__main__':
    usage(__doc__, 1)
    sys.exit(main())
