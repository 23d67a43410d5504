#!/usr/bin/env python3
"""synth.py PROGRAM [SECONDS] [--beside]: finds the fewest steps of some functions by PROGRAM, by each method,
rechecks each certificate, and prints a table: the verdict, the additions in the certificate (conflicts and
strengthened clauses of the sizes without a chain), its bytes, user seconds to find and to recheck. A search that
takes longer than SECONDS (60) is stopped.

With --beside it finds the fewest steps of larger functions and of the last small one, and prints the user
seconds of the methods (of `ssv` the median of five runs), the additions in their certificates, and the user
seconds of minisat and cadical, which decide the `ssv` formulas of the last two sizes alone (each the median of
five runs). The last column is the time of `ssv` divided by that of the better of the two."""
import os
import resource
import statistics
import subprocess
import sys
import tempfile

from functions import LARGE, SMALL
from usage import usage

HERE = os.path.dirname(os.path.abspath(__file__))
METHODS = ['ssv', 'select', 'fence', 'strong', 'strong-fence', 'plain']
PEERS = [['minisat'], ['cadical', '-n']]
REPEATS = 5


def run(words, given, seconds):
    """What a command writes, and its user seconds; nothing where it takes too long."""
    before = resource.getrusage(resource.RUSAGE_CHILDREN).ru_utime
    try:
        out = subprocess.run(words, input=given, stdout=subprocess.PIPE, check=False, timeout=seconds).stdout
    except subprocess.TimeoutExpired:
        return None, 0
    return out, resource.getrusage(resource.RUSAGE_CHILDREN).ru_utime - before


def tables_of(rows):
    """The text of tables."""
    inputs = len(rows[0]).bit_length() - 1
    return f'inputs {inputs}\n'.encode() + ''.join(row + '\n' for row in rows).encode()


def is_addition(line):
    """Whether a line of a certificate is a log's, and adds a clause."""
    return line[:1].isdigit() and ' 0' in line and ' d ' not in line


def found(program, method, rows, seconds):
    """A certificate and the user seconds that it takes to find it."""
    return run([program, 'synth', '--method', method, '--conflicts', '10000000'], tables_of(rows), seconds)


def measured(program, method, rows, seconds):
    """The columns of a function and a method."""
    text, time = found(program, method, rows, seconds)
    if text is None:
        return f'| more than {seconds} s | | | | |'
    lines = text.decode().splitlines()
    additions = sum(1 for line in lines if is_addition(line))
    verdict, again = run([program, 'recheck'], text, seconds)
    same = verdict is not None and verdict.decode().strip() == lines[-2]
    return f'| {lines[-2]}{"" if same else " (recheck differs)"} | {additions:,} | {len(text):,} | {time:.2f} s | {again:.2f} s |'


def peer_seconds(words, size, tables, seconds):
    """What another solver takes for the `ssv` formula of so many steps; SECONDS where that is too long."""
    made = subprocess.run([sys.executable, os.path.join(HERE, 'make_formula.py'), '--dimacs', 'ssv', str(size),
                           *tables.split()], stdout=subprocess.PIPE, check=True).stdout
    with tempfile.NamedTemporaryFile(suffix='.cnf') as file:
        file.write(made)
        file.flush()
        runs = [run([*words, file.name], b'', seconds) for _ in range(REPEATS)]
        return statistics.median(seconds if text is None else time for text, time in runs)


def by_method(program, method, rows, seconds, repeats):
    """The user seconds and the additions of a method; None for both where it takes too long."""
    runs = [found(program, method, rows, seconds) for _ in range(repeats)]
    if any(text is None for text, _ in runs):
        return None, None
    lines = runs[0][0].decode().splitlines()
    return statistics.median(time for _, time in runs), sum(map(is_addition, lines))


def compared(program, least, tables, seconds):
    """The columns of a larger function."""
    ways = [by_method(program, method, tables.split(), seconds, REPEATS if method == 'ssv' else 1)
            for method in METHODS[:5]]
    peers = [sum(peer_seconds(words, size, tables, seconds) for size in (least - 1, least)) for words in PEERS]
    times = [f'more than {seconds} s' if time is None else f'{time:.2f} s' for time, _ in ways]
    additions = '; '.join('-' if number is None else f'{number:,}' for _, number in ways)
    ratio = '-' if ways[0][0] is None else f'{ways[0][0] / min(peers):.2f}'
    return f'| {" | ".join([*times, additions, *(f"{time:.2f} s" for time in peers), ratio])} |'


def main_beside(program, seconds):
    print('| Function | Steps | `ssv` | `select` | `fence` | `strong` | `strong-fence` | Additions by these | minisat | cadical '
              '| `ssv` to the better |')
    print('|---|---|---|---|---|---|---|---|---|')
    for name, least, tables in [SMALL[-1], *LARGE]:
        print(f'| {name} | {least} {compared(program, least, tables, seconds)}', flush=True)


def main():
    words = [word for word in sys.argv[1:] if word != '--beside']
    program, seconds = words[0], int(words[1]) if len(words) > 1 else 60
    if '--beside' in sys.argv:
        main_beside(program, seconds)
        return
    print('| Function | Method | Verdict | Additions | Bytes | Find | Recheck |')
    print('|---|---|---|---|---|---|---|')
    for name, _, tables in SMALL:
        for method in METHODS:
            print(f'| {name} | {method} {measured(program, method, tables.split(), seconds)}', flush=True)


if __name__ == '__main__':
    usage(__doc__, 1)
    main()
