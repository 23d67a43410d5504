#!/usr/bin/env python3
"""traps.py PROGRAM [--parts N] [NAME..]: makes netlists that reveal quadratic steps, and runs PROGRAM on each.

The netlists are `readers`, one gate with a fanout of 33,000; `narrow`, 100,000 gates over ten inputs; `chain`, 100,000
gates of which each reads the one before it; and `popcount`, which adds 1,024 bits one after the other. Each is given to `improve`, to `improve --observe yes`, and to `equiv` with
itself. The table has the user time, the peak of memory, and the last line of the program; a run is stopped after 120 s. With
`--parts N` each netlist has only one N-th of the gates."""
import os
import random
import resource
import subprocess
import sys
import tempfile

from usage import usage

LIMIT = 120
ROWS = [('01', '10'), ('11',), ('00', '01', '10'), ('1-', '-1')]


def table(first, second, output, rows):
    """A table of two inputs."""
    return f'.names {first} {second} {output}\n' + ''.join(f'{row} 1\n' for row in rows)


def netlist(name, inputs, outputs, tables):
    """The text of a netlist."""
    return f'.model {name}\n.inputs {" ".join(inputs)}\n.outputs {" ".join(outputs)}\n' + ''.join(tables) + '.end\n'


def readers(count):
    """One gate, and gates that each read it and an input of their own."""
    own = [f'x{i}' for i in range(count)]
    outputs = [f'n{i}' for i in range(count)]
    tables = [table('a', 'b', 'g', ('11',))]
    tables += [table('g', x, n, ('01', '10')) for x, n in zip(own, outputs)]
    return netlist('readers', ['a', 'b'] + own, outputs, tables)


def narrow(count):
    """Gates on two of the 50 signals before, over ten inputs, with outputs on the last 50."""
    source = random.Random(1)
    inputs = [f'x{i}' for i in range(10)]
    names, tables = list(inputs), []
    for number in range(count):
        first, second = source.sample(names[-50:], 2)
        tables.append(table(first, second, f'n{number}', source.choice(ROWS)))
        names.append(f'n{number}')
    return netlist('narrow', inputs, names[-50:], tables)


def chain(count):
    """Gates in a row, XOR and AND by turns, over 16 inputs."""
    inputs = [f'x{i}' for i in range(16)]
    tables = [table(f'n{i}', f'x{i % 16}', f'n{i + 1}', ('01', '10') if i % 2 else ('11',)) for i in range(count)]
    return netlist('chain', ['n0'] + inputs, [f'n{count}'], tables)


def popcount(count):
    """How many of the inputs are true, which are added one after the other."""
    inputs, tables, total = [f'x{i}' for i in range(count)], [], []
    for number, carry in enumerate(inputs):
        for place, digit in enumerate(total):
            tables.append(table(digit, carry, f's{number}_{place}', ('01', '10')))
            tables.append(table(digit, carry, f'c{number}_{place}', ('11',)))
            total[place], carry = f's{number}_{place}', f'c{number}_{place}'
        if (number + 1) & number == 0:
            total.append(carry)
    return netlist('popcount', inputs, total, tables)


NETLISTS = {'readers': (readers, 33_000), 'narrow': (narrow, 100_000), 'chain': (chain, 100_000), 'popcount': (popcount, 1_024)}


def run(program, text, *options):
    """The user seconds, the peak of memory in megabytes, and the last line of the report."""
    with tempfile.TemporaryFile() as given, tempfile.TemporaryFile() as out, tempfile.TemporaryFile() as told:
        given.write(text.encode())
        given.seek(0)
        child = subprocess.Popen([program, *options], stdin=given, stdout=out, stderr=told,
                                 preexec_fn=lambda: resource.setrlimit(resource.RLIMIT_CPU, (LIMIT, LIMIT)))
        _, status, used = os.wait4(child.pid, 0)
        child.returncode = status
        told.seek(0)
        out.seek(0)
        lines = told.read().decode().split('\n') + (out.read(200).decode().split('\n')[:1] if options[0] == 'equiv' else [])
    said = [line.strip() for line in lines if line.strip()]
    last = 'stopped' if os.WIFSIGNALED(status) else said[-1] if said else str(os.WEXITSTATUS(status))
    return used.ru_utime, used.ru_maxrss // 1024, last


def main():
    """Makes the netlists, and prints the table."""
    words = sys.argv[1:]
    parts = 1
    if '--parts' in words:
        at = words.index('--parts')
        parts = int(words[at + 1])
        del words[at:at + 2]
    program, *names = words
    print('| Netlist | Command | Time | Memory | Says |', '|---|---|---|---|---|', sep='\n', flush=True)
    for name in names or NETLISTS:
        make, count = NETLISTS[name]
        text = make(count // parts)
        for options in (['improve'], ['improve', '--observe', 'yes'], ['equiv']):
            seconds, megabytes, last = run(program, text * (2 if options == ['equiv'] else 1), *options)
            print(f'| {name}, {count // parts} | `{" ".join(options)}` | {seconds:.1f} s | {megabytes} MB | {last} |', flush=True)


if __name__ == '__main__':
    usage(__doc__, 1)
    main()
