#!/usr/bin/env python3
"""differential.py PROGRAM [--count N] [--seed S]: random netlists through `improve` and `equiv`, judged by others.

N netlists (200) with the seeds S, S + 1 and so on (1): BLIF with 3 to 12 inputs, up to 40 tables of 1 to 4 inputs, and
latches in some. Of each it is asked that

- `improve`, by options that the seed chooses, answers with status 0, and the gates in its report don't rise;
- the netlist that it wrote has the same outputs and next states under every assignment, by an evaluation in Python;
- `equiv` finds the two equal, and so does ABC (`cec`) where berkeley-abc is installed;
- of the netlist with one changed cube `equiv` says what the evaluation says, and its counterexample is one.

It prints a line for each seed with a fault, and `N netlists, N equal`. Status 0; 1 where there was a fault, or for
other arguments."""
import concurrent.futures
import os
import random
import re
import shutil
import subprocess
import sys
import tempfile

OPTIONS = ['', '--cap 2', '--cap 3 --observe yes', '--observe yes', '--effort 3', '--cap 0', '--basis 0001,0111,1110']
SECONDS = 60
ABC = shutil.which('berkeley-abc') or shutil.which('yosys-abc')


class Netlist:
    """Inputs, outputs, latches as pairs (next state, state), and tables as triples (inputs, output, cover lines)."""

    def __init__(self, inputs, outputs, latches, tables):
        self.inputs, self.outputs, self.latches, self.tables = inputs, outputs, latches, tables

    def text(self):
        lines = ['.model random', f".inputs {' '.join(self.inputs)}", f".outputs {' '.join(self.outputs)}"]
        lines += [f'.latch {state} {name} 0' for state, name in self.latches]
        for inputs, output, cover in self.tables:
            lines += [' '.join(['.names', *inputs, output]), *cover]
        return '\n'.join([*lines, '.end', ''])

    def values(self):
        """The sinks in order, outputs and then next states: a number each, whose bit t is the value on row t."""
        sources = [*self.inputs, *(name for _, name in self.latches)]
        rows = 1 << len(sources)
        full = (1 << rows) - 1
        known = {}
        for k, name in enumerate(sources):  # the first source is the most significant digit of a row
            run = 1 << len(sources) - 1 - k
            known[name] = full // ((1 << 2 * run) - 1) * ((1 << run) - 1) << run
        waiting = self.tables
        while waiting:
            later = []
            for inputs, output, cover in waiting:
                if all(name in known for name in inputs):
                    known[output] = covered([known[name] for name in inputs], cover, full)
                else:
                    later.append((inputs, output, cover))
            if len(later) == len(waiting):
                raise ValueError('a cycle, or a name that nothing drives')
            waiting = later
        return [known[name] for name in [*self.outputs, *(state for state, _ in self.latches)]]


def covered(values, cover, full):
    """The value of a table on each row."""
    found, on = 0, '1'
    for line in cover:
        *cube, on = line.replace(' ', '')
        row = full
        for value, character in zip(values, cube):
            row &= value if character == '1' else full ^ value if character == '0' else full
        found |= row
    return found if on == '1' else full ^ found


def read(text):
    """The netlist of a BLIF text as `improve` writes it."""
    inputs, outputs, latches, tables = [], [], [], []
    for line in text.splitlines():
        words = line.split()
        if words[0] == '.inputs':
            inputs += words[1:]
        elif words[0] == '.outputs':
            outputs += words[1:]
        elif words[0] == '.latch':
            latches.append((words[1], words[2]))
        elif words[0] == '.names':
            tables.append((words[1:-1], words[-1], []))
        elif not words[0].startswith('.'):
            tables[-1][2].append(line)
    return Netlist(inputs, outputs, latches, tables)


def cover_of(source, width):
    """A random cover, of cubes of one value, that depends on each of its inputs (ABC refuses covers that don't)."""
    full = (1 << (1 << width)) - 1
    runs = [1 << width - 1 - k for k in range(width)]
    values = [full // ((1 << 2 * run) - 1) * ((1 << run) - 1) << run for run in runs]
    while True:
        on = source.choice('01')
        count = source.randint(1, max(1, 1 << width - 1))
        cover = [''.join(source.choice('0011-') for _ in range(width)) + ' ' + on for _ in range(count)]
        value = covered(values, cover, full)
        if all((value ^ value >> run) & (full ^ one) for run, one in zip(runs, values)):
            return cover


def made(source):
    """A random netlist without cycles; tables stand in any order."""
    inputs = [f'i{k}' for k in range(source.randint(3, 12))]
    states = [f'q{k}' for k in range(source.choice([0, 0, 1, 3]))]
    signals, tables = [*inputs, *states], []
    for k in range(source.randint(4, 40)):
        near = signals[-12:] if source.random() < 0.3 else signals
        fanins = source.sample(near, min(source.randint(1, 4), len(near)))
        tables.append((fanins, f't{k}', cover_of(source, len(fanins))))
        signals.append(f't{k}')
    latches = [(source.choice(signals), name) for name in states]
    read = {name for fanins, _, _ in tables for name in fanins} | {state for state, _ in latches}
    outputs = [name for name in signals if name not in read]
    source.shuffle(tables)
    return Netlist(inputs, outputs, latches, tables)


def changed(source, netlist):
    """The netlist with one bit of one cube exchanged."""
    at = source.randrange(len(netlist.tables))
    inputs, output, cover = netlist.tables[at]
    line = source.randrange(len(cover))
    place = source.randrange(len(inputs))
    one = cover[line]
    turned = one[:place] + source.choice([c for c in '01-' if c != one[place]]) + one[place + 1:]
    tables = list(netlist.tables)
    tables[at] = (inputs, output, [*cover[:line], turned, *cover[line + 1:]])
    return Netlist(netlist.inputs, netlist.outputs, netlist.latches, tables)


def run(words, text=''):
    done = subprocess.run(words, input=text, capture_output=True, text=True, timeout=SECONDS)
    return done.returncode, done.stdout, done.stderr


def is_equal_by_abc(first, second):
    """Whether `cec` finds two texts equal; it takes latches as cut points, as `equiv` does."""
    with tempfile.TemporaryDirectory() as folder:
        for name, text in (('first', first), ('second', second)):
            with open(f'{folder}/{name}.blif', 'w') as file:
                file.write(text)
        said = run([ABC, '-q', f'cec {folder}/first.blif {folder}/second.blif'])
        return 'Networks are equivalent' in said[1]


def answer_is(program, first, second):
    """What is wrong with the answer of `equiv` to two netlists, by their values; or an empty text."""
    status, out, _ = run([program, 'equiv'], first.text() + second.text())
    one, other = first.values(), second.values()
    if one == other:
        return '' if status == 0 and out.startswith('equal\n') else f'equiv: status {status} of equal netlists'
    told = re.fullmatch(r'differ (output|latch) (\S+)\nat ([01]+)\n', out)
    if status != 8 or told is None:
        return f'equiv: status {status} of different netlists'
    row = int(told[3], 2)
    sinks = [*(('output', name) for name in first.outputs), *(('latch', name) for _, name in first.latches)]
    differ = [sink for sink, a, b in zip(sinks, one, other) if (a ^ b) >> row & 1]
    return '' if differ and differ[0] == (told[1], told[2]) else f'equiv: no difference there: {out!r}'


def fault_of(program, seed):
    """What is wrong with the netlist of a seed, or an empty text."""
    source = random.Random(seed)
    netlist = made(source)
    options = source.choice(OPTIONS)
    status, out, report = run([program, 'improve', *options.split()], netlist.text())
    gates = re.match(r'gates (\d+) -> (\d+)\n', report)
    if status != 0 or gates is None or int(gates[2]) > int(gates[1]):
        return f'improve {options}: status {status}, {report[:60]!r}'
    improved = read(out)
    if improved.values() != netlist.values():
        return f'improve {options}: the netlist computes something else'
    wrong = answer_is(program, netlist, improved)
    if wrong:
        return f'improve {options}, {wrong}'
    # With --cap 0 constant gates stay; their tables have an input and no line, which ABC doesn't read.
    if ABC and options != '--cap 0' and not is_equal_by_abc(netlist.text(), out):
        return f'improve {options}: ABC finds no equivalence'
    return answer_is(program, netlist, changed(source, netlist))


def judged(program, seed):
    try:
        return fault_of(program, seed)
    except (OSError, ValueError, KeyError, IndexError, subprocess.SubprocessError) as error:
        return f'{type(error).__name__}: {error}'


def main():
    words = sys.argv[1:]
    names = words[1::2]
    if not words or len(words) % 2 == 0 or set(names) - {'--count', '--seed'} or words[0] == '--help':
        print(__doc__)
        return 0 if words == ['--help'] else 1
    program = os.path.abspath(words[0])
    numbers = {'--count': 200, '--seed': 1, **dict(zip(names, map(int, words[2::2])))}
    seeds = range(numbers['--seed'], numbers['--seed'] + numbers['--count'])
    with concurrent.futures.ThreadPoolExecutor(os.cpu_count()) as pool:
        faults = list(pool.map(lambda seed: judged(program, seed), seeds))
    for seed, fault in zip(seeds, faults):
        if fault:
            print(f'seed {seed}: {fault}')
    print(f'{len(faults)} netlists, {faults.count("")} equal')
    return 1 if any(faults) else 0


sys.exit(main())
