#!/usr/bin/env python3
"""netlists.py PROGRAM [--windows [GATES..] | --chains [GATES..]]: makes large netlists, improves each, and prints a table.

Without windows (`--cap 0`): the gates before and after, the bytes, the user time, megabytes of text per second, and the
peak of memory. The netlists are a ladder of 100,000 gates, each of which reads the previous one, the same with its tables
in reverse order, and a wide random netlist of which about half is dangling.

With windows, at the default cap: random logic of 5,000 gates, and adders, multipliers and multiplexers side by side of
10,000 and of 100,000 gates. Besides report, time and memory the table says how the windows of the result are decided in
the last round, counted by the independent program `count_windows.py`.

With chains: AND of all inputs as a chain of 1,000, 2,000, 4,000 and 8,000 gates, of which none can be saved. The time is
that of searches without success, and the time per gate shows how it grows."""
import random
import subprocess
import sys

import count_windows

from usage import usage

GATES = 100_000


def table(first, second, output, rows):
    """A table of two inputs."""
    return f'.names {first} {second} {output}\n' + ''.join(f'{row} 1\n' for row in rows)


def ladder(order):
    """Gates in a row: XOR and AND by turns."""
    tables = [table(f'n{i}', f'x{i % 16}', f'n{i + 1}', ('01', '10') if i % 2 else ('11',)) for i in range(GATES)]
    inputs = 'n0 ' + ' '.join(f'x{i}' for i in range(16))
    return f'.model ladder\n.inputs {inputs}\n.outputs n{GATES}\n' + ''.join(order(tables)) + '.end\n'


def wide(seed):
    """Gates on random earlier signals, and outputs on some of them."""
    source = random.Random(seed)
    inputs = [f'x{i}' for i in range(1000)]
    names, tables = list(inputs), []
    for number in range(GATES):
        first, second = source.sample(names, 2)
        rows = source.choice([('01', '10'), ('11',), ('00', '01', '10'), ('1-', '-1')])
        tables.append(table(first, second, f'n{number}', rows))
        names.append(f'n{number}')
    outputs = source.sample(names[1000:], 5000)
    lists = f'.inputs {" ".join(inputs)}\n.outputs {" ".join(outputs)}\n'
    return '.model wide\n' + lists + ''.join(tables) + '.end\n'


def near(gates, seed):
    """Gates on two of the 200 signals before, and outputs on the last 100."""
    source = random.Random(seed)
    inputs = [f'x{i}' for i in range(100)]
    names, tables = list(inputs), []
    for number in range(gates):
        first, second = source.sample(names[-200:], 2)
        rows = source.choice([('01', '10'), ('11',), ('00', '01', '10'), ('1-', '-1')])
        tables.append(table(first, second, f'n{number}', rows))
        names.append(f'n{number}')
    return f'.model near\n.inputs {" ".join(inputs)}\n.outputs {" ".join(names[-100:])}\n' + ''.join(tables) + '.end\n'


ROWS = {'and': ('11',), 'or': ('1-', '-1'), 'xor': ('01', '10'), 'less': ('10',)}


class Logic:
    """Adders, multipliers and multiplexers, each on two of the words that there are, up to so many gates."""

    def __init__(self, gates, seed=1):
        source = random.Random(seed)
        self.tables = []
        words = [[f'x{k}_{i}' for i in range(8)] for k in range(16)]
        selects = [f's{i}' for i in range(8)]
        self.inputs = [name for word in words for name in word] + selects
        self.outputs = []
        while len(self.tables) + 400 <= gates:
            first, second = source.sample(words, 2)
            part = source.choice((self.add, self.multiply, self.choose))
            got = part(first, second, source.choice(selects))
            self.outputs += got
            if source.randrange(4) == 0:
                words.append(got[:8])

    def gate(self, kind, first, second):
        name = f'n{len(self.tables) + 1}'
        self.tables.append(table(first, second, name, ROWS[kind]))
        return name

    def half(self, a, b):
        return self.gate('xor', a, b), self.gate('and', a, b)

    def full(self, a, b, c):
        x = self.gate('xor', a, b)
        total = self.gate('xor', x, c)
        both = self.gate('and', a, b)
        return total, self.gate('or', both, self.gate('and', x, c))

    def add(self, first, second, _):
        total, carry = self.half(first[0], second[0])
        sums = [total]
        for a, b in zip(first[1:], second[1:]):
            total, carry = self.full(a, b, carry)
            sums.append(total)
        return sums + [carry]

    def multiply(self, first, second, _):
        row = [self.gate('and', a, second[0]) for a in first]
        product, row = [row[0]], row[1:]
        for b in second[1:]:
            part, carry, sums = [self.gate('and', a, b) for a in first], None, []
            for at, bit in enumerate(part):
                parts = [x for x in (bit, row[at] if at < len(row) else None, carry) if x is not None]
                carry = None
                if len(parts) == 3:
                    bit, carry = self.full(*parts)
                elif len(parts) == 2:
                    bit, carry = self.half(*parts)
                sums.append(bit)
            product.append(sums[0])
            row = sums[1:] + ([carry] if carry else [])
        return product + row

    def choose(self, first, second, select):
        return [self.gate('or', self.gate('less', a, select), self.gate('and', select, b)) for a, b in zip(first, second)]

    def text(self):
        lists = f'.inputs {" ".join(self.inputs)}\n.outputs {" ".join(self.outputs)}\n'
        return '.model logic\n' + lists + ''.join(self.tables) + '.end\n'


def chain(gates):
    """AND of all inputs, one after the other."""
    tables = [table(f'n{i}', f'x{i}', f'n{i + 1}', ('11',)) for i in range(gates)]
    inputs = 'n0 ' + ' '.join(f'x{i}' for i in range(gates))
    return f'.model chain\n.inputs {inputs}\n.outputs n{gates}\n' + ''.join(tables) + '.end\n'


def run(program, text, *options):
    """The lines of the report, what is written, the user seconds, and the peak of memory in megabytes."""
    words = ['/usr/bin/env', 'python3', '-c', WATCH, program, *options]
    done = subprocess.run(words, input=text.encode(), stdout=subprocess.PIPE, stderr=subprocess.PIPE, check=False)
    lines = done.stderr.decode().splitlines()
    return lines[:-2], done.stdout.decode(), float(lines[-2]), int(lines[-1]) // 1024


WATCH = """
import resource, subprocess, sys
subprocess.run([sys.argv[1], 'improve', *sys.argv[2:]], stdin=sys.stdin)
used = resource.getrusage(resource.RUSAGE_CHILDREN)
print(used.ru_utime, used.ru_maxrss, sep='\\n', file=sys.stderr)
"""


def with_windows(program, gates):
    """A row for each netlist that is improved by its windows."""
    print('| Netlist | Report | Undecided | Time | Peak memory | Visits | Windows | by counting | by steps | by memory | by search |')
    print('|---|---|---|---|---|---|---|---|---|---|---|')
    netlists = [('random, 5,000 gates', lambda: near(5000, 1))] if not gates else []
    netlists += [(f'logic, {count:,} gates', lambda count=count: Logic(count).text()) for count in gates or (10_000, 100_000)]
    for name, make in netlists:
        report, out, seconds, peak = run(program, make())
        undecided = sum(1 for line in report if line.startswith('undecided '))
        counter = count_windows.Counter(*count_windows.read(out))
        counter.round(5)
        answers = ' | '.join(f'{x:,}' for x in (counter.visits, counter.windows, counter.counted, counter.stepped, counter.again, counter.searched))
        print(f'| {name} | {report[0]}, {report[-1]} | {undecided} | {seconds:.1f} s | {peak} MB | {answers} |', flush=True)


def without_windows(program):
    """A row for each netlist that loses dead gates alone."""
    print('| Netlist | Report | Bytes | Time | MB/s | Peak memory |')
    print('|---|---|---|---|---|---|')
    for name, text in (('ladder', ladder(iter)), ('ladder, reversed', ladder(reversed)), ('wide', wide(1))):
        report, _, seconds, peak = run(program, text, '--cap', '0')
        print(f'| {name} | {report[0]} | {len(text):,} | {seconds:.2f} s | {len(text) / seconds / 1e6:.1f} | {peak} MB |', flush=True)


def with_chains(program, gates):
    """A row for each chain of AND gates."""
    print('| Gates | Report | Time | for each gate | Peak memory |')
    print('|---|---|---|---|---|')
    for count in gates or (1000, 2000, 4000, 8000):
        report, _, seconds, peak = run(program, chain(count))
        print(f'| {count:,} | {report[0]}, {report[-1]} | {seconds:.1f} s | {seconds / count * 1e3:.2f} ms | {peak} MB |', flush=True)


def main():
    program, options = sys.argv[1], sys.argv[2:]
    if options[:1] == ['--windows']:
        with_windows(program, [int(word) for word in options[1:]])
    elif options[:1] == ['--chains']:
        with_chains(program, [int(word) for word in options[1:]])
    else:
        without_windows(program)


if __name__ == '__main__':
    usage(__doc__, 1)
    main()
