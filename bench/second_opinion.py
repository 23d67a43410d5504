#!/usr/bin/env python3
"""second_opinion.py PROGRAM [--count N] [--seed S] [--jobs J] [--cc COMPILER]

Random questions of which everything that the program claims is judged by others: N cases (2,000) with the seeds S,
S + 1 and so on (1). The formulas are those of dimacs.py and miter.py, which share nothing with the program; logs are
judged by lrat.c, and formulas by cadical and minisat, as far as they are installed.

Three cases of four are truth tables of 1 to 3 inputs and 1 to 3 outputs, with and without don't-cares, by all methods,
over bases of every kind (closed under exchange or not, with constants, projections, negations). Of each certificate of
`synth` it is asked that

- `recheck` accepts it with its own verdict;
- each log that refutes is a refutation of the formula of its size and fence, as dimacs.py writes it, and begins at the
  number after the last clause;
- solvers find no model of a formula that is refuted, and a model of that of the chain's size;
- `formula`, where the program has it, writes each formula and log byte for byte as dimacs.py does.

The others are pairs of netlists with repeated, constant and unused inputs and latches: one with its tables in another
order, what `improve` makes of it, or with a cover line changed. `equal` is judged as above over the miter of miter.py;
of `differ` solvers have to find a model. `equiv --formula --log`, where the program has it, writes the miter byte for byte
as miter.py does, and the log of its answer.

It prints a line for each seed with a fault, and `N cases, N fine`. Status 0; 1 where there was a fault, or for other
arguments; 2 without a C compiler."""
import argparse
import concurrent.futures
import functools
import os
import random
import shutil
import subprocess
import sys
import tempfile

import dimacs
import miter
from usage import usage

HERE = os.path.dirname(os.path.realpath(__file__))
METHODS = ('plain', 'ssv', 'select', 'fence', 'strong', 'strong-fence')
BASES = ('all', 'u2', 'bench', 'nand')
SECONDS = 100
USAGE = 1


class Fault(Exception):
    """What the program claims doesn't hold."""


def run(words, text=''):
    done = subprocess.run(words, input=text, capture_output=True, text=True, timeout=SECONDS, check=False)
    return done.returncode, done.stdout, done.stderr


# ---- random questions


def random_basis(source):
    """A named basis, or some operators, with those of exchanged operands or without."""
    if source.random() < 0.4:
        return source.choice(BASES)
    chosen = set(source.sample(range(16), source.randint(1, 6)))
    if source.random() < 0.5:
        chosen |= {dimacs.of_values(lambda a, b, op=op: dimacs.value(op, b, a)) for op in chosen}
    return ','.join(f'{op:04b}' for op in sorted(chosen))


def random_tables(source):
    """The number of inputs, and a table for each output; some have a pair of inputs that may be exchanged."""
    inputs = source.choice((1, 2, 2, 3, 3, 3))
    free = source.choice((0, 0, 0.1, 0.4))
    rows = []
    for _ in range(source.choice((1, 1, 1, 2, 3))):
        marks = [source.choice('01') for _ in range(2**inputs)]
        if source.random() < 0.4:
            marks = [marks[bin(t).count('1')] for t in range(2**inputs)]
        rows.append(''.join('-' if source.random() < free else mark for mark in marks))
    return inputs, rows


def random_table(source, signals, name):
    """A table of BLIF: inputs may repeat, and covers may be constant or ignore inputs."""
    fanins = [source.choice(signals) for _ in range(source.choice((0, 1, 2, 2, 2, 3, 3, 4)) if signals else 0)]
    on = source.choice('01')
    cover = [''.join(source.choice('0011-') for _ in fanins) for _ in range(source.randint(0, 3))]
    lines = [f'{cube} {on}'.strip() for cube in (cover if fanins else cover[:1])]
    return [' '.join(['.names', *fanins, name]), *lines]


def random_netlist(source):
    """The lines before the tables, and the tables, of a netlist without cycles."""
    inputs = [f'i{k}' for k in range(source.randint(0, 5))]
    states = [f'q{k}' for k in range(source.choice((0, 0, 0, 1, 2)))]
    signals, tables = [*inputs, *states], []
    for k in range(source.randint(1, 12)):
        tables.append(random_table(source, signals, f't{k}'))
        signals.append(f't{k}')
    outputs = [source.choice(signals) for _ in range(source.randint(1, 4))]
    head = ['.model random', ' '.join(['.inputs', *inputs]), ' '.join(['.outputs', *outputs])]
    return [*head, *(f'.latch {source.choice(signals)} {state} 0' for state in states)], tables


def text_of(head, tables):
    return '\n'.join([*head, *(line for table in tables for line in table), '.end', ''])


def changed(source, tables):
    """The tables with the value of one turned where it has a cover, else as they are."""
    at = source.randrange(len(tables))
    head, *cover = tables[at]
    turned = [line[:-1] + '10'[int(line[-1])] for line in cover]
    return [*tables[:at], [head, *turned], *tables[at + 1 :]]


# ---- judges


class Judge:
    """The program, the checker, and the solvers that are there."""

    def __init__(self, program, checker, solvers):
        self.program, self.checker, self.solvers = program, checker, solvers
        self.writes = run([program, 'formula'])[0] != USAGE
        self.pairs = run([program, 'equiv', '--formula', 'nowhere/f', 'nowhere', 'nowhere'])[0] != USAGE

    def same(self, path, size, part, formula, lines, folder):
        """Asks that the program writes a part of a certificate as dimacs.py does."""
        if not self.writes:
            return
        log = os.path.join(folder, 'written')
        words = ['formula', '--size', f'{size}', '--part', f'{part}', '--log', log, path]
        status, text, notes = run([self.program, *words])
        if status != 0:
            raise Fault(f'formula: status {status}, {notes.strip()}')
        with open(log, encoding='ascii') as file:
            written = file.read()
        if text != formula:
            raise Fault('the formula of `formula` differs from that of dimacs.py')
        if written != ''.join(f'{line}\n' for line in lines):
            raise Fault('the log of `formula` differs from that of dimacs.py')

    def same_miter(self, first, second, formula, answer, lines, folder):
        """Asks that the program writes the miter of two netlists, and the log if there is one, as miter.py does."""
        if not self.pairs:
            return
        paths = [os.path.join(folder, name) for name in ('first', 'second', 'miter', 'written')]
        for path, text in zip(paths, (first, second)):
            with open(path, 'w', encoding='ascii') as file:
                file.write(text)
        one, other, miters, log = paths
        _, text, notes = run([self.program, 'equiv', '--formula', miters, '--log', log, one, other])
        if text != answer:
            raise Fault(f'`equiv` answers otherwise with --formula: {notes.strip()}')
        with open(miters, encoding='ascii') as file:
            if file.read() != formula:
                raise Fault('the formula of `equiv` differs from that of miter.py')
        if os.path.exists(log) != (lines is not None):
            raise Fault('a log without a refutation, or none of one')
        if lines is not None:
            with open(log, encoding='ascii') as file:
                if file.read() != ''.join(f'{line}\n' for line in lines):
                    raise Fault('the log of `equiv` differs from that of its answer')

    def refutes(self, formula, lines, folder):
        """Asks that a log refutes a formula, and begins behind its last clause."""
        count = int(formula.split(None, 4)[3])
        first = next((line.split()[0] for line in lines if line.split()[1] != 'd'), None)
        if first is not None and int(first) != count + 1:
            raise Fault(f'the log begins at {first}, and the formula has {count} clauses')
        paths = [os.path.join(folder, name) for name in ('formula', 'log')]
        for path, text in zip(paths, (formula, ''.join(f'{line}\n' for line in lines))):
            with open(path, 'w', encoding='ascii') as file:
                file.write(text)
        status, out, notes = run([self.checker, *paths])
        if status != 0 or out != 's VERIFIED UNSAT\n':
            raise Fault(f'the log is no refutation: {notes.strip()}')
        self.decides(paths[0], False)

    def decides(self, path, satisfiable):
        """Asks each solver whether a formula has a model."""
        for solver in self.solvers:
            status, _, _ = run([solver, path])
            if status != (10 if satisfiable else 20):
                raise Fault(f'{os.path.basename(solver)} ends with {status}')

    def has_model(self, formula, folder):
        path = os.path.join(folder, 'formula')
        with open(path, 'w', encoding='ascii') as file:
            file.write(formula)
        self.decides(path, True)


def synthesis(judge, source, folder):
    """A case of truth tables."""
    inputs, rows = random_tables(source)
    basis, method = random_basis(source), source.choice(METHODS)
    greatest = source.choice((1, 2, 3)) if inputs == 3 else 3
    words = f'synth --method {method} --basis {basis} --max {greatest} --conflicts {source.choice((3, 1000, 1000))}'
    status, text, notes = run([judge.program, *words.split()], '\n'.join([f'inputs {inputs}', *rows, '']))
    if status not in (0, 4):
        raise Fault(f'{words}: status {status}, {notes.strip()}')
    lines = text.splitlines()
    said = run([judge.program, 'recheck'], text)
    if said[:2] != (status, f'{lines[-2]}\n') and said[:2] != (0, f'{lines[-2]}\n'):
        raise Fault(f'{words}: recheck says {said}')
    certificate = dimacs.Certificate(lines)
    path = os.path.join(folder, 'certificate')
    with open(path, 'w', encoding='ascii') as file:
        file.write(text)
    sizes = set()
    for part in certificate.parts:
        sizes.add(part.size)
        formula = dimacs.formula_of(certificate.tables, certificate.basis, method, part.size, part.fence)
        plain, log = dimacs.dimacs(formula), part.log or dimacs.empty(formula)
        number = certificate.parts_of(part.size).index(part) + 1
        try:
            judge.same(path, part.size, number, plain, log, folder)
            if part.ended == 'refuted':
                judge.refutes(plain, log, folder)
        except Fault as fault:
            raise Fault(f'{words}, {rows}, size {part.size}, fence {part.fence}: {fault}') from fault
    if lines[-2].startswith('minimum') and 'fence' not in method:
        formula = dimacs.formula_of(certificate.tables, certificate.basis, method, len(sizes), None)
        judge.has_model(dimacs.dimacs(formula), folder)


def equivalence(judge, source, folder):
    """A case of two netlists."""
    head, tables = random_netlist(source)
    first = text_of(head, tables)
    kind = source.choice(('order', 'improve', 'change'))
    if kind == 'improve':
        status, second, notes = run([judge.program, 'improve', '--cap', '2'], first)
        if status != 0:
            raise Fault(f'improve: status {status}, {notes.strip()}')
    else:
        second = text_of(head, source.sample(tables, len(tables)) if kind == 'order' else changed(source, tables))
    status, answer, notes = run([judge.program, 'equiv'], first + second)
    verdict = answer.split('\n')[0].split(' ')[0]
    if (status, verdict) not in ((0, 'equal'), (8, 'differ')) or (kind != 'change' and status):
        raise Fault(f'equiv ({kind}): status {status}, {notes.strip()}')
    formula = miter.dimacs(miter.Netlist(first), miter.Netlist(second))
    if verdict == 'differ':
        judge.same_miter(first, second, formula, answer, None, folder)
        judge.has_model(formula, folder)
        return
    lines = answer.split('\n')[1:-2] or miter.empty(formula)
    judge.same_miter(first, second, formula, answer, lines, folder)
    judge.refutes(formula, lines, folder)


def fault_of(judge, seed):
    """What is wrong with a case, or an empty text."""
    source = random.Random(seed)
    with tempfile.TemporaryDirectory() as folder:
        try:
            (equivalence if seed % 4 == 0 else synthesis)(judge, source, folder)
        except (Fault, OSError, ValueError, KeyError, IndexError, subprocess.SubprocessError) as fault:
            return f'{type(fault).__name__}: {fault}' if not isinstance(fault, Fault) else str(fault)
    return ''


def main():
    parser = argparse.ArgumentParser(usage=__doc__, add_help=False)
    parser.add_argument('program')
    parser.add_argument('--count', type=int, default=2000)
    parser.add_argument('--seed', type=int, default=1)
    parser.add_argument('--jobs', type=int, default=os.cpu_count())
    parser.add_argument('--cc', default=shutil.which('cc') or shutil.which('clang'))
    parser.error = lambda message: sys.exit(f'second_opinion.py: {message}; --help says more')
    given = parser.parse_args()
    if not given.cc:
        print('second_opinion.py: no C compiler here', file=sys.stderr)
        return 2
    solvers = [path for path in map(shutil.which, ('cadical', 'minisat')) if path]
    seeds = range(given.seed, given.seed + given.count)
    with tempfile.TemporaryDirectory() as folder:
        checker = os.path.join(folder, 'lrat')
        subprocess.run([given.cc, '-O2', '-o', checker, os.path.join(HERE, 'lrat.c')], check=True)
        ask = functools.partial(fault_of, Judge(os.path.abspath(given.program), checker, solvers))
        with concurrent.futures.ProcessPoolExecutor(given.jobs) as pool:
            faults = list(pool.map(ask, seeds, chunksize=10))
    for seed, fault in zip(seeds, faults):
        if fault:
            print(f'seed {seed}: {fault}')
    beside = f', also by {" and ".join(map(os.path.basename, solvers))}' if solvers else ''
    print(f'{len(faults)} cases, {faults.count("")} fine{beside}')
    return 1 if any(faults) else 0


if __name__ == '__main__':
    usage(__doc__, 1)
    sys.exit(main())
