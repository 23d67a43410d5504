#!/usr/bin/env python3
"""dimacs.py CERTIFICATE --size R [--part P] [--cnf FILE] [--lrat FILE] [--list]

Writes the formula of one size of a certificate in DIMACS, and the log of that size as plain LRAT, for any solver
and any LRAT checker.

  CERTIFICATE   a file that `batsokemi synth` wrote, or - for the standard input
  --size R      the size, one that has a section in the certificate
  --part P      with the methods by fences the number of the subproblem, from 1 (1)
  --cnf FILE    file for the formula (standard output where neither file is given)
  --lrat FILE   file for the log; an `open` log refutes nothing, and is written with a warning
  --list        only lists the subproblems of the certificate, one per line

The formula is built from the tables, the basis, the method and the size as docs/FORMATS.md describes it, without
the proved program: a second opinion. So a checker that accepts both files, such as lrat.c, refutes this description of
the formula too, not only the program's. The script itself isn't proved.

    batsokemi synth < full-adder.tables > adder.chains
    bench/dimacs.py adder.chains --size 4 --cnf adder.cnf --lrat adder.lrat
    cc -O2 -o lrat bench/lrat.c && ./lrat adder.cnf adder.lrat

Status 0; 1 for a usage error; 2 where the certificate is malformed or has no such subproblem."""
import itertools
import signal
import sys

NAMES = {'all': range(16), 'u2': (1, 2, 4, 7, 8, 11, 13, 14), 'bench': (1, 6, 7, 8, 9, 14), 'nand': (14,)}
FIRST, SECOND, CONSTANT, NEGATIONS = 3, 5, (0, 15), (10, 12)
BITS = (0, 1)


class Fault(Exception):
    """The certificate isn't of its form, or has no such part."""


def why(fault):
    """What a fault says; one of a file the file's name, and what is wrong with it."""
    return f'{fault.filename}: {fault.strerror}' if isinstance(fault, OSError) else fault


# ---- operators and bases


def value(operator, a, b):
    return operator >> (3 - (2 * a + b)) & 1


def of_values(function):
    """The operator of a function of two bits."""
    return sum(function(a, b) << (3 - (2 * a + b)) for a in BITS for b in BITS)


class Basis:
    """A set of operators, with the five properties on which cuts rest."""

    def __init__(self, word):
        self.members = sorted(NAMES[word] if word in NAMES else {int(item, 2) for item in word.split(',')})
        has = set(self.members)
        self.swap = all(of_values(lambda a, b: value(op, b, a)) in has for op in has)
        self.negation = any((value(op, 0, 0), value(op, 1, 1)) == (1, 0) for op in has)
        fixed = [[(value(op, c, x), value(op, x, c)) for x in BITS] for op in has for c in BITS]
        negates = any((pair[0][side], pair[1][side]) == (1, 0) for pair in fixed for side in BITS)
        self.constants = self.negation or not negates
        self.polarity = all(
            {15 - op, of_values(lambda a, b: value(op, 1 - a, b)), of_values(lambda a, b: value(op, a, 1 - b))} <= has
            for op in has
        )
        self.reapplication = all(self.again(p, q) for p in has for q in has)

    def again(self, p, q):
        """Whether what the second of two operators makes of the first and one of its operands is no gain."""
        forms = (
            lambda a, b: value(q, value(p, a, b), a),
            lambda a, b: value(q, value(p, a, b), b),
            lambda a, b: value(q, a, value(p, a, b)),
            lambda a, b: value(q, b, value(p, a, b)),
        )
        return all(self.allows(of_values(form)) for form in forms)

    def allows(self, op):
        exchanged = of_values(lambda a, b: value(op, b, a))
        return (
            op in self.members
            or exchanged in self.members
            or op in (FIRST, SECOND)
            or (op in CONSTANT and self.constants)
            or (op in NEGATIONS and self.negation)
        )


# ---- tables


def bit_of(inputs, place, row):
    return row >> (inputs - place) & 1


def is_live(inputs, table):
    """Whether no constant and no input agrees with a table."""
    cells = [(row, int(cell)) for row, cell in enumerate(table) if cell != '-']
    constants = [all(cell == bit for _, cell in cells) for bit in BITS]
    copies = [all(cell == bit_of(inputs, p, row) for row, cell in cells) for p in range(1, inputs + 1)]
    return not any(constants + copies)


def listed_fences(steps, outputs):
    """The fences of so many steps in lexicographic order: on no level more steps than above it and outputs."""

    def every(rest):
        if rest == 0:
            yield ()
        for first in range(1, rest + 1):
            for more in every(rest - first):
                yield (first, *more)

    return [f for f in every(steps) if all(f[k] <= sum(f[k + 1 :]) + outputs for k in range(len(f)))]


# ---- formulas


def key(pair):
    return max(pair), pair[0] != pair[1], min(pair)


class Formula:
    """What all methods share: variables by their names, in the order in which they are named, and clauses."""

    def __init__(self, tables, basis, size):
        self.inputs = len(tables[0]).bit_length() - 1
        self.basis = basis
        self.tables = [table for table in tables if is_live(self.inputs, table)]
        self.rows = range(2**self.inputs)
        self.steps = range(self.inputs + 1, self.inputs + size + 1)
        self.numbers = {}
        self.clauses = []
        self.name('x', itertools.product(self.steps, self.rows))
        self.name('g', itertools.product(range(len(self.tables)), self.steps))
        self.name('f', itertools.product(self.steps, range(4)))

    def name(self, kind, items):
        for item in items:
            self.numbers[(kind, *item)] = len(self.numbers) + 1

    def lit(self, bit, *name):
        return self.numbers[name] if bit else -self.numbers[name]

    def at(self, place, row, bit):
        """The literal that a place has a value on a row; for an input, whether it has."""
        if place > self.inputs:
            return self.lit(bit, 'x', place, row)
        return bit_of(self.inputs, place, row) == bit

    def add(self, *literals):
        """One clause: without false literals and repeats, and left out where it is true."""
        if not any(l is True for l in literals):
            kept = list(dict.fromkeys(l for l in literals if l is not False))
            if not any(-l in kept for l in kept):
                self.clauses.append(kept)

    def is_output(self, i):
        return [self.lit(1, 'g', h, i) for h in range(len(self.tables))]

    def isnt(self, i, operator):
        """The literals that the operator of a step isn't this one."""
        return [self.lit(not operator >> (3 - bc) & 1, 'f', i, bc) for bc in range(4)]

    def outputs(self):
        for h in range(len(self.tables)):
            self.add(*(self.lit(1, 'g', h, i) for i in self.steps))
        for (h, table), i, t in itertools.product(enumerate(self.tables), self.steps, self.rows):
            if table[t] != '-':
                self.add(self.lit(0, 'g', h, i), self.at(i, t, int(table[t])))

    def inside_the_basis(self):
        for i in self.steps:
            for operator in range(16):
                if operator not in self.basis.members:
                    self.add(*self.isnt(i, operator))

    def idle(self):
        """The operators that no step needs: copies, and constants where they are free."""
        found = (FIRST, SECOND, *CONSTANT) if self.basis.constants else (FIRST, SECOND)
        return sorted(op for op in found if op in self.basis.members)

    def equal_operands(self, i, chosen):
        """A step with equal operands negates."""
        if self.basis.constants:
            self.add(*chosen, self.lit(1, 'f', i, 0))
            self.add(*chosen, self.lit(0, 'f', i, 3))
        else:
            self.add(*chosen, self.lit(1, 'f', i, 0), self.lit(0, 'f', i, 3))

    def zero_on_row_0(self):
        if self.basis.polarity:
            for i in self.steps:
                self.add(self.at(i, 0, 0), *self.is_output(i))


class Pairs(Formula):
    """The methods that choose both operands of a step at once."""

    def __init__(self, tables, basis, size, cuts, fence=None, strong=False):
        super().__init__(tables, basis, size)
        self.levels = {place: 0 for place in range(1, self.inputs + 1)}
        if fence is not None:
            above = [level for level, count in enumerate(fence, 1) for _ in range(count)]
            self.levels.update(zip(self.steps, above))
        self.pairs = {i: list(self.pairs_of(i, cuts, fence)) for i in self.steps}
        self.name('s', ((i, pair) for i in self.steps for pair in self.pairs[i]))
        self.chain()
        if cuts:
            self.cut()
        if strong:
            self.strengthen()

    def pairs_of(self, i, cuts, fence):
        found = itertools.product(range(1, i), repeat=2)
        for pair in sorted(found, key=lambda p: (*key(p), p[0] > p[1])):
            if cuts and self.basis.swap and pair[0] > pair[1]:
                continue
            if fence is None or max(self.levels[p] for p in pair) == self.levels[i] - 1:
                yield pair

    def has(self, i, kept=lambda pair: True):
        return [self.lit(1, 's', i, p) for p in self.pairs[i] if kept(p)]

    def not_both(self, i, u, k, v):
        self.add(self.lit(0, 's', i, u), self.lit(0, 's', k, v))

    def chain(self):
        self.outputs()
        for i in self.steps:
            self.add(*self.has(i))
        for i in self.steps:
            for (j, k), t, a, b, c in itertools.product(self.pairs[i], self.rows, BITS, BITS, BITS):
                other = self.at(i, t, 1 - a), self.at(j, t, 1 - b), self.at(k, t, 1 - c)
                self.add(self.lit(0, 's', i, (j, k)), *other, self.lit(a, 'f', i, 2 * b + c))
        self.inside_the_basis()

    def cut(self):
        for i in self.steps:
            later = range(i + 1, self.steps.stop)
            self.add(*self.is_output(i), *(l for k in later for l in self.has(k, lambda p: i in p)))
        for i in self.steps:
            self.not_trivial(i)
        for i in self.steps[:-1]:
            for u, v in itertools.product(self.pairs[i], self.pairs[i + 1]):
                if key(v) < key(u):
                    self.not_both(i, u, i + 1, v)
        if self.basis.reapplication:
            self.not_again()
        self.by_symmetry()
        self.zero_on_row_0()

    def not_trivial(self, i):
        for operator in self.idle():
            self.add(*self.isnt(i, operator))
        for p in self.pairs[i]:
            if p[0] == p[1]:
                self.equal_operands(i, [self.lit(0, 's', i, p)])
        for operator in NEGATIONS:
            if operator in self.basis.members:
                self.add(*self.isnt(i, operator), *self.has(i, lambda p: p[0] == p[1]))

    def not_again(self):
        for i, k in itertools.combinations(self.steps, 2):
            for u, v in itertools.product(self.pairs[i], self.pairs[k]):
                if (v[0] == i and v[1] in u) or (v[1] == i and v[0] in u):
                    self.not_both(i, u, k, v)

    def may_exchange(self, p, q):
        def exchanged(row):
            same = bit_of(self.inputs, p, row) == bit_of(self.inputs, q, row)
            return row if same else row ^ 1 << (self.inputs - p) ^ 1 << (self.inputs - q)

        return all(table[row] == table[exchanged(row)] for table in self.tables for row in self.rows)

    def by_symmetry(self):
        for p, q in itertools.combinations(range(1, self.inputs + 1), 2):
            if self.may_exchange(p, q):
                self.exchange(p, q)

    def exchange(self, p, q):
        """No step reads q without p before some step has read p without q."""
        for i in self.steps:
            for u in self.pairs[i]:
                if q in u and p not in u:
                    earlier = range(self.steps.start, i)
                    with_p = [l for k in earlier for l in self.has(k, lambda v: p in v and q not in v)]
                    self.add(self.lit(0, 's', i, u), *with_p)

    def edges(self):
        """The pairs of rows that differ in one input, where an output has to differ: that input and both rows."""
        for j, low in itertools.product(range(1, self.inputs + 1), self.rows):
            high = low + (1 << (self.inputs - j))
            if not bit_of(self.inputs, j, low):
                if any({table[low], table[high]} == {'0', '1'} for table in self.tables):
                    yield j, low, high

    def strengthen(self):
        for i in self.steps:
            for u, v in itertools.product(self.pairs[i], repeat=2):
                if u < v:
                    self.not_both(i, u, i, v)
        edges = list(self.edges())
        self.name('d', itertools.product(edges, self.steps))
        for edge, i in itertools.product(edges, self.steps):
            self.on_edge(edge, i)

    def on_edge(self, edge, i):
        """Which steps differ on an edge; one has an operand that does; the only reader of the input does."""
        j, low, high = edge
        differs = lambda place: place == j if place <= self.inputs else self.lit(1, 'd', edge, place)
        for a, b in itertools.product(BITS, BITS):
            self.add(self.at(i, low, 1 - a), self.at(i, high, 1 - b), self.lit(a != b, 'd', edge, i))
        for p in self.pairs[i]:
            self.add(self.lit(0, 'd', edge, i), self.lit(0, 's', i, p), differs(p[0]), differs(p[1]))
        others = [l for k in self.steps if k != i for l in self.has(k, lambda q: j in q)]
        for p in self.pairs[i]:
            if j in p:
                self.add(self.lit(0, 's', i, p), self.lit(1, 'd', edge, i), *others)


class Strong(Pairs):
    """The strong methods, with the exchange cut for inputs that may be exchanged once others are complemented."""

    def __init__(self, tables, basis, size, fence=None):
        super().__init__(tables, basis, size, True, fence, True)

    def strengthen(self):
        if self.basis.polarity:
            self.by_complements()
        super().strengthen()

    def may_exchange_complemented(self, p, q):
        """Whether the exchange, with some inputs complemented, and all outputs or none, keeps each table."""
        flipped = {'0': '1', '1': '0', '-': '-'}

        def exchanged(row, k):
            bits = [bit_of(self.inputs, place, row) for place in range(self.inputs + 1)]
            bits[p], bits[q] = bits[q], bits[p]
            return int(''.join(map(str, bits[1:])), 2) ^ k

        cells = [(table, t) for table in self.tables for t in self.rows]
        return any(
            all((flipped[table[t]] if b else table[t]) == table[exchanged(t, k)] for table, t in cells)
            for k in self.rows
            for b in BITS
        )

    def by_complements(self):
        for p, q in itertools.combinations(range(1, self.inputs + 1), 2):
            if not self.may_exchange(p, q) and self.may_exchange_complemented(p, q):
                self.exchange(p, q)


class Select(Formula):
    """The method that chooses each operand of a step by itself."""

    def __init__(self, tables, basis, size):
        super().__init__(tables, basis, size)
        places = [(i, j) for i in self.steps for j in range(1, i)]
        self.name('a', places)
        self.name('b', places)
        self.name('y', itertools.product(self.steps, self.rows))
        self.name('z', itertools.product(self.steps, self.rows))
        self.chain()
        self.cut()

    def chain(self):
        self.outputs()
        for i in self.steps:
            for side in 'ab':
                self.add(*(self.lit(1, side, i, j) for j in range(1, i)))
        for side, operand in (('a', 'y'), ('b', 'z')):
            for i in self.steps:
                for j, t, bit in itertools.product(range(1, i), self.rows, BITS):
                    same = self.lit(bit, operand, i, t), self.at(j, t, 1 - bit)
                    self.add(self.lit(0, side, i, j), *same)
        for i in self.steps:
            for t, a, b, c in itertools.product(self.rows, BITS, BITS, BITS):
                other = self.at(i, t, 1 - a), self.lit(1 - b, 'y', i, t), self.lit(1 - c, 'z', i, t)
                self.add(*other, self.lit(a, 'f', i, 2 * b + c))
        self.inside_the_basis()

    def cut(self):
        if self.basis.swap:
            for i in self.steps:
                for j in range(1, i):
                    for k in range(1, j):
                        self.add(self.lit(0, 'a', i, j), self.lit(0, 'b', i, k))
        for i in self.steps:
            later = range(i + 1, self.steps.stop)
            self.add(*self.is_output(i), *(self.lit(1, side, k, i) for k in later for side in 'ab'))
        for i in self.steps:
            self.not_trivial(i)
        if self.basis.swap:
            for i in self.steps[:-1]:
                for j in range(1, i):
                    for k in range(1, j):
                        self.add(self.lit(0, 'b', i, j), self.lit(0, 'b', i + 1, k))
        if self.basis.reapplication:
            self.not_again()
        self.zero_on_row_0()

    def not_trivial(self, i):
        for operator in self.idle():
            self.add(*self.isnt(i, operator))
        for j in range(1, i):
            self.equal_operands(i, [self.lit(0, 'a', i, j), self.lit(0, 'b', i, j)])
        for operator in NEGATIONS:
            if operator in self.basis.members:
                for j, k in itertools.permutations(range(1, i), 2):
                    self.add(*self.isnt(i, operator), self.lit(0, 'a', i, j), self.lit(0, 'b', i, k))

    def not_again(self):
        for i, k in itertools.combinations(self.steps, 2):
            for u in itertools.product(range(1, i), repeat=2):
                if self.basis.swap and u[0] > u[1]:
                    continue
                for operand in sorted(set(u)):
                    chosen = self.lit(0, 'a', i, u[0]), self.lit(0, 'b', i, u[1])
                    self.add(*chosen, self.lit(0, 'a', k, operand), self.lit(0, 'b', k, i))
                    if not self.basis.swap:
                        self.add(*chosen, self.lit(0, 'a', k, i), self.lit(0, 'b', k, operand))


def formula_of(tables, basis, method, size, fence):
    if method == 'select':
        return Select(tables, basis, size)
    if method.startswith('strong'):
        return Strong(tables, basis, size, fence)
    return Pairs(tables, basis, size, method != 'plain', fence)


# ---- certificates


class Part:
    """A part of a size: its fence, how its log ends, and its lines."""

    def __init__(self, size, fence, ended):
        self.size, self.fence, self.ended, self.log = size, fence, ended, []


class Certificate:
    def __init__(self, lines):
        self.lines = iter(lines)
        self.due('chains 1')
        inputs = int(self.behind('inputs '))
        self.tables = []
        for line in self.lines:
            if line[:1].islower():
                break
            if len(line) != 2**inputs:
                raise Fault(f'a table of {len(line)} characters')
            self.tables.append(line)
        if not line.startswith('basis '):
            raise Fault(f'{line!r} where a basis is due')
        self.basis = Basis(line.removeprefix('basis '))
        self.method = self.behind('method ')
        self.behind('conflicts ')
        self.behind('max ')
        self.parts = []
        self.sections()

    def due(self, wanted):
        line = next(self.lines, 'the end')
        if line != wanted:
            raise Fault(f'{line!r} where {wanted!r} is due')

    def behind(self, word):
        line = next(self.lines, 'the end')
        if not line.startswith(word):
            raise Fault(f'{line!r} where {word!r} is due')
        return line.removeprefix(word)

    def sections(self):
        size, fence, open_part = None, None, None
        for line in self.lines:
            first, *rest = line.split(' ')
            if first == 'size':
                size, fence = int(rest[0]), None
            elif first == 'fence':
                fence = tuple(int(item) for item in rest)
            elif first in ('refuted', 'open') and open_part is None and size is not None and not rest:
                open_part = Part(size, fence, first)
            elif first == 'done':
                self.parts.append(open_part)
                open_part = None
            elif open_part is not None:
                open_part.log.append(line)
            else:
                return

    def parts_of(self, size):
        return [part for part in self.parts if part.size == size]


def title(part):
    return 'whole' if part.fence is None else ' '.join(['fence', *map(str, part.fence)])


def written(path, text):
    if path == '-':
        sys.stdout.write(text)
    else:
        with open(path, 'w', encoding='ascii') as file:
            file.write(text)


def dimacs(formula):
    lines = [f'p cnf {len(formula.numbers)} {len(formula.clauses)}']
    lines += [' '.join([*map(str, clause), '0']) for clause in formula.clauses]
    return '\n'.join(lines) + '\n'


def empty(formula):
    """The log of a formula that has the empty clause: one line that names it. In a certificate it needs none."""
    return [f'{len(formula.clauses) + 1} 0 {k} 0' for k, clause in enumerate(formula.clauses, 1) if not clause][:1]


def convert(words):
    certificate = Certificate(words['file'])
    if words['list']:
        for part in certificate.parts:
            number = certificate.parts_of(part.size).index(part) + 1
            print(f'size {part.size} part {number} {title(part)} {part.ended} lines {len(part.log)}')
        return
    parts = certificate.parts_of(words['size'])
    if not 1 <= words['part'] <= len(parts):
        raise Fault(f"no part {words['part']} of size {words['size']}")
    part = parts[words['part'] - 1]
    if part.ended == 'open' and words['lrat']:
        print('dimacs: this log leaves the formula open, so it refutes nothing', file=sys.stderr)
    formula = formula_of(certificate.tables, certificate.basis, certificate.method, part.size, part.fence)
    if words['cnf'] or not words['lrat']:
        written(words['cnf'] or '-', dimacs(formula))
    if words['lrat']:
        written(words['lrat'], ''.join(line + '\n' for line in part.log or empty(formula)))


def words_of(arguments):
    words = {'file': None, 'size': None, 'part': 1, 'cnf': None, 'lrat': None, 'list': False}
    while arguments:
        word = arguments.pop(0)
        if word == '--list':
            words['list'] = True
        elif word in ('--size', '--part') and arguments and arguments[0].isdigit():
            words[word[2:]] = int(arguments.pop(0))
        elif word in ('--cnf', '--lrat') and arguments:
            words[word[2:]] = arguments.pop(0)
        elif words['file'] is None and (word == '-' or not word.startswith('-')):
            words['file'] = word
        else:
            return None
    good = words['file'] is not None and (words['list'] or words['size'] is not None)
    return words if good else None


def main():
    signal.signal(signal.SIGPIPE, signal.SIG_DFL)  # who reads may stop, as `head` does
    if sys.argv[1:] in (['--help'], ['-h']):
        print(__doc__)
        return 0
    words = words_of(sys.argv[1:])
    if words is None:
        print(__doc__.splitlines()[0], file=sys.stderr)
        return 1
    try:
        with (sys.stdin if words['file'] == '-' else open(words['file'], encoding='ascii')) as file:
            words['file'] = file.read().splitlines()
        convert(words)
    except (Fault, OSError, ValueError) as fault:
        print(f'dimacs: {why(fault)}', file=sys.stderr)
        return 2
    return 0


if __name__ == '__main__':
    sys.exit(main())
