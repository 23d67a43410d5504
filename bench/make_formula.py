#!/usr/bin/env python3
"""Writes a formula for the benchmark `solve`.

    make_formula.py pigeons N          N + 1 pigeons in N holes
    make_formula.py plain R TABLE ..   R steps over all operators that compute the tables, one for each
                                       output, by the plain encoding
    make_formula.py ssv R TABLE ..     the same with symmetry-breaking constraints
    make_formula.py --dimacs ..        the same formula in DIMACS

The first line is `formula VARS CLAUSES`. Then comes each clause as an addition without hints. A table has
one digit per row, from row 0 on, or - for a don't-care, and input 1 is the most significant digit of a row.
"""

import itertools
import sys

from make_log import pigeons
from usage import usage

IDLE, NEGATIONS = (0, 3, 5, 15), (10, 12)


def pairs(place):
    """The pairs of operands of a step, in the order of the encoding."""
    return sorted(itertools.product(range(1, place), repeat=2), key=lambda p: (*key(p), p[0] > p[1]))


def key(pair):
    return max(pair), pair[0] != pair[1], min(pair)


def rising(place):
    """The pairs whose first operand is no higher than the second."""
    return [(j, k) for j, k in pairs(place) if j <= k]


def input_bit(inputs, place, row):
    return row >> (inputs - place) & 1


def is_live(inputs, table):
    """Whether no constant and no input agrees with a table."""
    cells = [(row, int(cell)) for row, cell in enumerate(table) if cell != "-"]
    met = [all(cell == bit for _, cell in cells) for bit in (0, 1)]
    met += [all(cell == input_bit(inputs, place, row) for row, cell in cells) for place in range(1, inputs + 1)]
    return not any(met)


def simplified(literals):
    """The clause of literals and constants; None where it is true."""
    if any(l is True for l in literals):
        return None
    kept = list(dict.fromkeys(l for l in literals if l is not False))
    return None if any(-l in kept for l in kept) else kept


class Coding:
    """The formula of tables. Its variables are numbered in the order in which they are named: x for the
    values of steps, g for outputs, f for operators, s for pairs."""

    def __init__(self, tables, size, pairs_of):
        self.inputs = len(tables[0]).bit_length() - 1
        self.tables = dict(enumerate(table for table in tables if is_live(self.inputs, table)))
        self.rows = range(2**self.inputs)
        self.steps = range(self.inputs + 1, self.inputs + size + 1)
        self.pairs = {i: pairs_of(i) for i in self.steps}
        names = [("x", i, t) for i in self.steps for t in self.rows]
        names += [("g", h, i) for h in self.tables for i in self.steps]
        names += [("f", i, bc) for i in self.steps for bc in range(4)]
        names += [("s", i, p) for i in self.steps for p in self.pairs[i]]
        self.numbers = {name: number for number, name in enumerate(names, 1)}
        self.clauses = []

    def lit(self, name, value):
        return self.numbers[name] if value else -self.numbers[name]

    def bit(self, place, row, value):
        """The literal that a place has a value at a row; for an input, whether it has."""
        if place > self.inputs:
            return self.lit(("x", place, row), value)
        return input_bit(self.inputs, place, row) == value

    def outputs(self, i):
        """The literals that an output is a step."""
        return [self.lit(("g", h, i), 1) for h in self.tables]

    def has(self, i, kept=lambda pair: True):
        """The literals that a step has a pair, of those that are kept."""
        return [self.lit(("s", i, p), 1) for p in self.pairs[i] if kept(p)]

    def differs(self, i, operator):
        """The literals that the operator of a step isn't this one."""
        return [self.lit(("f", i, bc), not operator >> (3 - bc) & 1) for bc in range(4)]

    def add(self, *literals):
        clause = simplified(literals)
        if clause is not None:
            self.clauses.append(clause)

    def not_both(self, i, u, k, v):
        self.add(self.lit(("s", i, u), 0), self.lit(("s", k, v), 0))

    def chain(self):
        """What a chain is."""
        for h in self.tables:
            self.add(*(self.lit(("g", h, i), 1) for i in self.steps))
        for (h, table), i, t in itertools.product(self.tables.items(), self.steps, self.rows):
            if table[t] != "-":
                self.add(self.lit(("g", h, i), 0), self.bit(i, t, int(table[t])))
        for i in self.steps:
            self.add(*self.has(i))
        for i in self.steps:
            for (j, k), t, a, b, c in itertools.product(self.pairs[i], self.rows, (0, 1), (0, 1), (0, 1)):
                values = self.bit(i, t, 1 - a), self.bit(j, t, 1 - b), self.bit(k, t, 1 - c)
                self.add(self.lit(("s", i, (j, k)), 0), *values, self.lit(("f", i, 2 * b + c), a))

    def used(self):
        """Each step is an output, or a later one has it for an operand."""
        for i in self.steps:
            later = range(i + 1, self.steps.stop)
            self.add(*self.outputs(i), *(lit for k in later for lit in self.has(k, lambda p: i in p)))

    def not_trivial(self):
        """No step is a copy or constant; with equal operands, and only so, it is a negation."""
        for i in self.steps:
            equal = [p for p in self.pairs[i] if p[0] == p[1]]
            for operator in IDLE:
                self.add(*self.differs(i, operator))
            for p in equal:
                self.add(self.lit(("s", i, p), 0), self.lit(("f", i, 0), 1))
                self.add(self.lit(("s", i, p), 0), self.lit(("f", i, 3), 0))
            for operator in NEGATIONS:
                self.add(*self.differs(i, operator), *self.has(i, equal.__contains__))

    def ordered(self):
        """The keys of pairs never fall."""
        for i in self.steps[:-1]:
            for u, v in itertools.product(self.pairs[i], self.pairs[i + 1]):
                if key(v) < key(u):
                    self.not_both(i, u, i + 1, v)

    def not_again(self):
        """No step has an earlier step and an operand of that one."""
        for i, k in itertools.combinations(self.steps, 2):
            for u, v in itertools.product(self.pairs[i], self.pairs[k]):
                if i in v and (v[0] in u or v[1] in u):
                    self.not_both(i, u, k, v)

    def may_exchange(self, p, q):
        """Whether the tables stay the same where two inputs are exchanged."""
        masks = 1 << (self.inputs - p), 1 << (self.inputs - q)
        moved = lambda t: t ^ sum(masks) if bool(t & masks[0]) != bool(t & masks[1]) else t
        return all(table[moved(t)] == table[t] for table in self.tables.values() for t in self.rows)

    def symmetric(self):
        """Of two inputs that may be exchanged, the first is read before the second."""
        for p, q in itertools.combinations(range(1, self.inputs + 1), 2):
            before = []
            for i in self.steps if self.may_exchange(p, q) else []:
                for lit in self.has(i, lambda u: q in u and p not in u):
                    self.add(-lit, *before)
                before += self.has(i, lambda u: p in u and q not in u)

    def row_0(self):
        """A step that is no output is 0 on row 0."""
        for i in self.steps:
            self.add(self.bit(i, 0, 0), *self.outputs(i))


def plain(size, tables):
    """The number of variables, and the clauses."""
    coding = Coding(tables, size, pairs)
    coding.chain()
    return len(coding.numbers), coding.clauses


def ssv(size, tables):
    """The number of variables, and the clauses."""
    coding = Coding(tables, size, rising)
    coding.chain()
    coding.used()
    coding.not_trivial()
    coding.ordered()
    coding.not_again()
    coding.symmetric()
    coding.row_0()
    return len(coding.numbers), coding.clauses


def formula(family, *words):
    """The number of variables, and the clauses."""
    if family == "pigeons":
        return pigeons(int(words[0]))[:2]
    return {"plain": plain, "ssv": ssv}[family](int(words[0]), words[1:])


def write_formula(variables, clauses, out):
    out.write(f"formula {variables} {len(clauses)}\n")
    out.writelines(" ".join(map(str, [i, *clause, 0, 0])) + "\n" for i, clause in enumerate(clauses, 1))


def write_dimacs(variables, clauses, out):
    out.write(f"p cnf {variables} {len(clauses)}\n")
    out.writelines(" ".join(map(str, [*clause, 0])) + "\n" for clause in clauses)


def main():
    words = sys.argv[1:]
    if words[0] == "--dimacs":
        write_dimacs(*formula(*words[1:]), sys.stdout)
    else:
        write_formula(*formula(*words), sys.stdout)


if __name__ == "__main__":
    usage(__doc__, 2)
    main()
