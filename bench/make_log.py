#!/usr/bin/env python3
"""Writes an unsatisfiable formula and a log that refutes it, for the benchmark `check`.

    make_log.py pigeons N     N + 1 pigeons in N holes
    make_log.py parity N      N variables whose sum is even and odd, as two chains of xors

The first line is `formula VARS CLAUSES`. Then comes each clause as a log line without hints,
and then the log, a depth-first search with unit propagation: a clause for each failed branch, with its hints,
and deletions of clauses that are no longer needed.
"""

import sys

from usage import usage


def pigeons(holes):
    """Pigeon p sits in hole h where variable p * holes + h + 1 is true."""
    place = lambda pigeon, hole: pigeon * holes + hole + 1
    clauses = [[place(p, h) for h in range(holes)] for p in range(holes + 1)]
    for h in range(holes):
        for p in range(holes + 1):
            clauses += [[-place(q, h), -place(p, h)] for q in range(p)]
    order = [place(p, h) for p in range(holes + 1) for h in range(holes)]
    return (holes + 1) * holes, clauses, order


def xor3(a, b, c):
    """a = b xor c"""
    return [[-a, b, c], [-a, -b, -c], [a, -b, c], [a, b, -c]]


def parity(n):
    """Two chains of sums, the second in another order; the one ends even and the other odd."""
    clauses = []
    variables = n
    for order, odd in ((range(1, n + 1), False), ([*range(2, n + 1, 2), *range(1, n + 1, 2)], True)):
        order = list(order)
        total = order[0]
        for v in order[1:]:
            variables += 1
            clauses += xor3(variables, total, v)
            total = variables
        clauses.append([total] if odd else [-total])
    return variables, clauses, list(range(1, n + 1))


class Search:
    def __init__(self, variables, clauses, order, out):
        self.clauses = {i + 1: c for i, c in enumerate(clauses)}
        self.watchers = {}
        for i, c in self.clauses.items():
            for lit in c:
                self.watchers.setdefault(-lit, []).append(i)
        self.order = order
        self.value = [0] * (variables + 1)
        self.next_id = len(clauses) + 1
        self.out = out

    def is_true(self, lit):
        return self.value[abs(lit)] * lit > 0

    def is_false(self, lit):
        return self.value[abs(lit)] * lit < 0

    def put(self, lit, trail):
        self.value[abs(lit)] = 1 if lit > 0 else -1
        trail.append(lit)

    def propagate(self, trail, start, hints):
        """Goes on from the literals behind `start`; True where a clause is false."""
        at = start
        while at < len(trail):
            for i in self.watchers.get(trail[at], []):
                clause = self.clauses[i]
                if any(self.is_true(l) for l in clause):
                    continue
                left = [l for l in clause if not self.is_false(l)]
                if len(left) > 1:
                    continue
                hints.append(i)
                if not left:
                    return True
                self.put(left[0], trail)
            at += 1
        return False

    def undo(self, trail, size):
        while len(trail) > size:
            self.value[abs(trail.pop())] = 0

    def add(self, lits, hints):
        id = self.next_id
        self.next_id += 1
        self.out.write(" ".join(map(str, [id, *lits, 0, *hints, 0])) + "\n")
        return id

    def refute(self, decisions, trail, start, hints):
        """Adds the clause against the decisions, and gives its id."""
        size = len(hints)
        if self.propagate(trail, start, hints):
            id = self.add([-d for d in decisions], hints)
            del hints[size:]
            return id
        variable = next(v for v in self.order if self.value[v] == 0)
        ids = []
        for lit in (variable, -variable):
            mark = len(trail)
            self.put(lit, trail)
            ids.append(self.refute(decisions + [lit], trail, mark, hints))
            self.undo(trail, mark)
        id = self.add([-d for d in decisions], hints + ids)
        self.out.write(f"{id} d {ids[0]} {ids[1]} 0\n")
        del hints[size:]
        return id


def main():
    family, n = sys.argv[1], int(sys.argv[2])
    variables, clauses, order = {"pigeons": pigeons, "parity": parity}[family](n)
    out = sys.stdout
    out.write(f"formula {variables} {len(clauses)}\n")
    for i, clause in enumerate(clauses):
        out.write(" ".join(map(str, [i + 1, *clause, 0, 0])) + "\n")
    search = Search(variables, clauses, order, out)
    trail, hints = [], []
    for i, clause in search.clauses.items():
        if len(clause) == 1 and not search.is_true(clause[0]):
            search.put(clause[0], trail)
            hints.append(i)
    search.refute([], trail, 0, hints)


if __name__ == "__main__":
    usage(__doc__, 2)
    main()
