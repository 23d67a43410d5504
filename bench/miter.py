#!/usr/bin/env python3
"""miter.py FIRST.blif SECOND.blif [--log ANSWER] [--cnf FILE] [--lrat FILE]

Writes the miter of two BLIF netlists in DIMACS, with the numbering of `equiv`, for any solver; and the log of an answer
of `equiv` as plain LRAT, for any LRAT checker.

  FIRST.blif SECOND.blif   the netlists, with one interface
  --log ANSWER             the answer of `batsokemi equiv`, or - for standard input
  --cnf FILE               file for the formula (standard output where neither file is given)
  --lrat FILE              file for the log; that of `undecided` refutes nothing, and is written with a warning

The formula is built from the netlists as docs/FORMATS.md ("Netlists compared") describes it, without the proved
program: a second opinion. So a checker that accepts both files shows that the netlists are equivalent, whoever wrote the log. The
script itself isn't proved, and the netlists have to be well formed.

    batsokemi equiv a.blif b.blif > ab.answer
    bench/miter.py a.blif b.blif --log ab.answer --cnf ab.cnf --lrat ab.lrat
    cc -O2 -o lrat bench/lrat.c && ./lrat ab.cnf ab.lrat

A table that names at most two inputs is one gate or none; a wider one is a gate for each literal but one ("What a
netlist costs"). The gates are numbered in the order in which a depth-first visit of the tables, in the order of the text,
finishes them.

Status 0; 1 for a usage error; 2 where a file can't be read or is malformed, or the answer has no log."""

import itertools
import signal
import sys


class Fault(Exception):
    """A file isn't of its form."""


def logical_lines(text):
    """The words of each logical line: comments are dropped, and a line that ends with a backslash goes on."""
    begun = ""
    for line in text.split("\n"):
        line = line.removesuffix("\r").split("#", 1)[0].rstrip(" \t")
        if line.endswith("\\"):
            begun += line[:-1] + " "
            continue
        yield (begun + line).split()
        begun = ""
    if begun:
        yield begun.split()


class Netlist:
    """The lists of a BLIF text: inputs, outputs, clocks, latches as (input, what the interface has: output, control
    and first value), tables as (inputs, output, cubes, value)."""

    def __init__(self, text):
        self.inputs, self.outputs, self.clocks, self.latches, self.tables = [], [], [], [], []
        for words in logical_lines(text):
            self.say(words)
        self.sources = self.inputs + [latch[0] for _, latch in self.latches]
        self.sinks = self.outputs + [name for name, _ in self.latches]
        self.interface = (self.inputs, self.outputs, self.clocks, [latch for _, latch in self.latches])

    def say(self, words):
        if not words or words[0] in (".model", ".end"):
            return
        if words[0] == ".inputs":
            self.inputs += words[1:]
        elif words[0] == ".outputs":
            self.outputs += words[1:]
        elif words[0] == ".clock":
            self.clocks += words[1:]
        elif words[0] == ".latch":
            self.latches.append((words[1], words[2:]))
        elif words[0] == ".names":
            self.tables.append((words[1:-1], words[-1], [], [True]))
        elif words[0][0] == ".":
            raise Fault(f"{words[0]} is not supported")
        else:
            _, _, rows, on = self.tables[-1]
            on[0] = words[-1] == "1"
            rows.append(words[0] if len(words) > 1 else "")

    def value(self, table, bits):
        _, _, rows, on = table
        hit = any(all(c == "-" or (c == "1") == b for c, b in zip(row, bits)) for row in rows)
        return hit == on[0]


class Builder:
    """Tables become gates, each (operands, values at 00, 01, 10, 11). An operand is True, False or a place."""

    def __init__(self, sources):
        self.sources, self.gates = sources, []

    def gate(self, operands, cells):
        self.gates.append((operands, cells))
        return self.sources + len(self.gates)

    def small(self, operands, cells):
        """A table that names at most two inputs, by its values: a constant, a copy, NOT of one input, or a gate."""
        if all(cells) or not any(cells):
            return cells[0]
        if len(operands) == 2 and cells[:2] == cells[2:]:
            return self.small(operands[1:], cells[:2])
        if len(operands) == 2 and cells[0] == cells[1] and cells[2] == cells[3]:
            return self.small(operands[:1], cells[::2])
        if len(operands) == 2:
            return self.gate(operands, cells)
        return operands[0] if cells[1] else self.inverse(operands[0])

    def inverse(self, operand):
        return self.gate([operand, operand], [True, True, True, False])

    def join(self, signed, joins):
        """(signal, sign) joined from the left, with the signs inside the operators; `joins` is `all` or `any`."""
        left, turned = signed[0]
        for right, sign in signed[1:]:
            left = self.gate([left, right], [joins((a != turned, b != sign)) for a in (False, True) for b in (False, True)])
            turned = False
        return left, turned

    def wide(self, operands, cubes, on):
        """A wider table: each cube ANDs its literals, and the cubes are ORed."""
        if not cubes or any(set(cube) == {"-"} for cube in cubes):
            return on and bool(cubes)
        before = len(self.gates)
        literals = [[(operands[i], c == "0") for i, c in enumerate(cube) if c != "-"] for cube in cubes]
        signal, turned = self.join([self.join(cube, all) for cube in literals], any)
        if turned != on:
            return signal
        if len(self.gates) == before:
            return self.inverse(signal)
        last, cells = self.gates[-1]
        self.gates[-1] = (last, [not cell for cell in cells])
        return signal


def signals(netlist):
    """The gates, and the signals of the sinks."""
    table_of = {table[1]: table for table in netlist.tables}
    signal = {name: place + 1 for place, name in enumerate(netlist.sources)}
    builder = Builder(len(netlist.sources))

    def finish(table):
        if len(table[0]) > 2:
            return builder.wide([signal[name] for name in table[0]], table[2], table[3][0])
        names = list(dict.fromkeys(table[0]))
        rows = itertools.product((False, True), repeat=len(names))
        cells = [netlist.value(table, [row[names.index(name)] for name in table[0]]) for row in rows]
        return builder.small([signal[name] for name in names], cells)

    for first in netlist.tables:
        stack = [(first, 0)]
        while stack:
            table, at = stack.pop()
            if table[1] in signal:
                continue
            if at == len(table[0]):
                signal[table[1]] = finish(table)
                continue
            stack.append((table, at + 1))
            if table[0][at] not in signal:
                stack.append((table_of[table[0][at]], 0))
    return builder.gates, [signal[name] for name in netlist.sinks]


def clause_of(raws):
    """A clause of (variable, bit) and of constants, as it is written; None where it is true by itself."""
    literals = []
    for raw in raws:
        if raw is True:
            return None
        if raw is False:
            continue
        literal = raw[0] if raw[1] else -raw[0]
        if -literal in literals:
            return None
        if literal not in literals:
            literals.append(literal)
    return literals


def literal(signal, bit, variable):
    return signal == bit if isinstance(signal, bool) else (variable(signal), bit)


def gate_rows(gates, sources, variable):
    for at, (operands, cells) in enumerate(gates):
        for k, value in enumerate(cells):
            a, b = bool(k >> 1), bool(k & 1)
            yield [literal(operands[0], not a, variable), literal(operands[1], not b, variable), (variable(sources + 1 + at), value)]


def miter(first, second):
    """The number of variables, and the clauses."""
    if first.interface != second.interface:
        raise Fault("the interfaces differ")
    n = len(first.sources)
    gates, sinks = signals(first)
    others, behind = signals(second)
    one = lambda place: place
    two = lambda place: place if place <= n else place + len(gates)
    difference = n + len(gates) + len(others) + 1
    rows = list(gate_rows(gates, n, one)) + list(gate_rows(others, n, two))
    for i, (u, v) in enumerate(zip(sinks, behind)):
        for bit in (False, True):
            rows.append([(difference + i, False), literal(u, bit, one), literal(v, bit, two)])
    rows.append([(difference + i, True) for i in range(len(sinks))])
    clauses = [clause for clause in map(clause_of, rows) if clause is not None]
    return difference + len(sinks) - 1, clauses


def dimacs(first, second):
    """The text of the miter."""
    variables, clauses = miter(first, second)
    return f"p cnf {variables} {len(clauses)}\n" + "".join(" ".join(map(str, clause + [0])) + "\n" for clause in clauses)


def empty(formula):
    """The log of a formula that has the empty clause: one line that names it. An answer of `equiv` needs none."""
    _, *lines = formula.splitlines()
    return [f"{len(lines) + 1} 0 {at} 0" for at, line in enumerate(lines, 1) if line == "0"][:1]


# ---- the words


def words_of(words):
    """The files, and the options by name."""
    files, options = [], {}
    left = list(words)
    while left:
        word = left.pop(0)
        if word in ("--log", "--cnf", "--lrat"):
            if not left or word in options:
                return None
            options[word] = left.pop(0)
        elif word.startswith("--"):
            return None
        else:
            files.append(word)
    if len(files) != 2 or ("--lrat" in options) != ("--log" in options):
        return None
    return files, options


def text_of(path):
    if path == "-":
        return sys.stdin.buffer.read().decode("latin-1")
    with open(path, encoding="latin-1") as file:
        return file.read()


def netlist_of(path):
    try:
        return Netlist(text_of(path))
    except (KeyError, IndexError, ValueError) as fault:
        raise Fault(f"{path}: not a netlist that this script reads ({fault!r})") from fault


def log_of(answer, formula):
    """The lines of the log in an answer."""
    verdict, _, rest = answer.partition("\n")
    if verdict not in ("equal", "undecided") or not rest.endswith("done\n"):
        raise Fault(f"the answer has no log: it begins with {verdict[:40]!r}")
    if verdict == "undecided":
        print("miter.py: the answer is undecided, so its log refutes nothing", file=sys.stderr)
    return rest.removesuffix("done\n") or "".join(f"{line}\n" for line in empty(formula))


def put(path, text):
    if path is None:
        sys.stdout.write(text)
        return
    with open(path, "w", encoding="ascii") as file:
        file.write(text)


def main():
    if sys.argv[1:] in (["--help"], ["-h"]):
        print(__doc__)
        return 0
    said = words_of(sys.argv[1:])
    if said is None:
        print("miter.py: two netlists, and --lrat only with --log; --help says more", file=sys.stderr)
        return 1
    (first, second), options = said
    try:
        formula = dimacs(netlist_of(first), netlist_of(second))
        if "--lrat" in options:
            put(options["--lrat"], log_of(text_of(options["--log"]), formula))
        if "--cnf" in options or "--lrat" not in options:
            put(options.get("--cnf"), formula)
    except OSError as fault:
        print(f"miter.py: {fault.filename}: {fault.strerror}", file=sys.stderr)
        return 2
    except Fault as fault:
        print(f"miter.py: {fault}", file=sys.stderr)
        return 2
    return 0


if __name__ == "__main__":
    signal.signal(signal.SIGPIPE, signal.SIG_DFL)  # who reads may stop, as `head` does
    sys.exit(main())
