#!/usr/bin/env python3
"""miters.py PROGRAM [NETLIST.blif ..]: pairs of equivalent netlists, and a table of how hard it is to refute their
miters for minisat and for PROGRAM's `equiv`, which writes its log besides.

The pairs are each netlist beside what PROGRAM's `improve` and two scripts of ABC make of it, adders of 32 bits by two
ways, multipliers beside what ABC makes of them, multipliers whose operands are exchanged, and netlists of 10,000 gates
beside what `improve` makes of them. With `--only WORD` as the first word, only pairs with this word in their name."""

import os
import re
import resource
import subprocess
import sys
import tempfile
from collections import namedtuple

import circuits
from miter import Netlist, dimacs
from usage import usage

# the learnt clauses that `equiv` may take: by default, and where told
FEW, MORE, MOST = 100_000, 1_000_000, 10_000_000

SCRIPTS = {
    "dc2": "strash; dc2; dc2",
    "mfs2": "strash; dch; if -K 2 -a; mfs2 -a -e -W 4 -M 500 -C 5000",
}

Pair = namedtuple("Pair", "name first second budget")


def run(words, text=""):
    """What a program writes, and its user seconds."""
    before = resource.getrusage(resource.RUSAGE_CHILDREN).ru_utime
    done = subprocess.run(words, input=text, stdout=subprocess.PIPE, stderr=subprocess.DEVNULL, check=False, text=True)
    return done.stdout, resource.getrusage(resource.RUSAGE_CHILDREN).ru_utime - before


# ---- second netlists


def improved(program, text, *words):
    return run([program, "improve", *words], text)[0]


def rewritten(script, text):
    """What a script of ABC makes of a netlist. ABC forgets how latches are controlled, and which clocks there are."""
    with tempfile.TemporaryDirectory() as folder:
        first, second = (os.path.join(folder, name) for name in ("first.blif", "second.blif"))
        with open(first, "w", encoding="latin-1") as file:
            file.write(text)
        run(["berkeley-abc", "-q", f"read_blif {first}; {script}; write_blif {second}"])
        with open(second, encoding="latin-1") as file:
            return controlled(text, file.read())


def controlled(text, made):
    """The second text with the first's controls and first values of latches."""
    control = {latch[0]: latch[1:] for _, latch in Netlist(text).latches}

    def latch(found):
        return " ".join([".latch", found[1], found[2], *control[found[2]]])

    return re.sub(r"(?m)^\.latch +(\S+) +(\S+).*$", latch, made)


# ---- pairs


def given_pairs(program, paths):
    for path in paths:
        name = os.path.basename(path).removesuffix(".blif")
        with open(path, encoding="latin-1") as file:
            text = file.read()
        yield Pair(f"{name}, `improve`", text, improved(program, text), FEW)
        for word, script in SCRIPTS.items():
            yield Pair(f"{name}, {word}", text, rewritten(script, text), FEW)


def made_pairs(program):
    ripple = circuits.ripple_adder(32)
    for block in (4, 8):
        yield Pair(f"adders, carry chosen by {block}", ripple, circuits.carry_select_adder(32, block), FEW)
    for bits in (4, 6, 8):
        text = circuits.multiplier(bits)
        for word, script in SCRIPTS.items():
            yield Pair(f"multiplier of {bits} bits, {word}", text, rewritten(script, text), MOST)
    for bits in range(3, 9):
        yield Pair(f"multipliers of {bits} bits, exchanged", circuits.multiplier(bits), circuits.multiplier(bits, True), MOST)
    blocks, _ = run([program, "gen", "--blocks", "3000"])
    yield Pair("3,000 blocks, `improve`", blocks, improved(program, blocks), MORE)
    gates = circuits.random_gates(10_000, 100, 500, 40, 1)
    yield Pair("10,000 random gates, `improve`", gates, improved(program, gates, "--cap", "3", "--rounds", "1"), MORE)


# ---- the table


def minisat(formula):
    with tempfile.NamedTemporaryFile("w", suffix=".cnf") as file:
        file.write(formula)
        file.flush()
        said, time = run(["minisat", file.name])
    return int(re.search(r"conflicts +: (\d+)", said)[1]), time


def equiv(program, pair):
    """The first word of the answer, its additions, and the time."""
    said, time = run([program, "equiv", "--conflicts", str(pair.budget)], pair.first + pair.second)
    additions = sum(line.split()[1:2] != ["d"] for line in said.splitlines()[1:-1])
    return said.split()[:1], additions, time


def row(program, pair):
    formula = dimacs(Netlist(pair.first), Netlist(pair.second))
    variables, clauses = map(int, formula.split()[2:4])
    conflicts, time = minisat(formula)
    answer, additions, own_time = equiv(program, pair)
    cells = [pair.name, f"{variables:,}", f"{clauses:,}", f"{conflicts:,}", f"{time:.2f} s", *answer, f"{additions:,}", f"{own_time:.2f} s"]
    print("| " + " | ".join(cells) + " |", flush=True)


def main():
    words = sys.argv[1:]
    only = ""
    if words[:1] == ["--only"]:
        _, only, *words = words
    if not words:
        sys.exit(__doc__)
    program, *paths = words
    print("| Pair | Variables | Clauses | minisat: conflicts | Time | `equiv` | Additions | Time |", "|---" * 8 + "|", sep="\n")
    for pairs in (given_pairs(program, paths), made_pairs(program)):
        for pair in pairs:
            if only in pair.name:
                row(program, pair)


if __name__ == "__main__":
    usage(__doc__, 1)
    main()
