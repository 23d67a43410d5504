#!/usr/bin/env python3
"""sums.py PROGRAM [--beside SOLVER]: decides the `ssv` formulas of 32 functions of four inputs, with their fewest
steps and with one less, by `PROGRAM solve`, the built program `benchmarks`, and prints the sums over the refuted and
over the satisfied ones: conflicts, of `solve` the additions to its log (of satisfied ones none is left), user seconds,
and the greatest peak of memory. A time is the least of two runs, one after the other. Single searches say
little: another order of the clauses gives many of them twice or half as many conflicts.

SOLVER is a program that reads DIMACS and reports its conflicts, such as minisat."""
import os
import re
import subprocess
import sys
import tempfile

from solver import in_words, row, run, script, write_formula
from usage import usage

# by fewest steps: the tables as hexadecimal numbers, row 0 first
CLASSES = {
    5: "0016 0182 036e 0673",
    6: (
        "0118 011b 017e 0197 019f 01bc 01e9 036d 03db 0672 "
        "067a 0691 06b0 06b3 06b6 0776 07b1 07e1 07e6 166b"
    ),
    7: "0116 0117 066b 0779 166a 1681 168b 168e",
}


def table(number):
    return f"{int(number, 16):016b}"


def conflicts_of(text):
    found = re.search(r"conflicts\s*:\s*(\d+)", text) or re.search(r"(\d+) conflicts", text)
    return int(found[1]) if found else 0


def decided(words, path):
    """The conflicts, user seconds and peak of the better of two runs."""
    runs = [run(words, path), run(words, path)]
    return conflicts_of(runs[0].text), min(it.seconds for it in runs), max(it.peak for it in runs)


def write_dimacs(words, path):
    with open(path, "wb") as file:
        subprocess.run(script("make_formula.py", "--dimacs", *words), stdout=file, check=True)


def sums(formulas, decide):
    """The sums over formulas of what one of them takes."""
    taken = [decide(words) for words in formulas]
    return [in_words(sum(it[0] for it in taken)), f"{sum(it[1] for it in taken):.1f} s", f"{max(it[2] for it in taken) / 1024:.0f} MB"]


def main():
    program, *options = sys.argv[1:]
    solver = options[options.index("--beside") + 1] if "--beside" in options else None
    print(row(["Formulas", "Solver", "Conflicts", "Time", "Peak memory"]), row(["---"] * 5).replace(" ", ""), sep="\n")
    with tempfile.TemporaryDirectory() as folder:
        path = os.path.join(folder, "formula")

        def by_program(words):
            write_formula(words, path)
            return decided([program, "solve"], path)

        def by_other(words):
            write_dimacs(words, path)
            return decided([solver, path], path)

        for less, answer in ((1, "refuted"), (0, "satisfied")):
            formulas = [["ssv", str(steps - less), table(it)] for steps, tables in CLASSES.items() for it in tables.split()]
            for name, decide in [("solve", by_program)] + ([(solver, by_other)] if solver else []):
                print(row([f"{len(formulas)} {answer}", name, *sums(formulas, decide)]), flush=True)


if __name__ == "__main__":
    usage(__doc__, 1)
    main()
