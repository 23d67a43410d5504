#!/usr/bin/env python3
"""orders.py PROGRAM [--orders N] [--steps R ..]: decides the formulas of sums.py, those of R steps alone where they are named,
each with its variables in N orders (8), by `PROGRAM solve`, the built program `benchmarks`, and by minisat with and
without its preprocessing. It prints the sums over the refuted and over the satisfied ones: conflicts, of `solve` also the
strengthened clauses, and user seconds of one run each. One order says little, the sums over all orders more. For satisfied
formulas `solve` reports neither number: as root, with perf, a second run counts the calls that add to its log (uprobes).

orders.py --classes PROGRAM [EVERY]: each EVERY-th (1) of the 222 classes of functions of four inputs by `PROGRAM synth`, the
program itself, each certificate rechecked; by minisat the `ssv` formulas of all sizes up to the fewest; and by ABC's
`exact` in one session, where berkeley-abc is installed. A line for each: additions or conflicts, and user seconds."""
import collections
import itertools
import os
import random
import shutil
import subprocess
import sys
import tempfile

from solver import in_words, row, run
from sums import CLASSES, conflicts_of, table, write_dimacs
from synth import found, is_addition, run as run_on
from usage import usage

TOOLS = os.path.join(os.path.dirname(os.path.abspath(__file__)), "..", "tools")
SOLVERS = [["minisat"], ["minisat", "-no-pre"]]


def clauses_of(words, path):
    """The number of variables and the clauses of a formula."""
    write_dimacs(words, path)
    with open(path, encoding="ascii") as file:
        first, *lines = file.read().splitlines()
    return int(first.split()[2]), [[int(lit) for lit in line.split()[:-1]] for line in lines]


def write_ordered(variables, clauses, seed, path):
    """Writes a formula, its variables in the order of a seed (0: as they are), for `solve` and, at PATH.cnf, for others."""
    order = list(range(1, variables + 1))
    if seed:
        random.Random(seed).shuffle(order)
    turned = [" ".join(str(order[abs(lit) - 1] * (1 if lit > 0 else -1)) for lit in clause) for clause in clauses]
    with open(path, "w", encoding="ascii") as file:
        file.write(f"formula {variables} {len(turned)}\n")
        file.writelines(f"{number} {clause} 0 0\n" for number, clause in enumerate(turned, 1))
    with open(path + ".cnf", "w", encoding="ascii") as file:
        file.write(f"p cnf {variables} {len(turned)}\n")
        file.writelines(f"{clause} 0\n" for clause in turned)


def probe(program):
    """The events of each addition to a log and of each shorter clause among them, of a program that isn't stripped; None
    where the system counts no such thing."""
    names = subprocess.run(["nm", "-C", program], capture_output=True, text=True).stdout.splitlines()
    parts = [it.split() for it in subprocess.run(["readelf", "-lW", program], capture_output=True, text=True).stdout.splitlines()]
    loaded = [[int(word, 16) for word in it[1:5]] for it in parts if it[:1] == ["LOAD"]]
    lines = []
    for event, name in (("addition", "log_core::log::Log::add"), ("shorter", "cdcl_core::search::Search::add_shorter")):
        at = [int(it.split()[0], 16) for it in names if it.endswith(" " + name)]
        offsets = [at[0] - low + offset for offset, low, _, size in loaded if at and low <= at[0] < low + size]
        lines += [f"p:batsokemi/{event} {os.path.abspath(program)}:{it:#x}\n" for it in offsets]
    try:
        with open("/sys/kernel/tracing/uprobe_events", "w", encoding="ascii") as file:
            file.writelines(lines)
    except OSError:
        return None
    return ["batsokemi:addition", "batsokemi:shorter"] if len(lines) == 2 and shutil.which("perf") else None


def counted(events, command, path):
    """How often a run comes to each of the events."""
    with open(path, encoding="ascii") as file:
        told = subprocess.run(["perf", "stat", "-x,", "-e", ",".join(events), *command], stdin=file, capture_output=True, text=True).stderr
    return [sum(int(it.split(",")[0]) for it in told.splitlines() if event in it) for event in events]


def main_orders(program, orders, steps):
    events = probe(program)
    print(row(["Formulas", "Solver", "Conflicts", "Shorter clauses", "Time"]), row(["---"] * 5).replace(" ", ""), sep="\n")
    with tempfile.TemporaryDirectory() as folder:
        path = os.path.join(folder, "formula")
        for less, answer in ((1, "refuted"), (0, "satisfied")):
            formulas = [["ssv", str(r - less), table(it)] for r in steps for it in CLASSES[r].split()]
            sums = collections.Counter()
            for words in formulas:
                variables, clauses = clauses_of(words, path)
                for seed in range(orders):
                    write_ordered(variables, clauses, seed, path)
                    for name, command, file in [("solve", [program, "solve"], path)] + [(" ".join(it), [*it, path + ".cnf"], path) for it in SOLVERS]:
                        done = run(command, file)
                        sums[name, "conflicts"] += conflicts_of(done.text) if name != "solve" or not events else 0
                        sums[name, "seconds"] += done.seconds
                    if events:
                        additions, shorter = counted(events, [program, "solve"], path)
                        sums["solve", "conflicts"] += additions - shorter
                        sums["solve", "shorter"] += shorter
            for name in ["solve"] + [" ".join(it) for it in SOLVERS]:
                counts = [in_words(sums[name, it] or None) for it in ("conflicts", "shorter")]
                cells = [*counts, f"{sums[name, 'seconds']:.1f} s"]
                print(row([f"{len(formulas)} {answer}, {orders} orders", name, *cells]), flush=True)


def hexadecimal(rows):
    """A table as ABC reads it: its rows from the last on, the inputs the other way round."""
    return f"{sum((cell == '1') << int(f'{place:04b}'[::-1], 2) for place, cell in enumerate(rows)):04X}"


def by_minisat(rows, least, path):
    """The conflicts and user seconds of all sizes up to the fewest steps."""
    runs = []
    for size in range(1, least + 1):
        write_dimacs(["ssv", str(size), rows], path)
        runs.append(run(["minisat", path], path))
    return sum(conflicts_of(it.text) for it in runs), sum(it.seconds for it in runs)


def main_classes(program, every):
    listed = subprocess.run([os.path.join(TOOLS, "classes"), "4"], capture_output=True, text=True, check=True).stdout
    classes = [line.split()[-1] for line in listed.splitlines() if line.strip()][::every]
    sums, hard = collections.Counter(), []
    with tempfile.TemporaryDirectory() as folder:
        for rows in classes:
            text, seconds = found(program, "ssv", [rows], None)
            verdict, again = run_on([program, "recheck"], text, None)
            least = int(verdict.split()[-1])
            if verdict.decode().strip() != f"minimum {least}":
                sys.exit(f"{rows}: {verdict.decode().strip()}")
            sums["synth"] += seconds
            sums["recheck"] += again
            sums["additions"] += sum(is_addition(line) for line in text.decode().splitlines())
            conflicts, other = by_minisat(rows, least, os.path.join(folder, "formula"))
            sums["conflicts"] += conflicts
            sums["minisat"] += other
            hard += [hexadecimal(rows)] if least else []
    print(row([f"{len(classes)} classes", "Conflicts", "Time"]), row(["---"] * 3).replace(" ", ""), sep="\n")
    print(row(["`synth`", in_words(sums["additions"]), f"{sums['synth']:.1f} s"]))
    print(row(["`recheck`", "-", f"{sums['recheck']:.1f} s"]))
    print(row(["minisat", in_words(sums["conflicts"]), f"{sums['minisat']:.1f} s"]))
    if shutil.which("berkeley-abc"):
        script = "; ".join(f"exact -C 0 {it}" for it in hard)
        print(row(["ABC's `exact`", "-", f"{run_on(['berkeley-abc', '-q', script], b'', None)[1]:.1f} s"]))


def main():
    words = sys.argv[1:]
    if not words or words[0] in ("--help", "-h"):
        sys.exit(__doc__)
    if words[0] == "--classes":
        main_classes(words[1], int(words[2]) if len(words) > 2 else 1)
        return
    orders = int(words[words.index("--orders") + 1]) if "--orders" in words else 8
    behind = words[words.index("--steps") + 1:] if "--steps" in words else [str(it) for it in CLASSES]
    steps = [int(it) for it in itertools.takewhile(str.isdigit, behind)]
    main_orders(words[0], orders, steps)


if __name__ == "__main__":
    usage(__doc__, 1)
    main()
