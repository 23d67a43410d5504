#!/usr/bin/env python3
"""solver.py PROGRAM [--steps] [--beside SOLVER]: decides formulas by `PROGRAM solve`, the built program
`benchmarks`, and prints a table: additions to the log (conflicts and strengthened clauses of the formula), hints,
propagations, user seconds, additions per second, and the peak of memory.

The formulas are pigeons in holes, and functions with their fewest steps and with one less, by the method
`ssv`. A time is the least of three runs, or that of one run that takes longer than a second; a run is stopped
after 100 seconds. With --steps, count_steps.py takes the same steps again and counts the propagations and,
where a formula is satisfied and there is no log, the additions and hints. SOLVER is a program that reads
DIMACS and reports its conflicts, such as minisat."""
import ctypes
import os
import re
import signal
import subprocess
import sys
import tempfile
import threading
from collections import namedtuple

from functions import LARGE, SMALL
from usage import usage

HERE = os.path.dirname(os.path.abspath(__file__))
LONGEST = 100
MOST_STEPS = 10_000

# what the system tells of a process that has ended counts the memory of the one that began it, so runs are
# traced up to where they end
LIBC = ctypes.CDLL(None)
TRACE_ME, GO_ON, SET_OPTIONS, STOP_AT_EXIT = 0, 7, 0x4200, 0x40

Run = namedtuple("Run", "text seconds peak")


def workloads():
    """The name of each formula, and the words by which make_formula.py writes it."""
    yield "pigeons 7", ["pigeons", "7"]
    for name, least, tables in SMALL + LARGE:
        for size in (least - 1, least):
            yield f"{name}, size {size}", ["ssv", str(size), *tables.split()]


def script(name, *words):
    return [sys.executable, os.path.join(HERE, name), *words]


def trace_me():
    LIBC.ptrace(TRACE_ME, 0, None, None)


def peak_of(pid):
    """The peak of a stopped process's memory, in kilobytes."""
    with open(f"/proc/{pid}/status", encoding="ascii", errors="replace") as status:
        return next((int(line.split()[1]) for line in status if line.startswith("VmHWM")), 0)


def finish(pid):
    """Goes along with a process that is traced, which stops where its program begins and where it ends: the
    peak of its memory, and what it used."""
    peak = 0
    while True:
        _, status, used = os.wait4(pid, 0)
        if not os.WIFSTOPPED(status):
            return peak, used
        peak = max(peak, peak_of(pid))
        LIBC.ptrace(SET_OPTIONS, pid, None, ctypes.c_long(STOP_AT_EXIT))
        LIBC.ptrace(GO_ON, pid, None, None)


def run(words, path):
    """What a command prints of a file, its user seconds, and its peak of memory in kilobytes."""
    with open(path, "rb") as given, tempfile.TemporaryFile() as told:
        child = subprocess.Popen(words, stdin=given, stdout=told, stderr=subprocess.DEVNULL, preexec_fn=trace_me)
        limit = threading.Timer(LONGEST, os.kill, (child.pid, signal.SIGKILL))
        limit.start()
        peak, used = finish(child.pid)
        limit.cancel()
        child.returncode = 0
        told.seek(0)
        return Run(told.read().decode(errors="replace"), used.ru_utime, peak)


def fastest(words, path):
    """The least time and the greatest peak of some runs."""
    runs = [run(words, path)]
    while len(runs) < 3 and runs[0].seconds < 1:
        runs.append(run(words, path))
    return Run(runs[0].text, min(run.seconds for run in runs), max(run.peak for run in runs))


def write_formula(words, path):
    with open(path, "wb") as file:
        subprocess.run(script("make_formula.py", *words), stdout=file, check=True)


def numbers_of(text):
    """The numbers of a line such as `Refuted, 3 conflicts, 8 hints`, by their names. Of `solve` conflicts are all
    additions."""
    return {name: int(number) for number, name in re.findall(r"(\d+) (\w+)", text)}


def counted(text, path, steps):
    """The numbers that the program printed; with those of the steps, where they are to be counted."""
    told = numbers_of(text)
    if text.startswith("Satisfied"):
        told = {}
    if not steps or told.get("conflicts", 0) > MOST_STEPS:
        return told
    again = run(script("count_steps.py", str(MOST_STEPS)), path).text
    if again.split(",")[0] != text.split(",")[0]:
        return told
    numbers = numbers_of(again)
    numbers["conflicts"] += numbers["shorter"]
    return numbers if told.items() <= numbers.items() else {**told, "propagations": "other steps"}


def in_words(number):
    return f"{number:,}" if isinstance(number, int) else number or "-"


def columns(program, path, steps):
    """What the program does with a formula."""
    with open(path, encoding="ascii") as file:
        sizes = [in_words(int(word)) for word in file.readline().split()[1:]]
    first = fastest([program, "solve"], path)
    answer = first.text.split(",")[0].strip() or f"more than {LONGEST} s"
    numbers = counted(first.text, path, steps)
    additions = numbers.get("conflicts")
    rate = f"{additions / first.seconds:,.0f}" if additions and first.seconds >= 0.01 else "-"
    peak = f"{first.peak / 1024:.1f} MB" if first.peak else "-"
    numbers = [in_words(numbers.get(name)) for name in ("conflicts", "hints", "propagations")]
    return [*sizes, answer, *numbers, f"{first.seconds:.2f} s", rate, peak]


def columns_beside(solver, path):
    """What another solver does with a formula."""
    other = fastest([solver, path], path)
    conflicts = re.search(r"conflicts\s*:\s*(\d+)", other.text)
    return [in_words(conflicts and int(conflicts[1])), f"{other.seconds:.2f} s"]


def row(cells):
    return f"| {' | '.join(cells)} |"


def main():
    program, *options = sys.argv[1:]
    solver = options[options.index("--beside") + 1] if "--beside" in options else None
    titles = "Formula,Variables,Clauses,Answer,Additions,Hints,Propagations,Time,Additions a second,Peak memory".split(",")
    titles += [f"{solver}: conflicts", "Time"] if solver else []
    print(row(titles), row(["---"] * len(titles)).replace(" ", ""), sep="\n")
    with tempfile.TemporaryDirectory() as folder:
        path = os.path.join(folder, "formula")
        for name, words in workloads():
            write_formula(words, path)
            cells = [name, *columns(program, path, "--steps" in options)]
            if solver:
                write_formula(["--dimacs", *words], path)
                cells += columns_beside(solver, path)
            print(row(cells), flush=True)


if __name__ == "__main__":
    usage(__doc__, 1)
    main()
