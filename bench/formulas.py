#!/usr/bin/env python3
"""The size of formulas, and the cost of building them.

    formulas.py PROGRAM [SIZE]

PROGRAM is the built program `benchmarks` (`PROGRAM formulas`). The table is one output of six inputs, 1 where three of them
are 1, so that it is symmetric in all inputs; SIZE steps (10) over all operators. It prints a row for each method: the
number of formulas of the size, the variables of the largest one, the clauses and literals of all together, the least user
time of three runs, and the most memory of a run."""
import os
import subprocess
import sys
import tempfile

from usage import usage

METHODS = ("plain", "ssv", "select", "fence", "strong", "strong-fence")


def table():
    cells = "".join("1" if bin(row).count("1") == 3 else "0" for row in range(64))
    return f"inputs 6\n{cells}\n".encode()


def run(program, method, size):
    """What the program printed, its user time in seconds, and its most memory in kilobytes."""
    with tempfile.TemporaryFile() as given, tempfile.TemporaryFile() as told:
        given.write(table())
        given.seek(0)
        child = subprocess.Popen([program, "formulas", method, str(size)], stdin=given, stdout=told)
        _, status, used = os.wait4(child.pid, 0)
        if status != 0:
            sys.exit(f"{method} {size}: status {status}")
        told.seek(0)
        return told.read().decode().strip(), used.ru_utime, used.ru_maxrss


def main():
    program = sys.argv[1]
    size = int(sys.argv[2]) if len(sys.argv) > 2 else 10
    print("| Method | Steps | Formula | Time | Memory |")
    print("|---|---|---|---|---|")
    for method in METHODS:
        runs = [run(program, method, size) for _ in range(3)]
        time = min(used for _, used, _ in runs)
        memory = max(most for _, _, most in runs)
        print(f"| `{method}` | {size} | {runs[0][0]} | {time:.2f} s | {memory / 1024:.0f} MB |")


if __name__ == "__main__":
    usage(__doc__, 1)
    main()
