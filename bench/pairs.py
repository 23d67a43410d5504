#!/usr/bin/env python3
"""pairs.py PROGRAM [--only WORD] [--gates N] [--judge CHECKER] [NETLIST.blif ..]: PROGRAM's `equiv` of pairs of equivalent
netlists, beside ABC's `cec` and `&cec`, as a table: verdict, user seconds, additions and bytes of the log, memory.

The pairs are each NETLIST beside what PROGRAM's `improve` and two scripts of ABC make of it, and of about N gates each
(10,000): an array multiplier, adders whose carries ripple and are chosen, random logic of three kinds, and logic of
adders, multipliers and multiplexers, each beside what the scripts make of it. Each run has 60 seconds of
processor time, so that other work on the machine doesn't end it. With --judge an LRAT checker (`CHECKER FORMULA LOG`) is
asked of each log that refutes, on the formula that miter.py writes."""

import os
import resource
import signal
import subprocess
import sys
import tempfile

import circuits
import netlists
from miter import Netlist, dimacs
from miters import SCRIPTS, controlled, improved
from usage import usage

LIMIT = 60


def run(words, text="", limit=LIMIT):
    """What a program writes, its user seconds and the most memory in MB; None in place of the text where time runs out."""
    pipe, last = subprocess.PIPE, lambda: resource.setrlimit(resource.RLIMIT_CPU, (limit, limit + 1))
    with subprocess.Popen(
        words, stdin=pipe, stdout=pipe, stderr=subprocess.DEVNULL, text=True, encoding="latin-1", preexec_fn=last
    ) as child:
        said, _ = child.communicate(text)
    used = resource.getrusage(resource.RUSAGE_CHILDREN)
    is_late = child.returncode in (-signal.SIGXCPU, -signal.SIGKILL)
    return None if is_late else said, used.ru_utime, used.ru_maxrss / 1024


def apart(words, text="", limit=LIMIT):
    """The same in a process of its own, so that seconds and memory are the program's alone."""
    reading, writing = os.pipe()
    child = os.fork()
    if not child:
        os.close(reading)
        said, seconds, memory = run(words, text, limit)
        with os.fdopen(writing, "w", encoding="latin-1") as out:
            out.write(f"{said is not None} {seconds} {memory}\n{said or ''}")
        os._exit(0)
    os.close(writing)
    with os.fdopen(reading, encoding="latin-1") as back:
        head, _, said = back.read().partition("\n")
    os.waitpid(child, 0)
    ended, seconds, memory = head.split()
    return (said if ended == "True" else None), float(seconds), float(memory)


def made(gates):
    """The first netlists of about `gates` gates: name and text, with a second one where it is made here."""
    bits = max(2, round((gates / 7.8) ** 0.5))
    yield f"array multiplier, {bits} bits", circuits.multiplier(bits), None
    bits = max(8, gates // 17)
    yield f"adders of {bits} bits, rippled and chosen by 8", circuits.ripple_adder(bits), circuits.carry_select_adder(bits, 8)
    outputs = max(20, gates // 20)
    yield f"{gates:,} random gates", circuits.random_gates(gates, 100, outputs, 40, 1), None
    yield f"{gates:,} random gates, near", netlists.near(gates, 1), None
    yield f"{gates:,} random gates, wide", circuits.random_gates(gates, max(50, gates // 100), outputs, 10**9, 3), None
    yield f"logic of {gates:,} gates", netlists.Logic(gates).text(), None


def rewritten(script, text):
    with tempfile.TemporaryDirectory() as folder:
        first, second = (os.path.join(folder, name) for name in ("first.blif", "second.blif"))
        with open(first, "w", encoding="latin-1") as file:
            file.write(text)
        apart(["berkeley-abc", "-q", f"read_blif {first}; {script}; write_blif {second}"], limit=300)
        if not os.path.exists(second):
            return None
        with open(second, encoding="latin-1") as file:
            return controlled(text, file.read())


def pairs(program, paths, gates):
    for path in paths:
        with open(path, encoding="latin-1") as file:
            text = file.read()
        name = os.path.basename(path).removesuffix(".blif")
        yield f"{name}, `improve`", text, improved(program, text)
        for word, script in SCRIPTS.items():
            yield f"{name}, {word}", text, rewritten(script, text)
    for name, first, second in made(gates) if gates else ():
        if second:
            yield name, first, second
            continue
        for word, script in SCRIPTS.items():
            yield f"{name}, {word}", first, rewritten(script, first)


def abc(first, second):
    """User seconds of `cec` and `&cec`, or what they said in place of it."""
    with tempfile.TemporaryDirectory() as folder:
        names = [os.path.join(folder, name) for name in ("a.blif", "b.blif", "a.aig", "b.aig")]
        for name, text in zip(names, (first, second)):
            with open(name, "w", encoding="latin-1") as file:
                file.write(text)
            apart(["berkeley-abc", "-q", f"read_blif {name}; strash; zero; write_aiger -s {name[:-4]}aig"])
        for command in (f"cec -n {names[0]} {names[1]}", f"&cec {names[2]} {names[3]}"):
            said, seconds, _ = apart(["berkeley-abc", "-q", command])
            yield f"{seconds:.2f}" if said and "are equivalent" in said else "over 60" if said is None else "open"


def judged(checker, first, second, log):
    """Whether an LRAT checker takes the log as a refutation of the miter."""
    with tempfile.TemporaryDirectory() as folder:
        formula, lines = (os.path.join(folder, name) for name in ("miter.cnf", "log.lrat"))
        with open(formula, "w", encoding="ascii") as file:
            file.write(dimacs(Netlist(first), Netlist(second)))
        with open(lines, "w", encoding="ascii") as file:
            file.write(log)
        return subprocess.run([checker, formula, lines], stdout=subprocess.DEVNULL, check=False).returncode == 0


def row(program, name, first, second, checker):
    if second is None:
        return
    said, seconds, memory = apart([program, "equiv"], first + second)
    verdict, _, rest = (said or "over 60\n").partition("\n")
    log = rest.removesuffix("done\n")
    additions = sum(line.split(" ", 2)[1:2] != ["d"] for line in log.splitlines())
    seal = ""
    if checker and verdict == "equal":
        seal = ", checked" if judged(checker, first, second, log) else ", NOT CHECKED"
    cells = [name, verdict + seal, f"{seconds:.2f}", f"{additions:,}", f"{len(log):,}", f"{memory:.0f}", *abc(first, second)]
    print("| " + " | ".join(cells) + " |", flush=True)


def main():
    words, only, checker, gates = sys.argv[1:], "", None, 10_000
    if not words or words[0] in ("-h", "--help"):
        sys.exit(__doc__)
    program, *words = words
    while words[:1] and words[0].startswith("--"):
        option, value, *words = words
        if option == "--only":
            only = value
        elif option == "--gates":
            gates = int(value)
        elif option == "--judge":
            checker = value
        else:
            sys.exit(__doc__)
    print("| Pair | `equiv` | s | Additions | Bytes of the log | MB | `cec` s | `&cec` s |", "|---" * 8 + "|", sep="\n")
    for name, first, second in pairs(program, words, gates):
        if only in name:
            row(program, name, first, second, checker)


if __name__ == "__main__":
    usage(__doc__, 1)
    main()
