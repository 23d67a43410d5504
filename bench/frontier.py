#!/usr/bin/env python3
"""frontier.py PROGRAM [SECONDS] [CONFLICTS]: what has a certificate, as the table of docs/FRONTIER.md: functions of five
inputs and of several outputs, each with the verdict of `PROGRAM synth --method auto`, what `recheck` says, user seconds of
both, bytes of the certificate, and the tables, with which it can be repeated.

A search that takes longer than SECONDS (60) is stopped and has no verdict. CONFLICTS (100000) is the budget."""
import sys

from synth import run, tables_of
from usage import usage


def rows(inputs, value):
    """A row of a function of how many inputs are true."""
    return ''.join(str(int(value(bin(place).count('1')))) for place in range(1 << inputs))


def weights(inputs, chosen):
    """The function that is 1 where the number of true inputs is one of `chosen`."""
    return [rows(inputs, lambda true: true in chosen)]


def bits(inputs, count):
    """The sum of the inputs, most significant bit first."""
    return [rows(inputs, lambda true, bit=bit: true >> bit & 1) for bit in reversed(range(count))]


def symmetric():
    """The symmetric functions of five inputs, one of each two that are complements or have all inputs complemented."""
    seen = set()
    for mask in range(1 << 6):
        chosen = frozenset(place for place in range(6) if mask >> place & 1)
        turned = frozenset(5 - place for place in chosen)
        others = [frozenset(range(6)) - each for each in (chosen, turned)]
        if seen.isdisjoint([chosen, turned, *others]):
            seen.add(chosen)
            yield chosen


def questions():
    """Names and tables."""
    for chosen in symmetric():
        said = ', '.join(map(str, sorted(chosen)))
        yield f'true inputs of five: {said or "none"}', weights(5, chosen)
    yield 'sum of three inputs', bits(3, 2)
    yield 'sum of four inputs', bits(4, 3)
    yield 'sum of two numbers of two bits', [
        ''.join(str((place >> 2) + (place & 3) >> bit & 1) for place in range(16)) for bit in (2, 1, 0)]
    yield 'product of two numbers of two bits', [
        ''.join(str((place >> 2) * (place & 3) >> bit & 1) for place in range(16)) for bit in (3, 2, 1, 0)]


def main():
    usage(__doc__, 1)
    program, seconds, conflicts = (sys.argv[1:] + ['60', '100000'][len(sys.argv) - 2:])[:3]
    print('| Function | Verdict | Found in | Certificate | Rechecked in | Tables |\n|---|---|---|---|---|---|')
    for name, tables in questions():
        words = [program, 'synth', '--method', 'auto', '--conflicts', conflicts]
        text, time = run(words, tables_of(tables), int(seconds))
        given = ' '.join(f'`{table}`' for table in tables)
        if text is None:
            print(f'| {name} | more than {seconds} s | | | | {given} |', flush=True)
            continue
        verdict, again = run([program, 'recheck'], text, int(seconds))
        said = verdict.decode().strip() if verdict is not None else 'not rechecked'
        print(f'| {name} | {said} | {time:.2f} s | {len(text):,} bytes | {again:.2f} s | {given} |', flush=True)


main()
