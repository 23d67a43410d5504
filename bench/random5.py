#!/usr/bin/env python3
"""random5.py PROGRAM [--stream SEED] [--effort N ..] [--count N] [--whole N]: random functions of five inputs by `synth`.

The functions are the first N (100) of those whose tables are `random.Random(k).getrandbits(32)` for k = 1, 2 and so on, or
with --stream those whose rows are drawn by `choice('01')` of one `random.Random(SEED)`, table after table. The method is
`auto`. For each effort (1) walks alone look for a chain, since the budget of each formula is one learnt clause: the mean of its steps,
how many functions need how many, and the user seconds for each function. With --whole the first N of the functions are
asked with the default budget, a row for each: verdict, user seconds, bytes of the certificate, and the verdict and the
seconds of `recheck`."""
import collections
import random
import resource
import subprocess
import sys

from usage import usage


STREAM = []


def table(number):
    return STREAM[number - 1] if STREAM else f'{random.Random(number).getrandbits(32):032b}'


def run(words, text):
    """What a program writes, and its user seconds."""
    start = resource.getrusage(resource.RUSAGE_CHILDREN).ru_utime
    done = subprocess.run(words, input=text, capture_output=True, check=False)
    if done.returncode not in (0, 4):
        sys.exit(f'{" ".join(words)}: {done.stderr.decode()}')
    return done.stdout, resource.getrusage(resource.RUSAGE_CHILDREN).ru_utime - start


def synth(program, number, *options):
    """A certificate, its verdict in words, and the user seconds."""
    text, used = run([program, 'synth', '--method', 'auto', *options], f'inputs 5\n{table(number)}\n'.encode())
    return text, text.split(b'\n')[-3].decode().split(), used


def bounds(program, effort, count):
    steps, seconds = collections.Counter(), 0.0
    for number in range(1, count + 1):
        _, verdict, used = synth(program, number, '--conflicts', '1', '--effort', effort)
        steps[int(verdict[-1])] += 1
        seconds += used
    mean = sum(size * many for size, many in steps.items()) / count
    shown = ', '.join(f'{many} of {size}' for size, many in sorted(steps.items()))
    print(f'| --effort {effort} | {mean:.2f} | {shown} | {seconds / count:.2f} s |', flush=True)


def whole(program, count):
    print('\n| Seed | Function | Verdict | Found in | Certificate | Rechecked in |\n|---|---|---|---|---|---|', flush=True)
    for number in range(1, count + 1):
        text, verdict, used = synth(program, number)
        said, again = run([program, 'recheck'], text)
        shown = ' '.join(verdict) if said.decode().split() == verdict else 'not rechecked'
        print(f'| {number} | `{table(number)}` | {shown} | {used:.1f} s | {len(text):,} bytes | {again:.2f} s |', flush=True)


def main():
    usage(__doc__, 1)
    program, *words = sys.argv[1:]
    efforts, count, asked = [], 100, 0
    while len(words) > 1:
        word, value, *words = words
        if word == '--effort':
            efforts.append(value)
        elif word == '--count':
            count = int(value)
        elif word == '--whole':
            asked = int(value)
        elif word == '--stream':
            drawn = random.Random(int(value))
            STREAM.extend(''.join(drawn.choice('01') for _ in range(32)) for _ in range(1000))
    if efforts or not asked:
        print(f'| {count} functions | mean | steps | for each |\n|---|---|---|---|', flush=True)
        for effort in efforts or ['1']:
            bounds(program, effort, count)
    if asked:
        whole(program, asked)


main()
