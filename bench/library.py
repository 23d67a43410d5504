#!/usr/bin/env python3
"""library.py [LIBRARY [PROGRAM]] [--classes]: the cost of a library call from C and from Python, and of a process, as a
table. LIBRARY is the shared library (prebuilt), with the static one in the same folder.

The question is a function of three steps (a multiplexer). A time is the least mean of five runs of 400 calls, in
microseconds. With --classes it also synthesises the 222 NPN classes of four inputs and rechecks each certificate: by the module
with one process and with four, and by tools/tabulate with four jobs, where GNU parallel is installed."""
import os
import shutil
import subprocess
import sys
import tempfile
import time
from pathlib import Path

TOP = Path(__file__).resolve().parents[1]
sys.path.insert(0, str(TOP / 'python'))
import batsokemi  # noqa: E402

from usage import usage

TABLES = '01010011'
TEXT = f'inputs 3\n{TABLES}\n'.encode()


def least(deed, turns=400):
    """The least mean of five runs, in microseconds."""
    means = []
    for _ in range(5):
        begun = time.perf_counter()
        for _ in range(turns):
            deed()
        means.append((time.perf_counter() - begun) / turns)
    return 1e6 * min(means)


def from_c(static):
    """The two times that examples/c/speed.c prints, each the least of five runs."""
    with tempfile.TemporaryDirectory() as folder:
        words = ['-std=c11', '-D_DEFAULT_SOURCE', '-O2', f'-I{TOP}/include', f'{TOP}/examples/c/speed.c', static, '-o', f'{folder}/speed']
        subprocess.run(['cc', *words], check=True)
        runs = [subprocess.run([f'{folder}/speed', '400'], capture_output=True, check=True).stdout.decode().split() for _ in range(5)]
    return [min(float(run[at]) for run in runs) for at in (1, 6)]


def calls(library, program):
    """A row for each way to ask one question."""
    made, process = batsokemi.Library(library), batsokemi.Process(program)
    certificate = batsokemi.synth(TABLES, engine=made).certificate
    print('| One question, microseconds | `synth` | `recheck` |\n|---|---|---|')
    print('| C | {:.0f} | {:.0f} |'.format(*from_c(library.replace('.so', '.a'))))
    print(f'| Python, `Library.run` | {least(lambda: made.run(["synth"], TEXT)):.0f} | {least(lambda: made.run(["recheck"], certificate)):.0f} |')
    print(f'| Python, `synth(..)` and `recheck()` | {least(lambda: batsokemi.synth(TABLES, engine=made)):.0f} | {least(lambda: batsokemi.recheck(certificate, engine=made)):.0f} |')
    print(f'| a process, from Python | {least(lambda: process.run(["synth"], TEXT), 40):.0f} | {least(lambda: process.run(["recheck"], certificate), 40):.0f} |')


def seconds(deed):
    """What a deed takes, by the clock."""
    begun = time.perf_counter()
    deed()
    return time.perf_counter() - begun


def by_tabulate(program, lines):
    """Asks the questions of these lines by tools/tabulate."""
    with tempfile.TemporaryDirectory() as folder:
        words = [f'{TOP}/tools/tabulate', '--lines', '--program', program, '--out', f'{folder}/out', '-', '--', '-j', '4']
        subprocess.run(words, input=lines, stdout=subprocess.DEVNULL, check=True)


def classes(library, program):
    """A row for each way to ask for the classes."""
    os.environ['BATSOKEMI_LIBRARY'] = library
    lines = subprocess.run([f'{TOP}/tools/classes', '4'], capture_output=True, check=True).stdout
    functions = lines.decode().split()
    print('| The 222 NPN classes of four inputs, rechecked | Seconds |\n|---|---|')
    for count in (1, 4):
        print(f'| the module, {count} process{"es" * (count > 1)} | {seconds(lambda: list(batsokemi.tabulate(functions, processes=count))):.1f} |', flush=True)
    if shutil.which('parallel'):
        print(f'| `tools/tabulate`, 4 jobs | {seconds(lambda: by_tabulate(program, lines)):.1f} |')


def main():
    files = [word for word in sys.argv[1:] if not word.startswith('--')]
    library = os.path.abspath(files[0] if files else f'{TOP}/prebuilt/x86_64-linux/libbatsokemi.so')
    program = os.path.abspath(files[1] if files[1:] else f'{TOP}/prebuilt/x86_64-linux/batsokemi-strict')
    calls(library, program)
    if '--classes' in sys.argv:
        print()
        classes(library, program)


if __name__ == '__main__':
    usage(__doc__)
    main()
