"""tabulate [--processes N] [--keep DIR] [OPTION VALUE].. FILE..

Finds the fewest steps for many functions and rechecks each certificate. Each line of the files is one question: the
table of an output, or of several, separated by commas, as rows of 0, 1 and -, or in hex with 0x in front; the rest of
a line after a blank or # is ignored. `-` is standard input.

  --processes N   the number of processes (the number of processors)
  --keep DIR      keeps the certificates as DIR/NUMBER.chains
  OPTION VALUE    options of `synth`: --basis, --method, --conflicts, --max, --effort

It prints a line for each question, in order: a number, the tables and the verdict, separated by tabs; then, on standard
error, how many questions have which verdict. On a terminal there is a bar, where tqdm is installed.

    python3 -m batsokemi classes 4 | python3 -m batsokemi tabulate -

Status 0; 1 for a usage error; 2 where a file can't be read; 3 where a question has no verdict."""

from __future__ import annotations

import collections
import sys
from pathlib import Path

from ..pool import Told, tabulate
from ..texts import text_of
from .words import Words, bytes_in


def main(words: list[str]) -> int:
    parser = Words('tabulate')
    parser.add_argument('--processes', type=int)
    parser.add_argument('--keep', type=Path)
    parser.add_argument('--basis')
    parser.add_argument('--method')
    parser.add_argument('--conflicts', type=int)
    parser.add_argument('--max', type=int, dest='max_steps')
    parser.add_argument('--effort', type=int)
    parser.add_argument('files', nargs='+')
    given = parser.parse_args(words)
    asked = {name: getattr(given, name) for name in ('basis', 'method', 'conflicts', 'max_steps', 'effort')}
    each = [question for file in given.files for question in questions(bytes_in(file))]
    if given.keep:
        given.keep.mkdir(parents=True, exist_ok=True)
    counts: collections.Counter[str] = collections.Counter()
    told = tabulate(each, processes=given.processes, keep=given.keep is not None, progress=sys.stderr.isatty(), **asked)
    for number, (tables, answer) in enumerate(zip(each, told), 1):
        print(number, ','.join(tables), answer.verdict, sep='\t')
        counts[kind(answer)] += 1
        if given.keep and answer.certificate is not None:
            (given.keep / f'{number}.chains').write_bytes(answer.certificate)
    print(f'{len(each)} questions:', ', '.join(f'{count} {name}' for name, count in counts.items()), file=sys.stderr)
    return 3 if any(name.startswith('error:') for name in counts) else 0


def questions(data: bytes) -> list[list[str]]:
    """The tables of each line."""
    lines = (line.split('#')[0].split() for line in text_of(data).split('\n'))
    return [line[0].split(',') for line in lines if line]


def kind(told: Told) -> str:
    """The first word of a verdict, or the name of an error."""
    return ' '.join(told.verdict.split(' ')[: 1 if told.fine else 2])
