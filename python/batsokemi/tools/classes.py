"""classes N

Prints a representative of each NPN class of functions of N inputs (0 to 4), one table per line: the first function of
the class in lexicographic order. Functions are in one class if negations and a permutation of the inputs and a negation
of the output make one of the other. There are 1, 2, 4, 14 and 222 classes. `tabulate` takes these lines.

    tools/classes 4 | tools/tabulate --lines -

Status 0; 1 for a usage error."""

from __future__ import annotations

from ..npn import classes
from .words import Words, write


def main(words: list[str]) -> int:
    parser = Words('classes')
    parser.add_argument('inputs', type=int, choices=range(5))
    write(''.join(f'{table}\n' for table in classes(parser.parse_args(words).inputs)))
    return 0
