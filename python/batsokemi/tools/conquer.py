"""conquer [OPTION VALUE].. [--jobs N] [--ssh HOSTS] [--effort N] [--out DIR] [--program FILE] FILE

Finds the fewest steps for tables that take long, with many processors. A walk looks for a chain first; then each
subproblem of each smaller size gets a run of its own by GNU parallel, and the parts make one certificate, which `recheck`
judges. A search that was stopped goes on when it is started again with the same words.

  FILE            the tables; - is standard input
  OPTION VALUE    options of `synth`: --basis, --method (auto), --conflicts, --max; by `fence` and `strong-fence` a size
                  has many parts, otherwise one
  --effort N      how much work the walk does (1)
  --jobs N        how many runs at once, on each host (the number of processors)
  --ssh HOSTS     hosts for parallel's --sshlogin, as 8/host1,host2,: with : for this one; on each the program has the
                  same path
  --out DIR       the folder of the parts and of the certificate DIR/certificate.chains (conquered)
  --program FILE  the program `batsokemi`

It prints the verdict of `recheck`; on standard error a line for each part that is done, with the number of parts left.

    python3 -m batsokemi conquer --method strong-fence --ssh 16/a,16/b,: hard.tables

This script isn't proved, but what `recheck` says of the certificate is. Status 0; 1 for a usage error; 2 where a file
can't be read, or DIR belongs to another question; 3 where a part has no answer or the certificate isn't valid, or without
GNU parallel. Debian: apt-get install parallel"""

from __future__ import annotations

import sys
from pathlib import Path

from ..conquering import Conquest, Part
from ..errors import Error, UsageError
from ..tables import tables_of
from .words import Words, bytes_in


def main(words: list[str]) -> int:
    parser = Words('conquer')
    parser.add_argument('--basis')
    parser.add_argument('--method')
    parser.add_argument('--conflicts', type=int)
    parser.add_argument('--max', type=int, dest='max_steps')
    parser.add_argument('--effort', type=int)
    parser.add_argument('--jobs')
    parser.add_argument('--ssh')
    parser.add_argument('--out', type=Path, default=Path('conquered'))
    parser.add_argument('--program')
    parser.add_argument('file')
    given = parser.parse_args(words)
    options = {name: getattr(given, name) for name in ('basis', 'method', 'conflicts', 'max_steps')}
    tables = tables_of(bytes_in(given.file))
    try:
        conquest = Conquest(tables, given.out, given.effort, given.program, **options)
        conquest.run(tell, given.jobs, given.ssh)
        print(conquest.judge(conquest.join()))
    except UsageError:
        raise
    except Error as error:
        raise ChildProcessError(str(error)) from None
    return 0


def tell(part: Part, come: str, left: int) -> None:
    """Says that a part is done."""
    if come != 'nothing':
        print(f'size {part.size}, part {part.number}: {come}; {left} parts left', file=sys.stderr)
