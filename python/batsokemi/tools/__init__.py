"""batsokemi-tools TOOL [WORDS]

  tables     truth tables: hex (kitty, ABC), PLA, one question on a line, and what `synth` reads
  export     a chain as BLIF, BENCH, Verilog, an expression or DOT
  draw       a picture of a chain or a netlist, by Graphviz
  classes    a function of each NPN class
  tabulate   the fewest steps of many functions, each certificate rechecked
  conquer    the fewest steps of one function, its subproblems at once, also on many machines
  blif       a netlist in BENCH as BLIF

TOOL --help says more. `python3 -m batsokemi TOOL` is the same, and in a checkout `tools/TOOL`; only `tools/tabulate` is
another program, which runs GNU parallel and so many machines. The tools aren't proved.

Status 0; 1 for a usage error; 2 where a file can't be read or written, or isn't of its form; what else each says."""

from __future__ import annotations

import signal
import sys
from importlib import import_module

from ..errors import FormError, UsageError

TOOLS = ('tables', 'export', 'draw', 'classes', 'tabulate', 'conquer', 'blif')


def run(tool: str, words: list[str]) -> int:
    """Runs a tool, and returns its status."""
    if hasattr(signal, 'SIGPIPE'):
        signal.signal(signal.SIGPIPE, signal.SIG_DFL)  # who reads may stop, as `head` does
    module = import_module(f'.{tool}', __name__)
    if words[:1] in (['--help'], ['-h']):
        print(module.__doc__)
        return 0
    try:
        return int(module.main(words))
    except OSError as error:
        why = f'{error.filename}: {error.strerror}' if error.filename else str(error)
        print(f'{tool}: {why}', file=sys.stderr)
        return 3 if isinstance(error, ChildProcessError) else 2
    except FormError as error:
        print(f'{tool}: {error}', file=sys.stderr)
        return 2
    except UsageError as error:
        print(f'{tool}: {error}', file=sys.stderr)
        return 1
    except KeyboardInterrupt:
        return 128 + signal.SIGINT


def main(words: list[str] | None = None) -> int:
    """The command `batsokemi-tools`."""
    given = sys.argv[1:] if words is None else words
    if given[:1] in (['--help'], ['-h']):
        print(__doc__)
        return 0
    if not given or given[0] not in TOOLS:
        said = f'no tool {given[0]!r}' if given else 'no tool is named'
        print(f'batsokemi-tools: {said}; the tools are {", ".join(TOOLS)}, and --help says more', file=sys.stderr)
        return 1
    return run(given[0], given[1:])
