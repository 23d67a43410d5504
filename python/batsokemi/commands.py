"""The commands as functions."""

from __future__ import annotations

import os
import warnings
from collections.abc import Sequence
from functools import lru_cache
from typing import Literal, Union

from .calls import answered, answered_pair
from .chain import Chain
from .engine import Engine, Progress, Telling, usual_engine
from .results import Agreement, Equivalence, Report, Result, Verdict, recheck_with
from .tables import TablesLike, tables_of
from .texts import Text, bytes_of

# The name of a basis (`all`, `u2`, `bench`, `nand`), its operators with commas between them, or a list of them.
Basis = Union[str, Sequence[str]]
Method = Literal['ssv', 'select', 'fence', 'strong', 'strong-fence', 'plain']
MethodChoice = Literal[Method, 'auto']


@lru_cache(maxsize=None)
def default_engine() -> Engine:
    """The default engine: the library, or the program where no library is found."""
    return usual_engine()


def synth(
    tables: TablesLike,
    *,
    inputs: int | None = None,
    basis: Basis | None = None,
    method: MethodChoice | None = None,
    conflicts: int | None = None,
    max_steps: int | None = None,
    least_depth: bool = False,
    effort: int | None = None,
    progress: Progress | None = None,
    engine: Engine | None = None,
) -> Result:
    """Finds a chain of the fewest steps for truth tables, and a certificate that no smaller chain exists.

    Parameters
    ----------
    tables : Tables, str, int, bytes, path, or sequence of str and int
        Rows of `0`, `1` and `-` (row 0 first, x1 the most significant digit of its number), hex with 0x in front or
        numbers (as in kitty and ABC), one or several; or the text of a file of tables, or its path.
    inputs : int, optional
        The number of inputs, 0 to 6, where the length of the tables doesn't determine it.
    basis : str or sequence of str, optional
        The operators that a step may have: `all` (default), `u2`, `bench`, `nand`, or some of 0000 .. 1111.
    method : {'ssv', 'select', 'fence', 'strong', 'strong-fence', 'plain', 'auto'}, optional
        How a size becomes a formula; with 'auto' as the tables suggest, which is the default, except with
        `least_depth`.
    conflicts : int, optional
        The number of learnt clauses after which a formula is left open (100,000).
    max_steps : int, optional
        The greatest size to try, 0 to 16 (16).
    least_depth : bool
        Whether to look also for the fewest levels among the chains of the fewest steps; by `fence`.
    effort : int, optional
        A factor for the work of the walks that look for a chain before formulas do, 0 to 1,000 (1).
    progress : callable, optional
        Called with each size, an `int`, when its part of the certificate comes: smaller ones are done then. With it the
        program does the work, in a process of its own, since the library tells nothing before its end.
    engine : Engine, optional
        What runs the command (`default_engine()`).

    Returns
    -------
    Result

    Raises
    ------
    TablesError
        If the tables aren't of their form.
    UsageError
        If an option has no such value, or two exclude each other.
    LimitError, MemoryFault
        If there are more than 6 inputs or 8 outputs, or no memory.
    FileNotFoundError
        If `progress` is given, and the program isn't there.

    Examples
    --------
    >>> result = synth('0110')
    >>> str(result.verdict), result.steps
    ('minimum 1', 1)
    """
    asked = tables_of(tables, inputs)
    if method is None:
        method = 'fence' if least_depth else 'auto'
    engine = engine or default_engine()
    run = answered(
        engine if progress is None else Telling(engine, progress),
        'synth',
        str(asked).encode(),
        basis=basis,
        method=method,
        conflicts=conflicts,
        max_steps=max_steps,
        least_depth=least_depth or None,
        effort=effort,
    )
    return Result.read(asked, run.output, engine)


def recheck(certificate: Text, *, engine: Engine | None = None) -> Verdict:
    """Checks a certificate, of steps or of levels too, and returns its verdict.

    Parameters
    ----------
    certificate : str, bytes or path
    engine : Engine, optional

    Returns
    -------
    Verdict

    Raises
    ------
    RefusedError
        If the certificate isn't valid.
    MalformedError, LimitError
        If it isn't of its form, or longer than 256 MiB.

    Examples
    --------
    >>> str(recheck(synth('0110').certificate))
    'minimum 1'
    """
    return recheck_with(engine or default_engine(), bytes_of(certificate))


def agree(
    tables: TablesLike, chain: Chain | Text, *, inputs: int | None = None, engine: Engine | None = None
) -> Agreement:
    """Whether a chain computes tables.

    Parameters
    ----------
    tables : Tables, str, int, bytes, path, or sequence of str and int
        As in `synth`.
    chain : Chain, str, bytes or path
        The chain, or a text with one.
    inputs : int, optional
        As in `synth`.
    engine : Engine, optional

    Returns
    -------
    Agreement

    Raises
    ------
    TablesError, ChainError
        If the tables or the chain aren't of their form.
    MalformedError, LimitError
        If the program refuses them.

    Examples
    --------
    >>> agree('0111', synth('0110').chain)
    Agreement(agrees=False, output=1, row=3)
    """
    asked = tables_of(tables, inputs)
    given = chain if isinstance(chain, Chain) else Chain.read(chain, asked.inputs)
    run = answered(engine or default_engine(), 'agree', f'{asked}{given}end\n'.encode())
    _, *numbers = run.output.split()
    return Agreement(not numbers, *map(int, numbers))


def improve(
    netlist: Text,
    *,
    netlist_format: Literal['blif', 'bench'] | None = None,
    basis: Basis | None = None,
    method: Method | None = None,
    cap: int | None = None,
    rounds: int | None = None,
    conflicts: int | None = None,
    observe: bool | None = None,
    effort: int | None = None,
    seed: int | None = None,
    engine: Engine | None = None,
) -> tuple[str, Report]:
    """Makes a netlist smaller by exact resynthesis of small windows.

    Parameters
    ----------
    netlist : str, bytes or path
    netlist_format : {'blif', 'bench'}, optional
        `blif`, or `bench` for the path of a file NAME.bench.
    basis : str or sequence of str, optional
        The operators that new gates may have.
    method : {'ssv', 'select', 'fence', 'strong', 'strong-fence', 'plain'}, optional
        How the question of a window becomes a formula.
    cap : int, optional
        The most gates of a window, 0 to 8 (5).
    rounds : int, optional
        The most rounds over all windows that may change something (1,000).
    conflicts : int, optional
        The number of learnt clauses after which a window is left open (100,000).
    observe : bool, optional
        Whether to use observability don't-cares too.
    effort : int, optional
        How long the search for smaller netlists goes on, 0 to 1,000; a greater one never leaves more gates.
    seed : int, optional
        The seed of the random choices, 0 to 1,000,000 (1).
    engine : Engine, optional

    Returns
    -------
    tuple of str and Report
        The new text, and the report.

    Raises
    ------
    UsageError
        If an option has no such value, or two exclude each other.
    MalformedError, LimitError, MemoryFault
        If the netlist isn't of its form or beyond a limit, or there is no memory.

    Examples
    --------
    >>> dead = '.names a b dead\\n11 1\\n.end\\n'
    >>> text, report = improve('.inputs a b\\n.outputs y\\n.names a b y\\n1- 1\\n-1 1\\n' + dead)
    >>> report.before, report.after, report.settled
    (2, 1, True)
    """
    if netlist_format is None and isinstance(netlist, os.PathLike) and os.fspath(netlist).endswith('.bench'):
        netlist_format = 'bench'
    run = answered(
        engine or default_engine(),
        'improve',
        bytes_of(netlist),
        basis=basis,
        method=method,
        cap=cap,
        rounds=rounds,
        conflicts=conflicts,
        netlist_format=netlist_format,
        observe=observe,
        effort=effort,
        seed=seed,
    )
    return run.output.decode(), Report.read(run.notes.decode())


def equiv(first: Text, second: Text, *, conflicts: int | None = None, engine: Engine | None = None) -> Equivalence:
    """Whether two netlists in BLIF are equivalent.

    Parameters
    ----------
    first, second : str, bytes or path
        The netlists, with one interface. `bench_to_blif` writes others in BLIF.
    conflicts : int, optional
        The number of conflicts without a result before the answer is `undecided` (100,000).
    engine : Engine, optional

    Returns
    -------
    Equivalence
        With an LRAT log where they are; else with values of inputs and latches under which they differ.

    Raises
    ------
    UsageError
        If the option has no such value.
    MalformedError, LimitError, RefusedError, MemoryFault
        If a netlist isn't of its form, is empty or beyond a limit, the interfaces differ, or there is no memory.

    Warns
    -----
    UserWarning
        If neither netlist has an output or latch, so that nothing is compared.

    Examples
    --------
    >>> copy = '.inputs a\\n.outputs y\\n.names a y\\n1 1\\n.end\\n'
    >>> bool(equiv(copy, copy)), bool(equiv(copy, copy.replace('1 1', '0 1')))
    (True, False)
    """
    run = answered_pair(engine or default_engine(), bytes_of(first), bytes_of(second), conflicts=conflicts)
    if run.notes:
        warnings.warn(run.notes.decode().strip(), stacklevel=2)
    return Equivalence.read(run.output)
