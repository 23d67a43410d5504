"""Many functions at once, by a pool of processes."""

from __future__ import annotations

import os
import signal
import threading
from collections.abc import Iterable, Iterator, Sized
from functools import partial
from importlib import import_module
from typing import TYPE_CHECKING, NamedTuple

from .commands import synth
from .errors import Error, TablesError, UsageError
from .options import Value
from .tables import TablesLike
from .waiting import leave_nothing

if TYPE_CHECKING:
    from concurrent.futures import ProcessPoolExecutor

# How many questions a process takes at once: enough that handing them out costs little, few enough that no process is
# left alone with many hard ones.
CHUNK = 4


class Told(NamedTuple):
    """The result for one function: its verdict or an error line, and the certificate if it is kept."""

    verdict: str
    fine: bool
    certificate: bytes | None


def tell(tables: TablesLike, keep: bool, options: dict[str, Value]) -> Told:
    """The verdict of one function, after `recheck`."""
    try:
        result = synth(tables, **options)  # type: ignore[arg-type]
        return Told(str(result.recheck()), True, result.certificate if keep else None)
    except TablesError as error:
        return Told(f'error: BadTables {error}', False, None)
    except UsageError:
        raise
    except Error as error:
        return Told(f'error: {error}', False, None)


def tabulate(
    functions: Iterable[TablesLike],
    *,
    processes: int | None = None,
    keep: bool = False,
    progress: bool = False,
    **options: Value,
) -> Iterator[Told]:
    """The verdict of each function, in order, each certificate rechecked.

    An interruption, or an iteration that is left, ends the processes in the middle of their work; so does the end of
    the process that asked.

    Parameters
    ----------
    functions : iterable
        The tables of each question, as `synth` takes them.
    processes : int, optional
        The number of processes (the number of processors).
    keep : bool
        Whether to return the certificates too.
    progress : bool
        Whether to show a bar, where tqdm is installed.
    **options
        Those of `synth`.

    Yields
    ------
    Told

    Raises
    ------
    UsageError
        If an option has no such value.
    TypeError
        If an option isn't one of `synth`.

    Examples
    --------
    >>> [told.verdict for told in tabulate(['0001', '0110', '0011'], processes=1)]
    ['minimum 1', 'minimum 1', 'minimum 0']
    """
    ask = partial(tell, keep=keep, options=options)
    count = processes or os.cpu_count() or 1
    total = len(functions) if isinstance(functions, Sized) else None
    if count == 1:
        yield from shown(map(ask, functions), total, progress)
        return
    from concurrent.futures import ProcessPoolExecutor

    with ProcessPoolExecutor(count, initializer=bound) as pool:
        try:
            yield from shown(pool.map(ask, functions, chunksize=CHUNK), total, progress)
        except BaseException:
            end(pool)
            raise


def bound() -> None:
    """Binds a process of the pool to the one that asked: interruptions are for that one, and this one ends with it."""
    signal.signal(signal.SIGINT, signal.SIG_IGN)
    leave_nothing()
    threading.Thread(target=follow, daemon=True).start()


def follow() -> None:
    """Ends this process when its parent has ended."""
    from multiprocessing import parent_process

    parent = parent_process()
    if parent is not None:
        parent.join()
        os._exit(1)


def end(pool: ProcessPoolExecutor) -> None:
    """Ends the processes of a pool, whatever they do."""
    for process in list((pool._processes or {}).values()):
        process.terminate()


def shown(each: Iterator[Told], total: int | None, progress: bool) -> Iterable[Told]:
    """The same, with a bar of tqdm where it is wanted and installed."""
    if not progress:
        return each
    try:
        tqdm = import_module('tqdm').tqdm
    except ImportError:
        return each
    bar: Iterable[Told] = tqdm(each, total=total, unit='question')
    return bar
