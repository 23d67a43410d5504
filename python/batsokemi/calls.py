"""Calls of an engine: arguments become words, and a call without an answer an error."""

from __future__ import annotations

from collections.abc import Callable, Mapping, Sequence

from .engine import Engine, Run
from .errors import UsageError, error_of
from .options import Value, fault_of, words_of


def answered(engine: Engine, command: str, data: bytes, **given: Value) -> Run:
    """A run that has an answer; otherwise an error is raised. A difference is an answer with status 8 and an output."""
    return judged(lambda words: engine.run(words, data), command, given)


def answered_pair(engine: Engine, first: bytes, second: bytes, **given: Value) -> Run:
    """The same for `equiv` of two texts, which are never joined."""
    return judged(lambda words: engine.run_pair(words, first, second), 'equiv', given)


def judged(run_of: Callable[[Sequence[str]], Run], command: str, given: Mapping[str, Value]) -> Run:
    """The run of a command, if it has an answer; otherwise an error is raised."""
    words = [command, *words_of(given)]
    try:
        run = run_of(words)
    except ValueError:
        raise refused(words, given) from None
    if run.status in (0, 4) or (run.status == 8 and run.output):
        return run
    raise refused(words, given) if run.status == 1 else error_of(run.status, run.notes)


def refused(words: Sequence[str], given: Mapping[str, Value]) -> UsageError:
    """The error of words that the program doesn't take, with the argument that is wrong."""
    return UsageError(1, 'error: Usage', ' '.join(words), *fault_of(words[0], given))
