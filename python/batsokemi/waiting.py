"""Work that is waited for so that a signal is handled meanwhile."""

from __future__ import annotations

import threading
from collections.abc import Callable
from typing import TypeVar

T = TypeVar('T')

# Whether work may be left in this process.
leaving = True


def leave_nothing() -> None:
    """Work isn't left in this process from now on, which saves the threads: the processes of a pool are ended."""
    global leaving
    leaving = False


def waited(work: Callable[[], T]) -> T:
    """What the work gives, or the error that it raises.

    Python handles signals in the main thread alone, and not before a call of C has ended. So the work of that thread
    gets a thread of its own. Where a handler raises an error, as KeyboardInterrupt, that error comes at once, and the
    work is left: it goes on until its end, or until Python ends.

    >>> waited(lambda: 2 + 2)
    4
    """
    if not leaving or threading.current_thread() is not threading.main_thread():
        return work()
    ended = threading.Event()
    answers: list[T] = []
    errors: list[BaseException] = []

    def run() -> None:
        try:
            answers.append(work())
        except BaseException as error:
            errors.append(error)
        finally:
            ended.set()

    threading.Thread(target=run, name='batsokemi', daemon=True).start()
    ended.wait()
    if errors:
        raise errors.pop()
    return answers.pop()
