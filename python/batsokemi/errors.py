"""The errors: of calls without an answer, and of values that aren't of their form."""

from __future__ import annotations


class Error(Exception):
    """A call without an answer.

    Attributes
    ----------
    status : int
        The status of the program.
    line : str
        The error line, or without one the name of the status.
    name : str
        The first item of the error line, such as `BadRow`.
    fields : tuple of int or str
        The other items, numbers as `int`.
    """

    def __init__(self, status: int, line: str) -> None:
        items = line.removeprefix('error:').split()
        super().__init__(' '.join(items))
        self.line = line
        self.status = status
        self.name = items[0] if items else ''
        self.fields = tuple(int(item) if item.isdecimal() else item for item in items[1:])

    def __reduce__(self) -> tuple[object, ...]:
        return type(self), (self.status, self.line)


class UsageError(Error, ValueError):
    """A usage error: an option has no such value, or two options exclude each other.

    Attributes
    ----------
    command : str
        The words that the program refused.
    option : str or None
        The argument that is wrong, as the function names it, where the package finds it.
    reason : str
        What is wrong with it.
    """

    def __init__(self, status: int, line: str, command: str = '', option: str | None = None, reason: str = '') -> None:
        super().__init__(status, line)
        self.command = command
        self.option = option
        self.reason = reason or f'the program takes no command {command!r}'

    def __str__(self) -> str:
        return self.reason

    def __reduce__(self) -> tuple[object, ...]:
        return type(self), (self.status, self.line, self.command, self.option, self.reason)


class MalformedError(Error):
    """The input is malformed."""


class LimitError(Error):
    """The input is beyond a limit."""


class PortError(Error):
    """Reading or writing failed; with the library: there was no memory for the output."""


class MemoryFault(Error, MemoryError):
    """Memory ran out."""


class RefusedError(Error):
    """The input is well formed, but what it claims doesn't hold."""


class FormError(ValueError):
    """A value isn't of its form; the program wasn't called."""


class TablesError(FormError):
    """Truth tables aren't of their form, or a format can't express them."""


class ChainError(FormError):
    """There is no chain, or it isn't of its form."""


class NetlistError(FormError):
    """A netlist isn't of its form."""


class ExportError(FormError):
    """A format can't express a chain, or a name in it."""


# The class and the name of each status without an answer.
KINDS: dict[int, tuple[type[Error], str]] = {
    1: (UsageError, 'Usage'),
    2: (MalformedError, 'Malformed'),
    3: (LimitError, 'Limit'),
    5: (PortError, 'ReadFault'),
    6: (PortError, 'WriteFault'),
    7: (MemoryFault, 'Memory'),
    8: (RefusedError, 'Refused'),
}


def error_of(status: int, notes: bytes) -> Error:
    """The error of a call with this status and these notes: the last line is the error line, or where a line for people
    comes after it the one before."""
    kind, name = KINDS.get(status, (Error, f'Status{status}'))
    lines = [line for line in notes.decode('utf-8', 'replace').splitlines()[-2:] if line.startswith('error:')]
    return kind(status, lines[-1] if lines else name)
