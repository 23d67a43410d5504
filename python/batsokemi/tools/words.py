"""The words of the tools, and their input and output."""

from __future__ import annotations

import argparse
import sys
from typing import NoReturn

from ..texts import bytes_of


class Words(argparse.ArgumentParser):
    """Reads the words of a tool; other words are a usage error, with status 1 and one line."""

    def __init__(self, tool: str) -> None:
        super().__init__(prog=tool, add_help=False, allow_abbrev=False)

    def error(self, message: str) -> NoReturn:
        self.exit(1, f'{self.prog}: {message}; --help says more\n')


def bytes_in(path: str) -> bytes:
    """The bytes of a file, or of standard input for `-`."""
    if path == '-':
        return sys.stdin.buffer.read()
    with open(path, 'rb') as file:
        return file.read()


def write(text: str) -> None:
    """Writes a text on standard output, with the bytes that weren't UTF-8 as they were."""
    sys.stdout.flush()
    sys.stdout.buffer.write(bytes_of(text))
    sys.stdout.buffer.flush()
