"""Texts as they are given: `str`, `bytes` or the path of a file."""

from __future__ import annotations

import os
from pathlib import Path
from typing import Union

# A text itself, as `str` or `bytes`, or the path of a file that has it. A `str` is never a path.
Text = Union[str, bytes, 'os.PathLike[str]']

# A number in a text: ASCII digits, at most nine, without a leading 0.
NUMBER = '(0|[1-9][0-9]{0,8})'


def bytes_of(given: Text) -> bytes:
    """The bytes of a text.

    >>> bytes_of('chains 1') == bytes_of(b'chains 1')
    True
    """
    if isinstance(given, (bytes, bytearray, memoryview)):
        return bytes(given)
    if isinstance(given, str):
        return given.encode('utf-8', 'surrogateescape')
    if isinstance(given, os.PathLike):
        return Path(given).read_bytes()
    raise TypeError(f'a text is str, bytes or a path, and not {type(given).__name__}')


def text_of(given: Text) -> str:
    """The same as `str`; bytes that aren't UTF-8 survive, and `bytes_of` gives them back."""
    return given if isinstance(given, str) else bytes_of(given).decode('utf-8', 'surrogateescape')


def lines_of(given: Text) -> list[str]:
    """The lines of a text, which may end with CR LF, and the last one without a line feed."""
    text = text_of(given)
    return [line.removesuffix('\r') for line in text.removesuffix('\n').split('\n')] if text else []
