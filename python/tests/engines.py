"""Tests over every engine that is there."""

from __future__ import annotations

import functools
import unittest
from collections.abc import Callable
from pathlib import Path
from typing import Any

import batsokemi
from batsokemi import engine

TOP = Path(__file__).resolve().parents[2]
EXAMPLES = TOP / 'examples'


@functools.lru_cache(maxsize=None)
def engines() -> tuple[batsokemi.Engine, ...]:
    """The library, where it is found, and the program, where that is."""
    made: list[batsokemi.Engine] = []
    if engine.find_library():
        made.append(batsokemi.Library())
    if engine.find_program():
        made.append(batsokemi.Process())
    return tuple(made)


def everywhere(test: Callable[[Any, batsokemi.Engine], None]) -> Callable[[Any], None]:
    """The test with each engine, as a subtest each."""

    @functools.wraps(test)
    def tried(self: unittest.TestCase) -> None:
        for made in engines():
            with self.subTest(engine=type(made).__name__):
                test(self, made)

    # the signature that unittest looks for is that of the wrapper
    del tried.__wrapped__  # type: ignore[attr-defined]
    return tried
