"""Searches in parts."""

from __future__ import annotations

import contextlib
import io
import os
import shutil
import subprocess
import tempfile
import unittest
from pathlib import Path
from unittest import mock

import batsokemi
from batsokemi.conquering import Conquest, Part, fences
from batsokemi.errors import UsageError
from batsokemi.tools import main

from .engines import TOP

TABLES = batsokemi.Tables(4, ('0110100110010111',))
PROGRAM = str(TOP / 'batsokemi')


def searches_parts() -> bool:
    """Whether GNU parallel is there, and a program that searches parts."""
    if shutil.which('parallel') is None:
        return False
    asked = [PROGRAM, 'synth', '--size', '0']
    return subprocess.run(asked, input=b'inputs 1\n01\n', capture_output=True, check=False).returncode == 0


def silent(part: Part, come: str, left: int) -> None:
    """Nobody is told of a part."""


class Counts(unittest.TestCase):
    def test_fences(self) -> None:
        self.assertEqual([fences(steps, 1) for steps in range(6)], [1, 1, 1, 2, 3, 6])
        self.assertEqual([fences(steps, 8) for steps in range(5)], [1, 1, 2, 4, 8])


@unittest.skipUnless(searches_parts(), 'no GNU parallel, or a program without parts')
class Parts(unittest.TestCase):
    def test_as_synth(self) -> None:
        """The parts make the certificate that `synth` writes, whatever the order in which they come."""
        for method in ('ssv', 'fence', 'strong-fence'):
            with tempfile.TemporaryDirectory() as name:
                conquest = Conquest(TABLES, Path(name), program=PROGRAM, method=method)
                conquest.run(silent, jobs='2')
                named = conquest.join()
                self.assertEqual(str(conquest.judge(named)), 'minimum 6')
                self.assertEqual(named.read_bytes(), batsokemi.synth(TABLES, method=method).certificate)

    def test_goes_on(self) -> None:
        """What is done stays done, and a folder belongs to one question."""
        told: list[Part] = []

        def stop(part: Part, come: str, left: int) -> None:
            told.append(part)
            if len(told) == 3:
                raise KeyboardInterrupt

        with tempfile.TemporaryDirectory() as name:
            with self.assertRaises(KeyboardInterrupt):
                Conquest(TABLES, Path(name), program=PROGRAM, method='fence').run(stop, jobs='1')
            again = Conquest(TABLES, Path(name), program=PROGRAM, method='fence')
            self.assertEqual(len(again.left()), 11)
            again.run(lambda part, come, left: told.append(part), jobs='2')
            self.assertEqual(len(set(told)), 14)
            self.assertEqual(str(again.judge(again.join())), 'minimum 6')
            with self.assertRaises(FileExistsError):
                Conquest(TABLES, Path(name), program=PROGRAM, method='ssv')

    def test_other_ends(self) -> None:
        """Without a chain, with a chain that a part finds, and with sizes that are left open."""
        ends: tuple[tuple[dict[str, object], str], ...] = (
            ({'max_steps': 2}, 'none 2'),
            ({'max_steps': 3, 'basis': 'nand', 'conflicts': 1}, 'open 3'),
            ({'conflicts': 1, 'method': 'ssv'}, 'bounded 2 6'),
        )
        for given, verdict in ends:
            with tempfile.TemporaryDirectory() as name:
                conquest = Conquest(TABLES, Path(name), program=PROGRAM, **given)  # type: ignore[arg-type]
                conquest.run(silent)
                self.assertEqual(str(conquest.judge(conquest.join())), verdict, given)

    def test_tool(self) -> None:
        out, notes = io.StringIO(), io.StringIO()
        with tempfile.TemporaryDirectory() as name, mock.patch('signal.signal'):
            asked = Path(name, 'asked.tables')
            asked.write_text(str(TABLES))
            words = ['conquer', '--program', PROGRAM, '--out', os.path.join(name, 'parts'), str(asked)]
            with contextlib.redirect_stdout(out), contextlib.redirect_stderr(notes):
                self.assertEqual(main(words), 0)
                self.assertEqual(main([*words, '--max', '17']), 1)
                self.assertEqual(main([*words, '--conflicts', '7']), 2)
        self.assertEqual(out.getvalue(), 'minimum 6\n')
        self.assertIn('size 5, part 1: refuted; ', notes.getvalue())

    def test_usage(self) -> None:
        with tempfile.TemporaryDirectory() as name, self.assertRaises(UsageError):
            Conquest(TABLES, Path(name), program=PROGRAM, method='best')


if __name__ == '__main__':
    unittest.main()
