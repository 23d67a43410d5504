"""The tools as commands."""

from __future__ import annotations

import contextlib
import io
import os
import subprocess
import sys
import tempfile
import unittest
from pathlib import Path
from unittest import mock

import batsokemi
from batsokemi import tools

from .engines import EXAMPLES, TOP


def ran(*words: str, given: bytes = b'') -> tuple[int, str, str]:
    """The status, the output and the notes of a tool, in this process."""
    out, notes = io.TextIOWrapper(io.BytesIO(), encoding='utf-8'), io.StringIO()
    stdin = io.TextIOWrapper(io.BytesIO(given))
    with mock.patch.object(sys, 'stdin', stdin), mock.patch('signal.signal'):
        with contextlib.redirect_stdout(out), contextlib.redirect_stderr(notes):
            try:
                status = tools.main(list(words))
            except SystemExit as ended:
                status = int(ended.code or 0)
            out.flush()
    return status, out.buffer.getvalue().decode(), notes.getvalue()  # type: ignore[attr-defined]


class Tools(unittest.TestCase):
    def test_help(self) -> None:
        for tool in tools.TOOLS:
            status, out, _ = ran(tool, '--help')
            self.assertEqual((status, out.split()[0]), (0, tool))
            status, out, notes = ran(tool, '--no-such-word')
            self.assertEqual((status, out, notes.count('\n')), (1, '', 1))
            status, out, notes = ran(tool, *{'export': ['--to', 'blif']}.get(tool, []), '/nowhere/file')
            self.assertEqual((status, notes.count('\n')), (1 if tool == 'classes' else 2, 1), tool)
        for words, status in ((['--help'], 0), ([], 1), (['nothing'], 1)):
            self.assertEqual(ran(*words)[0], status)

    def test_each(self) -> None:
        self.assertEqual(ran('classes', '2')[1], '0000\n0001\n0011\n0110\n')
        self.assertEqual(ran('tables', 'e8', '96')[1], 'inputs 3\n00010111\n01101001\n')
        self.assertEqual(ran('tables', '--from', 'lines', '--to', 'hex', '-', given=b'0110\n0001\n')[1], '6\n8\n')
        self.assertEqual(ran('tables', '0110')[0], 2)
        chain = str(batsokemi.synth('0110').chain).encode()
        self.assertEqual(ran('export', '--to', 'expression', given=chain)[1], 'y1 = (x1 ^ x2)\n')
        self.assertEqual(ran('draw', '-', given=chain)[1], ran('export', '--to', 'dot', given=chain)[1])
        self.assertEqual(ran('export', '--to', 'verilog', given=b'')[0], 2)
        self.assertIn('.latch', ran('blif', str(EXAMPLES / 'bench' / 'counter.bench'))[1])

    def test_tabulate(self) -> None:
        with tempfile.TemporaryDirectory() as folder:
            given = b'0110 # XOR\n\n0001,0111\n0xe8\n'
            status, out, notes = ran('tabulate', '--processes', '1', '--keep', folder, '-', given=given)
            self.assertEqual(out, '1\t0110\tminimum 1\n2\t0001,0111\tminimum 2\n3\t0xe8\tminimum 4\n')
            self.assertEqual((status, notes), (0, '3 questions: 3 minimum\n'))
            self.assertEqual(str(batsokemi.recheck(Path(folder, '3.chains'))), 'minimum 4')
        status, out, notes = ran('tabulate', '--processes', '1', '-', given=b'012\n01\n')
        self.assertEqual((status, notes), (3, '2 questions: 1 error: BadTables, 1 minimum\n'))
        self.assertEqual(ran('tabulate', '--max', '17', '-', given=b'01\n')[0], 1)

    def test_entries(self) -> None:
        """An entry of a checkout, and the package as a program."""
        entry = [sys.executable, str(TOP / 'tools' / 'export'), '--to', 'expression', '-']
        module = [sys.executable, '-m', 'batsokemi', 'export', '--to', 'expression', '-']
        for words in (entry, module):
            done = subprocess.run(
                words, input=b'chain 1\nx3 x1 x2 0001\nout x3\n', capture_output=True, check=False,
                env={**os.environ, 'PYTHONPATH': str(TOP / 'python')},
            )  # fmt: skip
            self.assertEqual((done.returncode, done.stdout), (0, b'y1 = (x1 & x2)\n'))
