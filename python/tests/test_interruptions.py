"""Interruptions: an error that a signal's handler raises ends a call at once, and no process stays."""

from __future__ import annotations

import os
import select
import signal
import subprocess
import sys
import tempfile
import threading
import unittest

import batsokemi
from batsokemi import engine, waiting

from .engines import TOP, everywhere

# Parity and other functions of six inputs, for which no budget here is enough.
HARD = '0x7d3a91c6e25b08f4'
BEGIN = 'import os, threading, batsokemi\nprint("begun", flush=True)\n'
# A Python whose calls are interrupted; it waits for the end of each process that it has then.
CALL = BEGIN + 'try:\n    batsokemi.synth({hard!r}, conflicts=10_000_000, engine=batsokemi.{engine}())\n'
POOL = BEGIN + 'try:\n    list(batsokemi.tabulate([{hard!r}] * 3, processes=2, conflicts=10_000_000))\n'
END = 'except KeyboardInterrupt:\n    print("left", flush=True)\n'
CHILDREN = 'try:\n    while True:\n        os.wait()\nexcept ChildProcessError:\n    pass\n'


def remains(reader: int, seconds: float) -> bool:
    """Whether a process that has the other end of a pipe is there after so many seconds."""
    return not select.select([reader], [], [], seconds)[0]


class Interruptions(unittest.TestCase):
    def interrupted(self, code: str, number: int = signal.SIGINT) -> tuple[int, str]:
        """The status and the output of a Python that gets a signal while it calls; nothing that it started stays."""
        reader, writer = os.pipe()
        environment = {**os.environ, 'PYTHONPATH': str(TOP / 'python'), 'PYTHONDONTWRITEBYTECODE': '1'}
        words = [sys.executable, '-c', code]
        with subprocess.Popen(words, stdout=subprocess.PIPE, text=True, env=environment, pass_fds=[writer]) as python:
            os.close(writer)
            try:
                self.assertEqual(python.stdout and python.stdout.readline(), 'begun\n')
                self.assertTrue(remains(reader, 2))
                python.send_signal(number)
                out = python.communicate(timeout=60)[0]
                self.assertFalse(remains(reader, 60))
            finally:
                python.kill()
                os.close(reader)
        return python.returncode, out

    @everywhere
    def test_a_call(self, made: batsokemi.Engine) -> None:
        code = CALL.format(hard=HARD, engine=type(made).__name__) + END + CHILDREN
        self.assertEqual(self.interrupted(code), (0, 'left\n'))

    @unittest.skipUnless(engine.find_library(), 'no library is here')
    def test_a_call_that_is_left(self) -> None:
        """The next call has an answer while the work of the one before goes on."""
        code = CALL.format(hard=HARD, engine='Library') + END + 'print(batsokemi.synth("0110").verdict)\n'
        self.assertEqual(self.interrupted(code), (0, 'left\nminimum 1\n'))

    def test_a_pool(self) -> None:
        """The processes end with an interruption, and with the process that asked."""
        self.assertEqual(self.interrupted(POOL.format(hard=HARD) + END + CHILDREN), (0, 'left\n'))
        self.assertEqual(self.interrupted(POOL.format(hard=HARD) + END, signal.SIGKILL), (-signal.SIGKILL, ''))

    def test_work(self) -> None:
        """What work gives and raises comes through; in another thread it stays there."""
        self.assertEqual(waiting.waited(lambda: 7), 7)
        with self.assertRaises(ZeroDivisionError):
            waiting.waited(lambda: 1 // 0)
        self.assertIsNot(waiting.waited(threading.current_thread), threading.current_thread())
        same: list[bool] = []
        within = threading.Thread(
            target=lambda: same.append(waiting.waited(threading.current_thread) is threading.current_thread())
        )
        within.start()
        within.join()
        self.assertEqual(same, [True])


@unittest.skipUnless(engine.find_program(), 'no program is here')
class Programs(unittest.TestCase):
    def test_timeout(self) -> None:
        """The command, which a timeout kills, leaves no process, and at most a draft with a name that says so."""
        reader, writer = os.pipe()
        with tempfile.TemporaryDirectory() as folder:
            asked = str(batsokemi.Tables(6, batsokemi.read_tables(HARD[2:], 'hex')[0].rows)).encode()
            words = [str(TOP / 'batsokemi'), 'synth', '--conflicts', '10000000', '-o', f'{folder}/kept']
            others = {name: value for name, value in os.environ.items() if name != 'BATSOKEMI_PROGRAM'}
            with self.assertRaises(subprocess.TimeoutExpired):
                subprocess.run(
                    words, input=asked, capture_output=True, check=False, timeout=3, pass_fds=[writer], env=others
                )
            os.close(writer)
            self.assertFalse(remains(reader, 60))
            os.close(reader)
            self.assertRegex(' '.join(os.listdir(folder)), r'^(kept\.part\.\d+)?$')

    def test_progress(self) -> None:
        """The sizes come in order, whatever the engine, with the same answer; an error of the function ends it."""
        for made in (None, batsokemi.Process()):
            told: list[int] = []
            result = batsokemi.synth(['01101001', '00010111'], progress=told.append, engine=made)
            self.assertEqual((str(result.verdict), told), ('minimum 5', [0, 1, 2, 3, 4]))
            self.assertEqual(result.recheck(), result.verdict)

        def stop(size: int) -> None:
            raise KeyError(size)

        with self.assertRaises(KeyError):
            batsokemi.synth('00010111', progress=stop)
        with self.assertRaises(batsokemi.UsageError):
            batsokemi.synth('00010111', max_steps=17, progress=told.append)
