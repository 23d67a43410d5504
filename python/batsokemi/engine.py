"""Engines, which run a command: the library in this process, or without one the program in a process of its own.

Both take the same words and bytes and give the same answers; the library is faster for short questions. Calls share no
state, and the library releases Python's lock while it runs, so threads run in parallel. An interruption ends a call
at once: the program is killed then, and what the library does is left to itself (`waiting`).
"""

from __future__ import annotations

import ctypes
import mmap
import os
import shutil
import subprocess
import tempfile
import threading
from collections.abc import Callable, Iterator, Sequence
from functools import lru_cache, partial
from pathlib import Path
from typing import IO, NamedTuple, Protocol

from .waiting import waited

HERE = Path(__file__).resolve().parent

# What room an output gets at first. It is address space: memory is taken as far as an output reaches.
ROOM = 1 << 28
# A buffer is kept for the next call where no more of it was used.
KEPT = 1 << 20


# Called with a size when `synth` begins to write of it: all smaller ones are decided or left open.
Progress = Callable[[int], object]


class Run(NamedTuple):
    """The result of a command: its status, its output and its notes (standard error)."""

    status: int
    output: bytes
    notes: bytes


class Engine(Protocol):
    """What runs commands."""

    def run(self, words: Sequence[str], data: bytes = b'') -> Run:
        """Runs the command of these words on an input."""

    def run_pair(self, words: Sequence[str], first: bytes, second: bytes) -> Run:
        """Runs `equiv` with these words on two inputs, which are never joined."""


class _Answer(ctypes.Structure):
    _fields_ = [('status', ctypes.c_uint32), ('output_length', ctypes.c_size_t), ('notes_length', ctypes.c_size_t)]


class _Buffer:
    """Anonymous memory that C writes into."""

    def __init__(self, room: int) -> None:
        self.memory = mmap.mmap(-1, room, flags=mmap.MAP_PRIVATE | mmap.MAP_ANONYMOUS)
        self.at = ctypes.addressof(ctypes.c_char.from_buffer(self.memory))
        self.room = room


class _Buffers(threading.local):
    """The buffers of a thread for outputs and notes, while no call uses them. A call from a signal handler inside another
    call gets buffers of its own."""

    def __init__(self) -> None:
        self.kept: tuple[_Buffer, _Buffer] | None = None

    def take(self) -> tuple[_Buffer, _Buffer]:
        taken, self.kept = self.kept, None
        return taken or (_Buffer(ROOM), _Buffer(ROOM))

    def keep(self, buffers: tuple[_Buffer, _Buffer], used: int) -> None:
        if used <= KEPT:
            self.kept = buffers


def called(call: Callable[..., _Answer], blocks: Sequence[object], output: _Buffer, notes: _Buffer) -> _Answer:
    """The answer of a call. The buffers are held as long as it runs, also where nothing waits for it any more."""
    return call(*blocks, output.at, output.room, notes.at, notes.room)


class Library:
    """The library `libbatsokemi.so`, loaded into this process.

    >>> Library().run(['agree'], b'inputs 0\\n1\\nchain 0\\nout 1\\nend\\n')
    Run(status=0, output=b'agrees\\n', notes=b'')
    """

    def __init__(self, path: str | os.PathLike[str] | None = None) -> None:
        found = path or find_library()
        if found is None:
            raise FileNotFoundError('no libbatsokemi.so is here; `tools/release` makes it')
        self.path = os.fspath(found)
        library = ctypes.CDLL(self.path)
        block = (ctypes.c_char_p, ctypes.c_size_t)
        rooms = (ctypes.c_void_p, ctypes.c_size_t) * 2
        self._run, self._run_pair = library.batsokemi_run, library.batsokemi_run_pair
        self._run.restype = self._run_pair.restype = _Answer
        self._run.argtypes = (*block * 2, *rooms)
        self._run_pair.argtypes = (*block * 3, *rooms)
        self._buffers = _Buffers()

    def run(self, words: Sequence[str], data: bytes = b'') -> Run:
        """Runs the command of these words on an input."""
        return self._answer(self._run, words, data)

    def run_pair(self, words: Sequence[str], first: bytes, second: bytes) -> Run:
        """Runs `equiv` with these words on two inputs, which are never joined."""
        return self._answer(self._run_pair, words, first, second)

    def _answer(self, call: Callable[..., _Answer], words: Sequence[str], *inputs: bytes) -> Run:
        blocks = [part for text in (line_of(words), *inputs) for part in (text, len(text))]
        output, notes = self._buffers.take()
        while True:
            answer = waited(partial(called, call, blocks, output, notes))
            if answer.output_length <= output.room and answer.notes_length <= notes.room:
                break
            output, notes = (_Buffer(max(answer.output_length, ROOM)), _Buffer(max(answer.notes_length, ROOM)))
        run = Run(answer.status, output.memory[: answer.output_length], notes.memory[: answer.notes_length])
        self._buffers.keep((output, notes), max(answer.output_length, answer.notes_length))
        return run

    def __reduce__(self) -> tuple[object, ...]:
        """Unpickled in another process, the library is loaded there once."""
        return library_at, (self.path,)

    def __repr__(self) -> str:
        return f'Library({self.path!r})'


@lru_cache(maxsize=None)
def library_at(path: str) -> Library:
    """The library of a path."""
    return Library(path)


class Process:
    """The program `batsokemi`, started anew for each call."""

    def __init__(self, path: str | os.PathLike[str] | None = None) -> None:
        found = path or find_program()
        if found is None:
            raise FileNotFoundError('the program batsokemi is not here: BATSOKEMI_PROGRAM or the path may name it')
        self.path = os.fspath(found)

    def run(self, words: Sequence[str], data: bytes = b'') -> Run:
        """Runs the command of these words on an input."""
        line_of(words)
        ended = subprocess.run([self.path, *words], input=data, capture_output=True, check=False)
        return Run(ended.returncode, ended.stdout, ended.stderr)

    def run_told(self, words: Sequence[str], data: bytes, progress: Progress) -> Run:
        """Runs the command of these words on an input, and tells each size as its part of the certificate comes. An
        error that the function raises ends the program."""
        line_of(words)
        with tempfile.TemporaryFile() as given, tempfile.TemporaryFile() as notes:
            given.write(data)
            given.seek(0)
            with subprocess.Popen([self.path, *words], stdin=given, stdout=subprocess.PIPE, stderr=notes) as program:
                try:
                    output = b''.join(told_sizes(program.stdout, progress)) if program.stdout else b''
                except BaseException:
                    program.kill()
                    raise
            notes.seek(0)
            return Run(program.returncode, output, notes.read())

    def run_pair(self, words: Sequence[str], first: bytes, second: bytes) -> Run:
        """Runs `equiv` with these words on two inputs, each in a file of its own, by the program that reads files: it is
        beside the strict one, whose name ends with `-strict`."""
        line_of(words)
        with tempfile.TemporaryDirectory(prefix='batsokemi-') as folder:
            names = [os.path.join(folder, name) for name in ('first', 'second')]
            for name, text in zip(names, (first, second)):
                Path(name).write_bytes(text)
            front = self.path.removesuffix('-strict')
            ended = subprocess.run([front, *words, *names], capture_output=True, check=False)
        return Run(ended.returncode, ended.stdout, ended.stderr)

    def __repr__(self) -> str:
        return f'Process({self.path!r})'


def told_sizes(lines: IO[bytes], progress: Progress) -> Iterator[bytes]:
    """The lines, each told on the way if it is `size R`."""
    for line in lines:
        if line.startswith(b'size '):
            progress(int(line.removeprefix(b'size ')))
        yield line


class Telling:
    """An engine that tells the sizes of `synth`: the program, also where another engine does the other work."""

    def __init__(self, engine: Engine, progress: Progress) -> None:
        self.process = engine if isinstance(engine, Process) else Process()
        self.progress = progress

    def run(self, words: Sequence[str], data: bytes = b'') -> Run:
        """Runs the command of these words on an input."""
        return self.process.run_told(words, data, self.progress)

    def run_pair(self, words: Sequence[str], first: bytes, second: bytes) -> Run:
        """Runs `equiv` with these words on two inputs, which are never joined; there is nothing to tell."""
        return self.process.run_pair(words, first, second)


def line_of(words: Sequence[str]) -> bytes:
    """The words as one command line, separated by single blanks."""
    if not words or any(not word or ' ' in word or '\0' in word for word in words):
        raise ValueError(f'not words of a command: {list(words)!r}')
    return ' '.join(words).encode()


def first_file(named: str, *paths: Path) -> str | None:
    """The file that an environment variable names, otherwise the first of these files that exists."""
    if os.environ.get(named):
        return os.environ[named]
    return next((str(path) for path in paths if path.is_file()), None)


def find_library() -> str | None:
    """The library: the one that BATSOKEMI_LIBRARY names, the installed one, or that of the checkout."""
    name = 'libbatsokemi.so'
    return first_file('BATSOKEMI_LIBRARY', HERE / name, HERE.parents[1] / 'prebuilt' / 'x86_64-linux' / name)


def find_program() -> str | None:
    """The strict program: the one that BATSOKEMI_PROGRAM names, that of the checkout, or the one on the path."""
    in_checkout = HERE.parents[1] / 'prebuilt' / 'x86_64-linux' / 'batsokemi-strict'
    found = first_file('BATSOKEMI_PROGRAM', in_checkout)
    return found or shutil.which('batsokemi-strict') or shutil.which('batsokemi')


def usual_engine() -> Engine:
    """The library if it is found and can be loaded, otherwise the program. One that BATSOKEMI_LIBRARY names must load."""
    try:
        return Library()
    except OSError:
        if os.environ.get('BATSOKEMI_LIBRARY'):
            raise
        return Process()
