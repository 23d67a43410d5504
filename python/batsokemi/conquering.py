"""A search in parts: each subproblem of each size by a run of its own, many at once, and the certificate that they make.

Nothing here is trusted. A part is the text of `synth --size R --part P`, and the certificate that the parts make is
judged by `recheck`.
"""

from __future__ import annotations

import shlex
import shutil
import subprocess
from collections.abc import Callable, Iterator, Mapping, Sequence
from functools import lru_cache
from pathlib import Path
from typing import IO, NamedTuple

from .calls import refused
from .engine import find_program
from .errors import Error, error_of
from .options import Value, fault_of, words_of
from .results import Result, Verdict
from .tables import Tables

# The methods that give a size several parts, the one whose sections end with an open part, and what `recheck` reads
# without `--most-bytes`.
BY_FENCES = ('fence', 'strong-fence')
STOPPING = 'strong-fence'
MOST_BYTES = 268_435_456


class Part(NamedTuple):
    """A part of a search: a size, and the number of one of its subproblems, from 1 on."""

    size: int
    number: int


# Called with a part that is done, what it has come to, and how many parts are left.
Told = Callable[[Part, str, int], object]


@lru_cache(maxsize=None)
def fences(steps: int, outputs: int, above: int = 0) -> int:
    """How many fences of so many steps there are for so many outputs, below `above` steps.

    >>> [fences(steps, 1) for steps in range(6)], fences(3, 2)
    ([1, 1, 1, 2, 3, 6], 3)
    """
    levels = range(1, min(steps, above + outputs) + 1)
    return sum(fences(steps - level, outputs, above + level) for level in levels) if steps else 1


class Conquest:
    """A search in parts, which are kept in a folder: a run that was stopped goes on where it was.

    Parameters
    ----------
    tables : Tables
    folder : Path
        For the parts; it belongs to one question with one set of options.
    effort : int, optional
        That of the walk which looks for a chain first.
    program : str, optional
        The program `batsokemi`.
    **options
        `basis`, `method` (auto), `conflicts` and `max_steps` of `synth`.
    """

    def __init__(
        self, tables: Tables, folder: Path, effort: int | None = None, program: str | None = None, **options: Value
    ) -> None:
        found = program or (find_program() or '').removesuffix('-strict')
        if not found:
            raise FileNotFoundError('the program batsokemi is not here: BATSOKEMI_PROGRAM or the path may name it')
        self.tables, self.folder, self.program = tables, folder, found
        self.options: dict[str, Value] = {'method': 'auto'}
        self.options.update({name: value for name, value in options.items() if value is not None})
        self.max_steps = int(str(self.options.get('max_steps', 16)))
        folder.mkdir(parents=True, exist_ok=True)
        self.header = self._header()
        self._claim_folder()
        self.walk = self._walk(effort)

    def _asked(self, words: Mapping[str, Value]) -> bytes:
        """What `synth` answers with these options."""
        line = ['synth', *words_of(words)]
        ended = subprocess.run([self.program, *line], input=str(self.tables).encode(), capture_output=True, check=False)
        if ended.returncode in (0, 4):
            return ended.stdout
        raise refused(line, words) if ended.returncode == 1 else error_of(ended.returncode, ended.stderr)

    def _header(self) -> bytes:
        """The header of the certificate: that of a search up to size 0, with the greatest size of this one."""
        if fault_of('synth', self.options)[0]:
            raise refused(['synth', *words_of(self.options)], self.options)
        begun, _, _ = self._asked({**self.options, 'max_steps': 0}).partition(b'max 0\n')
        return begun + b'max %d\n' % self.max_steps

    def _claim_folder(self) -> None:
        """The folder is that of this question."""
        named = self.folder / 'header'
        if named.is_file() and named.read_bytes() != self.header:
            raise FileExistsError(f'{self.folder} belongs to another question, or to other options')
        named.write_bytes(self.header)

    def _walk(self, effort: int | None) -> Result:
        """What a walk finds, whose formulas get next to no work."""
        named = self.folder / f'walk-{effort or 1}'
        if not named.is_file():
            words = {name: self.options.get(name) for name in ('basis', 'max_steps')}
            answer = self._asked({**words, 'effort': effort, 'method': 'ssv', 'conflicts': 1})
            put(named, answer)
        return Result.read(self.tables, named.read_bytes(), None)  # type: ignore[arg-type]

    @property
    def method(self) -> str:
        """The method that was taken."""
        return self.header.split(b'\nmethod ')[1].split(b'\n')[0].decode()

    def file_of(self, part: Part) -> Path:
        """The file of a part that is done. It is empty where the size has no such part."""
        return self.folder / f'{part.size}.{part.number}.part'

    def parts_of(self, size: int) -> Iterator[Part]:
        """The parts of a size that a certificate has, as far as is known: by `strong-fence` none after an open one. Where
        outputs are constants or inputs, there are fewer."""
        method = self.method
        for number in range(1, (fences(size, len(self.tables)) if method in BY_FENCES else 1) + 1):
            part = Part(size, number)
            yield part
            if method == STOPPING and self.come_to(part) == 'open':
                return

    def come_to(self, part: Part) -> str:
        """What a part has come to: `refuted`, `open`, `chain`, `nothing` where there is no such part, or `left`."""
        file = self.file_of(part)
        return kind_of(file) if file.is_file() else 'left'

    def found(self) -> tuple[int, bytes] | None:
        """The number of steps of the shortest chain so far, and its text."""
        texts = [chain_text(self.walk.certificate)] if self.walk.chain is not None else []
        texts += [file.read_bytes() for file in self.folder.glob('*.part') if starts(file, b'chain ')]
        return min((int(text.split()[1]), text) for text in texts) if texts else None

    def sizes(self) -> range:
        """The sizes that are refuted or left open: those below the chain, or all."""
        found = self.found()
        return range(found[0] if found else self.max_steps + 1)

    def left(self) -> list[Part]:
        """The parts that aren't done, the smallest sizes first."""
        parts = (part for size in self.sizes() for part in self.parts_of(size))
        return [part for part in parts if self.come_to(part) == 'left']

    def job(self) -> str:
        """The words of the shell for a part, whose size and number GNU parallel puts in."""
        asked = shlex.join([self.program, 'synth', *words_of({**self.options, 'method': self.method})])
        lines = shlex.join(str(self.tables).splitlines())
        search = f"printf '%s\\n' {lines} | {asked} --size {{1}} --part {{2}} 2>&1"
        return f"echo part {{1}} {{2}}; {search}; echo status $?"

    def run(self, told: Told, jobs: str | None = None, hosts: str | None = None) -> None:
        """Does the parts that are left by GNU parallel, until none is left."""
        if shutil.which('parallel') is None:
            raise ChildProcessError('GNU parallel is not installed (Debian: apt-get install parallel)')
        words = ['parallel', '--will-cite', '--colsep', ' ', *(['-j', jobs] if jobs else [])]
        words += ['--sshlogin', hosts] if hosts else []
        while parts := self.left():
            self._run(words, parts, told)

    def _run(self, words: Sequence[str], parts: Sequence[Part], told: Told) -> None:
        """Does these parts, or those before a chain is found."""
        given = ''.join(f'{part.size} {part.number}\n' for part in parts).encode()
        with subprocess.Popen([*words, self.job()], stdin=subprocess.PIPE, stdout=subprocess.PIPE) as parallel:
            assert parallel.stdin is not None and parallel.stdout is not None
            try:
                parallel.stdin.write(given)
                parallel.stdin.close()
                missing = set(parts)
                for part, come in self._taken(parallel.stdout):
                    missing.discard(part)
                    told(part, come, len(missing))
                    if come == 'chain':
                        return
            finally:
                # at the second signal it ends the jobs that run
                parallel.terminate()
                parallel.terminate()
        if missing:
            raise ChildProcessError(f'GNU parallel ended before {len(missing)} parts were done')

    def _taken(self, lines: IO[bytes]) -> Iterator[tuple[Part, str]]:
        """The parts as they come, each kept in its file."""
        for first in lines:
            _, size, number = first.split()
            part = Part(int(size), int(number))
            draft = self.file_of(part).with_suffix('.draft')
            status = None
            with draft.open('wb') as file:
                for line in lines:
                    if line.startswith(b'status '):
                        status = int(line.split()[1])
                        break
                    file.write(line)
            yield part, self._kept(part, draft, status)

    def _kept(self, part: Part, draft: Path, status: int | None) -> str:
        """What a part has come to, whose text is put in its file."""
        if status == 2 and starts(draft, b'error: NoSuchPart'):
            draft.write_bytes(b'')
        elif status not in (0, 4):
            notes = draft.read_bytes()
            draft.unlink()
            error: Error = error_of(status or 1, notes)
            raise ChildProcessError(f'size {part.size}, part {part.number}: {error}')
        draft.replace(self.file_of(part))
        return self.come_to(part)

    def join(self) -> Path:
        """The certificate that the parts make."""
        named = self.folder / 'certificate.chains'
        draft = named.with_suffix('.draft')
        found, low = self.found(), None
        with draft.open('wb') as out:
            out.write(self.header)
            for size in self.sizes():
                out.write(b'size %d\n' % size)
                for part in self.parts_of(size):
                    low = size if low is None and self.come_to(part) == 'open' else low
                    with self.file_of(part).open('rb') as text:
                        shutil.copyfileobj(text, out)
            out.write(found[1] if found else b'')
            out.write(f'{verdict_of(found[0] if found else None, low, self.max_steps)}\nend\n'.encode())
        draft.replace(named)
        return named

    def judge(self, named: Path) -> Verdict:
        """The verdict of `recheck`."""
        size = named.stat().st_size
        words = ['recheck', *(['--most-bytes', str(size)] if size > MOST_BYTES else []), str(named)]
        ended = subprocess.run([self.program, *words], capture_output=True, check=False)
        if ended.returncode:
            raise error_of(ended.returncode, ended.stderr)
        return Verdict.read(ended.stdout.decode().strip())


def verdict_of(steps: int | None, low: int | None, most: int) -> str:
    """The verdict with a chain of so many steps, or none, where `low` is the least open size."""
    if steps is None:
        return f'none {most}' if low is None else f'open {low}'
    return f'minimum {steps}' if low is None else f'bounded {low} {steps}'


def chain_text(certificate: bytes) -> bytes:
    """The lines of the chain of a certificate."""
    at = certificate.rfind(b'\nchain ') + 1
    lines = certificate[at:].splitlines(keepends=True)[:-2]
    return b''.join(lines)


def starts(file: Path, word: bytes) -> bool:
    """Whether a file starts with a word."""
    with file.open('rb') as text:
        return text.read(len(word)) == word


def kind_of(file: Path) -> str:
    """What a part has come to: `refuted`, `open`, `chain`, or `nothing` where there is no such part."""
    with file.open('rb') as text:
        words = (line.split()[0].decode() for line in text)
        return next((word for word in words if word != 'fence'), 'nothing')


def put(named: Path, text: bytes) -> None:
    """Writes a file whole."""
    draft = named.with_suffix('.draft')
    draft.write_bytes(text)
    draft.replace(named)
