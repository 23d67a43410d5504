"""The answers of the commands, as values."""

from __future__ import annotations

import re
from dataclasses import dataclass, field
from typing import Literal

from .calls import answered
from .chain import Chain
from .engine import Engine
from .errors import RefusedError
from .tables import Tables

VerdictKind = Literal['minimum', 'none', 'bounded', 'open', 'levels', 'levels-bounded']


@dataclass(frozen=True)
class Verdict:
    """A verdict, about all chains:

    minimum R          R steps are enough, and no fewer
    none X             no chain of at most X steps agrees
    bounded LOW R      R steps are enough, and fewer than LOW aren't
    open LOW           no chain of fewer than LOW steps agrees
    levels D           no chain of the fewest steps has fewer than D levels, and the chain found has D
    levels-bounded LOW D   no chain of the fewest steps has fewer than LOW levels, and the chain found has D
    """

    kind: VerdictKind
    numbers: tuple[int, ...]

    @classmethod
    def read(cls, line: str) -> Verdict:
        """The verdict that a line has."""
        kind, *numbers = line.split()
        return cls(kind, tuple(map(int, numbers)))  # type: ignore[arg-type]

    @property
    def is_exact(self) -> bool:
        """Whether nothing was left open."""
        return self.kind in ('minimum', 'none', 'levels')

    def __str__(self) -> str:
        return ' '.join([self.kind, *map(str, self.numbers)])


def recheck_with(engine: Engine, certificate: bytes) -> Verdict:
    """The verdict of a certificate if it is valid; otherwise an error."""
    run = answered(engine, 'recheck', certificate, depth=True if is_of_depth(certificate) else None)
    return Verdict.read(run.output.decode())


def is_of_depth(certificate: bytes) -> bool:
    """Whether a certificate is about levels too."""
    return last_lines(certificate).startswith(b'levels')


def last_lines(certificate: bytes) -> bytes:
    """The line before the last one, and what follows it."""
    at = certificate.rfind(b'\n', 0, certificate.rfind(b'\n', 0, len(certificate) - 1))
    return certificate[at + 1 :]


@dataclass(frozen=True)
class Result:
    """The answer of `synth`: the verdict, a chain where one was found, and the certificate that shows both."""

    tables: Tables
    verdict: Verdict
    chain: Chain | None
    certificate: bytes = field(repr=False)
    engine: Engine = field(repr=False, compare=False)

    @classmethod
    def read(cls, tables: Tables, certificate: bytes, engine: Engine) -> Result:
        """The answer that a certificate of these tables has."""
        verdict = Verdict.read(last_lines(certificate).split(b'\n')[0].decode())
        at = certificate.rfind(b'\nchain ')
        end = certificate.find(b'\nend\n', at)
        chain = Chain.read(certificate[at + 1 : end].decode(), tables.inputs) if at >= 0 else None
        return cls(tables, verdict, chain, certificate, engine)

    @property
    def steps(self) -> int | None:
        """The number of steps of the chain."""
        return None if self.chain is None else len(self.chain)

    def recheck(self) -> Verdict:
        """Checks the certificate independently of the search.

        Returns
        -------
        Verdict

        Raises
        ------
        RefusedError
            If the certificate isn't valid, is about other tables, or has a verdict other than `verdict`.
        """
        verdict = recheck_with(self.engine, self.certificate)
        if verdict != self.verdict or not self.certificate.startswith(f'chains 1\n{self.tables}basis '.encode()):
            raise RefusedError(8, 'error: OtherCertificate')
        return verdict


@dataclass(frozen=True)
class Undecided:
    """A window that was left open: its root, its partner where it has one, and its number of gates."""

    root: str
    partner: str | None
    gates: int


@dataclass(frozen=True)
class Report:
    """The report of `improve`: the gates before and after, whether no listed window has a smaller implementation
    (`settled`), and the undecided windows, which are excepted."""

    before: int
    after: int
    settled: bool
    undecided: tuple[Undecided, ...]
    text: str = field(repr=False)

    @classmethod
    def read(cls, text: str) -> Report:
        """The report that a text has."""
        gates = re.match(r'gates (\d+) -> (\d+)\n', text)
        if not gates:
            raise ValueError(f'no report: {text[:80]!r}')
        left = []
        for line in re.findall(r'^undecided (.*)$', text, re.M):
            root, *partner, count = line.split(' ')
            left.append(Undecided(root, partner[0] if partner else None, int(count)))
        return cls(int(gates[1]), int(gates[2]), text.endswith('\nsettled\n'), tuple(left), text)


@dataclass(frozen=True)
class Agreement:
    """Whether a chain agrees with tables; if not, the first output, from 1, and row, from 0, that differ."""

    agrees: bool
    output: int | None = None
    row: int | None = None

    def __bool__(self) -> bool:
        return self.agrees


@dataclass(frozen=True)
class Equivalence:
    """The answer of `equiv`.

    kind    `equal`, `differ` or `undecided`
    log     of `equal` and `undecided`: the lines in LRAT, which refute the miter where they are equal
    sink    of `differ`: the output, or the latch whose next state differs
    latch   of `differ`: whether the sink is a latch
    bits    of `differ`: the values of the inputs and then of the latches
    """

    kind: Literal['equal', 'differ', 'undecided']
    log: bytes = field(default=b'', repr=False)
    sink: str | None = None
    latch: bool = False
    bits: tuple[bool, ...] = ()

    @classmethod
    def read(cls, text: bytes) -> Equivalence:
        """The answer that a text has."""
        head, rest = text.split(b'\n', 1)
        kind, *found = head.decode().split(' ')
        if kind == 'differ':
            what, sink = found
            bits = rest.decode().removeprefix('at ').strip('-\n')
            return cls('differ', sink=sink, latch=what == 'latch', bits=tuple(bit == '1' for bit in bits))
        return cls(kind, log=rest.removesuffix(b'done\n'))  # type: ignore[arg-type]

    def __bool__(self) -> bool:
        return self.kind == 'equal'
