"""Boolean chains: read, evaluated and printed; `writers` and `drawing` have their other formats."""

from __future__ import annotations

import re
import shutil
import subprocess
from collections.abc import Iterator, Sequence
from dataclasses import dataclass
from importlib import import_module
from typing import Any, Union, overload

from .errors import ChainError
from .tables import Tables
from .texts import NUMBER, Text, text_of

# What an output is: a place from 1, or the constant False or True.
Signal = Union[int, bool]

HEAD = re.compile(rf'^chain {NUMBER}\r?$', re.MULTILINE)
INPUTS = re.compile(rf'^inputs {NUMBER}\r?$', re.MULTILINE)
STEP = re.compile(rf'x{NUMBER} x{NUMBER} x{NUMBER} ([01]{{4}})')
OUT = re.compile(rf'out (?:([01])|x{NUMBER})')


@dataclass(frozen=True)
class Step:
    """A gate of two operands, each the number of an input or of an earlier step.

    `operator` has its values where the operands are 00, 01, 10 and 11: `0001` is AND, `0110` XOR, `0111` OR.
    """

    place: int
    first: int
    second: int
    operator: str

    def __str__(self) -> str:
        return f'x{self.place} x{self.first} x{self.second} {self.operator}'


@dataclass(frozen=True)
class Chain(Sequence[Step]):
    """A Boolean chain: the places 1 to `inputs` are its inputs, and the steps have the next places in order.

    It is the sequence of its steps. Two chains are equal where all their fields are.

    Parameters
    ----------
    inputs : int
        The number of inputs.
    steps : tuple of Step
    outputs : tuple of int or bool
        The place of each output, or a constant.

    Raises
    ------
    ChainError
        If the places aren't in order, an operand isn't a lower place, or an output is no place.

    Examples
    --------
    >>> chain = Chain.read('chain 1\\nx3 x1 x2 0110\\nout x3\\n')
    >>> [step.operator for step in chain]
    ['0110']
    >>> chain.evaluate([True, False])
    (True,)
    >>> print(chain, end='')
    chain 1
    x3 x1 x2 0110
    out x3
    """

    inputs: int
    steps: tuple[Step, ...]
    outputs: tuple[Signal, ...]

    def __post_init__(self) -> None:
        for place, step in enumerate(self.steps, self.inputs + 1):
            if step.place != place:
                raise ChainError(f'the step {step} has the place x{place}')
            if not (0 < step.first < place and 0 < step.second < place):
                raise ChainError(f'an operand of the step {step} is no lower place')
            if not re.fullmatch('[01]{4}', step.operator):
                raise ChainError(f'{step.operator!r} is no operator, which has four values 0 or 1')
        for out in self.outputs:
            if not isinstance(out, bool) and not 0 < out <= self.inputs + len(self.steps):
                raise ChainError(f'the output x{out} is no place of the chain')

    @classmethod
    def read(cls, text: Text, inputs: int | None = None) -> Chain:
        """The first chain of a text.

        Parameters
        ----------
        text : str, bytes or path
            A certificate of `synth`, the input of `agree`, or a chain alone.
        inputs : int, optional
            The number of inputs, where the text doesn't say it: by default what the first step's place says.

        Returns
        -------
        Chain

        Raises
        ------
        ChainError
            If there is no chain, or it is cut off or malformed.
        """
        whole = text_of(text)
        head = HEAD.search(whole)
        if not head:
            raise ChainError('there is no chain block, which begins with a line `chain R`')
        steps, outs = chain_lines(whole, head.end() + 1, int(head[1]))
        named = [found[1] for found in INPUTS.finditer(whole, 0, head.start())]
        if inputs is None and named:
            inputs = int(named[-1])
        if inputs is None:
            inputs = steps[0].place - 1 if steps else max([out for out in outs if not isinstance(out, bool)], default=0)
        return cls(inputs, tuple(steps), tuple(outs))

    def __str__(self) -> str:
        outs = [f'out {out:d}' if isinstance(out, bool) else f'out x{out}' for out in self.outputs]
        return ''.join(f'{line}\n' for line in (f'chain {len(self.steps)}', *self.steps, *outs))

    def __len__(self) -> int:
        """The number of steps."""
        return len(self.steps)

    def __bool__(self) -> bool:
        """A chain is one also without steps."""
        return True

    def __iter__(self) -> Iterator[Step]:
        return iter(self.steps)

    @overload
    def __getitem__(self, at: int) -> Step: ...
    @overload
    def __getitem__(self, at: slice) -> tuple[Step, ...]: ...
    def __getitem__(self, at: int | slice) -> Step | tuple[Step, ...]:
        return self.steps[at]

    def evaluate(self, values: Sequence[Any]) -> tuple[Any, ...]:
        """The outputs under these values of the inputs x1, x2, ...

        Parameters
        ----------
        values : sequence of bool, or of arrays of numpy
            A value for each input. Arrays have one shape, and each place of them is an assignment.

        Returns
        -------
        tuple of bool, or of arrays of numpy

        Raises
        ------
        ChainError
            If there aren't as many values as inputs.

        Examples
        --------
        >>> Chain(2, (Step(3, 1, 2, '0110'),), (3, True)).evaluate([1, 0])
        (True, True)
        """
        if len(values) != self.inputs:
            raise ChainError(f'{len(values)} values for {self.inputs} inputs')
        if any(getattr(value, 'ndim', None) for value in values):
            return self._evaluate_arrays(values)
        known = [False, *map(bool, values)]
        for step in self.steps:
            known.append(step.operator[2 * known[step.first] + known[step.second]] == '1')
        return tuple(out if isinstance(out, bool) else known[out] for out in self.outputs)

    def _evaluate_arrays(self, values: Sequence[Any]) -> tuple[Any, ...]:
        numpy = import_module('numpy')
        known: list[Any] = [None, *numpy.broadcast_arrays(*(numpy.asarray(value, dtype=bool) for value in values))]
        for step in self.steps:
            cells = numpy.array([bit == '1' for bit in step.operator])
            known.append(cells[2 * known[step.first].astype(numpy.intp) + known[step.second]])
        shape = known[1].shape
        return tuple(numpy.full(shape, out) if isinstance(out, bool) else known[out].copy() for out in self.outputs)

    def tables(self) -> Tables:
        """The tables that it computes.

        >>> Chain(2, (Step(3, 1, 2, '0110'),), (3,)).tables().rows
        ('0110',)
        """
        bits = [[t >> (self.inputs - i) & 1 for i in range(1, self.inputs + 1)] for t in range(2**self.inputs)]
        rows = [self.evaluate(each) for each in bits]
        return Tables(self.inputs, tuple(''.join(str(int(bit)) for bit in column) for column in zip(*rows)))

    def levels(self) -> int:
        """The greatest number of steps on a path from an input.

        >>> Chain(2, (Step(3, 1, 2, '0110'), Step(4, 1, 3, '0001')), (4,)).levels()
        2
        """
        level = [0] * (self.inputs + 1)
        for step in self.steps:
            level.append(1 + max(level[step.first], level[step.second]))
        return max(level)

    def to_blif(self, name: str = 'chain', inputs: Sequence[str] = (), outputs: Sequence[str] = ()) -> str:
        """The chain as a model in BLIF, with a table for each step; see `export`."""
        from .writers import export

        return export(self, 'blif', name=name, inputs=inputs, outputs=outputs)

    def to_bench(self, name: str = 'chain', inputs: Sequence[str] = (), outputs: Sequence[str] = ()) -> str:
        """The chain in ISCAS BENCH, with NOT where a step complements an operand; see `export`."""
        from .writers import export

        return export(self, 'bench', name=name, inputs=inputs, outputs=outputs)

    def to_verilog(self, name: str = 'chain', inputs: Sequence[str] = (), outputs: Sequence[str] = ()) -> str:
        """The chain as a module in Verilog, with a wire for each step; see `export`."""
        from .writers import export

        return export(self, 'verilog', name=name, inputs=inputs, outputs=outputs)

    def to_expression(self, inputs: Sequence[str] = (), outputs: Sequence[str] = ()) -> str:
        """Each output as an expression over the inputs, a line for each; see `export`."""
        from .writers import export

        return export(self, 'expression', inputs=inputs, outputs=outputs)

    def to_dot(self, name: str | None = None, inputs: Sequence[str] = (), outputs: Sequence[str] = ()) -> str:
        """The chain as Graphviz's text; see `draw`."""
        from .drawing import draw

        return draw(self, title=name, inputs=inputs, outputs=outputs)

    def _repr_svg_(self) -> str | None:
        """The picture in a notebook, where Graphviz is installed."""
        if not shutil.which('dot'):
            return None
        ran = subprocess.run(['dot', '-Tsvg'], input=self.to_dot().encode(), capture_output=True, check=False)
        return None if ran.returncode else ran.stdout.decode()


def chain_lines(text: str, start: int, count: int) -> tuple[list[Step], list[Signal]]:
    """The steps and the outputs behind the line `chain`."""
    steps: list[Step] = []
    outs: list[Signal] = []
    while start < len(text):
        end = text.find('\n', start)
        line = text[start : end if end >= 0 else len(text)].removesuffix('\r')
        start = end + 1 if end >= 0 else len(text)
        if len(steps) < count:
            found = STEP.fullmatch(line)
            if not found:
                raise ChainError(f'{line!r} is no step, and the chain has {count}')
            steps.append(Step(int(found[1]), int(found[2]), int(found[3]), found[4]))
            continue
        if not line.startswith('out '):
            break
        found = OUT.fullmatch(line)
        if not found:
            raise ChainError(f'{line!r} is no output')
        outs.append(int(found[2]) if found[2] else found[1] == '1')
    if len(steps) < count:
        raise ChainError(f'the chain is cut off: {len(steps)} steps of {count}')
    if not outs:
        raise ChainError('the chain has no outputs')
    return steps, outs
