"""Chains in the formats of other programs: BLIF, BENCH, Verilog, expressions, and Graphviz's text by `drawing`."""

from __future__ import annotations

import re
from collections.abc import Callable, Sequence
from dataclasses import dataclass
from typing import Literal

from .chain import Chain, Step
from .drawing import draw
from .errors import ExportError, NetlistError
from .netlist import Netlist, Table, check_names, fresh
from .texts import Text
from .verilog_words import WORDS

ChainFormat = Literal['blif', 'bench', 'verilog', 'expression', 'dot']
FORMATS: tuple[ChainFormat, ...] = ('blif', 'bench', 'verilog', 'expression', 'dot')


def export(
    chain: Chain | Text,
    to: ChainFormat,
    *,
    name: str = 'chain',
    inputs: Sequence[str] = (),
    outputs: Sequence[str] = (),
) -> str:
    """A chain in a format that other programs read.

    Parameters
    ----------
    chain : Chain, str, bytes or path
        The chain, or a text with one: a certificate of `synth`, or input of `agree`.
    to : {'blif', 'bench', 'verilog', 'expression', 'dot'}
        `blif` is a model with a table for each step, `bench` ISCAS BENCH with NOT where a step complements an operand,
        `verilog` a module with a wire for each step, `expression` each output over the inputs, with ~ & ^ | and
        parentheses as in Verilog and C, and `dot` Graphviz's text.
    name : str
        The name of the model or module.
    inputs, outputs : sequence of str
        Names in place of x1, x2, .. and y1, y2, .. In Verilog names that are its words, or no identifiers, are escaped.

    Returns
    -------
    str

    Raises
    ------
    ChainError
        If the text has no chain.
    ExportError
        If the format can't express the chain or a name, names are the same, or there are too few or too many.

    Examples
    --------
    >>> parity = Chain(2, (Step(3, 1, 2, '0110'),), (3,))
    >>> print(export(parity, 'verilog', inputs=['a', 'wire']), end='')
    module chain(input a, input \\wire , output y1);
      wire x3 = a ^ \\wire ;
      assign y1 = x3;
    endmodule
    """
    given = chain if isinstance(chain, Chain) else Chain.read(chain)
    if to == 'dot':
        return draw(given, title=None if name == 'chain' else name, inputs=inputs, outputs=outputs)
    if to not in WRITERS:
        raise ExportError(f'a chain is written as {", ".join(FORMATS)}, and not as {to!r}')
    check_form(to, [name, *inputs, *outputs])
    return WRITERS[to](Named.of(given, name, inputs, outputs))


def check_form(to: ChainFormat, names: Sequence[str]) -> None:
    """Raises an error where a name can't be one in a format."""
    for word in names:
        if to == 'expression' and not re.fullmatch(r'[A-Za-z_]\w*', word, re.ASCII):
            raise ExportError(f'{word!r} is no name in an expression: letters, digits and _ alone')
        if to == 'bench' and re.search(r'[(),=]', word):
            raise ExportError(f'{word!r} is no name in BENCH, where ( ) , and = part items')
        try:
            check_names([word])
        except NetlistError as error:
            raise ExportError(str(error)) from error


@dataclass(frozen=True)
class Named:
    """A chain with the name of each place, after an empty one, and of each output; `used` has them all."""

    chain: Chain
    name: str
    places: list[str]
    outputs: list[str]
    used: set[str]

    @classmethod
    def of(cls, chain: Chain, name: str, inputs: Sequence[str], outputs: Sequence[str]) -> Named:
        """The chain with these names, or x1, x2, .. and y1, y2, .."""
        ins = list(inputs) or [f'x{place}' for place in range(1, chain.inputs + 1)]
        outs = list(outputs) or [f'y{number}' for number in range(1, len(chain.outputs) + 1)]
        for names, count, what in ((ins, chain.inputs, 'inputs'), (outs, len(chain.outputs), 'outputs')):
            if len(names) != count:
                raise ExportError(f'{len(names)} names for {count} {what}')
        used = {*ins, *outs}
        if len(used) < len(ins) + len(outs):
            twice = next(word for k, word in enumerate([*ins, *outs]) if word in [*ins, *outs][:k])
            raise ExportError(f'two names are the same: {twice}')
        return cls(chain, name, ['', *ins, *(fresh(f'x{step.place}', used) for step in chain)], outs, used)

    @property
    def inputs(self) -> list[str]:
        return self.places[1 : self.chain.inputs + 1]


@dataclass(frozen=True)
class Form:
    """What a step is: its join (& | ^, or empty for a constant and one literal), whether the whole is complemented, and
    its literals, each a place and whether it is complemented."""

    join: str
    whole: bool
    literals: tuple[tuple[int, bool], ...]

    @classmethod
    def of(cls, step: Step) -> Form:
        """The form of a step, by its values at 00, 01, 10 and 11."""
        word, one, other = step.operator, step.first, step.second
        if one == other:
            word = word[0] * 2 + word[3] * 2
        if word in ('0000', '1111'):
            return cls('', word == '1111', ())
        if word in ('0011', '1100'):
            return cls('', False, ((one, word == '1100'),))
        if word in ('0101', '1010'):
            return cls('', False, ((other, word == '1010'),))
        if word in ('0110', '1001'):
            return cls('^', word == '1001', ((one, False), (other, False)))
        if word.count('1') == 1:
            at = word.index('1')
            return cls('&', False, ((one, at < 2), (other, at % 2 == 0)))
        at = word.index('0')
        return cls('|', False, ((one, at >= 2), (other, at % 2 == 1)))


# ---- BLIF


def blif(named: Named) -> str:
    tables = []
    for step in named.chain:
        operands = [named.places[step.first], named.places[step.second]]
        cover = [f'{row:02b} 1' for row in range(4) if step.operator[row] == '1']
        if step.first == step.second:
            operands.pop()
            cover = [f'{bit} 1' for bit in (0, 1) if step.operator[3 * bit] == '1']
        tables.append(Table(operands, named.places[step.place], cover))
    for out, signal in zip(named.outputs, named.chain.outputs):
        if isinstance(signal, bool):
            tables.append(Table([], out, ['1'] * signal))
        else:
            tables.append(Table([named.places[signal]], out, ['1 1']))
    return Netlist(named.name, named.inputs, named.outputs, tables=tables).to_blif()


# ---- BENCH

KEYS = {'0001': 'AND', '0110': 'XOR', '0111': 'OR', '1000': 'NOR', '1001': 'XNOR', '1110': 'NAND'}


def bench(named: Named) -> str:
    lines = [f'# {named.name}', *(f'INPUT({name})' for name in named.inputs)]
    lines += [f'OUTPUT({name})' for name in named.outputs]
    opposite: dict[int, str] = {}

    def literal(place: int, complemented: bool) -> str:
        if not complemented:
            return named.places[place]
        if place not in opposite:
            opposite[place] = fresh(f'{named.places[place]}_not', named.used)
            lines.append(f'{opposite[place]} = NOT({named.places[place]})')
        return opposite[place]

    for step in named.chain:
        form, name = Form.of(step), named.places[step.place]
        if not form.literals:
            lines.append(constant(named, name, form.whole))
        elif not form.join:
            place, complemented = form.literals[0]
            lines.append(f'{name} = {"NOT" if complemented else "BUFF"}({named.places[place]})')
        elif step.operator in KEYS:
            lines.append(f'{name} = {KEYS[step.operator]}({named.places[step.first]}, {named.places[step.second]})')
        else:
            operands = ', '.join(literal(*each) for each in form.literals)
            lines.append(f'{name} = {"AND" if form.join == "&" else "OR"}({operands})')
    for name, out in zip(named.outputs, named.chain.outputs):
        lines.append(constant(named, name, out) if isinstance(out, bool) else f'{name} = BUFF({named.places[out]})')
    return '\n'.join([*lines, ''])


def constant(named: Named, name: str, bit: bool) -> str:
    """The line of a constant, by the first input."""
    if not named.inputs:
        raise ExportError('BENCH has no constant without an input')
    return f'{name} = {"XNOR" if bit else "XOR"}({named.inputs[0]}, {named.inputs[0]})'


# ---- Verilog and expressions


def verilog_name(name: str) -> str:
    """A name in Verilog: a word of the language, or what is no identifier, is escaped.

    >>> verilog_name('a'), verilog_name('reg'), verilog_name('a[0]')
    ('a', '\\\\reg ', '\\\\a[0] ')
    """
    plain = re.fullmatch(r'[A-Za-z_][A-Za-z0-9_$]*', name) and name not in WORDS
    return name if plain else f'\\{name} '


def verilog(named: Named) -> str:
    names = [verilog_name(place) for place in named.places]
    outs = [verilog_name(out) for out in named.outputs]
    ports = [f'input {name}' for name in names[1 : named.chain.inputs + 1]] + [f'output {name}' for name in outs]
    lines = [f'module {verilog_name(named.name)}({", ".join(ports)});']
    lines += [f'  wire {names[step.place]} = {said(step, names)};' for step in named.chain]
    for out, signal in zip(outs, named.chain.outputs):
        lines.append(f'  assign {out} = ' + (f"1'b{signal:d};" if isinstance(signal, bool) else f'{names[signal]};'))
    return '\n'.join([*lines, 'endmodule', ''])


def said(step: Step, names: Sequence[str]) -> str:
    """A step in Verilog."""
    form = Form.of(step)
    if not form.literals:
        return f"1'b{form.whole:d}"
    text = f' {form.join} '.join(('~' if complemented else '') + names[place] for place, complemented in form.literals)
    return f'~({text})' if form.whole else text


def expression(named: Named) -> str:
    whole = list(named.places)
    for step in named.chain:
        form = Form.of(step)
        parts = [opposite(whole[place]) if complemented else whole[place] for place, complemented in form.literals]
        text = f'({f" {form.join} ".join(parts)})' if len(parts) == 2 else ''.join(parts) or f'{form.whole:d}'
        whole[step.place] = opposite(text) if form.whole and parts else text
    outs = [f'{out:d}' if isinstance(out, bool) else whole[out] for out in named.chain.outputs]
    return ''.join(f'{name} = {text}\n' for name, text in zip(named.outputs, outs))


def opposite(text: str) -> str:
    """The complement of an expression."""
    return text[1:] if text.startswith('~') else '10'[int(text)] if text in ('0', '1') else f'~{text}'


Writer = Callable[[Named], str]
WRITERS: dict[str, Writer] = {'blif': blif, 'bench': bench, 'verilog': verilog, 'expression': expression}
