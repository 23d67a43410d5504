"""Netlists: read from BLIF and BENCH, and written in BLIF.

The program reads netlists by itself; what is here draws them, converts BENCH, and writes chains.
"""

from __future__ import annotations

import re
from collections.abc import Iterable, Iterator
from dataclasses import dataclass, field

from .errors import NetlistError
from .texts import Text, lines_of, text_of

NAME = r'([^\s(),=]+)'
LINE = re.compile(rf'{NAME}\s*=\s*{NAME}\s*\(([^()=]*)\)|(INPUT|OUTPUT)\s*\(\s*{NAME}\s*\)', re.IGNORECASE)
COVERS = {'AND': '1 1', 'NAND': '1 0', 'OR': '0 0', 'NOR': '0 1', 'NOT': '0 1', 'BUFF': '1 1', 'BUF': '1 1'}
EXCLUSIVE = {'XOR': ('01 1', '10 1'), 'XNOR': ('00 1', '11 1')}
# How many names a line of `.inputs`, `.outputs` and `.clock` has, as in what `improve` writes.
NAMES = 16


@dataclass
class Table:
    """A table: its inputs, its output, and the lines of its cover, such as `1- 1`."""

    inputs: list[str]
    output: str
    cover: list[str]


@dataclass
class Netlist:
    """A netlist: names, and tables and latches in any order.

    A latch is the words behind `.latch`: its input, its output, and what controls it.
    """

    name: str = 'top'
    inputs: list[str] = field(default_factory=list)
    outputs: list[str] = field(default_factory=list)
    clocks: list[str] = field(default_factory=list)
    latches: list[list[str]] = field(default_factory=list)
    tables: list[Table] = field(default_factory=list)

    def to_blif(self) -> str:
        """The netlist in BLIF.

        >>> print(Netlist('top', ['a'], ['y'], tables=[Table(['a'], 'y', ['0 1'])]).to_blif(), end='')
        .model top
        .inputs a
        .outputs y
        .names a y
        0 1
        .end
        """
        lines = [f'.model {self.name}']
        for word, names in (('.inputs', self.inputs), ('.outputs', self.outputs), ('.clock', self.clocks)):
            lines += [' '.join([word, *names[k : k + NAMES]]) for k in range(0, len(names), NAMES)]
        lines += [' '.join(['.latch', *latch]) for latch in self.latches]
        for table in self.tables:
            lines += [' '.join(['.names', *table.inputs, table.output]), *table.cover]
        return '\n'.join([*lines, '.end', ''])


# ---- BLIF


def statements(text: str) -> Iterator[list[str]]:
    """The words of each logical line."""
    whole = ''
    for line in text.split('\n'):
        line = line.removesuffix('\r').split('#')[0].rstrip(' \t')
        if line.endswith('\\'):
            whole += line[:-1] + ' '
            continue
        words = (whole + line).split()
        whole = ''
        if words:
            yield words
    if whole.split():
        yield whole.split()


def read_blif(text: Text) -> Netlist:
    """The netlist of a text in BLIF.

    Parameters
    ----------
    text : str, bytes or path

    Returns
    -------
    Netlist

    Raises
    ------
    NetlistError
        If a line isn't of its form. What else the program refuses isn't looked for.

    Examples
    --------
    >>> read_blif('.inputs a\\n.outputs y\\n.names a y\\n0 1\\n.end\\n').tables
    [Table(inputs=['a'], output='y', cover=['0 1'])]
    """
    found = Netlist()
    for words in statements(text_of(text)):
        if words[0] == '.end':
            break
        put_statement(found, words)
    return found


def put_statement(found: Netlist, words: list[str]) -> None:
    """Adds what a statement or a cover line says."""
    lists = {'.inputs': found.inputs, '.outputs': found.outputs, '.clock': found.clocks}
    if words[0] in lists:
        lists[words[0]] += words[1:]
    elif words[0] == '.model':
        found.name = words[1] if len(words) > 1 else 'top'
    elif words[0] == '.latch' and len(words) > 2:
        found.latches.append(words[1:])
    elif words[0] == '.names' and len(words) > 1:
        found.tables.append(Table(words[1:-1], words[-1], []))
    elif words[0].startswith('.') or not found.tables:
        raise NetlistError(f'{" ".join(words)[:60]!r} is no line of BLIF that is read here')
    else:
        width = len(found.tables[-1].inputs)
        if not re.fullmatch(f'[01-]{{{width}}}{" " * (width > 0)}[01]', ' '.join(words)):
            raise NetlistError(f'{" ".join(words)[:60]!r} is no cover line of a table of {width} inputs')
        found.tables[-1].cover.append(' '.join(words))


# ---- BENCH


def read_bench(text: Text) -> Netlist:
    """The netlist of a text in ISCAS BENCH.

    XOR and XNOR of more than two operands become tables of two, whose names end with .1, .2 and so on.

    Parameters
    ----------
    text : str, bytes or path

    Returns
    -------
    Netlist

    Raises
    ------
    NetlistError
        If a line isn't of its form.

    Examples
    --------
    >>> read_bench('INPUT(a)\\nOUTPUT(y)\\ny = NOT(a)\\n').tables
    [Table(inputs=['a'], output='y', cover=['0 1'])]
    """
    found = Netlist()
    gates: list[tuple[str, str, list[str]]] = []
    for number, line in enumerate(lines_of(text), 1):
        line = line.partition('#')[0].strip()
        if line:
            put_line(found, gates, number, line)
    used = {*found.inputs, *found.outputs, *(name for name, _, _ in gates)}
    used.update(operand for _, _, operands in gates for operand in operands)
    for name, key, operands in gates:
        if key == 'DFF':
            found.latches.append([operands[0], name])
        else:
            found.tables += gate_tables(name, key, operands, used)
    return found


def put_line(found: Netlist, gates: list[tuple[str, str, list[str]]], number: int, line: str) -> None:
    """Adds what a line of BENCH says: an input, an output, or a gate with its key and operands."""
    words = LINE.fullmatch(line)
    if not words:
        raise NetlistError(f'line {number} is no line of BENCH')
    if words[4]:
        (found.inputs if words[4].upper() == 'INPUT' else found.outputs).append(words[5])
        return
    key, operands = words[2].upper(), [operand.strip() for operand in words[3].split(',')]
    one = key in ('NOT', 'BUFF', 'BUF', 'DFF')
    if not (one or key in COVERS or key in EXCLUSIVE) or one and len(operands) > 1:
        raise NetlistError(f'line {number}: {words[2]} of {len(operands)} operands is no gate of BENCH')
    if not all(re.fullmatch(r'\S+', operand) for operand in operands):
        raise NetlistError(f'line {number} is no line of BENCH')
    gates.append((words[1], key, operands))


def gate_tables(name: str, key: str, operands: list[str], used: set[str]) -> Iterator[Table]:
    """The tables of a gate; names that it needs besides become used."""
    if key in COVERS:
        mark, value = COVERS[key].split()
        yield Table(operands, name, [f'{mark * len(operands)} {value}'])
        return
    if len(operands) == 1:
        yield Table(operands, name, ['1 1' if key == 'XOR' else '0 1'])
        return
    first = operands[0]
    for count, operand in enumerate(operands[1:], 1):
        last = count == len(operands) - 1
        joined = name if last else fresh(f'{name}.{count}', used, '.')
        yield Table([first, operand], joined, list(EXCLUSIVE[key if last else 'XOR']))
        first = joined


def fresh(name: str, used: set[str], mark: str = '_') -> str:
    """The name, with marks behind it as long as it is used; it becomes used."""
    while name in used:
        name += mark
    used.add(name)
    return name


def bench_to_blif(text: Text, name: str = 'top') -> str:
    """A netlist in ISCAS BENCH as BLIF, which `equiv` reads.

    Inputs, outputs, latches and gates keep their names and order.

    Parameters
    ----------
    text : str, bytes or path
    name : str
        The name of the model.

    Returns
    -------
    str

    Raises
    ------
    NetlistError
        If a line isn't of its form, or the name isn't one of BLIF.

    Examples
    --------
    >>> print(bench_to_blif('INPUT(a)\\nINPUT(b)\\nOUTPUT(y)\\ny = NAND(a, b)\\n'), end='')
    .model top
    .inputs a b
    .outputs y
    .names a b y
    11 0
    .end
    """
    netlist = read_bench(text)
    check_names([name])
    netlist.name = name
    return netlist.to_blif()


def check_names(names: Iterable[str]) -> None:
    """Raises an error where a name isn't one of BLIF."""
    for name in names:
        if not re.fullmatch(r'[!-"$-~]*[!-"$-\[\]-~]', name):
            raise NetlistError(f'{name!r} is no name: blanks, # and a last \\ have no place in one')


def is_blif(text: str) -> bool:
    """Whether a text has a statement of BLIF."""
    return re.search(r'^\s*\.(inputs|outputs|names|model)\b', text, re.MULTILINE) is not None


def is_bench(text: str) -> bool:
    """Whether a text has an input or an output of BENCH."""
    return re.search(r'^\s*(INPUT|OUTPUT)\s*\(', text, re.MULTILINE | re.IGNORECASE) is not None
