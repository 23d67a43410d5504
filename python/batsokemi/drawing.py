"""Pictures of chains and netlists by Graphviz.

Inputs stand on top, each step or gate has the usual symbol of its operator, levels are ranks, and outputs stand at the
bottom. A small circle where an edge enters a node marks a complemented operand. Dangling nodes are dashed.
"""

from __future__ import annotations

import os
import subprocess
from collections.abc import Callable, Iterator, Sequence
from dataclasses import dataclass, field
from typing import Union

from .chain import HEAD, Chain
from .errors import ExportError, NetlistError
from .netlist import Netlist, Table, is_bench, is_blif, read_bench, read_blif
from .texts import Text, text_of

# by the values at (0,0), (0,1), (1,0), (1,1): the symbol, and which operands are complemented
SYMBOLS = {
    '0001': ('∧', ''), '0010': ('∧', 'b'), '0100': ('∧', 'a'), '1000': ('⊽', ''),
    '0111': ('∨', ''), '1011': ('∨', 'b'), '1101': ('∨', 'a'), '1110': ('⊼', ''),
    '0110': ('⊕', ''), '1001': ('≡', ''),
}  # fmt: skip
UNARY = {'01': '=', '10': '¬'}
# The names of files for pictures end with one of these; `.dot` needs no Graphviz.
SUFFIXES = ('.svg', '.png', '.pdf', '.dot')

# What can be drawn: a chain, or a text with a chain or a netlist.
Drawable = Union[Chain, Text]
# The names that enter a node, and whether each is complemented.
Entering = list[tuple[str, bool]]


@dataclass
class Node:
    """A step, a gate or a table: its symbol, what enters it, and the name that stands below."""

    symbol: str
    entering: Entering
    note: str | None = None


@dataclass
class Drawing:
    """Named sources, nodes, and sinks with what they show."""

    title: str
    sources: list[str] = field(default_factory=list)
    nodes: dict[str, Node] = field(default_factory=dict)
    sinks: list[tuple[str, str]] = field(default_factory=list)

    def read(self) -> set[str]:
        """The nodes that sinks read, directly or through others."""
        found: set[str] = set()
        waiting = [name for _, name in self.sinks]
        while waiting:
            name = waiting.pop()
            if name in self.nodes and name not in found:
                found.add(name)
                waiting += [other for other, _ in self.nodes[name].entering]
        return found

    def levels(self) -> dict[str, int]:
        """1 + the greatest level of what a node reads; sources have level 0. Without recursion."""
        level = {name: 0 for name in self.sources}
        waiting = list(self.nodes)
        while waiting:
            later = []
            for name in waiting:
                read = [other for other, _ in self.nodes[name].entering]
                if all(other in level or other not in self.nodes for other in read):
                    level[name] = 1 + max((level.get(other, 0) for other in read), default=-1)
                else:
                    later.append(name)
            if len(later) == len(waiting):
                raise NetlistError('the gates form a cycle')
            waiting = later
        return level


def draw(
    *drawn: Drawable,
    title: str | Sequence[str] | None = None,
    inputs: Sequence[str] = (),
    outputs: Sequence[str] = (),
) -> str:
    """Graphviz's text for chains or netlists side by side.

    Parameters
    ----------
    *drawn : Chain, str, bytes or path
        Chains, or texts with a chain (a certificate, or input of `agree`) or a netlist in BLIF or BENCH.
    title : str or sequence of str, optional
        The title of each; by default how many steps or gates there are.
    inputs, outputs : sequence of str
        For a chain, names in place of x1, x2, .. and `output 1`, ..

    Returns
    -------
    str

    Raises
    ------
    ChainError, NetlistError
        If a text has neither a chain nor a netlist, or it isn't of its form.

    Examples
    --------
    >>> draw('chain 1\\nx3 x1 x2 0110\\nout x3\\n').startswith('digraph {')
    True
    """
    titles = [title] if isinstance(title, str) else list(title or [])
    titles += [''] * (len(drawn) - len(titles))
    made = [drawing_of(each, said, inputs, outputs) for each, said in zip(drawn, titles)]
    return '\n'.join([*lines_of_dot(made), ''])


def picture(path: str | os.PathLike[str], *drawn: Drawable, title: str | Sequence[str] | None = None) -> None:
    """Writes a picture of chains or netlists side by side.

    Parameters
    ----------
    path : str or path
        The file; its suffix chooses the format: .svg, .png, .pdf, or .dot (Graphviz's text, which needs no Graphviz).
    *drawn : Chain, str, bytes or path
        As in `draw`.
    title : str or sequence of str, optional
        As in `draw`.

    Raises
    ------
    ChainError, NetlistError, ExportError
        As `draw`; the last where the suffix is another one.
    OSError
        If the file can't be written, or Graphviz isn't there or fails.
    """
    name = os.fspath(path)
    if not name.endswith(SUFFIXES):
        raise ExportError(f'a picture ends with {", ".join(SUFFIXES)}, and {name!r} does not')
    text = draw(*drawn, title=title).encode()
    if name.endswith('.dot'):
        with open(name, 'wb') as file:
            file.write(text)
        return
    try:
        subprocess.run(['dot', f'-T{name.rsplit(".", 1)[1]}', '-o', name], input=text, check=True)
    except (OSError, subprocess.CalledProcessError) as error:
        raise ChildProcessError(f'Graphviz failed: {error}') from error


def drawing_of(drawn: Drawable, title: str, inputs: Sequence[str], outputs: Sequence[str]) -> Drawing:
    """The drawing of a chain, or of what a text has."""
    if isinstance(drawn, Chain):
        return of_chain(drawn, title, inputs, outputs)
    text = text_of(drawn)
    if HEAD.search(text):
        return of_chain(Chain.read(text), title, inputs, outputs)
    if is_blif(text):
        return of_netlist(read_blif(text), title)
    if is_bench(text):
        return of_netlist(read_bench(text), title)
    raise NetlistError('there is neither a chain nor a netlist')


# ---- chains


def of_two(word: str, first: str, second: str) -> tuple[str, Entering]:
    """The symbol of an operator at two operands, and the lines that it depends on."""
    if first == second:
        return of_one(word[0] + word[3], first)
    if word in SYMBOLS:
        symbol, marks = SYMBOLS[word]
        return symbol, [(first, 'a' in marks), (second, 'b' in marks)]
    if word[0] == word[1] and word[2] == word[3]:
        return of_one(word[0] + word[2], first)
    return of_one(word[0] + word[1], second)


def of_one(word: str, operand: str) -> tuple[str, Entering]:
    """The same of a function of one bit, by its values at 0 and 1."""
    return (word[0], []) if word[0] == word[1] else (UNARY[word], [(operand, False)])


def of_chain(chain: Chain, title: str, inputs: Sequence[str], outputs: Sequence[str]) -> Drawing:
    """The drawing of a chain."""
    for names, count, what in ((inputs, chain.inputs, 'inputs'), (outputs, len(chain.outputs), 'outputs')):
        if names and (len(names) != count or len(set(names)) < count):
            raise ExportError(f'{len(set(names))} different names for {count} {what}')
    steps = f'{len(chain)} step{"s" * (len(chain) != 1)}'
    drawing = Drawing(title or steps, list(inputs) or [f'x{k}' for k in range(1, chain.inputs + 1)])
    names = ['', *drawing.sources, *(f'x{step.place}' + '_' * (f'x{step.place}' in drawing.sources) for step in chain)]
    for step in chain:
        symbol, entering = of_two(step.operator, names[step.first], names[step.second])
        drawing.nodes[names[step.place]] = Node(symbol, entering, names[step.place])
    for number, out in enumerate(chain.outputs, 1):
        shown = outputs[number - 1] if outputs else f'output {number}'
        if isinstance(out, bool):
            drawing.nodes[f'constant {number}'] = Node(f'{out:d}', [])
        drawing.sinks.append((shown, f'constant {number}' if isinstance(out, bool) else names[out]))
    return drawing


# ---- netlists


def values_of(table: Table) -> str:
    """The values of a table of few inputs, row by row."""
    width = len(table.inputs)
    value = table.cover[0][-1] if table.cover else '1'
    cubes = [line[:width] for line in table.cover]
    rows = [f'{row:0{width}b}' if width else '' for row in range(2**width)]
    found = [any(all(c in ('-', b) for c, b in zip(cube, row)) for cube in cubes) for row in rows]
    return ''.join(value if hit else '10'[int(value)] for hit in found)


def of_table(table: Table) -> tuple[str, Entering]:
    """The symbol of a table, and the lines that enter it."""
    if len(table.inputs) <= 2:
        word = values_of(table)
        if not table.inputs:
            return word, []
        return of_one(word, table.inputs[0]) if len(word) == 2 else of_two(word, table.inputs[0], table.inputs[1])
    value = table.cover[0][-1] if table.cover else '1'
    literals = [[(name, c == '0') for name, c in zip(table.inputs, line) if c != '-'] for line in table.cover]
    if len(literals) == 1:
        return ('∧' if value == '1' else '⊼'), literals[0]
    if literals and all(len(literal) == 1 for literal in literals):
        return ('∨' if value == '1' else '⊽'), [literal[0] for literal in literals]
    shown = table.cover[:6] + ['…'] * (len(table.cover) > 6)
    return '\n'.join(shown), [(name, False) for name in table.inputs]


def of_netlist(netlist: Netlist, title: str) -> Drawing:
    """The drawing of a netlist."""
    drawing = Drawing(title, netlist.inputs + [latch[1] for latch in netlist.latches])
    for table in netlist.tables:
        drawing.nodes[table.output] = Node(*of_table(table), note=table.output)
    wide = any('\n' in node.symbol or len(node.entering) > 2 for node in drawing.nodes.values())
    count = sum(node.symbol not in '01=' for node in drawing.nodes.values())
    drawing.title = title or f'{count} {"table" if wide else "gate"}{"s" * (count != 1)}'
    drawing.sinks += [(name, name) for name in netlist.outputs]
    drawing.sinks += [(f"{latch[1]}'", latch[0]) for latch in netlist.latches]
    return drawing


# ---- Graphviz


def quoted(text: str) -> str:
    return '"' + text.replace('\\', '\\\\').replace('"', '\\"').replace('\n', '\\l') + '"'


def escaped(text: str) -> str:
    return text.replace('&', '&amp;').replace('<', '&lt;').replace('>', '&gt;')


def label(node: Node) -> str:
    """A symbol, large, and the name of its place below."""
    if '\n' in node.symbol:
        return quoted(f'{node.note}\n{node.symbol}\n')
    small = f'<br/><font point-size="9" color="gray40">{escaped(node.note)}</font>' if node.note else ''
    return f'<<font point-size="20">{escaped(node.symbol)}</font>{small}>'


def cluster(drawing: Drawing, number: int) -> Iterator[str]:
    """The lines of a drawing."""

    def key(name: str) -> str:
        return quoted(f'{number} {name}')

    yield f'subgraph cluster_{number} {{'
    yield f'label={quoted(drawing.title)}; labelloc=t; color=none; fontsize=14;'
    for name in drawing.sources:
        yield f'{key(name)} [label={quoted(name)}, shape=plaintext, height=0.3];'
    read = drawing.read()
    for name, node in drawing.nodes.items():
        shape = 'box' if '\n' in node.symbol else 'circle'
        dead = '' if name in read else ', style=dashed, color=gray50, fontcolor=gray50'
        yield f'{key(name)} [label={label(node)}, shape={shape}{dead}];'
    for k, (shown, _) in enumerate(drawing.sinks):
        yield f'{key(f"out {k}")} [label={quoted(shown)}, shape=plaintext, height=0.3, fontname="DejaVu Sans Bold"];'
    yield from ranks(drawing, key)
    for name, node in drawing.nodes.items():
        for other, complemented in node.entering:
            yield f'{key(other)} -> {key(name)} [arrowhead={"odot" if complemented else "none"}];'
    for k, (_, name) in enumerate(drawing.sinks):
        yield f'{key(name)} -> {key(f"out {k}")} [arrowhead=normal];'
    yield '}'


def ranks(drawing: Drawing, key: Callable[[str], str]) -> Iterator[str]:
    """Sources stand in one row, nodes of one level in one, and sinks in one."""
    level = drawing.levels()
    last = max(level.values(), default=0)
    rows = [[key(name) for name in drawing.sources]]
    rows += [[key(name) for name in drawing.nodes if level[name] == depth] for depth in range(last + 1)]
    rows.append([key(f'out {k}') for k in range(len(drawing.sinks))])
    for row in rows:
        if row:
            yield '{ rank=same; ' + '; '.join(row) + '; }'
    for left, right in zip(rows[0], rows[0][1:]):
        yield f'{left} -> {right} [style=invis];'


def lines_of_dot(drawings: Sequence[Drawing]) -> Iterator[str]:
    yield 'digraph {'
    yield 'rankdir=TB; newrank=true; nodesep=0.3; ranksep=0.45; fontname="DejaVu Sans"; bgcolor=white;'
    yield 'node [fontname="DejaVu Sans", fontsize=12, margin=0.02]; edge [arrowsize=0.7];'
    for number, drawing in enumerate(drawings):
        yield from cluster(drawing, number)
    yield '}'
