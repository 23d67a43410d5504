"""The formats of truth tables: what `synth` reads, hex, one question on a line, and PLA."""

from __future__ import annotations

import re
from collections.abc import Iterable
from typing import Literal

from .errors import TablesError
from .tables import Tables, hex_of, inputs_of, number_of, row_of, tables_in
from .texts import Text, lines_of

TableFormat = Literal['tables', 'hex', 'lines', 'pla']
FORMATS: tuple[TableFormat, ...] = ('tables', 'hex', 'lines', 'pla')
MOST_INPUTS, MOST_OUTPUTS = 6, 8


def read_tables(text: Text, form: TableFormat | None = None, inputs: int | None = None) -> list[Tables]:
    """The questions of a text.

    Parameters
    ----------
    text : str, bytes or path
        The text. Its lines may end with CR LF, and the last one without a line feed.
    form : {'tables', 'hex', 'lines', 'pla'}, optional
        The format; `tables` and `pla` are recognised by their first words.
    inputs : int, optional
        The number of inputs of hex tables of one digit (2).

    Returns
    -------
    list of Tables
        In `hex` and `lines` each line is a question; the others have one.

    Raises
    ------
    TablesError
        If the text isn't of its form.

    Examples
    --------
    >>> [each.rows for each in read_tables('e8,96\\n80\\n', 'hex')]
    [('00010111', '01101001'), ('00000001',)]
    """
    lines = lines_of(text)
    if form is None:
        form = shown(lines)
    if form == 'tables':
        return [within(tables_in(front(lines)))]
    if form == 'pla':
        return [within(of_pla(lines))]
    return [within(question(words, form, inputs)) for words in words_of(lines)]


def write_tables(tables: Tables, form: TableFormat = 'tables') -> str:
    """The text of tables in a format, with its last line feed.

    Parameters
    ----------
    tables : Tables
    form : {'tables', 'hex', 'lines', 'pla'}

    Returns
    -------
    str

    Raises
    ------
    TablesError
        If the format is `hex`, and there is a don't-care.

    Examples
    --------
    >>> write_tables(Tables(3, ('00010111', '01101001')), 'hex')
    'e8,96\\n'
    """
    if form == 'hex':
        return ','.join(hex_of(row, tables.inputs) for row in tables.rows) + '\n'
    if form == 'lines':
        return ','.join(tables.rows) + '\n'
    return str(tables) if form == 'tables' else pla_of(tables)


def question(words: Iterable[str], form: Literal['hex', 'lines'], inputs: int | None = None) -> Tables:
    """The question whose outputs are these words."""
    each = list(words)
    if form == 'lines':
        return Tables(inputs_of(len(each[0])), tuple(each))
    counts = {hex_inputs(word, inputs) for word in each}
    if len(counts) != 1:
        raise TablesError(f'outputs of one question have the same inputs, and {" ".join(each)} have not')
    known = counts.pop()
    return Tables(known, tuple(row_of(number_of(word), known) for word in each))


def within(tables: Tables) -> Tables:
    """The tables, if the program takes that many inputs and outputs."""
    if tables.inputs > MOST_INPUTS:
        raise TablesError(f'{tables.inputs} inputs, and {MOST_INPUTS} are the most')
    if len(tables) > MOST_OUTPUTS:
        raise TablesError(f'{len(tables)} outputs, and {MOST_OUTPUTS} are the most')
    return tables


def shown(lines: Iterable[str]) -> TableFormat:
    """The format that the first words show."""
    first = next((line.split() for line in lines if line.split() and not line.startswith('#')), [''])
    if first[0] != 'inputs' and not first[0].startswith('.'):
        raise TablesError('the lines may be hex, and may be tables of rows: name --from hex or --from lines')
    return 'tables' if first[0] == 'inputs' else 'pla'


def words_of(lines: Iterable[str]) -> list[list[str]]:
    """The words of each line that has some; a line that begins with # has none."""
    return [re.split(r'[,\s]+', line.strip()) for line in lines if line.strip() and not line.startswith('#')]


def hex_inputs(word: str, inputs: int | None) -> int:
    """The number of inputs of a hex table."""
    number_of(word)
    digits = len(word.removeprefix('0x').removeprefix('0X'))
    found = inputs if inputs is not None and digits == 1 else inputs_of(4 * digits)
    if inputs is not None and found != inputs or found > MOST_INPUTS:
        raise TablesError(f'{word!r} is no table of {f"at most {MOST_INPUTS}" if inputs is None else inputs} inputs')
    return found


def front(lines: list[str]) -> list[str]:
    """The lines of the tables of a text that goes on behind them, as a certificate and the input of `agree` do."""
    return lines[: next((k for k, line in enumerate(lines[1:], 1) if re.match('[a-z]', line)), len(lines))]


# ---- PLA


def pla_of(tables: Tables) -> str:
    rows = []
    for t in range(2**tables.inputs):
        marks = ''.join(row[t] for row in tables.rows)
        if marks.strip('0'):
            rows.append(f'{f"{t:0{tables.inputs}b}" if tables.inputs else ""} {marks}'.strip())
    head = [f'.i {tables.inputs}', f'.o {len(tables)}', '.type fd', f'.p {len(rows)}']
    return '\n'.join([*head, *rows, '.e', ''])


def of_pla(lines: Iterable[str]) -> Tables:
    count: dict[str, int] = {}
    kind, cubes = 'fd', []
    for line in lines:
        words = line.partition('#')[0].replace('|', ' ').split()
        if not words or words[0] in ('.p', '.ilb', '.ob', '.lb', '.olb', '.phase'):
            continue
        if words[0] in ('.e', '.end'):
            break
        if words[0] in ('.i', '.o') and len(words) == 2 and words[1].isdecimal():
            count[words[0]] = int(words[1])
        elif words[0] == '.type' and len(words) == 2 and words[1] in ('f', 'fd', 'fr', 'fdr'):
            kind = words[1]
        elif words[0].startswith('.'):
            raise TablesError(f'{words[0]} is not supported')
        else:
            cubes.append(''.join(words))
    if set(count) != {'.i', '.o'}:
        raise TablesError('a PLA has the lines .i N and .o M')
    return covered(count['.i'], count['.o'], kind, cubes)


def covered(inputs: int, outputs: int, kind: str, cubes: list[str]) -> Tables:
    """The tables of cubes. Where no cube says anything, an output is 0, but free where the off-set is given too."""
    if inputs > MOST_INPUTS:
        raise TablesError(f'{inputs} inputs, and {MOST_INPUTS} are the most')
    tables = [['-' if 'r' in kind else '0'] * 2**inputs for _ in range(outputs)]
    for cube in cubes:
        if not re.fullmatch(f'[012-]{{{inputs}}}[0124~-]{{{outputs}}}', cube):
            raise TablesError(f'{cube!r} is no cube of {inputs} inputs and {outputs} outputs')
        for row in rows_in(cube[:inputs]):
            for table, mark in zip(tables, cube[inputs:]):
                put(table, row, {'4': '1', '2': '-'}.get(mark, mark), kind)
    return Tables(inputs, tuple(''.join(table) for table in tables))


def rows_in(cube: str) -> list[int]:
    """The rows that a cube matches."""
    rows = [0]
    for mark in cube:
        rows = [2 * row + bit for row in rows for bit in ((0, 1) if mark in '-2' else (int(mark),))]
    return rows


def put(table: list[str], row: int, mark: str, kind: str) -> None:
    """What a mark of the output part says of a row; what is in the on-set stays there."""
    if mark in '01' and 'r' in kind and table[row] == '10'[int(mark)]:
        raise TablesError(f'row {row} is 0 by one cube and 1 by another')
    if mark == '1' or (mark == '0' and 'r' in kind) or (mark == '-' and kind == 'fd' and table[row] != '1'):
        table[row] = mark
