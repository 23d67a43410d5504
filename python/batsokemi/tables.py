"""Truth tables, as text, as rows of characters, or as numbers."""

from __future__ import annotations

import os
import re
from collections.abc import Iterator, Sequence
from dataclasses import dataclass
from typing import Union

from .errors import TablesError
from .texts import NUMBER, lines_of, text_of


@dataclass(frozen=True)
class Tables:
    """Truth tables over inputs x1 .. xn, one for each output.

    A row has a character for each row of the table, `0`, `1`, or `-` for a don't-care. Character t, from 0, is the
    value where the inputs are the binary digits of t, x1 the most significant one.

    Parameters
    ----------
    inputs : int
        The number of inputs.
    rows : tuple of str
        The table of each output.

    Raises
    ------
    TablesError
        If a row has another length or another character.

    Examples
    --------
    >>> print(Tables(2, ('0110',)), end='')
    inputs 2
    0110
    """

    inputs: int
    rows: tuple[str, ...]

    def __post_init__(self) -> None:
        if not self.rows:
            raise TablesError('there is no table')
        check_inputs(self.inputs)
        for row in self.rows:
            other = set(row) - set('01-')
            if other:
                raise TablesError(f'{row!r} is no table: a character is 0, 1 or -, and not {min(other)!r}')
            if len(row) != 2**self.inputs:
                rows = 2**self.inputs
                raise TablesError(f'{row!r} has {len(row)} rows, and a table of {self.inputs} inputs has {rows}')

    def __str__(self) -> str:
        return ''.join(f'{line}\n' for line in (f'inputs {self.inputs}', *self.rows))

    def __len__(self) -> int:
        """The number of outputs."""
        return len(self.rows)

    def __iter__(self) -> Iterator[str]:
        return iter(self.rows)

    def to_hex(self) -> tuple[str, ...]:
        """The tables in hex, as kitty and ABC write them.

        Raises
        ------
        TablesError
            If there is a don't-care.

        Examples
        --------
        >>> Tables(3, ('00010111',)).to_hex()
        ('0xe8',)
        """
        return tuple(f'0x{hex_of(row, self.inputs)}' for row in self.rows)


# More inputs than that are refused here, since a row has 2 ** inputs characters; the program takes fewer.
MOST_NAMED = 20

# One table: a row of characters, hex with 0x in front, or a number.
Table = Union[str, int]
# All that is taken for tables: also the text of a file of tables, and its path.
TablesLike = Union[Tables, Table, bytes, 'os.PathLike[str]', Sequence[Table]]


def check_inputs(inputs: int) -> None:
    """Raises an error where tables can't have so many inputs; how many the program takes is another question."""
    if not 0 <= inputs <= MOST_NAMED:
        raise TablesError(f'tables have 0 to {MOST_NAMED} inputs here, and not {inputs}')


def mirrored(row: int, inputs: int) -> int:
    """The number of a row with its bits in the opposite order."""
    return int(f'{row:0{inputs}b}'[::-1], 2) if inputs else 0


def hex_of(row: str, inputs: int) -> str:
    """The digits of a row in hex."""
    if '-' in row:
        raise TablesError(f"hex tables have no don't-cares, and {row!r} has")
    number = sum(int(bit) << mirrored(t, inputs) for t, bit in enumerate(row))
    return f'{number:0{max(len(row) // 4, 1)}x}'


def row_of(number: int, inputs: int) -> str:
    """The row of a table that is given as a number, as in kitty and ABC: bit t is the value where x1 is bit 0 of t, x2
    bit 1 and so on.

    >>> row_of(0xAA, 3)
    '00001111'
    """
    check_inputs(inputs)
    if not 0 <= number < 1 << 2**inputs:
        raise TablesError(f'{number:#x} is no table of {inputs} inputs, which has {2**inputs} rows')
    return ''.join(str(number >> mirrored(t, inputs) & 1) for t in range(2**inputs))


def inputs_of(rows: int) -> int:
    """The number of inputs of a table of that many rows."""
    if rows < 1 or rows & rows - 1:
        raise TablesError(f'a table has 1, 2, 4, .. rows, and not {rows}')
    return rows.bit_length() - 1


def number_of(digits: str) -> int:
    """The number of hex digits, behind 0x or not."""
    bare = digits[2:] if digits[:2] in ('0x', '0X') else digits
    if not re.fullmatch('[0-9a-fA-F]+', bare):
        raise TablesError(f'{digits!r} is no hex table')
    return int(bare, 16)


def inputs_for(table: Table) -> int:
    """The number of inputs, from the length of a table."""
    if isinstance(table, int):
        raise TablesError(f'a number is a table only with inputs=, and {table} comes without')
    if table[:2] in ('0x', '0X'):
        number_of(table)
        return inputs_of(4 * len(table[2:]))
    return inputs_of(len(table))


def row_from(table: Table, inputs: int) -> str:
    """The row of a table in any form."""
    if isinstance(table, int):
        return row_of(table, inputs)
    return row_of(number_of(table), inputs) if table[:2] in ('0x', '0X') else table


def tables_of(given: TablesLike, inputs: int | None = None) -> Tables:
    """The tables of any accepted form.

    Parameters
    ----------
    given : Tables, str, int, bytes, path, or sequence of str and int
        A row, hex with 0x in front, a number, several of them, or the text of a file of tables, or its path.
    inputs : int, optional
        The number of inputs, where the length of the tables doesn't determine it.

    Returns
    -------
    Tables

    Raises
    ------
    TablesError
        If it isn't any of these.

    Examples
    --------
    >>> tables_of('0110') == tables_of(6, inputs=2) == tables_of('0x6') == tables_of('inputs 2\\n0110\\n')
    True
    >>> tables_of(['00010111', 0x96], inputs=3).rows
    ('00010111', '01101001')
    """
    if isinstance(given, Tables):
        return given
    if isinstance(given, (bytes, os.PathLike)):
        given = text_of(given)
    if isinstance(given, str) and given.startswith('inputs '):
        return tables_in(lines_of(given))
    each = [given] if isinstance(given, (str, int)) else list(given)
    if not each:
        raise TablesError('there is no table')
    known = inputs_for(each[0]) if inputs is None else inputs
    return Tables(known, tuple(row_from(table, known) for table in each))


def tables_in(lines: Sequence[str]) -> Tables:
    """The tables of lines that say nothing else, as `synth` reads them."""
    found = re.fullmatch(f'inputs {NUMBER}', lines[0]) if lines else None
    if not found:
        raise TablesError(f'the first line of tables is `inputs N`, and not {lines[0] if lines else ""!r}')
    return Tables(int(found[1]), tuple(lines[1:]))
