"""tables [--from FORMAT] [--to FORMAT] [--inputs N] [TABLE or FILE..]

Converts truth tables: hex tables as kitty and ABC write them, PLA, and tables one per line, to the tables that `synth`
reads, and back.

  --from FORMAT   tables, hex, lines or pla; by default `tables` and `pla` are recognised by their first words, and a
                  table on the command line is hex; a table of the digits 0 and 1 alone needs --from
  --to FORMAT     the same (tables)
  --inputs N      the number of inputs of hex tables of one digit (2)
  TABLE           an argument that isn't the name of a file: all of them are the outputs of one question
  FILE            a file, or - for standard input, which is also read without arguments

  tables   what `synth` reads: `inputs N`, and a line for each output; row 0 first, x1 the most significant digit of a
           row's number
  hex      one question per line, the outputs separated by commas or blanks. The last digit has rows 0 to 3, and x1,
           the first variable (kitty's x0, ABC's a), is the LEAST significant digit of a row's number: its table is
           aa, and e8 is the median of three. There are no don't-cares
  lines    one question per line, the outputs separated by commas or blanks, each a table as in `tables`, with - for
           a don't-care: the input of `tabulate`
  pla      the espresso format, of the types f, fd, fr and fdr; the first column is x1

Lines may end with CR LF, and the last one may lack its line feed. At most 6 inputs and 8 outputs.

    tools/tables e8 96 | batsokemi synth             the median and the parity of three
    tools/tables --to lines --from hex npn4.txt | tools/tabulate --lines -
    tools/tables --to hex full-adder.tables

This script isn't proved. Status 0; 1 for a usage error; 2 where a text is malformed."""

from __future__ import annotations

import os
import re

from ..errors import TablesError
from ..table_formats import FORMATS, TableFormat, question, read_tables, within, write_tables
from ..tables import Tables
from .words import Words, bytes_in, write


def main(words: list[str]) -> int:
    parser = Words('tables')
    parser.add_argument('--from', dest='source', choices=FORMATS)
    parser.add_argument('--to', dest='target', choices=FORMATS, default='tables')
    parser.add_argument('--inputs', type=int, choices=range(7))
    parser.add_argument('given', nargs='*')
    given = parser.parse_args(words)
    files = [word for word in given.given or ['-'] if word == '-' or os.path.exists(word)]
    asked = [each for file in files for each in read_tables(bytes_in(file), given.source, given.inputs)]
    rest = [word for word in given.given if word not in files]
    asked += [of_words(rest, given.source, given.inputs)] if rest else []
    if given.target in ('tables', 'pla') and len(asked) != 1:
        raise TablesError(f'{len(asked)} questions, and {given.target} have one: --to lines and tabulate ask many')
    write(''.join(write_tables(each, given.target) for each in asked))
    return 0


def of_words(words: list[str], form: TableFormat | None, inputs: int | None) -> Tables:
    """The one question whose outputs are the words."""
    if form in ('tables', 'pla'):
        raise TablesError(f'there is no file {words[0]}')
    if form is None:
        for word in words:
            if re.fullmatch('[01]+', word):
                may = f'{word} may be hex, and may be a table of {len(word)} rows'
                raise TablesError(f'{may}: name --from hex or --from lines')
            if not re.fullmatch('(0[xX])?[0-9a-fA-F]+', word):
                raise TablesError(f'there is no file {word}, and it is no hex table')
    return within(question(words, 'lines' if form == 'lines' else 'hex', inputs))
