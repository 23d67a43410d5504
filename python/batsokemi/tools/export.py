"""export --to FORMAT [--name WORD] [--inputs NAMES] [--outputs NAMES] [FILE]

Writes a chain in a format that other programs read.

  FILE              a text with a chain: a certificate of `synth`, or input of `agree`; standard input for - or
                    without FILE
  --to FORMAT       blif, bench, verilog, expression or dot
  --name WORD       the name of the module or model (chain)
  --inputs NAMES    names separated by commas, in place of x1, x2, ..
  --outputs NAMES   the same, in place of y1, y2, ..

  blif         a model with a table for each step
  bench        ISCAS BENCH, with NOT where a step complements an operand
  verilog      a module with a wire for each step; names that are words of Verilog are escaped
  expression   each output as an expression over the inputs, with ~ & ^ | and parentheses, as in Verilog and C
  dot          Graphviz's text

    batsokemi synth full-adder.tables | tools/export --to blif --inputs a,b,c --outputs sum,carry
    tools/export --to expression adder.chains

This script isn't proved; `batsokemi equiv` can compare its BLIF with another netlist. Status 0; 1 for a usage error; 2
where the text has no chain, or the format can't express it."""

from __future__ import annotations

from ..writers import FORMATS, export
from .words import Words, bytes_in, write


def main(words: list[str]) -> int:
    parser = Words('export')
    parser.add_argument('--to', choices=FORMATS, required=True)
    parser.add_argument('--name', default='chain')
    parser.add_argument('--inputs', type=names)
    parser.add_argument('--outputs', type=names)
    parser.add_argument('file', nargs='?', default='-')
    given = parser.parse_args(words)
    text = bytes_in(given.file)
    write(export(text, given.to, name=given.name, inputs=given.inputs or (), outputs=given.outputs or ()))
    return 0


def names(word: str) -> list[str]:
    """The names that commas separate."""
    return word.split(',')
