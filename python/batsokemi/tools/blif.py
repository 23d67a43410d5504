"""blif [--name WORD] [FILE.bench]

Converts an ISCAS BENCH netlist to BLIF, the only format that `batsokemi equiv` reads.

  FILE.bench    the netlist; standard input for - or without FILE
  --name WORD   the name of the model (top)

Inputs, outputs, latches and gates keep their names and order. AND, NAND, OR, NOR, NOT and BUFF become one table each;
XOR and XNOR of more than two operands become tables of two, whose names end with .1, .2 and so on.

    batsokemi improve a.bench -o b.bench
    batsokemi equiv <(tools/blif a.bench) <(tools/blif b.bench)

This script isn't proved. Status 0; 1 for a usage error; 2 where the file can't be read or is malformed."""

from __future__ import annotations

from ..netlist import bench_to_blif
from .words import Words, bytes_in, write


def main(words: list[str]) -> int:
    parser = Words('blif')
    parser.add_argument('--name', default='top')
    parser.add_argument('file', nargs='?', default='-')
    given = parser.parse_args(words)
    write(bench_to_blif(bytes_in(given.file), given.name))
    return 0
