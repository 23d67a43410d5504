"""draw FILE [FILE] [-o PICTURE] [--name WORD]

Draws a chain or a netlist by Graphviz: inputs on top, each step or gate with the usual symbol of its operator, levels
as ranks, and outputs at the bottom. A small circle where an edge enters a node marks a complemented operand. Dangling
nodes are dashed.

  FILE          a text with a chain (a certificate, or input of `agree`), a netlist in BLIF or BENCH, or - for standard
                input. Two files are drawn side by side, as a netlist before and after `improve`
  -o PICTURE    the file for the picture; its suffix chooses the format: .svg, .png, .pdf or .dot (Graphviz's
                text, which needs no Graphviz). Without -o that text goes to standard output
  --name WORD   the title of the picture (for two files, give it twice)

It reads the output of the proved program; the script itself isn't proved. Debian: apt-get install graphviz

    batsokemi synth < full-adder.tables | tools/draw - -o adder.svg
    tools/draw before.blif after.blif -o both.svg

Status 0; 1 for a usage error; 2 where a file can't be read or written, or has neither a chain nor a netlist; 3 where
Graphviz fails."""

from __future__ import annotations

from ..drawing import SUFFIXES, draw, picture
from .words import Words, bytes_in, write


def main(words: list[str]) -> int:
    parser = Words('draw')
    parser.add_argument('-o', dest='out')
    parser.add_argument('--name', action='append', default=[])
    parser.add_argument('files', nargs='+')
    given = parser.parse_args(words)
    if len(given.files) > 2:
        parser.error('one file, or two')
    if given.out is not None and not given.out.endswith(SUFFIXES):
        parser.error(f'the name of a picture ends with {", ".join(SUFFIXES)}')
    texts = [bytes_in(file) for file in given.files]
    if given.out is None:
        write(draw(*texts, title=given.name))
    else:
        picture(given.out, *texts, title=given.name)
    return 0
