#!/usr/bin/env python3
"""vectors.py [--write]: the test vectors of the encodings, computed again by dimacs.py.

`specs/*Vectors.antt` of `enc_theory`, `strong_theory` and `npn_strong` have lines `vector N ON CARE BASIS SIZE VARS
CLAUSES LITERALS CHECKSUM` (and `fenced`, with the fence after SIZE): a question, and the outline of its formula, which
the prover compares with the definition of the encoding. This script computes each outline with the formulas of dimacs.py, which
follow docs/FORMATS.md and share nothing with the definitions. The vectors of `strong_theory` are of the formulas without
the exchange cut, by which no method searches. It prints how many vectors of each file are the same, and each that isn't.
With --write it puts the computed numbers into the files.

Status 0; 1 where a vector differs, or for other arguments."""
import os
import re
import sys

sys.dont_write_bytecode = True
import dimacs  # noqa: E402

TOP = os.path.dirname(os.path.dirname(os.path.realpath(__file__)))
FILES = {'Plain': 'plain', 'Ssv': 'ssv', 'Select': 'select', 'Fence': 'fence', 'Strong': None, 'Npn': 'strong'}
CRATES = {'Strong': 'strong_theory', 'Npn': 'npn_strong'}
LIST = r'(\[\]|\((?:\d+ ∷ )*\[\]\))'
LINE = re.compile(rf'\b(vector|fenced) (\d+) {LIST} {LIST} (\d+) (\d+)( {LIST})? (\d+ \d+ \d+ \d+)(?= *$)', re.MULTILINE)


def numbers(text):
    return [int(word) for word in re.findall(r'\d+', text or '')]


def outline(formula):
    """The numbers of variables, clauses and literals, and the checksum, as `enc_theory` `Vectors` defines them."""
    checksum = 0
    for clause in formula.clauses:
        for literal in [*clause, 0]:
            checksum = (31 * checksum + literal) % 2**32
    return len(formula.numbers), len(formula.clauses), sum(map(len, formula.clauses)), checksum


def computed(method, line):
    """The line with the outline that dimacs.py computes."""
    rows = range(2 ** int(line[2]))
    tables = [
        ''.join(str(on >> t & 1) if care >> t & 1 else '-' for t in rows)
        for on, care in zip(numbers(line[3]), numbers(line[4]))
    ]
    basis = dimacs.Basis(','.join(f'{op:04b}' for op in range(16) if int(line[5]) >> op & 1))
    fence = tuple(numbers(line[7])) if line[1] == 'fenced' else None
    size = int(line[6])
    if method is None:
        formula = dimacs.Pairs(tables, basis, size, True, fence, True)
    else:
        formula = dimacs.formula_of(tables, basis, method, size, fence)
    return line[0].removesuffix(line[9]) + ' '.join(map(str, outline(formula)))


def main():
    if sys.argv[1:] not in ([], ['--write']):
        print(__doc__)
        return 0 if sys.argv[1:] == ['--help'] else 1
    differ = 0
    for name, method in FILES.items():
        crate = CRATES.get(name, 'enc_theory')
        path = f'{TOP}/crates/{crate}/specs/{name}Vectors.antt'
        with open(path, encoding='utf-8') as file:
            text = file.read()
        pairs = [(line[0], computed(method, line)) for line in LINE.finditer(text)]
        for old, new in pairs:
            if old != new:
                differ += 1
                print(f'{name}: {old}: computed {new}')
        same = sum(old == new for old, new in pairs)
        print(f'{name}: {len(pairs)} vectors, {same} the same')
        if sys.argv[1:] == ['--write']:
            again = dict(pairs)
            with open(path, 'w', encoding='utf-8') as file:
                file.write(LINE.sub(lambda line: again[line[0]], text))
    return 1 if differ and sys.argv[1:] == [] else 0


sys.exit(main())
