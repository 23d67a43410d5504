"""NPN classes: functions that negations and permutations of inputs and a negation of the output make of each other."""

from __future__ import annotations

import itertools
from collections.abc import Iterator


def classes(inputs: int) -> Iterator[str]:
    """A representative of each NPN class of functions of so many inputs.

    Parameters
    ----------
    inputs : int
        0 to 4: there are 1, 2, 4, 14 and 222 classes.

    Yields
    ------
    str
        The table of the first function of a class in lexicographic order.

    Raises
    ------
    ValueError
        If the number of inputs is another one.

    Examples
    --------
    >>> list(classes(2))
    ['0000', '0001', '0011', '0110']
    """
    if not 0 <= inputs <= 4:
        raise ValueError(f'the classes of 0 to 4 inputs are known here, and not those of {inputs}')
    return representatives(inputs)


def representatives(inputs: int) -> Iterator[str]:
    rows = 2**inputs
    exchanges = list(moves(inputs))
    seen = bytearray(2**rows)
    for function in range(2**rows):
        if seen[function]:
            continue
        bits = [function >> (rows - 1 - row) & 1 for row in range(rows)]
        for move in exchanges:
            moved = 0
            for row in move:
                moved = 2 * moved + bits[row]
            seen[moved] = seen[2**rows - 1 - moved] = 1
        yield f'{function:0{rows}b}'


def moves(inputs: int) -> Iterator[list[int]]:
    """Where each row goes, for each permutation and complement of inputs."""
    for places in itertools.permutations(range(inputs)):
        order = [sum((row >> place & 1) << k for k, place in enumerate(places)) for row in range(2**inputs)]
        for flipped in range(2**inputs):
            yield [row ^ flipped for row in order]
