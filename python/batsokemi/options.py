"""The options of the commands: how an argument of a function becomes words, and why the program refused one.

The program judges the words; this table only says which of them is wrong. It is that of
`batsokemi help --options`, and the tests compare the two.
"""

from __future__ import annotations

import re
from collections.abc import Iterator, Mapping, Sequence
from typing import Union

# What an argument may be: a number, a word, yes or no, operators, or None where it isn't given.
Value = Union[str, int, bool, Sequence[str], None]

BASES = ('all', 'u2', 'bench', 'nand')
METHODS = ('ssv', 'select', 'fence', 'strong', 'strong-fence', 'plain')
CHOICES = (*METHODS, 'auto')
CONFLICTS = (1, 10_000_000)

# By command and option: the least and the greatest number, the words, or `basis`.
Kind = Union[tuple[int, int], tuple[str, ...], str]
KINDS: dict[str, dict[str, Kind]] = {
    'synth': {
        'basis': 'basis',
        'method': CHOICES,
        'max': (0, 16),
        'conflicts': CONFLICTS,
        'least-depth': ('yes', 'no'),
        'effort': (0, 1000),
    },
    'recheck': {'depth': ('yes', 'no')},
    'improve': {
        'cap': (0, 8),
        'observe': ('yes', 'no'),
        'effort': (0, 1000),
        'seed': (0, 1_000_000),
        'basis': 'basis',
        'method': METHODS,
        'conflicts': CONFLICTS,
        'rounds': (1, 100_000),
        'format': ('blif', 'bench'),
    },
    'equiv': {'conflicts': CONFLICTS},
    'gen': {'blocks': (1, 10_000), 'run': ('write', 'improve')},
}

# The arguments whose names aren't those of the options, which Python's builtins have.
RENAMED = {'max_steps': 'max', 'netlist_format': 'format'}


def option_of(argument: str) -> str:
    """The name of the option of an argument.

    >>> option_of('least_depth'), option_of('max_steps')
    ('least-depth', 'max')
    """
    return RENAMED.get(argument, argument).replace('_', '-')


def word_of(value: Value) -> str:
    """The word of a value that is given."""
    if isinstance(value, bool):
        return 'yes' if value else 'no'
    return str(value) if isinstance(value, (str, int)) or value is None else ','.join(value)


def words_of(given: Mapping[str, Value]) -> Iterator[str]:
    """The words of the arguments that aren't None.

    >>> list(words_of({'max_steps': 3, 'basis': ['0001', '0110'], 'method': None, 'observe': True}))
    ['--max', '3', '--basis', '0001,0110', '--observe', 'yes']
    """
    for argument, value in given.items():
        if value is not None:
            yield f'--{option_of(argument)}'
            yield word_of(value)


def is_basis(word: str) -> bool:
    """Whether a word is a basis: a name, or different operators with commas between them."""
    items = word.split(',')
    return word in BASES or len(set(items)) == len(items) and all(re.fullmatch('[01]{4}', item) for item in items)


def wanted(kind: Kind, word: str) -> str | None:
    """What an option of a kind takes, if it doesn't take this word."""
    if isinstance(kind, str):
        return None if is_basis(word) else f'{", ".join(BASES)} or different operators as 0001,0110'
    if isinstance(kind[0], int):
        least, most = kind[0], int(kind[1])
        fits = re.fullmatch(r'0|[1-9][0-9]{0,8}', word) and least <= int(word) <= most
        return None if fits else f'a number from {least} to {most}'
    return None if word in kind else ', '.join(map(str, kind))


def fault_of(command: str, given: Mapping[str, Value]) -> tuple[str | None, str]:
    """The argument that the program refused, and why.

    >>> fault_of('synth', {'method': 'ssv', 'max_steps': 17})
    ('max_steps', 'synth: max_steps takes a number from 0 to 16, and not 17')
    """
    kinds = KINDS.get(command, {})
    for argument, value in given.items():
        if value is None:
            continue
        takes = wanted(kinds[option_of(argument)], word_of(value)) if option_of(argument) in kinds else 'no value'
        if takes:
            return argument, f'{command}: {argument} takes {takes}, and not {word_of(value) or "an empty word"}'
    if given.get('least_depth') and given.get('method') != 'fence':
        return 'least_depth', f"{command}: least_depth goes with the method 'fence', and not with {given['method']!r}"
    if given.get('netlist_format') == 'bench':
        return 'basis', f"{command}: of a netlist in BENCH the basis is 'bench' or a part of it"
    return None, ''
