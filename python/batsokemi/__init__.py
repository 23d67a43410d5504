"""Exact synthesis of Boolean chains with certificates, improvement of netlists, and equivalence, by verified code.

    import batsokemi

    adder = batsokemi.synth(['01101001', '00010111'])     # the sum and the carry of three bits
    print(adder.verdict)                                  # minimum 5: five steps do, and no fewer
    print(adder.chain)
    adder.recheck()                                       # judges the certificate anew

What runs is the library `libbatsokemi.so`, which is formally verified. This module isn't: it writes
words and reads answers. The tools `tables`, `export`, `draw`, `classes`, `tabulate` and `blif` are functions
too, and commands: `python3 -m batsokemi --help`.
"""

from .chain import Chain, Step
from .commands import agree, default_engine, equiv, improve, recheck, synth
from .drawing import draw, picture
from .engine import Engine, Library, Process, Run
from .errors import (
    ChainError,
    Error,
    ExportError,
    FormError,
    LimitError,
    MalformedError,
    MemoryFault,
    NetlistError,
    PortError,
    RefusedError,
    TablesError,
    UsageError,
)
from .netlist import Netlist, Table, bench_to_blif, read_bench, read_blif
from .npn import classes
from .pool import Told, tabulate
from .results import Agreement, Equivalence, Report, Result, Undecided, Verdict
from .table_formats import read_tables, write_tables
from .tables import Tables
from .writers import export

__version__ = '1.1'

__all__ = [
    'Agreement',
    'Chain',
    'ChainError',
    'Engine',
    'Equivalence',
    'Error',
    'ExportError',
    'FormError',
    'Library',
    'LimitError',
    'MalformedError',
    'MemoryFault',
    'Netlist',
    'NetlistError',
    'PortError',
    'Process',
    'RefusedError',
    'Report',
    'Result',
    'Run',
    'Step',
    'Table',
    'Tables',
    'TablesError',
    'Told',
    'Undecided',
    'UsageError',
    'Verdict',
    'agree',
    'bench_to_blif',
    'classes',
    'default_engine',
    'draw',
    'equiv',
    'export',
    'improve',
    'picture',
    'read_bench',
    'read_blif',
    'read_tables',
    'recheck',
    'synth',
    'tabulate',
    'write_tables',
]
