"""Tables and chains as values, and chains in other formats."""

from __future__ import annotations

import doctest
import itertools
import re
import shutil
import unittest
from importlib import import_module

import batsokemi
from batsokemi import chain, engine, tables, writers
from batsokemi.errors import ChainError, ExportError, NetlistError, TablesError

from .engines import EXAMPLES, TOP

Chain, Step = chain.Chain, chain.Step
DOCTESTS = 'chain commands drawing netlist npn options pool table_formats tables texts waiting writers'.split()


class Tables(unittest.TestCase):
    def test_forms(self) -> None:
        wanted = tables.Tables(3, ('00010111',))
        for given in ('00010111', ['00010111'], '0xe8', 'inputs 3\n00010111\n', b'inputs 3\r\n00010111\r\n', wanted):
            self.assertEqual(tables.tables_of(given), wanted)
        self.assertEqual(tables.tables_of(0xE8, 3), wanted)
        self.assertEqual(tables.tables_of(EXAMPLES / 'synth' / 'median.tables'), wanted)
        self.assertEqual(wanted.to_hex(), ('0xe8',))
        self.assertEqual((len(wanted), list(wanted)), (1, ['00010111']))

    def test_first_variable(self) -> None:
        self.assertEqual(tables.tables_of('0xaa').rows, ('00001111',))
        self.assertEqual(tables.tables_of('0xf0').rows, ('01010101',))
        self.assertEqual(tables.tables_of(2, 1).rows, ('01',))

    def test_there_and_back(self) -> None:
        for number in range(1 << 8):
            self.assertEqual(tables.tables_of(number, 3).to_hex(), (f'0x{number:02x}',))
        for rows in (('0110',), ('0--1', '1000'), ('1',), ('01101001', '00010111')):
            given = tables.Tables(len(rows[0]).bit_length() - 1, rows)
            for form in ('tables', 'lines', 'pla', 'hex')[: 4 if '-' not in ''.join(rows) and len(rows[0]) > 2 else 3]:
                self.assertEqual(batsokemi.read_tables(batsokemi.write_tables(given, form), form), [given], form)

    def test_what_is_none(self) -> None:
        """Each says what is wrong."""
        cases = (
            ('', '1, 2, 4, .. rows, and not 0'), ('012', 'and not 3'), ('01x0', "not 'x'"), ([], 'no table'),
            (['0110', '01'], "'01' has 2 rows"), (6, 'only with inputs='), ('0x', 'no hex table'),
            ('0xg', 'no hex table'), ('inputs 2\n0110\n01x0\n', "not 'x'"),
            ('inputs 2\n0110\n\n0001\n', "'' has 0 rows"), ('inputs x\n0\n', 'inputs N'),
        )  # fmt: skip
        for given, why in cases:
            with self.assertRaisesRegex(TablesError, re.escape(why)):
                tables.tables_of(given)
        with self.assertRaisesRegex(TablesError, 'which has 8 rows'):
            tables.tables_of(256, 3)
        with self.assertRaisesRegex(TablesError, "no don't-cares"):
            tables.Tables(2, ('0--1',)).to_hex()
        plas = (('.i 1\n', '.i N and .o M'), ('.i 1\n.o 1\n2 3\n', 'no cube'), ('.i 9\n.o 1\n', '6 are the most'))
        for pla, why in plas:
            with self.assertRaisesRegex(TablesError, re.escape(why)):
                batsokemi.read_tables(pla)


class Chains(unittest.TestCase):
    def test_sequence(self) -> None:
        text = 'chain 2\nx3 x1 x2 0110\nx4 x3 x1 0001\nout x4\nout 1\n'
        one = Chain.read(text)
        self.assertEqual(one, Chain.read(text.encode(), 2))
        self.assertEqual((str(one), len(one), [step.place for step in one]), (text, 2, [3, 4]))
        self.assertEqual(one[-1].operator, '0001')
        self.assertNotEqual(one, Chain.read(text.replace('0001', '0111')))
        self.assertEqual(len({one, Chain.read(text)}), 1)
        self.assertTrue(Chain.read('chain 0\nout 1\n'))
        self.assertEqual(Chain.read(EXAMPLES / 'agree' / 'full-adder.agree').inputs, 3)

    def test_what_is_none(self) -> None:
        cases = (
            ('', 'no chain block'), ('chain 2\nx3 x1 x2 0110\n', 'cut off'), ('chain 1\nx3 x1 x2 0110\n', 'no outputs'),
            ('chain 1\nx3 x1 x3 0110\nout x3\n', 'no lower place'), ('chain 1\nx3 x1 x2 011\nout x3\n', 'is no step'),
            ('chain 1\nx3 x1 x2 0110\nout x4\n', 'no place'), ('chain 1\nx3 x1 x2 0110\nout 2\n', 'no output'),
            ('inputs 3\nchain 1\nx3 x1 x2 0110\nout x3\n', 'has the place x4'),
        )  # fmt: skip
        for text, why in cases:
            with self.assertRaisesRegex(ChainError, why):
                Chain.read(text)
        with self.assertRaisesRegex(ChainError, '1 values for 2 inputs'):
            Chain(2, (), (1,)).evaluate([True])

    def test_arrays(self) -> None:
        try:
            numpy = import_module('numpy')
        except ImportError:
            self.skipTest('no numpy is here')
        adder = Chain.read(EXAMPLES / 'agree' / 'full-adder.agree')
        rows = numpy.arange(8)
        found = adder.evaluate([rows >> 2 & 1, rows >> 1 & 1, rows & 1])
        self.assertEqual([''.join(str(int(bit)) for bit in each) for each in found], list(adder.tables()))
        self.assertEqual(Chain(1, (), (True, 1)).evaluate([rows & 1])[0].tolist(), [True] * 8)


def read_back(text: str, form: str, inputs: int) -> list[str]:
    """The tables of the outputs of a chain in Verilog, BENCH, or expressions, line by line, over x1, x2, ..: what a
    line says becomes a term of Python."""
    keys = {'AND': '{}&{}', 'OR': '{}|{}', 'XOR': '{}^{}', 'NAND': '~({}&{})', 'NOR': '~({}|{})', 'XNOR': '~({}^{})'}
    full = 2 ** 2**inputs - 1
    known = {f'x{i}': int(''.join(str(t >> inputs - i & 1) for t in range(2**inputs)), 2) for i in range(1, inputs + 1)}
    outs = []
    for name, said in re.findall(r'^ *(?:wire |assign )?(\w+) = (.*?);?$', text, re.MULTILINE):
        if form == 'bench':
            key, *operands = re.findall(r'\w+', said)
            said = {'NOT': '~{}', 'BUFF': '{}', **keys}[key].format(*operands)
        said = re.sub(r"(?:1'b|\b)1\b", str(full), said.replace("1'b0", '0'))
        known[name] = eval(said, {}, known) & full
        if name.startswith('y'):
            outs.append(f'{known[name]:0{2**inputs}b}')
    return outs


class Exports(unittest.TestCase):
    def test_all_operators(self) -> None:
        """A chain of each operator, of different and of equal operands, in each format."""
        for bits, second in itertools.product(itertools.product('01', repeat=4), (1, 2)):
            each = Chain(2, (Step(3, 1, second, ''.join(bits)), Step(4, 3, 2, '0100')), (3, False, 4, True, 1))
            wanted = list(each.tables())
            for form in ('verilog', 'bench', 'expression'):
                self.assertEqual(read_back(batsokemi.export(each, form), form, 2), wanted, (form, str(each)))
            asked = batsokemi.Netlist('m', ['x1', 'x2'], [f'y{k}' for k in range(1, 6)])
            for name, row in zip(asked.outputs, wanted):
                cover = [f'{t:02b} 1' for t in range(4) if row[t] == '1']
                asked.tables.append(batsokemi.Table(['x1', 'x2'], name, cover))
            self.assertTrue(batsokemi.equiv(asked.to_blif(), each.to_blif()), str(each))
            self.assertTrue(batsokemi.equiv(asked.to_blif(), batsokemi.bench_to_blif(each.to_bench())), str(each))

    def test_names(self) -> None:
        each = Chain(2, (Step(3, 1, 2, '0001'),), (3,))
        self.assertIn('.names x3 b[0] x3_\n', each.to_blif(inputs=['x3', 'b[0]']))
        self.assertEqual(
            each.to_verilog('module', ['wire', 'a.b'], ['reg']),
            'module \\module (input \\wire , input \\a.b , output \\reg );\n'
            '  wire x3 = \\wire  & \\a.b ;\n  assign \\reg  = x3;\nendmodule\n',
        )
        self.assertTrue({'wire', 'reg', 'input', 'module', 'logic', 'always_ff'} <= writers.WORDS)
        wrong = ((['a'], '1 names for 2 inputs'), (['a', 'a'], 'the same: a'), (['a', 'y1'], 'the same: y1'))
        for inputs, why in wrong:
            with self.assertRaisesRegex(ExportError, why):
                each.to_blif(inputs=inputs)
        none = (('blif', 'b c'), ('blif', 'b#'), ('blif', 'b\u00e9'), ('bench', 'b(0)'), ('expression', '1b'))
        for form, name in none:
            with self.assertRaisesRegex(ExportError, 'is no name'):
                batsokemi.export(each, form, inputs=['a', name])
        with self.assertRaisesRegex(ExportError, 'without an input'):
            Chain(0, (), (True,)).to_bench()
        with self.assertRaisesRegex(ExportError, "not as 'aiger'"):
            batsokemi.export(each, 'aiger')  # type: ignore[arg-type]

    def test_pictures(self) -> None:
        each = Chain(2, (Step(3, 1, 2, '0001'),), (3,))
        self.assertEqual(each.to_dot(), batsokemi.draw('inputs 2\n' + str(each)))
        self.assertIn('label="sum"', each.to_dot('sum', ['a', 'b'], ['y']))
        self.assertEqual(each._repr_svg_() is None, shutil.which('dot') is None)
        for file in ('improve/adder.blif', 'improve/counter.blif', 'bench/c17.bench'):
            self.assertTrue(batsokemi.draw(EXAMPLES / file).startswith('digraph {'))
        with self.assertRaisesRegex(NetlistError, 'neither a chain nor a netlist'):
            batsokemi.draw('inputs 2\n0110\n')
        with self.assertRaisesRegex(NetlistError, 'cycle'):
            batsokemi.draw('.names a b\n1 1\n.names b a\n1 1\n')


def load_tests(loader: unittest.TestLoader, found: unittest.TestSuite, pattern: object) -> unittest.TestSuite:
    """Adds the examples of the modules and those of docs/PYTHON.md."""
    for name in DOCTESTS:
        found.addTests(doctest.DocTestSuite(f'batsokemi.{name}'))
    if engine.find_library():
        found.addTests(doctest.DocTestSuite(engine))
    found.addTests(doctest.DocFileSuite(str(TOP / 'docs' / 'PYTHON.md'), module_relative=False))
    return found
