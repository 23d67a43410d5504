"""The commands over every engine: expected values are worked by hand or stand in docs/FORMATS.md."""

from __future__ import annotations

import os
import pickle
import subprocess
import threading
import unittest
from pathlib import Path
from unittest import mock

import batsokemi
from batsokemi import engine, errors, options, tables

from .engines import EXAMPLES, TOP, engines, everywhere

ADDERS = """.model adders
.inputs a b c d e
.outputs s t k
.names a b p
01 1
10 1
.names p c s
01 1
10 1
.names a b q
11 1
.names p c r
11 1
.names q r h
1- 1
-1 1
.names d e u
01 1
10 1
.names u h t
01 1
10 1
.names d e v
11 1
.names u h w
11 1
.names v w k
1- 1
-1 1
.end
"""
ADDER = EXAMPLES / 'improve' / 'adder.blif'


# The options that only the program with files has.
FRONT_ALONE = ('--size', '--part', '--most-bytes', '--at', '--match', '--only', '--levels', '--covers')


class Synthesis(unittest.TestCase):
    @everywhere
    def test_full_adder(self, made: batsokemi.Engine) -> None:
        result = batsokemi.synth(['01101001', '00010111'], engine=made)
        self.assertEqual(str(result.verdict), 'minimum 5')
        self.assertEqual(result.steps, 5)
        self.assertEqual(result.chain.tables().rows, ('01101001', '00010111'))
        self.assertEqual(result.recheck(), result.verdict)

    @everywhere
    def test_constants_and_inputs(self, made: batsokemi.Engine) -> None:
        result = batsokemi.synth(['0000', '1111', '0101'], engine=made)
        self.assertEqual(str(result.chain), 'chain 0\nout 0\nout 1\nout x2\n')
        self.assertEqual(result.chain.tables().rows, ('0000', '1111', '0101'))
        self.assertEqual(batsokemi.synth('1', engine=made).chain.outputs, (True,))

    @everywhere
    def test_other_verdicts(self, made: batsokemi.Engine) -> None:
        none = batsokemi.synth('00010111', basis='nand', max_steps=3, engine=made)
        self.assertEqual((str(none.verdict), none.chain, none.steps), ('none 3', None, None))
        self.assertTrue(none.verdict.is_exact)
        self.assertEqual(none.recheck(), none.verdict)
        left = batsokemi.synth('00010110', conflicts=1, engine=made)
        self.assertIn(left.verdict.kind, ('open', 'bounded'))
        self.assertFalse(left.verdict.is_exact)
        self.assertEqual(left.recheck(), left.verdict)

    @everywhere
    def test_fewest_levels(self, made: batsokemi.Engine) -> None:
        result = batsokemi.synth('0000000000000001', least_depth=True, engine=made)
        self.assertEqual((str(result.verdict), result.steps, result.chain.levels()), ('levels 2', 3, 2))
        self.assertEqual(result.recheck(), result.verdict)

    @everywhere
    def test_bases(self, made: batsokemi.Engine) -> None:
        for basis in ('1110', ['1110'], 'nand'):
            self.assertEqual(batsokemi.synth('0110', basis=basis, engine=made).steps, 4)

    @everywhere
    def test_free_cells(self, made: batsokemi.Engine) -> None:
        result = batsokemi.synth('0--1', engine=made)
        self.assertEqual(result.steps, 0)
        self.assertTrue(batsokemi.agree('0--1', result.chain, engine=made))

    @everywhere
    def test_a_certificate_of_something_else(self, made: batsokemi.Engine) -> None:
        result = batsokemi.synth('0110', engine=made)
        other = batsokemi.Result.read(tables.tables_of('0111'), result.certificate, made)
        with self.assertRaises(batsokemi.RefusedError):
            other.recheck()

    @everywhere
    def test_texts_bytes_and_paths(self, made: batsokemi.Engine) -> None:
        path = EXAMPLES / 'recheck' / 'xor.chains'
        for given in (path, path.read_bytes(), path.read_text()):
            self.assertEqual(str(batsokemi.recheck(given, engine=made)), 'minimum 1')
            self.assertTrue(batsokemi.agree('0110', given, engine=made))
        question = EXAMPLES / 'synth' / 'xor.tables'
        for asked in (question, question.read_bytes(), question.read_text()):
            self.assertEqual(batsokemi.synth(asked, engine=made).steps, 1)
        with self.assertRaisesRegex(TypeError, 'str, bytes or a path, and not int'):
            batsokemi.recheck(7, engine=made)  # type: ignore[arg-type]

    @everywhere
    def test_disagreement(self, made: batsokemi.Engine) -> None:
        found = batsokemi.agree('0111', 'chain 1\nx3 x1 x2 0110\nout x3\n', engine=made)
        self.assertEqual((bool(found), found.output, found.row), (False, 1, 3))


class Netlists(unittest.TestCase):
    @everywhere
    def test_improved(self, made: batsokemi.Engine) -> None:
        for given in (ADDER, ADDER.read_text(), ADDER.read_bytes()):
            text, report = batsokemi.improve(given, engine=made)
            self.assertLess(report.after, report.before)
            self.assertTrue(report.settled)
            same = batsokemi.equiv(given, text, engine=made)
            self.assertTrue(same)
            self.assertTrue(same.log.endswith(b'0\n'))

    @everywhere
    def test_undecided_windows(self, made: batsokemi.Engine) -> None:
        _, report = batsokemi.improve(ADDERS, cap=6, conflicts=1, engine=made)
        self.assertTrue(report.undecided)
        self.assertEqual(report.text.count('\nundecided '), len(report.undecided))

    @everywhere
    def test_bench(self, made: batsokemi.Engine) -> None:
        given = 'INPUT(a)\nOUTPUT(y)\nb = NOT(a)\ny = NOT(b)\n'
        text, report = batsokemi.improve(given, netlist_format='bench', engine=made)
        self.assertEqual((text, report.before, report.after), ('INPUT(a)\nOUTPUT(y)\ny = BUFF(a)\n', 2, 0))
        text, _ = batsokemi.improve(EXAMPLES / 'bench' / 'c17.bench', engine=made)
        self.assertTrue(text.startswith('INPUT('))

    @everywhere
    def test_difference(self, made: batsokemi.Engine) -> None:
        one = '.inputs a b\n.outputs y\n.latch y q\n.names a b y\n11 1\n'
        other = one.replace('11 1', '1- 1')
        found = batsokemi.equiv(one, other, engine=made)
        self.assertEqual((found.kind, found.sink, found.latch), ('differ', 'y', False))
        self.assertEqual(found.bits[:2], (True, False))
        for first in (one, one.rstrip(), one + '.end\n', one + '.end'):
            self.assertTrue(batsokemi.equiv(first, one, engine=made))


class Errors(unittest.TestCase):
    @everywhere
    def test_kinds(self, made: batsokemi.Engine) -> None:
        with self.assertRaises(batsokemi.LimitError) as limit:
            batsokemi.synth(['0'] * 9, engine=made)
        self.assertEqual(limit.exception.name, 'TooManyOutputs')
        with self.assertRaises(batsokemi.MalformedError) as malformed:
            batsokemi.improve('.names a b c\n1\n', engine=made)
        self.assertEqual((malformed.exception.name, malformed.exception.fields), ('Syntax', (2,)))
        with self.assertRaises(batsokemi.MalformedError) as undriven:
            batsokemi.improve('.outputs y\n.end\n', engine=made)
        self.assertEqual((undriven.exception.name, undriven.exception.fields), ('Undriven', ('y',)))
        certificate = batsokemi.synth('0110', engine=made).certificate
        with self.assertRaises(batsokemi.RefusedError) as refused:
            batsokemi.recheck(certificate.replace(b'minimum 1', b'minimum 2'), engine=made)
        self.assertEqual((refused.exception.status, refused.exception.name), (8, 'WrongVerdict'))

    @everywhere
    def test_usage(self, made: batsokemi.Engine) -> None:
        """The argument that the program refuses is named."""
        bench = 'INPUT(a)\nOUTPUT(a)\n'
        cases = (
            ('max_steps', lambda: batsokemi.synth('0110', max_steps=17, engine=made)),
            ('conflicts', lambda: batsokemi.synth('0110', conflicts=0, engine=made)),
            ('method', lambda: batsokemi.synth('0110', method='sat', engine=made)),
            ('basis', lambda: batsokemi.synth('0110', basis=['0001', '0001'], engine=made)),
            ('basis', lambda: batsokemi.synth('0110', basis='a b', engine=made)),
            ('least_depth', lambda: batsokemi.synth('0110', method='ssv', least_depth=True, engine=made)),
            ('cap', lambda: batsokemi.improve(ADDERS, cap=9, engine=made)),
            ('basis', lambda: batsokemi.improve(bench, netlist_format='bench', basis='all', engine=made)),
        )
        for option, call in cases:
            with self.assertRaisesRegex(batsokemi.UsageError, option) as usage:
                call()
            self.assertEqual((usage.exception.name, usage.exception.option), ('Usage', option))

    @everywhere
    def test_words(self, made: batsokemi.Engine) -> None:
        for words in ([], ['synth '], [''], ['synth', 'a\0b']):
            with self.assertRaises(ValueError):
                made.run(words)

    def test_options(self) -> None:
        """The table of options is the program's."""
        said: dict[str, dict[str, object]] = {}
        others = {name: value for name, value in os.environ.items() if name != 'BATSOKEMI_PROGRAM'}
        words = [TOP / 'batsokemi', 'help', '--options']
        table = subprocess.run(words, check=True, capture_output=True, text=True, env=others)
        for line in table.stdout.splitlines():
            command, option, kind, _ = line.split('|')
            name, *rest = kind.split()
            alone = option in FRONT_ALONE or (command, option) == ('equiv', '--format')
            if name != 'file' and command != 'formula' and not alone:  # which the library hasn't
                words_of = tuple(word for word in rest if word != 'aiger')
                taken = 'basis' if name == 'basis' else tuple(map(int, rest)) if name == 'number' else words_of
                said.setdefault(command, {})[option.removeprefix('--')] = taken
        self.assertEqual(options.KINDS, said)


class Pickles(unittest.TestCase):
    """What a pool of processes hands on."""

    @everywhere
    def test_results(self, made: batsokemi.Engine) -> None:
        result = batsokemi.synth('0110', engine=made)
        other = pickle.loads(pickle.dumps(result))
        self.assertEqual((other, str(other.recheck())), (result, 'minimum 1'))

    def test_errors(self) -> None:
        usage = errors.UsageError(1, 'error: Usage', 'synth --max 17', 'max_steps', 'why')
        others = ((2, b'error: BadRow 2'), (7, b'Memory'), (8, b'error: Undriven y'))
        for error in (usage, *(errors.error_of(*other) for other in others)):
            other = pickle.loads(pickle.dumps(error))
            self.assertEqual((type(other), str(other), other.status), (type(error), str(error), error.status))
            self.assertEqual((other.name, other.fields), (error.name, error.fields))


class Runs(unittest.TestCase):
    def test_the_same_answers(self) -> None:
        """The library and the program write the same bytes."""
        tables = b'inputs 3\n01101001\n00010111\n'
        asked = [(['synth', '--method', method], tables) for method in options.CHOICES]
        asked += [(['synth'], b''), (['nothing'], b'')]
        asked += [(['improve'], ADDER.read_bytes()), (['gen', '--blocks', '9'], b'')]
        for words, data in asked:
            self.assertEqual(len({each.run(words, data) for each in engines()}), 1, words)

    def test_threads(self) -> None:
        found: list[str] = []
        threads = [
            threading.Thread(target=lambda: found.append(str(batsokemi.synth('00010111').recheck()))) for _ in range(8)
        ]
        for thread in threads:
            thread.start()
        for thread in threads:
            thread.join()
        self.assertEqual(found, ['minimum 4'] * 8)

    def test_pool(self) -> None:
        functions = [f'0x{number:02x}' for number in range(32)]
        alone = list(batsokemi.tabulate(functions, processes=1))
        self.assertEqual(list(batsokemi.tabulate(functions, processes=2)), alone)
        self.assertTrue(all(told.fine for told in alone))
        told = list(batsokemi.tabulate(['xx', '0'], processes=1))
        self.assertEqual([each.fine for each in told], [False, True])
        self.assertEqual(told[0].verdict, "error: BadTables 'xx' is no table: a character is 0, 1 or -, and not 'x'")
        with self.assertRaises(batsokemi.UsageError):
            list(batsokemi.tabulate(['0'], processes=1, max_steps=17))
        with self.assertRaises(TypeError):
            list(batsokemi.tabulate(['0'], processes=1, steps=3))


@unittest.skipUnless(engine.find_library(), 'no library is here')
class Rooms(unittest.TestCase):
    def test_too_small(self) -> None:
        """An answer that has no room is asked for again, with room."""
        with mock.patch.object(engine, 'ROOM', 8):
            self.assertEqual(batsokemi.Library().run(['agree'], b'').notes, b'error: BadHeader 1\n')
            self.assertEqual(str(batsokemi.synth('0110', engine=batsokemi.Library()).verdict), 'minimum 1')

    def test_buffers_are_let_go(self) -> None:
        made = batsokemi.Library()
        with mock.patch.object(engine, 'KEPT', 8):
            self.assertEqual({str(batsokemi.synth('0110', engine=made).verdict) for _ in range(3)}, {'minimum 1'})

    def test_call_within_a_call(self) -> None:
        """A call before another one has read its answer, as the handler of a signal may make it, leaves that alone."""
        made = batsokemi.Library()
        call, within = made._run, []

        def interrupted(*words: object) -> object:
            answer = call(*words)
            if not within:
                within.append(True)
                within.append(made.run(['agree'], b'inputs 0\n1\nchain 0\nout 0\nend\n'))
            return answer

        with mock.patch.object(made, '_run', interrupted):
            self.assertEqual(made.run(['agree'], b'inputs 0\n1\nchain 0\nout 1\nend\n'), (0, b'agrees\n', b''))
        self.assertEqual(within[1:], [(8, b'differs 1 0\n', b'')])


class Found(unittest.TestCase):
    def test_paths(self) -> None:
        """The checkout's library and program are found, or those that the environment names."""
        with mock.patch.dict('os.environ', {'BATSOKEMI_LIBRARY': '/nowhere'}):
            self.assertEqual(engine.find_library(), '/nowhere')
            with self.assertRaises(OSError):
                engine.usual_engine()
        self.assertTrue(Path(engine.find_program() or '').name.startswith('batsokemi'))
