"""Tests of the client, over a built `ceal_serve`: `python3 -m unittest client.test_ceal`."""
from __future__ import annotations

import gc
import os
import pathlib
import subprocess
import sys
import tempfile
import time
import unittest
from typing import Any, Optional
from unittest import mock

TOP = pathlib.Path(__file__).resolve().parent.parent
sys.path.insert(0, str(TOP / 'client'))
import ceal  # noqa: E402
from ceal import Ceal, CealError, Closed, Node, NoProgram, OutOfFuel, Pointer, Refused, SourceFault, Value  # noqa: E402

EXAMPLES = TOP / 'examples'
#: Takes as many steps as the input says.
COUNT = b'ceal count(mod int *from) {\n  int left = read(from);\n  while (left != 0) { left = left - 1; }\n}\n'


def incremented(**how: Any) -> Ceal:
    """A session in which b is a and one more."""
    session = Ceal(EXAMPLES / 'inc.ceal', **how)
    session.mod('a', 'int', 4)
    session.mod('b', 'int')
    session.run('inc', 'a', 'b')
    return session


def counting(folder: str, fuel: int = ceal.MOST_FUEL) -> Ceal:
    """A session with a run that is out of fuel, so that each `propagate` runs everything again."""
    source = pathlib.Path(folder, 'count.ceal')
    source.write_bytes(COUNT)
    session = Ceal(source, fuel=fuel)
    session.mod('from', 'int', -1)
    try:
        session.run('count', 'from')
    except OutOfFuel:
        pass
    return session


def number_of(session: Ceal) -> int:
    """The number of the process of a session's server."""
    engine = session._engine
    assert isinstance(engine, ceal.Server)
    return engine._process.pid


def goes_on(number: int) -> bool:
    """Whether a process runs, and has not ended as a child that nobody asked for its status."""
    try:
        return pathlib.Path(f'/proc/{number}/stat').read_text().rsplit(')', 1)[1].split()[0] != 'Z'
    except OSError:
        return False


def ends_soon(number: int) -> bool:
    until = time.monotonic() + 20
    while goes_on(number) and time.monotonic() < until:
        time.sleep(0.01)
    return not goes_on(number)


class Calls(unittest.TestCase):
    def test_an_edit_and_its_update(self) -> None:
        with incremented() as c:
            self.assertEqual(c['b'], 5)
            c['a'] = 9
            self.assertTrue(c.propagate())
            self.assertEqual((c['b'], c.work, c.steps, c.blocks), (10, 1, 2, 0))

    def test_refusals(self) -> None:
        with incremented() as c:
            for code, line in (
                ('C1', 'frob'),
                ('C2', 'get c'),
                ('C3', 'mod a int 5'),
                ('C4', 'set a null'),
                ('C6', 'run inc a b'),
            ):
                with self.assertRaises(Refused) as raised:
                    c.line(line)
                self.assertEqual((raised.exception.code, raised.exception.line), (code, line))
            c['a'] = 1
            with self.assertRaises(Refused) as raised:
                c['b']
            self.assertEqual(raised.exception.code, 'C8')

    def test_many_edits_are_made_though_one_is_refused(self) -> None:
        with incremented() as c:
            with self.assertRaises(Refused) as raised:
                c.edit([('a', 7), ('none', 1), ('a', 8)])
            self.assertEqual(raised.exception.replies, ['ok', 'refused C2: unknown name', 'ok'])
            c.propagate()
            self.assertEqual(c['b'], 9)

    def test_refusals_among_replies(self) -> None:
        with incremented() as c:
            refusal = 'refused C2: unknown name'
            self.assertEqual(c.answers(['get a', 'get none', 'get b']), ['4', refusal, '5'])
            with self.assertRaises(Refused) as raised:
                c.numbers(['a', 'none', 'b'])
            self.assertEqual(raised.exception.replies, ['4', refusal, '5'])

    def test_a_graph(self) -> None:
        with Ceal(EXAMPLES / 'graph.ceal') as c:
            c.new('x', 'point', 1, 0)
            n = c.mod('n', 'int', 5)
            w = c.new('w', 'watch', 'x.mark', n, 'x')
            c.run('mark', w)
            graph = c.graph(w)
            point, other = graph['of'], graph['other']
            assert isinstance(point, Node) and isinstance(other, Node)
            self.assertEqual((graph.kind, point.kind, point['x'], point['mark']), ('watch', 'point', 1, 3))
            self.assertEqual(graph['watched'], Pointer(point, 'mark'))
            self.assertEqual(other['value'], 5)

    def test_a_list_that_the_program_made(self) -> None:
        with Ceal(EXAMPLES / 'map.ceal') as c:
            last = None
            for at in (3, 2, 1):
                last = c.new(f'c{at}', 'cell', at, last)
            c.mod('l', 'cell', last)
            c.mod('o', 'cell')
            c.run('map', 'l', 'o')
            first = c['o']
            assert isinstance(first, Node)
            self.assertEqual([it['head'] for it in first.walk('tail')], [10, 20, 30])

    def test_names_that_replies_use_too(self) -> None:
        """An input may be called `refused` or `end`, and a struct `C5`: graphs are still told from refusals."""
        with tempfile.NamedTemporaryFile(suffix='.ceal') as file:
            file.write(b'struct C5 { mod int end; };\nceal f(mod int *m) { write(m, 1); }\n')
            file.flush()
            with Ceal(file.name) as c:
                for name in ('refused', 'end', 'fault'):
                    c.new(name, 'C5', 7)
                c.mod('ok', 'int')
                c.mod('out', 'C5', 'refused')
                with self.assertRaises(Refused) as raised:
                    c.graph('refused')
                self.assertEqual(raised.exception.code, 'C7')
                c.run('f', 'ok')
                for name in ('refused', 'end', 'fault'):
                    self.assertEqual((c.graph(name).label, c.graph(name).kind, c.graph(name)['end']), (name, 'C5', 7))
                self.assertEqual(str(c['out']), 'refused')
                self.assertEqual(c['ok'], 1)

    def test_slices(self) -> None:
        with incremented() as c:
            c['a'] = 2
            self.assertEqual(list(c.slices(1)), [])
            self.assertEqual(c['b'], 3)

    def test_long_lines_and_long_replies(self) -> None:
        """Neither side waits for the other, however much both have to say."""
        with Ceal(EXAMPLES / 'map.ceal') as c:
            name = 'n' * 60_000
            c.new(name, 'cell', 1, None)
            c.mod('l', 'cell', name)
            c.mod('o', 'cell')
            c.run('map', 'l', 'o')
            self.assertEqual(c.answers(['get l'] * 150), [name] * 150)
            lines = [f'mod {name}{at} int 5' for at in range(100)] + ['get l'] * 100
            self.assertEqual(c.answers(lines), ['ok'] * 100 + [name] * 100)
            self.assertEqual(c.graph(name).label, name)
            with self.assertRaises(ValueError):
                c.line('get ' + 'x' * ceal.LONGEST_LINE)
            self.assertEqual(c.numbers([name + '7']), [5])

    def test_out_of_fuel_and_back(self) -> None:
        with Ceal(EXAMPLES / 'inc.ceal', fuel=1) as c:
            c.mod('a', 'int', 4)
            c.mod('b', 'int')
            with self.assertRaises(OutOfFuel):
                c.run('inc', 'a', 'b')
            with self.assertRaises(OutOfFuel):
                c.propagate()


class Values(unittest.TestCase):
    def test_the_value_of_an_input_without_one(self) -> None:
        with Ceal(EXAMPLES / 'map.ceal') as c:
            c.mod('number', 'int')
            c.mod('l', 'cell')
            c.mod('o', 'cell')
            with self.assertRaises(Refused) as raised:
                c.mod('null', 'int', None)
            self.assertEqual(raised.exception.code, 'C1')
            with self.assertRaises(Refused) as raised:
                c.mod('other', 'int', None)
            self.assertEqual(raised.exception.code, 'C4')
            c.run('map', 'l', 'o')
            self.assertEqual((c['number'], c['l'], c['o']), (0, None, None))

    def test_what_is_a_number(self) -> None:
        class Number:
            def __index__(self) -> int:
                return 7

        with incremented() as c:
            values: list[tuple[Value, int]]
            values = [(True, 1), (Number(), 7), (-(2**63), -(2**63)), (2**63 - 1, 2**63 - 1)]
            for value, number in values:
                c['a'] = value
                c.propagate()
                self.assertEqual(c['a'], number)

    def test_what_is_no_value(self) -> None:
        with incremented() as c:
            values: list[Value] = [2**63, 'a b', '', '5', '-5', 'null', '#1', 'a\n', 'a.b.c', Node('#1', 'cell')]
            for value in values:
                with self.assertRaises(ValueError, msg=repr(value)):
                    c.set('a', value)
            wrong: Any
            for wrong in (1.5, b'a', [1], {}, object()):
                with self.assertRaises(TypeError, msg=repr(wrong)):
                    c.set('a', wrong)
                with self.assertRaises(TypeError, msg=repr(wrong)):
                    c.set(wrong, 1)
            with self.assertRaises(TypeError):
                c.edit([('a', 7), ('a', wrong)])
            with self.assertRaises(TypeError):
                c.numbers('ab')
            with self.assertRaises(TypeError):
                c.lines('get a')
            self.assertEqual(c.numbers(['a', 'b']), [4, 5])  # (nothing of all this was sent)

    def test_what_is_no_line(self) -> None:
        with incremented() as c:
            for line in ('', ' ', '\t\r', '// a comment', ' // one', 'get b\nget b', 'show b', '\tshow b', 'show'):
                with self.assertRaises(ValueError, msg=repr(line)):
                    c.line(line)
            for line in ('\x0b', '\x0cshow b', '\u00a0', 'showb', 'get b // no comment', '\0', '\r\r//'):
                try:
                    c.line(line)
                except (Refused, ValueError):
                    pass
                self.assertEqual(c.numbers(['a', 'b']), [4, 5], repr(line))

    def test_fuel(self) -> None:
        for fuel in (0, -1, ceal.MOST_FUEL + 1):
            with self.assertRaises(ValueError):
                incremented(fuel=fuel)
        with self.assertRaises(TypeError):
            incremented(fuel='5')


class Ends(unittest.TestCase):
    def test_a_fault_of_the_source(self) -> None:
        with tempfile.NamedTemporaryFile(suffix='.ceal') as file:
            file.write(b'ceal f() { int x; }\n')
            file.flush()
            with self.assertRaises(SourceFault) as raised:
                Ceal(file.name)
            fault = raised.exception
            self.assertEqual((fault.code, fault.line, fault.column), ('S3', 1, 17))

    def test_a_fault_that_is_told_before_all_is_sent(self) -> None:
        with tempfile.NamedTemporaryFile(suffix='.ceal') as file:
            file.write(b'ceal f() { int x; }\n')
            file.flush()
            for part in range(1, 26):
                with mock.patch.object(ceal, 'PART', part), self.assertRaises(SourceFault):
                    Ceal(file.name)
            says_something = ceal.Server._says_something

            def late(server: ceal.Server) -> bool:
                server._process.wait(20)  # (the line after the source is not sent yet)
                return says_something(server)

            with mock.patch.object(ceal, 'PART', 23), mock.patch.object(ceal.Server, '_says_something', late):
                with self.assertRaises(SourceFault):
                    Ceal(file.name)

    def test_a_source_that_is_too_long(self) -> None:
        with tempfile.NamedTemporaryFile(suffix='.ceal') as file:
            file.write(b' ' * ceal.LONGEST_LINE)
            file.flush()
            with self.assertRaises(Closed) as raised:
                Ceal(file.name)
            self.assertEqual(raised.exception.status, 3)
            self.assertIn('longer than', raised.exception.told)

    def test_programs_that_are_none(self) -> None:
        for program in ('/none', '/', '/etc/passwd', ''):
            with self.assertRaises(NoProgram):
                incremented(program=program)
        with self.assertRaises(FileNotFoundError):
            incremented(program='/none')
        old = os.environ.get('CEAL_SERVE')
        os.environ['CEAL_SERVE'] = '/none'
        try:
            with self.assertRaises(NoProgram):
                incremented()
        finally:
            del os.environ['CEAL_SERVE']
            if old is not None:
                os.environ['CEAL_SERVE'] = old
        for program in ('/bin/cat', '/bin/true', '/bin/echo'):
            with self.assertRaises(CealError):
                incremented(program=program)

    def test_a_closed_session(self) -> None:
        c = incremented()
        c.close()
        c.close()
        with self.assertRaises(Closed) as raised:
            c['b']
        self.assertEqual(raised.exception.status, 0)

    def test_a_server_that_was_killed(self) -> None:
        c = incremented()
        os.kill(number_of(c), 9)
        for _ in range(2):
            with self.assertRaises(Closed) as raised:
                c['b']
            self.assertEqual(raised.exception.status, -9)
        c.close()

    def test_a_session_that_nobody_closed(self) -> None:
        c: Optional[Ceal] = incremented()
        assert c
        server = number_of(c)
        with self.assertRaises(Refused):
            c.edit([('none', 1)])
        c = None
        gc.collect()
        self.assertFalse(goes_on(server))

    def test_a_client_that_ends_without_closing(self) -> None:
        for end in ('', 'os.kill(os.getpid(), 9)', 'raise SystemExit(3)', 'os._exit(1)'):
            told = subprocess.run(
                [sys.executable, '-B', '-c', ENDING.format(end)],
                cwd=TOP,
                stdout=subprocess.PIPE,
                stderr=subprocess.DEVNULL,
            )
            self.assertTrue(ends_soon(int(told.stdout)), end)


ENDING = """
import os
from client.test_ceal import incremented, number_of
c = incremented()
print(number_of(c), flush=True)
{}
"""


if __name__ == '__main__':
    unittest.main()
