"""Calls of the client that are interrupted: after each of them every answer is right, or the session is closed.

`python3 -m unittest client.test_interrupts`, over a built `ceal_serve`.
"""
from __future__ import annotations

import os
import pathlib
import signal
import subprocess
import sys
import tempfile
import threading
import time
import unittest
from collections.abc import Callable, Iterator
from contextlib import contextmanager
from types import FrameType
from typing import Any, Optional, TypeVar
from unittest import mock

TOP = pathlib.Path(__file__).resolve().parent.parent
sys.path.insert(0, str(TOP / 'client'))
import ceal  # noqa: E402
from ceal import Ceal, CealError, Closed, Refused  # noqa: E402
from test_ceal import counting, ends_soon, goes_on, incremented, number_of  # noqa: E402


Done = TypeVar('Done')


class Interrupt(BaseException):
    """What a signal's handler may raise."""


def interrupted(call: Callable[[], object], at: int) -> bool:
    """Makes a call, and raises before a step of Python within the client. Returns whether there were as many steps."""
    left = at

    def trace(frame: FrameType, event: str, _: object) -> Optional[Callable[..., Any]]:
        nonlocal left
        if frame.f_code.co_filename != ceal.__file__:
            return None
        frame.f_trace_opcodes = True
        if event == 'opcode':
            left -= 1
            if not left:
                raise Interrupt
        return trace

    sys.settrace(trace)
    try:
        call()
    except Interrupt:
        return True
    except Refused:
        return False
    finally:
        sys.settrace(None)
    return False


class Model:
    """A session, and what it has to answer: b is a and one more."""

    def __init__(self, case: unittest.TestCase, **how: Any) -> None:
        self.case, self.session, self.value, self.made = case, incremented(**how), 4, 0

    def next(self) -> int:
        self.value += 1
        return self.value

    def check(self) -> None:
        """An edit, its update and questions of each kind, whose answers were never right before."""
        value, c = self.next(), self.session
        c['a'] = value
        c.propagate()
        self.case.assertEqual(c.numbers(['b', 'a', 'b']), [value + 1, value, value + 1])
        self.case.assertEqual((c.graph('a')['value'], c['b'], c.graph('b')['value']), (value, value + 1, value + 1))
        self.case.assertEqual(c.answers(['get none', 'get a']), ['refused C2: unknown name', str(value)])

    def calls(self) -> dict[str, Callable[[], object]]:
        c = self.session
        return {
            'set': lambda: c.set('a', self.next()),
            'edit': lambda: c.edit([('a', self.next()) for _ in range(5)]),
            'propagate': lambda: c.propagate(),
            'get': lambda: c['b'],
            'numbers': lambda: c.numbers(['a', 'b', 'b', 'a', 'a']),
            'graph': lambda: c.graph('b'),
            'a graph that is refused': lambda: c.graph('none'),
            'a line that is refused': lambda: c.line('get none'),
            'replies, refusals among them': lambda: c.answers(['get a', 'frob', 'get b']),
            'mod': lambda: c.mod(self.name(), 'int', 7),
            'catch_up': lambda: c.catch_up(),
        }

    def name(self) -> str:
        self.made += 1
        return f'made{self.made}'


@contextmanager
def small(together: int = 2, part: int = 9, piece: int = 3) -> Iterator[None]:
    """Exchanges of few lines, and writes and reads of few bytes, so that there is much to interrupt."""
    with mock.patch.multiple(ceal, TOGETHER=together, PART=part, PIECE=piece):
        yield


class AtEachStep(unittest.TestCase):
    """An exception between any two steps of Python, as a signal's handler may raise it."""

    def tried(self, stride: int, **how: Any) -> Model:
        model = Model(self, **how)
        for name, call in model.calls().items():
            at = 1
            with self.subTest(name):
                while interrupted(call, at):
                    model.check()
                    at += stride
                self.assertGreater(at, 40)
        return model

    def test_calls_of_one_exchange(self) -> None:
        self.tried(1).session.close()

    def test_calls_in_small_parts(self) -> None:
        with small():
            self.tried(11).session.close()

    def test_with_a_journal(self) -> None:
        """What is interrupted is not lost, and is not there twice."""
        with tempfile.TemporaryDirectory() as folder:
            file = pathlib.Path(folder, 'journal')
            model = self.tried(5, journal=file)
            c = model.session
            self.assertTrue(interrupted(lambda: c.mod(model.name(), 'int', 7), 150))
            c.propagate()
            names = [f'made{at}' for at in range(1, model.made + 1)]
            asked = c.answers(f'get {it}' for it in ['a', 'b', *names])
            self.assertIn('7', asked)
            c.close()
            with Ceal.again(file) as again:
                self.assertEqual(again.answers(f'get {it}' for it in ['a', 'b', *names]), asked)

    def test_an_interrupt_of_an_interrupt(self) -> None:
        """The call that catches up is interrupted too, and once more."""
        model = Model(self)
        for at in range(60, 600, 7):
            interrupted(lambda: model.session.set('a', model.next()), at)
            interrupted(lambda: model.session.propagate(), at + 3)
            interrupted(lambda: model.session.catch_up(), at - 11)
            model.check()
        model.session.close()

    def test_closing(self) -> None:
        """Closing that was interrupted is done by closing again, and a session that is to be closed makes no call."""
        at = 1
        while True:
            c = incremented()
            server = number_of(c)
            if not interrupted(c.close, at):
                break
            with self.assertRaises(Closed):
                if at % 2:
                    c.close()
                c['b']
                c.close()
                raise Closed(None, '')  # (it was interrupted before it began)
            c.close()
            self.assertFalse(goes_on(server))
            at += 7
        self.assertGreater(at, 20)

    def test_beginning(self) -> None:
        """Where nothing was returned, no server goes on."""
        at, begun = 1, []

        def begin() -> None:
            begun.append(incremented())

        with mock.patch.object(subprocess, 'Popen', Noted):
            while interrupted(begin, at):
                self.assertFalse([it for it in Noted.numbers if not ends_soon(it)], at)
                Noted.numbers.clear()
                at += 23
        self.assertEqual(begun.pop()['b'], 5)


class Noted(subprocess.Popen[bytes]):
    """A process whose number is noted."""

    numbers: list[int] = []

    def __init__(self, *words: Any, **how: Any) -> None:
        super().__init__(*words, **how)
        self.numbers.append(self.pid)


class Stubborn:
    """The module `os`, whose Nth write or read raises an exception: before it is done, or when it is done."""

    def __init__(self, at: int, raised: BaseException, is_done: bool) -> None:
        self.left, self.raised, self.is_done = at, raised, is_done

    def __getattr__(self, name: str) -> Any:
        return getattr(os, name)

    def write(self, file: int, data: bytes) -> int:
        return self.tried(lambda: os.write(file, data))

    def read(self, file: int, size: int) -> bytes:
        return self.tried(lambda: os.read(file, size))

    def tried(self, doing: Callable[[], Done]) -> Done:
        self.left -= 1
        if not self.left and self.is_done:
            doing()
        if not self.left:
            raise self.raised
        return doing()


class AtEachWriteAndRead(unittest.TestCase):
    """An exception out of a write or a read. Reads and writes are small, so that there are many."""

    def tried(self, raised: BaseException, is_done: bool, check: Callable[[Model], None]) -> int:
        model, count = Model(self), 0
        for name in model.calls():
            at = 0
            with small(together=3, part=7, piece=2), self.subTest(name):
                while True:
                    at += 1
                    with mock.patch.object(ceal, 'os', Stubborn(at, raised, is_done)) as stubborn:
                        try:
                            model.calls()[name]()
                        except Refused:
                            pass
                        except type(raised):
                            count += 1
                    if stubborn.left > 0:
                        break
                    check(model)
        model.session.close()
        return count

    def test_before_it_is_done(self) -> None:
        for raised in (Interrupt(), TimeoutError(), EOFError(), OSError(5, 'an error'), BrokenPipeError()):
            self.assertGreater(self.tried(raised, False, Model.check), 100)

    def test_when_what_came_may_be_lost(self) -> None:
        """Only where there is no memory for what was read it is lost, and then the session is closed."""

        def check(model: Model) -> None:
            for _ in range(2):
                with self.assertRaises(Closed):
                    model.session['b']
            model.session, model.made = incremented(), 0

        self.assertGreater(self.tried(MemoryError(), True, check), 60)


class BySignals(unittest.TestCase):
    @contextmanager
    def handled(self, handler: Callable[[], object]) -> Iterator[None]:
        def act(*_: object) -> None:
            handler()

        old = signal.signal(signal.SIGALRM, act)
        try:
            yield
        finally:
            signal.setitimer(signal.ITIMER_REAL, 0)
            signal.signal(signal.SIGALRM, old)

    def test_timeouts(self) -> None:
        """Calls that are interrupted at any moment."""

        def handler() -> None:
            raise TimeoutError

        model, late = Model(self), 0
        with self.handled(handler):
            for round in range(600):
                try:
                    signal.setitimer(signal.ITIMER_REAL, (round % 100 + 1) * 1e-5)
                    model.session['a'] = model.next()
                    model.session.propagate()
                    model.session.numbers(['a', 'b'] * 300)
                    signal.setitimer(signal.ITIMER_REAL, 0)
                except TimeoutError:
                    late += 1
                signal.setitimer(signal.ITIMER_REAL, 0)
                model.check()
        self.assertGreater(late, 100)
        model.session.close()

    def test_a_long_call(self) -> None:
        """A call that was interrupted while the server is busy is caught up with."""

        def handler() -> None:
            raise TimeoutError

        with tempfile.TemporaryDirectory() as folder, counting(folder) as c, self.handled(handler):
            signal.setitimer(signal.ITIMER_REAL, 0.02)
            with self.assertRaises(TimeoutError):
                c.answers(['propagate'] * 30 + ['set from 0', 'propagate'])
            found = c.catch_up()
            self.assertEqual(found, [('propagate', 'out of fuel')] * 30 + [('set from 0', 'ok'), ('propagate', 'ok')])
            self.assertEqual(c.catch_up(), [])
            self.assertEqual((c['from'], c.steps), (0, 2))

    def test_closing_while_the_server_is_busy(self) -> None:
        def handler() -> None:
            raise KeyboardInterrupt

        with tempfile.TemporaryDirectory() as folder, self.handled(handler):
            begun = time.monotonic()
            with self.assertRaises(KeyboardInterrupt), counting(folder) as c:
                signal.setitimer(signal.ITIMER_REAL, 0.02)
                c.answers(['propagate'] * 190)
            with self.assertRaises(Closed):
                c['from']
            self.assertFalse(goes_on(number_of(c)))
            self.assertLess(time.monotonic() - begun, 5)

    def test_a_call_in_a_handler(self) -> None:
        """A handler can't make a call of the session that it has interrupted, and that call goes on."""
        refused: list[str] = []

        def handler() -> None:
            try:
                c['from']
            except CealError as error:
                refused.append(str(error))

        with tempfile.TemporaryDirectory() as folder, counting(folder) as c, self.handled(handler):
            signal.setitimer(signal.ITIMER_REAL, 0.02)
            self.assertEqual(c.answers(['propagate'] * 20), ['out of fuel'] * 20)
        self.assertEqual(len(refused), 1)
        self.assertIn('within another call', refused[0])

    def test_closing_in_a_handler(self) -> None:
        with tempfile.TemporaryDirectory() as folder, counting(folder) as c, self.handled(lambda: c.close()):
            signal.setitimer(signal.ITIMER_REAL, 0.02)
            with self.assertRaises(Closed):
                c.answers(['propagate'] * 190)
            self.assertFalse(goes_on(number_of(c)))

    def test_an_interrupt_of_the_terminal(self) -> None:
        """Ctrl-C reaches the whole group of the tool; the session goes on."""
        how: dict[str, Any] = {'cwd': TOP, 'stdin': subprocess.PIPE, 'stdout': subprocess.PIPE, 'text': True}
        with subprocess.Popen([sys.executable, '-B', '-c', TERMINAL], start_new_session=True, **how) as tool:
            assert tool.stdout and tool.stdin
            self.assertEqual(tool.stdout.readline(), 'busy\n')
            time.sleep(0.1)
            os.killpg(tool.pid, signal.SIGINT)
            self.assertEqual(tool.stdout.readline(), 'interrupted\n')
            self.assertEqual(tool.stdout.readline(), '0 2\n')
        self.assertEqual(tool.returncode, 0)


TERMINAL = """
import tempfile
from client.test_ceal import counting
with tempfile.TemporaryDirectory() as folder, counting(folder) as c:
    print('busy', flush=True)
    try:
        while True:
            c.answers(['propagate'] * 5)
    except KeyboardInterrupt:
        print('interrupted', flush=True)
    c['from'] = 0
    c.propagate()
    print(c['from'], c.steps, flush=True)
"""


class Threads(unittest.TestCase):
    def together(self, *doings: Callable[[], object]) -> None:
        """Runs some functions at once, each in a thread, and raises what one of them raises."""
        failed: list[BaseException] = []

        def noted(doing: Callable[[], object]) -> None:
            try:
                doing()
            except BaseException as error:
                failed.append(error)

        threads = [threading.Thread(target=noted, args=(it,)) for it in doings]
        for it in threads:
            it.start()
        for it in threads:
            it.join(120)
            self.assertFalse(it.is_alive())
        if failed:
            raise failed[0]

    def test_one_call_at_a_time(self) -> None:
        with incremented() as c:

            def asking() -> None:
                for _ in range(60):
                    self.assertEqual(c.numbers(['a', 'b', 'b'] * 5), [4, 5, 5] * 5)
                    self.assertEqual((c['a'], c.graph('b')['value'], c.steps), (4, 5, 2))

            def making(name: str) -> Callable[[], object]:
                return lambda: c.lines([f'mod {name}{at} int {at}' for at in range(500)])

            self.together(asking, asking, asking, making('x'), making('y'))
            self.assertEqual(c.numbers(['x7', 'y499']), [7, 499])

    def test_several_calls_as_one(self) -> None:
        with incremented() as c:

            def editing(first: int) -> Callable[[], None]:
                def edit() -> None:
                    for at in range(first, first + 100):
                        with c.lock:
                            c['a'] = at
                            c.propagate()
                            self.assertEqual(c['b'], at + 1)

                return edit

            self.together(*(editing(first * 1000) for first in range(6)))

    def test_closing_while_another_thread_waits(self) -> None:
        with tempfile.TemporaryDirectory() as folder:
            c = counting(folder)

            def waiting() -> None:
                with self.assertRaises(Closed):
                    c.answers(['propagate'] * 190)

            def closing() -> None:
                time.sleep(0.1)
                c.close()

            begun = time.monotonic()
            self.together(waiting, waiting, closing)
            self.assertLess(time.monotonic() - begun, 10)
            self.assertFalse(goes_on(number_of(c)))

    def test_a_process_that_was_forked(self) -> None:
        """It can't use the session, and leaves it as it is."""
        c = incremented()
        child = os.fork()
        if not child:
            status = 1
            try:
                c['b']
            except Closed:
                c.close()
                del c
                status = 0
            os._exit(status)
        self.assertEqual(os.waitstatus_to_exitcode(os.waitpid(child, 0)[1]), 0)
        self.assertEqual(c['b'], 5)
        c.close()


if __name__ == '__main__':
    unittest.main()
