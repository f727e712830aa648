"""Tests of journals: `python3 -m unittest client.test_journal`, over a built `ceal_serve`."""
from __future__ import annotations

import errno
import os
import pathlib
import random
import subprocess
import sys
import tempfile
import threading
import time
import unittest
from typing import Any
from unittest import mock

TOP = pathlib.Path(__file__).resolve().parent.parent
sys.path.insert(0, str(TOP / 'client'))
import ceal  # noqa: E402
from ceal import Ceal, Closed, NoJournal, OutOfFuel, Refused  # noqa: E402
from test_ceal import EXAMPLES, counting, incremented, number_of  # noqa: E402

INC = (EXAMPLES / 'inc.ceal').read_bytes().split(b'%%\n')[0]
HEAD = INC + b'%%\n// a journal of client/ceal.py; fuel: default\n'
BEGINNING = b'mod a int 4\nmod b int 0\nrun inc a b\n'


class Journals(unittest.TestCase):
    def setUp(self) -> None:
        folder = tempfile.TemporaryDirectory()
        self.addCleanup(folder.cleanup)
        self.folder = folder.name
        self.file = pathlib.Path(folder.name, 'journal')

    def test_changes_are_kept(self) -> None:
        """Each is there when its call has returned; refused lines and questions are not."""
        with incremented(journal=self.file) as c:
            self.assertEqual(self.file.read_bytes(), HEAD + BEGINNING)
            c['a'] = 9
            self.assertTrue(self.file.read_bytes().endswith(b'run inc a b\nset a 9\n'))
            c.propagate()
            with self.assertRaises(Refused):
                c.edit([('a', 7), ('none', 1), ('a', 8)])
            c.propagate(3)
            self.assertEqual((c['b'], c.graph('b')['value'], c.work), (9, 9, 1))
        kept = HEAD + BEGINNING + b'set a 9\npropagate\nset a 7\nset a 8\npropagate 3\n'
        self.assertEqual(self.file.read_bytes(), kept)
        with Ceal.again(self.file) as c:
            self.assertEqual((c['b'], c.work, c.steps), (9, 1, 2))
            c['a'] = 20
            c.propagate()
        self.assertEqual(self.file.read_bytes(), kept + b'set a 20\npropagate\n')
        with Ceal.again(self.file) as c:
            self.assertEqual(c['b'], 21)

    def test_fuel(self) -> None:
        """The fuel is that of the journal, and a run that was out of fuel is a change."""
        with Ceal(EXAMPLES / 'inc.ceal', fuel=1, journal=self.file) as c:
            c.mod('a', 'int', 4)
            c.mod('b', 'int')
            with self.assertRaises(OutOfFuel):
                c.run('inc', 'a', 'b')
        with Ceal.again(self.file) as c:
            for line, code in (('run inc a b', 'C6'), ('get b', 'C7')):
                with self.assertRaises(Refused) as raised:
                    c.line(line)
                self.assertEqual(raised.exception.code, code)
            with self.assertRaises(OutOfFuel):
                c.propagate()

    def test_what_is_no_journal(self) -> None:
        def refused(data: bytes, told: str) -> None:
            self.file.write_bytes(data)
            with self.assertRaises(NoJournal) as raised:
                Ceal.again(self.file)
            self.assertIn(told, str(raised.exception))
            self.assertEqual(self.file.read_bytes(), data)

        with self.assertRaises(NoJournal):
            Ceal.again(self.file)
        for data in (b'', HEAD[:-1], INC, INC + b'%%\n', (EXAMPLES / 'inc.ceal').read_bytes()):
            refused(data, 'is no journal')
        for line in (
            b'get a',
            b'',
            b'// more',
            b'mod a int 5',
            b'frob',
            b'set none 1',
            b'\0\0',
            b'show b',
            b'set a 1\nget b',
        ):
            refused(HEAD + BEGINNING + line + b'\n', 'is damaged: ')

    def test_one_session_has_it(self) -> None:
        with incremented(journal=self.file):
            with self.assertRaises(NoJournal):
                incremented(journal=self.file)
            with self.assertRaises(NoJournal):
                Ceal.again(self.file)
        with self.assertRaises(NoJournal):
            incremented(journal=self.file)
        Ceal.again(self.file).close()
        self.assertEqual(os.listdir(self.folder), ['journal'])

    def test_no_journal_of_a_session_that_has_not_begun(self) -> None:
        with self.assertRaises(OSError):
            incremented(journal=f'{self.folder}/none/journal')
        source = pathlib.Path(self.folder, 'faulty.ceal')
        source.write_text('ceal f() { int x; }\n')
        with self.assertRaises(ceal.SourceFault):
            Ceal(source, journal=self.file)
        self.assertEqual(os.listdir(self.folder), ['faulty.ceal'])

    def test_a_torn_end(self) -> None:
        """However much of the end is missing, the session is that of the lines that are whole."""
        with incremented(journal=self.file) as c:
            for value in (10, 123):
                c['a'] = value
                c.propagate()
        whole = self.file.read_bytes()
        for length in range(len(HEAD + BEGINNING), len(whole)):
            self.file.write_bytes(whole[:length])
            with Ceal.again(self.file) as c:
                c.propagate()
                lines = whole[:length].rsplit(b'\n', 1)[0]
                value = [int(it.split()[-1]) for it in lines.splitlines() if it.startswith((b'set a', b'mod a'))][-1]
                self.assertEqual(c.numbers(['a', 'b']), [value, value + 1])
            self.assertEqual(self.file.read_bytes(), lines + b'\npropagate\n')

    def test_a_disk_that_is_full(self) -> None:
        """A change that can't be written down is an error, as often as it can't; no answer is given without it."""
        with incremented(journal=self.file) as c:

            def write(file: int, data: bytes) -> int:
                if os.path.samestat(os.fstat(file), self.file.stat()):
                    if len(data) > 5:
                        return os.write(file, data[:5])
                    raise OSError(errno.ENOSPC, os.strerror(errno.ENOSPC))
                return os.write(file, data)

            with mock.patch.object(ceal, 'os', mock.Mock(wraps=os, write=write)):
                with self.assertRaises(OSError):
                    c['a'] = 9
                with self.assertRaises(OSError):
                    c.numbers(['a'])
            self.assertTrue(self.file.read_bytes().endswith(b'\nset a'))
            c.propagate()
            self.assertEqual(c['b'], 10)
        self.assertEqual(self.file.read_bytes(), HEAD + BEGINNING + b'set a 9\npropagate\n')

    def test_changes_on_the_disk(self) -> None:
        with mock.patch.object(os, 'fsync', wraps=os.fsync) as synced:
            with incremented(journal=self.file, sync=True) as c:
                begun = synced.call_count
                c['a'] = 9
                c.propagate()
                c['b']
                self.assertEqual(synced.call_count, begun + 2)
            self.assertEqual(begun, 5)  # (the head, its folder and three lines)

    def test_a_long_run(self) -> None:
        c = counting(self.folder)
        c.close()
        with Ceal(pathlib.Path(self.folder, 'count.ceal'), journal=self.file) as c:
            c.lines([f'mod m{at} int {at}' for at in range(450)])
            c.run('count', 'm100')
            c.edit({f'm{at}': -at for at in range(450)})
        with Ceal.again(self.file) as c:
            c['m100'] = 100
            c.propagate()
            self.assertEqual(c.numbers(f'm{at}' for at in range(450)), [100 if at == 100 else -at for at in range(450)])


class Deaths(unittest.TestCase):
    """The server or the client is killed at random moments: all that was answered is there, and nothing else."""

    ROUNDS = 12

    def setUp(self) -> None:
        folder = tempfile.TemporaryDirectory()
        self.addCleanup(folder.cleanup)
        self.file = pathlib.Path(folder.name, 'journal')

    def test_the_server(self) -> None:
        incremented(journal=self.file).close()
        value = 4
        for _ in range(self.ROUNDS):
            c = Ceal.again(self.file)
            c.propagate()
            self.assertEqual(c.numbers(['a', 'b']), [value, value + 1])
            killer = threading.Timer(random.random() * 0.03, os.kill, (number_of(c), 9))
            killer.start()
            try:
                while True:
                    c['a'] = value + 1
                    value += 1
                    c.propagate()
                    self.assertEqual(c['b'], value + 1)
            except Closed as error:
                self.assertEqual(error.status, -9)
            killer.join()

    def test_the_client(self) -> None:
        incremented(journal=self.file).close()
        value = 4
        how: dict[str, Any] = {'cwd': TOP, 'stdout': subprocess.PIPE, 'text': True}
        for _ in range(self.ROUNDS):
            with subprocess.Popen([sys.executable, '-B', '-c', EDITING, str(self.file)], **how) as client:
                assert client.stdout
                self.assertEqual(client.stdout.readline(), f'begun {value}\n')
                time.sleep(random.random() * 0.05)
                client.kill()
                told = client.stdout.read().split('\n')[:-1]
            least = int(told[-1]) if told else value
            for _ in range(1000):
                try:
                    again = Ceal.again(self.file)
                    break
                except NoJournal:
                    time.sleep(0.01)  # (the system has not yet closed the files of the client)
            with again as c:
                c.propagate()
                value, more = c.numbers(['a', 'b'])  # type: ignore[assignment]
                self.assertIn(value, (least, least + 1))  # (the last one may have been kept, and not told)
                self.assertEqual(more, value + 1)


EDITING = """
import sys
sys.path.insert(0, 'client')
from ceal import Ceal
c = Ceal.again(sys.argv[1])
value = c['a']
print('begun', value, flush=True)
while True:
    value += 1
    c['a'] = value
    print(value, flush=True)
    c.propagate()
"""


if __name__ == '__main__':
    unittest.main()
