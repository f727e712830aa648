"""Runs every test that needs no proof, in parts that run side by side: `./run --test`.

A part is the rows, the tests of a crate, the pages, the streams of the program, the server, its client in Python with
the jobs of examples/, the library for C, or `./run` itself. Where the proved programs are there they answer; else their
drafts do, which are made first. Where no draft can be made, `rt try` answers the rows and `./run`, and compiles each
part again. The library for C is tried where there is a C compiler; its part makes the draft, if that is what is tried.
"""
import os
import re
import subprocess
import sys
import tempfile
import time

from tools import answers, libceal, rows
from tools.programs import PROVED, TOP, why_unproved

ROWS = TOP / 'crates/ceal_rows/data/rows.txt'
PASSED = re.compile(r'(\d+) passed[,;] (\d+) failed')
NOTHING = (
    'Nothing of this proves anything: tests try some inputs, and a proof speaks of all. `bash .ci/run` proves'
    ' (CONTRIBUTING.md).'
)


class Part:
    """Tests that are one process, which tells `N passed, M failed` or fails as a whole."""

    def __init__(self, name, words, folder=TOP):
        self.name, self.words, self.folder = name, words, folder
        self.process = self.output = None

    def start(self):
        self.begun, self.output = time.monotonic(), tempfile.TemporaryFile()
        how = {'stdin': subprocess.DEVNULL, 'stdout': self.output, 'stderr': subprocess.STDOUT}
        self.process = answers.start(self.words, cwd=self.folder, **how)

    def result(self):
        """How many passed and failed, and what was said where one failed."""
        self.output.seek(0)
        said = self.output.read().decode(errors='replace')
        counts = PASSED.findall(said)
        passed, failed = [int(it) for it in counts[-1]] if counts else (0, 0)
        if self.process.returncode and not failed:
            failed = 1
        return passed or int(not failed), failed, said if failed else ''


def python(*words):
    return [sys.executable, '-B', *words]


def parts(how, program, server):
    """The parts, those that take longest first; `how` the program was made is one of proved, draft and tried."""
    own = Part('./run', python('-m', 'tools.self_tests', how))
    pages = Part('pages, examples and rows are the same', python('.ci/documents'))
    tests = Part('tests of three crates', python('-m', 'tools.joined_tests'))
    if program is None:
        return [tests, own, Part('rows', python('-m', 'tools.rows', 'try')), pages], [
            (
                'the streams of the program, the server, its client in Python and the jobs of examples/: they need'
                ' programs that are kept'
            ),
            (
                f'{len(rows.LARGE)} large rows: `python3 -B -m tools.rows try NAME` tries one, which takes up to a few'
                ' minutes'
            ),
        ]
    made = [
        own,
        Part('rows', python('-m', 'tools.rows', str(program))),
        Part('streams', python('.ci/program', str(program))),
        pages,
    ]
    told = []
    if server is None:
        told.append('the server, its client in Python and the jobs of examples/: they need a ceal_serve')
    else:
        made[1:1] = [
            Part('client and jobs', python('-m', 'tools.job_tests', str(server))),
            Part('the server', python('.ci/serving', str(server))),
        ]
    why = libceal.why_not()
    if why:
        told.append(f'the library for C: {why}')
    else:
        made.insert(1, Part('the library for C', python('-m', 'tools.libceal', 'test')))
    if how == 'proved':
        told.append('the tests of three crates: `rt ci` and `rt test` prove and pass them')
    else:
        made.insert(0, tests)
    return made, told


def chosen(name):
    """The program of a name that is tested; None where there is none."""
    try:
        return answers.chosen(name)
    except answers.Fault as fault:
        print(f'{name}: {fault.text}', flush=True)
        return None


def wait_for(running):
    """Waits until a part has ended, and returns it; on a terminal it shows that time goes on."""
    while True:
        for part in running:
            if part.process.poll() is not None:
                return part
        time.sleep(0.1)
        if sys.stdout.isatty():
            names = ', '.join(f'{it.name} {answers.shown_time(time.monotonic() - it.begun)}' for it in running)
            print(f'\r\033[K{names[:100]}', end='', flush=True)


def main():
    begun = time.monotonic()
    why = why_unproved()
    if why:
        answers.need_toolchain()
    program, server = chosen('ceal'), chosen('ceal_serve')
    how = 'proved' if program == PROVED['ceal'].path else 'draft' if program else 'tried'
    if how == 'tried':
        print(f'{why}: all is compiled with no proof, in some six minutes of processor time', flush=True)
    waiting, skipped = parts(how, program, server)
    running, passed, failed = [], 0, 0
    while waiting or running:
        while waiting and len(running) < len(os.sched_getaffinity(0)):
            running.append(waiting.pop(0))
            running[-1].start()
        part = wait_for(running)
        running.remove(part)
        more, wrong, said = part.result()
        passed, failed = passed + more, failed + wrong
        start = '\r\033[K' if sys.stdout.isatty() else ''
        print(
            f'{start}{part.name}: {more} passed, {wrong} failed, {answers.shown_time(time.monotonic() - part.begun)}',
            flush=True,
        )
        if said:
            print('\n'.join(said.splitlines()[-30:]), flush=True)
    for it in skipped:
        print(f'skipped: {it}')
    print(f'{NOTHING}\n{passed} passed, {failed} failed, in {answers.shown_time(time.monotonic() - begun)}')
    return int(failed > 0)
