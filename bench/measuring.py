"""Starts the programs that are measured: what a process takes of processor time and memory, and what it writes."""
import hashlib
import os
import pathlib
import sys
import subprocess
import tempfile

from workloads import PROGRAMS, RUN, input_of, lines_of


class Spent:
    """What a process took: seconds of processor time, peak memory in MB, and what it wrote."""

    def __init__(self, seconds, memory, written):
        self.seconds, self.memory, self.written = seconds, memory, written


# A small process that starts the programs, since Linux counts what the starting process holds as memory of the one that
# it starts.
STARTER = """
import os, sys
for line in sys.stdin:
    given, taken, *words = line.rstrip('\\n').split('\\0')
    child = os.fork()
    if child == 0:
        os.dup2(os.open(given, os.O_RDONLY), 0)
        os.dup2(os.open(taken, os.O_WRONLY | os.O_TRUNC), 1)
        os.dup2(os.open('/dev/null', os.O_WRONLY), 2)
        os.execv(words[0], words)
    _, status, used = os.wait4(child, 0)
    print(os.waitstatus_to_exitcode(status), used.ru_utime + used.ru_stime, used.ru_maxrss, flush=True)
"""


class Starter:
    def __init__(self):
        words = [sys.executable, '-I', '-S', '-c', STARTER]
        self.process = subprocess.Popen(words, stdin=subprocess.PIPE, stdout=subprocess.PIPE, text=True)

    def run(self, given, taken, words):
        self.process.stdin.write('\0'.join([given, taken, *words]) + '\n')
        self.process.stdin.flush()
        status, seconds, memory = self.process.stdout.readline().split()
        return int(status), float(seconds), int(memory) / 1000


STARTING = Starter()


def begin():
    """A process that was forked starts programs by a starter that no other process speaks to."""
    global STARTING
    STARTING = Starter()


class Program:
    def __init__(self, path):
        self.path = os.path.abspath(path)
        if not os.access(self.path, os.X_OK):
            sys.exit(f'bench/run: there is no program {path} (./run --build builds it)')

    def once(self, words, text):
        with tempfile.NamedTemporaryFile() as given, tempfile.NamedTemporaryFile() as taken:
            given.write(text.encode())
            given.flush()
            status, seconds, memory = STARTING.run(given.name, taken.name, [self.path, *words])
            written = taken.read().decode()
        if status != 0:
            raise Failed(
                f'{os.path.basename(self.path)} {" ".join(words)} ended with status {status}: {written[:80]!r}'
            )
        return Spent(seconds, memory, written)


class Failed(Exception):
    pass


def answers_alike(programs, name, size):
    """Whether all programs answer a workload with its edits alike, the values of its outputs and the work numbers
    too."""
    work = PROGRAMS[name][1](size)
    shown = [f'show {line.split()[1]}' for line in work.inputs if line.startswith('mod ')]
    asked = ['steps', 'blocks', 'work', *shown]
    lines = [*work.inputs, work.run, *asked]
    for edit in work.edits:
        for line in lines_of(edit):
            lines += [line, 'propagate', *asked]
    return len({program.once(RUN, input_of(name, lines)).written for program in programs}) == 1


def identity(program):
    """How the SHA-256 of a program's file begins."""
    return hashlib.sha256(pathlib.Path(program.path).read_bytes()).hexdigest()[:12]
