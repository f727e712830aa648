"""Counts what a workload takes: the instructions of a first run and of updates, under valgrind's callgrind, and the
memory of the process.

Callgrind counts the same on a busy machine and on an idle one. A first run is the script that makes the inputs and
runs, less the one that only makes the inputs; an update is the mean of an edit's lines with their propagations, there
and back, less the script without them.
"""
import re
import shutil
import subprocess
import sys
import tempfile

from measuring import Failed
from workloads import PROGRAMS, RUN, input_of, lines_of

ROUNDS = 8


class Update:
    """An edit: its name, its mean work, and the instructions of one update."""

    def __init__(self, name, work, instructions):
        self.name, self.work, self.instructions = name, work, instructions


class Counts:
    """What was counted of a workload of one size by one program: steps, instructions of the first run, memory in MB,
    and updates."""

    def __init__(self, steps, instructions, memory, updates):
        self.steps, self.instructions, self.memory, self.updates = steps, instructions, memory, updates


def is_there():
    return shutil.which('valgrind') is not None


def counted(program, text, words=RUN):
    """The instructions of a process that is given a text."""
    with tempfile.TemporaryFile() as given:
        given.write(text.encode())
        given.seek(0)
        words = ['valgrind', '--tool=callgrind', '--callgrind-out-file=/dev/null', program, *words]
        done = subprocess.run(words, stdin=given, stdout=subprocess.DEVNULL, stderr=subprocess.PIPE, text=True)
    if done.returncode != 0:
        sys.exit(f'bench/counting.py: callgrind over {program} ended with status {done.returncode}')
    return collected(done.stderr)


def collected(said):
    """The number of instructions that callgrind tells at its end."""
    found = re.search(r'Collected : (\d+)', said)
    if not found:
        sys.exit(f'bench/counting.py: callgrind has told no number: {said[-200:]}')
    return int(found[1])


def rounds_for(work):
    """How often an edit is made and undone. The memo's seed comes of the whole text, so the run of a longer script
    differs by some thousand instructions: where an update takes few, many of them are counted."""
    return 1 if work > 10_000 else ROUNDS if work > 100 else 32 * ROUNDS


def update_of(program, name, before, ran, edit):
    title, lines = edit[0], lines_of(edit)
    told = program.once(
        RUN, input_of(name, [*before, *(it for line in lines for it in (line, 'propagate', 'work'))])
    ).written.split()[-3 * len(lines) :]
    if any(it != 'ok' for it in told[0::3] + told[1::3]):
        raise Failed(f'{name}: an update was not carried out: {told}')
    works = [int(it) for it in told[2::3]]
    rounds = rounds_for(sum(works))
    script = before + [it for line in lines for it in (line, 'propagate')] * rounds
    spent = counted(program.path, input_of(name, script)) - ran
    return Update(title, sum(works) / len(works), spent / (rounds * len(lines)))


def counts_of(program, name, size):
    work = PROGRAMS[name][1](size)
    before = [*work.inputs, work.run]
    idle, ran = counted(program.path, input_of(name, work.inputs)), counted(program.path, input_of(name, before))
    once = program.once(RUN, input_of(name, [*before, 'steps']))
    steps = once.written.split()[-1]
    if not steps.isdigit():
        raise Failed(f'{name} at {size}: the run did not end')
    updates = [update_of(program, name, before, ran, edit) for edit in work.edits]
    return Counts(int(steps), ran - idle, once.memory, updates)
