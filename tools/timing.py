"""Tells how long each run and each update of a script takes, measured from outside by the processor time of whole
processes.

A run is measured in one session, or in several of one process where one is too short. An update is made and undone in
one process, as often as it takes to tell, and so is told with the time of its lines. The run from scratch on the inputs
after the update is measured beside it. Each is the difference between two inputs, tried in turn; it is told if it is
well above what tries of one input differ by, and else how long it takes at most.
"""
import os
import subprocess
import sys
import time

from tools import answers, grammar, scripts
from tools.answers import Fault
from tools.inputs import LONGEST_INPUT, Input
from tools.telling import hand_on

TRIES, WHOLE = 7, 60  # (tries of one input; seconds for a whole script)
# Seconds that can't be told from noise at all; how many times the noise a difference has to be.
LEAST, CLEAR = 0.0001, 5
# How many times more at most is measured next where a difference is not clear; the sessions of one process.
MORE, MOST_SESSIONS = 64, 64


class Took:
    """How many seconds something takes, or, where that can't be told from noise, takes at most."""

    def __init__(self, seconds, is_clear):
        self.seconds, self.is_clear = seconds, is_clear

    def text(self):
        return shown(self.seconds) if self.is_clear else f'under {shown(self.seconds)}'

    def over(self, other):
        """How many times as long as another this takes, as far as that can be told."""
        if self.is_clear and other.is_clear:
            return f'{rounded(self.seconds / other.seconds)} times as long'
        if self.is_clear and self.seconds > other.seconds:
            return f'over {rounded(self.seconds / other.seconds)} times as long'
        return 'not clear enough to compare'


def rounded(number):
    """A number with two digits that count; measured figures have no more."""
    return f'{float(f"{number:.2g}"):,.10g}'


def shown(seconds):
    for unit, least in (('s', 1), ('ms', 0.001)):
        if seconds >= least:
            return f'{rounded(seconds / least)} {unit}'
    return f'{rounded(seconds * 1e6)} µs'


def spent(words, given):
    """The processor time of one run of the program."""
    with given.stream() as stream, open(os.devnull, 'wb') as nowhere:
        process = subprocess.Popen([answers.chosen(), *words], stdin=stream, stdout=nowhere)
        answers.running.append(process)
        status, used = os.wait4(process.pid, 0)[1:]
        process.returncode = os.waitstatus_to_exitcode(status) if hasattr(os, 'waitstatus_to_exitcode') else status
        answers.running.remove(process)
    return used.ru_utime + used.ru_stime


def difference(words, texts, count, until):
    """By how much one input takes longer than another, tried in turn, and by how much tries of one differ, of the
    fourth part that took least."""
    tries, inputs = ([], []), [Input('', it) for it in texts]
    for at in range(count):
        for taken, given in zip(tries, inputs):
            taken.append(spent(words, given))
        is_far = min(tries[1]) - min(tries[0]) > 2 * LEAST or count > TRIES
        if at >= 2 and (not is_far or time.monotonic() > until):
            break
    noise = max(sorted(it)[max(1, len(it) // 4)] - min(it) for it in tries)
    return min(tries[1]) - min(tries[0]), max(noise, LEAST)


def took(words, texts, until):
    """How long something takes: `texts` gives two inputs by how many times it is done in the second one, or None where
    that is too many."""
    times, least, count = 1, None, TRIES
    while least is None or time.monotonic() < until:
        more, noise = difference(words(times), texts(times), count, until)
        if more >= CLEAR * noise:
            return Took(more / times, True)
        at_most = (max(more, 0) + CLEAR * noise) / times
        least = at_most if least is None else min(least, at_most)
        if count > TRIES:
            break
        wanted = times * (MORE if more < noise else min(MORE, 1 + int(2 * CLEAR * noise / more)))
        while wanted > times and not texts(wanted):
            wanted = max(times, wanted // 2)
        count, times = (3 * TRIES if wanted == times else TRIES), wanted
    return Took(least, False)


class Session:
    """What a script has done up to one of its lines: the inputs as they are made and edited, the run, and what changed
    since."""

    def __init__(self, fields):
        self.fields, self.inputs, self.bases, self.edits, self.run, self.is_whole = fields, [], {}, {}, None, False

    def take(self, line, reply):
        """Goes past a line. An edit is kept with the base before it, where that is known."""
        words = line.split()
        if not words or reply not in (b'ok', b'done', b'more', b'out of fuel'):
            return
        if words[0] in (b'mod', b'new', b'set'):
            self.inputs.append(line)
            before = dict(self.bases)
            self.bases.update(self.made(words))
            if words[0] == b'set':
                self.edits.setdefault(words[1], before.get(words[1]))
            return
        self.run = line if words[0] == b'run' else self.run
        # (after `more`, or out of fuel, the next update is not made from these edits only)
        self.is_whole = reply in (b'ok', b'done')
        self.edits = {} if self.is_whole else self.edits

    def made(self, words):
        """The bases that a line gives, by place."""
        if words[0] == b'new':
            places = [b'.'.join((words[1], it)) for it in self.fields.get(words[2], ())]
            return dict(zip(places, words[3:]))
        return {words[1]: words[-1]}

    def can_undo(self):
        return self.is_whole and None not in self.edits.values()

    def undo_and_make(self):
        """Two updates by lines of a script: the last edits are undone, and made again."""
        old = [b'set %s %s' % it for it in self.edits.items()]
        new = [b'set %s %s' % (it, self.bases[it]) for it in self.edits]
        return [*old, b'propagate', *new, b'propagate']


def fields_of(source):
    """The names of the fields of each struct, each element of a row by itself."""
    reading = grammar.read(source)
    structs = reading.program.structs if reading else {}
    return {
        name.encode(): [it.encode() for field in fields for it in elements(field)] for name, fields in structs.items()
    }


def elements(field):
    return [f'{field.name}[{at}]' for at in range(field.length)] if field.form == 'row' else [field.name]


def text_of(head, *lines):
    """An input of some lines; None where it is longer than an input may be."""
    text = head + b''.join(b'%s\n' % it for part in lines for it in part)
    return text if len(text) <= LONGEST_INPUT else None


def both(before, after):
    return (before, after) if after is not None else None


class Measured:
    """Measures the runs and updates of one script."""

    def __init__(self, words, head, lines, share):
        self.words, self.head, self.lines, self.share = words, head, lines, share

    def until(self):
        return time.monotonic() + self.share

    def line(self, at):
        """What one line of the script adds, once."""
        texts = [text_of(self.head, self.lines[:end]) for end in (at, at + 1)]
        return took(lambda _: self.words, lambda times: texts if times == 1 else None, self.until())

    def run(self, inputs, run):
        """A run over inputs, in as many sessions as it takes to tell."""

        def texts(times):
            if times > MOST_SESSIONS:
                return None
            named = [b'@s%d ' % it if times > 1 else b'' for it in range(times)]
            made = [name + it for name in named for it in inputs]
            return both(text_of(self.head, made), text_of(self.head, made, [name + run for name in named]))

        return took(lambda times: ['run' if times == 1 else 'many', *self.words[1:]], texts, self.until())

    def update(self, at, session):
        """An update, made and undone; of the two the mean."""
        done, pair = self.lines[: at + 1], session.undo_and_make()

        def texts(times):
            return both(text_of(self.head, done), text_of(self.head, done, pair * times))

        found = took(lambda _: self.words, texts, self.until())
        return Took(found.seconds / 2, found.is_clear)


def works(words, head, lines, timed):
    """The answer to a script that asks for the work after each of the timed lines, and the two replies of each."""
    script = [it for at, line in enumerate(lines) for it in ([line, b'work'] if at in timed else [line])]
    script = b'\n'.join([*script, b''])
    answer = answers.by_program(answers.chosen(), words, Input('', head + script), True)
    replies = iter([taken for line, taken in scripts.replies(script, answer.output)] if answer.status == 0 else [])
    told = (
        [(next(replies), next(replies) if at in timed else []) for at in range(len(lines))]
        if answer.status == 0
        else []
    )
    return answer, told


def figures(measured, at, session, before, reply, work):
    """What is told of one run or update: its time, its work, and of an update the run from scratch beside it."""
    lines, work = measured.lines, b''.join(work).decode()
    if lines[at].split()[0] == b'run':
        return measured.run(before.inputs, lines[at]).text(), f'work {work}' if work.isdigit() else reply.decode()
    if not work.isdigit():
        return measured.line(at).text(), reply.decode()
    if not before.can_undo():
        return measured.line(at).text(), f'work {work}'
    update, run = measured.update(at, before), measured.run(session.inputs, session.run)
    return update.text(), f'work {work}; from scratch {run.text()}, {run.over(update)}'


def copied(session):
    """The session as it is now."""
    it = Session(session.fields)
    it.inputs, it.bases, it.edits = list(session.inputs), dict(session.bases), dict(session.edits)
    it.run, it.is_whole = session.run, session.is_whole
    return it


def main(words, given):
    if answers.chosen() is None:
        raise Fault(70, 'only the times of a program that is kept tell something: ./run --build proves and builds it')
    sys.stdout.reconfigure(errors='replace')  # (not every terminal has a µ)
    source, mark, script = scripts.parts(given.text())
    lines, head = scripts.lines_of(script), source + mark
    timed = [at for at, it in enumerate(lines) if it.split()[:1] in ([b'run'], [b'propagate'])]
    answer, told = works(words, head, lines, set(timed))
    if answer.status:
        return hand_on(given, answer)
    first = given.place(scripts.script_of(given.text(), 'run')[0])[1]
    width = max([20, *(len(scripts.printable(lines[at])) for at in timed)]) + 3
    measured, session = Measured(words, head, lines, WHOLE / max(1, 2 * len(timed))), Session(fields_of(source))
    for at, (reply, work) in enumerate(told):
        before, reply = copied(session) if at in set(timed) else None, b''.join(reply[:1])
        session.take(lines[at], reply)
        if before is None:
            continue
        figure, more = (
            ('', reply.decode())
            if scripts.REFUSED.match(reply)
            else figures(measured, at, session, before, reply, work)
        )
        print(f'{first + at:4}  {scripts.printable(lines[at]):{width}}{figure:>14}   {more}', flush=True)
    return 0
