"""Tells why each update was as large as it was: its steps by function and line, the reads that were stale, and what was
reused.

It stands on dumps of the traces before and after an update, as pictures of traces do (`tools.tracing`). Each step that
was re-executed is told with the read that it follows, the innermost one of those that it is in. The steps of all rows
are the update's work, as the program tells it.
"""
import collections
import re

from tools import answers, grammar, scripts
from tools.answers import Fault
from tools.inputs import Input
from tools.telling import hand_on, tell
from tools.tracing import Names, Trace, Update

MOST_UPDATES, MOST_STALE = 50, 3  # (the updates of a script, and the stale reads of a row, that are told)
COMMAND = re.compile(r'\s*v\d+ = read\(.*\) u(\d+)\(')
HEAD = re.compile(r'(?:fn|init) (\w+)')
HEADING = '     steps  stale reads  reused  where'


class Row:
    """What was re-executed after one read: how many steps, the reads that were stale, and how many parts were reused
    there."""

    def __init__(self):
        self.steps, self.stale, self.reused = 0, [], 0


class Sources:
    """Where the reads of a program are, by the unit that goes on after them, and the functions."""

    def __init__(self, source, listed):
        self.lines = source.decode(errors='replace').split('\n')
        self.functions, self.reads = [], collections.defaultdict(list)  # (the functions are in text order)
        there = self.in_source(source)
        function, units = None, []
        for line in [*listed.decode().split('\n'), 'fn end']:
            head, command = HEAD.match(line), COMMAND.match(line)
            if head:
                self.take(function, units, there)
                function, units = head[1], []
                self.functions.append(function)
            elif command:
                units.append(int(command[1]))

    def in_source(self, source):
        """The lines of the reads of each function, in their order."""
        found, function, last = collections.defaultdict(list), None, None
        for token in grammar.tokens(source):
            if last in ('ceal', 'init'):
                function = token.text
            if token.text == 'read' and token.kind == 'word':
                found[function].append(token.line)
            last = token.text
        return found

    def take(self, function, units, there):
        """The reads of a function in its trace code are those of its text, one by one; where their number differs, only
        the function is told."""
        lines = there.get(function, [])
        for at, unit in enumerate(units):
            self.reads[unit].append((function, lines[at] if len(lines) == len(units) else None))

    def told(self, unit, called):
        """The place of the read that a unit follows; None for what comes before all reads of the call."""
        if unit is None:
            return f'{self.functions[called]}, before its first read'
        places = self.reads.get(unit, [('?', None)])
        numbers = ' or '.join(str(line) for _, line in places if line)
        text = self.lines[places[0][1] - 1].strip() if len(places) == 1 and numbers else ''
        return (
            f'{places[0][0]}'
            + (f', line {numbers}' if numbers else '')
            + (f': {scripts.printable(text.encode())}' if text else '')
        )


class Worked:
    """One update, by rows: the units after whose reads something was re-executed."""

    def __init__(self, before, after, names):
        self.update, self.names = Update(before, after), names
        self.rows = collections.defaultdict(Row)
        self.structs = {
            it[1]: names.made.get(int(it[2][1:]))
            for it in (*before.items, *after.items)
            if it[0] == 'a' and it[2][0] == 'f'
        }
        opened, reused = [None], set(self.update.reused)
        stale = {now: was for was, now in self.update.stale}
        for at, item in enumerate(after.items):
            if at in reused:
                self.rows[opened[-1]].reused += 1
            if item[0] == 'r':
                opened.append(int(item[3][1:]))
            elif item[0] == 'e':
                opened.pop()
            elif item[0] == 's' and after.labels[at] == 'anew':
                self.rows[opened[-1]].steps += 1
            if at in stale:
                self.rows[opened[-1]].stale.append((before.items[stale[at]], item))

    def word(self, word):
        return self.names.word(word, self.update.new.inputs, self.structs, lambda it: f'#{int(it[1:]) + 1}')

    def lines(self, sources, called):
        for unit, row in sorted(self.rows.items(), key=lambda it: (-it[1].steps, -len(it[1].stale))):
            yield f'{row.steps:10,}  {len(row.stale):11,}  {row.reused:6,}  {sources.told(unit, called)}'
            for was, now in row.stale[:MOST_STALE]:
                yield f'{"":33}{self.word(now[1])} was {self.word(was[2])}, and is {self.word(now[2])}'
            if len(row.stale) > MOST_STALE:
                yield f'{"":33}and {len(row.stale) - MOST_STALE:,} more'


def updates(lines, told):
    """The lines that completed a run or an update, each with the one before it that did, its work and its steps."""
    last, is_lost = None, False
    for at, taken in told.items():
        reply, work, steps = [b''.join(it) for it in taken]
        if reply == b'out of fuel':
            is_lost = True
        if reply in (b'ok', b'done') and work.isdigit():
            yield at, None if is_lost else last, int(work), int(steps)
            last, is_lost = at, False


def replies(words, head, lines):
    """The answer to a script that asks for work and steps after each run and update; what each was answered, and the
    rest of the answer."""
    timed = [at for at, it in enumerate(lines) if it.split()[:1] in ([b'run'], [b'propagate'])]
    script = [it for at, line in enumerate(lines) for it in ([line, b'work', b'steps'] if at in set(timed) else [line])]
    text = b'\n'.join([*script, b''])
    (answer,) = answers.answers([(words, Input('', head + text))])
    pairs = list(scripts.replies(text, answer.output)) if answer.status == 0 else []
    told, at = {}, 0
    for number in range(len(lines)):
        if number in timed and pairs:
            told[number] = [taken for _, taken in pairs[at : at + 3]]
            at += 2
        at += 1
    return answer, told, pairs


def main(words, given):
    source, mark, script = scripts.parts(given.text())
    lines, head = scripts.lines_of(script), source + mark
    if answers.chosen() is None:
        raise Fault(70, '--work needs a program that is kept: ./run --build proves and builds it')
    answer, told, pairs = replies(words, head, lines)
    if answer.status:
        return hand_on(given, answer)
    found = list(updates(lines, told))
    if len(found) > MOST_UPDATES:
        tell([f'only the last {MOST_UPDATES} of {len(found):,} runs and updates are told'])
        found = found[-MOST_UPDATES:]
    (listed,) = answers.answers([(['list'], Input('', head))])
    sources, names = Sources(source, listed.output), Names(source, pairs)
    first, traces = scripts.script_of(given.text(), 'run')[0], {}

    def trace(at):
        """The trace after a line, and the number of the function that was called; the last one is kept, for the update
        that comes next."""
        if at not in traces:
            (got,) = answers.answers([(['dump', *words[1:]], Input('', head + b'\n'.join([*lines[: at + 1], b''])))])
            called = re.search(rb'^run (\d+)', got.output, re.M)
            traces.clear()
            traces[at] = got.output, int(called[1]) if called else 0
        return Trace(traces[at][0]), traces[at][1]

    for at, before, work, steps in found:
        name, number = given.place(first + at)
        print(f'{name}:{number}: {scripts.printable(lines[at])}: work {work:,} of {steps:,} steps', end='')
        if before is None:
            print(', all of them' if work == steps else '', flush=True)
            continue
        old, called = trace(before)
        worked = Worked(old, trace(at)[0], names)
        if worked.update.work != work:
            raise Fault(71, f'the table has work {worked.update.work}, and the program says {work}')
        print(
            f'\n{HEADING}' if worked.rows else '',
            *worked.lines(sources, called),
            sep='\n' if worked.rows else '',
            flush=True,
        )
    return 0
