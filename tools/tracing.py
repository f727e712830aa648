"""Draws a trace: the reads of a run as intervals along its steps, and what the last update of a script did to it.

A trace is had as a dump (docs/SAVES.md). For an update there are two, of the trace before and after it. They are gone
through side by side by the rules of repair (docs/REPAIR.md), which say what was kept, reused, re-executed and revoked;
the steps re-executed are the update's work.
"""
import bisect
import collections
import html
import re

from tools import answers, scripts
from tools.answers import Fault
from tools.inputs import Input
from tools.telling import hand_on

WIDTH, HEIGHT, ROW = 1000, 420, 18  # (a panel's pixels, and those of a row where there is room)
COLOURS = {
    'kept': '#c3cad5',
    'taken': '#7fc492',
    'anew': '#f2a65a',
    'revoked': '#d9646f',
    'stale': '#fde8cd',
    'run': '#8fb4dc',
}
TOLD = {
    'kept': 'kept',
    'taken': 'reused',
    'anew': 're-executed',
    'revoked': 'revoked',
    'stale': 'stale read',
    'run': 'run',
}
EACH = 4000  # (up to this many items, each is drawn by itself and named)
PLACE = re.compile(r'([ic]\d+)(?:\.(\d+))?')


class Trace:
    """The items of a dump, flat: the words of each, where each read ends, how deep each is, and how many steps come
    before it."""

    def __init__(self, dump):
        lines = dump.decode().splitlines()
        at = next((at for at, line in enumerate(lines) if line.startswith('trace ')), None)
        if at is None:
            raise Fault(65, 'there is no finished run to draw')
        self.inputs = [it.split()[0] for it in lines[2 : 2 + int(lines[1].split()[1])]]
        self.items = [tuple(it.split()) for it in lines[at + 1 : at + 1 + int(lines[at].split()[1])]]
        self.ends, self.depths, self.steps = {}, [], []
        self.labels = [None] * len(self.items)
        opened, step = [], 0
        for at, item in enumerate(self.items):
            if item[0] == 'e':
                self.ends[opened.pop()] = at
            self.depths.append(len(opened))
            self.steps.append(step)
            step += item[0] == 's'
            if item[0] == 'r':
                opened.append(at)
        self.count = step

    def key(self, at, named=lambda word: word):
        """What an allocation or a read is reused by: all but a new block's number, and all but what a read found."""
        item = self.items[at]
        words = item[2:] if item[0] == 'a' else (item[1], *item[3:])
        return (item[0], *(named(it) for it in words))

    def nodes(self, label):
        return sum(it == label for it, item in zip(self.labels, self.items) if item[0] in 'arw')


class Update:
    """Goes through the old and the new trace side by side, and says of each item what became of it."""

    def __init__(self, old, new):
        self.old, self.new, self.names, self.work, self.pairs = old, new, {}, 0, []
        self.cursor, self.limit, self.label = 0, None, 'kept'  # (no limit: the old items are kept one by one)
        self.stale, self.reused = (
            [],
            [],
        )  # (reads, by their old and new places, and the new places of the parts that are reused)
        self.places = collections.defaultdict(list)
        for at, item in enumerate(old.items):
            if item[0] in 'ar':
                self.places[old.key(at)].append(at)
        frames = []
        for at, item in enumerate(new.items):
            if item[0] == 'e':
                self.end(at, frames.pop())
            elif item[0] == 'r':
                frames.append((self.limit, self.label, *self.read(at)))
            else:
                self.plain(at, item)

    def named(self, word):
        """A word of the new trace by the numbers of the old one; a new block has no number there."""
        found = PLACE.fullmatch(word)
        if not found or word[0] == 'i':
            return word
        block = self.names.get(found[1], f'{found[1]} is new')
        return block if found[2] is None else f'{block}.{found[2]}'

    def keep(self, at):
        """An item that both traces have."""
        self.old.labels[self.cursor] = self.new.labels[at] = self.label
        self.pair(at)
        self.cursor += 1

    def pair(self, at):
        if self.new.items[at][0] == 's':
            self.pairs.append((self.old.steps[self.cursor], self.new.steps[at], self.label))

    def revoke(self, until):
        for at in range(self.cursor, until):
            if self.old.labels[at] is None:
                self.old.labels[at] = 'revoked'
        self.cursor = until

    def taken(self, at):
        """The earliest item that is left over and has the key of a new one."""
        places = self.places.get(self.new.key(at, self.named), [])
        place = bisect.bisect_left(places, self.cursor)
        return places[place] if place < len(places) and places[place] < self.limit else None

    def plain(self, at, item):
        """A step, a write or an allocation."""
        if self.limit is None:
            if item[0] == 'a':
                self.names[item[1]] = self.old.items[self.cursor][1]
            return self.keep(at)
        self.new.labels[at] = 'anew'
        self.work += item[0] == 's'
        found = self.taken(at) if item[0] == 'a' else None
        if found is not None:
            self.revoke(found)
            self.names[item[1]] = self.old.items[found][1]
            self.old.labels[found] = self.new.labels[at] = 'taken'
            self.cursor = found + 1

    def read(self, at):
        """A read; returns how it ends, and the old place of its end."""
        if self.limit is not None:
            found = self.taken(at)
            if found is None:
                self.new.labels[at] = 'anew'
                return 'new', None
            self.revoke(found)
            self.reused.append(at)
            self.label = 'taken'
        end = self.old.ends[self.cursor]
        is_stale = self.named(self.new.items[at][2]) != self.old.items[self.cursor][2]
        self.old.labels[self.cursor] = self.new.labels[at] = 'stale' if is_stale else self.label
        self.stale += [(self.cursor, at)] if is_stale else []
        self.cursor += 1
        self.limit = end if is_stale else None
        return 'stale' if is_stale else 'kept', end

    def end(self, at, frame):
        limit, label, how, end = frame
        self.new.labels[at] = how
        if how == 'stale':
            self.revoke(end)
        if how != 'new':
            self.cursor = end + 1
        self.limit, self.label = limit, label


class Names:
    """The names that a script and a source text give to inputs and fields."""

    def __init__(self, source, pairs):
        text = re.sub(r'//[^\n]*|/\*.*?\*/', ' ', source.decode(errors='replace'), flags=re.S)
        self.fields = [list(fields_of(it)) for it in re.findall(r'\bstruct\s+\w+\s*\{(.*?)\}\s*;', text, re.S)]
        self.structs = re.findall(r'\bstruct\s+(\w+)\s*\{', text)
        self.functions = re.findall(r'\b(?:ceal|init)\s+(\w+)\s*\(', text)
        self.made = {at: self.structs.index(it) for at, it in self.initialisers(text) if it in self.structs}
        self.inputs = [
            line.split()[1].decode()
            for line, taken in pairs
            if line.split()[:1] in ([b'mod'], [b'new']) and taken == [b'ok']
        ]

    def initialisers(self, text):
        for at, (kind, parameters) in enumerate(re.findall(r'\b(ceal|init)\s+\w+\s*\(([^)]*)\)', text)):
            found = re.match(r'\s*struct\s+(\w+)', parameters)
            if kind == 'init' and found:
                yield at, found[1]

    def field(self, struct, at):
        return self.fields[struct][at] if struct is not None and at < len(self.fields[struct]) else str(at)

    def word(self, word, inputs, structs, called):
        """A word of a trace for people: `inputs` are the shapes of its inputs, `structs` those of the blocks that it
        made, and `called` names these."""
        found = PLACE.fullmatch(word)
        if not found:
            return word
        number = int(found[1][1:])
        if word[0] == 'i':
            name = self.inputs[number] if number < len(self.inputs) else found[1]
            shape = inputs[number] if number < len(inputs) else 'i'
            struct = int(shape[1:]) if shape[0] == 's' else None
        else:
            name, struct = called(found[1]), structs.get(found[1])
        return name if found[2] is None or struct is None else f'{name}.{self.field(struct, int(found[2]))}'


def fields_of(body):
    """The names of the fields of a struct, each element of a row by itself."""
    for it in body.split(';'):
        found = re.search(r'(\w+)\s*(?:\[\s*(\d+)\s*\])?\s*$', it)
        if found and found[2]:
            yield from (f'{found[1]}[{at}]' for at in range(int(found[2])))
        elif found:
            yield found[1]


class Panel:
    """One trace, drawn from a height on."""

    def __init__(self, trace, names, top, scale, called):
        self.trace, self.names, self.top, self.scale, self.called = trace, names, top, scale, called
        self.deepest = max(trace.depths, default=0) + 1
        self.row = min(ROW, HEIGHT / self.deepest)
        self.bottom = top + self.row * self.deepest
        self.structs = {}

    def word(self, word):
        return self.names.word(word, self.trace.inputs, self.structs, self.called)

    def told(self, item):
        """An item for people."""
        if item[0] == 'r':
            return f'read {self.word(item[1])}: {self.word(item[2])}'
        if item[0] == 'w':
            return f'write {self.word(item[1])}: {self.word(item[2])}'
        if item[0] == 'a' and item[2][0] == 'f':
            number = int(item[2][1:])
            self.structs[item[1]] = self.names.made.get(number)
            words = ', '.join(self.word(it) for it in item[3:])
            return f'alloc {self.names.functions[number]}({words}): {self.called(item[1])}'
        return f'modref: {self.called(item[1])}' if item[0] == 'a' else 'a step'

    def drawn(self):
        is_each = len(self.trace.items) <= EACH
        strips = {}
        for at, item in enumerate(self.trace.items):
            label, depth = self.trace.labels[at], self.trace.depths[at]
            told = self.told(item) if is_each or item[0] == 'a' else ''
            first = self.trace.steps[at] - (item[0] in 'arw')
            if item[0] == 'r':
                last = max(self.trace.steps[self.trace.ends[at]], first + 1)
                yield self.box(depth, first, last, label, told, is_each)
            elif item[0] != 'e' and is_each:
                yield self.box(depth, first, first + 1, label, told, False, item[0] == 's')
            elif item[0] == 's':  # of a long trace the steps beside each other are one strip
                strip = strips.get(depth)
                if strip and strip[1] == first and strip[2] == label:
                    strip[1] = first + 1
                else:
                    if strip:
                        yield self.box(depth, *strip, '', False)
                    strips[depth] = [first, first + 1, label]
        for depth, strip in strips.items():
            yield self.box(depth, *strip, '', False)

    def box(self, depth, first, last, label, told, is_named, is_step=False):
        left, width = 20 + first * self.scale, (last - first) * self.scale
        height = self.row * 0.86 if self.row > 3 else self.row
        edge = (
            ' stroke="#c2620e"'
            if label == 'stale'
            else ' stroke="#fff" stroke-width="0.5"'
            if self.row > 3 and self.scale > 3
            else ''
        )
        faint = ' opacity="0.55"' if is_step else ''
        title = f'<title>{html.escape(told)}</title>' if told else ''
        top = self.top + depth * self.row
        text = ''
        if is_named and self.row > 12 and width > 40:
            shown = told if len(told) * 6.8 < width - 6 else told[: max(0, int((width - 6) / 6.8) - 1)] + '…'
            text = f'<text x="{left + 3:.1f}" y="{top + height - 4:.1f}">{html.escape(shown)}</text>'
        return (
            f'<rect x="{left:.2f}" y="{top:.2f}" width="{width:.2f}" height="{height:.2f}"'
            f' fill="{COLOURS[label]}"{edge}{faint}>{title}</rect>{text}'
        )


def bands(pairs, scale, top, bottom):
    """Where the steps that both traces have were before, and where they are now."""
    runs = []
    for old, new, label in pairs:
        if runs and runs[-1][1] == old and runs[-1][3] == new and runs[-1][4] == label:
            runs[-1][1], runs[-1][3] = old + 1, new + 1
        else:
            runs.append([old, old + 1, new, new + 1, label])
    for first, last, begin, end, label in runs:
        xs = [20 + it * scale for it in (first, last, end, begin)]
        yield (
            '<polygon'
            f' points="{xs[0]:.2f},{top:.1f} {xs[1]:.2f},{top:.1f} {xs[2]:.2f},{bottom:.1f} {xs[3]:.2f},{bottom:.1f}"'
            f' fill="{COLOURS[label]}" opacity="0.35"/>'
        )


def legend(counts, top):
    left = 20
    for label, text in counts:
        edge = ' stroke="#c2620e"' if label == 'stale' else ''
        yield (
            f'<rect x="{left}" y="{top - 10}" width="12" height="12" fill="{COLOURS[label]}"{edge}/><text'
            f' x="{left + 17}" y="{top}">{text}</text>'
        )
        left += 30 + 7 * len(text)


def document(height, parts):
    head = (
        f'<svg xmlns="http://www.w3.org/2000/svg" viewBox="0 0 {WIDTH + 40} {height:.0f}" font-family="monospace"'
        ' font-size="11">'
    )
    return '\n'.join([head, '<rect width="100%" height="100%" fill="#fff"/>', *parts, '</svg>', ''])


def line(text, top, more=''):
    return f'<text x="20" y="{top}"{more}>{html.escape(text)}</text>'


def of_run(title, trace, names):
    """The picture of a run that has no trace before it."""
    trace.labels = ['run'] * len(trace.items)
    panel = Panel(trace, names, 60, WIDTH / max(1, trace.count), lambda it: f'#{int(it[1:]) + 1}')
    drawn = list(panel.drawn())
    nodes = trace.nodes('run')
    return document(
        panel.bottom + 20,
        [
            line(title, 22, ' font-size="13"'),
            *legend([('run', f'{trace.count} steps, {nodes} reads, writes and blocks')], 45),
            *drawn,
        ],
    )


def of_update(title, update, names):
    """The picture of an update: the trace before it, the trace after it, and between them what both have."""
    old, new = update.old, update.new
    scale = WIDTH / max(1, old.count, new.count)
    numbers = {}
    for at, item in enumerate(new.items):
        if item[0] == 'a':
            numbers[item[1]] = update.names.get(item[1])
    made = sum(item[0] == 'a' for item in old.items)
    for block, number in numbers.items():
        if number is None:
            made += 1
            numbers[block] = f'c{made - 1}'
    before = Panel(old, names, 82, scale, lambda it: f'#{int(it[1:]) + 1}')
    after = Panel(new, names, before.bottom + 78, scale, lambda it: f'#{int(numbers[it][1:]) + 1}')
    counts = [
        (it, f'{TOLD[it]}: {(old if it == "revoked" else new).nodes(it)}')
        for it in ('kept', 'stale', 'taken', 'anew', 'revoked')
    ]
    parts = [line(title, 22, ' font-size="13"'), *legend(counts, 45), line('before', 76), *before.drawn()]
    parts += [
        *bands(update.pairs, scale, before.bottom + 2, after.top - 18),
        line('after', after.top - 6),
        *after.drawn(),
    ]
    return document(after.bottom + 20, parts)


def main(words, given):
    source, mark, script = scripts.parts(given.text())
    if not mark:
        return hand_on(given, answers.answers([(words, given)])[0])
    lines, head = scripts.lines_of(script), source + mark
    runs = [at for at, it in enumerate(lines) if it.split()[:1] in ([b'run'], [b'propagate'])]
    until = [b'\n'.join([*lines[: at + 1], b'']) for at in runs] or [script]
    asked = Input(given.name, head + until[-1] + b'work\nsteps\n')
    before = Input(given.name, head + (until[-2] if len(until) > 1 else b''))
    dump = ['dump', *words[1:]]
    ran, first, last = answers.answers([(words, asked), (dump, before), (dump, Input(given.name, head + until[-1]))])
    if ran.status or last.status:
        return hand_on(given, ran)
    print(picture(given, runs, head, until[-1], ran, first, last), end='')
    return 0


def picture(given, runs, head, script, ran, first, last):
    trace = Trace(last.output)
    work, steps = [int(it) for it in scripts.lines_of(ran.output)[-2:]]
    names = Names(head, list(scripts.replies(script, ran.output)))
    name, number = given.place(scripts.script_of(given.text(), 'run')[0] + (runs[-1] if runs else 0))
    place = f'{name}:{number}' if runs else given.name
    if b'\ntrace ' not in first.output:
        return of_run(f'{place}: a run of {steps} steps', trace, names)
    update = Update(Trace(first.output), trace)
    if update.work != work:
        raise Fault(71, f'the picture has work {update.work}, and the program says {work}')
    return of_update(f'{place}: an update, work {work} of {steps} steps', update, names)
