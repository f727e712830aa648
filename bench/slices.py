#!/usr/bin/env python3
"""Measures repair in slices, and the line `bound`, on a built program of CEAL.

    bench/slices.py                    prints the figures for crates/ceal/out/ceal
    bench/slices.py PROGRAM            for another build of it
    bench/slices.py --quick            a small size, once, to see that all goes

Costs are instructions where valgrind is there to count them, and else processor time of whole processes, the best of
25. What a part of a script costs is the cost of the script less that of the script without it.
"""
import sys

import counting
from measuring import Program
from workloads import RUN, TOP

# A list and its image, where each number is read by itself: no stale read of a number is inside another one
EACH = '''
struct cell { mod int number; mod struct cell tail; };
init mk(struct cell *self, struct cell *from) { }
ceal inc(mod int *a, mod int *b) { int x = read(a); write(b, x + 1); }
ceal each(mod struct cell *from, mod struct cell *to) {
  struct cell *c = read(from);
  if (c != null) {
    struct cell *d = alloc cell mk(c);
    write(to, d);
    inc(&c->number, &d->number);
    each(&c->tail, &d->tail);
  } else {
    write(to, null);
  }
}
%%
'''

# A list and its image: five steps a cell
MAP = '''
struct cell { int head; mod struct cell tail; };
init mk(struct cell *self, struct cell *from) { self->head = from->head * 10; }
ceal map(mod struct cell *from, mod struct cell *to) {
  struct cell *c = read(from);
  if (c != null) {
    struct cell *d = alloc cell mk(c);
    write(to, d);
    map(&c->tail, &d->tail);
  } else {
    write(to, null);
  }
}
%%
'''


def cells(size):
    """A list of so many cells; its first one has the highest number."""
    lines = [f'new c{k} cell {k} {f"c{k - 1}" if k > 1 else "null"}' for k in range(1, size + 1)]
    return lines + [f'new x cell 0 c{size}', f'mod l cell c{size}', 'mod o cell null']


class Bench:
    """A program, whose scripts cost instructions where valgrind is there to count them, and else seconds: the best of
    so many rounds."""

    def __init__(self, program, rounds):
        self.program, self.rounds, self.counts = Program(program), rounds, rounds > 1 and counting.is_there()

    def once(self, source, lines):
        """What a script costs, its most memory in megabytes, and its replies."""
        text = source.lstrip('\n') + '\n'.join(lines) + '\n'
        spent = self.program.once(RUN, text)
        cost = counting.counted(self.program.path, text) if self.counts else spent.seconds
        return cost, spent.memory, spent.written.split('\n')

    def bests(self, source, scripts):
        """The least cost of each script, with its memory and its replies. The scripts take turns, so that each has its
        quiet moments."""
        found = {}
        for _ in range(1 if self.counts else self.rounds):
            for name, lines in scripts.items():
                cost, memory, replies = self.once(source, lines)
                found[name] = (min(cost, found[name][0]) if name in found else cost, memory, replies)
        return found

    def told(self, cost):
        return f'{cost / 1e6:.1f} million instructions' if self.counts else f'{cost * 1e3:.0f} ms'

    def told_each(self, cost):
        return f'{cost:,.0f} instructions' if self.counts else f'{cost * 1e6:.2f} µs'


def of_slices(bench, size):
    """A repair of so many stale reads in slices, as lines of text."""
    inputs = cells(size) + ['run each l o']
    edits = [f'set c{k}.number {k + 7}' for k in range(1, size + 1)]
    ones, hundreds, half = ['propagate 1'] * size, ['propagate 100'] * (-(-size // 100)), size // 2
    found = bench.bests(
        EACH,
        {
            'nothing': inputs + edits,
            'at once': inputs + edits + ['propagate', 'work'],
            'in slices of 100': inputs + edits + hundreds + ['work'],
            'in slices of 1': inputs + edits + ones + ['work'],
            'lines': inputs + edits + ['propagate', 'work'] + ones,
            'half': inputs + edits + ones[:half],
            'half with edits': inputs + edits + ['propagate 1', 'set o null'] * half,
            'edits only': inputs + edits + ['set o null'] * half,
        },
    )
    base, whole = found['nothing'][0], found['at once'][0] - found['nothing'][0]
    bare = found['lines'][0] - found['at once'][0]
    yield f'A repair of {size:,} stale reads, none of them inside another:'
    yield ''
    yield '| Repair | cost | of that at once | memory |'
    yield '|---|---|---|---|'
    for name in ('at once', 'in slices of 100', 'in slices of 1'):
        cost, memory, replies = found[name]
        if replies[-2] != str(size) or replies[-3] not in ('ok', 'done'):
            sys.exit(f'bench/slices.py: {name} the work is {replies[-2]} after {replies[-3]}')
        yield f'| {name} | {bench.told(cost - base)} | {(cost - base) / whole:.2f} | {memory:.0f} MB |'
    ones_cost = found['in slices of 1'][0] - base
    yield (
        f'| in slices of 1, less the bare lines | {bench.told(ones_cost - bare)} | {(ones_cost - bare) / whole:.2f} | |'
    )
    between, before = found['half with edits'][0] - found['half'][0], found['edits only'][0] - base
    yield ''
    yield (
        f'{size:,} lines `propagate 1` with nothing to repair, which are read and answered, cost {bench.told(bare)}. An'
        ' edit between two slices'
    )
    yield (
        f'costs {bench.told_each(between / half)}, and one before a repair {bench.told_each(before / half)}. With an'
        f' edit after each of {half:,} slices of 1 the'
    )
    yield f'process holds {found["half with edits"][1]:.0f} MB at most.'


def of_bound(bench, size):
    """What the line `bound` costs, as lines of text."""
    inputs = cells(size)
    edit = inputs + ['run map l o', 'set l x', 'propagate']
    found = bench.bests(
        MAP,
        {
            'inputs': inputs,
            'run': inputs + ['run map l o', 'steps'],
            'edit': edit,
            'bound': edit + ['bound'],
        },
    )
    steps, answer = int(found['run'][2][-2]), int(found['bound'][2][-2])
    taken, run = found['bound'][0] - found['edit'][0], found['run'][0] - found['inputs'][0]
    yield (
        f'The line `bound` after a run of {steps:,} steps over a list of {size:,} cells and the update for one more'
        f' cell costs {bench.told(taken)}'
    )
    yield (
        f'(it answers {answer:,}); the run by itself costs {bench.told(run)}. The process holds'
        f' {found["bound"][1]:.0f} MB at most.'
    )


def section(program, quick):
    """The section of docs/PERFORMANCE.md on slices and the bound."""
    bench, size = Bench(program, 1 if quick else 25), 400 if quick else 40_000
    return '\n'.join([*of_slices(bench, size), '', *of_bound(bench, size)]) + '\n'


def main(words):
    quick = '--quick' in words
    words = [w for w in words if w != '--quick']
    print(section(words[0] if words else str(TOP / 'crates/ceal/out/ceal'), quick), end='')


if __name__ == '__main__':
    main(sys.argv[1:])
