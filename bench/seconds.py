#!/usr/bin/env python3
"""Measures what a person feels, in seconds, on an idle machine, and writes bench/seconds.md, and its first table into
docs/PERFORMANCE.md.

    bench/seconds.py [PROGRAM]

A machine is idle if hardly anything ran in the last minute (the load of /proc/loadavg is under a quarter of a
processor). On another one it measures nothing and ends with 1: differences of times on a busy machine say nothing. Each
time is the middle one of many tries, and is written with the spread of the tries; one that is smaller than its spread
is written as less than the spread.
"""
import datetime
import os
import pathlib
import statistics
import sys

from measuring import Failed, Program, identity
from pages import folded, put
from tables import table
from workloads import PROGRAMS, RUN, TOP, input_of, large_sources

IDLE, TRIES, SIZE, UPDATES = 0.25, 9, 40_000, 2_000
# a size of some 20,000 steps, and one of nearly as many steps or cells as are allowed
GROWING = (('map', 4_000, 110_000), ('sum', 1_560, 80_000), ('mergesort', 165, 17_000), ('tree', 1_820, 80_000))
OUT = TOP / 'bench/seconds.md'


def load():
    return float(pathlib.Path('/proc/loadavg').read_text().split()[0])


def spent(program, words, text, count=TRIES):
    """The seconds that a process takes, for some tries, and what it writes."""
    tries = [program.once(words, text) for _ in range(count)]
    return [it.seconds for it in tries], tries[0].written


def told(times, less=None, over=1):
    """A time with its spread: that of a process, or of one more than another by so many parts."""
    value = (statistics.median(times) - (statistics.median(less) if less else 0)) / over
    spread = (max(times) - min(times) + (max(less) - min(less) if less else 0)) / 2 / over
    unit, scale = next((it for it in (('s', 1), ('ms', 1e-3), ('µs', 1e-6)) if value >= it[1]), ('µs', 1e-6))
    return (
        f'{short(value / scale, 3)} {unit} ± {short(spread / scale, 2)}'
        if value > spread
        else f'less than {short(spread / scale, 2)} {unit}'
    )


def short(number, digits):
    """A number with so many digits that count, and no exponent."""
    return f'{number:.0f}' if number >= 10 ** (digits - 1) else f'{number:.{digits}g}'


def rows_of(program):
    work = PROGRAMS['map'][1](SIZE)
    before = [*work.inputs, work.run]
    idle, _ = spent(program, RUN, input_of('map', work.inputs))
    ran, _ = spent(program, RUN, input_of('map', before))
    edits = ['set l x', 'propagate', f'set l c{SIZE}', 'propagate'] * (UPDATES // 2)
    updated, _ = spent(program, RUN, input_of('map', before + edits))
    saving, saved = spent(program, ['save'], input_of('map', [*work.inputs[: len(work.inputs)], work.run]))
    yield f'the inputs of a list of {SIZE:,} cells', told(idle)
    yield f'the run of `map` over them ({5 * SIZE + 3:,} steps)', told(ran, idle)
    yield f'an update of one cell (of {UPDATES:,} in one script)', told(updated, ran, UPDATES)
    yield f'`save` of that session ({len(saved) / 1e6:.1f} MB)', told(saving)
    if len(saved) <= 4_194_304:
        yield '`resume` of it', told(spent(program, ['resume'], saved + '%%\n')[0])
    for title, text in large_sources():
        yield f'`check` of {title} ({len(text) / 1e6:.1f} MB)', told(spent(program, ['check'], text)[0])


def step_of(program, name, size, count):
    """The nanoseconds of a step of a first run: the middle ones of some tries with the run less those without it."""
    work = PROGRAMS[name][1](size)
    idle, _ = spent(program, RUN, input_of(name, work.inputs), count)
    ran, written = spent(program, RUN, input_of(name, [*work.inputs, work.run, 'steps']), count)
    told = written.split()[-1]
    if not told.isdigit():
        raise Failed(f'{name} at {size}: the run did not end')
    steps = int(told)
    return steps, (statistics.median(ran) - statistics.median(idle)) / steps * 1e9


def growth_of(program):
    for name, small, large in GROWING:
        steps, before = step_of(program, name, small, 5 * TRIES)
        most, after = step_of(program, name, large, TRIES)
        yield name, f'{steps:,}', f'{before:.0f} ns', f'{most:,}', f'{after:.0f} ns', f'{after / before:.2f}'


def main(words):
    if load() > IDLE:
        sys.exit(f'bench/seconds.py: the machine is busy (load {load()}), so nothing was measured')
    program = Program(words[0] if words else str(TOP / 'crates/ceal/out/ceal'))
    felt = table(['What', 'Processor time'], [list(it) for it in rows_of(program)])
    steps = table(['Program', 'Steps', 'a step', 'Steps', 'a step', 'grows'], [list(it) for it in growth_of(program)])
    head = (
        f'Measured on {datetime.date.today().isoformat()}, on an idle machine with {os.cpu_count()} processors, with'
        ' the program whose '
    )
    head += (
        f'SHA-256 begins with {identity(program)}. A time is the middle one of {TRIES}, with half of their spread.\n\n'
    )
    text = f'''# What a person feels

`bench/seconds.py` writes this file.

{head}{felt}
The time of one step of a first run, at two sizes (the middle ones of 45 and of 9 tries):

{steps}'''
    print(text, end='')
    OUT.write_text(folded(text), encoding='utf-8')
    put('seconds', head + felt)


if __name__ == '__main__':
    try:
        main(sys.argv[1:])
    except Failed as failed:
        sys.exit(f'bench/seconds.py: {failed}')
