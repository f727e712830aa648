#!/usr/bin/env python3
"""Measures three jobs over CEAL and over public libraries of signals, on one machine in one run.

    bench/signals.py                  prints the tables for the proved libceal.a and ceal_serve
    bench/signals.py --write          writes bench/peers.md, on an idle machine only (bench/seconds.py)
    bench/signals.py --quick          1,000 only, once, to see that all goes
    bench/signals.py FOLDER SERVER    for another libceal.a, in FOLDER, and another ceal_serve

The jobs are the sum of a tree, a list of numbers each of which is multiplied, and one number that n places follow. CEAL
is measured by its library for C and by lines to the server; the libraries are React for OCaml, and Knockout and Vue 2
for JavaScript. What is not there is left out. Debian has all of it:

    apt install gcc ocaml-nox libreact-ocaml-dev nodejs node-knockout node-vue

Told are the first build, one update with its answer, and the most memory of the process. A time is the middle one of
five processes, each of which makes updates for a second; the sum of all answers has to be the right one.
"""
import datetime
import os
import pathlib
import shutil
import statistics
import subprocess
import sys
import tempfile
import time

import measuring
import seconds
from measuring import Failed
from pages import folded, put
from serving import Session
from tables import table
from workloads import FUEL, TOP

HERE, OUT = TOP / 'bench/signals', TOP / 'bench/peers.md'
LIBRARY, SERVER = TOP / 'crates/ceal_c/out', TOP / 'crates/ceal_serve/out/ceal_serve'
NODE = 'NODE_PATH=/usr/share/nodejs:/usr/lib/nodejs'
SIZES, QUICK, SHORT = (1_000, 10_000, 40_000), (1_000,), 10_000
TRIES, LIMIT, SEED = 5, 120, 7
FEWEST, MOST, LONG = 10, 20_000, 1e6  # (updates of a process, which takes so many microseconds with them)
JOBS = {
    'tree': 'the sum of a tree of n leaves; a leaf is changed, and the sum asked for',
    'map': 'n numbers times ten; one is changed, and what follows from it asked for',
    'readers': 'one number that n places follow; it is changed, and the last place asked for, when all have followed',
}


class TooLong(Exception):
    """A process that was stopped."""


class Found:
    """What was measured: microseconds of the build and of an update, megabytes, and the sum of the answers."""

    def __init__(self, build, update, memory, total):
        self.build, self.update, self.memory, self.total = float(build), float(update), memory, int(total)


# -- the jobs, as texts for CEAL


def lines_of(job, size):
    """The lines that make the inputs and run, and for each place that may be set the one that is asked for then."""
    if job == 'tree':
        lines = []

        def grow(first, last):
            if last - first == 1:
                lines.append(f'new l{first} node 0 null null 0')
                return f'l{first}'
            middle = (first + last) // 2
            left, right = grow(first, middle), grow(middle, last)
            lines.append(f'new t{first}_{last} node 0 {left} {right} 0')
            return f't{first}_{last}'

        root = grow(0, size)
        return [*lines, f'run tree {root}'], [(f'l{at}.value', f'{root}.sum') for at in range(size)]
    tails = [f'c{at - 1}' if at else 'null' for at in range(size)]
    if job == 'map':
        lines = [f'new c{at} cell 0 0 {tail}' for at, tail in enumerate(tails)]
        return [*lines, f'run map c{size - 1}'], [(f'c{at}.value', f'c{at}.image') for at in range(size)]
    lines = [f'new c{at} cell 0 {tail}' for at, tail in enumerate(tails)]
    return ['mod value int 0', *lines, f'run readers value c{size - 1}'], [('value', f'c{size - 1}.image')]


def source_of(job):
    return (HERE / f'{job}.ceal').read_text() + '%%\n'


def places_of(count, updates):
    """The place of each update."""
    seed = SEED
    for _ in range(updates):
        seed = seed * 16807 % 2147483647
        yield seed % count


def total_of(job, size, updates):
    """The sum of all answers."""
    if job == 'readers':
        return sum(value + 1 for value in range(1, updates + 1))
    if job == 'map':
        return sum(10 * value for value in range(1, updates + 1))
    held, summed, total = [0] * size, 0, 0
    for value, at in enumerate(places_of(size, updates), 1):
        summed += value - held[at]
        held[at] = value
        total += summed
    return total


# -- the ways, each as a function of the job, the size and the number of updates


def of_process(words, text=''):
    """What a process tells of itself: it is stopped when it takes too long."""
    with tempfile.NamedTemporaryFile() as given, tempfile.NamedTemporaryFile() as taken:
        given.write(text.encode())
        given.flush()
        words = [shutil.which('timeout'), str(LIMIT), *words]
        status, _, memory = measuring.STARTING.run(given.name, taken.name, words)
        told = taken.read().decode().split()
    if status == 124:
        raise TooLong
    if status != 0 or len(told) != 3:
        raise Failed(f'{" ".join(words)} ended with status {status}: {told}')
    return Found(told[0], told[1], memory, told[2])


def by_library(program):
    def way(job, size, updates):
        lines, places = lines_of(job, size)
        text = [source_of(job), *(f'{it}\n' for it in lines), '%%\n', *(f'{it} {ask}\n' for it, ask in places)]
        return of_process([program, str(len(places)), str(updates), str(SEED)], ''.join(text))

    return way


def by_lines(server):
    def way(job, size, updates):
        lines, places = lines_of(job, size)
        begun = time.perf_counter()
        session = Session(server, ['--fuel', str(FUEL)], source_of(job) + ''.join(f'{it}\n' for it in lines))
        built, total = time.perf_counter(), 0
        for value, at in enumerate(places_of(len(places), updates), 1):
            it, ask = places[at]
            total += int(session.tell([f'set {it} {value}', 'propagate', f'get {ask}'])[-1])
        ended = time.perf_counter()
        memory = session.memory('VmHWM')
        session.end()
        return Found((built - begun) * 1e6, (ended - built) / updates * 1e6, memory, total)

    return way


def by_signals(words):
    return lambda job, size, updates: of_process([*words, job, str(size), str(updates), str(SEED)])


def made(words):
    """Whether what compiles a program has done so; what it says is shown otherwise."""
    done = subprocess.run(words, stdout=subprocess.PIPE, stderr=subprocess.STDOUT, text=True)
    if done.returncode:
        print(f'left out: {words[0]} says {done.stdout.strip()[:200]}', file=sys.stderr)
    return done.returncode == 0


def ways_in(folder, library, server):
    """The ways that are there, by their names; `folder` takes what is compiled."""
    program = f'{folder}/library'
    words = ['cc', '-std=c99', '-O2', f'-I{TOP}/client', str(HERE / 'library.c'), f'{library}/libceal.a', '-o', program]
    if shutil.which('cc') and pathlib.Path(library, 'libceal.a').is_file() and made(words):
        yield 'CEAL, by the library', by_library(program)
    if os.access(server, os.X_OK):
        yield 'CEAL, by lines', by_lines(str(server))
    if shutil.which('ocamlopt'):
        source = shutil.copy(HERE / 'jobs.ml', folder)
        if made(['ocamlopt', '-O3', '-I', '+react', 'unix.cmxa', 'react.cmxa', source, '-o', f'{folder}/react']):
            yield 'React (OCaml)', by_signals([f'{folder}/react'])
    for name, title in (('knockout', 'Knockout'), ('vue', 'Vue 2')):
        asked = f'require({name!r})'
        if shutil.which('node') and made(['env', NODE, 'node', '-e', asked]):
            yield title, by_signals([shutil.which('env'), NODE, shutil.which('node'), str(HERE / 'jobs.js'), name])


# -- the tables


def measured(way, job, size, is_quick):
    """The middle ones of what was measured, or None where a process took too long."""
    try:
        first = way(job, size, FEWEST)
        if first.total != total_of(job, size, FEWEST):
            raise Failed(f'{job} at {size}: the answers are wrong')
        updates = FEWEST if is_quick else max(FEWEST, min(MOST, int(LONG / max(first.update, 1))))
        tries = [way(job, size, updates) for _ in range(1 if is_quick else TRIES)]
    except TooLong:
        return None
    if any(it.total != total_of(job, size, updates) for it in tries):
        raise Failed(f'{job} at {size}: the answers are wrong')
    middle = [statistics.median(getattr(it, name) for it in tries) for name in ('build', 'update', 'memory')]
    return Found(*middle, tries[0].total)


def told(number):
    return f'{number:,.0f}' if number >= 100 else f'{number:.3g}'


def cell(found, name, unit):
    return f'over {LIMIT} s' if found is None else told(getattr(found, name) / unit)


def page(found, names, is_idle):
    machine = 'an idle machine' if is_idle else 'a busy machine, so these are upper bounds,'
    jobs = '; '.join(f'*{job}* is {what}' for job, what in JOBS.items())
    head = f'''# Beside libraries of signals

`bench/signals.py --write` writes this file, and says how to install what it needs. The jobs are: {jobs}. In each
library the program itself builds its graph of signals once; in CEAL the inputs are made by lines, and `run` follows
them. Measured on {datetime.date.today().isoformat()}, on {machine} with {os.cpu_count()} processors.
'''
    parts = [head]
    for title, name, unit in (
        ('First build, in milliseconds', 'build', 1e3),
        ('An update with its answer, in microseconds', 'update', 1),
        ('The most memory of the process, in megabytes', 'memory', 1),
    ):
        rows = [[job, f'{size:,}', *(cell(it, name, unit) for it in row)] for (job, size), row in found.items()]
        parts.append(f'{title}:\n\n{table(["Job", "n", *names], rows)}')
    return '\n'.join(parts)


def summary(found, names):
    rows = [[f'*{job}*, n is {size:,}', *(cell(it, 'update', 1) for it in row)] for (job, size), row in found.items()]
    rows = [row for row in rows if row[0].endswith(f'{SHORT:,}')]
    return table(['An update with its answer, in microseconds', *names], rows)


def main(words):
    options, paths = [it for it in words if it.startswith('--')], [it for it in words if not it.startswith('--')]
    if len(paths) not in (0, 2) or not {'--write', '--quick'}.issuperset(options):
        sys.exit(__doc__)
    is_quick, is_idle = '--quick' in options, seconds.load() <= seconds.IDLE
    if '--write' in options and not is_idle:
        sys.exit('bench/signals.py: the machine is not idle, so nothing is written')
    with tempfile.TemporaryDirectory() as folder:
        ways = dict(ways_in(folder, *(paths or (LIBRARY, SERVER))))
        cases = [(job, size) for job in JOBS for size in (QUICK if is_quick else SIZES)]
        found = {case: [measured(way, *case, is_quick) for way in ways.values()] for case in cases}
    text = folded(page(found, [*ways], is_idle))
    print(text, end='')
    if '--write' in options:
        OUT.write_text(text)
        put('peers', summary(found, [*ways]))


if __name__ == '__main__':
    try:
        main(sys.argv[1:])
    except Failed as failed:
        sys.exit(f'bench/signals.py: {failed}')
