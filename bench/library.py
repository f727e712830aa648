#!/usr/bin/env python3
"""Measures CEAL inside a program of one's own: the jobs of ceal_embedding by an engine, edits that change nothing, and
a turn of the server.

    bench/library.py                     prints the tables for the proved programs
    bench/library.py --write             writes bench/library.md, and its sum into docs/PERFORMANCE.md
    bench/library.py --quick             small sizes, to see that all goes
    bench/library.py EMBEDDING SERVER    for other builds of crates/ceal_embedding and crates/ceal_serve

Instructions are counted by valgrind (bench/counting.py), and looks by the program itself; both are the same on a busy
machine. Times are measured where the machine is idle (bench/seconds.py says what that is), and else left out. It takes
some four minutes on an idle machine.
"""
import re
import statistics
import subprocess
import sys
import time

import counting
import seconds
from measuring import Failed, Program
from pages import folded, put
from tables import table
from workloads import TOP, plain_list, input_of

OUT = TOP / 'bench/library.md'
SIZES, QUICK, SHORT = (1_000, 10_000, 40_000), (100, 400), 10_000
# each job: what it is, and how many edits are counted and timed
JOBS = {
    'tree': ('the sum of a tree, and a leaf changed', 200, 20_000),
    'expression': ('the value of an expression tree, and a leaf changed', 200, 20_000),
    'map': ('a list times ten, and a cell taken out or put back', 200, 20_000),
    'readers': ('one modifiable read n times, and its number changed', 8, 40),
}
IDLE = {
    'same': ('an edit to the number that is there', 200, 20_000),
    'back': ('an edit to another number, and back', 200, 20_000),
    'again': ('the number written again at a new place', 200, 20_000),
}
TURN_SIZES, TURNS, TRIES = (1_000, 10_000), 4_000, 5


def base_of(job):
    """The job that makes the same run."""
    return 'readers' if job in IDLE else job


class Bench:
    """Both programs, what was counted of runs without edits, and whether times are measured."""

    def __init__(self, embedding, server):
        self.embedding, self.server = Program(embedding), Program(server)
        self.is_idle = seconds.load() <= seconds.IDLE
        self.without = {}

    def words(self, job, size, edits):
        return [job, str(size), str(edits)]

    def counted(self, job, size, edits):
        key = base_of(job), size
        if key not in self.without:
            self.without[key] = counting.counted(self.embedding.path, '', self.words(key[0], size, 0))
        whole = counting.counted(self.embedding.path, '', self.words(job, size, edits))
        return self.without[key], (whole - self.without[key]) / edits

    def looks(self, job, size, edits):
        """How many contents an update looks at, and its work."""
        told = self.embedding.once(self.words(job, size, edits), '').written
        found = re.fullmatch(r'looks (\d+), work (\d+)\n', told)
        if not found:
            raise Failed(f'{job} {size}: {told!r}')
        return int(found[1]) / edits, int(found[2])

    def timed(self, job, size, edits):
        """The time of an update with its spread, if the machine is idle."""
        if not self.is_idle:
            return ''
        spent, idle = (
            [self.embedding.once(self.words(job, size, count), '').seconds for _ in range(TRIES)]
            for count in (edits, 0)
        )
        return seconds.told(spent, idle, edits)


def rows(bench, jobs, sizes):
    """For each job and size: looks, work and time first, while nothing else runs, and then what is counted."""
    cases = [(job, size) for job in jobs for size in sizes]
    first = {case: (*bench.looks(*case, jobs[case[0]][1]), bench.timed(*case, jobs[case[0]][2])) for case in cases}
    for job, size in cases:
        looks, work, timed = first[job, size]
        run, update = bench.counted(job, size, jobs[job][1])
        yield [
            job,
            f'{size:,}',
            f'{run / 1e6:,.1f}',
            f'{update:,.0f}',
            f'{looks:,.1f}',
            f'{work:,}',
            *([timed] if bench.is_idle else []),
        ]


def turn_lines(size, turns):
    """The lines that a session is opened with, and those of turns: a cell in the middle of a list is taken out and put
    back."""
    work = plain_list('run map l o', ['mod o cell null'])(size)
    middle = size // 2
    pair = [f'set c{middle}.tail c{middle - 2}', 'propagate', f'set c{middle}.tail c{middle - 1}', 'propagate']
    return [*work.inputs, work.run], pair * (turns // 4)


def server_instructions(bench, size):
    before, turns = turn_lines(size, 400)
    less = counting.counted(bench.server.path, input_of('map', before), [])
    return (counting.counted(bench.server.path, input_of('map', before + turns), []) - less) / len(turns)


def server_time(bench, size):
    """The middle time of a turn through two pipes, in microseconds, each line written after the reply to the one
    before."""
    before, turns = turn_lines(size, TURNS)
    process = subprocess.Popen([bench.server.path], stdin=subprocess.PIPE, stdout=subprocess.PIPE)
    process.stdin.write(input_of('map', before).encode())
    process.stdin.flush()
    for _ in before:
        process.stdout.readline()
    spent = []
    for line in turns:
        data, begun = line.encode() + b'\n', time.perf_counter()
        process.stdin.write(data)
        process.stdin.flush()
        process.stdout.readline()
        spent.append(time.perf_counter() - begun)
    process.stdin.close()
    process.wait()
    return f'{statistics.median(spent) * 1e6:.1f} µs'


def turn_rows(bench, sizes):
    for size in sizes:
        served = server_time(bench, size) if bench.is_idle else ''
        session = bench.timed('session', size, 20_000)
        _, update = bench.counted('session', size, 200)
        yield ['`Session::command`, two lines', f'{size:,}', f'{update:,.0f}', *([session] if bench.is_idle else [])]
        told = [f'{2 * float(served.split()[0]):.1f} µs'] if bench.is_idle else []
        yield [
            '`ceal_serve`, two turns through pipes',
            f'{size:,}',
            f'{2 * server_instructions(bench, size):,.0f}',
            *told,
        ]


def measured(bench, is_quick):
    """The rows of the three tables: of jobs, of edits that nobody sees, and of turns."""
    sizes, turn_sizes = (QUICK, QUICK[:1]) if is_quick else (SIZES, TURN_SIZES)
    return list(rows(bench, JOBS, sizes)), list(rows(bench, IDLE, sizes)), list(turn_rows(bench, turn_sizes))


def section(bench, jobs, idle, turns):
    time_head = ['time of an update'] if bench.is_idle else []
    head = ['Job', 'n', 'all without edits, millions', 'an update', 'looks', 'work of the last one', *time_head]
    when = 'The machine was busy, so no times were measured.'
    if bench.is_idle:
        when = 'Times are processor time on an idle machine, the middle one of several tries with half of their spread.'
    return f'''# From a program of your own

`bench/library.py --write` writes this file.

Jobs that a program carries out by calls of an engine, without any text (`crates/ceal_embedding`, `src/jobs.rt`):
{told_jobs(JOBS)}. Counted instructions of the whole process without edits (it compiles the source text, makes the
inputs and runs), and of one update. {when}

{table(head, jobs)}
Edits that change nothing that the n readers see: {told_jobs(IDLE)}. Their looks do not grow with the readers. Their
instructions grow slowly, as the table shows.

{table(head, idle)}
An update by lines, `set` and `propagate`, over the list of *map*, each with its reply. By an engine the same update is
the one of the first table.

{table(['How', 'n', 'an update', *time_head], turns)}'''


def told_jobs(jobs):
    return '; '.join(f'*{job}* is {text}' for job, (text, *_) in jobs.items())


def summary(bench, jobs, idle, turns):
    """The rows of one size, for the page."""
    time_head = ['time'] if bench.is_idle else []
    found = [
        [f'*{name}* by an engine, n is {n}', update, *more[2:]]
        for name, n, _, update, *more in [*jobs, *idle]
        if n == f'{SHORT:,}'
    ]
    found += [[f'*map* by {how}, n is {n}', update, *more] for how, n, update, *more in turns if n == f'{SHORT:,}']
    return f'{told_jobs({**JOBS, **IDLE})}.\n\n{table(["An update", "instructions", *time_head], found)}'


def main(words):
    if not counting.is_there():
        sys.exit('bench/library.py: valgrind is not on this machine, and counts the instructions')
    options = [it for it in words if it.startswith('--')]
    paths = [it for it in words if not it.startswith('--')] or [
        str(TOP / f'crates/{it}/out/{it}') for it in ('ceal_embedding', 'ceal_serve')
    ]
    if len(paths) != 2 or any(it not in ('--write', '--quick') for it in options):
        sys.exit(__doc__)
    bench = Bench(*paths)
    found = measured(bench, '--quick' in options)
    text = folded(section(bench, *found))
    print(text, end='')
    if '--write' in options:
        OUT.write_text(text)
        put('library', summary(bench, *found))


if __name__ == '__main__':
    try:
        main(sys.argv[1:])
    except Failed as failed:
        sys.exit(f'bench/library.py: {failed}')
