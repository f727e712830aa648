#!/usr/bin/env python3
"""One update by each way that a tool can take: the library from C and Python, the server, and a script.

    bench/ways.py            prints the table for the proved programs and library, or for their drafts
    bench/ways.py --write    writes it into bench/ways.md, and whether the machine was idle (bench/seconds.py)
    bench/ways.py --quick    few updates of a short list, to see that all goes
    bench/ways.py FOLDER [SERVER PROGRAM]
                             for another libceal (the folder of libceal.a and libceal.so), ceal_serve and ceal; with
                             the folder alone only the ways over the library

An update sets another number at a random place of a list, brings the run up to date, and asks for the number that
follows from it, which is compared with the one that is wanted. Each time is the middle one of all updates. It takes
half a minute, and cc.
"""
import datetime
import os
import pathlib
import random
import shutil
import statistics
import subprocess
import sys
import tempfile
import textwrap
import time

TOP = pathlib.Path(__file__).resolve().parent.parent
sys.dont_write_bytecode = True
sys.path[:0] = [str(TOP), str(TOP / 'client')]
import seconds  # noqa: E402
from measuring import Failed, Program  # noqa: E402
from tables import table  # noqa: E402
from tools import answers, drafts, libceal  # noqa: E402

OUT, SOURCE = TOP / 'bench/ways.md', TOP / 'bench/ways.ceal'
FUEL, SIZES, UPDATES, QUICK = 4_194_304, (1_000, 10_000), 20_000, ((200,), 400)
SCRIPTED = 5  # (scripts of each length that are timed)


def inputs(size):
    """The lines that make a list, and the run over it."""
    lines = [f'new p{at} place 0' for at in range(size)]
    lines += [f'new c{at} cell {at} {f"c{at + 1}" if at + 1 < size else "null"} p{at}' for at in reversed(range(size))]
    return [*lines, 'mod l cell c0', 'run map l']


def text_of(lines):
    return (SOURCE.read_text() + '\n'.join(['%%', *lines, ''])).encode()


def turns(size, count):
    """Random places, and the numbers that are set there."""
    numbers = random.Random(7)
    return [(numbers.randrange(size), turn + 1) for turn in range(count)]


def middle(update, all_turns):
    """The middle time of updates in microseconds; each is called with its place and number, and gives what follows."""
    spent = []
    for place, number in all_turns:
        begun = time.perf_counter()
        found = update(place, number)
        spent.append(time.perf_counter() - begun)
        if int(found) != 10 * number:
            raise Failed(f'{found!r} in place of {10 * number}')
    return statistics.median(spent) * 1e6


# -- the ways, each with the middle time of an update


def in_c(library, folder, size, count):
    program = f'{folder}/ways'
    words = ['cc', '-std=c99', '-O2', f'-I{TOP}/client', f'{TOP}/bench/ways.c', f'{library}/libceal.a', '-o', program]
    subprocess.run(words, check=True)
    said = subprocess.run(
        [program, str(size), str(count)], input=text_of(inputs(size)), stdout=subprocess.PIPE, check=True
    ).stdout
    return [int(it) / 1e3 for it in said.split()]


def by_ctypes(library, size, count):
    import ceal_ctypes

    with ceal_ctypes.Session(text_of([]), fuel=FUEL, library=f'{library}/libceal.so') as session:
        for line in inputs(size):
            session.line(line)
        places = [(session.find(f'c{at}.head'), session.find(f'p{at}.held')) for at in range(size)]

        def update(place, number):
            head, held = places[place]
            session.set(head, number)
            session.propagate()
            return session.get(held)

        return middle(update, turns(size, count))


def by_client(size, count, **how):
    import ceal

    with ceal.Ceal(SOURCE, fuel=FUEL, **how) as session:
        session.lines(inputs(size))

        def update(place, number):
            session[f'c{place}.head'] = number
            session.propagate()
            return session[f'p{place}.held']

        return middle(update, turns(size, count))


def by_server(server, size, count, is_one_write):
    with subprocess.Popen([server, '--fuel', str(FUEL)], stdin=subprocess.PIPE, stdout=subprocess.PIPE) as process:

        def say(text):
            process.stdin.write(text)
            process.stdin.flush()

        def update(place, number):
            lines = [b'set c%d.head %d\n' % (place, number), b'propagate\n', b'get p%d.held\n' % place]
            for it in [b''.join(lines)] if is_one_write else lines:
                say(it)
                replies = [process.stdout.readline() for _ in range(it.count(b'\n'))]
            return replies[-1]

        before = inputs(size)
        say(text_of(before))
        for _ in before:
            process.stdout.readline()
        told = middle(update, turns(size, count))
        process.stdin.close()
    return told


def by_script(program, size, count):
    """What one update takes in a script of many: the processor time of the script less that of one without updates."""
    before = inputs(size)
    edits = [
        line
        for place, number in turns(size, count)
        for line in (f'set c{place}.head {number}', 'propagate', f'get p{place}.held')
    ]
    words = ['run', '--fuel', str(FUEL)]

    def spent(lines):
        return statistics.median(program.once(words, text_of(lines).decode()).seconds for _ in range(SCRIPTED))

    return (spent(before + edits) - spent(before)) / count * 1e6


def ways(folder, size, count, library, server=None, program=None):
    os.environ['CEAL_LIBRARY'] = f'{library}/libceal.so'
    handles, lines = in_c(library, folder, size, count)
    yield 'C, by handles: `ceal_set`, `ceal_propagate`, `ceal_get`', handles
    yield 'C, three lines', lines
    yield 'Python in its own process, by handles (`ceal_ctypes`)', by_ctypes(library, size, count)
    yield 'Python in its own process (`Ceal(.., server=False)`)', by_client(size, count, server=False)
    if server is None:
        return
    yield '`ceal_serve`, three lines in one write', by_server(server, size, count, True)
    yield '`ceal_serve`, three turns through pipes', by_server(server, size, count, False)
    yield 'Python over `ceal_serve` (`Ceal(..)`)', by_client(size, count, program=server)
    yield 'one update of many in a script, `ceal run`', by_script(Program(program), size, count)


# -- the section


def built(named):
    """The folder of the library, the server and the program, and what is told of them."""
    if named:
        return named, f'the library in {named[0]}' if len(named) == 1 else 'the programs that were named'
    paths = [libceal.chosen(), answers.chosen('ceal_serve'), answers.chosen('ceal')]
    proved = [libceal.OUT, TOP / 'crates/ceal_serve/out/ceal_serve', TOP / 'crates/ceal/out/ceal']
    told = (
        'the proved programs and library'
        if paths == proved
        else 'drafts, which are compiled with no proof and keep the tests of overflow and bounds'
    )
    return [str(it) for it in paths], told


def section(named, is_quick):
    sizes, count = QUICK if is_quick else (SIZES, UPDATES)
    paths, told = built(named)
    with tempfile.TemporaryDirectory() as folder:
        columns = [dict(ways(folder, size, count, *paths)) for size in sizes]
    rows = [[it, *(f'{column[it]:.1f} µs' for column in columns)] for it in columns[0]]
    machine = 'an idle machine' if seconds.load() <= seconds.IDLE else 'a busy machine, so these are upper bounds,'
    text = (
        'An update sets another number at a random place of a list of n, brings the run up to date and asks for the'
        f' number that follows from it. The middle one of {count:,} updates, on {machine} with {os.cpu_count()}'
        f' processors, on {datetime.date.today().isoformat()}, with {told}.'
    )
    return f'{textwrap.fill(text, 118)}\n\n{table(["How", *(f"n = {size:,}" for size in sizes)], rows)}'


def main(words):
    options, named = [it for it in words if it.startswith('--')], [it for it in words if not it.startswith('--')]
    if len(named) not in (0, 1, 3) or any(it not in ('--write', '--quick') for it in options):
        sys.exit(__doc__)
    if not shutil.which('cc'):
        sys.exit('bench/ways.py: there is no cc')
    part = section(named, '--quick' in options)
    print(part, end='')
    if '--write' in options:
        OUT.write_text(part)


if __name__ == '__main__':
    try:
        main(sys.argv[1:])
    except (Failed, answers.Fault, drafts.Unmade) as failed:
        sys.exit(f'bench/ways.py: {failed}')
