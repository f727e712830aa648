#!/usr/bin/env python3
"""Whether nothing is square that somebody may choose, and nothing grows for ever: the inputs of bench/chosen.py.

    bench/doubling.py                 prints the tables for crates/ceal/out/ceal and crates/ceal_serve/out/ceal_serve
    bench/doubling.py CEAL SERVER     for other builds of them
    bench/doubling.py --only NAME ..  only these cases (words up to the next option)
    bench/doubling.py --quick         smaller sizes and shorter sessions, to see that all goes
    bench/doubling.py --write         writes bench/doubling.md

Each input is given at three sizes, each twice the one before. Counted are the instructions of the whole process, by
valgrind, and its most memory, where that is more than what a process has with nothing to do; where either is more than
2.6 times as much at twice the size, the case is square. A long session is one of edits whose trace stays as large as it
is; its resident memory is looked at after a quarter of the lines and after all of them, and may be a tenth more. It
ends with 1 where a case is square or a session grows. A busy machine changes nothing.
"""
import array
import concurrent.futures
import fcntl
import itertools
import os
import subprocess
import sys
import termios

import chosen
import counting
import measuring
from measuring import Failed, Program, identity
from pages import folded
from serving import Session
from tables import table
from workloads import FUEL, TOP

OUT = TOP / 'bench/doubling.md'
# How many times as much twice the size may take, and how many megabytes more than with nothing to do tell nothing.
MOST, NOISE = 2.6, 1
# How many megabytes more a session may hold, and how many times as much.
SLACK, GROWTH = 0.3, 1.1
RUN = ['run', '--fuel', str(FUEL)]
PIPE_OF_A_PAGE = 4096
SET_PIPE_SIZE = 1031  # (F_SETPIPE_SZ, which fcntl names since Python 3.10)


class Case:
    """An input by its size: which program it is for, with which words, and the least of its three sizes."""

    def __init__(self, text, size, words=RUN, what='', steps=2, by_server=False):
        self.text, self.words, self.what = text, words, what
        self.by_server, self.sizes = by_server, [size * steps**at for at in range(3)]


# Of keys of one hash there are the square of the size.
ONE_HASH = Case(chosen.keys_of_one_hash, 50, [], 'keys of one hash under a seed of the source text', by_server=True)
ONE_HASH.sizes = [50, 71, 100]
CASES = {
    'one_hash': ONE_HASH,
    'progression': Case(chosen.keys_of_a_progression, 16_000, what='keys of a progression under a weak seed'),
    'zones': Case(chosen.zones('backward'), 3_000, what='reads in two orders that wait for the same places'),
    'zones_forward': Case(chosen.zones('forward'), 3_000, what='the same in one order'),
    'folded_ifs': Case(chosen.folded_ifs, 4_000, ['check'], 'what is known of variables at many `if`s'),
    'nested_loops': Case(chosen.nested_loops, 4_000, ['check'], 'live variables of loops in one another'),
    'rows': Case(chosen.rows_of_structs, 1_000, ['check'], 'structs with rows of 255'),
    'wide_blocks': Case(chosen.wide_blocks, 8_000, what='blocks of 255 modifiables, hardly any touched'),
    'shown_name': Case(chosen.shown_name, 1_000, what='a graph with a name of 10,000 letters in each line'),
}
PIECES = [2_048, 4_096, 8_192]  # (bytes of a line that comes byte by byte)
SESSIONS = {
    'toggle': (chosen.toggle, 20_000, 'a cell of 1,000 taken out and put back'),
    'only_set': (chosen.only_set, 200_000, 'edits of one place, and no update'),
    'new_keys': (chosen.new_keys, 2_000, 'a hundred blocks with new keys in each update'),
    'new_shapes': (chosen.new_shapes, 480, 'two thousand blocks, of 120 sizes in turn'),
    'read_places': (chosen.read_places, 8_000, 'two thousand places, each read 200 times in its turn'),
    'in_parts': (chosen.in_parts, 20_000, 'updates of one read'),
    'out_of_fuel': (chosen.out_of_fuel, 2_000, 'every second update is out of fuel'),
    'bounds': (chosen.bounds, 4_000, 'lines `bound` and `show`'),
    'refused': (chosen.refused, 100_000, 'lines that are refused'),
    'nameless': (chosen.nameless, 100_000, 'names that are not there'),
}
WORDS = {'out_of_fuel': ['--fuel', '1000']}


class Programs:
    def __init__(self, ceal, server):
        self.ceal, self.server = Program(ceal), Program(server)

    def of(self, case):
        return self.server if case.by_server else self.ceal

    def idle(self):
        """The memory of a program with nothing to do."""
        return self.ceal.once(['check'], chosen.EMPTY).memory


def counts_of(program, case, sizes):
    """The instructions and the memory of a case at its sizes."""
    for size in sizes:
        text = case.text(size)
        yield counting.counted(program.path, text, case.words), program.once(case.words, text).memory


def piecewise(program, size):
    """The instructions of a server that is sent one line byte by byte, each when the one before has been read."""
    words = ['valgrind', '--tool=callgrind', '--callgrind-out-file=/dev/null', program.path]
    how = {'stdin': subprocess.PIPE, 'stdout': subprocess.DEVNULL, 'stderr': subprocess.PIPE, 'bufsize': 0}
    with subprocess.Popen(words, **how) as process:
        given = process.stdin.fileno()
        fcntl.fcntl(given, SET_PIPE_SIZE, PIPE_OF_A_PAGE)
        os.write(given, chosen.EMPTY.encode())
        left = array.array('i', [0])
        for _ in range(size):
            os.write(given, b'x')
            while True:
                fcntl.ioctl(given, termios.FIONREAD, left)
                if left[0] == 0:
                    break
                os.sched_yield()
        os.write(given, b'\nget a\n')
        process.stdin.close()
        said = process.stderr.read().decode()
    return counting.collected(said)


def grows(values, least=0):
    """How many times as much the worst doubling takes, of those that begin above what tells nothing."""
    return max((after / before for before, after in zip(values, values[1:]) if before > least), default=None)


def told(times):
    return '' if times is None else f'{times:.2f}'


def row_of(name, what, sizes, counts, memory, idle):
    """A row of the table, and whether it is square."""
    steps, room = grows(counts), grows(memory, idle + NOISE)
    cells = [
        f'`{name}`: {what}',
        ', '.join(f'{it:,}' for it in sizes),
        ', '.join(f'{it / 1e6:,.1f}' for it in counts),
        told(steps),
        ', '.join(f'{it:,.1f}' for it in memory),
        told(room),
    ]
    return cells, max(steps or 0, room or 0) > MOST


def case_row(programs, name, is_quick):
    case = CASES[name]
    sizes = case.sizes
    if is_quick and name != 'progression':  # (whose texts are of its sizes)
        sizes = [35, 50, 71] if name == 'one_hash' else [it // 4 for it in sizes]
    counts, memory = zip(*counts_of(programs.of(case), case, sizes))
    return row_of(name, case.what, sizes, counts, memory, programs.idle())


def pieces_row(programs, is_quick):
    sizes = [it // 4 for it in PIECES] if is_quick else PIECES
    counts = [piecewise(programs.server, it) for it in sizes]
    return row_of('pieces', 'a line of the server that comes byte by byte', sizes, counts, [], 0)


def session_row(programs, name, is_quick):
    """A row of the table of sessions, and whether the session grows."""
    made, edits, what = SESSIONS[name]
    edits = edits // 20 * 4 if is_quick else edits
    head, lines = made(edits)
    session = Session(programs.server.path, WORDS.get(name, []), head)
    looks, lines = [session.memory()], iter(lines)
    for part in (edits // 4, edits // 4, edits // 2):
        session.tell([it for group in itertools.islice(lines, part) for it in group.splitlines()])
        looks.append(session.memory())
    session.end()
    growth = looks[-1] - looks[1]
    is_growing = growth > SLACK and looks[-1] > GROWTH * looks[1]
    cells = [f'`{name}`: {what}', f'{edits:,}', ', '.join(f'{it:.1f}' for it in looks), f'{looks[-1] / looks[1]:.2f}']
    return cells, is_growing


def asked_for(words):
    options, paths, names = set(), [], []
    words = list(words)
    while words:
        word = words.pop(0)
        if word == '--only':
            while words and not words[0].startswith('--'):
                names.append(words.pop(0))
        elif word in ('--quick', '--write'):
            options.add(word)
        elif word.startswith('-'):
            sys.exit(__doc__)
        else:
            paths.append(word)
    paths = paths or [str(TOP / f'crates/{it}/out/{it}') for it in ('ceal', 'ceal_serve')]
    known = [*CASES, 'pieces', *SESSIONS]
    if len(paths) != 2 or not set(names) <= set(known):
        sys.exit(f'{__doc__}\nThe cases are {", ".join(known)}.')
    return Programs(*paths), names or known, options


def main(words):
    if not counting.is_there():
        sys.exit('bench/doubling.py: valgrind is not on this machine, and counts the instructions')
    programs, names, options = asked_for(words)
    is_quick = '--quick' in options
    with concurrent.futures.ProcessPoolExecutor(initializer=measuring.begin) as pool:
        doubled = [pool.submit(case_row, programs, it, is_quick) for it in names if it in CASES]
        doubled += [pool.submit(pieces_row, programs, is_quick)] if 'pieces' in names else []
        doubled = [it.result() for it in doubled]
    sessions = [session_row(programs, it, is_quick) for it in names if it in SESSIONS]
    text = folded(page(programs, doubled, sessions))
    print(text, end='')
    faults = [row[0] for row, is_bad in [*doubled, *sessions] if is_bad]
    print(
        f'doubling: {len(doubled) + len(sessions)} cases, {len(faults)} square or growing {" ".join(faults)}'.rstrip()
    )
    if '--write' in options:
        OUT.write_text(text)
    sys.exit(1 if faults else 0)


def page(programs, doubled, sessions):
    times = ['instructions, millions', 'grows', 'memory, MB', 'grows']
    told_of = (
        f'The program is the one with the SHA-256 that begins with {identity(programs.ceal)}, and the server the one'
    )
    return f'''# Inputs that are chosen to be slow

`bench/doubling.py --write` writes this file. {told_of}
with {identity(programs.server)}. What grows, grows from one size to the next, each twice the one before; in proportion
to the size it would be 2. Memory is the most that the process holds; what one with nothing to do holds, too, tells
nothing.

{table(['Input', 'sizes', *times], [row for row, _ in doubled])}
Long sessions of the server, whose trace stays as large as it is: the resident memory in megabytes before the first of
the lines, after a quarter, after half and after all of them. Memory that is not given back is not used up: it stays.

{table(['Session', 'edits', 'memory', 'all to a quarter'], [row for row, _ in sessions])}'''


if __name__ == '__main__':
    try:
        main(sys.argv[1:])
    except Failed as failed:
        sys.exit(f'bench/doubling.py: {failed}')
