#!/usr/bin/env python3
"""A simulation: the game of life on a torus, over twenty steps of time, and what an edit of its beginning changes.

    python3 examples/life/life.py [--width N] [--height N] [--picture FILE.svg]

Cells of the beginning are turned at random. After each update every cell at every time is compared with a computation
in Python. The picture shows the last update: each time from left to right, living cells in grey, and what the update
changed in red.
"""
from __future__ import annotations

import argparse
import pathlib
import random
import sys

sys.path.insert(0, str(pathlib.Path(__file__).resolve().parent.parent))
from jobs import Ceal, Job, same, words_of  # noqa: E402

HERE = pathlib.Path(__file__).resolve().parent
TIMES = 21
AROUND = [(dx, dy) for dy in (-1, 0, 1) for dx in (-1, 0, 1) if (dx, dy) != (0, 0)]
World = list[list[int]]  # by time, and then by cell


class Torus:
    """The cells, row by row, and those around each."""

    def __init__(self, width: int, height: int) -> None:
        self.width, self.height = width, height
        self.cells = range(width * height)
        self.around = [
            [(at // width + dy) % height * width + (at % width + dx) % width for dx, dy in AROUND] for at in self.cells
        ]

    def simulated(self, first: list[int]) -> World:
        world = [first]
        for _ in range(TIMES - 1):
            old = world[-1]
            counts = [sum(old[it] for it in self.around[at]) for at in self.cells]
            world.append([int(count == 3 or count == 2 and old[at] == 1) for at, count in enumerate(counts)])
        return world


class Simulation:
    """The session of a torus: its inputs, and the edits."""

    def __init__(self, torus: Torus, first: list[int], session: Ceal) -> None:
        self.torus, self.first, self.session = torus, first, session
        for at in torus.cells:
            session.new(f'c{at}', 'cell', *[None] * 8, first[at], *[0] * (TIMES - 1))
        session.edit(
            (f'c{at}.around[{number}]', f'c{it}') for at in torus.cells for number, it in enumerate(torus.around[at])
        )
        last = None
        for at in reversed(torus.cells):
            last = session.new(f'l{at}', 'line', f'c{at}', last)
        session.mod('first', 'line', last)

    def turn(self) -> None:
        """A cell of the beginning is turned."""
        at = random.randrange(len(self.first))
        self.first[at] = 1 - self.first[at]
        self.session.set(f'c{at}.state[0]', self.first[at])

    def asked(self) -> World:
        numbers = self.session.numbers(f'c{at}.state[{time}]' for time in range(TIMES) for at in self.torus.cells)
        count = len(self.torus.cells)
        return [[it or 0 for it in numbers[time * count : (time + 1) * count]] for time in range(TIMES)]


def picture(torus: Torus, old: World, new: World) -> str:
    """The update as an SVG: one square field for each time."""
    size, gap = 6, 12
    fields: list[str] = []
    squares: dict[str, list[str]] = {'#9e9e9e': [], '#ef9a9a': [], '#c62828': []}
    for time in range(TIMES):
        left, top = time % 7 * (torus.width * size + gap), time // 7 * (torus.height * size + gap + 14)
        fields.append(f'<text x="{left}" y="{top + 10}" font-size="10" font-family="sans-serif">time {time}</text>')
        fields.append(
            f'<rect x="{left}" y="{top + 14}" width="{torus.width * size}" height="{torus.height * size}"'
            ' fill="#f6f6f6"/>'
        )
        for at in torus.cells:
            is_changed, lives = old[time][at] != new[time][at], new[time][at] == 1
            if is_changed or lives:
                colour = '#9e9e9e' if not is_changed else '#c62828' if lives else '#ef9a9a'
                x, y = left + at % torus.width * size, top + 14 + at // torus.width * size
                squares[colour].append(f'M{x} {y}h{size}v{size}h-{size}')
    drawn = [f'<path fill="{colour}" d="{"".join(paths)}"/>' for colour, paths in squares.items()]
    width, height = 7 * (torus.width * size + gap), 3 * (torus.height * size + gap + 14)
    return (
        f'<svg xmlns="http://www.w3.org/2000/svg" width="{width}" height="{height}">{"".join(fields + drawn)}</svg>\n'
    )


def more(parser: argparse.ArgumentParser) -> None:
    parser.add_argument('--width', type=int, default=16)
    parser.add_argument('--height', type=int, default=16)
    parser.add_argument('--density', type=float, default=0.3, help='how many of the cells live at the beginning (0.3)')
    parser.add_argument('--picture', help='a file for the picture of the last update')


def main() -> None:
    words = words_of(__doc__ or '', 200, more)
    torus = Torus(words.width, words.height)
    first = [int(random.random() < words.density) for _ in torus.cells]
    with Ceal(HERE / 'life.ceal', program=words.program, fuel=4_194_304) as session:
        simulation, job = Simulation(torus, first, session), Job('life', session)
        job.run('simulate', 'first', 0, TIMES - 1)
        old = new = torus.simulated(first)
        job.answers += same('the cells', simulation.asked(), new) * TIMES * len(torus.cells)
        for _ in range(words.edits):
            simulation.turn()
            job.update()
            old, new = new, torus.simulated(first)
            job.answers += same('the cells', simulation.asked(), new) * TIMES * len(torus.cells)
        job.tell(f'{words.width} x {words.height} cells, {TIMES - 1} steps of time')
    if words.picture:
        pathlib.Path(words.picture).write_text(picture(torus, old, new), encoding='utf-8')


if __name__ == '__main__':
    main()
