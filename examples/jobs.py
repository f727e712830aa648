"""What the three jobs of examples/ share: their command line, the figures that they print, and the comparison with
Python.

Each job builds a session by client/ceal.py, runs it, and makes edits at random. After each update it compares every
answer with an independent computation in Python, and stops at the first that differs.
"""
from __future__ import annotations

import argparse
import pathlib
import random
import statistics
import sys
import time
from collections.abc import Callable

TOP = pathlib.Path(__file__).resolve().parent.parent
sys.path.insert(0, str(TOP / 'client'))
from ceal import Ceal as Ceal, Value  # noqa: E402


class Differs(Exception):
    """An answer of the session that is not the one that Python computes."""


def same(what: str, found: object, expected: object) -> int:
    """Compares an answer with the expected one, and counts it."""
    if found != expected:
        raise Differs(f'{what}: the session says {found}, and Python {expected}')
    return 1


class Job:
    """A run with its updates: their work, and the time that each call of the session took."""

    def __init__(self, name: str, session: Ceal) -> None:
        self.name, self.session, self.answers = name, session, 0
        self.work: list[int] = []
        self.times: list[float] = []
        self.run_time = 0.0

    def run(self, function: str, *values: Value) -> None:
        begun = time.perf_counter()
        self.session.run(function, *values)
        self.run_time = time.perf_counter() - begun

    def update(self) -> None:
        begun = time.perf_counter()
        self.session.propagate()
        self.times.append(time.perf_counter() - begun)
        self.work.append(self.session.work)

    def tell(self, of: str) -> None:
        """Prints the figures, and how many answers were the same as Python's."""
        work, times = sorted(self.work), sorted(it * 1e6 for it in self.times)
        print(f'{self.name}: {of}')
        print(f'  the run        {self.session.steps:,} steps, {self.run_time * 1e3:.1f} ms')
        print(f'  work           {work[0]:,} to {work[-1]:,}, median {statistics.median(work):,.0f}')
        print(f'  an update      {times[0]:,.0f} to {times[-1]:,.0f} us, median {statistics.median(times):,.0f}')
        print(f'  answers        {self.answers:,}, each that of Python')


def words_of(
    text: str, edits: int, more: Callable[[argparse.ArgumentParser], object] = lambda _: None
) -> argparse.Namespace:
    """The words of a job's command line."""
    parser = argparse.ArgumentParser(description=text)
    parser.add_argument('--edits', type=int, default=edits, help=f'how many edits are made ({edits})')
    parser.add_argument('--seed', type=int, default=1, help='of the random edits (1)')
    parser.add_argument('--program', help='the program ceal_serve')
    more(parser)
    words = parser.parse_args()
    random.seed(words.seed)
    return words
