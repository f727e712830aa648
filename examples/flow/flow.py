#!/usr/bin/env python3
"""A program analyser: constant propagation over the control-flow graph of a random program.

    python3 examples/flow/flow.py [--blocks N]

Statements and edges are edited at random. After each update what each variable holds after each block is compared with
a computation in Python, which begins from nothing each time.
"""
from __future__ import annotations

import pathlib
import random
import sys

sys.path.insert(0, str(pathlib.Path(__file__).resolve().parent.parent))
from jobs import Ceal, Job, same, words_of  # noqa: E402

HERE = pathlib.Path(__file__).resolve().parent
VARIABLES, NONE, MANY = 4, -1_000_000_001, -1_000_000_002
NOTHING, NUMBER, SUM, INPUT = range(4)


class Program:
    """The blocks: each with a statement, and the blocks from which it is entered."""

    def __init__(self, count: int) -> None:
        self.statements = [statement() for _ in range(count)]
        self.entered = [[at - 1] if at else [] for at in range(count)]
        for at in range(count):
            if random.random() < 0.4:
                self.entered[random.randrange(count)].append(at)

    def met(self, at: int, variable: int, out: list[list[int]]) -> int:
        held = {MANY} if at == 0 else set()
        held |= {out[it][variable] for it in self.entered[at]}
        held.discard(NONE)
        return NONE if not held else held.pop() if len(held) == 1 else MANY

    def after(self, at: int, variable: int, out: list[list[int]]) -> int:
        kind, target, left, right = self.statements[at]
        here = self.met(at, variable, out)
        if target != variable or kind == NOTHING or here == NONE:
            return here
        if kind == NUMBER:
            return left
        if kind == INPUT:
            return MANY
        both = [self.met(at, it, out) for it in (left, right)]
        return NONE if NONE in both else MANY if MANY in both else sum(both) % 1_000_000

    def computed(self) -> list[int]:
        """What holds after each block: the least solution, by rounds in which every block sees the round before."""
        blocks = range(len(self.statements))
        out = [[NONE] * VARIABLES for _ in blocks]
        while True:
            now = [[self.after(at, it, out) for it in range(VARIABLES)] for at in blocks]
            if now == out:
                return [it for row in out for it in row]
            out = now


def statement() -> tuple[int, int, int, int]:
    kind, target = random.choice([NOTHING, NUMBER, NUMBER, SUM, SUM, INPUT]), random.randrange(VARIABLES)
    if kind == SUM:
        return kind, target, random.randrange(VARIABLES), random.randrange(VARIABLES)
    return kind, target, random.randrange(1000), 0


class Analysis:
    """The session of a program: its inputs, and the edits of both."""

    def __init__(self, program: Program, session: Ceal) -> None:
        self.program, self.session, self.edges = program, session, 0
        blocks = range(len(program.statements))
        for at in blocks:
            session.new(f'b{at}', 'block', *program.statements[at], int(at == 0), None, *[NONE] * VARIABLES)
        for at in blocks:
            self.set_entered(at)
        last = None
        for at in reversed(blocks):
            last = session.new(f'l{at}', 'line', f'b{at}', last)
        session.mod('first', 'line', last)
        session.mod('rounds', 'int', 0)

    def set_entered(self, at: int) -> None:
        last = None
        for it in self.program.entered[at]:
            self.edges += 1
            last = self.session.new(f'e{self.edges}', 'edge', f'b{it}', last)
        self.session.set(f'b{at}.entered', last)

    def edit_statement(self) -> None:
        at = random.randrange(len(self.program.statements))
        self.program.statements[at] = statement()
        names = ('kind', 'target', 'left', 'right')
        self.session.edit({f'b{at}.{name}': it for name, it in zip(names, self.program.statements[at])})

    def edit_edge(self) -> None:
        at = random.randrange(len(self.program.statements))
        entered = self.program.entered[at]
        if entered and random.random() < 0.5:
            entered.pop(random.randrange(len(entered)))
        else:
            entered.append(random.randrange(len(self.program.statements)))
        self.set_entered(at)

    def compared(self) -> int:
        places = [f'b{at}.out[{it}]' for at in range(len(self.program.statements)) for it in range(VARIABLES)]
        return same('what holds after the blocks', self.session.numbers(places), self.program.computed()) * len(places)


def main() -> None:
    words = words_of(
        __doc__ or '', 300, lambda it: it.add_argument('--blocks', type=int, default=60, help='of the program (60)')
    )
    with Ceal(HERE / 'flow.ceal', program=words.program, fuel=4_194_304) as session:
        program = Program(words.blocks)
        analysis, job = Analysis(program, session), Job('flow', session)
        job.run('analyse', 'first', 'rounds')
        job.answers += analysis.compared()
        for _ in range(words.edits):
            random.choice([analysis.edit_statement, analysis.edit_edge])()
            job.update()
            job.answers += analysis.compared()
        job.tell(f'{words.blocks} blocks, {VARIABLES} variables, {session["rounds"]} rounds')


if __name__ == '__main__':
    main()
