#!/usr/bin/env python3
"""A build tool over this repository: the crates of crates.txt as targets, and the SHA-256 of their files.

    python3 examples/build/build.py             the targets in an order (order.ceal)
    python3 examples/build/build.py --marks     the same by a walk with marks (marks.ceal), which finds cycles

Files are edited, targets are made, and uses are added and dropped at random. After each update the keys, levels and
marks of all targets are compared with a computation in Python. Files are not written: an edit of one is another sum.
"""
from __future__ import annotations

import hashlib
import pathlib
import random
import sys

sys.path.insert(0, str(pathlib.Path(__file__).resolve().parent.parent))
from jobs import TOP, Ceal, Job, same, words_of  # noqa: E402

HERE = pathlib.Path(__file__).resolve().parent


def wrapped(number: int) -> int:
    """A number in 64 bits with a sign, as the language has it."""
    return (number + 2**63) % 2**64 - 2**63


def sum_of(data: bytes) -> int:
    return int.from_bytes(hashlib.sha256(data).digest()[:8], 'big') >> 1


class Repository:
    """The targets with their files and uses, and what a build would find."""

    def __init__(self) -> None:
        lines = (it.split('#')[0].split(':') for it in (TOP / 'crates.txt').read_text().split('\n'))
        uses = {it[0].split()[0]: it[1].split() for it in lines if len(it) == 2}
        self.names = list(uses)
        number = {name: at for at, name in enumerate(self.names)}
        self.uses = [[number[it] for it in uses[name] if it in number] for name in self.names]
        self.files = [[sum_of(path.read_bytes()) for path in paths_of(name)] for name in self.names]
        self.made = [0] * len(self.names)

    def reaches(self, one: int, other: int) -> bool:
        return one == other or any(self.reaches(it, other) for it in self.uses[one])

    def computed(self) -> tuple[list[int], list[int]]:
        """The key and the level of each target."""
        keys: dict[int, int] = {}
        levels: dict[int, int] = {}

        def compute(target: int) -> None:
            if target not in keys:
                key, level = 17, 0
                for it in self.files[target]:
                    key = wrapped(key * 1000003 + it)
                for it in self.uses[target]:
                    compute(it)
                    key, level = wrapped(key * 1000003 + keys[it]), max(level, levels[it])
                keys[target], levels[target] = key, level + 1

        for target in range(len(self.names)):
            compute(target)
        return [keys[it] for it in range(len(keys))], [levels[it] for it in range(len(keys))]

    def ordered(self, old: list[int]) -> list[int]:
        """The targets, each after those that it uses, with as little moved as a walk along the old order allows."""
        order: list[int] = []

        def place(target: int) -> None:
            if target not in order:
                for it in self.uses[target]:
                    place(it)
                order.append(target)

        for target in old:
            place(target)
        return order


def paths_of(name: str) -> list[pathlib.Path]:
    return [
        it
        for part in ('src', 'specs', 'proofs')
        for it in sorted((TOP / 'crates' / name / part).rglob('*'))
        if it.is_file()
    ]


class Build:
    """The session of a repository: its inputs, and the edits of both."""

    def __init__(self, repository: Repository, session: Ceal, has_marks: bool) -> None:
        self.repository, self.session, self.has_marks = repository, session, has_marks
        self.order = repository.ordered(list(range(len(repository.names))))
        self.made_uses = 0
        for target, files in enumerate(repository.files):
            session.new(f't{target}', 'target', None, None, *[0] * (6 if has_marks else 5))
            for at, it in enumerate(files):
                session.new(f'f{target}_{at}', 'file', it)
                session.new(f's{target}_{at}', 'source', f'f{target}_{at}', f's{target}_{at - 1}' if at else None)
            # The list is made from its end, so its first cell is that of the last file.
            files.reverse()
            if files:
                session.set(f't{target}.sources', f's{target}_{len(files) - 1}')
        for target in range(len(repository.names)):
            self.set_uses(target)
        self.add_list('all', list(range(len(repository.names))))
        if has_marks:
            session.mod('cycles', 'int', 0)
        else:
            self.add_list('order', self.order)

    def add_list(self, name: str, targets: list[int]) -> None:
        last = None
        for at in reversed(range(len(targets))):
            last = self.session.new(f'{name}{at}', 'line', f't{targets[at]}', last)
        self.session.mod(name, 'line', last)

    def set_uses(self, target: int) -> None:
        """Writes the uses of a target as a new list."""
        last = None
        for it in reversed(self.repository.uses[target]):
            self.made_uses += 1
            last = self.session.new(f'u{self.made_uses}', 'use', f't{it}', last)
        self.session.set(f't{target}.uses', last)

    def set_order(self, order: list[int]) -> None:
        """Writes the targets of the places in the order that have other ones now."""
        self.session.edit(
            (f'order{at}.target', f't{it}') for at, (was, it) in enumerate(zip(self.order, order)) if was != it
        )
        self.order = order

    def touch(self) -> None:
        """Another text of a file."""
        target = random.choice([at for at, it in enumerate(self.repository.files) if it])
        files = self.repository.files[target]
        at = random.randrange(len(files))
        files[at] = sum_of(random.randbytes(8))
        self.session.set(f'f{target}_{len(files) - 1 - at}.sum', files[at])

    def make(self) -> None:
        """All that is dirty is made."""
        keys, _ = self.repository.computed()
        edits = [(f't{at}.made', key) for at, key in enumerate(keys) if self.repository.made[at] != key]
        self.repository.made = keys
        self.session.edit(edits)

    def add_use(self) -> None:
        """A target uses another one that does not use it."""
        targets = range(len(self.repository.names))
        one, other = random.choice([(a, b) for a in targets for b in targets if not self.repository.reaches(b, a)])
        self.repository.uses[one].append(other)
        self.changed_uses(one)

    def drop_use(self) -> None:
        one = random.choice([at for at, it in enumerate(self.repository.uses) if it])
        self.repository.uses[one].pop(random.randrange(len(self.repository.uses[one])))
        self.changed_uses(one)

    def changed_uses(self, target: int) -> None:
        self.set_uses(target)
        if not self.has_marks:
            self.set_order(self.repository.ordered(self.order))

    def compared(self) -> int:
        """How many answers were compared: the key, the level and the mark of each target."""
        keys, levels = self.repository.computed()
        count, targets = 0, range(len(keys))
        for name, expected in (
            ('key', keys),
            ('level', levels),
            ('dirty', [int(key != made) for key, made in zip(keys, self.repository.made)]),
        ):
            count += same(name, self.session.numbers(f't{it}.{name}' for it in targets), expected) * len(keys)
        return count + (same('cycles', self.session['cycles'], 0) if self.has_marks else 0)


def cycle_is_found(build: Build) -> None:
    """A use that closes a cycle is found, and without it all is as before."""
    repository = build.repository
    one = next(at for at, it in enumerate(repository.uses) if it)
    repository.uses[repository.uses[one][0]].append(one)
    build.set_uses(repository.uses[one][0])
    build.session.propagate()
    assert build.session['cycles'] != 0, 'a cycle is not found'
    repository.uses[repository.uses[one][0]].pop()
    build.set_uses(repository.uses[one][0])
    build.session.propagate()


def main() -> None:
    words = words_of(
        __doc__ or '', 300, lambda it: it.add_argument('--marks', action='store_true', help='by a walk with marks')
    )
    name = 'marks' if words.marks else 'order'
    with Ceal(HERE / f'{name}.ceal', program=words.program, fuel=4_194_304) as session:
        repository = Repository()
        build, job = Build(repository, session, words.marks), Job(name, session)
        job.run('build', 'all', 'cycles' if words.marks else 'order')
        job.answers += build.compared()
        moved: list[int] = []
        for _ in range(words.edits):
            edit = random.choices([build.touch, build.make, build.add_use, build.drop_use], [6, 1, 1, 1])[0]
            edit()
            job.update()
            job.answers += build.compared()
            if edit in (build.add_use, build.drop_use):
                moved.append(job.work[-1])
        if words.marks:
            cycle_is_found(build)
            job.answers += build.compared()
        files = sum(map(len, repository.files))
        job.tell(f'{len(repository.names)} targets, {files:,} files')
        if moved:
            print(f'  a use more or less: work {min(moved):,} to {max(moved):,}')


if __name__ == '__main__':
    main()
