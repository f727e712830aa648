"""The programs of the repository, each with the sums of what it was made of: `ceal`, which answers a whole script, and
`ceal_serve`, which answers line by line.

Each is there in up to two forms: the proved one in its crate's folder out/, and the draft, which no proof was made of,
in the folder draft/.
"""
import os
import pathlib
import time

TOP = pathlib.Path(__file__).resolve().parent.parent
NAMES = ('ceal', 'ceal_serve')
# What a program that was just made has to answer: to which words, to which input.
SMALLEST = {
    'ceal': (['check'], b'%%\n', b'accepted\n'),
    'ceal_serve': ([], b'%%\n?\n', b'refused C1: unreadable line\n'),
}
# A file that was changed less than this many seconds ago may be changed once more at what seems to be the same time.
TICK = 2


def dependencies():
    """Each crate of crates.txt with those that it uses."""
    lines = (line.split('#')[0] for line in (TOP / 'crates.txt').read_text().splitlines())
    return {head.split()[0]: rest.split() for head, colon, rest in (line.partition(':') for line in lines) if colon}


def crates(top='ceal'):
    """The crates that one is made of, each after those that it uses."""
    below, order = dependencies(), []

    def visit(name):
        if name in below and name not in order:
            for it in below[name]:
                visit(it)
            order.append(name)

    visit(top)
    return order


def sum_of(path):
    import hashlib  # (imported where it is needed, as what few calls need, so that a call of ./run begins soon)

    with open(path, 'rb') as file:
        return hashlib.sha256(file.read()).hexdigest()


def put(path, text):
    """Writes a file as a whole."""
    made = path.with_name(f'{path.name}.{os.getpid()}')
    made.write_text(text)
    os.replace(made, path)


def remember(path, text):
    """Writes a file that only saves time, where that may be done at all."""
    try:
        path.parent.mkdir(exist_ok=True)
        put(path, text)
    except OSError:
        pass


class Program:
    """A program, and the sums and stats of the sources that it was made of: the crate `top` and those below it, of
    which the folders `parts` count."""

    def __init__(self, name, folder, parts, top=None):
        self.name, self.path, self.parts, self.top = name, folder / name, parts, top or name
        self.built, self.seen = folder / f'{name}.built', folder / f'{name}.seen'

    def sources(self):
        """The sources of the program, as paths from the top."""
        yield 'crates.txt'
        for crate in crates(self.top):
            for part in self.parts:
                for folder, folders, names in os.walk(TOP / 'crates' / crate / part):
                    folders.sort()
                    yield from (
                        os.path.relpath(f'{folder}/{it}', TOP) for it in sorted(names) if it.endswith(('.rt', '.antt'))
                    )

    def sums(self):
        """A line for each source, with a sum of what is in it."""
        return ''.join(f'{sum_of(TOP / it)} {it}\n' for it in self.sources())

    def sums_with_program(self):
        """The sums of the sources and of the program: those of a good build are kept in the file `built`."""
        return self.sums() + f'{sum_of(self.path)} program\n'

    def is_there(self):
        return os.access(self.path, os.X_OK) and self.built.is_file()

    def stats(self):
        """A line for each source, the program and its sums: the size, the times and the number of the file. While none
        of these is another, as `git` and `make` take it too, neither is what is in the files."""

        def line(path, it):
            return f'{path} {it.st_size} {it.st_mtime_ns} {it.st_ctime_ns} {it.st_ino}'

        def below(folder):
            with os.scandir(folder) as entries:
                for it in sorted(entries, key=lambda it: it.name):
                    if it.is_dir(follow_symlinks=False):
                        yield from below(it.path)
                    elif it.name.endswith(('.rt', '.antt')):
                        yield line(it.path, it.stat())

        lines = [line(it, os.stat(it)) for it in (TOP / 'crates.txt', self.path, self.built)]
        for crate in crates(self.top):
            for folder in (f'{TOP}/crates/{crate}/{part}' for part in self.parts):
                lines += below(folder) if os.path.isdir(folder) else ()
        return '\n'.join(lines)

    def is_current(self):
        """Whether the program was built from just these sources: by their sums, or where those have been looked at, by
        the stats of the files."""
        seen, now = self.stats(), time.time()
        try:
            if self.seen.read_text() == seen:
                return True
        except OSError:
            pass
        if self.sums_with_program() != self.built.read_text():
            return False
        newest = max(int(it.split(' ')[-2]) for it in seen.splitlines())
        if now - newest / 1e9 > TICK:
            remember(self.seen, seen)
        return True


# (the proofs of a program are sources of the proved one)
PROVED = {it: Program(it, TOP / 'crates' / it / 'out', ('src', 'specs', 'proofs')) for it in NAMES}
DRAFTS = {it: Program(it, TOP / 'draft', ('src',)) for it in NAMES}


def why_unproved(name='ceal'):
    """Why the proved program can't answer; None where it can."""
    program = PROVED[name]
    if not program.is_there():
        return f'the proved program{"" if name == "ceal" else f" {name}"} is not built'
    return (
        None
        if program.is_current()
        else f'sources have changed since the proved program{"" if name == "ceal" else f" {name}"} was built'
    )
