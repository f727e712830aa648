"""Runs the rows of rows.txt: `python3 -m tools.rows PROGRAM [NAME ..]`, with names only the rows of these names.

PROGRAM is a built program, or the word `try`: then the sources are compiled once, with no proof, and the large rows are
left out unless they are named. The form of a row is told at the head of crates/ceal_rows/src/main.rt. That a stream
drips or fails is not tried here, where streams are files.
"""
import os
import pathlib
import re
import subprocess
import sys
import tempfile

from tools import answers
from tools.programs import TOP

ROWS = TOP / 'crates/ceal_rows/data/rows.txt'
STATUSES = {'Done': 0, 'Refused': 1, 'Usage': 2, 'TooLong': 3}
# These run for millions of steps, or have megabytes to read. A built program takes a second for all of them; the slow
# code that `rt try` compiles, with its checks, takes eight minutes. So with `try` they are run only by name.
LARGE = frozenset(
    'loop-makes-modifiables input-just-fits blocks-65535-list gen-list-40000 deep-recursion-too-deep'
    ' loop-out-of-fuel-and-back endless-recursion deep-recursion-fits blocks-65537 blocks-65535 blocks-65536'
    ' blocks-65536-run blocks-of-other-shapes'.split()
)


class Row:
    def __init__(self):
        self.name, self.words, self.status, self.input, self.output = '', [], 0, [], []
        self.fill = 0

    def add(self, line):
        word, _, rest = line.partition(b' ')
        count = 1
        if word == b'repeat':
            count, _, line = rest.partition(b' ')
            count = int(count)
        if line[:2] in (b'> ', b'>|', b'< ', b'<|'):
            side = self.input if line[:1] == b'>' else self.output
            side += [line[2:] + (b'\n' if line[1:2] == b' ' else b'')] * count
        elif word == b'row':
            self.name = rest.decode()
        elif word == b'words':
            self.words = rest.split(b' ') if rest else []
        elif word == b'status':
            self.status = STATUSES.get(rest.decode(), -1)
        elif word == b'fill':
            self.fill = int(rest)

    def given(self):
        given = b''.join(self.input)
        return given + b'\n' * (self.fill - len(given))


def rows():
    row = Row()
    for line in ROWS.read_bytes().split(b'\n'):
        if line != b'end':
            row.add(line)
        else:
            yield row
            row = Row()


def difference(row, program):
    """How the program answers otherwise; None where it does not."""
    ended = subprocess.run([program, *row.words], input=row.given(), stdout=subprocess.PIPE, stderr=subprocess.DEVNULL)
    if ended.returncode != row.status:
        return f'status {ended.returncode} in place of {row.status}'
    if ended.stdout != b''.join(row.output):
        return f'wrote {ended.stdout[:300]!r}'
    return None


def tried_as_one():
    """Passes all rows but the large ones by ceal_rows, which is compiled with no proof, and returns its status: a row
    costs hardly a moment."""
    with tempfile.NamedTemporaryFile(prefix='ceal-') as file:
        own, row = b'', Row()
        for line in ROWS.read_bytes().splitlines(keepends=True):
            own += line
            row.add(line.rstrip(b'\n'))
            if line == b'end\n':
                file.write(b'' if row.name in LARGE else own)
                own, row = b'', Row()
        file.write(own)
        file.flush()
        words = ['rt', 'try', '--steps', '1', '--seconds', '600', '--data', f'{ROWS.name}={file.name}']
        return answers.start(words, cwd=ROWS.parent.parent, stdin=subprocess.DEVNULL).wait()


def tried(all_rows):
    """The rows that `rt try` answers otherwise, each with how. Each row is a process of its own, which takes a second
    or more."""
    with tempfile.TemporaryDirectory(prefix='ceal-') as folder:
        for row in all_rows:
            path = pathlib.Path(folder, row.name)
            path.write_bytes(row.given())
            path.with_name(f'{row.name}.args').write_bytes(b''.join(it + b'\n' for it in row.words))
            path.with_name(f'{row.name}.stdout').write_bytes(b''.join(row.output))
        words = ['rt', 'try', '--steps', '1', '--seconds', '600', '--cases', folder]
        process = answers.start(
            words, cwd=TOP / 'crates/ceal', stdin=subprocess.DEVNULL, stdout=subprocess.DEVNULL, stderr=subprocess.PIPE
        )
        said = process.communicate()[1].decode(errors='replace')
    told = dict(re.findall(r'^case=(\S+) (.*)$', said, re.M))
    if not told:
        print(said[-2000:])
    for row in all_rows:
        line = told.get(row.name, 'no answer')
        if not re.search(rf'run=ended status={row.status} .*output=expected', line):
            yield row, line


def main(program, names):
    is_tried = program == 'try'
    if is_tried and not names:
        return tried_as_one()
    all_rows = [it for it in rows() if not names or it.name in names]
    if is_tried:
        different = list(tried(all_rows))
    else:
        found = ((it, difference(it, os.path.abspath(program))) for it in all_rows)
        different = [(it, differs) for it, differs in found if differs]
    for row, differs in different:
        print(f'{row.name}: {differs}')
    print(f'{len(all_rows) - len(different)} passed, {len(different)} failed')
    return int(bool(different))


if __name__ == '__main__':
    answers.end_on_signals()
    try:
        sys.exit(main(sys.argv[1], sys.argv[2:]))
    finally:
        answers.end_all()
