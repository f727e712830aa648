"""Runs the tests of the three crates of tests with no proof: `python3 -m tools.joined_tests`.

`rt try --test` compiles all crates below again for each crate. So the three are put together as one crate, in a copy of
the sources that is thrown away: each is a module of it, with the modules that it has. The tests are the same.
"""
import pathlib
import re
import shutil
import sys
import tempfile

from tools import answers, programs
from tools.programs import TOP

JOINED = 'ceal_joined_tests'
PARTS = ('ceal_engine_tests', 'ceal_tests', 'ceal_runtime_tests')


def modules(root):
    """The lines of a root file that declare its modules."""
    return re.sub(r'(?m)^(//!.*|#!\[.*)\n', '', root.read_text())


def join(tree):
    """Writes the crate that has the three as modules into a copy of the sources."""
    source = tree / 'crates' / JOINED / 'src'
    source.mkdir(parents=True)
    names = {part[len('ceal_') :]: tree / 'crates' / part / 'src' for part in PARTS}
    (source / 'lib.rt').write_text('#![tactic(auto)]\n\n' + ''.join(f'#[cfg(test)]\nmod {name};\n' for name in names))
    for name, folder in names.items():
        (source / f'{name}.rt').write_text(modules(folder / 'lib.rt'))
        (source / name).mkdir()
        for file in folder.glob('*.rt'):
            if file.name != 'lib.rt':
                (source / name / file.name).write_text(file.read_text().replace('crate::', f'crate::{name}::'))
    below = programs.dependencies()
    used = sorted({it for part in PARTS for it in below[part]})
    with open(tree / 'crates.txt', 'a') as lines:
        lines.write(f'{JOINED}: {" ".join(used)}\n')


def main():
    with tempfile.TemporaryDirectory(prefix='ceal-') as folder:
        tree = pathlib.Path(folder, 'tree')
        shutil.copytree(
            TOP / 'crates', tree / 'crates', ignore=shutil.ignore_patterns('out', 'proofs', 'must-fail', 'data')
        )
        shutil.copy(TOP / 'crates.txt', tree / 'crates.txt')
        join(tree)
        words = ['rt', 'try', '--test', '--seconds', '600']
        return answers.start(words, cwd=tree / 'crates' / JOINED).wait()


if __name__ == '__main__':
    answers.end_on_signals()
    try:
        sys.exit(main())
    finally:
        answers.end_all()
