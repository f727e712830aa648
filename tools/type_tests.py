"""Tries what `mypy --strict` says of the types of the Python client and of the jobs of examples/: `python3 -m
tools.type_tests`.

It checks for the oldest Python that the client is for. Where there is no mypy, it says so and passes.
"""
import pathlib
import shutil
import subprocess
import sys

TOP = pathlib.Path(__file__).resolve().parent.parent
CHECKED = [
    *(f'client/{it}.py' for it in ('ceal', 'ceal_ctypes')),
    *(f'client/test_{it}.py' for it in ('ceal', 'ctypes', 'interrupts', 'journal')),
]
WORDS = ['mypy', '--strict', '--python-version', '3.9', '--cache-dir', '/dev/null']


def main():
    if not shutil.which('mypy'):
        print('skipped: there is no mypy')
        return 0
    jobs = sorted(str(it) for it in (TOP / 'examples').glob('**/*.py'))
    return subprocess.run([*WORDS, *CHECKED, *jobs], cwd=TOP).returncode


if __name__ == '__main__':
    sys.exit(main())
