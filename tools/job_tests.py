"""Tries the Python client, and the three jobs of examples/ beside their computations in Python: `python3 -m
tools.job_tests SERVER`.

SERVER is a built `ceal_serve`. The jobs run side by side, each over some hundred random edits.
"""
import os
import subprocess
import sys

from tools.programs import TOP

TRIED = {
    'the client': ['-m', 'unittest', '-q', 'client.test_ceal', 'client.test_journal'],
    'interrupts of the client': ['-m', 'unittest', '-q', 'client.test_interrupts'],
    'types of the client': ['-m', 'tools.type_tests'],
    'a build tool, in an order': ['examples/build/build.py', '--edits', '200'],
    'a build tool, with marks': ['examples/build/build.py', '--marks', '--edits', '200'],
    'a program analyser': ['examples/flow/flow.py', '--edits', '300'],
    'a simulation': ['examples/life/life.py', '--width', '12', '--height', '12', '--edits', '100'],
}


def main(server):
    how = {'env': {**os.environ, 'CEAL_SERVE': os.path.abspath(server)}}
    how |= {
        'cwd': TOP,
        'stdin': subprocess.DEVNULL,
        'stdout': subprocess.PIPE,
        'stderr': subprocess.STDOUT,
        'text': True,
    }
    running = {name: subprocess.Popen([sys.executable, '-B', *words], **how) for name, words in TRIED.items()}
    failed = 0
    for name, process in running.items():
        said, _ = process.communicate()
        if process.returncode:
            failed += 1
            print(f'{name}: {said.strip().splitlines()[-1:] or process.returncode}')
    print(f'{len(running) - failed} passed, {failed} failed')
    return int(failed > 0)


if __name__ == '__main__':
    sys.exit(main(sys.argv[1]))
