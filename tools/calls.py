"""Calls of `./run` and what they have to end with, for the tests of `./run` itself."""
import re
import subprocess
import sys
import threading

from tools.programs import TOP

RUN = str(TOP / 'run')
# It starts sooner than by the first line of ./run; a link and signals are tried by that.
PYTHON = (sys.executable, '-S', '-B')
# What a draft tells of itself, before all else.
BY_DRAFT = re.compile(r'run: not proved: draft/.*\n')
SOON = 60  # (seconds in which is refused what is refused at once)
passed, failed, counting = 0, 0, threading.Lock()


def tell(name, faults):
    """Counts a test, and tells what is wrong with it."""
    global passed, failed
    with counting:
        passed, failed = passed + (not faults), failed + bool(faults)
        if faults:
            print(f'./run: {name}:', '; '.join(faults))


def call(name, words, status, output=None, told=None, given=subprocess.DEVNULL, seconds=600, run=RUN, **how):
    """Calls ./run once, and says where it ends otherwise; `told` is looked for on standard error, and may be several
    texts in their order; if it is empty, nothing may be told. That a draft answers may always be told."""
    how = {'stdout': subprocess.PIPE, 'stderr': subprocess.PIPE, 'timeout': seconds, 'cwd': TOP, **how}
    how.update({'input': given} if isinstance(given, bytes) else {'stdin': given})
    try:
        ended = subprocess.run([*PYTHON, run, *words], **how)
    except subprocess.TimeoutExpired:
        tell(name, [f'not ended after {seconds} seconds'])
        return b''
    faults = []
    if ended.returncode != status:
        faults.append(f'status {ended.returncode} in place of {status}')
    if output is not None and ended.stdout != output:
        faults.append(f'wrote {ended.stdout[:300]!r} in place of {output[:300]!r}')
    faults += lacking(ended.stderr, [told] if isinstance(told, str) else told or [])
    tell(name, faults)
    return ended.stdout or b''


def lacking(said, told):
    """What is not said after the text before it."""
    left = (said or b'').decode(errors='replace')
    by_draft = BY_DRAFT.match(left)
    if by_draft and not (told and told[0].startswith('run: not proved')):
        left = left[by_draft.end() :]
    if told == [''] and left:
        yield f'told {left!r}'
    for it in filter(None, told):
        _, found, left = left.partition(it)
        if not found:
            yield f'told {said[-300:]!r}, without {it!r}'
            return
