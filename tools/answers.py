"""How the answers of the program are got: from the proved program where it is there, else from the same sources by `rt
try`."""
import os
import pathlib
import re
import signal
import subprocess
import sys
import time

from tools.programs import PROVED, TOP, remember, why_unproved

TRIED = TOP / 'crates/ceal/out/ceal.tried'
# What the build takes: the sum of the first proofs of its crates, which were measured one by one (.ci/gate.md).
BUILD_COST = 'some 90 minutes of processor time, and up to 5 GB of memory'
TRY_COST = 'one to three minutes'
WRITE_FAULT = 6  # (the status of a program whose output could not be written)
LINE = re.compile(rb'^run=ended status=(\d+) ', re.M)
CASE = re.compile(rb'^case=(\S+) run=ended status=(\d+) ', re.M)
running, found = [], {}  # (the processes that were started; the program of each name that answers this call)


class Fault(Exception):
    """What ends `./run` with one of its own statuses, as docs/SCRIPT.md lists them."""

    def __init__(self, status, text):
        super().__init__(text)
        self.status, self.text = status, text


class Interrupted(BaseException):
    pass


def end_on_signals():
    """From here on an interrupt, and a plain `kill`, end this process and all that it started."""

    def end(number, frame):
        for it in (signal.SIGINT, signal.SIGTERM, signal.SIGHUP):
            signal.signal(it, signal.SIG_IGN)
        raise Interrupted

    for it in (signal.SIGINT, signal.SIGTERM, signal.SIGHUP):
        signal.signal(it, end)


def start(words, **how):
    """Starts a process that ends with this one. It leads a new session, so that whatever it starts can be ended with
    it."""
    process = subprocess.Popen(words, start_new_session=True, **how)
    running.append(process)
    return process


def end_all():
    """Ends what was started and still runs: first politely, since `rt` then ends what it started, and then in any case,
    with all below it."""
    if all(it.poll() is not None for it in running):
        return
    from tools import processes

    started = processes.below(os.getpid())
    send(signal.SIGTERM, 5)
    send(signal.SIGKILL, 1)
    for number in processes.still(started):
        try:
            os.kill(number, signal.SIGKILL)
        except ProcessLookupError:
            pass
    until = time.monotonic() + 1
    while processes.still(started) and time.monotonic() < until:
        time.sleep(0.02)


def send(sign, patience):
    """Sends a signal to what still runs, and waits some seconds for its end."""
    for process in [it for it in running if it.poll() is None]:
        try:
            os.killpg(process.pid, sign)
        except ProcessLookupError:
            pass
    until = time.monotonic() + patience
    while any(it.poll() is None for it in running) and time.monotonic() < until:
        time.sleep(0.02)


def shown_time(seconds):
    return f'{int(seconds) // 60} min {int(seconds) % 60} s' if seconds >= 60 else f'{int(seconds)} s'


def wait(process, doing):
    """Waits for a process, and shows on a terminal that time goes on."""
    begun, is_shown = time.monotonic(), False
    while True:
        try:
            status = process.wait(1)
            break
        except subprocess.TimeoutExpired:
            if sys.stderr.isatty():
                sys.stderr.write(f'\r{doing}: {shown_time(time.monotonic() - begun)} so far ')
                sys.stderr.flush()
                is_shown = True
    if is_shown:
        sys.stderr.write('\r\033[K')
        sys.stderr.flush()
    return status


# -- which program answers


def need_toolchain():
    from shutil import which

    if not which('rt'):
        raise Fault(69, 'the Rattle toolchain is missing: its command rt is not on the PATH')


# -- answers


class Answer:
    def __init__(self, status, output=b'', told=b''):
        self.status, self.output, self.told = status, output, told


def ended(process):
    """The status of a process that has ended, as a shell would tell it."""
    return process.returncode if process.returncode >= 0 else 128 - process.returncode


def by_program(program, words, given, is_kept):
    """Answers by a program: at once, and to the standard output where the answer is not kept."""
    with given.stream() as stream:
        how = {'stdout': subprocess.PIPE} if is_kept else {}
        process = subprocess.Popen([program, *words], stdin=stream, stderr=subprocess.PIPE, **how)
        running.append(process)
        output, told = process.communicate()
    if not is_kept:
        if ended(process) == WRITE_FAULT and is_unread():
            raise BrokenPipeError
        hand_over(2, told)
    return Answer(ended(process), output or b'', told or b'')


def is_unread():
    """Whether the standard output is a pipe whose other end is closed, as after `| head`."""
    import select

    output = select.poll()
    output.register(1, 0)
    return any(event & select.POLLERR for _, event in output.poll(0))


def tried(words, folder, **how):
    """Runs `rt try` with the given words; returns what the program, and what `rt` wrote on standard error."""
    with open(f'{folder}/out', 'w+b') as out, open(f'{folder}/err', 'w+b') as err:
        how, begun = {
            'stdin': subprocess.DEVNULL,
            'stdout': out,
            'stderr': err,
            'cwd': TOP / 'crates/ceal',
            **how,
        }, time.monotonic()
        wait(start(['rt', 'try', '--steps', '1', '--seconds', '600', *words], **how), 'compiling, with no proof')
        remember(TRIED, shown_time(time.monotonic() - begun))
        out.seek(0)
        err.seek(0)
        return out.read(), err.read()


def by_try(calls):
    """Answers each of some calls with no proof: the sources are compiled once."""
    import tempfile

    with tempfile.TemporaryDirectory(prefix='ceal-') as folder:
        if len(calls) > 1:
            return by_cases(calls, folder)
        ((words, given),) = calls
        with given.stream() as stream:
            output, errors = tried(['--', *words], folder, stdin=stream)
    found = LINE.search(errors)
    if not found:
        sys.stderr.buffer.write(errors)
        raise Fault(71, 'the unproved run gave no answer')
    # The rest of what rt writes there is about the run.
    told = b''.join(it for it in errors.splitlines(True) if it.startswith((b'usage: ceal', b'ceal: ')))
    return [Answer(int(found[1]), output, told)]


def by_cases(calls, folder):
    """Answers several calls, each by a case of one `rt try`."""
    import secrets

    cases, token = pathlib.Path(folder, 'cases'), secrets.token_hex(8)
    cases.mkdir()
    names = [f'{at}-{token}' for at in range(len(calls))]
    for name, (words, given) in zip(names, calls):
        (cases / name).write_bytes(given.text())
        (cases / f'{name}.args').write_text(''.join(f'{it}\n' for it in words))
    return taken_apart(names, *tried(['--cases', str(cases)], folder))


def taken_apart(names, output, errors):
    """The answers of the cases of one `rt try`, from what it wrote."""
    statuses = {name.decode(): int(status) for name, status in CASE.findall(errors)}
    if set(statuses) != set(names):
        sys.stderr.buffer.write(errors)
        raise Fault(71, 'the unproved run gave no answer')
    parts = re.split(rb'^== (\S+-%s)\n' % names[0].split('-')[1].encode(), output, flags=re.M)
    outputs = dict(zip((it.decode() for it in parts[1::2]), parts[2::2]))
    return [Answer(statuses[it], outputs.get(it, b'')) for it in names]


def chosen(name='ceal'):
    """The program that answers: the proved one, or else a draft, which is made where it is not there; None where
    neither can be had."""
    if name in found:
        return found[name]
    why = why_unproved(name)
    if why is None:
        found[name] = PROVED[name].path
    else:
        from tools import drafts

        found[name] = drafts.ready(name, why)
    return found[name]


def answers(calls, is_kept=True):
    """Answers calls, each the words and the input. What is not kept has gone to the standard output."""
    program = chosen()
    if program:
        return [by_program(program, words, given, is_kept) for words, given in calls]
    last = f', {TRIED.read_text()} the last time' if TRIED.is_file() else ''
    print(
        (
            f'run: now all is compiled, as in each such call, in {TRY_COST}{last}; ./run FILE FILE .. compiles once for'
            ' several'
        ),
        file=sys.stderr,
        flush=True,
    )
    got = by_try(calls)
    if not is_kept:
        for it in got:
            write_out(it)
    return got


def hand_over(stream, data):
    while data:
        data = data[os.write(stream, data) :]


def write_out(answer):
    """Hands on an answer that was kept."""
    sys.stdout.flush()
    hand_over(1, answer.output)
    hand_over(2, answer.told)
