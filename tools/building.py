"""Builds the proved programs, `ceal` and `ceal_serve`, and puts them where they will be used.

A build leaves a record: the toolchain, the date, for each program a sum over the sums of its sources and the program,
and for each crate the line that `rt` ended its proof with, or that `rt` kept its proof from before. A record is no
proof, and nobody signs it: it says what was seen here. Who did not see it builds the programs again.
"""
import datetime
import hashlib
import os
import pathlib
import re
import shutil
import subprocess
import sys
import time

from tools import answers, libceal, programs
from tools.answers import Fault
from tools.programs import NAMES, PROVED, TOP

STARTED, LOG, RECORD = (TOP / 'crates/ceal/out' / it for it in ('ceal.started', 'build.log', 'ceal.record'))
BY_BUILD, BY_GATE = './run --build', '.ci/run'
# What `rt all check` says of a crate: its head and the last line of its proof, which is not there where the proof was
# kept; at the end, that all is well.
VERDICT, GOOD = re.compile(r'^== (\w+)$|^(logic=.*)$', re.M), re.compile(r'^(\w+): ok$', re.M)
BY_PROOF, KEPT = 'logic=proved ', 'ok, by the proof that rt kept'
# No process of a proof was seen to take much more gigabytes (.ci/gate.md).
MEMORY = 5


def at_once():
    """How many crates are proved at once: one a processor, as far as there is memory."""
    free = os.sysconf('SC_AVPHYS_PAGES') * os.sysconf('SC_PAGE_SIZE') / 1e9
    try:
        with open('/proc/meminfo') as file:
            free = next(int(it.split()[1]) / 1e6 for it in file if it.startswith('MemAvailable'))
    except (OSError, StopIteration):
        pass
    return max(1, min(len(os.sched_getaffinity(0)), int(free / MEMORY)))


def version():
    """The newest version that CHANGELOG.md names, and whether it names later changes."""
    first, *others = re.findall(r'^## (\S+)', (TOP / 'CHANGELOG.md').read_text(), re.M)
    newest = next((it for it in (first, *others) if it[0].isdigit()), 'of no version')
    return f'ceal {newest}' if newest == first else f'ceal {newest}, with later changes'


def kit():
    """The line by which the toolchain tells which one it is."""
    return subprocess.run(['rt', 'version'], stdout=subprocess.PIPE, universal_newlines=True).stdout.strip()


def done_so_far():
    """The crates that the log says are done, in their order."""
    return re.findall(r'^== (?!summary$)(\w+)$', LOG.read_text(errors='replace'), re.M)


def watch(process, all_crates, begun):
    """Waits for the proofs, and tells of each crate that is done."""
    told = 0
    while process.poll() is None:
        try:
            process.wait(1)
        except subprocess.TimeoutExpired:
            pass
        done = done_so_far()
        if sys.stdout.isatty():
            print('\r\033[K', end='')
        for name in done[told:]:
            told += 1
            print(
                f'{told} of {all_crates} crates done: {name}, {answers.shown_time(time.time() - begun)} so far',
                flush=True,
            )
        if sys.stdout.isatty() and process.poll() is None:
            print(
                f'{told} of {all_crates} crates done, {answers.shown_time(time.time() - begun)} so far ',
                end='',
                flush=True,
            )


def refuse(what):
    """Ends a build that failed with the end of what rt said of it."""
    print('\n'.join(LOG.read_text(errors='replace').splitlines()[-20:]), file=sys.stderr)
    raise Fault(70, f'{what}; all that rt said is in {LOG}')


def prove(begun):
    """Proves each crate, as many at once as there are processors and each after those that it uses."""
    jobs, crates = at_once(), len(programs.dependencies())
    print(
        f'1. {crates} crates are proved, {jobs} at once: {answers.BUILD_COST}, less for what was proved before',
        flush=True,
    )
    with open(LOG, 'wb') as log:
        process = answers.start(
            ['rt', 'all', 'check', '--jobs', str(jobs)],
            cwd=TOP / 'crates',
            stdin=subprocess.DEVNULL,
            stdout=log,
            stderr=subprocess.STDOUT,
        )
        watch(process, crates, begun)
    if process.returncode:
        refuse('a crate was refused or not proved')


def link(name):
    """Builds a program, which then has to answer an empty source text."""
    words, given, wanted = programs.SMALLEST[name]
    with open(LOG, 'wb') as log:
        how = {'cwd': TOP / 'crates' / name, 'stdin': subprocess.PIPE, 'stdout': subprocess.PIPE, 'stderr': log}
        answer = answers.start(['rt', 'run', *(['--', *words] if words else [])], **how).communicate(given)[0]
    if answer != wanted:
        refuse(f'the program {name} was refused or not built')


def newest(program):
    """When the youngest of a program's sources was changed."""
    return max(os.stat(TOP / it).st_mtime_ns for it in program.sources())


def build():
    answers.need_toolchain()
    STARTED.parent.mkdir(exist_ok=True)
    STARTED.write_bytes(b'')
    # From here on nothing is taken for a proved program until all is done.
    made = [*PROVED.values(), *libceal.here()]
    for it in made:
        if it.built.exists():
            it.built.unlink()
    begun, before = time.time(), [it.sums() for it in made]
    prove(begun)
    verdicts = verdicts_of(LOG.read_text(errors='replace'))
    for at, name in enumerate(NAMES, 2):
        print(
            f'{at}. {name} is built, in a minute or two; {answers.shown_time(time.time() - begun)} so far', flush=True
        )
        link(name)
    for _ in libceal.here():
        print(
            (
                f'{len(made) + 1}. the library for C is made, in a minute or two;'
                f' {answers.shown_time(time.time() - begun)} so far'
            ),
            flush=True,
        )
        if not libceal.build(LOG):
            refuse('the library for C was refused or not made')
    if before != [it.sums() for it in made] or any(newest(it) > STARTED.stat().st_mtime_ns for it in made):
        raise Fault(70, 'a source was changed during the build, so its programs are not used: build again')
    keep(BY_BUILD, verdicts)
    libceal.keep()
    paths = ' and '.join(os.path.relpath(PROVED[it].path, TOP) for it in NAMES)
    print(f'done in {answers.shown_time(time.time() - begun)}; the proved programs are {paths}')
    return 0


def verdicts_of(log):
    """What `rt` said of each crate: the last line of its proof, or that it is well by an earlier one."""
    found, crate = dict.fromkeys(GOOD.findall(log), KEPT), None
    for name, line in VERDICT.findall(log):
        crate = name or crate
        if line:
            found[crate] = line
    return [f'{name}: {line}' for name, line in found.items()]


def keep(by, verdicts):
    """From now on the programs that are there are the proved ones, as long as no source changes; a record says how they
    came to be."""
    sums = {it: PROVED[it].sums_with_program() for it in NAMES}
    head = [
        version(),
        f'toolchain {kit()}',
        f'proved by {by} on {datetime.date.today()}',
        *(sum_line(it, sums[it]) for it in NAMES),
    ]
    programs.put(RECORD, '\n'.join([*head, *verdicts, '']))
    for it in NAMES:
        PROVED[it].built.parent.mkdir(exist_ok=True)
        programs.put(PROVED[it].built, sums[it])


def sum_line(name, sums):
    return f'sums {hashlib.sha256(sums.encode()).hexdigest()} {name}'


def record():
    """The record of the programs that are there, where it says that all of them was proved."""
    if not RECORD.is_file():
        raise Fault(
            70,
            (
                f'nothing here says that these programs were proved: {BY_BUILD} proves and builds them, and leaves a'
                ' record'
            ),
        )
    text = RECORD.read_text()
    lines = text.splitlines()
    if any(sum_line(it, PROVED[it].built.read_text()) not in lines for it in NAMES):
        raise Fault(70, f'the record of a proof is that of another program: {BY_BUILD} proves and builds these')
    is_by_gate = any(it.startswith(f'proved by {BY_GATE} ') for it in lines)
    needed = dict.fromkeys(it for name in NAMES for it in programs.crates(name))
    unproved = [
        it for it in needed if not any(line.startswith((f'{it}: {BY_PROOF}', f'{it}: {KEPT}')) for line in lines)
    ]
    if not is_by_gate and unproved:
        raise Fault(70, f'the record has no proof of {", ".join(unproved)}: {BY_BUILD} proves and builds the programs')
    return text


def take_built(verdict):
    """For the gate: the programs that `rt ci` has proved and built are the proved ones, where no source is newer."""
    for it in PROVED.values():
        if not os.access(it.path, os.X_OK):
            raise Fault(70, f'there is no program {it.name} that rt ci has built')
        if newest(it) > it.path.stat().st_mtime_ns:
            raise Fault(70, f'a source is newer than the program {it.name}')
    keep(BY_GATE, [f'rt ci: {verdict}'])
    libceal.take_built()
    return 0


def install(folder):
    """Puts the proved programs into a folder, beside the record of what is known of them."""
    for name in NAMES:
        why = programs.why_unproved(name)
        if why:
            raise Fault(70, f'{why}: {BY_BUILD} proves and builds it')
    told = record()
    if not os.path.isdir(folder):
        raise Fault(66, f'there is no folder {folder}')
    targets = [pathlib.Path(folder, it) for it in NAMES]
    for name, target in zip(NAMES, targets):
        shutil.copy2(PROVED[name].path, f'{target}.new')
        os.replace(f'{target}.new', target)
    targets += libceal.install(folder)
    told = ''.join(f'{programs.sum_of(it)}  {it.name}\n' for it in targets) + told
    pathlib.Path(folder, 'ceal.txt').write_text(told)
    print('\n'.join([*map(str, targets), *told.splitlines()[: len(targets) + 5]]))
    return 0


def tell_version():
    print(version())
    return 0


def main(option, *more):
    """Does what an option asks for."""
    return {'--build': build, '--built': take_built, '--install': install, '--version': tell_version}[option](*more)
