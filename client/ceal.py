"""A CEAL program as a Python object: self-adjusting computation from Python.

    from ceal import Ceal

    with Ceal('examples/inc.ceal') as c:
        c.mod('a', 'int', 4)
        c.mod('b', 'int')
        c.run('inc', 'a', 'b')
        c['b']                      # 5
        c['a'] = 9                  # an edit
        c.propagate()               # the update
        c['b']                      # 10

A `Ceal` starts the program `ceal_serve`, writes the source text to it and then a line for each call, and waits for the
reply to the line. The lines and their replies are those of docs/SCRIPT.md; docs/TOOLS.md, 'CEAL from Python', says what
this module does, and what holds of interrupts, threads and journals. It needs nothing but Python's own library, and a
built `ceal_serve`.

Values are Python's: an `int` is a number, `None` is null, and a `str` is the name of an input (`'b7'`) or of a place in
one (`'b7.tail'`, `'b7.price[2]'`). What a call returns in their place (an `Input`, a `Node`) can be passed wherever a
name can.

The parts, from below: an `Exchange` is lines that are sent together with what has come of their replies; an `Engine`
answers them: a `Server`, or a `Library` in this very process; a `Journal` keeps the lines that change a session; `Ceal`
makes lines of calls.
"""
from __future__ import annotations

import enum
import fcntl
import io
import operator
import os
import pathlib
import re
import select
import shutil
import subprocess
import sys
import tempfile
import threading
import warnings
import weakref
from collections import deque
from collections.abc import Iterable, Iterator, Mapping, Sequence
from dataclasses import dataclass, field
from types import FrameType
from typing import Optional, Protocol, SupportsIndex, Union

__all__ = [
    'Ceal',
    'Input',
    'Node',
    'Pointer',
    'CealError',
    'SourceFault',
    'Refused',
    'OutOfFuel',
    'Closed',
    'NoProgram',
    'NoJournal',
    'Unproved',
]

#: The numbers of the language: 64 bits with a sign.
LEAST, LARGEST = -(2**63), 2**63 - 1
#: The most steps that a run may be allowed, and how many it is unless told.
MOST_FUEL, DEFAULT_FUEL = 4_194_304, 1_000_000
#: The most bytes of a line with its line feed.
LONGEST_LINE = 4_194_304
#: How many lines are sent in one exchange.
TOGETHER = 200
#: The most bytes of one write: a pipe that can be written to takes that many at once.
PART = 4096
#: How many bytes are asked for at once.
PIECE = 65536
#: More bytes than a refusal has.
SHORT = 100
#: How many seconds a program may take to end when its input has ended.
PATIENCE = 5.0
#: A line that no command reads: its reply tells that the source was accepted.
NO_COMMAND = b'?\n'
NOT_READ = 'refused C1: unreadable line'
#: The commands that change a session.
CHANGES = frozenset(('mod', 'new', 'set', 'run', 'propagate'))
#: What those are answered where they are not refused.
CHANGED = frozenset(('ok', 'more', 'done', 'out of fuel'))
REFUSAL = re.compile(r'refused (C\d): (.*)')
REFUSED_LINE = re.compile(rb'refused C\d: [^\n]*\n')
FAULT = re.compile(r'fault ([A-Z]\d) at (\d+):(\d+): (.*)')
NUMBER = re.compile(r'-?\d+', re.ASCII)
PLACE = re.compile(r'(?!null$)[A-Za-z_]\w*(\.[A-Za-z_]\w*(\[\d{1,3}\])?)?', re.ASCII)
MARK = re.compile(rb'(?m)^%%\r?$\n?')


class CealError(Exception):
    """What everything that this module raises is, but for what is wrong in a call (`TypeError`, `ValueError`)."""


class SourceFault(CealError):
    """The source text is not accepted: its first fault, with its `code`, and its place by `line` and `column`."""

    def __init__(self, code: str, line: int, column: int, text: str) -> None:
        super().__init__(f'{code} at {line}:{column}: {text}')
        self.code, self.line, self.column, self.text = code, line, column, text


class Refused(CealError):
    """A line was refused, and changed nothing: the `code` (C1 to C8 of docs/SCRIPT.md), its `text`, and the `line`.

    `replies` has the replies to all lines of the call, as `Ceal.answers` returns them.
    """

    def __init__(self, code: str, text: str, line: str, replies: Iterable[str] = ()) -> None:
        super().__init__(f'{code}: {text}: {line}')
        self.code, self.text, self.line, self.replies = code, text, line, list(replies)


class OutOfFuel(CealError):
    """A run or an update takes more steps than the fuel allows. Edits and `propagate` may bring the session back.

    `replies` has the replies to all lines of the call, as `Ceal.answers` returns them.
    """

    def __init__(self, line: str, replies: Iterable[str] = ()) -> None:
        super().__init__(line)
        self.line, self.replies = line, list(replies)


class Closed(CealError):
    """The session has ended: the `status` of its program, if it is known, and what it wrote to standard error or what
    else ended it.
    """

    def __init__(self, status: Optional[int], told: str) -> None:
        ended = 'the session is closed' if status is None else f'ceal_serve ended with status {status}'
        super().__init__(ended + (f': {told}' if told else ''))
        self.status, self.told = status, told


class NoProgram(CealError, FileNotFoundError):
    """There is no program `ceal_serve` where it was looked for."""


class Unproved(UserWarning):
    """The program that answers is a draft, which was compiled with no proof."""


class NoJournal(CealError):
    """A journal can't be begun, or the session of one can't be brought back."""


@dataclass(frozen=True)
class Input:
    """An input that was made by `mod` or `new`. Written into a line it is its name; `at` names a place in it."""

    name: str

    def at(self, name: str, index: Optional[int] = None) -> str:
        """The place of a field, or of an element of a row of modifiables."""
        return f'{self.name}.{name}' + ('' if index is None else f'[{index}]')

    def __str__(self) -> str:
        return self.name


@dataclass(eq=False)
class Node:
    """A block of a graph: an input, or one that the program made. `node['head']` is what a field holds.

    A number is an `int`, null is `None`, a pointer to a block is its `Node`, and one to a modifiable is a `Pointer`.
    """

    label: str
    kind: str
    fields: dict[str, FieldValue] = field(default_factory=dict)

    def __getitem__(self, name: str) -> FieldValue:
        return self.fields[name]

    def __str__(self) -> str:
        return self.label

    def __repr__(self) -> str:
        return f'<{self.kind} {self.label}>'

    def walk(self, name: str) -> Iterator[Node]:
        """This block and those that the field leads to, one after another, as along the cells of a list."""
        node: FieldValue = self
        while isinstance(node, Node):
            yield node
            node = node[name]


@dataclass(frozen=True)
class Pointer:
    """A pointer to a modifiable: the block that it lies in, and its field."""

    node: Node
    field: str


class _Default(enum.Enum):
    """The value of an input for which none was given."""

    ZERO_OR_NULL = 0


FieldValue = Union[int, None, Node, Pointer]
#: What can be written as a value: a number (also one of numpy), null, or a name.
Value = Union[SupportsIndex, None, str, Input, Node]
#: What can be written as a place.
Place = Union[str, Input]
Path = Union[str, 'os.PathLike[str]']


# -- an exchange


class Exchange:
    """Lines that are sent together, and what has come of them so far.

    An exception may come between any two steps of Python: a signal's handler raises it, or Ctrl-C does. So all that has
    been sent, heard and kept is in three queues, and the call of C that writes or reads puts its result into the queue
    too, as in `sent.extend(map(os.write, ..))`. It has either done both or nothing, since handlers run before or after
    a call of C. What is left to do is computed from the queues, so that whoever was interrupted can begin again, and
    goes on where it was.
    """

    def __init__(self, lines: bytes, is_long: bool = False) -> None:
        self.lines, self.is_long = lines, is_long
        self.sent: deque[int] = deque()  # (how many bytes, by writes)
        self.heard: deque[bytes] = deque()  # (by reads; an empty one is the end)
        self.kept: deque[int] = deque()  # (how many bytes of the journal, by writes)

    def part(self) -> bytes:
        """What has to be sent next; empty when all is sent."""
        done = sum(self.sent)
        return self.lines[done : done + PART]

    def cut(self) -> None:
        """Leaves out the lines of which nothing has been sent."""
        done = sum(self.sent)
        self.lines = self.lines[: self.lines.index(b'\n', done - 1) + 1] if done else b''

    def is_answered(self) -> bool:
        """Whether the replies have come whole: one line to each line; to `show` the lines up to `end`, or a refusal."""
        if not self.is_long or not self.lines:
            return sum(it.count(b'\n') for it in self.heard) >= self.lines.count(b'\n')
        if sum(map(len, self.heard)) < SHORT and REFUSED_LINE.fullmatch(b''.join(self.heard)):
            return True
        return b''.join(list(self.heard)[-5:]).endswith(b'\nend\n')  # (a piece has a byte or more)

    def is_in_step(self) -> bool:
        """Whether nothing has come after the replies."""
        text = b''.join(self.heard)
        if self.is_long:
            return text.count(b'\nend\n') <= 1
        return text.count(b'\n') == self.lines.count(b'\n') and text[-1:] in (b'', b'\n')

    def replies(self) -> list[str]:
        """The lines of the replies."""
        return b''.join(self.heard).decode(errors='backslashreplace').split('\n')[:-1]

    def texts(self) -> list[str]:
        """The lines that were sent."""
        return self.lines.decode().split('\n')[:-1]

    def changes(self) -> bytes:
        """The lines that changed the session, as its journal keeps them."""
        if self.is_long:
            return b''
        answered = zip(self.lines.split(b'\n'), self.replies())
        return b''.join(line + b'\n' for line, reply in answered if _command(line) in CHANGES and reply in CHANGED)


class _Opening(Exchange):
    """A source text, and a line that no command reads: one reply tells whether the text was accepted."""

    def __init__(self, source: bytes) -> None:
        super().__init__(source + b'%%\n' + NO_COMMAND)

    def is_answered(self) -> bool:
        return any(b'\n' in it for it in self.heard)


class Ended(Exception):
    """An engine has ended: there will be no more replies."""


class Engine(Protocol):
    """What answers the lines of a session whose source text was accepted. Its replies are those of docs/SCRIPT.md."""

    def talk(self, exchange: Exchange) -> None:
        """Sends what has not been sent of the lines, and takes what has not come of their replies.

        If anything interrupts it, `talk` with the same exchange goes on where it was. Raises `Ended` if there will be
        no more replies.
        """

    def end(self, at_once: bool = False) -> tuple[Optional[int], str]:
        """Ends it, or finds that it has ended: the status, and what was told about it. Calling it again does nothing
        more.

        `at_once` is for one that may still be busy, and whose replies nobody waits for.
        """

    def kill(self) -> None:
        """Makes it end soon, while another thread may be in `talk`, which then raises `Ended`."""


class Server:
    """The program `ceal_serve` as a process, which ends with this object. Raises `SourceFault` if the source text is
    not accepted.
    """

    def __init__(self, program: str, source: bytes, fuel: Optional[int] = None) -> None:
        words = [program] + ([] if fuel is None else ['--fuel', str(fuel)])
        self._owner, self._errors = os.getpid(), tempfile.TemporaryFile()
        self._ended: Optional[tuple[Optional[int], str]] = None
        # The pipes are files of this object, and not of the process: when they go, the program's input ends.
        its_input, self._into = _pipe()
        self._out_of, its_output = _pipe()
        with its_input, its_output:
            try:
                # It leads a session of its own, so that Ctrl-C in a terminal reaches the tool only.
                self._process = subprocess.Popen(
                    words, stdin=its_input, stdout=its_output, stderr=self._errors, start_new_session=True
                )
            except OSError as error:
                raise NoProgram(f"{program} can't be started: {error.strerror}") from error
        try:
            self._open(source)
        except BaseException:
            self.end(at_once=True)
            raise

    def _open(self, source: bytes) -> None:
        opening = _Opening(source)
        try:
            self.talk(opening)
        except Ended:
            if not opening.is_answered():  # (a fault may be told before all is sent)
                raise Closed(*self.end()) from None
        reply = opening.replies()[0]
        if fault := FAULT.fullmatch(reply):
            raise SourceFault(fault[1], int(fault[2]), int(fault[3]), fault[4])
        if reply != NOT_READ:
            raise CealError(f'{self._process.args!r} is no ceal_serve: it said {reply[:100]!r}')

    def talk(self, exchange: Exchange) -> None:
        try:
            self._send(exchange)
            while not exchange.is_answered():
                self._hear(exchange)
        except MemoryError:
            self.end(at_once=True)  # (what has come may be lost)
            raise

    def _send(self, exchange: Exchange) -> None:
        """Sends the lines, and takes the replies that come meanwhile: nobody reads on whose own words nobody reads."""
        while part := exchange.part():
            if exchange.sent and self._says_something():
                self._hear(exchange)
                continue
            try:
                exchange.sent.extend(map(os.write, (self._into.fileno(),), (part,)))
            except BrokenPipeError:
                if self._hears_nothing():
                    return  # (what it said before tells more)
                raise

    def _says_something(self) -> bool:
        """Waits until something was said or there is room for a part, and returns whether something was said."""
        poll = select.poll()
        poll.register(self._out_of, select.POLLIN)
        poll.register(self._into, select.POLLOUT)
        return any(it == self._out_of.fileno() for it, _ in poll.poll())

    def _hears_nothing(self) -> bool:
        """Whether nobody reads what is sent."""
        poll = select.poll()
        poll.register(self._into, 0)
        return bool(poll.poll(0))

    def _hear(self, exchange: Exchange) -> None:
        if exchange.heard and not exchange.heard[-1]:
            raise Ended
        exchange.heard.extend(map(os.read, (self._out_of.fileno(),), (PIECE,)))

    def kill(self) -> None:
        if os.getpid() == self._owner:
            self._process.kill()

    def end(self, at_once: bool = False) -> tuple[Optional[int], str]:
        if self._ended:
            return self._ended
        is_own = os.getpid() == self._owner  # (a process that was forked leaves the server to its parent)
        if at_once and is_own:
            self._process.kill()
        self._into.close()
        if not is_own:
            self._ended = None, f'it belongs to process {self._owner}'
            return self._ended
        try:
            status = self._process.wait(PATIENCE)
        except subprocess.TimeoutExpired:
            self._process.kill()
            status = self._process.wait()
        self._out_of.close()
        self._errors.seek(0)
        self._ended = status, self._errors.read().decode(errors='replace').strip()
        self._errors.close()
        return self._ended


def _pipe() -> tuple[io.FileIO, io.FileIO]:
    """Where a pipe is read, and where it is written."""
    reader, writer = os.pipe()
    return io.FileIO(reader, 'rb'), io.FileIO(writer, 'wb')


class Library:
    """A session in this very process, over the shared library of client/ceal.h. Raises `SourceFault` if the source text
    is not accepted.

    A line is one call of C, which nothing interrupts: what a signal's handler raises comes after it. The session stays
    on the thread that has opened it.
    """

    def __init__(self, source: bytes, fuel: Optional[int] = None) -> None:
        import ceal_ctypes  # (beside this module; nobody else needs it)

        self._thread, self._is_killed, self._ended = threading.get_ident(), False, False
        try:
            self._session = ceal_ctypes.Session(source + b'%%\n', fuel=DEFAULT_FUEL if fuel is None else fuel)
        except ceal_ctypes.NoLibrary as error:
            raise NoProgram(str(error)) from None
        except ceal_ctypes.SourceFault as error:
            fault = FAULT.fullmatch(str(error))
            assert fault
            raise SourceFault(fault[1], int(fault[2]), int(fault[3]), fault[4]) from None
        except ceal_ctypes.Refused as error:
            raise CealError(str(error)) from None

    def talk(self, exchange: Exchange) -> None:
        if threading.get_ident() != self._thread:
            raise CealError('a session of the library stays on the thread that has opened it')
        lines = exchange.lines.split(b'\n')[:-1]
        while len(exchange.heard) < len(lines):
            # the last line has a reply, which is kept until the next line
            if len(exchange.heard) < len(exchange.sent):
                exchange.heard.append(self._session.reply())
                continue
            if self._is_killed or self._ended:
                raise Ended
            exchange.sent.extend(self._session.carried_out(lines[len(exchange.sent)], len(b'\n')))
            if not exchange.sent[-1]:
                raise MemoryError

    def kill(self) -> None:
        self._is_killed = True

    def end(self, at_once: bool = False) -> tuple[Optional[int], str]:
        if not self._ended:
            self._ended = True
            self._session.close()
        return 0, ''


def _find(program: Optional[Path]) -> str:
    """The program to start: the one that was given, or that of `$CEAL_SERVE`; else the proved one of this repository,
    the one on the path, or the draft of this repository.
    """
    for told, it in (('program=', program), ('CEAL_SERVE', os.environ.get('CEAL_SERVE') or None)):
        if it is not None:
            if not _is_program(it):
                raise NoProgram(f'{told} names {os.fspath(it)!r}, which is no program')
            return os.path.abspath(it)
    top = pathlib.Path(__file__).resolve().parent.parent
    for path in (top / 'crates/ceal_serve/out/ceal_serve', shutil.which('ceal_serve')):
        if path and _is_program(path):
            return str(path)
    draft = top / 'draft/ceal_serve'
    if not _is_program(draft):
        raise NoProgram('there is no program ceal_serve: build it, or name it by program= or CEAL_SERVE')
    warnings.warn(f'no proof was made of {draft}, which answers: `./run --build` proves and builds it', Unproved, 4)
    return str(draft)


def _engine(source: bytes, fuel: Optional[int], program: Optional[Path], server: bool) -> Engine:
    """What is to answer: a program, or the library."""
    if server:
        return Server(_find(program), source, fuel)
    if program is not None:
        raise TypeError('program= is for a server')
    return Library(source, fuel)


def _is_program(path: Path) -> bool:
    return os.path.isfile(path) and os.access(path, os.X_OK)


# -- a journal


class Journal:
    """A file with the lines that have changed a session, after its source text: a program with its script, as `./run`
    takes it.

    Its last line may be torn, if the process or the machine ended while it was written. Then the call of this line has
    not returned.
    """

    HEAD = re.compile(rb'// a journal of client/ceal.py; fuel: (\d+|default)\n')

    def __init__(self, path: Path, flags: int, is_synced: bool) -> None:
        """Opens the file, which belongs to one session at a time."""
        self.path, self._is_synced = os.fspath(path), is_synced
        self._file = open(os.open(path, flags | os.O_RDWR | os.O_APPEND | os.O_CLOEXEC, 0o666), 'ab', buffering=0)
        try:
            fcntl.flock(self._file, fcntl.LOCK_EX | fcntl.LOCK_NB)
        except OSError as error:
            self.close()
            raise NoJournal(f'{self.path} is the journal of a session that goes on') from error

    @classmethod
    def begun(cls, path: Path, source: bytes, fuel: Optional[int], is_synced: bool) -> Journal:
        """A new one, which is there with its head, or not at all."""
        made = cls(f'{os.fspath(path)}.{os.getpid()}', os.O_CREAT | os.O_TRUNC, is_synced)
        try:
            head = f'%%\n// a journal of client/ceal.py; fuel: {"default" if fuel is None else fuel}\n'
            made._append(source + head.encode(), deque())
            os.link(made.path, path)
        except FileExistsError as error:
            made.close()
            raise NoJournal(f'{os.fspath(path)} is there already: Ceal.again goes on with a journal') from error
        finally:
            os.unlink(made.path)
        made.path = os.fspath(path)
        if is_synced:
            made._sync_folder()
        return made

    @classmethod
    def found(cls, path: Path, is_synced: bool) -> tuple[Journal, bytes, Optional[int], list[bytes]]:
        """One that is there, with its source text, its fuel and its lines. A torn last line is taken out of it."""
        try:
            made = cls(path, 0, is_synced)
        except FileNotFoundError as error:
            raise NoJournal(f'there is no journal {os.fspath(path)}') from error
        try:
            with open(made._file.fileno(), 'rb', closefd=False) as file:
                file.seek(0)
                data = file.read()
            whole = data[: data.rfind(b'\n') + 1]
            mark = MARK.search(whole)
            head = cls.HEAD.match(whole, mark.end()) if mark else None
            if not mark or not head:
                raise NoJournal(f'{made.path} is no journal')
            if len(whole) < len(data):
                made._file.truncate(len(whole))
        except BaseException:
            made.close()
            raise
        fuel = None if head[1] == b'default' else int(head[1])
        return made, whole[: mark.start()], fuel, whole[head.end() :].split(b'\n')[:-1]

    def keep(self, exchange: Exchange) -> None:
        """Writes down what an exchange has changed. Whatever interrupts it, calling it again goes on where it was."""
        changes = exchange.changes()
        if changes:
            self._append(changes, exchange.kept)

    def _append(self, data: bytes, kept: deque[int]) -> None:
        while part := data[sum(kept) :]:
            kept.extend(map(os.write, (self._file.fileno(),), (part,)))
        if self._is_synced:
            os.fsync(self._file.fileno())

    def _sync_folder(self) -> None:
        folder = os.open(os.path.dirname(os.path.abspath(self.path)), os.O_RDONLY | os.O_CLOEXEC)
        try:
            os.fsync(folder)
        finally:
            os.close(folder)

    def close(self) -> None:
        """Lets another session have the file. Calling it again does nothing."""
        self._file.close()


# -- a session


class Ceal:
    """A session with a CEAL program. Use it in a `with`, or call `close`; it also ends with this object, and with
    Python.

    `source` is the path of a source file. What it may have after a line `%%` is left out: the lines of the session are
    those of the calls. `fuel` is the most steps that a run or an update may take (1,000,000 unless given, 4,194,304 at
    most). With `server=False` the session is in this process, over the shared library of client/ceal.h in place of a
    server. With `journal` each change is appended to that new file before its call returns; with `sync` it is also on
    the disk then. Raises `SourceFault` if the source is not accepted.
    """

    def __init__(
        self,
        source: Path,
        *,
        fuel: Optional[int] = None,
        program: Optional[Path] = None,
        server: bool = True,
        journal: Optional[Path] = None,
        sync: bool = False,
    ) -> None:
        text = MARK.split(pathlib.Path(source).read_bytes(), maxsplit=1)[0]
        text = text if text.endswith(b'\n') or not text else text + b'\n'
        self._begin(_engine(text, _fuel(fuel), program, server))
        if journal is not None:
            try:
                self._take(Journal.begun(journal, text, fuel, sync))
            except BaseException:
                self.close()
                raise

    @classmethod
    def again(cls, journal: Path, *, program: Optional[Path] = None, server: bool = True, sync: bool = False) -> Ceal:
        """Brings a session back from its journal, by making all its changes again, and goes on with both.

        Raises `NoJournal` if the file is none, or if another session has it.
        """
        file, text, fuel, lines = Journal.found(journal, sync)
        try:
            session = cls.__new__(cls)
            session._begin(_engine(text, fuel, program, server))
            session._make_again(lines, file.path)
            session._take(file)
        except BaseException:
            file.close()
            raise
        return session

    def _begin(self, engine: Engine) -> None:
        self._engine, self._owner = engine, os.getpid()
        self.lock = threading.RLock()  # (each call takes it; in a `with c.lock` several calls are one to other threads)
        self._within: Optional[object] = None  # (the mark of the call that talks, which is its local variable `turn`)
        self._exchange: Optional[Exchange] = None  # (the last one, if it was not told to the end)
        self._journal: Optional[Journal] = None
        self._closed: Optional[tuple[Optional[int], str]] = None
        weakref.finalize(self, engine.end, True)

    def _take(self, journal: Journal) -> None:
        self._journal = journal
        weakref.finalize(self, journal.close)

    def _make_again(self, lines: Sequence[bytes], path: str) -> None:
        """Makes changes again, each of which was accepted once."""
        try:
            for at in range(0, len(lines), TOGETHER):
                group = lines[at : at + TOGETHER]
                if not all(_command(it) in CHANGES for it in group):
                    raise NoJournal(
                        f'{path} is damaged: lines {at + 1} to {at + len(group)} have one that is no change'
                    )
                for number, reply in enumerate(self._talk(b''.join(it + b'\n' for it in group))):
                    if reply not in CHANGED:
                        raise NoJournal(f'{path} is damaged: {group[number]!r}, line {at + number + 1}, is {reply}')
        except BaseException:
            self.close()
            raise

    # -- the session's lines

    def line(self, text: str) -> str:
        """The reply to any line of a script that has a reply of one line. Raises `Refused` and `OutOfFuel`."""
        _line(text)
        return self._ask(text)

    def _ask(self, text: str) -> str:
        """The reply to a line that was made here, and so has one."""
        return _unrefused([text], self._talk(_encoded(text)))[0]

    def answers(self, texts: Iterable[str]) -> list[str]:
        """The replies to many lines, each of which has a reply of one line. Refusals are among them, and not raised."""
        if isinstance(texts, str):
            raise TypeError(f'{texts!r} is one line, and not many')
        lines = [_line(it) for it in texts]  # (before the first is sent)
        replies: list[str] = []
        with self.lock:
            for at in range(0, len(lines), TOGETHER):
                replies += self._talk(b''.join(lines[at : at + TOGETHER]))
        return replies

    def lines(self, texts: Iterable[str]) -> list[str]:
        """The replies to many lines, each of which has a reply of one line. The first refusal is raised when all are
        answered.
        """
        sent = texts if isinstance(texts, str) else list(texts)
        return _unrefused(sent, self.answers(sent))

    def mod(self, name: str, kind: str, value: Union[Value, _Default] = _Default.ZERO_OR_NULL) -> Input:
        """Makes an input: one modifiable that holds an `int` (`kind` is then 'int') or a pointer to a struct of this
        name.

        It holds 0 or null unless a value is given.
        """
        if isinstance(value, _Default):
            value = 0 if kind == 'int' else None
        self._ask(f'mod {_bare(name)} {_bare(kind)} {_word(value)}')
        return Input(name)

    def new(self, name: str, struct: str, *values: Value) -> Input:
        """Makes an input: a block of the struct, with a value for each field in their order; a row takes as many as it
        is long.
        """
        self._ask(' '.join(['new', _bare(name), _bare(struct), *map(_word, values)]))
        return Input(name)

    def set(self, place: Place, value: Value) -> None:
        """Edits the base of a modifiable. The results follow when `propagate` is called; until then nothing can be
        asked.
        """
        self._ask(_edit(place, value))

    def edit(self, edits: Union[Mapping[str, Value], Iterable[tuple[Place, Value]]]) -> None:
        """Makes many edits at once, which is quicker than one by one. The first refusal is raised when all have been
        made.
        """
        pairs = edits.items() if isinstance(edits, Mapping) else edits
        self.lines([_edit(place, value) for place, value in pairs])

    def run(self, function: str, *values: Value) -> None:
        """Runs a core function on these arguments; once in a session."""
        self._ask(' '.join(['run', _bare(function), *map(_word, values)]))

    def propagate(self, reads: Optional[int] = None) -> bool:
        """Updates the results to the edits. Returns whether they are up to date.

        With `reads` it is a part of the update: at most that many stale reads are re-executed, and False says that some
        are left.
        """
        reply = self._ask('propagate' if reads is None else f'propagate {int(operator.index(reads))}')
        return reply != 'more'

    def slices(self, reads: int) -> Iterator[int]:
        """Updates in parts of `reads` stale reads each; yields how many parts were made, after each that leaves some to
        do.
        """
        made = 0
        while not self.propagate(reads):
            made += 1
            yield made

    # -- questions

    def __getitem__(self, place: Place) -> FieldValue:
        """What a modifiable holds: a number, None, or the block that it points to."""
        place = _bare(place)
        with self.lock:
            reply = self._ask(f'get {place}')
            if reply == 'null':
                return None
            if NUMBER.fullmatch(reply):
                return int(reply)
            name, _, part = place.partition('.')
            return self.graph(name)[part or 'value']

    def __setitem__(self, place: Place, value: Value) -> None:
        self.set(place, value)

    def numbers(self, places: Iterable[Place]) -> list[Optional[int]]:
        """What many modifiables that hold numbers hold, asked at once; None where one holds a pointer."""
        if isinstance(places, str):
            raise TypeError(f'{places!r} is one place, and not many')
        replies = self.lines([f'get {_bare(it)}' for it in places])
        return [int(it) if NUMBER.fullmatch(it) else None for it in replies]

    def graph(self, name: Union[Place, Node]) -> Node:
        """The input as a graph: everything that can be reached from it, as nodes that lead to one another."""
        line = f'show {_bare(name)}'
        replies = self._talk(_encoded(line), is_long=True)
        _unrefused([line], replies[:1])
        return _linked([it.split(' ') for it in replies[:-1]])

    @property
    def steps(self) -> int:
        """How many steps a run from scratch on the present inputs takes."""
        return int(self._ask('steps'))

    @property
    def work(self) -> int:
        """How many steps the last run or update took."""
        return int(self._ask('work'))

    @property
    def blocks(self) -> int:
        """How many blocks the run makes."""
        return int(self._ask('blocks'))

    @property
    def bound(self) -> int:
        """A bound of the work of the last update, as docs/BOUND.md explains."""
        return int(self._ask('bound'))

    # -- interrupts and threads

    def catch_up(self) -> list[tuple[str, str]]:
        """Waits for a call that an exception interrupted, as each call does first. Returns those of its last lines that
        were sent, each with its reply. Lines that are not among them were not sent, and change nothing.
        """
        return self._exclusively(None)[0]

    def _talk(self, lines: bytes, is_long: bool = False) -> list[str]:
        """Sends lines, and returns the lines of their replies."""
        return self._exclusively(Exchange(lines, is_long))[1]

    def _exclusively(self, exchange: Optional[Exchange]) -> tuple[list[tuple[str, str]], list[str]]:
        """Finishes what was interrupted, and then carries out an exchange; no other call comes between."""
        if os.getpid() != self._owner:
            raise Closed(None, f'it is that of process {self._owner}, from which this one was forked')
        with self.lock:
            if self._is_within():
                raise CealError('a call within another call of this session, as from the handler of a signal')
            try:
                turn = object()
                self._within = turn
                found: list[tuple[str, str]] = []
                if self._exchange:
                    self._exchange.cut()
                    found = _paired(self._exchange, self._finish(self._exchange))
                self._exchange = exchange
                replies = self._finish(exchange) if exchange else []
                self._exchange = None
                return found, replies
            finally:
                self._within = None

    def _is_within(self) -> bool:
        """Whether this call was made, as by the handler of a signal, while another one of the same thread talks.

        The mark of a call that is over may be left, where an exception came at its very end.
        """
        frame: Optional[FrameType] = sys._getframe() if self._within else None
        while frame and frame.f_locals.get('turn') is not self._within:
            frame = frame.f_back
        return frame is not None

    def _finish(self, exchange: Exchange) -> list[str]:
        """Takes an exchange to its end: all lines sent, all replies come, all changes kept."""
        if self._closed:
            raise Closed(*self._closed)
        try:
            self._engine.talk(exchange)
        except Ended:
            raise self._end() from None
        except MemoryError:
            self._end(at_once=True)  # (what has come may be lost)
            raise
        if not exchange.is_in_step():
            self._end(at_once=True)
            raise Closed(None, 'it said more than the replies')
        if self._journal:
            self._journal.keep(exchange)
        return exchange.replies()

    # -- its end

    def close(self) -> None:
        """Ends the program. A call under way in another thread raises `Closed`. Calling it again does nothing."""
        self._closed = self._closed or (None, '')  # (no call begins to talk from here on)
        if self._within:
            self._engine.kill()
            if self._is_within():
                return  # (by a signal's handler: the call that it has interrupted does the rest)
        with self.lock:
            self._end(at_once=self._exchange is not None)

    def _end(self, at_once: bool = False) -> Closed:
        """Ends everything, and returns what says so."""
        self._closed = self._closed or (None, '')
        if self._journal:
            self._journal.close()
        self._closed = self._engine.end(at_once)
        return Closed(*self._closed)

    def __enter__(self) -> Ceal:
        return self

    def __exit__(self, *_: object) -> None:
        self.close()


# -- texts


def _fuel(fuel: Optional[int]) -> Optional[int]:
    if fuel is None:
        return None
    if not 1 <= operator.index(fuel) <= MOST_FUEL:
        raise ValueError(f'fuel is a number from 1 to {MOST_FUEL}, and not {fuel}')
    return int(operator.index(fuel))


def _word(value: Value) -> str:
    """A value as a word of a line."""
    if value is None:
        return 'null'
    if isinstance(value, (str, Input, Node)):
        word = str(value)
        if not PLACE.fullmatch(word):
            raise ValueError(f'{word!r} is no name of an input, and of no place in one')
        return word
    try:
        number = int(operator.index(value))
    except TypeError:
        raise TypeError(f'a value is a number, None or the name of an input, and not {value!r}') from None
    if not LEAST <= number <= LARGEST:
        raise ValueError(f'{number} has more than 64 bits')
    return str(number)


def _bare(name: Union[Place, Node]) -> str:
    """A name as a word of a line."""
    if not isinstance(name, (str, Input, Node)):
        raise TypeError(f'a name is a text, and not {name!r}')
    word = str(name)
    if not word or re.search(r'[ \t\r\n]', word):
        raise ValueError(f'{word!r} is no name')
    return word


def _edit(place: Place, value: Value) -> str:
    return f'set {_bare(place)} {_word(value)}'


def _command(line: bytes) -> str:
    """The first word of a line; empty if there is none."""
    words = line.rstrip(b'\r').replace(b'\t', b' ').split(b' ')
    return next((it.decode(errors='replace') for it in words if it), '')


def _encoded(text: str) -> bytes:
    line = text.encode() + b'\n'
    if len(line) > LONGEST_LINE:
        raise ValueError(f'a line of {len(line)} bytes, and {LONGEST_LINE} are the most')
    return line


def _line(text: str) -> bytes:
    """A line with its line feed. One that has no reply, or more than one line, would leave both sides waiting."""
    if not isinstance(text, str):
        raise TypeError(f'a line is a text, and not {text!r}')
    if '\n' in text:
        raise ValueError(f'{text!r} is more than one line')
    line = _encoded(text)
    command = _command(line[:-1])
    if not command or command.startswith('//'):
        raise ValueError(f'{text!r} is a blank line or a comment, which has no reply')
    if command == 'show':
        raise ValueError(f'{text!r} has not one reply: a graph is asked for by `graph`')
    return line


def _unrefused(lines: Sequence[str], replies: list[str]) -> list[str]:
    """The replies to these lines, unless one of them is raised."""
    for line, reply in zip(lines, replies):
        if refusal := REFUSAL.fullmatch(reply):
            raise Refused(refusal[1], refusal[2], line, replies)
        if reply == 'out of fuel':
            raise OutOfFuel(line, replies)
    return replies


def _paired(exchange: Exchange, replies: list[str]) -> list[tuple[str, str]]:
    """Lines that were sent, each with its reply."""
    lines = exchange.texts()
    return list(zip(lines, ['\n'.join(replies)] if exchange.is_long else replies))


def _linked(rows: list[list[str]]) -> Node:
    """The nodes of the lines of a graph, the first one with its fields set to those that they name."""
    nodes: dict[str, Node] = {}
    for label, *words in rows:
        kind = ' '.join(it for it in words if '=' not in it)
        nodes[label] = Node(label, kind)
    for label, *words in rows:
        for word in (it for it in words if '=' in it):
            name, _, value = word.partition('=')
            nodes[label].fields[name] = _field_value(value, nodes)
    return nodes[rows[0][0]]


def _field_value(word: str, nodes: dict[str, Node]) -> FieldValue:
    if word == 'null':
        return None
    if NUMBER.fullmatch(word):
        return int(word)
    label, _, name = word.partition('.')
    return Pointer(nodes[label], name) if name else nodes[label]
