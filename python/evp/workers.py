"""Work that is shared among processes of this machine.

Each process has a connection of its own to the one that started it, and one part of the work at a time. They share no
thread, no lock and no queue, so that an exception may come at any moment, KeyboardInterrupt among them: nothing has to
be given back, and leaving the block kills the processes, whatever they are doing. With a pool of the standard library
Ctrl-C can come while this process holds a lock that the pool's own thread needs to end; then neither of them ends.
"""

import contextlib
import ctypes
import signal
import traceback
from collections.abc import Callable, Iterable, Iterator
from dataclasses import dataclass
from multiprocessing import get_context
from multiprocessing.connection import Connection, wait
from multiprocessing.process import BaseProcess
from types import TracebackType
from typing import Any, Generic, TypeVar

from evp.files import InputError

PARENT_ENDS = 1  # PR_SET_PDEATHSIG of <sys/prctl.h>

Part = TypeVar("Part")
Made = TypeVar("Made")


class Workers(Generic[Part, Made]):
    """At most so many processes, started as parts come and killed at the end of a `with` block. Each calls `start`
    once, and calls what that returns with every part that it gets. `ended` is the message where a process was ended by
    somebody else. The answers to some parts are taken to their end before others are given."""

    def __init__(self, start: Callable[[], Callable[[Part], Made]], jobs: int, ended: str) -> None:
        self._start, self._jobs, self._ended = start, jobs, ended
        self._processes: list[BaseProcess] = []
        self._connections: list[Connection] = []

    def __enter__(self) -> "Workers[Part, Made]":
        return self

    def __exit__(self, kind: type[BaseException] | None, error: BaseException | None,
                 where: TracebackType | None) -> None:
        with _held_back(signal.SIGINT):  # a second Ctrl-C comes when all of them are killed
            for process in self._processes:
                process.kill()
        for process in self._processes:
            process.join()
        for connection in self._connections:
            connection.close()

    def as_finished(self, parts: Iterable[Part]) -> Iterator[tuple[Part, Made]]:
        """Each part with what was made of it, as they are finished. One part is read before a process is free for
        it."""
        for _, part, answer in self._answers(parts):
            yield part, _made(answer)

    def in_order(self, parts: Iterable[Part]) -> Iterator[Made]:
        """What was made of each part, in the order of the parts; what is made before its turn is kept until then."""
        early: dict[int, Any] = {}
        turn = 0
        for number, _, answer in self._answers(parts):
            early[number] = answer
            while turn in early:
                yield _made(early.pop(turn))
                turn += 1

    def _answers(self, parts: Iterable[Part]) -> Iterator[tuple[int, Part, Any]]:
        """The number of each part, the part, and what was made of it or the exception that came of it."""
        free, busy = list(self._connections), dict[Connection, tuple[int, Part]]()
        for number, part in enumerate(parts):
            if not free and len(self._processes) < self._jobs:
                free.append(self._add())
            answered = [] if free else self._finished(busy, free)
            connection = free.pop()
            busy[connection] = number, part
            self._send(connection, part)
            yield from answered  # only now, so that no process waits for what the caller does with them
        while busy:
            yield from self._finished(busy, free)

    def _finished(self, busy: dict[Connection, tuple[int, Part]],
                  free: list[Connection]) -> list[tuple[int, Part, Any]]:
        """The answers that are there, one at least; the processes that gave them are free."""
        found = []
        for connection in wait(list(busy)):
            assert isinstance(connection, Connection)
            found.append((*busy.pop(connection), self._receive(connection)))
            free.append(connection)
        return found

    def _add(self) -> Connection:
        """Starts a process. SIGINT is held back meanwhile, so that the process ignores it before it can get one."""
        context = get_context("fork")
        here, there = context.Pipe()
        with there, _held_back(signal.SIGINT):
            ours = [*self._connections, here]
            process = context.Process(target=_serve, args=(there, ours, self._start), daemon=True)
            process.start()
            self._processes.append(process)
            self._connections.append(here)
        return here

    def _send(self, connection: Connection, part: Part) -> None:
        try:
            with _without_sigpipe():
                connection.send(part)
        except OSError:
            raise InputError(self._ended) from None

    def _receive(self, connection: Connection) -> Any:
        try:
            return connection.recv()
        except (EOFError, OSError):
            raise InputError(self._ended) from None


# ------------------------------------------------------------------ in a process


@dataclass(frozen=True)
class _Fault:
    """The exception that came of a part, and its traceback in the process."""
    error: Exception
    where: str


class _InProcess(Exception):
    """The traceback of a process, for the one that started it."""


def _serve(there: Connection, ours: list[Connection], start: Callable[[], Callable[[Any], Any]]) -> None:
    """Answers parts until nobody has the other end of the connection; `ours` are the ends of the first process."""
    _begin_process()
    for connection in ours:
        connection.close()
    work = None
    with contextlib.suppress(EOFError, OSError):
        while True:
            part = there.recv()
            try:
                work = work or start()
                answer = work(part)
            except Exception as error:
                answer = _Fault(error, traceback.format_exc())
            there.send(answer)


def _made(answer: Any) -> Any:
    """What was made of a part; where an exception came of it, this is raised here."""
    if isinstance(answer, _Fault):
        raise answer.error from _InProcess(answer.where)
    return answer


# ------------------------------------------------------------------ signals


def _begin_process() -> None:
    """In each process: Ctrl-C is for the first process, and a process does not outlive that one."""
    signal.signal(signal.SIGINT, signal.SIG_IGN)
    signal.signal(signal.SIGTERM, signal.SIG_DFL)
    signal.pthread_sigmask(signal.SIG_UNBLOCK, {signal.SIGINT})
    with contextlib.suppress(AttributeError, OSError):
        ctypes.CDLL(None).prctl(PARENT_ENDS, signal.SIGKILL)


@contextlib.contextmanager
def _held_back(number: signal.Signals) -> Iterator[None]:
    """A signal to this thread comes when the block ends."""
    before = signal.pthread_sigmask(signal.SIG_BLOCK, {number})
    try:
        yield
    finally:
        signal.pthread_sigmask(signal.SIG_SETMASK, before)


@contextlib.contextmanager
def _without_sigpipe() -> Iterator[None]:
    """Writing to a process that has ended is an OSError, also in a command, which SIGPIPE would end without a word."""
    with _held_back(signal.SIGPIPE):
        try:
            yield
        finally:
            if signal.SIGPIPE in signal.sigpending():
                signal.sigwait({signal.SIGPIPE})
