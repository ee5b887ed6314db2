"""Why the server ended: the signals that end it, and the last line of its log.

SIGKILL and a loss of power leave no line. The supervisor reports the first (docs/SERVER.md).
"""

import contextlib
import os
import signal
import sys
from collections.abc import Iterator
from types import FrameType
from typing import TextIO

from evp.wording import MOST_SHOWN, printable, shortened

SIGNALS = ("SIGINT", "SIGTERM", "SIGHUP")  # not all of them are on Windows
KEPT = "every call that was answered is kept"
INTERRUPTED = 130  # the exit status of what Ctrl-C ends, as a shell has it
FAULT = 2


class Stopped(KeyboardInterrupt):
    """A signal that ends the server; waitress ends its loop for a KeyboardInterrupt."""


class Ending:
    """What ended the server. The first signal counts, and those after it change nothing."""

    def __init__(self) -> None:
        self.signal: signal.Signals | None = None
        self.fault: Exception | None = None

    @contextlib.contextmanager
    def caught(self) -> Iterator[None]:
        """Signals end what runs meanwhile by Stopped. A signal that the parent ignores stays ignored, as with nohup;
        but for SIGTERM, which a supervisor sends."""
        before = {}
        for name in filter(lambda name: hasattr(signal, name), SIGNALS):
            number = getattr(signal, name)
            if name == "SIGTERM" or signal.getsignal(number) != signal.SIG_IGN:
                before[number] = signal.signal(number, self._stop)
        try:
            yield
        finally:
            for number, handler in before.items():
                signal.signal(number, handler)

    def _stop(self, number: int, frame: FrameType | None) -> None:
        if self.signal is None:
            self.signal = signal.Signals(number)
            raise Stopped

    @contextlib.contextmanager
    def faults(self) -> Iterator[None]:
        """An exception of what runs meanwhile is what ended it."""
        try:
            yield
        except Exception as error:
            self.fault = error
            raise

    @property
    def status(self) -> int:
        """The exit status: a supervisor starts a server again that did not end by a signal."""
        if self.signal is None:
            return FAULT
        return INTERRUPTED if self.signal == signal.SIGINT else 0

    def line(self, has_ledger: bool) -> str:
        if self.signal is not None:
            why = "by %s" % self.signal.name
        elif self.fault is not None:
            why = "by a fault of the server, %s" % shortened(
                printable("%s: %s" % (type(self.fault).__name__, self.fault)), MOST_SHOWN)
        else:
            why = "by itself, since nothing was left to be served"
        return "evp: stopped %s%s" % (why, "; %s" % KEPT if has_ledger else "")

    def say(self, has_ledger: bool) -> None:
        """The last line of the log."""
        log(self.line(has_ledger))


def log(text: str) -> None:
    """A line of the log, which is standard error; that nobody reads it any more is no fault."""
    try:
        print(text, file=sys.stderr, flush=True)
    except (OSError, ValueError):
        drop(sys.stderr)


def drop(stream: TextIO) -> None:
    """What a stream could not take is not tried again when Python ends."""
    with contextlib.suppress(OSError):  # a stream of a test has no number
        os.dup2(os.open(os.devnull, os.O_WRONLY), stream.fileno())


def ignore_broken_pipes() -> None:
    """What is written to a client that has gone is from now on an error of this client, and no signal that ends the
    server."""
    if hasattr(signal, "SIGPIPE"):
        signal.signal(signal.SIGPIPE, signal.SIG_IGN)
