"""Ctrl-C stops a command wherever it comes, also in a destructor or in a callback of the collector: there Python prints
KeyboardInterrupt with a traceback and goes on."""

import signal
import sys
from types import FrameType

AGAIN = 0.01  # seconds until a KeyboardInterrupt that was lost is raised again
_has_come = False


def take_all() -> None:
    """From now on no Ctrl-C is lost in this process, unless whoever started it ignores it."""
    if signal.getsignal(signal.SIGINT) is signal.default_int_handler and hasattr(signal, "setitimer"):
        signal.signal(signal.SIGINT, _interrupt)
        signal.signal(signal.SIGALRM, _interrupt)
        sys.unraisablehook = _look_at


def _interrupt(number: int, frame: FrameType | None) -> None:
    global _has_come
    _has_come = True
    raise KeyboardInterrupt


def _look_at(lost: "sys.UnraisableHookArgs") -> None:
    """An exception that nobody can catch is printed, except behind Ctrl-C, which leaves much unfinished."""
    if not _has_come:
        sys.__unraisablehook__(lost)
    elif issubclass(lost.exc_type, KeyboardInterrupt):
        signal.setitimer(signal.ITIMER_REAL, AGAIN)
