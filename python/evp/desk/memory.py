"""How many parts glibc keeps free memory in, for a process with many threads."""

import contextlib
import ctypes

ARENAS = 2  # parts of memory that all threads share
M_ARENA_MAX = -8  # as <malloc.h> of glibc has it


def share_arenas() -> None:
    """Lets all threads share ARENAS arenas of glibc; before any thread is started.

    Without that glibc gives threads up to eight for each processor, and each of them keeps what it needed at most: 31
    of them had 94 of the server's 146 MB after a quarter of an hour of the soak test, and more from minute to minute.
    Python runs one thread at a time, so that threads seldom wait for one. Nothing is done where the C library is
    another.
    """
    with contextlib.suppress(OSError, AttributeError, TypeError):
        ctypes.CDLL(None).mallopt(M_ARENA_MAX, ARENAS)
