"""Results that have an address: what a page made of an upload is kept in the memory of the server, so that Back,
reloading and a link work. There are bounds: how many, how many bytes, and for how long; the oldest goes first."""

import secrets
import threading
import time
import zlib
from collections import OrderedDict
from collections.abc import Callable
from typing import NamedTuple

HOURS = 2
GONE = ("What was at this address is no longer kept: a result stays for %d hours after it was made, in the memory of "
        "this server, and the oldest go first where there are many. Choose the files again." % HOURS)


class Result(NamedTuple):
    """What is kept: of which page, until when, and its bytes, packed."""
    page: str
    until: float
    packed: bytes


class Kept:
    """Results by their keys, the oldest first."""

    def __init__(self, most: int = 400, most_bytes: int = 48_000_000, seconds: float = 3600 * HOURS,
                 clock: Callable[[], float] = time.monotonic) -> None:
        self._most, self._most_bytes, self._seconds, self._clock = most, most_bytes, seconds, clock
        self._results: OrderedDict[str, Result] = OrderedDict()
        self._bytes, self._lock = 0, threading.Lock()

    def put(self, page: str, content: str) -> str:
        """Keeps a result; its key. One that is larger than all may be together is not kept, and its key leads to
        nothing."""
        key, packed = secrets.token_urlsafe(12), zlib.compress(content.encode("utf-8", "surrogatepass"), 1)
        with self._lock:
            if len(packed) <= self._most_bytes:
                self._results[key] = Result(page, self._clock() + self._seconds, packed)
                self._bytes += len(packed)
            self._drop_old()
        return key

    def get(self, page: str, key: str) -> str | None:
        """A result of this page; None where there is none any more."""
        with self._lock:
            self._drop_old()
            found = self._results.get(key)
        if found is None or found.page != page:
            return None
        return zlib.decompress(found.packed).decode("utf-8", "surrogatepass")

    def _drop_old(self) -> None:
        now = self._clock()
        while self._results:
            first = next(iter(self._results.values()))
            if first.until > now and len(self._results) <= self._most and self._bytes <= self._most_bytes:
                return
            _, dropped = self._results.popitem(last=False)
            self._bytes -= len(dropped.packed)

    def __len__(self) -> int:
        return len(self._results)


RESULTS = Kept()
