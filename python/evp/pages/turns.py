"""Pages that take a processor's seconds are made some at a time, and few may wait: so that they keep no ledger waiting,
which is served by the threads that are left. Nobody's address may have all places."""

import threading
from collections import Counter

from flask import abort, request


class Turns:
    """`with turns:` waits for a turn, and answers 503 where too many wait, of all or of this address."""

    def __init__(self, at_once: int, each: int, together: int):
        """So many in work; so many of one address, and so many of all, with those that wait."""
        self._work, self._lock = threading.Semaphore(at_once), threading.Lock()
        self._each, self._together = each, together
        self._places: Counter[str] = Counter()

    def __enter__(self):
        address = request.remote_addr or ""
        with self._lock:
            if self._places[address] >= self._each or self._places.total() >= self._together:
                abort(503)
            self._places[address] += 1
        self._work.acquire()

    def __exit__(self, *_):
        address = request.remote_addr or ""
        self._work.release()
        with self._lock:
            self._places[address] -= 1
            if not self._places[address]:
                del self._places[address]


# marking with guesses takes the longest; together these leave threads of the server to the ledger
CLASSES, PAGES, FORMS, READING = Turns(2, 8, 10), Turns(4, 12, 15), Turns(2, 10, 12), Turns(2, 10, 12)
