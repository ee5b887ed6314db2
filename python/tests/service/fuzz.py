"""The fuzzer: inputs of corpus/ changed by chance, given to the functions that read them and to a server.

    /usr/bin/python3 python/tests/service/fuzz.py --seconds 3600 --seed 7
    /usr/bin/python3 python/tests/service/fuzz.py --only filed:123 --seed 7     one input again

Each folder of corpus/ has the inputs of a kind; corpus/found those that once led to a fault. Input number N of a kind
and a seed is always the same one, as long as the corpus is. What leads to a fault is kept in the folder --keep.
"""

import argparse
import random
import re
import resource
import sys
import tempfile
import threading
import time
from collections import Counter
from pathlib import Path
from typing import NamedTuple

if __name__ == "__main__":
    sys.path.insert(0, str(Path(__file__).resolve().parents[1]))

from desk_support import MARKER  # noqa: E402
from service import targets, wire  # noqa: E402
from service.mutate import mutated  # noqa: E402
from service.process import Server  # noqa: E402
from support import LIBRARY, SAMPLES  # noqa: E402

from evp.desk.ledger import CourseLedger  # noqa: E402
from evp.desk.store import Store  # noqa: E402

CORPUS = Path(__file__).with_name("corpus")
MOST_SECONDS = 10  # of an input, on a machine that others use too
MOST_MEMORY = 300  # MB that an input may need above what was needed before
HTTP = "http"
CLIENTS = 12  # that send requests at once
SILENCE = 0.5  # seconds without a byte, after which a request is taken to be one that the server waits for more of
ANSWER = 60  # seconds, in which each request of the corpus is answered on a machine that others use too
NO_FAULTS = (501, 503, 505, 507)  # of all from 500
HEADERS = {"cache-control": "no-store", "x-content-type-options": "nosniff", "referrer-policy": "no-referrer",
           "content-security-policy": "frame-ancestors 'none'", "x-frame-options": "DENY"}


class Found(NamedTuple):
    """An input that led to a fault."""
    kind: str
    name: str
    data: bytes
    fault: str


def inputs_of(kind: str) -> dict[str, bytes]:
    """The corpus of a kind, by the names of files; what was found once is behind the rest."""
    folders = (CORPUS / kind, CORPUS / "found" / kind)
    return {str(path.relative_to(CORPUS)): path.read_bytes()
            for folder in folders if folder.is_dir() for path in sorted(folder.iterdir())}


def input_of(kind: str, number: int, seed: int, corpus: list[bytes]) -> bytes:
    """Input `number` of a kind: the corpus as it is, and then changed by chance."""
    if number < len(corpus):
        return corpus[number]
    chance = random.Random("%s %d %d" % (kind, seed, number))
    data = mutated(chance.choice(corpus), chance, corpus)
    return with_length(data) if kind == HTTP and chance.random() < 0.7 else data


def with_length(data: bytes) -> bytes:
    """A request that says how long its body is, so that what was changed in the body is read."""
    head, end, body = data.partition(b"\r\n\r\n")
    return re.sub(rb"(?i)content-length: *[0-9]+", b"Content-Length: %d" % len(body), head, count=1) + end + body


# ------------------------------------------------------------------ functions


def fault_of(kind: str, data: bytes) -> str:
    """What an input led to and may not; empty where there is nothing."""
    began, before = time.monotonic(), resource.getrusage(resource.RUSAGE_SELF).ru_maxrss
    try:
        targets.try_input(kind, data)
    except Exception as error:  # nothing else may come out
        return "%s: %s" % (type(error).__name__, str(error)[:500])
    took, more = time.monotonic() - began, resource.getrusage(resource.RUSAGE_SELF).ru_maxrss - before
    if took > MOST_SECONDS:
        return "it took %.1f s" % took
    return "it needed %d MB" % (more // 1024) if more > MOST_MEMORY * 1024 else ""


def fuzz_functions(seconds: float, seed: int, kinds: tuple[str, ...] = tuple(targets.TARGETS)) -> tuple[Counter, list]:
    """How many inputs of each kind there were, and what they found."""
    corpora = {kind: inputs_of(kind) for kind in kinds}
    tried, found, until = Counter[str](), list[Found](), time.monotonic() + seconds
    for number in range(10 ** 9):
        for kind, corpus in corpora.items():
            if time.monotonic() > until and number >= max(map(len, corpora.values())) or len(found) >= 50:
                return tried, found
            data = input_of(kind, number, seed, list(corpus.values()))
            fault = fault_of(kind, data)
            tried[kind] += 1
            if fault:
                found.append(Found(kind, "seed %d, number %d" % (seed, number), data, fault))
    return tried, found


# ------------------------------------------------------------------ a server


def placed(data: bytes, server: Server) -> bytes:
    """A request of the corpus with the server's port and keys in it."""
    return (data.replace(b"{PORT}", b"%d" % server.port).replace(b"{MARKER}", server.links[MARKER].encode())
            .replace(b"{PARTICIPANT}", server.links[1].encode()))


def fault_of_answer(answer: wire.Answer) -> str:
    """What is wrong with an answer of the server."""
    if answer == wire.NO_ANSWER:
        return ""  # the server waits for more, or has closed the connection
    if not answer.status:
        return "an answer without a status line: %r" % (answer.headers[:3],)
    if answer.status >= 500 and answer.status not in NO_FAULTS:
        return "status %d" % answer.status
    missing = [name for name, value in HEADERS.items() if value not in (answer.header(name) or "absent")]
    return "status %d without %s" % (answer.status, ", ".join(missing)) if missing else ""


class Sender(threading.Thread):
    """Sends every CLIENTS-th request of a seed."""

    def __init__(self, server: Server, first: int, until: float, seed: int):
        super().__init__(daemon=True)
        self.server, self.first, self.until, self.seed = server, first, until, seed
        self.statuses, self.found = Counter[int](), list[Found]()

    def run(self):
        corpus = [placed(data, self.server) for data in inputs_of(HTTP).values()]
        for number in range(self.first, 10 ** 9, CLIENTS):
            over = time.monotonic() > self.until and number >= len(corpus)
            if over or len(self.found) >= 20 or not self.server.is_alive():
                return
            data = input_of(HTTP, number, self.seed, corpus)
            fault = self.fault_of(data, SILENCE if number >= len(corpus) else ANSWER)
            if fault:
                self.found.append(Found(HTTP, "seed %d, number %d" % (self.seed, number), data, fault))

    def fault_of(self, data: bytes, wait: float) -> str:
        """What is wrong with the answer to some bytes. Each request of the corpus gets one."""
        began = time.monotonic()
        try:
            answer = wire.exchange(self.server.port, data, "127.0.0.%d" % (2 + self.first), wait)
        except OSError as error:
            time.sleep(0.1)  # a process that ends takes a moment
            return "" if self.server.is_alive() else "the server ended: %s" % error
        self.statuses[answer.status] += 1
        took = time.monotonic() - began
        if wait == ANSWER and not answer.status:
            return "no answer in %.1f s" % took
        return fault_of_answer(answer) or ("it took %.1f s" % took if wait != ANSWER and took > MOST_SECONDS else "")


def fuzz_server(folder: Path, seconds: float, seed: int) -> tuple[Counter, list[Found]]:
    """The statuses of answers (0 where there was none), and what requests found."""
    server = Server(folder / "course.db", "--new", SAMPLES / "region.evp", "--patience", 3)
    try:
        senders = [Sender(server, first, time.monotonic() + seconds, seed) for first in range(CLIENTS)]
        for sender in senders:
            sender.start()
        for sender in senders:
            sender.join(seconds + 120)
        statuses = sum((sender.statuses for sender in senders), Counter[int]())
        return statuses, [*(one for sender in senders for one in sender.found), *_after(server)]
    finally:
        server.kill()


def _after(server: Server) -> list[Found]:
    """What is wrong with the server behind all requests: it must serve, stop, and have a ledger that opens."""
    if not server.is_alive():
        return [Found(HTTP, "end", b"", "the server ended with status %d" % server.process.returncode)]
    faults = []
    if wire.exchange(server.port, wire.request(server.port, "GET", "/")).status != 200:
        faults.append("the first page is not served any more")
    status = server.stop()
    if status:
        faults.append("stopped with status %d" % status)
    if "page failed" in server.printed or "Traceback" in server.printed:
        faults.append("printed: %s" % server.printed[-500:])
    store = Store(server.ledger)
    try:
        CourseLedger(LIBRARY, store)
    finally:
        store.close()
    return [Found(HTTP, "end", b"", fault) for fault in faults]


# ------------------------------------------------------------------ by hand


def keep(found: list[Found], folder: Path):
    for number, one in enumerate(found):
        print("%s, %s: %s" % (one.kind, one.name, one.fault))
        folder.mkdir(parents=True, exist_ok=True)
        (folder / ("%s-%d" % (one.kind, number))).write_bytes(one.data)


def one_again(word: str, seed: int) -> int:
    kind, number = word.split(":")
    data = input_of(kind, int(number), seed, list(inputs_of(kind).values()))
    print(data[:2_000])
    fault = fault_of(kind, data)
    print(fault or "no fault")
    return 1 if fault else 0


def main() -> int:
    parser = argparse.ArgumentParser(description=__doc__.partition("\n")[0])
    parser.add_argument("--seconds", type=float, default=60, help="a half for functions, a half for the server")
    parser.add_argument("--seed", type=int, default=1)
    parser.add_argument("--only", metavar="KIND:NUMBER", help="one input of a kind that functions read")
    parser.add_argument("--keep", type=Path, default=Path("fuzz-found"), help="folder for what leads to a fault")
    given = parser.parse_args()
    if given.only:
        return one_again(given.only, given.seed)
    tried, found = fuzz_functions(given.seconds / 2, given.seed)
    print("inputs: %s" % dict(tried))
    with tempfile.TemporaryDirectory() as folder:
        statuses, more = fuzz_server(Path(folder), given.seconds / 2, given.seed)
    print("requests by status: %s" % dict(sorted(statuses.items())))
    keep(found + more, given.keep)
    return 1 if found or more else 0


if __name__ == "__main__":
    sys.exit(main())
