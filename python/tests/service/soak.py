"""Eight participants, a marker and uploads for an hour, beside all bad clients at once:

    /usr/bin/python3 python/tests/service/soak.py                  an hour
    /usr/bin/python3 python/tests/service/soak.py --seconds 60     a minute

It starts the server, compares every answered call with what the ledger has at the end, prints the figures, and ends
with status 1 where one of LIMITS is not met.
"""

import argparse
import json
import os
import random
import subprocess
import sys
import tempfile
import threading
import time
from collections import Counter
from http.client import HTTPException
from pathlib import Path
from typing import NamedTuple
from urllib.parse import urlencode

if __name__ == "__main__":
    sys.path.insert(0, str(Path(__file__).resolve().parents[1]))

from desk_support import MARKER, Client, report_words  # noqa: E402
from service import wire  # noqa: E402
from service.process import Processors, Server, Use, Watch  # noqa: E402
from support import LIBRARY, SAMPLES, TOP  # noqa: E402
from test_desk_load import Machine, random_call  # noqa: E402

from evp.desk.ledger import MOST_CALLS, CourseLedger  # noqa: E402
from evp.desk.store import Store, StoredCall  # noqa: E402

SHEET = SAMPLES / "region.evp"
PATIENCE = 5  # seconds, as the server is started
SETTLE = 20  # seconds after the last client in which the server comes to rest
SPARE = 2_000  # calls that are not used of those that a ledger takes from each
LEAVER = 8  # the participant who leaves in the midst of calls, without saying which call of theirs it is
FORM = {"Content-Type": "application/x-www-form-urlencoded"}


class Limits(NamedTuple):
    """What a run must keep to. Times are those of a machine that nobody else uses: where others leave a half of its
    processors, twice as long is allowed."""
    calls_p99: float = 2.0  # seconds
    pages_p99: float = 2.0
    uploads_p99: float = 20.0
    memory_more: float = 200  # MB at the end above the start: what 64 threads and their allocators keep
    memory_most: float = 500  # MB at any time above the start
    descriptors_more: int = 5  # at the end, above or below the start


LIMITS = Limits()


class Times(NamedTuple):
    """Of requests of a kind: how many, and their seconds."""
    many: int
    p50: float
    p99: float
    most: float


def times_of(seconds: list[float]) -> Times:
    if not seconds:
        return Times(0, 0, 0, 0)
    found = sorted(seconds)
    return Times(len(found), found[len(found) // 2], found[min(len(found) - 1, len(found) * 99 // 100)], found[-1])


# ------------------------------------------------------------------ those who work


class Worker(threading.Thread):
    """One who works with the server until time is over. What goes wrong is in `problems`."""

    def __init__(self, server: Server, link: str, until: float, seed: int):
        super().__init__(daemon=True)
        self.server, self.link, self.until = server, link, until
        self.client = Client(server.port, link, 60)
        self.chance = random.Random(seed)
        self.seconds: dict[str, list[float]] = {"call": [], "page": [], "upload": []}
        self.problems: list[str] = []
        self.waits = 0  # answers 503: asked to come again
        self.again = 0  # connections that the server had closed, as it does with those that are idle

    def run(self):
        try:
            while time.monotonic() < self.until and len(self.problems) < 5:
                self.once()
        except (OSError, HTTPException) as error:
            self.problems.append("%s: %s: %s" % (type(self).__name__, type(error).__name__, error))
        finally:
            self.client.close()

    def once(self):
        raise NotImplementedError

    def ask(self, kind: str, method: str, path: str, body: bytes | None = None, headers: dict | None = None):
        """An answer with its time; a connection that the server let go of while it was idle is opened again."""
        began = time.monotonic()
        try:
            answer = self.client.ask(method, path, body, headers)
        except (ConnectionError, HTTPException):
            self.again += 1
            self.client.close()
            answer = self.client.ask(method, path, body, headers)
        self.seconds[kind].append(time.monotonic() - began)
        return answer

    def want(self, answer, *statuses: int):
        """Notes an answer that has another status."""
        if answer.status == 503:
            self.waits += 1
            time.sleep(0.5)
        elif answer.status not in statuses:
            self.problems.append("%s: status %d: %s" % (type(self).__name__, answer.status, answer.text[-300:]))


class Participant(Worker):
    """Makes calls and looks at its page. Some calls are sent, left, and sent again, which makes them once."""

    left_first = 0.03  # share of the calls that are left and sent again

    def __init__(self, who: int, pause: float, *more):
        super().__init__(*more)
        self.who, self.pause, self.machine = who, pause, Machine(who)
        self.answered: list[tuple[str, int, int]] = []
        self.asked: list[tuple[str, int, int]] = []  # all, answered or not
        self.cut = 0  # calls that were left before their answer

    def once(self):
        if self.chance.random() < 0.1:
            self.want(self.ask("page", "GET", self.link + self.chance.choice(("", "", "/rows.csv"))), 200)
        call = self.next_call()
        self.asked.append(call)
        body = self.body_of(call)
        if self.chance.random() < self.left_first:
            self.leave(body)
        if self.is_made(call, body):
            self.answered.append(call)
            self.machine.play(*call)
        time.sleep(self.pause * self.chance.uniform(0, 2))

    def next_call(self) -> tuple[str, int, int]:
        return random_call(self.chance, self.machine)

    def body_of(self, call: tuple[str, int, int]) -> bytes:
        return urlencode({"call": call[0], "row": call[1], "vehicles": call[2], "own": len(self.answered) + 1}).encode()

    def is_made(self, call: tuple[str, int, int], body: bytes) -> bool:
        """Makes a call, again where the server asks to wait."""
        for _ in range(100):
            answer = self.ask("call", "POST", self.link, body, FORM)
            self.want(answer, 303)
            if answer.status != 503:
                return answer.status == 303
        self.problems.append("participant %d: asked to wait a hundred times" % self.who)
        return False

    def leave(self, body: bytes):
        """Sends a call, whole or in part, and leaves."""
        raw = wire.request(self.server.port, "POST", self.link, body, FORM)
        sent = self.chance.choice((len(raw), len(raw), len(raw) - 1, len(raw) - len(body), len(raw) // 2))
        self.cut += 1
        try:
            wire.leave(self.server.port, raw, sent, self.chance.choice((0, 0, 1, 50)) if sent == len(raw) else 0,
                       self.chance.random() < 0.5)
        except OSError:
            pass  # the server was first


class Leaver(Participant):
    """Leaves in the midst of every second call, and never sends it again. Each call has another number of vehicles, so
    that it is known again in the ledger."""

    left_first = 0

    def next_call(self) -> tuple[str, int, int]:
        row = self.chance.choice(list(self.machine.counts))
        return self.chance.choice(("arrive", "depart")), row, len(self.asked) + 1

    def body_of(self, call: tuple[str, int, int]) -> bytes:
        return urlencode({"call": call[0], "row": call[1], "vehicles": call[2]}).encode()

    def is_made(self, call: tuple[str, int, int], body: bytes) -> bool:
        if self.chance.random() < 0.5:
            self.leave(body)
            return False
        return super().is_made(call, body)

    def ask(self, kind: str, method: str, path: str, body: bytes | None = None, headers: dict | None = None):
        if kind != "call":
            return super().ask(kind, method, path, body, headers)
        self.client.close()  # on a connection of its own, and never sent again: the ledger would have it twice
        began = time.monotonic()
        answer = self.client.ask(method, path, body, headers)
        self.seconds[kind].append(time.monotonic() - began)
        return answer


class Marker(Worker):
    """Looks at the totals and saves the sheet, which must be one that the library accepts."""

    def once(self):
        self.want(self.ask("page", "GET", self.link), 200)
        sheet = self.ask("page", "GET", self.link + "/sheet.evp")
        self.want(sheet, 200)
        if sheet.status == 200 and LIBRARY.check(sheet.body) is not None:
            self.problems.append("the marker's sheet is refused")
        self.want(self.ask("page", "GET", self.link + "/report.csv"), 200)
        time.sleep(0.5)


class Reader(Worker):
    """Reads pages that anyone may read."""

    def once(self):
        self.want(self.ask("page", "GET", self.chance.choice(("/", "/form", "/class", "/sheet", "/parking"))), 200)
        time.sleep(0.05)


class Uploader(Worker):
    """Sends sheets and classes, as a teacher does who marks meanwhile."""

    def once(self):
        path, files = self.chance.choice((("/class", self.some(8)), ("/open", self.some(1)), ("/form", self.some(1)),
                                          ("/open", self.some(3)), ("/day", self.some(1))))
        if len(files) > 1:
            files.append(("files", "filed.csv", (SAMPLES / "course" / "filed.csv").read_bytes()))
        headers, body = wire.multipart(files)
        answer = self.ask("upload", "POST", path, body, headers)
        self.want(answer, 303, *((400,) if path == "/form" else ()))  # no form holds a sheet that is cut short
        time.sleep(0.3)

    def some(self, many: int) -> list[tuple[str, str, bytes]]:
        paths = self.chance.sample(sorted((SAMPLES / "course").glob("*.evp")), many)
        return [("files", path.name, path.read_bytes()) for path in paths]


# ------------------------------------------------------------------ what the ledger has


def compared(kept: list[StoredCall], people: list[Participant]) -> list[str]:
    """What is wrong with the calls of a ledger: an answered call that is not there, one that nobody made, a refusal
    that the plain machine does not give."""
    problems = []
    machines = {person.who: Machine(person.who) for person in people}
    for serial, call in enumerate(kept, 1):
        if machines[call.who].play(call.kind, call.row, call.vehicles) != call.number:
            problems.append("call %d: number %d is not that of the plain machine" % (serial, call.number))
    for person in people:
        theirs = [(call.kind, call.row, call.vehicles) for call in kept if call.who == person.who]
        problems += (compared_loosely if isinstance(person, Leaver) else compared_exactly)(person, theirs)
    return problems


def compared_exactly(person: Participant, kept: list[tuple[str, int, int]]) -> list[str]:
    """Every answered call in its order, and behind them at most the one that the end of the run cut off."""
    many = len(person.answered)
    if kept[:many] != person.answered:
        lost = (Counter(person.answered) - Counter(kept)).total()
        return ["participant %d: %d answered calls are not in the ledger, or not in order" % (person.who, lost)]
    if kept[many:] not in ([], person.asked[many:many + 1]):
        return ["participant %d: the ledger has %d calls more than were answered" % (person.who, len(kept) - many)]
    return []


def compared_loosely(person: Participant, kept: list[tuple[str, int, int]]) -> list[str]:
    """Every answered call once, and of those that were left each at most once."""
    found, problems = Counter(kept), []
    lost = [call for call in person.answered if found[call] != 1]
    if lost:
        problems.append("participant %d: %d answered calls are not once in the ledger" % (person.who, len(lost)))
    invented = found - Counter(person.asked)
    if invented:
        problems.append("participant %d: %d calls in the ledger were never made" % (person.who, invented.total()))
    return problems


# ------------------------------------------------------------------ a run


class Result(NamedTuple):
    """What a run gave."""
    seconds: float
    times: dict[str, Times]
    start: Use
    end: Use
    most: Use
    tenths: list[Use]
    processor: float  # seconds of the server
    left: float  # share of the machine's processors that others left
    kept: int  # calls in the ledger
    answered: int
    cut: int
    waits: int
    again: int
    bad: dict[str, dict[str, int]]
    problems: list[str]

    def text(self) -> str:
        return "\n".join(_lines(self))


def _lines(result: Result):
    yield "%.0f s, server %.0f s of processor time; %d processors, of which others left %.0f %%, load %.1f" % (
        result.seconds, result.processor, os.cpu_count() or 1, 100 * result.left, os.getloadavg()[0])
    for name, times in result.times.items():
        p50, p99, most = (1000 * took for took in times[1:])
        yield "%ss: %d, %.1f a second, p50 %.0f ms, p99 %.0f ms, most %.0f ms" % (
            name, times.many, times.many / result.seconds, p50, p99, most)
    for name in Use._fields:
        start, most, end = (getattr(use, name) for use in (result.start, result.most, result.end))
        yield "%s: %.0f at start, %.0f at most, %.0f at end" % (name, start, most, end)
    yield "memory after each tenth of the time: %s" % " ".join("%.0f" % use.memory for use in result.tenths)
    yield "calls: %d answered, %d left before an answer, %d in the ledger; told to wait %d times, reconnected %d" % (
        result.answered, result.cut, result.kept, result.waits, result.again)
    for kind, outcomes in sorted(result.bad.items()):
        yield "bad clients, %s: %s" % (kind, ", ".join("%d %s" % pair[::-1] for pair in sorted(outcomes.items())))
    for problem in result.problems:
        yield "PROBLEM: " + problem


def soak(folder: Path, seconds: float, seed: int = 1) -> Result:
    """A run in an empty folder."""
    server = Server(folder / "course.db", "--new", SHEET, "--patience", PATIENCE)
    try:
        return _soaked(server, seconds, seed)
    finally:
        server.kill()


def _soaked(server: Server, seconds: float, seed: int) -> Result:
    _warm(server)
    start, watch, processors = server.use(), Watch(server), Processors(server)
    watch.start()
    bad = _start_bad_clients(server, seconds, seed)
    began = time.monotonic()
    people, others = _workers(server, began + seconds, seconds, seed)
    for worker in (*people, *others):
        worker.start()
    for worker in (*people, *others):
        worker.join(seconds + 120)
    took = time.monotonic() - began
    watch.stop()
    outcomes, problems = _bad_outcomes(bad)
    processor, left = server.seconds(), processors.left()
    problems += [problem for worker in (*people, *others) for problem in worker.problems]
    problems += ["a worker did not end" for worker in (*people, *others) if worker.is_alive()]
    end = _at_rest(server, start)
    kept, more = _ledger(server, people)
    times = {kind: times_of([took for worker in (*people, *others) for took in worker.seconds[kind]])
             for kind in ("call", "page", "upload")}
    waits, again = (sum(getattr(one, name) for one in (*people, *others)) for name in ("waits", "again"))
    result = Result(took, times, start, end, watch.most, watch.tenths(), processor, left, len(kept),
                    sum(len(one.answered) for one in people), sum(one.cut for one in people), waits, again, outcomes,
                    problems + more)
    return result._replace(problems=result.problems + beyond(result))


def _warm(server: Server):
    """A page of each kind once, so that what is loaded then is not counted as growth."""
    client = Client(server.port, server.links[MARKER], 60)
    for path in ("/", "/form", "/class", server.links[MARKER], server.links[1]):
        client.ask("GET", path)
    client.ask("POST", "/class", b"example=course", FORM)
    client.close()


def _start_bad_clients(server: Server, seconds: float, seed: int) -> subprocess.Popen:
    program = Path(__file__).with_name("bad_clients.py")
    words = ["--port", server.port, "--seconds", seconds, "--seed", seed]
    return subprocess.Popen([sys.executable, str(program), *map(str, words)], stdout=subprocess.PIPE, cwd=TOP)


def _bad_outcomes(bad: subprocess.Popen) -> tuple[dict[str, dict[str, int]], list[str]]:
    try:
        out, _ = bad.communicate(timeout=150)
    except subprocess.TimeoutExpired:
        bad.kill()
        return {}, ["the bad clients did not end"]
    found = json.loads(out)
    return found["kinds"], ["bad clients: " + fault for fault in found["faults"][:10]]


def _workers(server: Server, until: float, seconds: float, seed: int) -> tuple[list[Participant], list[Worker]]:
    pause = seconds / (MOST_CALLS - SPARE)  # on average, so that a ledger has room for all calls
    people: list[Participant] = [
        (Leaver if who == LEAVER else Participant)(who, pause, server, server.links[who], until, 1_000 * seed + who)
        for who in range(1, 9)]
    others = (Marker, Reader, Reader, Uploader)
    return people, [kind(server, server.links[MARKER], until, 1_000 * seed + 100 + i) for i, kind in enumerate(others)]


def _at_rest(server: Server, start: Use) -> Use:
    """What the server uses once all clients are gone, as soon as its descriptors are as few as at the start."""
    last = time.monotonic() + SETTLE
    while time.monotonic() < last and server.is_alive() and server.use().descriptors > start.descriptors:
        time.sleep(0.2)
    return server.use()


def _ledger(server: Server, people: list[Participant]) -> tuple[list[StoredCall], list[str]]:
    """The calls of the ledger, and what is wrong with them; first as the server shows them, then as the file has
    them when the server has stopped."""
    problems = []
    if server.is_alive():
        marker = Client(server.port, server.links[MARKER], 60)
        if report_words(marker) != LIBRARY.words(marker.get("/sheet.evp").body):
            problems.append("the marker's report is not that of the sheet")
        marker.close()
        status = server.stop()
        if status:
            problems.append("stopped with status %d" % status)
    else:
        problems.append("THE SERVER ENDED with status %d: %s" % (server.process.returncode, server.printed[-500:]))
    store = Store(server.ledger)
    try:
        CourseLedger(LIBRARY, store)
        kept = store.calls()
    finally:
        store.close()
    return kept, problems + compared(kept, people)


def beyond(result: Result, limits: Limits = LIMITS) -> list[str]:
    """The limits that a run did not keep to."""
    found = [("p99 of calls", result.times["call"].p99, limits.calls_p99 / result.left),
             ("p99 of pages", result.times["page"].p99, limits.pages_p99 / result.left),
             ("p99 of uploads", result.times["upload"].p99, limits.uploads_p99 / result.left),
             ("memory at the end above the start", result.end.memory - result.start.memory, limits.memory_more),
             ("memory at most above the start", result.most.memory - result.start.memory, limits.memory_most),
             ("descriptors at the end beside the start", abs(result.end.descriptors - result.start.descriptors),
              limits.descriptors_more)]
    problems = ["%s: %.1f, and %.1f is the limit" % line for line in found if line[1] > line[2]]
    return problems + ["there were no %ss" % kind for kind, times in result.times.items() if not times.many]


def main() -> int:
    parser = argparse.ArgumentParser(description=__doc__.partition("\n")[0])
    parser.add_argument("--seconds", type=float, default=3600)
    parser.add_argument("--seed", type=int, default=1)
    given = parser.parse_args()
    with tempfile.TemporaryDirectory() as folder:
        result = soak(Path(folder), given.seconds, given.seed)
    print(result.text())
    return 1 if result.problems else 0


if __name__ == "__main__":
    sys.exit(main())
