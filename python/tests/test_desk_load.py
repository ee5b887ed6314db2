"""The course's ledger under load: eight participants at once, and a desk that is killed again and again.

10,000 calls and a hundred kills, which take a minute or two; other numbers by

    EVP_DESK_CALLS=1000 EVP_DESK_KILLS=10 /usr/bin/python3 python/tests/test_desk_load.py

kill -9 tries that a call is kept before it is answered, and that a desk finds its way back from any moment. It does not
try a power cut: that the disk has a commit then is SQLite's promise with synchronous FULL.
"""

import os
import random
import sys
import threading
import time
import unittest
from collections import Counter
from http.client import HTTPException

from desk_support import HAS_MODULES, MARKER, NO_MODULES, Client, Desk, report_words
from support import LIBRARY, SAMPLES, DeskTestCase, sample

from evp import layout

CALLS = int(os.environ.get("EVP_DESK_CALLS", "10000"))
KILLS = int(os.environ.get("EVP_DESK_KILLS", "100"))
SHEET = SAMPLES / "region.evp"
ROWS = layout.row_count(sample("region"))


def owner(row: int) -> int:
    """As rows are dealt out in turn."""
    return 1 + (row - 1) % 8


class Machine:
    """Request Seven's plain machine, for the rows of one participant: an arrival adds, a departure subtracts, a refused
    call does nothing."""

    def __init__(self, who: int):
        self.who = who
        self.counts = {row: layout.row(sample("region"), row - 1)["vehicles"]
                       for row in range(1, ROWS + 1) if owner(row) == who}

    def play(self, kind: str, row: int, vehicles: int) -> int:
        """The number that is to be answered."""
        if row not in self.counts:
            return 30
        after = self.counts[row] + (vehicles if kind == "arrive" else -vehicles)
        if not 0 <= after <= 10_000_000:
            return 29
        if kind == "arrive" and sum(self.counts.values()) + vehicles > 10_000_000:
            return 31
        self.counts[row] = after
        return 0


def random_call(chance: random.Random, machine: Machine) -> tuple[str, int, int]:
    """A call as an afternoon has them: most on one's own rows, some too large, some on a row of another or on none."""
    row = chance.choice(list(machine.counts)) if chance.random() < 0.93 else chance.randrange(1, ROWS + 20)
    large = chance.choice((9_950_000, chance.randrange(10 ** 8)))  # too many for the participant, or for the row
    vehicles = chance.choice((1, 5, 20, 120, 900)) if chance.random() < 0.93 else large
    return chance.choice(("arrive", "arrive", "depart")), row, vehicles


class Participant(threading.Thread):
    """Makes calls one after the other, and keeps those that were answered."""

    def __init__(self, who: int, client: Client, calls: int, machine: Machine | None = None, done: int = 0):
        super().__init__()
        self.who, self.client, self.calls = who, client, calls
        self.machine = machine or Machine(who)
        self.done = done  # calls that were answered, before and in this run
        self.answered: list[tuple] = []
        self.asked: tuple | None = None  # a call without an answer yet
        self.chance = random.Random(1_000 * who + done)
        self.failure = ""

    def run(self):
        try:
            for _ in range(self.calls):
                self.asked = random_call(self.chance, self.machine)
                answer = self.client.call(*self.asked, own=self.done + 1)
                if answer.status != 303:
                    self.failure = "%d: %s" % (answer.status, answer.text[-600:])
                    return
                self.answered.append(self.asked)
                self.machine.play(*self.asked)
                self.done, self.asked = self.done + 1, None
        except (OSError, HTTPException):
            pass  # the desk was killed
        finally:
            self.client.close()


@unittest.skipUnless(HAS_MODULES, NO_MODULES)
class LoadTest(DeskTestCase):
    def start(self, *words: object, port: int | None = None) -> Desk:
        desk = Desk(self.folder / "course.db", *words, port=port)
        self.addCleanup(desk.close)
        return desk

    def check_ledger(self, marker: Client, people: list[Client], machines: dict[int, Machine]):
        """Everyone is told the counts of the plain machine, and the words are those of a fresh report."""
        sheet = marker.get("/sheet.evp").body
        fresh = LIBRARY.words(sheet)
        self.assertEqual(report_words(marker), fresh)
        for who, client in enumerate(people, 1):
            for line in client.table("rows.csv"):
                row, count, *words = map(int, line)
                self.assertEqual(count, machines[who].counts[row])
                self.assertEqual(count, layout.row(sheet, row - 1)["vehicles"])
                self.assertEqual(words, fresh[6 * row - 6:6 * row])

    def test_eight_at_once(self):
        desk = self.start("--new", SHEET)
        marker, *people = desk.people()
        began = time.monotonic()
        threads = [Participant(who, client, CALLS // 8) for who, client in enumerate(people, 1)]
        for thread in threads:
            thread.start()
        while any(thread.is_alive() for thread in threads):  # meanwhile every export is a sheet with its own report
            self.assertIsNone(LIBRARY.check(marker.get("/sheet.evp").body))
            time.sleep(0.2)
        took = time.monotonic() - began
        self.assertEqual([thread.failure for thread in threads], [""] * 8)
        machines = {thread.who: thread.machine for thread in threads}
        self.check_ledger(marker, people, machines)
        calls = marker.table("calls.csv")
        self.assertEqual(len(calls), 8 * (CALLS // 8))
        replayed = {who: Machine(who) for who in machines}
        for who, _, kind, row, vehicles, number in calls:
            self.assertEqual(replayed[int(who)].play(kind, int(row), int(vehicles)), int(number))
        numbers = Counter(line[5] for line in calls)
        self.assertEqual(set(numbers), {"0", "29", "30", "31"})
        print("eight at once: %d calls in %.1f s, %.0f a second; %s" % (
            len(calls), took, len(calls) / took, dict(numbers)), file=sys.stderr)
        desk.kill()
        began = time.monotonic()
        again = self.start(port=desk.port)
        print("played again in %.1f s, the start included" % (time.monotonic() - began), file=sys.stderr)
        marker, *people = (again.client(link) for link in desk.links)
        self.check_ledger(marker, people, machines)

    def test_killed(self):
        desk = self.start("--new", SHEET)
        port = desk.port
        links, machines, done = desk.links, {who: Machine(who) for who in range(1, 9)}, dict.fromkeys(range(1, 9), 0)
        answered = {who: [] for who in machines}
        chance, began, unanswered = random.Random(5), time.monotonic(), 0
        for _ in range(KILLS):
            threads = [Participant(who, desk.client(links[who]), 10 ** 6, machines[who], done[who]) for who in machines]
            for thread in threads:
                thread.start()
            time.sleep(chance.uniform(0.02, 0.3))
            desk.kill()
            for thread in threads:
                thread.join()
            self.assertEqual([thread.failure for thread in threads], [""] * 8)
            desk = self.start(port=port)
            unanswered += self.check_kept(desk.client(links[MARKER]), threads, answered)
            done = {who: len(answered[who]) for who in machines}
        took = time.monotonic() - began
        people = [desk.client(link) for link in links]
        self.check_ledger(people[MARKER], people[1:], machines)
        print("killed %d times in %.0f s: all of %d answered calls are kept, and %d whose answer the kill cut off" % (
            KILLS, took, sum(done.values()) - unanswered, unanswered), file=sys.stderr)

    def check_kept(self, marker: Client, threads: list[Participant], answered: dict[int, list]) -> int:
        """Every answered call is there, in its order; besides at most one of each that was asked and not answered. How
        many of these there are."""
        kept = {thread.who: [] for thread in threads}
        for who, _, kind, row, vehicles, number in marker.table("calls.csv"):
            kept[int(who)].append((kind, int(row), int(vehicles)))
        cut = 0
        for thread in threads:
            answered[thread.who] += thread.answered
            more = kept[thread.who][len(answered[thread.who]):]
            self.assertEqual(kept[thread.who][:len(answered[thread.who])], answered[thread.who])
            self.assertIn(more, ([], [thread.asked]))
            if more:
                thread.machine.play(*thread.asked)
                answered[thread.who] += more
                cut += 1
        return cut


if __name__ == "__main__":
    unittest.main()
