"""A client that holds all connections there are: everyone else is served, each on a new connection."""

import threading
import time
import unittest
from collections import Counter

from desk_support import HAS_MODULES, NO_MODULES
from support import SAMPLES, DeskTestCase

from service import bad_clients, wire
from service.process import Server

SECONDS = 8
CLIENTS = 6  # that open a connection for each of their requests
FILES = ("prlimit", "--nofile=2000:2000")  # open at once, so that 600 connections fit in
HELD = 800  # wanted by each of two hogs


@unittest.skipUnless(HAS_MODULES, NO_MODULES)
class RoomTest(DeskTestCase):
    def test_new_connections_beside_a_hog(self):
        """With patience 1 the server drops connections in the same moment in which it takes new ones, which then have
        the same file numbers."""
        server = Server(self.folder / "course.db", "--new", SAMPLES / "region.evp", "--patience", 1, before=FILES)
        self.addCleanup(server.kill)
        outcomes, until, statuses = bad_clients.Outcomes(), time.monotonic() + SECONDS, list[int]()
        threads: list[threading.Thread] = [
            bad_clients.Hogging(HELD, server.port, "1", until, outcomes, "127.0.0.%d" % i) for i in (2, 3)]
        threads += [threading.Thread(target=self.ask, args=(server.port, until, statuses)) for _ in range(CLIENTS)]
        for thread in threads:
            thread.start()
        for thread in threads:
            thread.join(60)
        self.assertEqual(set(statuses), {200}, Counter(statuses))
        self.assertGreater(outcomes.kinds["connection hog"]["let go by the server"], HELD)

    def ask(self, port: int, until: float, statuses: list[int]):
        raw = wire.request(port, "GET", "/", headers={"Connection": "close"})
        while time.monotonic() < until:
            statuses.append(wire.exchange(port, raw).status)


if __name__ == "__main__":
    unittest.main()
