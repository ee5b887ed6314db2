"""Clients that leave, do not read, do not send, or open all connections there are, while participants work."""

import contextlib
import resource
import subprocess
import sys
import time
import unittest

from desk_support import HAS_MODULES, HOST, NO_MODULES, Desk
from service_support import (
    CLOCK, ServiceTestCase, asked, connected, exchange, head_of, is_closed, leave, posted, status_of)

PIPELINED = 182  # requests of 45 bytes, which waitress reads at once
HOG = """
import resource, socket, sys, time
resource.setrlimit(resource.RLIMIT_NOFILE, (resource.getrlimit(resource.RLIMIT_NOFILE)[1],) * 2)
host, port, most, seconds = sys.argv[1], int(sys.argv[2]), int(sys.argv[3]), float(sys.argv[4])
held, end = [], time.monotonic() + seconds
while time.monotonic() < end:
    try:
        held.append(socket.create_connection((host, port), 1))
        held[-1].sendall(b"G")
    except OSError:
        time.sleep(0.01)
    del held[:max(0, len(held) - most)]
print(len(held))
"""


@unittest.skipUnless(HAS_MODULES, NO_MODULES)
class LeavingTest(ServiceTestCase):
    """A client may leave at any step of a request: the server goes on, and so do the others."""

    def requests(self, desk: Desk) -> list[bytes]:
        port, participant, marker = desk.port, desk.links[5], desk.links[0]
        call = b"call=arrive&row=5&vehicles=1"
        return [
            head_of(port, participant), head_of(port, marker), posted(port, participant, call),
            head_of(port, "/form"), head_of(port, "/form", "GET", "Sec-Fetch-Site: cross-site"),
            head_of(port, "/nothing"), posted(port, participant, b"x" * 5_000),
            posted(port, participant, call, "application/x-www-form-urlencoded", "Sec-Fetch-Site: cross-site"),
            head_of(port, "/").replace(HOST.encode(), b"evil.example"), head_of(port, "/", "HEAD"),
            b"\x16\x03\x01\x02\x00\x01\x00\x01\xfc\x03\x03\r\n\r\n",
            head_of(port, "/class", "POST", "Content-Length: 10000000", "Expect: 100-continue"),
        ]

    def leaving(self, desk: Desk, request: bytes, step: int, reset: bool):
        """Leaves at one of eight steps: before a byte, in the head, before, in and after the body, at once or later,
        and in the answer."""
        head, _, body = request.partition(b"\r\n\r\n")
        said = (b"", head[:len(head) // 2], head + b"\r\n\r\n", request[:len(request) - len(body) // 2],
                request, request, request, request * 3)[step]
        connection = connected(desk.port)
        with contextlib.suppress(OSError):
            connection.sendall(said)
            if step == 5:
                time.sleep(0.004)
            if step == 6:
                connection.settimeout(1)
                connection.recv(10)
        leave(connection, reset)

    def test_at_every_step(self):
        desk = self.serve("--patience", 5)
        before, left = self.files(desk), 0
        with self.at_work(desk, within=15):  # of a machine that others use
            for request in self.requests(desk):
                for step in range(8):
                    for reset in (False, True):
                        self.leaving(desk, request, step, reset)
                        left += 1
                        self.assertIsNone(desk.process.poll(), "ended at step %d of %s" % (step, request[:60]))
        self.assertEqual(left, 192)
        self.wait_for(lambda: self.files(desk) <= before + 6, 25, "connections stay open")
        self.assertNotIn("failed", desk.said)

    def test_in_the_answer(self):
        """The marker's page is asked for and left twenty times; the answer is written to who has gone."""
        desk = self.serve()
        for _ in range(20):
            with connected(desk.port) as connection:
                connection.sendall(head_of(desk.port, desk.links[0]))
        self.assertEqual(desk.client(desk.links[1]).call("arrive", 1, 1).status, 303)
        self.assertIsNone(desk.process.poll())


@unittest.skipUnless(HAS_MODULES, NO_MODULES)
class StallingTest(ServiceTestCase):
    """Who does not read or does not send is dropped after the patience, and holds nobody up until then."""

    def test_readers(self):
        desk = self.serve("--patience", 3)
        before, files = self.memory(desk), self.files(desk)
        with contextlib.ExitStack() as stack, self.at_work(desk, within=3):
            began = time.monotonic()
            for _ in range(40):
                connection = stack.enter_context(connected(desk.port))
                connection.sendall(b"GET /form HTTP/1.1\r\nHost:127.0.0.1:%d\r\n\r\n" % desk.port * PIPELINED)
            self.wait_for(lambda: self.files(desk) >= files + 40, 10, "not all have come")
            self.wait_for(lambda: self.files(desk) < files + 12, 30, "stalled readers are kept")
            took, after = time.monotonic() - began, self.memory(desk)
        print("40 stalled readers: dropped in %.1f s, memory %d -> %d MB, the longest call %.2f s" % (
            took, before, after, self.longest), file=sys.stderr)
        self.assertLess(after - before, 150)

    def test_pipelined(self):
        """Who reads gets an answer to each, in order."""
        desk = self.serve()
        paths = [desk.links[1], "/health", "/form", "/nothing", "/health"] * 4
        requests = b"".join(head_of(desk.port, path) for path in paths)
        answers = exchange(desk.port, requests + head_of(desk.port, "/health", "GET", "Connection: close"))
        statuses = [line.split()[1] for line in answers.split(b"\r\n") if b"HTTP/1.1 " in line[-40:]
                    for line in [line[line.rindex(b"HTTP/1.1 "):]]]
        self.assertEqual(statuses, [b"200", b"200", b"200", b"404", b"200"] * 4 + [b"200"])

    def test_senders_with_a_clock_that_goes_back(self):
        """Ten days back: the patience counts in seconds that pass."""
        flag = self.folder / "ten-days-ago"
        desk = self.serve("--patience", 2, before=(sys.executable, "-c", CLOCK % str(flag)))
        with contextlib.ExitStack() as stack:
            slow = [stack.enter_context(connected(desk.port)) for _ in range(12)]
            for connection in slow[:8]:
                connection.sendall(b"GET /form HT")
            flag.write_text("")
            for connection in slow[4:8]:
                connection.sendall(b"TP/1.1\r\n")
            for connection in slow:
                self.assertTrue(is_closed(connection, 8))
        self.assertEqual(desk.client(desk.links[1]).call("arrive", 1, 1).status, 303)

    def test_long_request_of_all(self):
        """Requests that are not whole are on the disk, and memory does not grow with their number."""
        desk = self.serve("--patience", 30)
        before = self.memory(desk)
        with contextlib.ExitStack() as stack, self.at_work(desk, within=5, people=2):
            for _ in range(120):
                connection = stack.enter_context(connected(desk.port))
                connection.sendall(head_of(desk.port, "/class", "POST", "Content-Length: 3900000") + b"x" * 400_000)
            time.sleep(1)
            self.assertLess(self.memory(desk) - before, 25)


@unittest.skipUnless(HAS_MODULES, NO_MODULES)
class HogTest(ServiceTestCase):
    """Connections that only stay open are closed before anyone is refused."""

    def test_more_connections_than_there_are(self):
        desk = self.serve("--patience", 30)
        self.assertGreater(resource.getrlimit(resource.RLIMIT_NOFILE)[1], 6_000)
        hog = subprocess.Popen([sys.executable, "-c", HOG, HOST, str(desk.port), "4500", "7"], stdout=subprocess.PIPE)
        self.addCleanup(hog.wait)
        self.addCleanup(hog.kill)
        time.sleep(3)  # until it has many
        with self.at_work(desk, within=3) as workers:  # 0.3 to 0.6 s were seen
            time.sleep(2.5)
        held = int(hog.communicate(timeout=20)[0])
        calls = sorted(taken for worker in workers for taken in worker.times)
        print("a client with %d connections: %d calls meanwhile, %.0f ms in the middle, %.0f ms the longest" % (
            held, len(calls), 1_000 * calls[len(calls) // 2], 1_000 * calls[-1]), file=sys.stderr)
        self.assertGreater(held, 2_000)

    def test_another_address(self):
        """Room is made at the cost of the address that has the most: the others' connections stay open."""
        desk = self.serve("--patience", 30)
        with connected(desk.port, source="127.0.0.2") as other:
            other.sendall(head_of(desk.port, "/health"))
            self.assertEqual(status_of(other), 200)
            hog = subprocess.run([sys.executable, "-c", HOG, HOST, str(desk.port), "3000", "2"],
                                 stdout=subprocess.DEVNULL, timeout=30)
            self.assertEqual(hog.returncode, 0)
            other.sendall(head_of(desk.port, "/health"))
            self.assertEqual(status_of(other), 200)

    def test_a_class_of_browsers(self):
        """Eight participants with six connections each, all of one address, are never closed."""
        desk = self.serve("--patience", 30)
        with contextlib.ExitStack() as stack:
            browsers = [stack.enter_context(connected(desk.port)) for _ in range(48)]
            for _ in range(3):
                for place, connection in enumerate(browsers):
                    connection.sendall(head_of(desk.port, desk.links[1 + place % 8] + "/rows.csv"))
                for connection in browsers:
                    self.assertEqual(status_of(connection), 200)
        self.assertIn(b"200 OK", asked(desk.port, head_of(desk.port, "/health")))


if __name__ == "__main__":
    unittest.main()
