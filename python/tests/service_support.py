"""What the tests of the service share: bad clients, and participants who work meanwhile. All traffic is to
127.0.0.1."""

import contextlib
import os
import socket
import struct
import tempfile
import threading
import time
from collections import Counter
from http.client import HTTPException, HTTPResponse
from pathlib import Path

from desk_support import HOST, Desk
from support import SAMPLES, DeskTestCase

SHEET = SAMPLES / "region.evp"
RESET = struct.pack("ii", 1, 0)
SPIN = 0.02  # seconds between two looks
# The first words of `before` for a server whose time of day goes back by ten days as soon as a file is there.
CLOCK = """
import os, runpy, sys, time
real = time.time
time.time = lambda: real() - (864_000 if os.path.exists(%r) else 0)
sys.argv = sys.argv[2:]
runpy.run_path(sys.argv[0], run_name="__main__")
"""

# Runs evp after a change: the first words of `before`.
CHANGED = """
import runpy, sys
%s
sys.argv = sys.argv[2:]
runpy.run_path(sys.argv[0], run_name="__main__")
"""


def head_of(port: int, path: str, method: str = "GET", *headers: str) -> bytes:
    """A request without a body."""
    lines = ("%s %s HTTP/1.1" % (method, path), "Host: %s:%d" % (HOST, port), *headers, "", "")
    return "\r\n".join(lines).encode()


def posted(port: int, path: str, body: bytes, kind: str = "application/x-www-form-urlencoded", *more: str) -> bytes:
    return head_of(port, path, "POST", "Content-Type: " + kind, "Content-Length: %d" % len(body), *more) + body


def connected(port: int, timeout: float = 20, source: str = "") -> socket.socket:
    return socket.create_connection((HOST, port), timeout, (source, 0) if source else None)


def exchange(port: int, request: bytes, timeout: float = 20) -> bytes:
    """All that a connection answers, until it is closed."""
    found = b""
    with connected(port, timeout) as sending:
        with contextlib.suppress(OSError):
            sending.sendall(request)
            while more := sending.recv(65_536):
                found += more
    return found


def asked(port: int, request: bytes) -> bytes:
    """The answer to one request, whose connection is then closed."""
    return exchange(port, request.replace(b"\r\n\r\n", b"\r\nConnection: close\r\n\r\n", 1), 60)


def status_of(connection: socket.socket) -> int:
    """The status of the next answer of a connection that stays open; its body is read."""
    answer = HTTPResponse(connection)
    answer.begin()
    answer.read()
    return answer.status


def leave(connection: socket.socket, reset: bool):
    """Closes a connection, with what is not read yet or, by a reset, with everything."""
    if reset:
        connection.setsockopt(socket.SOL_SOCKET, socket.SO_LINGER, RESET)
    connection.close()


def is_closed(connection: socket.socket, within: float) -> bool:
    """Whether the server closes a connection in time; what it answers before is read."""
    end = time.monotonic() + within
    while (left := end - time.monotonic()) > 0:
        connection.settimeout(left)
        try:
            if connection.recv(65_536) == b"":
                return True
        except TimeoutError:
            return False
        except OSError:
            return True
    return False


class Worker(threading.Thread):
    """A participant who makes calls until it is told to stop, and keeps how long each took. A connection that was
    closed between two calls is opened again, as a browser does."""

    def __init__(self, desk: Desk, who: int, pause: float = 0.02, done: int = 0):
        super().__init__(daemon=True)
        self.desk, self.who, self.pause, self.done = desk, who, pause, done
        self.times: list[float] = []
        self.failure, self.opened = "", 0
        self.ended = threading.Event()

    def run(self):
        client = None
        while not self.ended.wait(self.pause) and not self.failure:
            began = time.monotonic()
            try:
                if client is None:
                    client = self.desk.client(self.desk.links[self.who], timeout=20)
                    self.opened += 1
                answer = client.call("arrive", self.who, 1, own=self.done + len(self.times) + 1)
                if answer.status != 303:
                    self.failure = "%d: %s" % (answer.status, answer.text[-300:])
                self.times.append(time.monotonic() - began)
            except (OSError, HTTPException) as error:
                if client is None or isinstance(error, TimeoutError) or self.opened > 200:
                    self.failure = repr(error)
                client = None

    def stop(self) -> float:
        """The longest time that a call took."""
        self.ended.set()
        self.join(30)
        return max(self.times, default=99.0)


def quick_folder() -> tempfile.TemporaryDirectory:
    """A folder in memory where there is one: how long calls take is measured here, and a busy disk takes seconds."""
    return tempfile.TemporaryDirectory(dir="/dev/shm" if os.access("/dev/shm", os.W_OK) else None)


class ServiceTestCase(DeskTestCase):
    def setUp(self):
        super().setUp()
        folder = quick_folder()
        self.addCleanup(folder.cleanup)
        self.folder = Path(folder.name)

    def serve(self, *words: object, before: tuple = (), new: bool = True) -> Desk:
        desk = Desk(self.folder / "course.db", *(("--new", SHEET) if new else ()), *words, before=before)
        self.addCleanup(desk.close)
        return desk

    @contextlib.contextmanager
    def at_work(self, desk: Desk, within: float, people: int = 4):
        """Participants make calls meanwhile: all are taken, each in time, and all are in the ledger."""
        before = Counter(line[0] for line in desk.client(desk.links[0]).table("calls.csv"))
        workers = [Worker(desk, who, done=before[str(who)]) for who in range(1, people + 1)]
        for worker in workers:
            worker.start()
        try:
            yield workers
        finally:
            longest = [worker.stop() for worker in workers]
        self.assertIsNone(desk.process.poll(), "the server has ended: %s" % desk.said[-500:])
        self.assertEqual([worker.failure for worker in workers], [""] * people)
        self.assertLess(max(longest), within)
        self.longest = max(longest)
        kept = desk.client(desk.links[0]).table("calls.csv")
        for worker in workers:
            self.assertGreater(len(worker.times), 0)
            made = sum(line[0] == str(worker.who) for line in kept) - before[str(worker.who)]
            self.assertEqual(made, len(worker.times))

    def memory(self, desk: Desk) -> int:
        """Megabytes that the server has."""
        found = Path("/proc/%d/status" % desk.process.pid).read_text()
        return int(found.split("VmRSS:")[1].split()[0]) // 1_024

    def processor(self, desk: Desk) -> float:
        """Seconds of a processor that the server has used, whatever else runs on the machine."""
        fields = Path("/proc/%d/stat" % desk.process.pid).read_text().rpartition(")")[2].split()
        return (int(fields[11]) + int(fields[12])) / os.sysconf("SC_CLK_TCK")

    def files(self, desk: Desk) -> int:
        """Files and connections that the server has open."""
        return len(os.listdir("/proc/%d/fd" % desk.process.pid))

    def wait_for(self, true, within: float, what: str):
        end = time.monotonic() + within
        while not true():
            self.assertLess(time.monotonic(), end, what)
            time.sleep(SPIN)
