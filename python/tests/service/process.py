"""The server as a process of its own, with its memory and its open descriptors."""

import os
import re
import resource
import signal
import subprocess
import sys
import threading
import time
from collections.abc import Iterable
from pathlib import Path
from typing import NamedTuple

from desk_support import LINK, START, ReservedPort
from support import DEFAULT_SIGNALS, TOP

COMMAND = "serve"  # the command of evp that serves


class Use(NamedTuple):
    """What a process uses at a moment."""
    memory: float  # resident, in MB
    descriptors: int
    threads: int


class Server:
    """The server with a ledger; `links` are nine paths, the marker's first, where the ledger is new."""

    def __init__(self, ledger: Path, *words: object, before: Iterable[object] = ()):
        """Starts it; `before` are words in front of the command, as those of another program that starts it."""
        self.ledger, self._out = ledger, ledger.with_suffix(".out")
        with ReservedPort() as self.port, open(self._out, "wb") as out:
            command = [*before, sys.executable, TOP / "evp", COMMAND, "--ledger", ledger.name, "--port", self.port]
            self.process = subprocess.Popen(
                [str(word) for word in (*DEFAULT_SIGNALS, *command, *words)], stdin=subprocess.DEVNULL, stdout=out,
                stderr=subprocess.STDOUT, cwd=ledger.parent)
            self._await()
        self.links = [link for _, link in LINK.findall(self.printed)]

    @property
    def printed(self) -> str:
        return self._out.read_text(encoding="utf-8", errors="replace")

    def _await(self):
        last = time.monotonic() + START
        while "Serving at" not in self.printed:
            if not self.is_alive() or time.monotonic() > last:
                self.kill()
                raise AssertionError("the server did not start: %s" % self.printed)
            time.sleep(0.02)

    def is_alive(self) -> bool:
        return self.process.poll() is None

    def use(self) -> Use:
        """What the process uses now; zeros where it has ended."""
        folder = Path("/proc/%d" % self.process.pid)
        try:
            status = (folder / "status").read_text()
            found = dict(re.findall(r"(VmRSS|Threads):\s+([0-9]+)", status))
            return Use(int(found["VmRSS"]) / 1024, len(os.listdir(folder / "fd")), int(found["Threads"]))
        except (OSError, KeyError):  # it ends, or has ended
            return Use(0, 0, 0)

    def seconds(self) -> float:
        """Processor time that the process has used."""
        try:
            fields = Path("/proc/%d/stat" % self.process.pid).read_text().rpartition(")")[2].split()
        except OSError:
            return 0
        return (int(fields[11]) + int(fields[12])) / os.sysconf("SC_CLK_TCK")

    def stop(self) -> int:
        """Its exit status after SIGTERM."""
        self.process.send_signal(signal.SIGTERM)
        try:
            return self.process.wait(30)
        except subprocess.TimeoutExpired:
            self.kill()
            return -signal.SIGKILL

    def kill(self):
        self.process.kill()
        self.process.wait()


class Processors:
    """How much of the machine's processors others use from now on, so that limits of time can allow for it."""

    def __init__(self, server: Server):
        self._server = server
        self._busy, self._all = self._machine()
        self._own = self._ours()

    def _machine(self) -> tuple[float, float]:
        """Seconds of all processors that were used, and all seconds."""
        with open("/proc/stat", encoding="ascii") as file:
            found = [int(word) / os.sysconf("SC_CLK_TCK") for word in file.readline().split()[1:9]]
        return sum(found) - found[3] - found[4], sum(found)  # without idle and waiting for the disk

    def _ours(self) -> float:
        """Seconds of the server, of this process, and of those that it started and that have ended."""
        used = (resource.getrusage(who) for who in (resource.RUSAGE_SELF, resource.RUSAGE_CHILDREN))
        return self._server.seconds() + sum(use.ru_utime + use.ru_stime for use in used)

    def left(self) -> float:
        """The share of the processors that others left, 0.02 at least."""
        busy, total = self._machine()
        others = busy - self._busy - (self._ours() - self._own)
        return min(1.0, max(0.02, 1 - others / max(0.01, total - self._all)))


class Watch(threading.Thread):
    """Looks at what a server uses twice a second; keeps all of it, and the most."""

    def __init__(self, server: Server):
        super().__init__(daemon=True)
        self._server, self._ended = server, threading.Event()
        self.seen = [server.use()]
        self.most = self.seen[0]

    def run(self):
        while not self._ended.wait(0.5):
            self.seen.append(self._server.use())
            self.most = Use(*map(max, self.most, self.seen[-1]))

    def tenths(self) -> list[Use]:
        """What was used after each tenth of the time."""
        return [self.seen[(len(self.seen) - 1) * i // 10] for i in range(11)]

    def stop(self):
        self._ended.set()
        self.join()
