"""A desk as a process of its own, and its people over HTTP. All traffic is to 127.0.0.1."""

import csv
import http.client
import io
import re
import signal
import socket
import subprocess
import sys
import time
from collections.abc import Iterable
from importlib.util import find_spec
from pathlib import Path
from typing import NamedTuple
from urllib.parse import urlencode

from support import DEFAULT_SIGNALS, TOP

HOST = "127.0.0.1"
COMMAND = "serve"  # of evp, which serves
HAS_MODULES = all(find_spec(name) for name in ("flask", "jinja2", "waitress"))
NO_MODULES = "Flask or waitress is missing: bash .ci/install pages"
LINK = re.compile(r"^  (.+?) +http://127\.0\.0\.1:[0-9]+(/ledger/\S+)$", re.M)
START = 60  # seconds that a desk may take
MARKER = 0


class Answer(NamedTuple):
    """What a request gave."""
    status: int
    headers: list[tuple[str, str]]
    body: bytes

    @property
    def text(self) -> str:
        return self.body.decode()

    def told(self) -> tuple:
        """All of it but the time of day."""
        return self.status, [header for header in self.headers if header[0] != "Date"], self.body


class ReservedPort:
    """A port of this machine that nobody else gets until this is closed: it is bound here, and not listened to. A
    connection or a server that takes any port gets another one; a server that asks for this one by its number gets it,
    as often as it is started, where it sets SO_REUSEADDR as evp does."""

    def __init__(self):
        self._bound = socket.socket()
        self._bound.setsockopt(socket.SOL_SOCKET, socket.SO_REUSEADDR, 1)
        self._bound.bind(("", 0))
        self.number: int = self._bound.getsockname()[1]

    def __enter__(self) -> int:
        return self.number

    def __exit__(self, *_: object):
        self.close()

    def close(self):
        self._bound.close()


class Desk:
    """A process of `evp desk`, started and stopped; `links` are the nine paths, the marker's first. Until it is closed
    another can be started at its port."""

    def __init__(self, ledger: Path, *words: object, port: int | None = None, before: Iterable[object] = ()):
        self._reserved = None if port else ReservedPort()
        self.ledger, self.port = ledger, port or self._reserved.number
        self.clients: list[Client] = []
        self.out = ledger.with_suffix(".out")
        with open(self.out, "wb") as out:
            command = [sys.executable, TOP / "evp", COMMAND, "--ledger", ledger.name, "--port", self.port]
            self.process = subprocess.Popen(
                [str(word) for word in (*DEFAULT_SIGNALS, *before, *command, *words)], stdin=subprocess.DEVNULL,
                stdout=out, stderr=subprocess.STDOUT, cwd=ledger.parent)
        self._await()
        self.links = [link for _, link in LINK.findall(self.said)]

    @property
    def said(self) -> str:
        return self.out.read_text(encoding="utf-8", errors="replace")

    def _await(self):
        end = time.monotonic() + START
        while "Serving at" not in self.said:
            if self.process.poll() is not None or time.monotonic() > end:
                self.close()
                raise AssertionError("the desk did not start: %s" % self.said)
            time.sleep(0.01)

    def kill(self):
        """kill -9."""
        self.process.kill()
        self.process.wait()

    def close(self):
        """At the end of a test."""
        self.kill()
        for client in self.clients:
            client.close()
        if self._reserved:
            self._reserved.close()

    def stop(self) -> int:
        self.process.send_signal(signal.SIGTERM)
        try:
            return self.process.wait(20)
        except subprocess.TimeoutExpired:
            self.kill()
            raise

    def client(self, link: str = "", timeout: float = 30) -> "Client":
        self.clients.append(Client(self.port, link, timeout))
        return self.clients[-1]

    def people(self) -> list["Client"]:
        """The marker and the participants, each with a connection of their own."""
        return [self.client(link) for link in self.links]


class Client:
    """One of the people, with a connection that stays open."""

    def __init__(self, port: int, link: str, timeout: float):
        self.link = link
        self.connection = http.client.HTTPConnection(HOST, port, timeout=timeout)

    def ask(self, method: str, path: str, body: bytes | None = None, headers: dict | None = None) -> Answer:
        self.connection.request(method, path, body, headers or {})
        got = self.connection.getresponse()
        return Answer(got.status, got.getheaders(), got.read())

    def get(self, rest: str = "") -> Answer:
        return self.ask("GET", self.link + rest)

    def post(self, **fields: object) -> Answer:
        return self.ask("POST", self.link, urlencode(fields).encode(),
                        {"Content-Type": "application/x-www-form-urlencoded"})

    def call(self, kind: str, row: int, vehicles: int, own: int | None = None) -> Answer:
        """A call; the page that follows has its answer."""
        more = {} if own is None else {"own": own}
        return self.post(call=kind, row=row, vehicles=vehicles, **more)

    def table(self, name: str) -> list[list[str]]:
        """A csv file without its header."""
        return list(csv.reader(io.StringIO(self.get("/" + name).text)))[1:]

    def said(self) -> str:
        """The answer to the last call, as the page has it."""
        found = re.search(r'id="answer"><p class="h">\s*(.*?)</p>', self.get().text, re.S)
        return " ".join(found[1].split()) if found else ""

    def close(self):
        self.connection.close()


def report_words(marker: Client) -> list[int]:
    """The words of the report as the marker's file has them."""
    return [int(word) for line in marker.table("report.csv") for word in line[2:4]]
