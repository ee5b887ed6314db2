"""Clients that leave early, stall, hold connections or send what is no request, all at once and for some seconds:

    /usr/bin/python3 python/tests/service/bad_clients.py --port 8765 --seconds 60

prints as JSON how many of each kind there were and what came of them. It is a process of its own, so that it takes
nothing from the clients that are measured beside it. Clients of a kind have addresses of their own in 127.0.0.0/8.
"""

import argparse
import json
import random
import resource
import select
import socket
import string
import sys
import threading
import time
from collections import Counter
from collections.abc import Callable
from pathlib import Path
from typing import NamedTuple

if __name__ == "__main__":
    sys.path.insert(0, str(Path(__file__).resolve().parents[1]))

from service import wire  # noqa: E402

SAMPLES = Path(__file__).resolve().parents[3] / "samples"
MOST = 100_000  # clients of a kind
STALLED, PIPELINED = 40, 182  # connections that are never read, and requests on each
SLOW, HOGS = 50, 4_500  # connections that send a byte a second, and that send one byte and stay
HOLD = 20  # seconds for which a reader stalls
REFUSED = frozenset(range(400, 500))
BUSY = frozenset((0, 429, 503))  # the connection was closed, or the client was asked to wait


class Kind(NamedTuple):
    """A request that is not as it should be: its bytes, the statuses that answer it beside BUSY, and seconds between
    two."""
    make: Callable[[int, random.Random], bytes]
    wanted: frozenset[int]
    pause: float = 0.1


# ------------------------------------------------------------------ requests


def _form(port: int, chance: random.Random) -> bytes:
    return wire.request(port, "GET", "/form")


def _wrong_host(port: int, chance: random.Random) -> bytes:
    name = chance.choice(("evil.example", "127.0.0.1", "localhost.evil.example:%d" % port, "", "[::]:%d" % port))
    return wire.request(port, chance.choice(("GET", "POST")), chance.choice(("/", "/form")), headers={"Host": name})


def _cross_site(port: int, chance: random.Random) -> bytes:
    header = chance.choice(({"Origin": "http://evil.example"}, {"Sec-Fetch-Site": "cross-site"},
                            {"Sec-Fetch-Site": "same-site", "Origin": "null"}))
    return wire.request(port, "POST", "/form/check", b"{}", header)


def _unknown(port: int, chance: random.Random) -> bytes:
    key = "".join(chance.choices(string.ascii_letters, k=22))
    return wire.request(port, "GET", chance.choice(("/ledger/" + key, "/no/such/page", "/../etc/passwd", "/form/")))


def _method(port: int, chance: random.Random) -> bytes:
    return wire.request(port, chance.choice(("OPTIONS", "PUT", "DELETE", "TRACE", "PROPFIND", "get")), "/form")


def _too_long(port: int, chance: random.Random) -> bytes:
    length = chance.choice((4_200_000, 10 ** 12))
    return wire.request(port, "POST", "/class", b"x" * 1_000, {"Content-Length": str(length)})


def _garbage(port: int, chance: random.Random) -> bytes:
    return chance.randbytes(chance.choice((1, 60, 4_000))) + b"\r\n\r\n"


def _tls(port: int, chance: random.Random) -> bytes:
    """A ClientHello, as of a browser that was given https."""
    hello = b"\x03\x03" + chance.randbytes(32) + b"\x20" + chance.randbytes(32) + b"\x00\x02\x13\x01\x01\x00\x00\x00"
    return b"\x16\x03\x01" + (len(hello) + 4).to_bytes(2, "big") + b"\x01" + len(hello).to_bytes(3, "big") + hello


def _huge_head(port: int, chance: random.Random) -> bytes:
    if chance.random() < 0.5:
        return wire.request(port, "GET", "/", headers={"X-Long": "x" * 400_000})
    return wire.request(port, "GET", "/" + "x" * 300_000)


def _chunked(port: int, chance: random.Random) -> bytes:
    body = chance.choice((b"2\r\n{}\r\n0\r\n\r\n", b"FFFFFFFFFFFFFFFF\r\n{}", b"-2\r\n{}\r\n0\r\n\r\n", b"zz\r\n{}\r\n",
                          b"1;" + b"x" * 9_000 + b"\r\n{\r\n0\r\n\r\n", b"1\r\n{\r\n" * 5_000 + b"0\r\n\r\n"))
    path = chance.choice(("/form/check", "/class"))
    head = wire.request(port, "POST", path, headers={"Transfer-Encoding": "chunked"})
    return head.replace(b"Content-Length: 0\r\n", b"") + body


def _bad_part(port: int, chance: random.Random) -> bytes:
    """Parts that name a codec, a file name in one, or no boundary."""
    how = chance.randrange(4)
    part = (b"--B\r\nContent-Disposition: form-data; name=\"name\"%s\r\nContent-Type: text/plain%s\r\n\r\n"
            b"%s\r\n--B--\r\n")
    codec = chance.choice((b"foo", b"hex", b"mbcs", b"idna", b"punycode", b"utf-7"))
    body = (part % (b"", b"; charset=" + codec, b"a" * 300), part % (b"; filename*=foo''a", b"", b"x"),
            part % (b"", b"; charset=punycode", b"a-" + b"b" * 150_000), b"--B\r\n\r\n--B")[how]
    boundary = chance.choice(("B", "B", "B", ""))
    path = chance.choice(("/class", "/open", "/sheet", "/form/read"))
    return wire.request(port, "POST", path, body, {"Content-Type": "multipart/form-data; boundary=" + boundary})


def _bad_lines(port: int, chance: random.Random) -> bytes:
    """A table of lines that are none."""
    sheet = (SAMPLES / "region.evp").read_bytes()
    table = b"sheet,row,mechanism,mass,unit\n" + b"x\n" * chance.choice((100, 50_000, 400_000))
    headers, body = wire.multipart((("files", "region.evp", sheet), ("files", "filed.csv", table)))
    return wire.request(port, "POST", "/class", body, headers)


def _many_fields(port: int, chance: random.Random) -> bytes:
    return wire.request(port, "POST", "/sheet", b"a&" * chance.choice((1_000, 200_000)),
                        {"Content-Type": "application/x-www-form-urlencoded"})


def _upload(port: int, chance: random.Random) -> bytes:
    paths = chance.sample(sorted((SAMPLES / "course").glob("*.evp")), 3)
    files = [("files", path.name, path.read_bytes()) for path in (*paths, SAMPLES / "course" / "filed.csv")]
    headers, body = wire.multipart(files)
    return wire.request(port, "POST", "/class", body, headers)


def _check(port: int, chance: random.Random) -> bytes:
    form = {"parking": "lists", "seasons": [], "rows": []}
    return wire.request(port, "POST", "/form/check", json.dumps(form).encode())


REQUESTS = {
    "wrong host": Kind(_wrong_host, frozenset((400, 421))),
    "cross-site post": Kind(_cross_site, frozenset((403,))),
    "unknown page or key": Kind(_unknown, frozenset((404,))),
    "other method": Kind(_method, frozenset((400, 405, 501))),
    "too long": Kind(_too_long, frozenset((413,))),
    "garbage": Kind(_garbage, REFUSED | {505}),
    "TLS": Kind(_tls, REFUSED),
    "huge head": Kind(_huge_head, frozenset((400, 414, 431))),
    "chunked body": Kind(_chunked, frozenset((411,))),
    "bad multipart": Kind(_bad_part, REFUSED, 0.5),
    "bad lines": Kind(_bad_lines, REFUSED | {303}, 3),  # what can be read of them is marked
    "many fields": Kind(_many_fields, REFUSED, 2),
}
LEFT = (_form, _form, _check, _upload, _cross_site, _wrong_host, _unknown, _too_long)  # by clients that leave early


# ------------------------------------------------------------------ clients


class Outcomes:
    """How many clients of each kind there were and what came of them; safe to use from several threads."""

    def __init__(self):
        self._lock, self.faults = threading.Lock(), list[str]()
        self.kinds: dict[str, Counter[str]] = {}

    def add(self, kind: str, outcome: object, many: int = 1):
        with self._lock:
            self.kinds.setdefault(kind, Counter())[str(outcome)] += many

    def fault(self, text: str):
        with self._lock:
            self.faults.append(text)


class Client(threading.Thread):
    """Clients of a kind, one after the other, until time is over."""

    def __init__(self, port: int, seed: str, until: float, outcomes: Outcomes, source: str):
        super().__init__(daemon=True)
        self.port, self.until, self.outcomes, self.source = port, until, outcomes, source
        self.chance = random.Random(seed)

    def run(self):
        for _ in range(MOST):
            if time.monotonic() >= self.until:
                return
            try:
                self.once()
            except ConnectionRefusedError:
                self.outcomes.fault("%s: nobody listens at the port" % type(self).__name__)
                return
            except OSError:  # the server may end a connection at any time
                self.outcomes.add(type(self).__name__, "ended by the server")

    def once(self):
        raise NotImplementedError

    def pause(self, seconds: float):
        time.sleep(max(0.0, min(seconds, self.until - time.monotonic())))


class Asking(Client):
    """Sends requests of one kind and reads the answers."""

    def __init__(self, name: str, *more):
        super().__init__(*more)
        self._name, self._kind = name, REQUESTS[name]

    def once(self):
        raw = self._kind.make(self.port, self.chance)
        try:
            status = wire.exchange(self.port, raw, self.source, 40).status
        except ConnectionRefusedError:
            raise
        except OSError:
            status = 0
        self.outcomes.add(self._name, status or "closed")
        if status not in self._kind.wanted | BUSY:
            self.outcomes.fault("%s: status %d to %r" % (self._name, status, raw[:300]))
        self.pause(self._kind.pause)


class Leaving(Client):
    """Leaves at any step of a request: before a byte, in the head, behind it, in the body, behind that, or while the
    answer comes; by close or by reset."""

    def once(self):
        raw = self.chance.choice(LEFT)(self.port, self.chance)
        head, by_reset = raw.index(b"\r\n\r\n") + 4, self.chance.random() < 0.5
        step, sent, read = self.chance.choice((
            ("before", 0, 0), ("in the head", self.chance.randrange(1, head), 0), ("behind the head", head, 0),
            ("in the body", self.chance.randrange(head, len(raw) + 1), 0), ("behind the body", len(raw), 0),
            ("behind the body", len(raw), 0), ("while answered", len(raw), self.chance.choice((1, 100, 5_000)))))
        if step != "while answered" and sent == len(raw):
            step = "behind the body"
        try:
            wire.leave(self.port, raw, sent, read, by_reset, self.source)
        except ConnectionRefusedError:
            raise
        except OSError:
            step += ", server first"
        self.outcomes.add("leaves " + step, "reset" if by_reset else "close")
        self.pause(self.chance.choice((0, 0, 0.002, 0.02)))


class Stalling(Client):
    """Sends many requests at once on each of many connections, and reads none of the answers."""

    def __init__(self, sources: list[str], *more):
        super().__init__(*more)
        self._sources = sources

    def once(self):
        raw, held = _form(self.port, self.chance) * PIPELINED, []
        for i in range(STALLED):
            connection = wire.connect(self.port, self._sources[i % len(self._sources)])
            connection.setblocking(False)
            held.append(connection)
            try:
                connection.send(raw)
            except OSError:
                pass
        self.pause(HOLD)
        for connection in held:
            _send_one(connection)
        time.sleep(0.3)
        for connection in held:
            self.outcomes.add("stalled reader", "let go by the server" if _is_ended(connection) else "held to its end")
            wire.end(connection, self.chance.random() < 0.5)


def _send_one(connection: socket.socket):
    """A byte more: a reset does not reach a client whose buffers are full, but the answer to this byte does."""
    try:
        connection.send(b"G")
    except OSError:
        pass  # it is known already


def _is_ended(connection: socket.socket) -> bool:
    """Whether the other side has ended a connection, seen without reading from it."""
    poll = select.poll()
    poll.register(connection, select.POLLRDHUP)
    return bool(poll.poll(0))


class Dripping(Client):
    """Sends a byte a second on each of many connections: heads, and bodies behind whole heads."""

    def once(self):
        slow = [_Slow(self.port, self.source, _check(self.port, self.chance), i % 2) for i in range(SLOW)]
        while slow and time.monotonic() < self.until:
            self.pause(1)
            ended = [one for one in slow if not one.send()]
            self.outcomes.add("slow sender", "let go by the server", len(ended))
            slow = [one for one in slow if one not in ended]
        for one in slow:
            self.outcomes.add("slow sender", "held to its end")
            wire.end(one.connection)


class _Slow:
    """A request that comes byte by byte, its head at once where `in_body`."""

    def __init__(self, port: int, source: str, raw: bytes, in_body: int):
        self.connection = wire.connect(port, source)
        self._rest = raw
        if in_body:
            head = raw.index(b"\r\n\r\n") + 4
            self.connection.sendall(raw[:head])
            self._rest = raw[head:]

    def send(self) -> bool:
        """A byte more; False where the server has ended it, or all is sent."""
        try:
            if _is_ended(self.connection) or not self._rest:
                raise ConnectionError
            self.connection.send(self._rest[:1])
            self._rest = self._rest[1:]
            return True
        except OSError:
            self.connection.close()
            return False


class Hogging(Client):
    """Opens as many connections as it may, sends one byte on each, and opens others for those that are ended."""

    def __init__(self, many: int, *more):
        super().__init__(*more)
        self._many = many
        self._held: list[socket.socket] = []

    def once(self):
        for _ in range(min(250, self._many - len(self._held))):
            try:
                connection = wire.connect(self.port, self.source, 5)
                connection.send(b"G")
            except ConnectionRefusedError:
                raise
            except OSError:
                self.outcomes.add("connection hog", "not connected")
                break
            self._held.append(connection)
        self.pause(0.5)
        ended = [connection for connection in self._held if _is_ended(connection)]
        self.outcomes.add("connection hog", "let go by the server", len(ended))
        self._held = [connection for connection in self._held if connection not in set(ended)]
        for connection in ended:
            connection.close()
        if time.monotonic() >= self.until:
            self.outcomes.add("connection hog", "held to its end", len(self._held))
            for connection in self._held:
                connection.close()


# ------------------------------------------------------------------ all at once


def clients(port: int, seed: int, until: float, outcomes: Outcomes, hogs: int) -> list[Client]:
    """All bad clients; those of a kind have an address of their own, and of stalled readers some have one each."""
    def more(name: str, source: str) -> tuple:
        return port, "%d %s" % (seed, name), until, outcomes, source
    found: list[Client] = [Asking(name, *more(name, "127.0.0.%d" % (10 + i))) for i, name in enumerate(REQUESTS)]
    found += [Leaving(*more("leaving %d" % i, "127.0.0.%d" % (30 + i))) for i in range(3)]
    found.append(Stalling(["127.0.0.40"], *more("stalling", "127.0.0.40")))
    found.append(Stalling(["127.0.1.%d" % i for i in range(1, STALLED + 1)], *more("stalling apart", "127.0.1.1")))
    found.append(Dripping(*more("dripping", "127.0.0.41")))
    found.append(Hogging(hogs, *more("hogging", "127.0.0.42")))
    return found


def run(port: int, seconds: float, seed: int) -> Outcomes:
    """All kinds at once for some seconds."""
    soft, hard = resource.getrlimit(resource.RLIMIT_NOFILE)
    most = min(hard, 8_000) if hard != resource.RLIM_INFINITY else 8_000
    resource.setrlimit(resource.RLIMIT_NOFILE, (max(soft, most), hard))
    outcomes, until = Outcomes(), time.monotonic() + seconds
    found = clients(port, seed, until, outcomes, min(HOGS, most - 500))
    for client in found:
        client.start()
    for client in found:
        client.join(max(0.0, until - time.monotonic()) + 60)
    return outcomes


def main():
    parser = argparse.ArgumentParser(description=__doc__.partition("\n")[0])
    parser.add_argument("--port", type=int, required=True)
    parser.add_argument("--seconds", type=float, default=60)
    parser.add_argument("--seed", type=int, default=1)
    given = parser.parse_args()
    found = run(given.port, given.seconds, given.seed)
    print(json.dumps({"kinds": found.kinds, "faults": found.faults[:50], "faulty": len(found.faults)}, indent=1))


if __name__ == "__main__":
    main()
