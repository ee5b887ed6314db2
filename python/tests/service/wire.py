"""Requests as bytes, and connections that are ended in the ways that clients end them. All traffic is on loopback."""

import socket
import struct
from collections.abc import Iterable, Mapping
from typing import NamedTuple

HOST = "127.0.0.1"
RESET = struct.pack("ii", 1, 0)  # SO_LINGER with no time: close sends RST
BOUNDARY = "evp-boundary-7MA4YWxk"


class Answer(NamedTuple):
    """An answer as it came: its status (0 where there was no status line), headers in lower case, and body."""
    status: int
    headers: list[tuple[str, str]]
    body: bytes
    whole: bool

    def header(self, name: str) -> str | None:
        return next((value for found, value in self.headers if found == name), None)


NO_ANSWER = Answer(0, [], b"", False)


def connect(port: int, source: str = HOST, timeout: float = 10) -> socket.socket:
    """A connection from an address of this machine: all of 127.0.0.0/8 are, so that clients have addresses of their
    own."""
    return socket.create_connection((HOST, port), timeout, (source, 0))


def request(port: int, method: str, path: str, body: bytes = b"", headers: Mapping[str, str] | None = None) -> bytes:
    """A request that is as it should be but for what is given."""
    found = {"Host": "%s:%d" % (HOST, port), **(headers or {})}
    if body or method == "POST":
        found.setdefault("Content-Length", str(len(body)))
    lines = ["%s %s HTTP/1.1" % (method, path), *("%s: %s" % header for header in found.items()), "", ""]
    return "\r\n".join(lines).encode("latin-1") + body


def multipart(parts: Iterable[tuple[str, str, bytes]], more: str = "") -> tuple[dict[str, str], bytes]:
    """The header and the body of an upload of files: (field, file name, content). `more` are headers of each part."""
    body = b"".join(
        b"--%s\r\nContent-Disposition: form-data; name=\"%s\"; filename=\"%s\"\r\n%s\r\n%s\r\n" % (
            BOUNDARY.encode(), field.encode(), name.encode(), more.encode("latin-1"), content)
        for field, name, content in parts)
    return {"Content-Type": "multipart/form-data; boundary=" + BOUNDARY}, body + b"--%s--\r\n" % BOUNDARY.encode()


def end(connection: socket.socket, by_reset: bool = False):
    """Ends a connection, by RST where that is asked for."""
    if by_reset:
        connection.setsockopt(socket.SOL_SOCKET, socket.SO_LINGER, RESET)
    connection.close()


def leave(port: int, raw: bytes, sent: int, read: int, by_reset: bool, source: str = HOST):
    """Sends the first bytes of a request, reads as many of the answer, and leaves."""
    connection = connect(port, source)
    try:
        connection.sendall(raw[:sent])
        if read:
            connection.recv(read)
    finally:
        end(connection, by_reset)


def exchange(port: int, raw: bytes, source: str = HOST, timeout: float = 30) -> Answer:
    """The first answer to some bytes; NO_ANSWER where the connection ends or time passes without one."""
    with connect(port, source, timeout) as connection:
        try:
            connection.sendall(raw)
        except OSError:
            pass  # the server may answer before all is sent
        return read_answer(connection, not raw.startswith(b"HEAD "))


def read_answer(connection: socket.socket, has_body: bool = True) -> Answer:
    """The next answer that is no 1xx."""
    data, more = bytearray(), True
    while more:
        head, found, rest = bytes(data).partition(b"\r\n\r\n")
        if found:
            answer = _head(head)
            if not 100 <= answer.status < 200:
                return _body(connection, answer, rest) if has_body else answer._replace(whole=True)
            data = bytearray(rest)
            continue
        more = _receive(connection, data)
    return _head(bytes(data)) if data else NO_ANSWER


def _receive(connection: socket.socket, data: bytearray) -> bool:
    try:
        got = connection.recv(65_536)
    except OSError:  # reset, or time is over
        return False
    data += got
    return bool(got)


def _head(head: bytes) -> Answer:
    line, *lines = head.decode("latin-1").split("\r\n")
    words = line.split(" ", 2)
    good = len(words) >= 2 and words[0] in ("HTTP/1.0", "HTTP/1.1") and len(words[1]) == 3 and words[1].isdigit()
    pairs = (line.partition(":") for line in lines)
    return Answer(int(words[1]) if good else 0, [(name.lower(), value.strip()) for name, _, value in pairs], b"", False)


def _body(connection: socket.socket, answer: Answer, rest: bytes) -> Answer:
    """The answer with its body, as long as its header says or to the end of the connection."""
    data, length = bytearray(rest), answer.header("content-length")
    if length is not None and length.isdigit():
        while len(data) < int(length) and _receive(connection, data):
            pass
        return answer._replace(body=bytes(data[:int(length)]), whole=len(data) >= int(length))
    while _receive(connection, data):
        pass
    return answer._replace(body=bytes(data), whole=True)
