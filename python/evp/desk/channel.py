"""A connection of the server: one request at a time, and a time limit for each step of it.

waitress reads every request that a client sends ahead, holds up to 16 MB of answers for one that does not read, and
measures time with a clock that can be set. Here a connection has one request and one answer; the bytes behind a request
wait until its answer was taken. All limits count in seconds of a clock that nobody sets.
"""

import contextlib
import re
import socket
import struct
import time

from waitress.channel import HTTPChannel
from waitress.parser import HTTPRequestParser, ParsingError
from waitress.task import ErrorTask
from waitress.utilities import BadRequest, Error, RequestHeaderFieldsTooLarge

from evp.desk.security import HEADERS, WORDS

VERSIONS = ("1.0", "1.1")
MOST_LINES = 100  # headers of a request
FIRST_LINE = re.compile(rb"[!-~]+ [!-~]+ HTTP/[0-9.]+[ \t]*")
CONTROLS = re.compile(rb"[\x00-\x08\x0b\x0c\x0e-\x1f\x7f]|\r\n[ \t]")  # and a header that goes on in a second line
BLANKS = b" " * 32  # in a row, more than anyone sends
SLOWEST = 2_000  # bytes a second, at which an answer must be taken at least
LATE = 0.2  # seconds, after which a request that waited for a thread is looked at: is its client still there?
GRACE = 1.0  # seconds, in which a new connection or a slow reader is not yet one of the first to be closed
RESET = struct.pack("ii", 1, 0)  # SO_LINGER: the system keeps nothing for who does not read


class VersionNotSupported(Error):
    code = 505
    reason = "HTTP Version Not Supported"


class LengthRequired(Error):
    code = 411
    reason = "Length Required"


class Rejected(Exception):
    """A head that is not read, with the error that is answered."""


class Parser(HTTPRequestParser):
    """A request. One of another version than VERSIONS is answered as an error, since its rules are not known."""

    def received(self, data: bytes) -> int:
        try:
            consumed = super().received(data)
        except ValueError:  # an address that is none, as http://[
            consumed, self.error, self.completed = len(data), BadRequest(""), True
        except Rejected as rejected:
            consumed, self.error, self.completed = len(data), rejected.args[0], True
        if self.empty:  # nothing but blank lines, which could be sent for ever
            self.empty, self.error = False, BadRequest("")
        if self.headers_finished and self.error is None and self.version not in VERSIONS:
            self.error = VersionNotSupported("") if self.version else BadRequest("")
            self.completed = True
        return consumed

    def parse_header(self, header_plus: bytes) -> None:
        """Reads the head. What waitress's patterns would reject is rejected before, since they take up to minutes for
        it, in which nobody is served. A body must have a length: chunks of a byte each take seconds."""
        first, _, others = header_plus.partition(b"\r\n")
        if others.count(b"\r\n") > MOST_LINES:
            raise Rejected(RequestHeaderFieldsTooLarge(""))
        if FIRST_LINE.fullmatch(first) is None or CONTROLS.search(header_plus) or (
                BLANKS in header_plus.replace(b"\t", b" ")):
            raise ParsingError("")
        super().parse_header(header_plus)
        if self.chunked or "TRANSFER_ENCODING" in self.headers:
            raise Rejected(LengthRequired(""))


class Refused(ErrorTask):
    """The answer to a request that is rejected before it is read, with the headers of all answers."""

    def execute(self) -> None:
        error = self.request.error
        body = ("%d %s\n\n%s\n" % (error.code, error.reason, WORDS.get(error.code, WORDS[400])[1])).encode()
        self.status = "%d %s" % (error.code, error.reason)
        self.response_headers.extend([
            ("Content-Type", "text/plain; charset=utf-8"), *HEADERS.items(), ("Connection", "close")])
        self.close_on_finish = True
        self.content_length = len(body)
        self.write(body)


class Channel(HTTPChannel):
    """A connection. The time of a request counts from its first byte, that of an answer from its first byte too."""

    error_task_class = Refused
    parser_class = Parser

    def __init__(self, server, sock: socket.socket, addr, adj, map=None):
        self.ahead = b""  # what came behind a request that is not answered yet
        self.answered = False  # whether the connection has had an answer
        self.made = self.since = time.monotonic()  # since: the first byte of a request, or the last answer
        self.wrote = self.moved = self.since  # an answer: when it began, and when bytes of it were last taken
        self.sent = 0  # bytes of an answer that were taken
        self.queued = self.since  # when a request began to wait for a thread
        super().__init__(server, sock, addr, adj, map=map)

    # ------------------------------------------------------------------ requests

    def send_continue(self) -> None:
        """Nobody is asked to continue with what is too long already."""
        if self.request.error is None:
            super().send_continue()
        else:
            self.request.expect_continue = False

    def readable(self) -> bool:
        """Called for each connection in each round, so that it is as short as can be; and so is `writable`. Neither is
        true of a connection that was closed in this round: poll would be asked about its file number, which a new
        connection may have by then."""
        return self.socket is not None and not (
            self.ahead or self.requests or self.total_outbufs_len or self.will_close or self.close_when_flushed)

    def handle_read(self) -> None:
        between = self.request is None
        super().handle_read()
        if between and self.request is not None:
            self.since = time.monotonic()

    def received(self, data: bytes) -> bool:
        """Takes one request. What is behind it waits."""
        with self.requests_lock:
            if not data or self.will_close or self.close_when_flushed:
                return False
            while data and not self.requests:
                data = data[self._parse(data):]
            self.ahead = data
        return True

    def _parse(self, data: bytes) -> int:
        """Reads the request that is under way; how many bytes of the data are its own."""
        if self.request is None:
            self.request = self.parser_class(self.adj)
        request = self.request
        taken = request.received(data)
        if request.expect_continue and request.headers_finished and not self.sent_continue:
            self.send_continue()
        if request.completed:
            self.sent_continue = False
            self.request = None
            if not request.empty:
                self.requests.append(request)
                self.queued = time.monotonic()
                self.server.add_task(self)
        return taken

    def service(self) -> None:
        """Answers a request; not where its client has gone while it waited. A call to a ledger is made all the same."""
        request = self.requests[0]  # one that could not be read has no command, and maybe no path
        call = getattr(request, "command", "") == "POST" and getattr(request, "path", "").startswith("/ledger/")
        if not call and time.monotonic() - self.queued > LATE and self._left():
            self.connected = False  # waitress then skips the request, and closes
        try:
            super().service()
        except Exception:  # a request without an answer would be at work for ever
            self.requests, self.will_close = [], True
            raise
        finally:
            self.server.pull_trigger()

    def _left(self) -> bool:
        """Whether the client has closed the connection, or its own half of it, which looks the same."""
        try:
            return self.socket.recv(1, socket.MSG_PEEK | socket.MSG_DONTWAIT) == b""
        except BlockingIOError:
            return False
        except (OSError, AttributeError):  # it is closed here already
            return True

    # ------------------------------------------------------------------ answers

    def writable(self) -> bool:
        return self.socket is not None and bool(
            self.total_outbufs_len or self.will_close or self.close_when_flushed or self.ahead and not self.requests)

    def handle_write(self) -> None:
        super().handle_write()
        closing = self.will_close or self.close_when_flushed or not self.connected
        if self.ahead and not (self.requests or self.total_outbufs_len or closing):
            data, self.ahead = self.ahead, b""
            self.since = time.monotonic()
            self.received(data)

    def write_soon(self, data) -> int:
        if not self.total_outbufs_len:
            self.since = self.wrote = self.moved = time.monotonic()
            self.sent, self.answered = 0, True
        return super().write_soon(data)

    def _flush_some(self, do_close: bool = True) -> bool:
        before = self.total_outbufs_len
        moved = super()._flush_some(do_close)
        if moved:
            self.since = self.moved = time.monotonic()
            self.sent += before - self.total_outbufs_len
        return moved

    def handle_expt(self) -> None:
        """Urgent data, which HTTP has none of: it would be reported in every round, without a pause."""
        self.handle_close()

    def handle_close(self) -> None:
        """Closes the connection, and the file of a request that is not whole."""
        super().handle_close()
        request, self.request, self.ahead = self.request, None, b""
        if request is not None:
            request.close()

    # ------------------------------------------------------------------ limits

    def overdue(self, now: float, patience: float) -> bool:
        """Whether the client keeps the server waiting for longer than it waits: with its request, with taking its
        answer, or with nothing at all."""
        if self.total_outbufs_len:
            return now - self.moved > patience or now - self.wrote > patience + self.sent / SLOWEST
        return not self.requests and now - self.since > patience

    def spare(self) -> bool:
        """Whether no thread works for it."""
        return not self.requests

    def worth(self, now: float) -> tuple[int, float]:
        """What is closed first where room is needed has the least: who never sent a request or does not read, then
        who has nothing to ask at the moment, then who reads; those that have just come last. The oldest first."""
        if now - self.made < GRACE:
            rank = 3
        elif not self.answered or self.total_outbufs_len and now - self.moved > GRACE:
            rank = 0
        else:
            rank = 2 if self.total_outbufs_len else 1
        return rank, self.since

    def waiting_in(self) -> int:
        """Bytes of a request that is not whole yet."""
        request = self.request
        return 0 if request is None else request.body_bytes_received + len(request.header_plus)

    def drop(self) -> None:
        """Closes the connection now. An answer that was not taken is not kept by the system either."""
        if self.total_outbufs_len:
            with contextlib.suppress(OSError, AttributeError):  # it may be closed already
                self.socket.setsockopt(socket.SOL_SOCKET, socket.SO_LINGER, RESET)
        self.handle_close()
