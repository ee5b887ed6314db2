"""waitress, with limits: a body is measured before it is read, a request must come and an answer be taken in time, and
nobody's connections, bytes or requests keep others from being served."""

import errno
import logging
import socket
import time
from collections import Counter, deque
from collections.abc import Callable, Iterator

from flask import Flask
from waitress.adjustments import Adjustments
from waitress.server import TcpWSGIServer
from waitress.task import ThreadedTaskDispatcher

from evp.desk.channel import Channel
from evp.desk.security import MOST_BODY
from evp.desk.supervisor import ALIVE, notify
from evp.files import InputError

HEALTH = "/health"
THREADS = 64
CONNECTIONS = 1_500
FILES_EACH = 3  # of a connection: its own, and one for a long request and a long answer
SPARE_FILES = 200  # that are no connections
ACCEPTS = 64  # connections that are taken in one round
ROOM = 20  # where no more fit, one in so many is closed
MOST_HEAD = 32_768  # bytes of the headers of a request
MOST_IN = 256_000_000  # bytes of all requests that are not whole yet, on the disk but for the first of each
MOST_OUT = 64_000_000  # bytes of all answers that wait to be taken
IN_MEMORY = 32_768  # bytes of a request, the others are on the disk
SEND_BUFFER = 262_144  # bytes of an answer that the system may hold for a client
PAUSE = 0.1  # seconds without new connections, where the system gives none
Size = Callable[[Channel], int]


class FairQueue:
    """The connections that wait for a thread, taken from each address in turn."""

    def __init__(self) -> None:
        self._lines: dict[str, deque[Channel]] = {}  # the first one is the next
        self._many = 0

    def append(self, channel: Channel) -> None:
        self._lines.setdefault(channel.addr[0], deque()).append(channel)
        self._many += 1

    def popleft(self) -> Channel:
        address, line = next(iter(self._lines.items()))
        found = line.popleft()
        del self._lines[address]
        if line:
            self._lines[address] = line  # behind the others
        self._many -= 1
        return found

    def __len__(self) -> int:
        return self._many


class Server(TcpWSGIServer):
    """The server. It closes connections of whoever has the most before it refuses any, and answers HEALTH on a thread
    of its own, so that it is answered where all others are taken."""

    channel_class = Channel
    next_check = 0.0
    paused_until = 0.0

    def __init__(self, app: Flask, listener: socket.socket, adj: Adjustments):
        self.health = ThreadedTaskDispatcher()
        self.health.set_thread_count(1)
        work = ThreadedTaskDispatcher()
        work.queue = FairQueue()
        work.set_thread_count(adj.threads)
        sockinfo = (listener.family, listener.type, listener.proto, listener.getsockname())
        super().__init__(app, {}, True, listener, dispatcher=work, adj=adj, bind_socket=False, sockinfo=sockinfo)

    def add_task(self, task: Channel) -> None:
        asked = getattr(task.requests[0], "path", "")
        (self.health if asked == HEALTH else self.task_dispatcher).add_task(task)

    # ------------------------------------------------------------------ in each round

    def readable(self) -> bool:
        """Whether connections are taken; called in each round, so that the limits are looked after here."""
        now = time.monotonic()
        if now >= self.next_check:
            self.next_check = now + self.adj.cleanup_interval
            self.maintenance(now)
        return self.accepting and now >= self.paused_until

    def handle_accept(self) -> None:
        """Takes connections. Those of a round are all taken before one is closed for them: else a new one would have
        the file number of a closed one, and be closed by what poll has found for the old one."""
        for connection, address in list(self.arrived()):
            if len(self.active_channels) >= self.adj.connection_limit and not self.make_room():
                connection.close()
                continue
            try:
                self.set_socket_options(connection)
                self.channel_class(self, connection, self.fix_addr(address), self.adj, map=self._map)
            except OSError:  # it is gone already; waitress would close the listening socket for it
                connection.close()

    def arrived(self) -> Iterator[tuple[socket.socket, tuple]]:
        """The connections that wait to be taken, ACCEPTS at most."""
        for _ in range(ACCEPTS):
            try:
                found = self.accept()
            except OSError:  # no file number is left
                self.paused_until = time.monotonic() + PAUSE
                return
            if found is None:
                return
            yield found

    def set_socket_options(self, conn: socket.socket) -> None:
        super().set_socket_options(conn)
        conn.setsockopt(socket.SOL_SOCKET, socket.SO_SNDBUF, SEND_BUFFER)

    def maintenance(self, now: float) -> None:
        notify(ALIVE)
        for channel in list(self.active_channels.values()):
            if channel.overdue(now, self.adj.channel_timeout):
                channel.drop()
        self.shed(lambda channel: channel.total_outbufs_len, MOST_OUT)
        self.shed(Channel.waiting_in, MOST_IN)

    # ------------------------------------------------------------------ who is closed first

    def make_room(self) -> bool:
        """Closes some of the connections of the address that has the most; False where all of all are at work."""
        now, channels = time.monotonic(), list(self.active_channels.values())
        for address, _ in Counter(channel.addr[0] for channel in channels).most_common():
            found = [channel for channel in channels if channel.addr[0] == address and channel.spare()]
            found.sort(key=lambda channel: channel.worth(now))
            for channel in found[:max(1, self.adj.connection_limit // ROOM)]:
                channel.drop()
            if found:
                return True
        return False

    def shed(self, size: Size, most: int) -> None:
        """Closes the connections with the most bytes of the address with the most, until all have no more than
        `most`."""
        sizes = {channel: size(channel) for channel in list(self.active_channels.values()) if size(channel)}
        total = sum(sizes.values())
        by_address: Counter[str] = Counter()
        for channel, many in sizes.items():
            by_address[channel.addr[0]] += many
        while total > most:
            address = by_address.most_common(1)[0][0]
            channel = max((channel for channel in sizes if channel.addr[0] == address), key=sizes.__getitem__)
            many = sizes.pop(channel)
            total, by_address[address] = total - many, by_address[address] - many
            channel.drop()


def most_connections() -> int:
    """As many as this process may have open, at most CONNECTIONS."""
    try:
        import resource
    except ImportError:  # not on Windows
        return 400
    soft, hard = resource.getrlimit(resource.RLIMIT_NOFILE)
    wanted = FILES_EACH * CONNECTIONS + SPARE_FILES
    if soft != resource.RLIM_INFINITY and soft < wanted:
        soft = wanted if hard == resource.RLIM_INFINITY else min(hard, wanted)
        resource.setrlimit(resource.RLIMIT_NOFILE, (soft, hard))
    fit = CONNECTIONS if soft == resource.RLIM_INFINITY else (soft - SPARE_FILES) // FILES_EACH
    return max(100, min(CONNECTIONS, fit))


def listening(address: str, port: int) -> socket.socket:
    """A socket at an address of this machine; InputError where it cannot be had."""
    family = socket.AF_INET6 if ":" in address else socket.AF_INET
    made = socket.socket(family, socket.SOCK_STREAM)
    made.setsockopt(socket.SOL_SOCKET, socket.SO_REUSEADDR, 1)
    try:
        made.bind((address, port))
    except socket.gaierror:
        made.close()
        raise InputError("%s is no address; --lan names one of this machine's, as 192.168.1.5" % address) from None
    except (OSError, OverflowError) as error:
        made.close()
        if getattr(error, "errno", None) == errno.EADDRINUSE:
            raise InputError("port %d is taken, maybe by another desk; --port N names another" % port) from None
        raise InputError("nothing can be served at %s, port %d: %s" % (
            address, port, getattr(error, "strerror", None) or error)) from None
    return made


def server_of(app: Flask, listener: socket.socket, patience: int) -> Server:
    """A server that is ready to run. `patience` is how many seconds a request may take to come, an answer may wait to
    be taken, and a connection may stay without either."""
    for name in ("waitress", "waitress.queue"):  # a queue is no matter for the terminal, and an address may be a key
        logging.getLogger(name).setLevel(logging.CRITICAL)
    adj = Adjustments(
        sockets=[listener], threads=THREADS, ident=None, max_request_body_size=MOST_BODY,
        max_request_header_size=MOST_HEAD, inbuf_overflow=IN_MEMORY, connection_limit=most_connections(), backlog=1024,
        channel_timeout=patience, cleanup_interval=1, asyncore_use_poll=True, clear_untrusted_proxy_headers=True)
    return Server(app, listener, adj)
