"""The server as a process: its health address, what ends it and what its log then says, and whose turn it is."""

import contextlib
import io
import os
import shutil
import signal
import socket
import subprocess
import sys
import threading
import time
import unittest
from pathlib import Path
from unittest import mock

from desk_support import COMMAND, HAS_MODULES, HOST, NO_MODULES, Desk, ReservedPort
from service_support import CHANGED, ServiceTestCase, Worker, asked, connected, head_of, is_closed, leave, status_of
from support import DEFAULT_SIGNALS, LIBRARY, SAMPLES, TOP, DeskTestCase, least

from evp.desk import command, ledger, memory, store
from evp.desk.ending import Ending

BREAKS = """
import waitress.wasyncore as loop, time
began, real = [], loop.poll2
def poll2(*words, **more):
    began.append(time.monotonic())
    if time.monotonic() > began[0] + 1:
        raise RuntimeError("the loop broke")
    return real(*words, **more)
loop.poll2 = poll2
"""
KEPT = "; every call that was answered is kept\n"


@unittest.skipUnless(HAS_MODULES, NO_MODULES)
class EndingTest(ServiceTestCase):
    """The last line of the log says what ended the server."""

    def ended(self, desk: Desk, number: int) -> tuple[int, str]:
        desk.process.send_signal(number)
        return desk.process.wait(20), desk.said.splitlines(keepends=True)[-1]

    def test_signals(self):
        """Also where the tests were started with the signal ignored, as under nohup."""
        for number, status in ((signal.SIGTERM, 0), (signal.SIGINT, 130), (signal.SIGHUP, 0)):
            before = signal.signal(number, signal.SIG_IGN)
            try:
                desk = self.serve(new=not (self.folder / "course.db").exists())
            finally:
                signal.signal(number, before)
            line = "evp: stopped by %s%s" % (signal.Signals(number).name, KEPT)
            self.assertEqual(self.ended(desk, number), (status, line))

    def test_signals_under_load(self):
        """While participants call, twice in a row: one line, and every answered call is there afterwards."""
        desk = self.serve()
        workers = [Worker(desk, who, 0.001) for who in range(1, 5)]
        for worker in workers:
            worker.start()
        self.wait_for(lambda: all(len(worker.times) > 5 for worker in workers), 20, "no calls")
        desk.process.send_signal(signal.SIGTERM)
        desk.process.send_signal(signal.SIGINT)
        self.assertIn(desk.process.wait(20), (0, 130))
        made = {worker.who: len(worker.times) for worker in workers}
        for worker in workers:
            worker.opened = 1_000
            worker.stop()
        self.assertRegex(desk.said, "evp: stopped by SIG(TERM|INT)%s$" % KEPT)
        self.assertNotIn("Traceback", desk.said)
        again = self.serve(new=False)
        kept = again.client(desk.links[0]).table("calls.csv")
        for who, many in made.items():
            self.assertGreaterEqual(sum(line[0] == str(who) for line in kept), many)

    def test_ignored(self):
        """nohup: what its parent ignores is ignored."""
        ignoring = CHANGED % "import signal; signal.signal(signal.SIGHUP, signal.SIG_IGN)"
        desk = self.serve(before=(sys.executable, "-c", ignoring))
        desk.process.send_signal(signal.SIGHUP)
        time.sleep(0.3)
        self.assertEqual(desk.client(desk.links[1]).call("arrive", 1, 1).status, 303)
        self.assertEqual(self.ended(desk, signal.SIGTERM)[0], 0)

    def test_fault(self):
        """An exception of the loop: a line that names it, and a status for which a supervisor starts it again."""
        desk = self.serve(before=(sys.executable, "-c", CHANGED % BREAKS))
        self.assertEqual(desk.process.wait(20), 2)
        self.assertIn("evp: stopped by a fault of the server, RuntimeError: the loop broke" + KEPT, desk.said)
        self.assertNotIn("Traceback", desk.said)

    @unittest.skipUnless(sys.platform == "linux", "the map of a process is looked at")
    def test_threads_share_memory(self):
        """Eight participants at once: glibc keeps memory in two arenas, and not in one for each thread."""
        desk = self.serve()
        workers = [Worker(desk, who, 0.001) for who in range(1, 9)]
        for worker in workers:
            worker.start()
        self.wait_for(lambda: all(len(worker.times) > 5 for worker in workers), 20, "no calls")
        for worker in workers:
            worker.stop()
        maps = Path("/proc/%d/maps" % desk.process.pid).read_text().splitlines()
        private = [int(line.partition("-")[0], 16) for line in maps if " rw-p 00000000 00:00 0" in line]
        arenas = 1 + sum(not start % (64 * 2 ** 20) for start in private)  # the first is the heap of the process
        self.assertLessEqual(arenas, memory.ARENAS)

    def test_log_that_nobody_reads(self):
        """Standard output and error may be closed while it serves."""
        with ReservedPort() as port:
            process = subprocess.Popen([*DEFAULT_SIGNALS, sys.executable, TOP / "evp", COMMAND, "--port", str(port)],
                                       stdout=subprocess.PIPE, stderr=subprocess.PIPE, cwd=self.folder)
            self.addCleanup(process.wait)
            self.addCleanup(process.kill)
            self.assertIn(b"Serving at", process.stdout.readline())
        process.stdout.close()
        process.stderr.close()
        for _ in range(3):
            self.assertIn(b"200 OK", asked(port, head_of(port, "/health")))
        process.send_signal(signal.SIGTERM)
        self.assertEqual(process.wait(20), 0)

    def test_pipes_of_commands(self):
        """A command that prints ends as others do where its reader has gone: by SIGPIPE, without a word."""
        reading, writing = os.pipe()
        os.close(reading)
        found = subprocess.run([sys.executable, TOP / "evp", "show", SAMPLES / "region.evp"], stdout=writing,
                               stderr=subprocess.PIPE)
        os.close(writing)
        self.assertEqual((found.returncode, found.stderr), (-signal.SIGPIPE, b""))

    def test_line_without_a_ledger(self):
        ending = Ending()
        ending.signal = signal.SIGTERM
        self.assertEqual(ending.line(False), "evp: stopped by SIGTERM")


@unittest.skipUnless(HAS_MODULES, NO_MODULES)
class HealthTest(ServiceTestCase):
    def test_ok(self):
        desk = self.serve()
        answer = desk.client().ask("GET", "/health")
        self.assertEqual((answer.status, answer.text), (200, "ok\n"))
        self.assertEqual(dict(answer.headers)["Cache-Control"], "no-store")
        self.assertEqual(desk.client().ask("HEAD", "/health").status, 200)
        self.assertEqual(desk.client().ask("POST", "/health").status, 405)

    def test_not_kept(self):
        """503 with a sentence while calls cannot be kept, and 200 again once one was."""
        from evp.desk.app import create_app
        path = self.folder / "course.db"
        opening = store.Opening((SAMPLES / "region.evp").read_bytes(), command.dealt_in_turn(24).owners, "a test")
        people = [ledger.new_person(who, "p%d" % who, "s%d" % who) for who in range(9)]
        store.create(path, opening, people, ledger.open_first(LIBRARY, opening))
        course = ledger.CourseLedger(LIBRARY, store.Store(path))
        self.addCleanup(course.close)
        client = create_app(frozenset(["localhost"]), course).test_client()
        self.assertEqual(client.get("/health").status_code, 200)
        with mock.patch.object(course.store, "append", side_effect=store.StoreError("the disk is full")):
            with self.assertRaises(ledger.NoRoom):
                course.call(1, ledger.Wanted("arrive", 1, 1))
        answer = client.get("/health")
        self.assertEqual((answer.status_code, answer.text),
                         (503, "calls cannot be kept: the disk is full where the desk runs\n"))
        course.call(1, ledger.Wanted("arrive", 1, 1))
        self.assertEqual(client.get("/health").status_code, 200)
        course._lost = "the file is gone"
        self.assertIn("the file is gone", client.get("/health").text)


@unittest.skipUnless(HAS_MODULES, NO_MODULES)
class SupervisorTest(ServiceTestCase):
    UNIT = TOP / "python" / "evp" / "desk" / "evp-course.service"

    def test_notified(self):
        """systemd is told that it serves, each second that it still does, and that it stops."""
        path = str(self.folder / "notify")
        with socket.socket(socket.AF_UNIX, socket.SOCK_DGRAM) as told, mock.patch.dict(os.environ, NOTIFY_SOCKET=path):
            told.bind(path)
            told.settimeout(20)
            desk = self.serve()
            states = [told.recv(100) for _ in range(3)]
            self.assertEqual(states, [b"READY=1", b"WATCHDOG=1", b"WATCHDOG=1"])
            self.assertEqual(desk.stop(), 0)
            while (last := told.recv(100)) == b"WATCHDOG=1":
                pass
            self.assertEqual(last, b"STOPPING=1")

    def test_unit(self):
        """The unit starts the command that there is, and starts it again where it fails."""
        lines = self.UNIT.read_text().splitlines()
        for line in ("Restart=on-failure", "Type=notify", "NoNewPrivileges=yes", "StartLimitIntervalSec=300",
                     "ExecStart=%%h/evaporation/evp %s --ledger course.db" % COMMAND):
            self.assertIn(line, lines)
        checker = shutil.which("systemd-analyze")
        if checker is None:
            self.skipTest("systemd is not here")
        unit = self.put("evp-course.service", self.UNIT.read_text().replace("%h/evaporation/evp", str(TOP / "evp")))
        found = subprocess.run([checker, "verify", "--user", "--man=no", unit], capture_output=True, text=True,
                               env={**os.environ, "XDG_RUNTIME_DIR": str(self.folder)})
        self.assertEqual((found.returncode, found.stderr), (0, ""))


@unittest.skipUnless(HAS_MODULES, NO_MODULES)
class InProcessTest(DeskTestCase):
    """A server in this process, with an application that waits."""

    def start(self, patience: int = 5, **limits: int):
        from waitress import wasyncore

        from evp.desk import server
        from evp.desk.app import create_app
        from evp.desk.security import hosts_of
        listener = server.listening(HOST, 0)
        self.port = listener.getsockname()[1]
        self.gate, self.inside = threading.Event(), []
        app = create_app(hosts_of(HOST, self.port))
        app.add_url_rule("/wait", "wait", self.wait)
        app.add_url_rule("/fail", "fail", lambda: 1 // 0)
        for name, value in limits.items():
            changed = mock.patch.object(server, name, value)
            changed.start()
            self.addCleanup(changed.stop)
        self.server = server.server_of(app, listener, patience)
        ended = mock.patch.object(self.server, "maintenance", wraps=self.server.maintenance)
        self.rounds = ended.start()
        self.addCleanup(ended.stop)
        thread = threading.Thread(target=self.server.run, daemon=True)
        thread.start()
        self.addCleanup(wasyncore.close_all, self.server._map)
        self.addCleanup(thread.join, 10)
        self.addCleanup(self.stop)

    def stop(self):
        self.gate.set()
        self.rounds.side_effect = KeyboardInterrupt  # as a signal has it

    def wait(self):
        self.inside.append(1)
        self.gate.wait(20)
        return "done"

    def seconds_of_health(self) -> float:
        began = time.monotonic()
        self.assertIn(b"200 OK", asked(self.port, head_of(self.port, "/health")))
        return time.monotonic() - began

    def test_health_while_all_threads_are_taken(self):
        self.start(THREADS=4)
        with contextlib.ExitStack() as stack:
            for _ in range(8):
                waiting = stack.enter_context(connected(self.port))
                waiting.sendall(head_of(self.port, "/wait"))
            end = time.monotonic() + 10
            while len(self.inside) < 4 and time.monotonic() < end:
                time.sleep(0.01)
            self.assertLess(least(self.seconds_of_health, 1), 1)
            self.assertEqual(len(self.inside), 4)

    def test_fault_of_a_page(self):
        """500 has the headers of every answer too."""
        self.start()
        with contextlib.redirect_stderr(io.StringIO()):
            answer = asked(self.port, head_of(self.port, "/fail"))
        self.assertIn(b" 500 ", answer)
        for name in (b"Cache-Control: no-store", b"Content-Security-Policy: ", b"X-Content-Type-Options: nosniff"):
            self.assertIn(name, answer)

    def test_bytes_of_all_requests(self):
        """Where requests that are not whole have too many bytes together, the longest are closed."""
        self.start(patience=20, MOST_IN=3_000_000)
        with contextlib.ExitStack() as stack:
            short = stack.enter_context(connected(self.port))
            short.sendall(head_of(self.port, "/class", "POST", "Content-Length: 3900000") + b"x" * 1_000)
            long = [stack.enter_context(connected(self.port)) for _ in range(6)]
            for connection in long:
                connection.sendall(head_of(self.port, "/class", "POST", "Content-Length: 3900000") + b"x" * 900_000)
            time.sleep(2.5)  # until its limits were looked after
            closed = sum(is_closed(connection, 0.1) for connection in long)
            self.assertGreaterEqual(closed, 3)
            self.assertLess(closed, 6)
            self.assertFalse(is_closed(short, 0.2))

    def test_pages_of_those_who_left(self):
        """A page that waited for a thread is not made where its reader has gone; who is there gets it."""
        self.start(THREADS=1)
        with contextlib.ExitStack() as stack:
            for connection in [stack.enter_context(connected(self.port)) for _ in range(2)]:
                connection.sendall(head_of(self.port, "/wait"))
            for reset in (False, True) * 10:
                leaving = connected(self.port)
                leaving.sendall(head_of(self.port, "/wait"))
                leave(leaving, reset)
            time.sleep(0.5)
            self.gate.set()
            self.assertEqual(status_of(connection), 200)
            self.assertIn(b"200 OK", asked(self.port, head_of(self.port, "/form")))
        self.assertEqual(len(self.inside), 2)
        self.assertLess(len(self.server.active_channels), 4)

    def test_served_while_its_turn_takes_longer_than_the_patience(self):
        """A request that is in work is not overdue, and its answer comes."""
        self.start(patience=1)
        with connected(self.port) as waiting:
            waiting.sendall(head_of(self.port, "/wait"))
            time.sleep(3)
            self.gate.set()
            self.assertEqual(status_of(waiting), 200)


@unittest.skipUnless(HAS_MODULES, NO_MODULES)
class FairnessTest(unittest.TestCase):
    def test_each_address_in_turn(self):
        from evp.desk.server import FairQueue
        queue = FairQueue()
        for address, many in (("a", 5), ("b", 1), ("c", 2)):
            for _ in range(many):
                queue.append(mock.Mock(addr=(address, 1)))
        self.assertEqual(len(queue), 8)
        taken = [queue.popleft().addr[0] for _ in range(3)]
        queue.append(mock.Mock(addr=("b", 1)))
        taken += [queue.popleft().addr[0] for _ in range(6)]
        self.assertEqual("".join(taken), "abcacbaaa")
        self.assertFalse(queue)

    def test_turns_by_address(self):
        """One address cannot have all places, and gives each back."""
        from flask import Flask
        from werkzeug.exceptions import ServiceUnavailable

        from evp.pages.turns import Turns
        app, turns = Flask("x"), Turns(10, 2, 3)

        @contextlib.contextmanager
        def turn(address: str):
            with app.test_request_context(environ_base={"REMOTE_ADDR": address}), turns:
                yield
        for _ in range(2):
            with turn("a"), turn("a"):
                with self.assertRaises(ServiceUnavailable), turn("a"):
                    pass
                with turn("b"), self.assertRaises(ServiceUnavailable), turn("c"):
                    pass
                with turn("c"):
                    pass


if __name__ == "__main__":
    unittest.main()
