"""Work that is shared among processes: Ctrl-C at any moment, processes that are ended, exceptions, and order."""

import contextlib
import multiprocessing
import os
import signal
import subprocess
import sys
import threading
import time
import unittest
from collections.abc import Callable, Iterator

from support import TOP

from evp.files import InputError
from evp.workers import Workers

WAIT = 60  # seconds at most
STRIDE = 20  # Ctrl-C comes at every so many steps
LARGE = 300_000  # bytes, more than a connection holds

# Runs `run_local` again and again, and sends SIGINT to itself at one step of Python after another: calls, lines and
# returns of the first process alone. Prints how often it was sent, and how often KeyboardInterrupt came of that: where
# it comes in a destructor, Python prints it and goes on.
ANY_MOMENT = """
import os, signal, sys, time
sys.path.insert(0, sys.argv[1])
from evp.years import run

signal.signal(signal.SIGINT, signal.default_int_handler)
first, steps, last = os.getpid(), 0, 0

def answers(sheets, options):
    time.sleep(0.002)
    return ["an answer" for _ in sheets]

def trace(frame, event, word):
    global steps
    if os.getpid() != first:
        sys.settrace(None)
        return None
    steps += 1
    if steps == last:
        sys.settrace(None)
        signal.raise_signal(signal.SIGINT)
    return trace

def is_stopped():
    global steps
    steps = 0
    chunks = (run.Chunk([str(i)], [bytes(70_000)]) for i in range(6))
    sys.settrace(trace)
    try:
        for _ in run.run_local(chunks, run.Options(), 2):
            pass
    except KeyboardInterrupt:
        return True
    finally:
        sys.settrace(None)
    return False

run.answers = answers
is_stopped()  # what is loaded at first is loaded
is_stopped()
moments = range(1, steps * 9 // 10, int(sys.argv[2]))
stopped = 0
for last in moments:
    stopped += is_stopped()
print(len(moments), stopped)
"""


def doubled(number: int) -> int:
    return 2 * number


class InterruptTest(unittest.TestCase):
    def test_ctrl_c_at_any_moment(self):
        """Whatever the first process does when Ctrl-C comes, it ends and so do the others; none waits for another."""
        started = subprocess.Popen([sys.executable, "-c", ANY_MOMENT, TOP / "python", str(STRIDE)],
                                   stdout=subprocess.PIPE, stderr=subprocess.PIPE, text=True, start_new_session=True)
        try:
            out, err = started.communicate(timeout=WAIT)
        finally:
            with contextlib.suppress(ProcessLookupError):  # none is left
                os.killpg(started.pid, signal.SIGKILL)
            started.communicate()
        sent, stopped = map(int, out.split())
        self.assertGreater(sent, 50, err)
        self.assertGreater(stopped, sent * 9 // 10, err)


class WorkersTest(unittest.TestCase):
    def workers(self, work: Callable, jobs: int = 2) -> Workers:
        return Workers(lambda: work, jobs, "a process was ended")

    def first_at_last(self) -> Callable[[int], int]:
        """Work on 0, 1, 2 and 3 that is done with 0 when it is done with the others."""
        reading, writing = os.pipe()
        self.addCleanup(os.close, reading)
        self.addCleanup(os.close, writing)

        def work(number: int) -> int:
            if number:
                os.write(writing, b".")
            else:
                for _ in range(3):
                    os.read(reading, 1)
            return number

        return work

    def tearDown(self):
        self.assertEqual(multiprocessing.active_children(), [])

    def test_every_part_once(self):
        for jobs in (1, 2, 5):
            with self.workers(doubled, jobs) as workers:
                self.assertEqual(sorted(workers.as_finished(range(20))), [(i, 2 * i) for i in range(20)])
                self.assertEqual(sorted(workers.as_finished(range(3))), [(i, 2 * i) for i in range(3)])
                self.assertEqual(list(workers.as_finished([])), [])

    def test_order(self):
        with self.workers(self.first_at_last()) as workers:
            found = [part for part, _ in workers.as_finished(range(4))]
        self.assertEqual((found[:2], sorted(found[2:])), ([1, 2], [0, 3]))
        with self.workers(self.first_at_last()) as workers:
            self.assertEqual(list(workers.in_order(range(4))), [0, 1, 2, 3])

    def test_no_process_without_a_part(self):
        with self.workers(doubled, 9) as workers:
            self.assertEqual(list(workers.as_finished([])), [])
            self.assertEqual(multiprocessing.active_children(), [])
            list(workers.as_finished(range(3)))
            self.assertLessEqual(len(multiprocessing.active_children()), 3)

    def test_large_parts_and_answers(self):
        """More than a connection holds, in both directions."""
        with self.workers(bytes.upper) as workers:
            found = list(workers.in_order([b"a" * LARGE] * 9))
        self.assertEqual(found, [b"A" * LARGE] * 9)

    def test_one_part_is_read_ahead(self):
        read = []

        def parts() -> Iterator[int]:
            for i in range(30):
                read.append(i)
                yield i

        with self.workers(doubled) as workers:
            for done, _ in enumerate(workers.as_finished(parts()), 1):
                self.assertLessEqual(len(read) - done, 4)  # one with each process, one answered with it, one ahead

    def test_exceptions(self):
        """An exception of a process is that of the caller, with the process's traceback."""
        for jobs in (1, 3):
            with self.workers(lambda part: 12 // part, jobs) as workers:
                with self.assertRaises(ZeroDivisionError) as caught:
                    list(workers.as_finished([3, 2, 1, 0]))
            self.assertIn("12 // part", str(caught.exception.__cause__))
        with self.workers(lambda part: 12 // part) as workers:
            found = workers.in_order([3, 0, 1])
            self.assertEqual(next(found), 4)
            with self.assertRaises(ZeroDivisionError):
                next(found)

    def test_a_process_that_is_ended(self):
        """While it works, and while it has nothing to do."""
        with self.workers(lambda part: os._exit(9)) as workers, self.assertRaisesRegex(InputError, "was ended"):
            list(workers.as_finished([1, 2, 3]))
        with self.workers(doubled) as workers:
            list(workers.as_finished(range(9)))
            for process in multiprocessing.active_children():
                process.kill()
                process.join()
            with self.assertRaisesRegex(InputError, "was ended"):
                list(workers.as_finished([1, 2, 3]))

    def test_a_process_that_is_ended_in_a_command(self):
        """Commands end by SIGPIPE where their reader has gone; a process that has gone is an error all the same."""
        before = signal.signal(signal.SIGPIPE, signal.SIG_DFL)
        try:
            self.test_a_process_that_is_ended()
        finally:
            signal.signal(signal.SIGPIPE, before)

    def test_left_in_the_middle(self):
        """Processes that still work are killed, and are not waited for."""
        began = time.monotonic()
        with self.workers(time.sleep) as workers:
            self.assertEqual(next(workers.as_finished([0, WAIT, WAIT, WAIT])), (0, None))
        self.assertLess(time.monotonic() - began, WAIT / 2)

    def test_in_a_thread(self):
        """A server's threads may share work too."""
        found = []

        def share():
            with self.workers(doubled) as workers:
                found.extend(workers.in_order(range(9)))

        thread = threading.Thread(target=share)
        thread.start()
        thread.join(WAIT)
        self.assertEqual(found, [2 * i for i in range(9)])


if __name__ == "__main__":
    unittest.main()
