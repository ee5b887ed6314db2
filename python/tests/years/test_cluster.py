"""A scheduler of Dask and three workers on this machine, one of them killed in the middle."""

import json
import os
import shutil
import signal
import subprocess
import time
import unittest
from collections import Counter
from importlib.util import find_spec
from unittest import mock

from support import TOP, DeskTestCase, library
from years.making import many_sheets, without_workbook, years
from years.test_run import WAIT, files_of

from evp.years import cluster
from evp.years.resume import Store

SHEETS = 150
HAS_DASK = find_spec("distributed") is not None and shutil.which("dask-scheduler") is not None


@unittest.skipUnless(HAS_DASK, "not run: sudo apt install python3-distributed")
class ClusterTest(DeskTestCase):
    def start(self, *words: object) -> subprocess.Popen:
        environment = {**os.environ, "PYTHONPATH": str(TOP / "python"), "EVP_LIBRARY": str(library.find())}
        log = (self.folder / "log").open("ab")
        self.addCleanup(log.close)
        started = subprocess.Popen(list(map(str, words)), env=environment, stdout=log, stderr=log, cwd=self.folder)
        self.addCleanup(started.wait)
        self.addCleanup(started.kill)
        return started

    def scheduler(self) -> str:
        """Starts a scheduler; its address."""
        told = self.folder / "scheduler.json"
        self.start("dask-scheduler", "--host", "127.0.0.1", "--port", 0, "--no-dashboard", "--scheduler-file", told)
        self.wait_until(told.exists)
        self.wait_until(lambda: told.read_text().strip().endswith("}"))
        return str(json.loads(told.read_text())["address"])

    def workers(self, address: str) -> list[subprocess.Popen]:
        return [self.start("dask-worker", address, "--nthreads", 1, "--no-nanny", "--no-dashboard", "--name", i,
                           "--local-directory", self.folder / ("w%d" % i)) for i in range(3)]

    def wait_until(self, true):
        end = time.monotonic() + WAIT
        while not true():
            self.assertLess(time.monotonic(), end, (self.folder / "log").read_text()[-2000:])
            time.sleep(0.05)

    def test_a_worker_is_killed(self):
        without_workbook(self)
        many_sheets(self.folder / "p", SHEETS, 250)
        address = self.scheduler()
        workers = self.workers(address)
        import distributed
        client = distributed.Client(address, set_as_default=False)
        client.wait_for_workers(3, timeout=WAIT)
        client.close()
        put, counts = Store.put, Counter()

        def kill_then_put(store, keys, answers):
            counts.update(keys)
            if workers[0].poll() is None and len(counts) >= 12:
                workers[0].send_signal(signal.SIGKILL)
                workers[0].wait()
            put(store, keys, answers)

        with mock.patch.object(Store, "put", kill_then_put):
            found = years(self.folder / "p", "-o", self.folder / "out", "--scheduler", address)
        self.assert_plain(found, 0)
        self.assertIsNotNone(workers[0].poll())
        self.assertEqual(len(counts), SHEETS)
        self.assertEqual(set(counts.values()), {1})
        self.assert_plain(years(self.folder / "p", "-o", self.folder / "fresh", "--jobs", 1), 0)
        self.assertEqual(files_of(self.folder / "out"), files_of(self.folder / "fresh"))

    def test_nobody_there(self):
        many_sheets(self.folder / "p", 2)
        with mock.patch.object(cluster, "TIMEOUT", 1):
            found = years(self.folder / "p", "-o", self.folder / "out", "--scheduler", "127.0.0.1:9")
            self.assert_plain(found, 2)
            self.assertIn("no scheduler of Dask answers there", found.err)
            for address in ("no address://", "host", "tcp://host:0"):
                found = years(self.folder / "p", "-o", self.folder / "out", "--scheduler", address)
                self.assert_plain(found, 2)
                self.assertIn("no address of a scheduler", found.err)


if __name__ == "__main__":
    unittest.main()
