"""`evp serve` under a Python that has not what it needs: Debian's goes on, or one command is named."""

import os
import subprocess
import sys
import unittest
from unittest import mock

from desk_support import ReservedPort
from support import TOP, DeskTestCase, run

from evp import library
from evp.pages import needs

IS_DEBIAN = os.path.exists(needs.DEBIAN) and subprocess.run(
    [needs.DEBIAN, "-c", needs.HAS_ALL, *needs.PACKAGES]).returncode == 0


class LauncherTest(DeskTestCase):
    """The launcher is started with -S, so that this Python finds no packages, whichever it is."""

    def start(self, *words: object, **more: str) -> subprocess.Popen:
        environment = {**os.environ, "EVP_LIBRARY": str(library.find()), "PYTHONUNBUFFERED": "1", **more}
        found = subprocess.Popen([sys.executable, "-S", "-B", TOP / "evp", *map(str, words)], cwd=self.folder,
                                 env=environment, stdout=subprocess.PIPE, stderr=subprocess.PIPE, text=True)
        self.addCleanup(found.stdout.close)
        self.addCleanup(found.stderr.close)
        self.addCleanup(found.wait)
        self.addCleanup(found.kill)
        return found

    @unittest.skipUnless(IS_DEBIAN, "Debian's Python has not what the server needs")
    def test_debian_goes_on(self):
        """With the same arguments, also one with a space, and in the same process."""
        for name in ("serve", "desk"):
            with ReservedPort() as port:
                found = self.start(name, "--ledger", "a course.db", "--new", TOP / "samples/region.evp", "--port", port)
                said = iter(found.stdout.readline, "")
                self.assertIn("a course.db: 24 rows of", next(said))
                self.assertTrue(any("Serving at http://127.0.0.1:%d until Ctrl-C." % port in line for line in said))
            self.assertEqual(os.readlink("/proc/%d/exe" % found.pid), os.path.realpath(needs.DEBIAN))
            found.kill()
            found.wait()
            (self.folder / "a course.db").unlink()

    def test_one_command_is_named(self):
        """Where Debian's has been tried already, and so in no loop."""
        found = self.start("serve", **{needs.HAS_CHANGED: "1"})
        out, err = found.communicate(timeout=60)
        self.assertEqual((found.returncode, out, err), (
            2, "", "evp: flask and waitress and jinja2 are missing: "
            "sudo apt install python3-flask python3-waitress python3-jinja2\n"))

    def test_no_debian(self):
        with mock.patch.multiple("evp.pages.needs", DEBIAN=str(self.folder / "none"), launcher="evp",
                                 find_spec=lambda name: None):
            found = run("serve")
        self.assertEqual((found.status, found.err.count("\n")), (2, 1))
        self.assertIn(needs.INSTALL, found.err)


class NameTest(DeskTestCase):
    def test_names(self):
        """The help has `serve`; `desk` is the same command."""
        self.assertIn("\n    serve ", run("--help").out)
        self.assertNotIn("\n    desk ", run("--help").out)
        self.assertEqual(run("desk", "--help").out, run("serve", "--help").out)
        self.assertRegex(run().err, r"\bserve\b")
        self.assertNotRegex(run().err, r"\bdesk\b")
        for name in ("serve", "desk"):
            self.assertIn("--new wants a ledger: evp serve --ledger FILE", run(name, "--new", "x").err)


if __name__ == "__main__":
    unittest.main()
