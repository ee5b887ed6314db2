"""Where evp.library finds the shared library: in an empty folder, with one installed or not."""

import os
import shutil
import subprocess
import sys
import tempfile
import unittest
from pathlib import Path

from support import LIBRARY, TOP

NAME = "libevaporation.so.1"
PROGRAM = """
import sys
from evp.library import load
try:
    library = load()
except FileNotFoundError as error:
    sys.exit(str(error))
print(library.path)
print("%d %d" % library.report(open(sys.argv[1], "rb").read()).total)
"""
ON_WINDOWS = """
import ctypes.util, os, sys
sys.platform = "win32"
ctypes.util.find_library = lambda name: os.environ.get("ON_PATH") if name == "evaporation.dll" else None
""" + PROGRAM


class FoundTest(unittest.TestCase):
    """The package alone, away from the repository."""

    def setUp(self):
        folder = tempfile.TemporaryDirectory(prefix="found ")
        self.addCleanup(folder.cleanup)
        self.folder = Path(folder.name).resolve()
        self.package = self.folder / "top" / "python" / "evp"
        shutil.copytree(TOP / "python" / "evp", self.package, ignore=shutil.ignore_patterns("__pycache__"))

    def put(self, name: str, file: str = NAME) -> Path:
        """The library under the test, in a folder."""
        path = self.folder / name / file
        path.parent.mkdir(parents=True, exist_ok=True)
        shutil.copy(LIBRARY.path, path)
        return path

    def load(self, program: str = PROGRAM, **words: str) -> subprocess.CompletedProcess:
        """What a program prints that loads the library, with these words in its environment and no others."""
        return subprocess.run(
            [sys.executable, "-B", "-c", program, TOP / "samples/table-3-5-day.evp"], capture_output=True, text=True,
            env={"PATH": os.environ["PATH"], "PYTHONPATH": str(self.package.parent), **words})

    def assert_found(self, path: Path, program: str = PROGRAM, **words: str):
        run = self.load(program, **words)
        self.assertEqual((run.stdout, run.stderr), ("%s\n44140776 44140793\n" % path, ""))

    def test_each_before_the_next(self):
        """Last the installed one, before it the repository's, a release's, a wheel's, and first EVP_LIBRARY's."""
        installed = self.put("installed/lib")
        self.assert_found(installed, LD_LIBRARY_PATH=str(installed.parent))
        for name in ("top/target/lib", "top/lib", "top/python/evp"):
            self.assert_found(self.put(name), LD_LIBRARY_PATH=str(installed.parent))
        named = self.put("named")
        self.assert_found(named, LD_LIBRARY_PATH=str(installed.parent), EVP_LIBRARY=str(named))

    def test_none(self):
        run = self.load(LD_LIBRARY_PATH=str(self.folder))
        if "44140776" in run.stdout:
            self.skipTest("a library is installed on this machine")
        self.assertEqual(run.returncode, 1)
        self.assertIn("and none is installed: bash c/shared makes it, or EVP_LIBRARY names one", run.stderr)

    def test_windows(self):
        """There the library is evaporation.dll: on PATH, in the folder bin of a release, beside the package."""
        run = self.load(ON_WINDOWS)
        self.assertIn("no evaporation.dll in ", run.stderr)
        self.assertIn("and none is installed: EVP_LIBRARY names one", run.stderr)
        words = {"ON_PATH": str(self.put("path", "evaporation.dll"))}
        self.assert_found(Path(words["ON_PATH"]), ON_WINDOWS, **words)
        for name in ("top/bin", "top/python/evp"):
            self.assert_found(self.put(name, "evaporation.dll"), ON_WINDOWS, **words)

    def test_no_library_of_that_name(self):
        """A file that is no library is as none."""
        self.put("broken").write_text("no library")
        run = self.load(LD_LIBRARY_PATH=str(self.folder / "broken"))
        self.assertNotIn(str(self.folder / "broken"), run.stdout)


if __name__ == "__main__":
    unittest.main()
