"""The wheel that release/wheel.py makes, from an archive whose files are made up, and the manual page of evp."""

import base64
import csv
import hashlib
import importlib.util
import io
import tarfile
import tempfile
import unittest
import zipfile
from pathlib import Path
from types import ModuleType

from tools.command import TOP

TIME = 1_700_000_000
FILES = {
    "LICENSE": b"a licence", "PROVED": b"what was proved",
    "lib/libevaporation.so.1.0.0": b"\x7fELF GLIBC_2.14\0GLIBC_2.2.5",
    "python/evp/__init__.py": b"", "python/evp/pages/templates/a.html": b"<p>",
    "samples/one.evp": b"EVP", "docs/A.md": b"",
}


def script(name: str) -> ModuleType:
    """A program under release/."""
    spec = importlib.util.spec_from_file_location(name, TOP / "release" / (name + ".py"))
    assert spec is not None and spec.loader is not None
    module = importlib.util.module_from_spec(spec)
    spec.loader.exec_module(module)
    return module


class WheelTest(unittest.TestCase):
    """A wheel of an archive with few files."""

    def setUp(self):
        folder = tempfile.TemporaryDirectory(prefix="a wheel ")
        self.addCleanup(folder.cleanup)
        self.folder = Path(folder.name)
        self.wheel = script("wheel")

    def make(self, ending: str = "", **changed: bytes) -> Path:
        """The wheel of the files, some of them changed."""
        archive = self.folder / ("evaporation-1.0.0-linux-x86_64%s.tar.gz" % ending)
        with tarfile.open(archive, "w:gz") as tar:
            for name, data in {**FILES, **changed}.items():
                member = tarfile.TarInfo("evaporation-1.0.0-linux-x86_64/" + name)
                member.size, member.mtime = len(data), TIME
                tar.addfile(member, io.BytesIO(data))
        return self.wheel.write(self.wheel.Archive(archive), self.folder / "made")

    def test_files(self):
        made = self.make()
        self.assertEqual(made.name, "evp-1.0.0-py3-none-manylinux_2_17_x86_64.manylinux2014_x86_64.whl")
        with zipfile.ZipFile(made) as wheel:
            info = "evp-1.0.0.dist-info/"
            self.assertEqual(set(wheel.namelist()), {
                "evp/__init__.py", "evp/pages/templates/a.html", "evp/samples/one.evp", "evp/libevaporation.so.1",
                *(info + name for name in ("LICENSE", "METADATA", "PROVED", "RECORD", "WHEEL", "entry_points.txt"))})
            self.assertEqual(wheel.read("evp/libevaporation.so.1"), FILES["lib/libevaporation.so.1.0.0"])
            self.assertIn("\nVersion: 1.0.0\n", wheel.read(info + "METADATA").decode())
            tags = [line for line in wheel.read(info + "WHEEL").decode().splitlines() if line.startswith("Tag: ")]
            self.assertEqual(tags, ["Tag: py3-none-manylinux_2_17_x86_64", "Tag: py3-none-manylinux2014_x86_64"])

    def test_record(self):
        """RECORD has every file with its digest and length."""
        with zipfile.ZipFile(self.make()) as wheel:
            own = wheel.namelist()[-1]
            rows = {name: rest for name, *rest in csv.reader(io.StringIO(wheel.read(own).decode()))}
            self.assertEqual(rows.pop(own), ["", ""])
            expected = {}
            for name in wheel.namelist()[:-1]:
                digest = base64.urlsafe_b64encode(hashlib.sha256(wheel.read(name)).digest()).decode().rstrip("=")
                expected[name] = ["sha256=" + digest, str(len(wheel.read(name)))]
            self.assertEqual(rows, expected)

    def test_same_bytes(self):
        first = self.make().read_bytes()
        self.assertEqual(self.make().read_bytes(), first)
        self.assertNotEqual(self.make(PROVED=b"another").read_bytes(), first)

    def test_unproved_is_an_earlier_version(self):
        self.assertTrue(self.make("-unproved").name.startswith("evp-1.0.0.dev0-"))

    def test_library_that_needs_more(self):
        """A library of a later C library is refused, since the wheel's tags would not be true."""
        with self.assertRaisesRegex(ValueError, r"needs glibc 2\.34, and the wheel's tags promise 2\.17"):
            self.make(**{"lib/libevaporation.so.1.0.0": b"GLIBC_2.2.5 GLIBC_2.34"})


class ManualTest(unittest.TestCase):
    """The manual page."""

    def test_commands(self):
        page = script("manual").manual(TOP, "1.0.0")
        for line in ("\n    check ", "\n    explain ", "\n    mark ", "\n.SH FILES\n"):
            self.assertIn(line, page)
        self.assertNotIn("--help\n", page.replace("\\-\\-help\n", ""))


if __name__ == "__main__":
    unittest.main()
