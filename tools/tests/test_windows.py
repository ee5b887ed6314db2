"""What evaporation.dll is made of besides the proved code: thunks, the list of exports, the place of the image, and the
zip file."""

import re
import tempfile
import unittest
import zipfile
from pathlib import Path

from tools.check import header
from tools.command import TOP
from tools.tests.test_packages import script

HEADER = """
struct evp_check { uint64_t number; uint64_t place; };
struct evp_cell { uint64_t kind; double low, high; };
struct evp_check evp_report(const uint8_t *sheet, size_t sheet_bytes);
struct evp_cell evp_add(struct evp_cell a, struct evp_cell b);
uint64_t evp_version(void);
"""
REPORT = """
__attribute__((sysv_abi)) struct evp_check sysv_evp_report(const uint8_t * sheet, size_t sheet_bytes);
struct evp_check evp_report(const uint8_t * sheet, size_t sheet_bytes) { return sysv_evp_report(sheet, sheet_bytes); }
"""
ADD = """
__attribute__((sysv_abi)) struct evp_cell sysv_evp_add(struct evp_cell a, struct evp_cell b);
struct evp_cell evp_add(struct evp_cell a, struct evp_cell b) { return sysv_evp_add(a, b); }
"""
VERSION = """
__attribute__((sysv_abi)) uint64_t sysv_evp_version(void);
uint64_t evp_version(void) { return sysv_evp_version(); }
"""


class ThunksTest(unittest.TestCase):
    def setUp(self):
        self.thunks = script("thunks")

    def test_thunks(self):
        source = header.header_source(HEADER)
        made = [self.thunks.thunk(source, call) for call in source.functions.values()]
        self.assertEqual(made, [REPORT, ADD, VERSION])

    def test_every_call(self):
        """Every call of the header has a thunk, and is exported with every pointer form."""
        text = (TOP / header.HEADER).read_text(encoding="ascii")
        calls = set(header.header_source(text).functions)
        self.assertEqual(set(re.findall(r" sysv_(evp_\w+)\([^)]*\);\n", self.thunks.main(["c"]))), calls)
        listed = self.thunks.main(["def"]).split("EXPORTS\n")[1].split()
        forms = set(re.findall(r"\b(evp_\w+_to);", (TOP / "c/exports.map").read_text(encoding="utf-8")))
        self.assertEqual((set(listed), len(listed)), (calls | forms, len(calls | forms)))

    def test_image(self):
        listed = "0000000000000020 T evp_b\n0000000000000010 t evp_a\n"
        made = self.thunks.image(["evp_a", "evp_b"], "image.bin", listed)
        self.assertIn('    .incbin "image.bin"\n', made)
        self.assertIn("    .set sysv_evp_a, evaporation_image + 16\n", made)
        self.assertIn("    .set sysv_evp_b, evaporation_image + 32\n", made)
        with self.assertRaises(KeyError):
            self.thunks.image(["evp_c"], "image.bin", "0000000000000020 T evp_b\n")


class ZipTest(unittest.TestCase):
    def test_same_bytes(self):
        """Whatever the modes and times of the files are."""
        with tempfile.TemporaryDirectory() as place:
            folder = Path(place, "package")
            (folder / "bin").mkdir(parents=True)
            (folder / "b.txt").write_text("b")
            (folder / "bin/a.dll").write_bytes(b"a")
            packed = []
            for mode in (0o600, 0o755):
                (folder / "b.txt").chmod(mode)
                script("zip").pack(folder, Path(place, "made.zip"), 1_700_000_000)
                packed.append(Path(place, "made.zip").read_bytes())
            self.assertEqual(packed[0], packed[1])
            with zipfile.ZipFile(Path(place, "made.zip")) as made:
                self.assertEqual(made.namelist(), ["package/b.txt", "package/bin/a.dll"])
                self.assertEqual(made.infolist()[0].date_time, (2023, 11, 14, 22, 13, 20))


if __name__ == "__main__":
    unittest.main()
