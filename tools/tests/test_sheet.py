"""The writer and the reader of sheets, and their command."""

import contextlib
import io
import os
import tempfile
import unittest
from pathlib import Path

from tools import reckoning, sheet
from tools.sheet.__main__ import main
from tools.tests.support import FEW_CELLS, NAMES, grid_text, sample

SEASON = "season days=1 lowest=1 highest=2 vp=60\n"
ROW = "row class=1 technology=0\n"
DRIVEN = "row class=1 technology=1 saturation=45.0 mileage=84000\n"
ONE_CELL = grid_text({(1, 1): 1})

# Texts that cannot be read, and how the message begins.
FAULTS = (
    ("durations 1\n\nhoors 1", "line 3: "),
    ("durations 1 2", "line 1: durations: 24 counts wanted, 2 found"),
    ("hours" + " 1" * 25, "line 1: hours: 24 counts wanted, 25 found"),
    ("# a\nseason days=1 lowest=20.05 highest=3 vp=60", "line 2: lowest: 20.05 has 2 decimal places"),
    ("season days=1 lowest=-4000 highest=3 vp=60", "line 1: lowest: -4000 does not fit"),
    ("season days=1 lowest=1 highest=3", "line 1: season: vp is missing"),
    ("row class=256 technology=0", "line 1: class: 256 does not fit"),
    ("row class=1 technology=0 fill=x", "line 1: fill: 'x' is no number"),
    ("row class=1 technology=0 fill=1 fill=2", "line 1: fill is given twice"),
    ("row class=1 technology=0 fuel=1", "line 1: 'fuel': no such field"),
    ("row technology=0", "line 1: row: class is missing"),
    ("letters 4556", "line 1: letters: 3 bytes wanted"),
    # a field of whole things takes no point, be it for thousands or for a part
    ("\nrow class=1 technology=0 vehicles=12.000", "line 2: vehicles: 12.000 has a point"),
    ("season days=92.0 lowest=1 highest=3 vp=60", "line 1: days: 92.0 has a point"),
    ("durations 1 2 3.0", "line 1: durations: 3.0 has a point"),
    ("hours 1 2 3.", "line 1: hours: '3.' is no number"),
    ("row class=1.0 technology=0", "line 1: class: 1.0 has a point"),
    ("row class=1 technology=0.0", "line 1: technology: 0.0 has a point"),
    ("row class=1 technology=0 canister=1.0", "line 1: canister: 1.0 has a point"),
    ("row class=1 technology=0 carburettor=40.0", "line 1: carburettor: 40.0 has a point"),
    ("row class=1 technology=0 hot=30.5", "line 1: hot: 30.5 has a point"),
    ("row class=1 technology=0 fill=35.0", "line 1: fill: 35.0 has a point"),
    ("row class=1 technology=0 minutes=20.0", "line 1: minutes: 20.0 has a point"),
    ("version 1.0", "line 1: version: 1.0 has a point"),
    # more places than the field holds, zeros too
    ("row class=1 technology=0 trips=2.505", "line 1: trips: 2.505 has 3 decimal places, and the field holds 2"),
    ("row class=1 technology=0 trips=2.500", "line 1: trips: 2.500 has 3 decimal places"),
    ("row class=1 technology=0 tank=50.55", "line 1: tank: 50.55 has 2 decimal places, and the field holds 1"),
    ("row class=1 technology=0 load=1.25", "line 1: load: 1.25 has 2 decimal places"),
    ("season days=1 lowest=1 highest=3 vp=60.25", "line 1: vp: 60.25 has 2 decimal places"),
    # forms that are no plain number
    ("row class=1 technology=0 vehicles=1e3", "line 1: vehicles: '1e3' is no number"),
    ("row class=1 technology=0 vehicles=1_000", "line 1: vehicles: '1_000' is no number"),
    ("row class=1 technology=0 vehicles=1,000", "line 1: vehicles: '1,000' is no number"),
    ("row class=1 technology=0 vehicles=1 000", "line 1: '000': name=value wanted"),
    ("row class=1 technology=0 vehicles= 1000", "line 1: '1000': name=value wanted"),
    ("row class=1 technology=0 vehicles=", "line 1: vehicles: '' is no number"),
    ("row class=1 technology=0 vehicles=1/2", "line 1: vehicles: '1/2' is no number"),
    ("row class=1 technology=0 vehicles=\u0663", "line 1: vehicles: '\u0663' is no number"),
    ("row class=1 technology=0 tank=.5", "line 1: tank: '.5' is no number"),
    ("row class=1 technology=0 vehicles=+5", "line 1: vehicles: +5 has a sign"),
    ("row class=1 technology=0 tank=-5.0", "line 1: tank: -5.0 has a sign"),
    ("row class=1 technology=0 vehicles=-0", "line 1: vehicles: -0 has a sign"),
    # values beyond the field
    ("row class=1 technology=0 vehicles=4294967296", "line 1: vehicles: 4294967296 does not fit"),
    ("row class=1 technology=0 vehicles=" + "9" * 5000, "line 1: vehicles: 999"),
    ("row class=1 technology=0 tank=6553.6", "line 1: tank: 6553.6 does not fit"),
    ("row class=1 technology=0 trips=655.36", "line 1: trips: 655.36 does not fit"),
    ("season days=1 lowest=1 highest=3276.8 vp=60", "line 1: highest: 3276.8 does not fit"),
    ("durations 65536", "line 1: durations: 65536 does not fit"),
    # a grid: its end hours, 24 counts to each, and no lists beside it
    ("grid", "line 1: grid: an end hour and its counts wanted"),
    ("grid 0 1", "line 1: grid: end hour 0 is not 1 to 24"),
    ("grid 25 1", "line 1: grid: end hour 25 is not 1 to 24"),
    ("grid 256 1", "line 1: grid: 256 does not fit"),
    ("grid 1.0 1", "line 1: grid: 1.0 has a point"),
    ("grid -1 1", "line 1: grid: -1 has a sign"),
    ("grid x 1", "line 1: grid: 'x' is no number"),
    ("grid 3 1 65536", "line 1: grid 3: 65536 does not fit"),
    ("grid 3 1 2.0", "line 1: grid 3: 2.0 has a point"),
    ("grid 3 1 1e2", "line 1: grid 3: '1e2' is no number"),
    ("grid 3" + " 1" * 25, "line 1: grid 3: 24 counts wanted, 25 found"),
    ("grid 3" + " 1" * 20 + "\n\ngrid 3" + " 1" * 5, "line 3: grid 3: 24 counts wanted, 25 found"),
    (grid_text({}).replace("grid 24 0", "grid 24"), "line 24: grid 24: 24 counts wanted, 23 found"),
    (grid_text({}).replace("grid 7 ", "grid 8 "), "line 8: grid 8: 24 counts wanted, 48 found"),
    ("\n".join(grid_text({}).split("\n")[:23]), "line 23: grid 24: 24 counts wanted, 0 found"),
    ("durations 1\n" + grid_text({}), "line 2: a grid stands in place of durations and hours"),
    (grid_text({}) + "hours 1", "line 25: a grid stands in place of durations and hours"),
    # a mileage: whole kilometres, and a grid beside it
    ("row class=1 technology=1 mileage=12000.5", "line 1: mileage: 12000.5 has a point"),
    ("row class=1 technology=1 mileage=-1", "line 1: mileage: -1 has a sign"),
    ("row class=1 technology=1 mileage=4294967296", "line 1: mileage: 4294967296 does not fit"),
    ("row class=1 technology=1 mileage=84_000", "line 1: mileage: '84_000' is no number"),
    ("row class=1 technology=1 mileage=1 mileage=1", "line 1: mileage is given twice"),
    ("row class=1 technology=1 mileage=1 spare=00000001", "line 1: row: mileage and spare are the same bytes"),
    (FEW_CELLS + "row class=1 technology=0\nrow class=1 technology=1 mileage=0\nrow class=1 technology=1 mileage=7\n"
     "version 1", "line 5: row: a mileage wants version 3 or 4, and version 1 is asked for"),
    # many rows: a count that the head has room for
    (FEW_CELLS + "row class=1 technology=0\n" * 256 + "version 1",
     "line 259: 256 rows do not fit the head of version 1"),
    (grid_text({}) + "row class=1 technology=0\n" * 256 + "version 3",
     "line 281: 256 rows do not fit the head of version 3"),
    (grid_text({}) + "row class=1 technology=0\n" * 65536, "line 65560: 65536 rows do not fit the head of version 4"),
    (grid_text({}) + "rows 256\n\n", "line 25: 256 rows do not fit the head of version 2"),
    ("rows 65536", "line 1: rows: 65536 does not fit"),
    (grid_text({}) + "season days=1 lowest=1 highest=2 vp=60\n" * 256, "line 280: 256 seasons do not fit the head"),
    (grid_text({}) + "zero 1\nversion 4\n", "line 25: zero: byte 7 of version 4 is one of the count of rows"),
)


class SheetTestCase(unittest.TestCase):
    """What the tests of texts share."""

    def assert_read_back(self, data: bytes):
        self.assertEqual(sheet.write(sheet.read(data)), data)

    def assert_verdict(self, text: str, start: str):
        found = sheet.verdict(sheet.write(text))
        self.assertTrue(found.startswith(start), "%r found, %r expected" % (found, start))


class TextTest(SheetTestCase):
    """Texts, and the bytes that they make."""

    def test_samples(self):
        for name in NAMES:
            with self.subTest(name=name):
                data = sample(name, ".evp")
                self.assertEqual(sheet.write(sample(name, ".txt").decode()), data)
                self.assert_read_back(data)
                self.assertIsNone(reckoning.check(data))

    def test_faults(self):
        for text, expected in FAULTS:
            with self.subTest(expected=expected):
                with self.assertRaises(sheet.TextError) as caught:
                    sheet.write(text)
                self.assertEqual(str(caught.exception)[:len(expected)], expected)

    def test_edges(self):
        """The last values that fit, signs where a field has one, zeros in front."""
        data = sheet.write(
            "durations 65535" + " 0" * 23 + "\nhours 007" + " 0" * 23 + "\n"
            "season days=1 lowest=-3276.8 highest=+3276.7 vp=6553.5\n"
            "row class=255 technology=0 canister=2 vehicles=4294967295 tank=6553.5 trips=655.35 load=0.1 "
            "saturation=7\n")
        for at, size, signed, expected in (
            (8, 2, False, 65535), (56, 2, False, 7), (106, 2, True, -32768), (108, 2, True, 32767),
            (110, 2, False, 65535),
            (112, 1, False, 255), (114, 1, False, 2), (118, 2, False, 65535), (120, 4, False, 2 ** 32 - 1),
            (124, 2, False, 65535), (128, 2, False, 1), (130, 2, False, 70),
        ):
            self.assertEqual(int.from_bytes(data[at:at + size], "little", signed=signed), expected, "byte %d" % at)
        self.assert_read_back(data)

    def test_meanings(self):
        self.assertEqual(sorted(sheet.MEANINGS), [*range(1, 22), 24, 25, 26])


class GridTest(SheetTestCase):
    """Texts with a grid."""

    def test_places(self):
        data = sheet.write(grid_text({(1, 1): 7, (2, 1): 258, (1, 2): 65535, (24, 24): 3, (3, 20): 9}) + SEASON + ROW)
        self.assertEqual(len(data), 1160 + 8 + 24)
        self.assertEqual(data[:8], b"EVP\2\0\1\1\0")
        self.assertEqual({at: data[at] for at in range(8, 1160) if data[at]},
                         {8: 7, 10: 2, 11: 1, 56: 255, 57: 255, 8 + 48 * 19 + 4: 9, 1158: 3})
        self.assertEqual(data[1160:1168].hex(), "01000a0014005802", "the season behind it")
        self.assertEqual(sheet.read(data).count("grid "), 24)

    def test_read_back(self):
        for data in (sheet.write(ONE_CELL + SEASON + ROW), sample("survey", ".evp")):
            self.assertNotIn("version", sheet.read(data))
            self.assert_read_back(data)
        for version in (1, 3, 4, 5):
            self.assert_read_back(sheet.write(grid_text({(5, 6): 1}) + SEASON + ROW + "version %d" % version))

    def test_in_disorder(self):
        """In any order, and spread over lines."""
        lines = grid_text({(1, 5): 4, (24, 5): 6}).splitlines()
        mixed = lines[::-1]
        mixed[mixed.index(lines[4])] = "grid 5 4" + " 0" * 11 + "\ngrid 05" + " 0" * 11 + " 6  # the later half"
        found, expected = (sheet.write("\n".join(order) + "\n" + SEASON + ROW) for order in (mixed, lines))
        self.assertEqual(found, expected)

    def test_verdicts(self):
        """The head says another version, and bytes that the other lacks."""
        for text, verdict in (
            (ONE_CELL + SEASON + ROW + "version 1", "refused 7 at 0 "),
            (ONE_CELL + SEASON + ROW + "version 5", "refused 3 at 3 (the version is not 1 to 4)"),
            (FEW_CELLS + SEASON + ROW + "version 2", "refused 7 at 0 "),
            (grid_text({}) + SEASON + ROW, "refused 24 at 8 (grid counts sum to 0 or above 1,000,000)"),
            (ONE_CELL + SEASON + SEASON.replace("highest=2", "highest=0") + ROW, "refused 11 at 1168 (season 2: "),
            (ONE_CELL + SEASON + ROW + "row class=9 technology=3", "refused 13 at 1192 (row 2: "),
        ):
            self.assert_verdict(text, verdict)

    def test_lists_multiplied_out(self):
        """More rows or a mileage need a grid: that of the products of the two lists."""
        for rows, version in ((ROW * 33, 4), (ROW + "row class=1 technology=1 mileage=7\n", 3)):
            data = sheet.write(FEW_CELLS + SEASON + rows)
            first = sheet.write(FEW_CELLS + SEASON + ROW)
            durations, hours = ([int.from_bytes(first[at + 2 * i:at + 2 * i + 2], "little") for i in range(24)]
                                for at in (8, 56))
            cells = [int.from_bytes(data[8 + 2 * i:10 + 2 * i], "little") for i in range(576)]
            self.assertEqual(data[3], version)
            self.assertEqual(cells, [d * t for t in hours for d in durations])

    def test_lists_as_version_2(self):
        with self.assertRaisesRegex(sheet.TextError, "too few"):
            sheet.read(sheet.write(FEW_CELLS + SEASON + ROW + "version 2"))


class MileageTest(SheetTestCase):
    """Where a mileage stands, and which version it makes."""

    def made(self, *ends: str, more: str = "") -> bytes:
        """A sheet of rows that end so."""
        return sheet.write(ONE_CELL + SEASON
                           + "".join("row class=1 technology=1 saturation=45.0%s\n" % end for end in ends) + more)

    def test_bytes(self):
        for words, data, version, last in (
            ("none", self.made(""), 2, "00000000"), ("one", self.made(" mileage=84000"), 3, "20480100"),
            ("0", self.made(" mileage=0"), 3, "00000000"),
            ("the largest", self.made(" mileage=4294967295"), 3, "ffffffff"),
            ("spare", self.made(" spare=20480100"), 2, "20480100"),
            ("spare in version 3", self.made(" spare=20480100", more="version 3"), 3, "20480100"),
            ("one in version 2", self.made(" mileage=84000", more="version 2"), 2, "20480100"),
            ("none and one", self.made("", " mileage=84000"), 3, "00000000"),
            ("one and none", self.made(" mileage=84000", " load=30.0"), 3, "20480100"),
        ):
            with self.subTest(words):
                self.assertEqual(reckoning.version_of(data), version)
                self.assertEqual(data[1188:1192].hex(), last)
                self.assertEqual(sheet.read(data).count(" mileage="), data[6] if version == 3 else 0)
                self.assert_read_back(data)

    def test_spare(self):
        self.assertEqual(self.made(" spare=20480100", more="version 3"), self.made(" mileage=84000"))

    def test_without_rows(self):
        self.assert_read_back(sheet.write(ONE_CELL + SEASON + "version 3\n"))

    def test_verdicts(self):
        for data, said in (
            (self.made(" mileage=84000"), "accepted"),
            (self.made("", " mileage=1000001"),
             "refused 25 at 1192 (row 2: mileage above 1,000,000 km, or a mileage without canister"),
            (self.made(" mileage=84000", more="version 2"), "refused 21 at 1168 (row 1: bytes 20 to 23"),
        ):
            self.assertTrue(sheet.verdict(data).startswith(said), sheet.verdict(data))


class ManyRowsTest(SheetTestCase):
    """How many rows make a version 4, and where its count stands."""

    START = ONE_CELL + SEASON

    def test_heads(self):
        for words, text, head in (
            ("32", self.START + ROW * 32, "0200012000"),
            ("32, one with a mileage", self.START + DRIVEN + ROW * 31, "0300012000"),
            ("33", self.START + ROW * 33, "0400012100"),
            ("33, the last with a mileage", self.START + ROW * 32 + DRIVEN, "0400012100"),
            ("255", self.START + ROW * 255, "040001ff00"), ("256", self.START + ROW * 256, "0400010001"),
            ("1000", self.START + ROW * 1000, "040001e803"),
            ("one, version 4", "version 4\n" + self.START + ROW, "0400010100"),
            ("one with a mileage, version 4", self.START + DRIVEN + "version 4", "0400010100"),
            ("none, version 4", self.START + "version 4", "0400010000"),
            ("33, version 3", self.START + ROW * 33 + "version 3", "0300012100"),
            ("33, version 2 and byte 7", self.START + ROW * 33 + "version 2\nzero 1", "0200012101"),
            ("33, version 1", FEW_CELLS + ROW * 33 + "version 1", "0100002100"),
            ("33, version 9", FEW_CELLS + ROW * 33 + "version 9", "0900002100"),
        ):
            with self.subTest(words):
                data = sheet.write(text)
                self.assertEqual(data[3:8].hex(), head)
                self.assertEqual(sheet.read(data).count("row "), reckoning.row_count(data))
                self.assert_read_back(data)

    def test_400_rows(self):
        many = sheet.write(self.START + ROW * 400)
        self.assertEqual(len(many), 1160 + 8 + 24 * 400)
        self.assertNotIn("version", sheet.read(many))

    def test_another_count(self):
        """A count that is not that of the records."""
        said = sheet.write(self.START + ROW * 33 + "rows 258")
        self.assertEqual((said[6:8].hex(), len(said)), ("0201", 1160 + 8 + 24 * 33))

    def test_verdicts(self):
        full = self.START + "row class=1 technology=0 vehicles=10000000\n" * 10 + "version 4\n"
        for text, verdict in (
            (self.START + ROW * 33, "accepted"), (self.START + ROW * 1000, "accepted"), (full, "accepted"),
            (self.START + ROW * 1001, "refused 5 at 6 (rows not 1 to 32, or in version 4 not 1 to 1,000)"),
            (self.START + ROW * 33 + "version 3", "refused 5 at 6 "), (self.START + "version 4", "refused 5 at 6 "),
            (self.START + ROW * 33 + "rows 34", "refused 7 at 0 "),
            (self.START + ROW * 999 + "row class=9 technology=3", "refused 13 at 25144 (row 1000: "),
            (full + "row class=1 technology=0 vehicles=1",
             "refused 26 at 1408 (row 11: more than 100,000,000 vehicles in this row"),
        ):
            self.assert_verdict(text, verdict)


class CommandTest(unittest.TestCase):
    """What the command writes and says."""

    TEXT = sample("example", ".txt")

    def setUp(self):
        folder = tempfile.TemporaryDirectory()
        self.addCleanup(folder.cleanup)
        self.folder = Path(folder.name)

    def put(self, name: str, content: bytes) -> str:
        (self.folder / name).write_bytes(content)
        return str(self.folder / name)

    def run_command(self, *words) -> tuple[int, str]:
        """The exit status of the command, and what it said."""
        out = io.StringIO()
        with contextlib.redirect_stdout(out), contextlib.redirect_stderr(out):
            status = main([str(word) for word in words])
        return status, out.getvalue()

    def test_write(self):
        target = self.folder / "a.evp"
        self.assertEqual(self.run_command("write", self.put("a.txt", self.TEXT)),
                         (0, "%s: 136 bytes, accepted\n" % target))
        self.assertEqual(target.read_bytes(), sample("example", ".evp"))

    def test_read(self):
        path = self.put("a.evp", sample("example", ".evp"))
        self.assertEqual(self.run_command("read", path), (0, sheet.read(sample("example", ".evp"))))

    def test_refused_sheets(self):
        target = self.folder / "b.evp"
        for line, said in (
            (b"cut 7", "7 bytes, refused 1 at 0 (under 8 bytes)"),
            (b"season days=0 lowest=1 highest=2 vp=60",
             "144 bytes, refused 10 at 112 (season 2: days 0, above 366, or above 366 with the seasons before)"),
            (b"row class=9 technology=3",
             "160 bytes, refused 13 at 136 (row 2: class and technology not in the table)"),
        ):
            found = self.run_command("write", self.put("b.txt", self.TEXT + line + b"\n"), target)
            self.assertEqual(found, (0, "%s: %s\n" % (target, said)))

    def test_text_is_never_overwritten(self):
        """Under its own name, another path, a link and a second name."""
        text = self.put("c.evp", self.TEXT)
        link, second, below = self.folder / "link", self.folder / "second", self.folder / "below"
        link.symlink_to(text)
        os.link(text, second)
        below.mkdir()
        for words in ((text,), (text, below / ".." / "c.evp"), (text, link), (link, text), (text, second)):
            with self.subTest(words=words):
                status, said = self.run_command("write", *words)
                self.assertEqual(status, 2)
                self.assertIn("overwrite", said)
                self.assertEqual(Path(text).read_bytes(), self.TEXT)

    def test_text_that_cannot_be_read(self):
        """It leaves no sheet."""
        status, said = self.run_command("write",
                                        self.put("d.txt", self.TEXT + b"row class=1 technology=0 vehicles=12.000\n"))
        self.assertEqual(status, 2)
        self.assertIn("line 7: vehicles: 12.000", said)
        self.assertFalse((self.folder / "d.evp").exists())

    def test_no_file(self):
        self.assertEqual(self.run_command("write", self.folder / "none.txt")[0], 2)
        self.assertEqual(self.run_command("write", self.put("a.txt", self.TEXT), self.folder)[0], 2)
