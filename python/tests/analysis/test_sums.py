"""Pools of any number of sheets, and sums of regions with climates of their own."""

import csv
import io
import unittest

from support import CAR, GRID_TEXT, LIBRARY, SAMPLES, SEASONS, TEXT, DeskTestCase, grid, run

from evp.figures import bands
from evp.library import Band

FOUR = GRID_TEXT + "version 4\n"


class TestPool(DeskTestCase):
    def test_three(self):
        paths = [self.put_sheet("%s.evp" % name, FOUR.replace("vehicles=700", "vehicles=%d" % many))
                 for name, many in (("a", 700), ("b", 70), ("c", 7))]
        target = self.folder / "all.evp"
        found = run("pool", *paths, "-o", target)
        self.assertEqual((found.status, found.out), (
            0, "%s: %d bytes, accepted: version 4, 2 seasons, 6 rows\n" % (target, 1272 + 48)))
        reports = [LIBRARY.report(path.read_bytes()) for path in paths]
        pooled = LIBRARY.report(target.read_bytes())
        self.assertEqual(pooled.rows, [row for report in reports for row in report.rows])
        self.assertEqual(pooled.total, Band(*(sum(ends) for ends in zip(*(report.total for report in reports)))))

    def test_refused(self):
        paths = [self.put_sheet("%s.evp" % name, FOUR) for name in "ab"]
        other = self.put_sheet("c.evp", FOUR.replace("vp=60.0", "vp=61.0"))
        target = self.folder / "all.evp"
        found = run("pool", *paths, other, "-o", target)
        self.assertEqual((found.status, target.exists()), (1, False))
        self.assertEqual(found.err, "%s, %s and %s: refused 32: the seasons or the parking of the sheets differ\n" % (
            *paths, other))
        older = self.put_sheet("d.evp", GRID_TEXT)
        found = run("pool", *paths, older, "-o", target)
        self.assertEqual(found.err, "%s: refused 3 at 3: only sheets of version 4 are pooled; evp convert --to 4 makes "
                         "one\n" % older)
        found = run("pool", older, *paths, "-o", target)
        self.assertTrue(found.err.startswith("%s: refused 3 at 3" % older), found.err)

    def test_too_many(self):
        start = grid() + SEASONS + "version 4\n"
        paths = [self.put_sheet("%s.evp" % name, start + "row class=1 technology=0\n" * 400) for name in "abc"]
        found = run("pool", *paths, "-o", self.folder / "all.evp")
        self.assertEqual(found.err, "%s, %s and %s: refused 5: the sheets together have more than 1,000 rows\n" % (
            tuple(paths)))

    def test_one(self):
        found = run("pool", self.put_sheet("a.evp", FOUR), "-o", self.folder / "all.evp")
        self.assertEqual((found.status, found.err), (
            2, "evp: a pool is of two sheets or more; name another one\n"))


class TestSum(DeskTestCase):
    PATHS = tuple(SAMPLES / ("%s.evp" % name) for name in ("region", "survey", "odometer"))

    def test_csv(self):
        lines = list(csv.DictReader(io.StringIO(run("sum", *self.PATHS, "--csv").out)))
        self.assertEqual(len(lines), 4 * 13)
        for column in ("low_mg", "high_mg"):
            for figure in {(line["category"], line["mechanism"]) for line in lines}:
                numbers = [int(line[column]) for line in lines if (line["category"], line["mechanism"]) == figure]
                self.assertEqual(sum(numbers[:-1]), numbers[-1])
        report = LIBRARY.report(self.PATHS[1].read_bytes())
        figures = [band for figure, band in bands(report).items() if not figure.row.isdigit()]
        self.assertEqual([(int(line["low_mg"]), int(line["high_mg"])) for line in lines[13:26]], figures)

    def test_text(self):
        found = run("sum", *self.PATHS)
        self.assertEqual(found.status, 0)
        total = Band(*(sum(ends) for ends in zip(*(LIBRARY.report(path.read_bytes()).total for path in self.PATHS))))
        self.assertRegex(found.out, r"\nsum of 3 sheets +[\d.]+ t +%s +%s\n" % tuple(format(end, ",") for end in total))
        self.assertIn("The low of the sum is the sum of the lows, its high the sum of the highs", found.out)

    def test_refused(self):
        path = self.put_sheet("a.evp", TEXT.replace(CAR, CAR.replace("fill=40", "fill=200")))
        found = run("sum", self.PATHS[0], path)
        self.assertEqual((found.status, found.out), (1, ""))
        self.assertIn("a.evp: refused 15", found.err)

    def test_named_twice(self):
        found = run("sum", self.PATHS[0], self.PATHS[0])
        self.assert_plain(found, 2)
        self.assertIn("this sheet is named twice", found.err)


if __name__ == "__main__":
    unittest.main()
