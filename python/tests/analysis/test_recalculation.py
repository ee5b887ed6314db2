"""Two submissions of a series side by side: missing years, refused sheets, differences with their bands."""

import csv
import io
import unittest
from fractions import Fraction
from importlib.util import find_spec

from html_check import Page
from support import LIBRARY, TEXT, DeskTestCase, run

from evp.analysis import workbook
from evp.analysis.recalculation import Recalculated, recalculation, totals_of
from evp.analysis.series import Key, Result, results_of, year_and_region
from evp.files import InputError
from evp.library import Band

HEADER = "year,region,category,mechanism,low_mg,high_mg,class\n"
OLD = HEADER + "1990,north,total,,100,110,x\n1991,north,total,,200,210,x\n1993,north,total,,50,60,x\n" \
               "1994,north,total,,70,70,\n1995,north,total,,0,0,\n"
NEW = HEADER + "1990,north,total,,120,130,x\n1991,north,total,,205,230,x\n1992,north,total,,50,60,x\n" \
               "1993,north,total,,40,49,x\n1994,north,total,,70,70,\n1995,north,total,,5,5,\n"


def compared(old: tuple[int, int] | None, new: tuple[int, int] | None) -> Recalculated:
    sides = [None if band is None else Result(Band(*band)) for band in (old, new)]
    return Recalculated(Key("", 1990, "total", ""), *sides)


class TestLines(unittest.TestCase):
    def lines(self) -> dict[int, Recalculated]:
        found = totals_of(recalculation(results_of(OLD, "old"), results_of(NEW, "new")))
        return {line.key.year: line for line in found}

    def test_verdicts(self):
        self.assertEqual({year: line.verdict for year, line in self.lines().items()}, {
            1990: "higher", 1991: "overlap", 1992: "only new", 1993: "lower", 1994: "same", 1995: "higher"})

    def test_differences(self):
        lines = self.lines()
        self.assertEqual(lines[1990].difference, Band(120 - 110, 130 - 100))
        self.assertEqual(lines[1993].difference, Band(40 - 60, 49 - 50))
        self.assertEqual(lines[1990].percent, Fraction(100 * (250 - 210), 210))
        self.assertEqual((lines[1992].difference, lines[1992].percent, lines[1995].percent), (None, None, None))

    def test_edges(self):
        """Bands that touch overlap; those that do not are apart."""
        self.assertEqual(compared((1, 5), (5, 9)).verdict, "overlap")
        self.assertEqual(compared((1, 5), (6, 9)).verdict, "higher")
        self.assertEqual(compared((5, 9), (1, 5)).verdict, "overlap")
        self.assertEqual(compared((1, 5), (2, 5)).verdict, "overlap")
        self.assertEqual(compared((1, 5), None).verdict, "only old")

    def test_refused(self):
        old = results_of("year;region;category;mechanism;low_mg;high_mg;reason\n1990;a;total;;;;refused 15\n", "old")
        line, = recalculation(old, results_of(HEADER + "1990,a,total,,1,2,\n", "new"))
        self.assertEqual((line.verdict, line.note, line.difference), ("refused", "old: refused 15", None))

    def test_lines_without_a_mass(self):
        """A sheet without a year is left out, and one that was refused gives way to the one that was not."""
        found = results_of(HEADER + ",a,,,,,x\n1990,a,,,,,x\n1990,a,total,,1,2,\n1990,a,,,,,x\n", "a.csv")
        self.assertEqual(found, {Key("a", 1990, "total", ""): Result(Band(1, 2))})

    def test_faults(self):
        for text, said in (
            ("year,region\n", "the column category, mechanism, low_mg, high_mg is missing"),
            (HEADER, "there is no line of results"),
            (HEADER + "90,a,total,,1,2,\n", "line 2: year: '90' is no year"),
            (HEADER + "1990,a,total,,1.5,2,\n", "line 2: low_mg: '1.5' is no whole number"),
            (HEADER + "1990,a,total,,3,2,\n", "line 2: low_mg 3 is above high_mg 2"),
            (HEADER + 2 * "1990,a,total,,1,2,\n", "line 3: a 1990 total  is there twice"),
        ):
            with self.subTest(said), self.assertRaisesRegex(InputError, said):
                results_of(text, "a.csv")

    def test_names(self):
        for stem, found in (("1990", (1990, "")), ("north-1990", (1990, "north")), ("1990_south", (1990, "south")),
                            ("north", None), ("1990-2000", None), ("a19901", None)):
            self.assertEqual(year_and_region(stem), found, stem)


@unittest.skipUnless(find_spec("jinja2"), "jinja2 is missing")
class TestCommand(DeskTestCase):
    def submissions(self):
        for year, text in ((1990, TEXT), (1991, TEXT)):
            self.put_sheet("old/%d.evp" % year, text)
        for year, text in ((1991, TEXT.replace("vp=60.0", "vp=63.0")), (1992, TEXT), (1993, TEXT)):
            self.put_sheet("new/north-%d.evp" % year if year == 1993 else "new/%d.evp" % year, text)
        return self.folder / "old", self.folder / "new"

    def test_folders_of_sheets(self):
        out = self.folder / "out"
        found = run("recalculation", *self.submissions(), "-o", out)
        self.assert_plain(found, 0)
        self.assertIn("4 totals: 1 certainly higher, 1 only in the old submission, 2 only in the new submission.",
                      found.out)
        lines = list(csv.DictReader(io.StringIO((out / "recalculation.csv").read_text(encoding="utf-8-sig"))))
        self.assertEqual(len(lines), 4 * 13)
        line, = (line for line in lines if (line["year"], line["category"]) == ("1991", "total"))
        old, new = (LIBRARY.report((self.folder / name / "1991.evp").read_bytes()).total for name in ("old", "new"))
        self.assertEqual([int(line[name]) for name in list(line)[4:10]],
                         [*old, *new, new.low - old.high, new.high - old.low])
        self.assertEqual(run("recalculation", *self.submissions(), "-o", out).status, 2)  # files are there

    def test_page(self):
        out = self.folder / "out"
        self.assertEqual(run("recalculation", *self.submissions(), "-o", out).status, 0)
        html = (out / "recalculation.html").read_text(encoding="utf-8")
        self.assertEqual(Page(html).faults, [])
        self.assertIn("not the\nuncertainty of the inputs", html)
        self.assertEqual(html.count('<svg class="chart wide"'), 2)  # of the two regions

    def test_results_and_a_refused_sheet(self):
        self.put("old/results.csv", OLD)
        self.put_sheet("new/1990.evp", TEXT.replace("fill=40", "fill=200"))
        found = run("recalculation", self.folder / "old", self.folder / "new", "-o", self.folder / "out")
        self.assert_plain(found, 0)
        self.assertIn("no mass", found.out)
        text = (self.folder / "out" / "recalculation.csv").read_text(encoding="utf-8-sig")
        self.assertIn("new: refused 15 at 120", text)

    def test_nothing_is_written_over(self):
        """The folder of a submission can be the folder of the results, and no file of it is lost."""
        old, new = self.submissions()
        self.put("old/recalculation.csv", "mine")
        self.assertEqual(run("recalculation", old, new, "-o", old).status, 2)
        self.assertEqual((old / "recalculation.csv").read_text(), "mine")
        self.assertFalse((old / "recalculation.html").exists())

    def test_faults(self):
        for name, said in (("nothing", "there is no such file"), ("empty", "there is no sheet in this folder")):
            (self.folder / "empty").mkdir(exist_ok=True)
            found = run("recalculation", self.folder / name, self.folder / name, "-o", self.folder / "out")
            self.assert_plain(found, 2)
            self.assertIn(said, found.err)
        self.put_sheet("names/north.evp", TEXT)
        found = run("recalculation", self.folder / "names", self.folder / "names", "-o", self.folder / "out")
        self.assertIn("the name of a sheet of a series has one year in it", found.err)

    @unittest.skipUnless(workbook.can_write(), "openpyxl is missing")
    def test_workbook(self):
        from openpyxl import load_workbook
        for name in ("one", "two"):
            self.assertEqual(run("recalculation", *self.submissions(), "-o", self.folder / name).status, 0)
        files = [self.folder / name / "recalculation.xlsx" for name in ("one", "two")]
        self.assertEqual(files[0].read_bytes(), files[1].read_bytes())
        lines = list(load_workbook(files[0])["recalculation"].values)
        self.assertEqual(lines[0][:2], ("year", "region"))
        self.assertEqual(len(lines), 1 + 4 * 13)
        self.assertIsInstance(lines[1][4], int)

    def test_a_name_is_no_formula(self):
        if workbook.can_write():
            from openpyxl import load_workbook
            made = workbook.workbook({"a": (("b",), [["=1+1"], ["-2.5"], [2 ** 60]])})
            self.assertEqual([line[0] for line in load_workbook(io.BytesIO(made))["a"].values],
                             ["b", "'=1+1", -2.5, str(2 ** 60)])


if __name__ == "__main__":
    unittest.main()
