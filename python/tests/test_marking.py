"""Marks: thirty sheets against stored marks, filed.csv and its mistakes, and guesses."""

import csv
import hashlib
import json
import os
import resource
import shutil
import subprocess
import sys
import unittest
from fractions import Fraction
from importlib.util import find_spec
from unittest import mock

import make_course
from support import LIBRARY, LISTS, SAMPLES, SEASONS, TEXT, TOP, DeskTestCase, least, run, run_without_rights, sample

from evp import hints, layout, sheet
from evp.figures import Figure, bands
from evp.library import SHEET_BYTES, Band
from evp.masses import shown
from evp.tables import table_text
from tools import reckoning

COURSE = SAMPLES / "course"
SECONDS = 2  # of processor time that the marks of thirty sheets may take
HEADER = "sheet,row,mechanism,mass,unit\n"
COLUMNS = ["sheet", "row", "mechanism", "mass", "unit", "verdict", "low_mg", "high_mg", "off_mg", "note", "sha256"]


class CourseTest(DeskTestCase):
    """Thirty sheets of a course."""

    def test_one_screen(self):
        """With hints the summary has fewer lines, so that both stand on one screen."""
        found = run("mark", COURSE, "--filed", COURSE / "filed.csv", "-o", self.folder / "marks.csv", "--hints")
        self.assertIn("\n9 more sheets to look at\n", found.out)
        self.assertEqual(len(found.out.splitlines()), 21)  # and the line of the file

    def test_made(self):
        """The sheets and what was filed are what make_course.py makes."""
        for name, data in make_course.files().items():
            self.assertEqual((COURSE / name).read_bytes(), data, name)

    def test_page(self):
        """--page makes the page of the class beside the marks."""
        page, marks = self.folder / "class.html", self.folder / "marks.csv"
        words = ("mark", COURSE, "--filed", COURSE / "filed.csv", "-o", marks, "--page", page)
        if find_spec("jinja2") is None:
            self.assertIn("pages need jinja2", run(*words).err)
            return
        found = run(*words)
        self.assertEqual(found.out.splitlines()[-2:],
                         ["%s: 437 lines" % marks, "%s: the page of the class" % page])
        self.assertIn("harbour", page.read_text(encoding="utf-8"))
        marks.unlink()
        found = run(*words)
        self.assertEqual((found.status, found.err, marks.exists()), (
            2, "evp: %s: there is such a file already; --force writes over it\n" % page, False))

    def test_stored_marks(self):
        target = self.folder / "marks.csv"
        found = run("mark", COURSE, "--filed", COURSE / "filed.csv", "-o", target)
        self.assert_plain(found, 1)
        self.assertEqual(target.read_text(encoding="utf-8"), (COURSE / "marks.csv").read_text(encoding="utf-8"))
        self.assertEqual(found.out.splitlines()[0], "30 sheets, 436 figures: 314 agrees, 24 fits, 33 low, 32 high, "
                         "1 unreadable, 30 refused, 2 absent, 1 missing")
        with open(target, encoding="utf-8", newline="") as file:
            marks = list(csv.DictReader(file))
        self.assertEqual(list(marks[0]), COLUMNS)
        self.assertEqual(json.loads(run("mark", COURSE, "--filed", COURSE / "filed.csv", "--json").out), [
            {name: int(word) if name.endswith("_mg") and word else word for name, word in mark.items()}
            for mark in marks])

    def test_stored_marks_by_fractions(self):
        """The verdicts once more, by the interval that a figure stands for."""
        powers = {"t": 9, "kg": 6, "g": 3, "mg": 0}
        tried = 0
        with open(COURSE / "marks.csv", encoding="utf-8", newline="") as file:
            for mark in csv.DictReader(file):
                if mark["verdict"] not in ("agrees", "fits", "low", "high"):
                    self.assertEqual(mark["off_mg"], "")
                    continue
                step = Fraction(10) ** (powers[mark["unit"]] - len(mark["mass"].partition(".")[2]))
                middle = Fraction(mark["mass"]) * Fraction(10) ** powers[mark["unit"]]
                least, most = middle - step / 2, middle + step / 2
                low, high = int(mark["low_mg"]), int(mark["high_mg"])
                inside = least <= low and high <= most
                verdict = "low" if most < low else "high" if least > high else "agrees" if inside else "fits"
                off = {"low": low - most, "high": least - high}.get(verdict)
                self.assertEqual((mark["verdict"], mark["off_mg"]), (verdict, "" if off is None else str(int(off))),
                                 mark)
                tried += 1
        self.assertEqual(tried, 314 + 24 + 33 + 32)

    def test_hints(self):
        """Each mistake of these sheets is guessed; of glen that it cannot show two of the misreadings."""
        names = ("south", "lakes", "moor", "delta", "ridge", "fen", "glen", "north")
        for name in names:
            shutil.copy(COURSE / (name + ".evp"), self.folder)
        lines = (COURSE / "filed.csv").read_text().splitlines(True)
        filed = self.put("filed.csv", lines[0] + "".join(
            line for line in lines
            if line.split(".")[0] in names and line.split(",")[1] in ("2", "cars", "light", "two")))
        found = run("mark", self.folder, "--filed", filed, "-o", self.folder / "marks.csv", "--hints")
        said = [line for line in found.out.splitlines() if "guess: " in line]
        for expected in (
            "  guess: south.evp: 10 figures: the figure is in kg, not in t",
            "  guess: lakes.evp: 8 figures: load divided by s, not multiplied",
            "  guess: moor.evp: 4 figures: vapour counted while it cools",
            "  guess: delta.evp: 6 figures: light-duty and two-wheelers are exchanged",
            "  guess: ridge.evp: 1 figure: cut, not rounded",
            "  guess: fen.evp: 5 figures: vapour cut off at m_sat",
        ):
            self.assertIn(expected, said)
        self.assertIn("no guess: glen.evp: ", found.out)
        for unseen in ("load divided by s, not multiplied (no canister is small or large)",
                       "vapour cut off at m_sat (no canister overflows)"):
            self.assertIn("  cannot show: glen.evp: %s\n" % unseen, found.out)
        notes = (self.folder / "marks.csv").read_text()
        self.assertIn("; guess: vapour counted while it cools,", notes)
        self.assertNotIn("guess", "".join(line for line in notes.splitlines() if line.startswith("north")))

    def test_hints_without_the_second_reckoning(self):
        shutil.copy(COURSE / "moor.evp", self.folder)
        lines = (COURSE / "filed.csv").read_text().splitlines(True)
        filed = self.put("filed.csv", lines[0] + "".join(line for line in lines if line.startswith("moor")))
        with mock.patch("evp.hints.reckoning", return_value=None):
            found = run("mark", self.folder, "--filed", filed, "-o", self.folder / "marks.csv", "--hints")
        self.assertIn("  no guess: moor.evp: 7 figures\n"
                      "  cannot show: moor.evp: misreadings (the second reckoning, tools/, is not there)\n", found.out)


class OneSheetHintsTest(DeskTestCase):
    """Guesses on a sheet of two rows with small canisters, of which the second overflows."""

    ROW = ("row class=1 technology=1 carburettor=20 hot=45 fill=40 vehicles=22750 trips=4.80 minutes=12 "
           "load=%s saturation=55.0\n")
    OVERFLOWS = "vapour cut off at m_sat (no canister overflows)"

    def hints(self, line: str, *loads: str) -> str:
        self.put_sheet("a.evp", LISTS + SEASONS + "".join(self.ROW % load for load in loads))
        filed = self.put("filed.csv", HEADER + "a.evp,%s\n" % line)
        return run("mark", self.folder, "--filed", filed, "-o", self.folder / "m.csv", "--hints", "--force").out

    def test_a_factor_of_1000(self):
        """In another unit, or beyond the units that there are."""
        self.hints("1,soak,1,t", "10.0")
        soak = bands(LIBRARY.report((self.folder / "a.evp").read_bytes()))[Figure("1", "soak")].low
        for mass, unit, said in (
            ("%.1f" % (soak / 1e3), "kg", "the figure is in g, not in kg"),
            ("%.4f" % (soak / 1e9), "kg", "the figure is in t, not in kg"),
            ("%.4f" % (soak / 1e9), "mg", "the figure is in t, not in mg"),
            ("%d" % (soak * 1000), "mg", "the figure is 1,000 times too large"),
            ("%.7f" % (soak / 1e12), "t", "the figure is 1,000 times too small"),
        ):
            with self.subTest(mass=mass, unit=unit):
                self.assertIn("\n  guess: a.evp: 1 figure: %s\n" % said,
                              self.hints("1,soak,%s,%s" % (mass, unit), "10.0"))

    def test_cannot_show(self):
        """It is said of the whole sheet: where another row overflows, the sheet can show a vapour that is cut off."""
        said = self.hints("1,soak,1.2345,t", "10.0")
        self.assertIn("\n  cannot show: a.evp: %s\n" % self.OVERFLOWS, said)
        said = self.hints("1,soak,1.2345,t", "10.0", "54.5")
        self.assertIn("\n  no guess: a.evp: 1 figure\n", said)
        self.assertNotIn("cannot show", said)


class ManyRowsHintsTest(DeskTestCase):
    """Guesses on a sheet of 300 rows, of which no more than some are reckoned."""

    def setUp(self):
        super().setUp()
        self.data = sample("districts")
        self.bands = bands(LIBRARY.report(self.data))
        self.put("a.evp", self.data)

    def hints(self, figures: dict[Figure, int]):
        """What is said where these milligrams are filed."""
        filed = self.put("filed.csv", HEADER + "".join("a.evp,%s,%s,%d,mg\n" % (*figure, mass)
                                                      for figure, mass in figures.items()))
        return run("mark", self.folder, "--filed", filed, "-o", self.folder / "m.csv", "--hints", "--force")

    def test_nothing_explains(self):
        """All figures are wrong, and the second reckoning is asked for as many rows as TRIES allows."""
        with mock.patch("tools.reckoning.masses", return_value=(Fraction(1), Fraction(1), Fraction(1))) as masses:
            found = self.hints({figure: band.low * 137 // 100 + 1 for figure, band in self.bands.items()})
        seasons = layout.season_count(self.data)
        self.assertGreater(masses.call_count, hints.TRIES // seasons // 2)
        self.assertLessEqual(masses.call_count * seasons, hints.TRIES)
        self.assertRegex(found.out, "\n  no guess: a.evp: 913 figures "
                         r"\(misreadings tried on [0-9]+ of its 300 rows\)\n")
        with open(self.folder / "m.csv", encoding="utf-8", newline="") as file:
            notes = {mark["note"].partition("; ")[2] for mark in csv.DictReader(file)}
        self.assertEqual(notes, {"no guess", "no guess, misreadings not tried"})

    def test_by_chance(self):
        """Where all figures are wrong, one that lies in another row's band tells nothing: bands are wide enough."""
        figures = {figure: band.low * 137 // 100 + 1 for figure, band in self.bands.items()}
        figures[Figure("3", "soak")] = self.bands[Figure("40", "soak")].low
        with mock.patch("evp.hints.TRIES", 0):
            self.assertNotIn("this is the mass", self.hints(figures).out)
        self.assertIn("this is the mass of row 40 soak",
                      self.hints({Figure("3", "soak"): figures[Figure("3", "soak")]}).out)

    def test_rows_that_were_not_tried(self):
        """A canister that was tried does not overflow; those of the other rows might."""
        row = next(i for i in range(300) if layout.canister_of(layout.row(self.data, i)) == 2)
        found = self.hints({Figure(str(row + 1), "soak"): 12345678})
        self.assertIn("\n  no guess: a.evp: 1 figure\n", found.out)
        self.assertNotIn("cannot show", found.out)

    def test_misread_rows(self):
        """A misreading that explains a row goes on to others, as far as TRIES allows."""
        second = reckoning.read(self.data)
        rows = [i for i in range(300) if layout.canister_of(layout.row(self.data, i)) == 1][:12]
        misread = {Figure(str(i + 1), "soak"): round(1000 * reckoning.masses(
            second, i, reading=reckoning.Reading(divided=True))[1]) for i in rows}
        misread = {figure: mass for figure, mass in misread.items() if mass < self.bands[figure].low}
        misread = dict(list(misread.items())[:8])
        with mock.patch("evp.hints.TRIES", 3 * 4 * 2):  # two rows for each misreading, and what is left of these
            found = self.hints(misread)
        self.assertIn("\n  guess: a.evp: 6 figures: load divided by s, not multiplied\n"
                      "  no guess: a.evp: 2 figures (misreadings tried on 6 of its 300 rows)\n", found.out)
        found = self.hints(misread)
        self.assertIn("\n  guess: a.evp: 8 figures: load divided by s, not multiplied\n", found.out)
        self.assertNotIn("no guess", found.out)

    def test_other_rows(self):
        """Another row's mass is told where its digits leave no doubt, and two that are exchanged."""
        one, two = Figure("24", "running"), Figure("300", "running")  # of the smallest, beside sums with wide bands
        found = self.hints({one: self.bands[two].low, two: self.bands[one].low})
        self.assertIn("\n  guess: a.evp: 2 figures: row 24 and row 300 are exchanged\n", found.out)
        one, two = Figure("3", "diurnal"), Figure("40", "diurnal")
        found = self.hints({one: self.bands[two].low, two: self.bands[one].low})
        self.assertIn("\n  guess: a.evp: 2 figures: row 3 and row 40 are exchanged\n", found.out)
        self.assertIn("\n  guess: a.evp: 1 figure: this is the mass of row 40 diurnal\n",
                      self.hints({one: self.bands[two].low}).out)
        filed = self.put("filed.csv", HEADER + "a.evp,3,diurnal,%s,t\n" % shown(self.bands[two], "t").split()[0][:4])
        self.assertIn("\n  no guess: a.evp: 1 figure", run(
            "mark", self.folder, "--filed", filed, "-o", self.folder / "m.csv", "--hints", "--force").out)


class FiledTest(DeskTestCase):
    """filed.csv."""

    def mark(self, lines: str, header: str = HEADER):
        self.put_sheet("a.evp", TEXT)
        filed = self.put("filed.csv", header + lines)
        return run("mark", self.folder, "--filed", filed, "-o", self.folder / "m.csv", "--force")

    def marks(self, lines: str, header: str = HEADER) -> list[str]:
        found = self.mark(lines, header)
        self.assertIn(found.status, (0, 1), found)
        sign = ";" if ";" in header else ","
        with open(self.folder / "m.csv", encoding="utf-8", newline="") as file:
            return [mark["verdict"] for mark in csv.DictReader(file, delimiter=sign)]

    def test_mistakes(self):
        """A cell that cannot be read is a verdict of that one figure, with its place; the others are marked."""
        for line, said in (
            ('a.evp,1,soak,"2,834",t', "'2,834': can mean two things: 2.834 or 2834 (%s, line 2, column 4 (mass))"),
            ("a.evp,1,soak,2..34,t", "'2..34' is no number (%s, line 2, column 4 (mass))"),
            ("a.evp,1,soak,-2,t", "'-2' is below 0, and no mass is (%s, line 2, column 4 (mass))"),
            ("a.evp,1,soak,,t", "nothing filed (%s, line 2, column 4 (mass))"),
            ("a.evp,1,,2,t", "the mechanism is missing: diurnal, soak, running (%s, line 2, column 3 (mechanism))"),
            ("a.evp,0,soak,2,t", "row: rows are counted from 1 (%s, line 2, column 2 (row))"),
            ("a.evp,bus,soak,2,t",
             "row: 'bus' is no row; write a number from 1, cars, light, two, all or total "
             "(%s, line 2, column 2 (row))"),
            ("a.evp,1,soak,\x1b[2J,t", "'\\x1b[2J' is no mass (%s, line 2, column 4 (mass))"),
        ):
            with self.subTest(said):
                self.put_sheet("a.evp", TEXT)
                filed = self.put("filed.csv", HEADER + line + "\na.evp,2,soak,2,t\n")
                found = run("mark", self.folder, "--filed", filed, "--json")
                self.assertEqual((found.status, found.err), (1, ""))
                marks = json.loads(found.out)
                self.assertEqual([mark["verdict"] for mark in marks], ["unreadable", "high"])
                self.assertEqual(marks[0]["note"], said % filed)

    def test_a_quotation_mark_loses_no_line(self):
        """One that opens a note and is not closed would take the lines behind it along."""
        self.assertEqual(self.marks('a.evp,1,soak,2,t,"he said\na.evp,2,soak,2,t,\n', HEADER.strip() + ",note\n"),
                         ["low", "high"])

    def test_names(self):
        """A sheet may start with #, and none makes a terminal do anything."""
        for name in ("#1.evp", "\x1b[2J.evp"):
            self.put_sheet(name, TEXT)
        found = self.mark("#1.evp,1,soak,2,t\n\x1b[2J,1,soak,2,t\n\x1b[2J.evp,1,soak,2,t\n")
        self.assertNotIn("\x1b", found.out)
        self.assertEqual(self.marks("#1.evp,1,soak,2,t\n"), ["low", "missing", "missing"])

    def test_sheets_that_cannot_be_read(self):
        """They are told, and the others are marked all the same."""
        self.put_sheet("a.evp", TEXT)
        os.chmod(self.folder, 0o755)
        os.chmod(self.put_sheet("b.evp", TEXT), 0)
        filed = self.put("filed.csv", HEADER + "a.evp,1,soak,2,t\nb.evp,1,soak,2,t\n")
        found = run_without_rights("mark", self.folder, "--filed", filed, "-o", "-")
        self.assertEqual([line.split(",")[5] for line in found.out.splitlines()], ["verdict", "low", "unreadable"])
        self.assertIn("b.evp,1,soak,2,t,unreadable,,,,you have no right to it,\n", found.out)
        self.assertEqual((found.status, found.err), (2, "evp: %s: you have no right to it\n" % (self.folder / "b.evp")))

    def test_digest_of_a_long_file(self):
        """It is that of the whole file, though no more than a sheet is looked at."""
        data = sample("example") + bytes(3 * SHEET_BYTES) + b"end"
        self.put("a.evp", data)
        filed = self.put("filed.csv", HEADER + "a.evp,1,soak,2,t\n")
        mark, = json.loads(run("mark", self.folder, "--filed", filed, "--json").out)
        self.assertEqual((mark["verdict"], mark["sha256"]), ("refused", hashlib.sha256(data).hexdigest()))

    def test_a_long_mass(self):
        """It stands in the marks, and no more than some of its digits on the screen."""
        found = self.mark("a.evp,1,soak,%s,t\n" % ("9" * 100_000))
        self.assertLess(len(found.out), 500)
        self.assertIn("first row 1 soak: %s… t filed, 10^18 mg or more\n" % ("9" * 40), found.out)
        self.assertIn(",%s,t,unreadable," % ("9" * 100_000), (self.folder / "m.csv").read_text())

    def test_twice(self):
        """Two masses for one figure: neither is marked; the same twice: once."""
        self.assertEqual(self.marks("a.evp,1,soak,2,t\na.evp,2,soak,2,t\na.evp,1,soak,3,kg\n"),
                         ["unreadable", "high", "unreadable"])
        self.assertIn("can mean two things: 2 t in %s, line 2 and 3 kg in %s, line 4" % (
            2 * (self.folder / "filed.csv",)), (self.folder / "m.csv").read_text())
        self.assertEqual(self.marks("a.evp,1,soak,2,t\na.evp,1,soak,2000,kg\n"), ["low"])

    def test_many_mistakes(self):
        self.assert_plain(self.mark("a.evp,x,soak,2,t\n" * 6000), 2)

    def test_semicolon(self):
        total = LIBRARY.report(sheet.write(TEXT)).total
        word = shown(total, "t").split()[0]
        header = "\ufeff" + HEADER.replace(",", ";")
        self.assertEqual(self.marks("a.evp;total;;%s;t\n" % word.replace(".", ","), header), ["agrees"])
        self.assertTrue((self.folder / "m.csv").read_text().startswith("sheet;row;mechanism;mass;unit;verdict;"))
        self.assertEqual(self.marks("a.evp;total;;2.834;t\n", header), ["unreadable"])
        self.assertIn("can mean two things: 2.834 or 2834", (self.folder / "m.csv").read_text())

    def test_verdicts(self):
        total = LIBRARY.report(sheet.write(TEXT)).total
        self.assertEqual(self.marks("".join("a.evp,%s\n" % line for line in (
            "total,,%d,mg" % total.low, "1,diurnal,0,mg", "2,soak,99999999,t", "7,soak,1,t",
            "9%s,soak,1,t" % ("0" * 17),
            "all,soak,%s,kg" % ("9" * 40), "all,running,1234.567890123456789,t",  # 19 digits
            "cars,diurnal,1.%s,kg" % ("0" * 50)))), ["fits", "low", "high"] + ["absent"] * 2 + ["unreadable"] * 3)
        marks = (self.folder / "m.csv").read_text()
        for beyond in ("10^18 mg or more", "more than 18 digits", "a last place below 10^-6 mg"):
            self.assertEqual(marks.count(",,%s," % beyond), 1)
        self.assertEqual(self.marks("b.evp,total,,1,t\n"), ["absent", "missing"])

    def test_right_figures(self):
        """All figures of a sample, as they are shown, agree."""
        self.put("region.evp", sample("region"))
        report = bands(LIBRARY.report(sample("region")))
        masses = {figure: shown(band).replace(",", "").split() for figure, band in report.items()}
        lines = ["region.evp,%s,%s,%s,%s" % (*figure, *words) for figure, words in masses.items() if "to" not in words]
        self.assertGreater(len(lines), 80)
        self.assertEqual(self.marks("\n".join(lines) + "\n"), ["agrees"] * len(lines) + ["missing"])

    def test_other_faults(self):
        filed = self.put("filed.csv", HEADER)
        for words, said in (
            ((self.folder / "none", "--filed", filed, "-o", "x"), "a folder with sheets is wanted"),
            ((self.folder, "--filed", filed, "-o", self.folder / "x"),
             "no sheet, that is no file whose name ends with .evp"),
            ((self.folder, "--filed", self.folder / "none.csv", "-o", "x"), "there is no such file"),
            ((SAMPLES, "--filed", filed, "-o", "-", "--json"), "two of -o, --json and --page would share standard"),
            ((SAMPLES, "--filed", filed, "-o", filed), "this would overwrite what it is made from"),
            ((SAMPLES, "--filed", filed, "-o", filed, "--force"), "this would overwrite what it is made from"),
            ((SAMPLES, "--filed", filed, "-o", SAMPLES / "region.evp", "--force"), "this would overwrite what it is"),
        ):
            found = run("mark", *words)
            self.assert_plain(found, 2)
            self.assertIn(said, found.err)

    def test_a_look(self):
        """Without -o there is the summary alone."""
        found = self.mark("a.evp,1,soak,2,t\n")
        filed = self.folder / "filed.csv"
        look = run("mark", self.folder, "--filed", filed)
        self.assertEqual((look.status, look.out.splitlines()), (
            1, [*found.out.splitlines()[:-1], "-o FILE keeps the marks of all figures"]))


class SpeedTest(DeskTestCase):
    """Thirty sheets of 300 rows, with a figure filed for each of their masses: the command itself, its start
    included, takes less than two seconds of processor time. It is the least of several runs that counts."""

    def test_thirty_sheets(self):
        data, lines = sample("districts"), []
        self.assertEqual(layout.row_count(data), 300)
        vehicles = [layout.row_place(data, i) + 8 for i in range(300)]
        for k in range(30):
            changed = bytearray(data)
            for at in vehicles:
                count = layout.number_at(data, at, 4) * (60 + k) // 100
                changed[at:at + 4] = count.to_bytes(4, "little")
            name = self.put("%d.evp" % k, bytes(changed)).name
            lines += [(name, *figure, band.low, "mg") for figure, band in bands(LIBRARY.report(bytes(changed))).items()]
        filed = self.put("filed.csv", table_text(HEADER.strip().split(","), lines))

        def measured() -> float:
            before = resource.getrusage(resource.RUSAGE_CHILDREN)
            found = subprocess.run([sys.executable, TOP / "evp", "mark", self.folder, "--filed", filed, "--force", "-o",
                                    self.folder / "m.csv"], capture_output=True, text=True)
            after = resource.getrusage(resource.RUSAGE_CHILDREN)
            self.assertTrue(found.stdout.startswith("30 sheets, 27,390 figures: "), found)
            return after.ru_utime + after.ru_stime - before.ru_utime - before.ru_stime

        self.assertLess(least(measured, SECONDS), SECONDS)


class WordsTest(unittest.TestCase):
    def test_masses(self):
        for band, unit, said in (
            (Band(0, 0), None, "0 mg"), (Band(7, 7), None, "7 mg"), (Band(7, 8), None, "7 to 8 mg"),
            (Band(2_834_491_356, 2_834_497_572), None, "2.8345 t"),
            (Band(2_834_491_356, 2_834_497_572), "kg", "2,834.5 kg"),
            (Band(589_567_619_415, 589_571_589_654), None, "589.57 t"), (Band(57_400, 58_600), None, "57 to 59 g"),
            (Band(1_000_000, 1_000_001), "t", "0.00100 t"),
        ):
            self.assertEqual(shown(band, unit), said)
        self.assertEqual(shown(Band(57_400, 58_600), None, "–"), "57–59 g")


if __name__ == "__main__":
    unittest.main()
