"""show, convert, compare, species, cells and pool; how the library is made."""

import contextlib
import csv
import io
import json
import os
import subprocess
import unittest
from unittest import mock

from support import CAR, GRID_TEXT, LIBRARY, SAMPLES, SEASONS, TEXT, TOP, DeskTestCase, run, sample, samples

from evp import commands, layout, library, making
from evp.figures import Figure
from evp.files import InputError
from evp.library import SPECIES, Band
from evp.show import Difference

REGION = SAMPLES / "region.evp"


class ShowTest(DeskTestCase):
    def test_table(self):
        lines = run("show", REGION).out.splitlines()
        self.assertEqual(lines[0], "%s: version 1, 4 seasons, 24 rows, 582,760 vehicles" % REGION)
        self.assertEqual(lines[3].split(), "1 car < 1.4 l conv. none 18,400 10.041 t 138.04 t 74.532 t".split())
        self.assertEqual(lines[-3:], [
            "total 589.57 t", "Every digit of the computation is certain; --unit mg shows the bands.",
            "The uncertainty of the inputs is not included: evp sensitivity estimates it."])
        self.assertEqual(len(lines), 2 + 1 + 24 + 4 + 1 + 3)
        self.assertLessEqual(max(map(len, lines[1:])), 80)

    def test_units(self):
        lines = run("show", REGION, "--unit", "mg").out.splitlines()
        self.assertEqual(lines[-3].split(), ["total", "589,567,606,104", "589,571,580,421"])
        self.assertEqual(len(lines), 2 + 1 + 85 + 2)
        self.assertIn("total 589,567 to 589,572 kg", run("show", REGION, "--unit", "kg").out)

    def test_csv(self):
        lines = list(csv.DictReader(io.StringIO(run("show", REGION, "--csv").out)))
        self.assertEqual(len(lines), 24 * 3 + 4 * 3 + 1)
        self.assertEqual(list(lines[-1].items()), [
            ("row", "total"), ("mechanism", ""), ("low", "589567606104"), ("high", "589571580421"), ("unit", "mg")])
        in_tonnes = list(csv.DictReader(io.StringIO(run("show", REGION, "--csv", "--unit", "t").out)))
        self.assertEqual(in_tonnes[-1]["low"], "589.567606104")

    def test_json(self):
        for path in samples():
            found = json.loads(run("show", path, "--json").out)
            report = LIBRARY.report(path.read_bytes())
            self.assertEqual(list(found),
                             ["file", "version", "seasons", "rows", "cars", "light", "two", "all", "total"])
            self.assertEqual(found["total"], list(report.total))
            self.assertEqual([row["soak"] for row in found["rows"]], [list(masses.soak) for masses in report.rows])
            self.assertEqual(found["two"]["running"], list(report.two.running))

    def test_refused(self):
        path = self.put_sheet("a.evp", TEXT.replace("fill=40", "fill=200"))
        found = run("show", path)
        self.assertEqual(found,
            (1, "", "%s: refused 15 at 120: row 1: fill 200 %% is above 100 %%; write at most 100\n" % path))


class ConvertTest(DeskTestCase):
    def test_versions(self):
        for path in samples():
            for version in range(layout.version_of(path.read_bytes()) + 1, 5):
                target = self.folder / "a.evp"
                found = run("convert", path, "--to", version, "-o", target, "--force")
                self.assertEqual(found.status, 0, found)
                self.assertIn("version %d, the same report" % version, found.out)
                later = target.read_bytes()
                self.assertEqual((layout.version_of(later), LIBRARY.report(later)),
                                 (version, LIBRARY.report(path.read_bytes())))

    def test_name(self):
        path = self.put("a.evp", sample("region"))
        self.assertEqual(run("convert", path, "--to", 2).status, 0)
        self.assertTrue((self.folder / "a-version-2.evp").exists())
        self.assertEqual(run("convert", "-", "--to", 2, given=sample("region")), (
            2, "", "evp: standard input has no name: -o SHEET names the sheet\n"))

    def test_own_sheet(self):
        path = self.put("a.evp", sample("region"))
        found = run("convert", path, "--to", 2, "-o", path, "--force")
        self.assertEqual((found.status, found.err), (
            2, "evp: %s: this would overwrite what it is made from; name another file\n" % path))
        self.assertEqual(path.read_bytes(), sample("region"))

    def test_earlier(self):
        found = run("convert", SAMPLES / "odometer.evp", "--to", 3)
        self.assertEqual((found.status, found.err), (
            2, "evp: %s: this is a sheet of version 3 already, and only a later version is made of it\n" % (
                SAMPLES / "odometer.evp")))

    def test_large_products(self):
        """A product that no count holds: with common factors taken out it may."""
        large = "durations 900" + " 0" * 22 + " 90\nhours 600" + " 0" * 22 + " 300\n"
        found = run("convert", self.put_sheet("a.evp", large + SEASONS + CAR), "--to", 2)
        self.assertEqual(found.status, 0, found)
        large = large.replace("90\n", "91\n").replace("300", "301")
        found = run("convert", self.put_sheet("b.evp", large + SEASONS + CAR), "--to", 2)
        self.assertEqual(found.status, 2)
        self.assertIn("a product of the two lists is 540000, and a count of a grid is at most 65535", found.err)

    def test_refused_in_the_later_version(self):
        """Version 4 limits the vehicles of all rows together, version 3 does not. Such a sheet is not written."""
        path = self.put_sheet("a.evp", GRID_TEXT + 11 * CAR.replace("18400", "10000000"))
        self.assertEqual((run("check", path).status, layout.version_of(path.read_bytes())), (0, 3))
        target = self.folder / "b.evp"
        found = run("convert", path, "--to", 4, "-o", target)
        self.assertEqual((found.status, found.out, target.exists()), (1, "", False))
        self.assertEqual(found.err, (
            "%s: not written, since in version 4 this sheet is refused 26 at 1440: row 12: with its 10,000,000 "
            "vehicles the rows so far have 100,019,100, and a sheet has at most 100,000,000; write at most 9,980,900 "
            "here, or fewer in the rows before\n" % path))
        self.put("b.evp", b"kept")
        self.assertEqual(run("convert", path, "--to", 4, "-o", target, "--force").status, 1)
        self.assertEqual(target.read_bytes(), b"kept")
        self.assertEqual(run("convert", path, "--to", 4, "-o", "-"), (1, "", found.err))


class CompareTest(DeskTestCase):
    def test_fuels(self):
        """A higher vapour pressure: a row without canister has more for certain."""
        a, b = self.put_sheet("a.evp", TEXT), self.put_sheet("b.evp", TEXT.replace("vp=60.0", "vp=70.0"))
        found = run("compare", a, b)
        self.assertEqual(found.status, 0)
        self.assertRegex(found.out, r"row 1 diurnal +[\d.]+ t +[\d.]+ t +B higher \(\+\d+\.\d %\)\n")
        self.assertRegex(found.out, r"\nWith bands apart, \d+ of 19 figures are higher in B for certain, and \d+ lower")
        figures = json.loads(run("compare", a, b, "--json").out)["figures"]
        verdicts = {(figure["row"], figure["mechanism"]): figure["verdict"] for figure in figures}
        self.assertEqual([verdicts["1", mechanism] for mechanism in library.MECHANISMS], ["higher"] * 3)
        self.assertEqual(len(verdicts), 2 * 3 + 13)

    def test_alike(self):
        found = run("compare", REGION, REGION)
        self.assertEqual(found.out,
            "A: %s\nB: %s\n\nWith bands apart, 0 of 85 figures are higher in B for certain, "
            "and 0 lower.\n85 have the same band in both, 0 are open.\n\nNo input differs.\n" % (REGION, REGION))

    def test_verdicts(self):
        """Higher or lower for certain only where the bands are apart."""
        for a, b, verdict in (((1, 5), (6, 9), "higher"), ((1, 5), (5, 9), "open"), ((1, 5), (2, 4), "open"),
                              ((6, 9), (1, 5), "lower"), ((5, 9), (1, 5), "open"), ((1, 5), (1, 5), "alike")):
            self.assertEqual(Difference(Figure("total", ""), Band(*a), Band(*b)).verdict, verdict)

    def test_other_rows(self):
        """Sheets with other rows are compared by their sums."""
        figures = json.loads(run("compare", REGION, SAMPLES / "survey.evp", "--json").out)["figures"]
        self.assertEqual(len(figures), 13)
        self.assertEqual(figures[-1]["verdict"], "lower")
        self.assertIn("\nA has 24 rows and B has 8 rows, so rows are not compared.\n",
                      run("compare", REGION, SAMPLES / "survey.evp").out)

    def test_refused(self):
        self.assertEqual(run("compare", REGION, self.put("a.evp", b"EVP")).status, 1)


class SpeciesTest(DeskTestCase):
    def test_species(self):
        total = LIBRARY.report(sample("region")).total.high
        lines = list(csv.DictReader(io.StringIO(run("species", REGION, "--csv").out)))
        self.assertEqual([line["species"] for line in lines], list(SPECIES))
        self.assertEqual(sum(int(line["mg"]) for line in lines), total)
        self.assertIn("the high total, 589,571,580,421 mg, by species", run("species", REGION).out)


class CellsTest(DeskTestCase):
    HEADER = "row,town,urban_mileage,rural_mileage,highway_mileage,rural_speed,highway_speed\n"

    def test_cells(self):
        travel = self.put("travel.csv", self.HEADER + "all,yes,40,35,25,60,100\n2,no,10,60,30,70,110\n")
        lines = list(csv.DictReader(io.StringIO(run("cells", SAMPLES / "survey.evp", "--travel", travel).out)))
        self.assertEqual(len(lines), 3 * (8 + 1))
        for road in ("urban", "rural", "highway"):
            of_road = [int(line["high_mg"]) for line in lines if line["road"] == road]
            self.assertEqual(sum(of_road[:-1]), of_road[-1])
        report = LIBRARY.report(sample("survey"))
        highs = sum(int(line["high_mg"]) for line in lines[-3:])
        self.assertTrue(report.total.high <= highs <= report.total.high + 9 * 8)
        target = self.folder / "cells.csv"
        self.assertEqual(run("cells", SAMPLES / "survey.evp", "--travel", travel, "-o", target), (0, "", ""))
        self.assertTrue(target.exists())
        found = run("cells", SAMPLES / "survey.evp", "--travel", travel, "-o", travel, "--force")
        self.assertIn("this would overwrite what it is made from", found.err)

    def test_mistakes(self):
        for lines, said in (
            ("1,yes,40,35,25,60,100\n", "travel.csv: row 2 has no line, and there is no line for all"),
            ("all,maybe,40,35,25,60,100\n", "travel.csv: line 2: town: 'maybe' is not yes or no"),
            ("all,yes,40,35,25,0,100\n", "travel.csv: line 2: rural_speed: '0' is not 1 to 1000000"),
            ("9,yes,40,35,25,1,100\n", "travel.csv: line 2: row: '9' is not all or 1 to 8"),
            ("all,yes,1,1,1,1,1\nall,yes,1,1,1,1,1\n", "travel.csv: line 3: row all is given twice"),
        ):
            found = run("cells", SAMPLES / "survey.evp", "--travel", self.put("travel.csv", self.HEADER + lines))
            self.assert_plain(found, 2)
            self.assertEqual(found.err, "evp: %s/%s\n" % (self.folder, said))


class PoolTest(DeskTestCase):
    def test_pool(self):
        first, second = (self.put_sheet(name, GRID_TEXT + "version 4") for name in ("a.evp", "b.evp"))
        target = self.folder / "c.evp"
        self.assertEqual(run("pool", first, second, "-o", target), (
            0, "%s: 1272 bytes, accepted: version 4, 2 seasons, 4 rows\n" % target, ""))
        self.assertEqual(run("pool", first, second, "-o", target).status, 2)
        self.assertIn("this would overwrite what it is made from",
                      run("pool", first, second, "-o", second, "--force").err)

    def test_refused(self):
        first, target = self.put_sheet("a.evp", GRID_TEXT + "version 4"), self.folder / "c.evp"
        for text, said in (
            (GRID_TEXT, "refused 3 at 3: only sheets of version 4 are pooled; evp convert --to 4 makes one"),
            (GRID_TEXT.replace("fill=40", "fill=200") + "version 4", "refused 15 at 1176: row 1: fill 200 %"),
        ):
            second = self.put_sheet("b.evp", text)
            found = run("pool", first, second, "-o", target)
            self.assertEqual((found.status, target.exists()), (1, False))
            self.assertTrue(found.err.startswith("%s: %s" % (second, said)), found.err)
        start = GRID_TEXT[:GRID_TEXT.index("row ")] + "version 4\n"
        for row, said in (("row class=1 technology=0\n" * 501,
            "refused 5: the two sheets together have more than 1,000 rows"),
                          ("row class=1 technology=0 vehicles=10000000\n" * 6,
                           "refused 26: the two sheets together have more than 100,000,000 vehicles")):
            one, other = (self.put_sheet(name, start + row) for name in ("d.evp", "e.evp"))
            self.assertEqual(run("pool", one, other, "-o", target).err, "%s and %s: %s\n" % (one, other, said))
        second = self.put_sheet("b.evp", GRID_TEXT.replace("vp=60.0", "vp=61.0") + "version 4")
        self.assertEqual(run("pool", first, second, "-o", target).err,
                         "%s and %s: refused 32: the seasons or the parking of the two sheets differ\n" % (
                             first, second))


class MakingTest(DeskTestCase):
    """How the library is made, with a kit that says it has proved what it is asked for."""

    def test_shared(self):
        """Only the calls are exported, each with its version node."""
        if not (TOP / "crates" / "evaporation_c" / "out" / "libevaporation_c.a").exists():
            self.skipTest("bash c/archive evaporation_c was not run")
        self.put("bin/rt", "#!/bin/sh\n").chmod(0o755)
        self.put("bin/rattle", "#!/bin/sh\n").chmod(0o755)
        path = "%s:%s" % (self.folder / "bin", os.environ["PATH"])
        subprocess.run(["bash", TOP / "c" / "shared", self.folder / "lib"], check=True,
                       env={**os.environ, "PATH": path})
        made = self.folder / "lib" / library.NAME
        self.assertEqual(library.Library(made).report(sample("region")), LIBRARY.report(sample("region")))
        listed = subprocess.run(["nm", "-D", "--defined-only", made], capture_output=True, text=True, check=True)
        names = {line.split()[2] for line in listed.stdout.splitlines()}
        nodes = {name for name in names if name.startswith("EVP_1.")}
        calls = dict(name.split("@@") for name in names - nodes)
        forms = {name for name in calls if name.endswith("_to")}
        self.assertEqual((set(calls) - forms, set(calls.values())), (set(library.CALLS), nodes))
        self.assertEqual((calls["evp_report"], {calls[name] for name in forms}), ("EVP_1.0", {"EVP_1.1"}))
        self.assertTrue((self.folder / "lib" / "libevaporation.so").samefile(made))

    def make(self, script: str, crates: str = "numbers:\nbounds: numbers\nevaporation_c staticlib: bounds\nreport:\n"):
        self.put("crates.txt", crates)
        self.put("c/shared", script)
        err = io.StringIO()
        patched = mock.patch("evp.making.TOP", self.folder), mock.patch("shutil.which", return_value="rt")
        with patched[0], patched[1], contextlib.redirect_stderr(err):
            making.make_library()
        return err.getvalue()

    def test_progress(self):
        """The last part is proved where the library is made, and not by itself."""
        said = self.make("for name in numbers bounds bounds report; do echo c/archive: $name proved; done")
        began = "evp: the library is not made yet. Proving and making it takes some minutes;\n"
        self.assertTrue(said.startswith(began))
        self.assertTrue(said.endswith("\nevp: all 3 parts proved, the library is made\n"))
        many = "".join("p%d:\n" % i for i in range(24)) + "evaporation_c staticlib:"
        many += "".join(" p%d" % i for i in range(24))
        said = self.make("for i in $(seq 0 23); do echo c/archive: p$i proved; done", many)
        self.assertEqual(said.splitlines()[2:], [
            "evp: 10 of 25 parts proved", "evp: 20 of 25 parts proved",
            "evp: all 25 parts proved, the library is made"])

    def test_failure(self):
        with self.assertRaisesRegex(InputError, r"could not be made: no \?\[2Jroom\nrun it by itself to see more"):
            self.make("echo c/archive: numbers proved; printf 'no \\033[2Jroom\\n'; exit 1")

    def test_crates(self):
        wanted = making.crates_wanted((TOP / "crates.txt").read_text(encoding="utf-8"))
        self.assertIn("bounds", wanted)
        self.assertIn("evaporation_c", wanted)
        self.assertIn("evaporation", wanted)
        self.assertNotIn("report", wanted)

    def test_nothing_to_make_it_with(self):
        with mock.patch("shutil.which", return_value=None), self.assertRaisesRegex(InputError, "needs rt"):
            making.make_library()

    def test_made_where_there_is_none(self):
        with mock.patch("evp.library.find", return_value=None), mock.patch("evp.commands.make_library") as make:
            commands.get_library()
        make.assert_called_once_with()


if __name__ == "__main__":
    unittest.main()
