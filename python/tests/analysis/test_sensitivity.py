"""Uncertain inputs: one after another and by random draws."""

import csv
import io
import math
import os
import unittest
from fractions import Fraction
from importlib.util import find_spec
from unittest import mock

from html_check import Page
from support import GRID_TEXT, LIBRARY, TEXT, DeskTestCase, run, sample

from evp import layout, sheet
from evp.analysis.sensitivity import (
    Draw, checkpoints, convergence, default_workers, draw, one_at_a_time, run_draws, summary_of,
)
from evp.analysis.targets import check_targets, moved, plan_of
from evp.analysis.uncertainty import Move, uncertainties_of
from evp.files import InputError
from evp.library import Band

HEADER = "input,where,unit,uncertainty,low,high,distribution\n"
SEVERAL = HEADER + """vehicles,all,%,5,,,normal
vp,all,kPa,3,,,normal
temperatures,all,°C,1,,,uniform
fill,all,points,10,,,triangular
trips,all,%,10,,,lognormal
load,all,%,40,,,normal
"""


def lines_of(*lines: str):
    return uncertainties_of(HEADER + "\n".join(lines) + "\n", "inputs.csv")


def plan(text: str, *lines: str):
    return plan_of("a.evp", sheet.write(text), lines_of(*lines))


def _end_of_the_process(first: int, end: int):
    os._exit(9)


def moving(text: str, *lines: str) -> int:
    """How many values of a sheet are moved."""
    return sum(len(cells.values) for cells in plan(text, *lines).cells)


class TestTable(unittest.TestCase):
    def test_faults(self):
        for line, said in (
            ("vehicle,all,%,5,,,normal", "line 2: input: 'vehicle' is none of days, lowest"),
            ("vehicles,all,%,five,,,normal", "line 2: uncertainty: 'five' is no number"),
            ("vehicles,all,%,-5,,,normal", "line 2: uncertainty: -5 is below 0"),
            ("vehicles,all,%,5,,,gauss", "line 2: distribution: 'gauss' is none of normal, uniform"),
            ("vehicles,all,%,,,,normal", "line 2: write an uncertainty, or a low and a high value"),
            ("vp,all,kPa,5,58.0,62.0,normal", "line 2: write an uncertainty, or a low and a high value"),
            ("vp,all,kPa,,58.0,,normal", "line 2: write an uncertainty, or a low and a high value"),
            ("vp,all,kPa,,62.0,58.0,normal", "line 2: low 62.0, high 58.0"),
            ("vp,all,kPa,,58.05,60.0,normal", "line 2: low: 58.05 has more decimals than a sheet holds"),
            ("fill,all,percent,5,,,normal", "line 2: unit: 'percent' is not % of the value, or points"),
            ("vp,all,hPa,5,,,normal", "line 2: unit: 'hPa' is not % of the value, or kPa"),
            ("lowest,all,%,5,,,normal", "line 2: unit: a percentage of a temperature in °C has no meaning"),
            ("load,all,g,5,,,lognormal", "line 2: a lognormal distribution needs an uncertainty in %"),
        ):
            with self.subTest(line), self.assertRaisesRegex(InputError, "^inputs.csv: " + said):
                lines_of(line)
        with self.assertRaisesRegex(InputError, "the table has no line"):
            uncertainties_of(HEADER, "inputs.csv")

    def test_names_and_units(self):
        lines = lines_of("m_sat,all,%,5,,,", "Vapour pressure,season 2,kPa,2.5,,,", "h,cars,points,5,,,uniform")
        self.assertEqual([(line.input, line.kind, line.distribution) for line in lines],
                         [("saturation", "relative", "normal"), ("vp", "absolute", "normal"),
                          ("fill", "absolute", "uniform")])
        self.assertEqual(lines[1].amount, 25)  # tenths of a kPa
        self.assertEqual([line.words for line in lines], ["± 5 %", "± 2.5 kPa", "± 5 points"])

    def test_a_decimal_comma(self):
        text = HEADER.replace(",", ";") + "vp;all;kPa;2,5;;;normal\n"
        self.assertEqual(uncertainties_of(text, "a")[0].amount, 25)

    def test_where(self):
        for where in ("row x", "season 1"):
            with self.assertRaisesRegex(InputError, "line 2: where: '%s' is not all, row 3" % where):
                plan(TEXT, "vehicles,%s,%%,5,,,normal" % where)
        with self.assertRaisesRegex(InputError, "where: 'row 1' is not all or season 2"):
            plan(TEXT, "vp,row 1,kPa,5,,,normal")
        for where, many in (("all", 2), ("row 2", 1), ("class 1", 1), ("cars", 2), ("two", 0), ("euro 3", 1),
                            ("conventional", 1), ("class 9", 0)):
            self.assertEqual(moving(TEXT, "vehicles,%s,%%,5,,,normal" % where), many, where)

    def test_a_line_that_moves_nothing(self):
        lines = lines_of("vehicles,class 9,%,5,,,normal")
        with self.assertRaisesRegex(InputError, "line 2: vehicles, class 9: no row or season"):
            check_targets([plan_of("a", sheet.write(TEXT), lines)], lines)

    def test_two_values(self):
        with self.assertRaisesRegex(InputError, r"the values of a.evp differ \(60.0 to 90.0\)"):
            plan(TEXT, "vp,all,kPa,,58.0,62.0,normal")
        with self.assertRaisesRegex(InputError, "60.0 of a.evp is not between 61.0 and 62.0"):
            plan(TEXT, "vp,season 2,kPa,,61.0,62.0,normal")
        found = plan(TEXT, "vp,season 2,kPa,,58.0,63.5,triangular")
        line, = lines_of("vp,season 2,kPa,,58.0,63.5,triangular")
        vps = [layout.season(moved(found, [move])[0], 1)["vp"] for move in line.ends(600)]
        self.assertEqual(vps, [580, 635])


class TestMoves(unittest.TestCase):
    def test_only_rows_that_have_the_input(self):
        """A row without canister has no load, a load of a mileage is no input, and 0 km is no mileage."""
        self.assertEqual(moving(TEXT, "load,all,g,5,,,normal"), 1)
        self.assertEqual(moving(GRID_TEXT, "load,all,g,5,,,normal"), 0)
        self.assertEqual(moving(GRID_TEXT, "mileage,all,%,5,,,normal"), 1)
        self.assertEqual(moving(TEXT, "mileage,all,%,5,,,normal"), 0)

    def test_a_tank_by_class(self):
        data, _ = moved(plan(TEXT, "tank,row 1,%,10,,,normal"), [Move(Fraction(11, 10))])
        self.assertEqual(layout.row(data, 0)["tank"], 550)

    def test_rounded_to_what_a_field_holds(self):
        data, limited = moved(plan(TEXT, "hot,row 1,%,10,,,normal"), [Move(Fraction(11, 10))])
        self.assertEqual((layout.row(data, 0)["hot"], limited), (50, set()))  # 49.5

    def test_limits(self):
        data, limited = moved(plan(TEXT, "carburettor,row 1,%,10,,,normal"), [Move(Fraction(11, 10))])
        self.assertEqual((layout.row(data, 0)["carburettor"], limited), (100, {0}))
        data, limited = moved(plan(TEXT, "load,all,%,90,,,normal"), [Move(Fraction(2))])
        self.assertEqual((layout.row(data, 1)["load"], limited), (600, {0}))  # 64.0 g, and m_sat is 60.0 g
        self.assertIsNone(LIBRARY.check(data))

    def test_two_lines_move_one_value(self):
        found = plan(TEXT, "vehicles,all,%,10,,,normal", "vehicles,row 1,vehicles,7,,,normal")
        data, _ = moved(found, [Move(Fraction(11, 10)), Move(shift=Fraction(7))])
        self.assertEqual([layout.row(data, i)["vehicles"] for i in range(2)], [20247, 550])

    def test_distributions(self):
        """The share of draws below an end is what the distribution says."""
        for name, share in (("normal", 0.025), ("lognormal", 0.025), ("uniform", 1e-12), ("triangular", 1e-12)):
            line, = lines_of("trips,all,%%,20,,,%s" % name)
            low, high = (end.factor for end in line.ends(0))
            self.assertAlmostEqual(float(line.drawn(share, 0).factor), float(low), 4, name)
            self.assertAlmostEqual(float(line.drawn(1 - share, 0).factor), float(high), 4, name)
            self.assertAlmostEqual(float(line.drawn(0.5, 0).factor), 1.0, 9, name)

    def test_distributions_of_two_values(self):
        for name, share in (("normal", 0.025), ("lognormal", 0.025), ("uniform", 0.0), ("triangular", 0.0)):
            line, = lines_of("vp,season 2,kPa,,50.0,90.0,%s" % name)
            self.assertAlmostEqual(600 + line.drawn(share, 600).shift, 500, 1, name)
            self.assertAlmostEqual(600 + line.drawn(1 - share, 600).shift, 900, 1, name)


class TestOneAtATime(unittest.TestCase):
    def test_vehicles(self):
        """10 % more vehicles are 10 % more mass, in the sense of the bands: the exact mass lies in both."""
        text = TEXT.replace("vehicles=500", "vehicles=50000")
        lines = lines_of("vehicles,all,%,10,,,normal")
        one = one_at_a_time(LIBRARY, plan_of("a", sheet.write(text), lines), lines)
        effect, base = one.effects[0], one.base
        for end, tenths in ((effect.low, 9), (effect.high, 11)):
            self.assertLessEqual(10 * end.total.low, tenths * base.high)
            self.assertGreaterEqual(10 * end.total.high, tenths * base.low)
            self.assertAlmostEqual(sum(end.total) / sum(base), tenths / 10, 6)

    def test_the_ends_are_reports(self):
        lines = lines_of("vp,season 2,kPa,2,,,normal")
        one = one_at_a_time(LIBRARY, plan_of("a", sheet.write(TEXT), lines), lines)
        for end, vp in ((one.effects[0].low, "58.0"), (one.effects[0].high, "62.0")):
            self.assertEqual(end.total, LIBRARY.report(sheet.write(TEXT.replace("vp=60.0", "vp=" + vp))).total)

    def test_order(self):
        lines = lines_of("vehicles,row 2,%,1,,,normal", "vehicles,row 1,%,50,,,normal", "minutes,all,%,1,,,normal")
        one = one_at_a_time(LIBRARY, plan_of("a", sheet.write(TEXT), lines), lines)
        self.assertEqual(one.effects[0].line, 1)
        sizes = [effect.size(one.base) for effect in one.effects]
        self.assertEqual(sizes, sorted(sizes, reverse=True))

    def test_refused_at_an_end(self):
        lines = lines_of("saturation,all,%,300,,,normal")
        one = one_at_a_time(LIBRARY, plan_of("a", sheet.write(TEXT), lines), lines)
        self.assertIsNone(one.effects[0].high.total)
        self.assertIn("refused 20", one.effects[0].high.refusal)


class TestDraws(unittest.TestCase):
    LINES = uncertainties_of(SEVERAL, "a")

    def draws(self, seed: int = 1, workers: int = 1, many: int = 40) -> list[Draw]:
        plans = [plan_of(name, sample(name), self.LINES) for name in ("region", "table-3-5")]
        return run_draws(LIBRARY, plans, self.LINES, many, seed, workers)

    def test_the_number_of_processes_does_not_matter(self):
        found = self.draws()
        self.assertEqual([one.number for one in found], list(range(1, 41)))
        for workers in (2, 3):
            self.assertEqual(self.draws(workers=workers), found)
        self.assertGreaterEqual(default_workers(), 1)

    def test_a_draw_depends_on_its_number_alone(self):
        self.assertEqual(self.draws(many=12), self.draws(many=40)[:12])

    def test_seeds(self):
        self.assertNotEqual(self.draws(seed=2, many=10), self.draws(many=10))

    def test_the_same_numbers_everywhere(self):
        """Python's generator is the same on every machine: so are the sheets, and so the masses."""
        found = draw(LIBRARY, [plan_of("a", sheet.write(TEXT), self.LINES)], self.LINES, 1, 1)
        self.assertEqual(found, draw(LIBRARY, [plan_of("a", sheet.write(TEXT), self.LINES)], self.LINES, 1, 1))
        self.assertEqual(len(found.totals), 1)

    def test_drawn_again(self):
        """Lowest above highest is refused by the library: such draws are made again and counted."""
        text = TEXT.replace("lowest=14.5 highest=29.0", "lowest=28.0 highest=29.0")
        lines = lines_of("lowest,season 2,°C,3,,,uniform")
        found = run_draws(LIBRARY, [plan_of("a", sheet.write(text), lines)], lines, 60, 1)
        self.assertGreater(sum(one.tries - 1 for one in found), 5)

    def test_refused_for_ever(self):
        text = TEXT.replace("lowest=14.5 highest=29.0", "lowest=29.0 highest=29.0")
        lines = lines_of("lowest,season 2,°C,,29.0,40.0,uniform")
        with self.assertRaisesRegex(InputError, "draw 1: 200 tries were refused, the last since a temperature is not"):
            run_draws(LIBRARY, [plan_of("a", sheet.write(text), lines)], lines, 10, 1)

    def test_a_process_that_is_killed(self):
        """It is said in a sentence; nothing waits for ever."""
        plans = [plan_of("a", sheet.write(TEXT), self.LINES)]
        with mock.patch("evp.analysis.sensitivity._part", _end_of_the_process):
            with self.assertRaisesRegex(InputError, "a process that made draws was ended from outside"):
                run_draws(LIBRARY, plans, self.LINES, 20, 1, 2)

    def test_limited(self):
        lines = lines_of("carburettor,row 1,%,20,,,uniform")
        found = run_draws(LIBRARY, [plan_of("a", sheet.write(TEXT), lines)], lines, 40, 1)
        limited = sum(bool(one.limited) for one in found)
        self.assertTrue(10 < limited < 30, limited)  # half of them would have more than 100 %


class TestSummary(unittest.TestCase):
    def test_interval(self):
        """26 to 975 of 1,000: the middle 950."""
        found = summary_of([Band(i, i + 1) for i in range(1, 1001)])
        self.assertEqual((found.lower, found.upper), (Band(26, 27), Band(975, 976)))
        self.assertEqual(found.mean, Band(500, 502))  # 500.5 to 501.5, outwards
        self.assertAlmostEqual(found.error, math.sqrt(1000 * 1001 / 12 / 1000) / 501, 6)

    def test_convergence(self):
        self.assertEqual(checkpoints(1000), [10, 20, 50, 100, 200, 500, 1000])
        self.assertEqual(checkpoints(10), [10])
        self.assertEqual(checkpoints(120), [10, 20, 50, 100, 120])
        steps = convergence([Band(7, 7)] * 120)
        self.assertEqual({(step.mean, step.error) for step in steps}, {(Band(7, 7), 0.0)})

    def test_nothing(self):
        self.assertEqual(summary_of([Band(0, 0)] * 10).share(Band(0, 0)), 0.0)


@unittest.skipUnless(find_spec("jinja2"), "jinja2 is missing")
class TestCommand(DeskTestCase):
    def test_files(self):
        a, inputs = self.put_sheet("a.evp", TEXT), self.put("inputs.csv", SEVERAL)
        for name, workers in (("one", 1), ("two", 2)):
            found = run("sensitivity", a, "--inputs", inputs, "--draws", 40, "--workers", workers, "-o",
                        self.folder / name)
            self.assert_plain(found, 0)
        for path in sorted((self.folder / "one").iterdir()):
            self.assertEqual(path.read_bytes(), (self.folder / "two" / path.name).read_bytes(), path.name)
        lines = list(csv.DictReader(io.StringIO((self.folder / "one" / "draws.csv").read_text(encoding="utf-8-sig"))))
        self.assertEqual([line["draw"] for line in lines], list(map(str, range(1, 41))))
        self.assertRegex(found.out, r"\n40 draws: mean [\d.]+ t, 95 % between [\d.]+ t and [\d.]+ t \(-")
        self.assertRegex(found.out, r"\nTries that the library refused, and that were drawn again: \d+\. ")
        page = (self.folder / "one" / "sensitivity.html").read_text(encoding="utf-8")
        self.assertEqual(Page(page).faults, [])
        self.assertIn("The inputs are not", page)

    def test_a_series(self):
        for year, many in ((1990, "18400"), (1991, "17000")):
            self.put_sheet("series/%d.evp" % year, TEXT.replace("18400", many))
        inputs = self.put("inputs.csv", SEVERAL)
        found = run("sensitivity", self.folder / "series", "--inputs", inputs, "--draws", 20, "--workers", 1, "-o",
                    self.folder / "out")
        self.assert_plain(found, 0)
        lines = list(csv.DictReader(io.StringIO(
            (self.folder / "out" / "summary.csv").read_text(encoding="utf-8-sig"))))
        self.assertEqual([line["sheet"] for line in lines], ["1990", "1991"])
        self.put_sheet("series/1992.evp", TEXT.replace("fill=40", "fill=200"))
        found = run("sensitivity", self.folder / "series", "--inputs", inputs, "-o", self.folder / "other")
        self.assert_plain(found, 1)  # a refused sheet is left out, and the others go on
        self.assertIn("evp: left out: %s/series/1992.evp: refused 15 at 120" % self.folder, found.err)
        self.assertTrue((self.folder / "other" / "sensitivity.csv").exists())

    def test_without_draws(self):
        a, inputs = self.put_sheet("a.evp", TEXT), self.put("inputs.csv", SEVERAL)
        found = run("sensitivity", a, "--inputs", inputs, "-o", self.folder / "out")
        self.assert_plain(found, 0)
        self.assertFalse((self.folder / "out" / "draws.csv").exists())
        self.assertNotIn("draws", found.out)

    def test_faults(self):
        a, inputs = self.put_sheet("a.evp", TEXT), self.put("inputs.csv", SEVERAL)
        refused = self.put_sheet("b.evp", TEXT.replace("fill=40", "fill=200"))
        out = self.folder / "out"
        found = run("sensitivity", refused, "--inputs", inputs, "-o", out)
        self.assertEqual((found.status, out.exists()), (1, False))
        self.assertIn("b.evp: refused 15 at 120", found.err)
        for words, said in ((("--draws", 5), "not a whole number from 10 to 100,000"),
                            (("--draws", "x"), "not a whole number"), (("--workers", 0), "not a whole number from 1")):
            found = run("sensitivity", a, "--inputs", inputs, "-o", out, *words)
            self.assert_plain(found, 2)
            self.assertIn(said, found.err)
        bad = self.put("bad.csv", HEADER + "vp,row 1,kPa,5,,,normal\n")
        found = run("sensitivity", a, "--inputs", bad, "-o", out)
        self.assert_plain(found, 2)
        self.assertEqual(found.err, "evp: %s: line 2: where: 'row 1' is not all or season 2\n" % bad)

    def test_shown_as_certain(self):
        """What is certain is the computation."""
        found = run("show", self.put_sheet("a.evp", TEXT))
        self.assertTrue(found.out.endswith(
            "\nEvery digit of the computation is certain; --unit mg shows the bands.\n"
            "The uncertainty of the inputs is not included: evp sensitivity estimates it.\n"))


if __name__ == "__main__":
    unittest.main()
