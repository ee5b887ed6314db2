"""What changed between two sheets: the steps add up exactly, in the stated order, and name every input."""

import csv
import io
import json
import unittest
from random import Random

from analysis.cases import random_pair
from html_check import Page
from support import CAR, DRIVEN, FITTED, GRID_TEXT, LIBRARY, SAMPLES, SEASONS, TEXT, DeskTestCase, grid, run, sample

from evp import sheet
from evp.analysis.changes import ORDER, changes_of
from evp.analysis.matching import Pair, matched_rows
from evp.analysis.telling import changes_csv, changes_lines, signed
from evp.analysis.values import NoNames, sheet_of, values_of
from evp.convert import converted
from evp.layout import FIELDS
from evp.library import Band

try:
    from evp.analysis.pages import changes_table
except ImportError:  # jinja2 is missing
    changes_table = None  # type: ignore[assignment]


def words_of(a: str, b: str) -> list[str]:
    """The inputs that differ between two texts."""
    found = changes_of(LIBRARY, sheet.write(a), sheet.write(b))
    return [change.words for step in found.steps for change in step.changes]


class TestAdditivity(unittest.TestCase):
    def test_random_pairs(self):
        rng, merged, steps = Random(45), 0, 0
        for number in range(120):
            a, b = random_pair(rng)
            found = changes_of(LIBRARY, a, b)
            with self.subTest(number=number):
                self.check(found, a, b)
            merged += any(step.refusals for step in found.steps)
            steps += len(found.steps)
        self.assertGreater(merged, 3)  # sheets between that are refused were met
        self.assertGreater(steps, 200)

    def check(self, found, a: bytes, b: bytes):
        first, last = LIBRARY.report(a), LIBRARY.report(b)
        self.assertEqual((found.a, found.b), (first, last))
        self.assertEqual(first.total.low + sum(step.low for step in found.steps), last.total.low)
        self.assertEqual(first.total.high + sum(step.high for step in found.steps), last.total.high)
        reports = [first, *(step.after for step in found.steps)]
        self.assertEqual([step.before for step in found.steps], reports[:-1])
        groups = [group for step in found.steps for group in step.groups if group is not ORDER[0]]
        self.assertEqual(groups, sorted(groups, key=ORDER.index))
        if a[3] == b[3]:  # else one step is another version, with which the inputs stay
            self.assertNotIn(ORDER[0], [group for step in found.steps for group in step.groups])
        for step in found.steps:
            self.assertTrue(step.changes)
            self.assertEqual(len(step.refusals), len(step.groups) - 1)

    def test_the_csv_adds_up(self):
        rng = Random(46)
        for _ in range(10):
            lines = list(csv.DictReader(io.StringIO(changes_csv(changes_of(LIBRARY, *random_pair(rng))))))
            for column in lines[0]:
                if column.endswith("_mg"):
                    numbers = [int(line[column]) for line in lines]
                    self.assertEqual(sum(numbers[:-1]), numbers[-1], column)

    def test_a_sheet_between_is_the_library_s(self):
        a = sample("region")
        values = values_of(a)
        rows = tuple({**row, "vehicles": row["vehicles"] // 2} for row in values.rows)
        between = sheet_of(values_of(a).__class__(values.version, values.parking, values.seasons, rows), 1)
        seasons = tuple({**season, "vp": season["vp"] + 20} for season in values.seasons)
        b = sheet_of(values.__class__(values.version, values.parking, seasons, rows), 1)
        found = changes_of(LIBRARY, a, b)
        self.assertEqual([step.title for step in found.steps], ["vehicles", "fuel"])
        self.assertEqual(found.steps[0].after, LIBRARY.report(between))

    def test_values_are_written_as_they_were_read(self):
        for name in ("region", "survey", "odometer", "districts"):
            data = sample(name)
            self.assertEqual(sheet_of(values_of(data), data[3]), data)


class TestInputs(unittest.TestCase):
    def test_every_field_is_in_one_group(self):
        fields = [name for group in ORDER for name in group.fields]
        self.assertEqual(sorted(fields), sorted(FIELDS))

    def test_alike(self):
        self.assertEqual(changes_of(LIBRARY, sample("region"), sample("region")).steps, ())

    def test_names(self):
        self.assertEqual(words_of(TEXT, TEXT.replace("vp=60.0", "vp=62.0")),
                         ["season 2: vapour pressure 60.0 → 62.0 kPa"])
        self.assertEqual(words_of(TEXT, TEXT.replace("vehicles=18400", "vehicles=1200")),
                         ["row 1: vehicles 18,400 → 1,200"])
        self.assertEqual(words_of(TEXT, TEXT.replace("lowest=-2.0", "lowest=-3.5")),
                         ["season 1: lowest temperature -2.0 → -3.5 °C"])
        self.assertEqual(words_of(TEXT, TEXT.replace("durations 420", "durations 400")),
                         ["parking: parkings that last 0.5 h 420 → 400"])
        self.assertEqual(words_of(TEXT, TEXT.replace("fill=40", "fill=30 tank=47.5")),
                         ["row 1: tank by class → 47.5 l", "row 1: fill level 40 → 30 %"])
        self.assertEqual(words_of(GRID_TEXT, GRID_TEXT.replace(grid(), grid(3))),
                         ["parking: ends at hour 8 after 10 h 1 → 3"])

    def test_rows_that_changed_alike_are_named_together(self):
        text = TEXT + CAR.replace("18400", "90")
        self.assertEqual(words_of(text, text.replace("trips=4.80", "trips=4.60")),
                         ["rows 1 and 3: trips 4.80 → 4.60 a day"])

    def test_vehicles_have_their_sum(self):
        self.assertEqual(words_of(TEXT, TEXT.replace("18400", "18500").replace("=500 ", "=700 "))[0],
                         "all rows of both sheets: vehicles 18,900 → 19,200")

    def test_another_number_of_seasons(self):
        found = words_of(TEXT, TEXT.replace(SEASONS, SEASONS.splitlines()[0] + "\n"))
        self.assertEqual(found, ["seasons: number, with their days, temperatures and vapour pressures 2 → 1"])

    def test_rows_removed_and_added(self):
        moped = "row class=5 technology=1 carburettor=80 hot=30 fill=40 vehicles=1420 trips=2.00 minutes=9\n"
        self.assertEqual(words_of(TEXT + moped, LISTED + FITTED + moped),
                         ["row 1: car below 1.4 l, conventional, 18,400 vehicles"])
        self.assertEqual(words_of(TEXT, TEXT + moped), ["row 3: moped, Euro 1, 1,420 vehicles"])

    def test_versions(self):
        """Two lists and the grid of their products are the same parking."""
        later = converted(sample("region"), 4)
        found = changes_of(LIBRARY, sample("region"), later)
        self.assertEqual([(step.title, step.low, step.high) for step in found.steps], [("version of the sheet", 0, 0)])
        found = changes_of(LIBRARY, later, sample("region"))
        self.assertEqual([change.words for change in found.steps[0].changes], ["sheet: version 4 → 1"])


LISTED = TEXT.replace(CAR, "").replace(FITTED, "")


class TestNames(unittest.TestCase):
    """Names of rows and seasons, which live beside a sheet."""

    def test_in_the_words(self):
        names = NoNames(("winter", "summer"), ("vans", ""))
        b = sheet.write(TEXT.replace("vp=60.0", "vp=62.0").replace("trips=4.80", "trips=4.60"))
        found = changes_of(LIBRARY, sheet.write(TEXT), b, names, names)
        self.assertEqual([step.changes[0].words for step in found.steps], [
            "row 1 (vans): trips 4.80 → 4.60 a day", "season 2 (summer): vapour pressure 60.0 → 62.0 kPa"])

    def test_rows_are_matched_by_them(self):
        """Of two rows of one class the one whose name is gone was removed."""
        a = sheet.write(TEXT + CAR.replace("18400", "70"))
        b = sheet.write(LISTED + FITTED + CAR.replace("18400", "75"))
        found = changes_of(LIBRARY, a, b, NoNames((), ("old", "new", "vans")), NoNames((), ("new", "vans")))
        self.assertEqual([change.words for step in found.steps for change in step.changes], [
            "row 1 (old): car below 1.4 l, conventional, 18,400 vehicles", "row 3 (vans): vehicles 70 → 75"])


class TestRefused(unittest.TestCase):
    def test_a_load_in_place_of_a_mileage(self):
        """A load beside a mileage is refused, so that both are changed together."""
        loaded = GRID_TEXT.replace("mileage=84000", "mileage=0 load=12.0")
        found = changes_of(LIBRARY, sheet.write(GRID_TEXT), sheet.write(loaded))
        step, = found.steps
        self.assertEqual(step.title, "canister, mileage")
        self.assertIn("changed together, since a sheet between is refused 25 at", step.note)
        self.assertIn("changed together", "\n".join(changes_lines(found)))
        back = changes_of(LIBRARY, sheet.write(loaded), sheet.write(GRID_TEXT))
        self.assertEqual([step.title for step in back.steps], ["canister", "mileage"])

    def test_another_technology_without_canister(self):
        plain = FITTED.replace("technology=3", "technology=0").replace("load=32.0 saturation=60.0", "")
        step, = changes_of(LIBRARY, sheet.write(TEXT), sheet.write(TEXT.replace(FITTED, plain))).steps
        self.assertEqual(step.title, "class and technology, canister")
        self.assertEqual(step.changes[0].words, "row 2: technology Euro 3 → conventional")

    def test_no_row_between(self):
        """All rows are replaced: without any row a sheet is refused."""
        moped = "row class=5 technology=1 carburettor=80 hot=30 fill=40 vehicles=1420 trips=2.00 minutes=9\n"
        step, = changes_of(LIBRARY, sheet.write(LISTED + CAR + FITTED), sheet.write(LISTED + moped)).steps
        self.assertEqual(step.title, "rows removed, rows added")
        self.assertIn("refused 5", step.note)


class TestMatching(unittest.TestCase):
    ROWS = [{"class": c, "technology": 0, "vehicles": n} for c, n in ((1, 10), (2, 20), (2, 30), (3, 40))]

    def test_one_left_out(self):
        b = [self.ROWS[0], self.ROWS[2], self.ROWS[3]]
        self.assertEqual(matched_rows(self.ROWS, b), [Pair(0, 0), Pair(1, None), Pair(2, 1), Pair(3, 2)])

    def test_names(self):
        """Rows of one class are told apart by their names."""
        b = [{**self.ROWS[1], "vehicles": 7}]
        names = ["a", "b", "c", "d"]
        self.assertEqual(matched_rows(self.ROWS, b, names, ["c"])[2], Pair(2, 0))

    def test_another_class_in_its_place(self):
        b = [self.ROWS[0], {**self.ROWS[1], "class": 4}, *self.ROWS[2:]]
        self.assertEqual(matched_rows(self.ROWS, b), [Pair(i, i) for i in range(4)])

    def test_another_order(self):
        self.assertEqual(matched_rows(self.ROWS, self.ROWS[::-1]), [Pair(0, 3), Pair(1, 2), Pair(2, 1), Pair(3, 0)])


class TestCommand(DeskTestCase):
    def sheets(self):
        return self.put_sheet("a.evp", TEXT), self.put_sheet("b.evp", TEXT.replace("vp=60.0", "vp=62.0").replace(
            "vehicles=18400", "vehicles=12000"))

    def test_text(self):
        found = run("compare", *self.sheets())
        self.assertEqual(found.status, 0)
        self.assertIn("\nWhat changed, one group of inputs after another in this order:\n", found.out)
        mass = r" +%s[\d.]+ (t|kg) +%s[\d,]+ +%s[\d,]+\n"
        self.assertRegex(found.out, r"\nvehicles" + mass % (("-",) * 3) + "fuel" + mass % ((r"\+",) * 3) + "B ")
        self.assertIn("\nfuel:\n  season 2: vapour pressure 60.0 → 62.0 kPa\n", found.out)

    def test_csv_and_json(self):
        a, b = self.sheets()
        lines = list(csv.DictReader(io.StringIO(run("compare", a, b, "--csv").out)))
        self.assertEqual([line["group"] for line in lines], ["A", "vehicles", "fuel", "B"])
        changes = json.loads(run("compare", a, b, "--json").out)["changes"]
        self.assertEqual([step["groups"] for step in changes], [["vehicles"], ["fuel"]])
        self.assertEqual([str(step["low_mg"]) for step in changes], [line["low_mg"] for line in lines[1:-1]])
        self.assertEqual(changes[1]["inputs"], [{"where": "season 2", "input": "vapour pressure", "before": "60.0",
                                                 "after": "62.0", "unit": "kPa"}])

    def test_no_difference(self):
        region = SAMPLES / "region.evp"
        self.assertTrue(run("compare", region, region).out.endswith("\n\nNo input differs.\n"))

    def test_signs(self):
        self.assertEqual(signed(Band(5, 5)), "+5 mg")
        self.assertEqual(signed(Band(-5, -5)), "-5 mg")
        self.assertEqual(signed(Band(-5, 7)), "-5 mg to +7 mg")
        self.assertEqual(signed(Band(0, 0)), "0 mg")


@unittest.skipIf(changes_table is None, "jinja2 is missing")
class TestFragment(unittest.TestCase):
    def test_table(self):
        a, b = sheet.write(TEXT), sheet.write(TEXT.replace("vp=60.0", "vp=62.0") + DRIVEN.replace(
            "mileage=84000", ""))
        html = str(changes_table(a, b, ("<2006>", "2007"), LIBRARY))
        page = Page('<html lang="en"><head><title>a</title></head><body><header></header><main id="main"><h1>a</h1>'
                    "%s</main><footer></footer></body></html>" % html)
        self.assertEqual([fault for fault in page.faults if "script" not in fault and "meta" not in fault], [])
        self.assertIn("&lt;2006&gt;", html)
        self.assertIn("season 2: vapour pressure 60.0 → 62.0 kPa", html)
        for band in (LIBRARY.report(a).total, LIBRARY.report(b).total):
            self.assertIn(format(band.low, ","), html)
        self.assertEqual(html.count("<tr>"), 1 + 1 + 2 + 1)

    def test_alike(self):
        self.assertIn("No input\ndiffers", str(changes_table(sample("survey"), sample("survey"), library=LIBRARY)))


if __name__ == "__main__":
    unittest.main()
