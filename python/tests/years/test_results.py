"""The tables and the page of a series."""

import unittest
from decimal import ROUND_HALF_UP, Decimal

from html_check import Page
from support import LIBRARY
from years.making import TABLE_SEASONS, fleet, read, sheet_of, years
from years.test_project import ProjectTestCase

from evp.library import Band
from evp.years.results import certain

try:
    import openpyxl
except ImportError:
    openpyxl = None


class CertainTest(unittest.TestCase):
    def test_digits(self):
        for low, high, wanted in ((1_351_080_000_000, 1_351_084_999_999, "1.35108"), (5, 5, "0.000000000005"),
                                  (0, 0, "0"), (400_000_000_000, 600_000_000_000, ""), (0, 1, "0.00000000000"),
                                  (1_449_000_000_000, 1_451_000_000_000, "1.45")):
            self.assertEqual(certain(Band(low, high), 12), wanted)

    def test_that_both_ends_round_to_it(self):
        for i in range(300):
            low = 7 ** (i % 17) * 1013 + i
            band = Band(low, low + 3 ** (i % 23))
            word = certain(band, 9)
            if word:
                step = Decimal(1).scaleb(Decimal(word).as_tuple().exponent)
                for end in band:
                    self.assertEqual(Decimal(end).scaleb(-9).quantize(step, ROUND_HALF_UP), Decimal(word))


class TablesTest(ProjectTestCase):
    def setUp(self):
        super().setUp()
        self.tables()

    def test_nfr(self):
        self.made("--seasons", "--rows")
        lines = read(self.folder / "out/nfr.csv")
        self.assertEqual({(line["nfr"], line["pollutant"]) for line in lines}, {("1.A.3.b.v", "NMVOC")})
        for year in ("1990", "2001"):
            of_year = [line for line in lines if line["year"] == year]
            reports = {region: LIBRARY.report((self.folder / ("out/sheets/%s-%s.evp" % (region, year))).read_bytes())
                       for region in ("north", "south")}
            totals = {line["region"]: Band(int(line["low_mg"]), int(line["high_mg"])) for line in of_year
                      if line["category"] == "total" and not line["season"]}
            self.assertEqual({region: report.total for region, report in reports.items()},
                             {region: totals[region] for region in reports})
            self.assertEqual(totals["all regions"], Band(*map(sum, zip(*(r.total for r in reports.values())))))
            self.check_classes([line for line in of_year if line["region"] == "north"], reports["north"])
        summer = [line for line in lines if line["season_name"] == "summer" and line["region"] == "south"
                  and line["category"] == "total" and line["year"] == "1990"]
        data = (self.folder / "out/sheets/south-1990.evp").read_bytes()
        self.assertEqual([int(line["low_mg"]) for line in summer], [LIBRARY.report_seasons(data)[1].total.low])
        rows = read(self.folder / "out/rows.csv")
        self.assertEqual({line["name"] for line in rows}, {"old cars", "mopeds"})
        self.assertEqual({line["class_name"] for line in rows}, {"car below 1.4 l", "moped"})

    def check_classes(self, lines, report):
        """Classes and technologies add up to their category."""
        for category in ("cars", "light", "two"):
            for mechanism in ("diurnal", "soak", "running"):
                found = [int(line["high_mg"]) for line in lines if line["class"] and line["category"] == category
                         and line["mechanism"] == mechanism]
                self.assertEqual(sum(found), getattr(getattr(report, category), mechanism).high)

    def test_no_sum_without_a_region(self):
        self.put("p/fleet.csv", fleet().replace("1994,south,old cars,1,0,99", "1994,south,old cars,1,0,199"))
        lines = self.made(status=1)
        self.assertEqual([line["status"] for line in lines if line["status"] != "reported"], ["refused"])
        total = next(line for line in read(self.folder / "out/nfr.csv")
                     if line["year"] == "1994" and line["region"] == "all regions")
        self.assertEqual((total["nmvoc_kt"], total["status"]), ("", "no sum: south is refused"))

    def test_decimal_comma(self):
        self.made()
        plain = {name: read(self.folder / "out" / name) for name in ("results.csv", "nfr.csv")}
        self.made("--decimal", "comma")
        for name, wanted in plain.items():
            lines = read(self.folder / "out" / name, ";")
            self.assertEqual([{key: value.replace(",", ".") for key, value in line.items()} for line in lines], wanted)
            self.assertNotIn(".", lines[0].get("nmvoc_kt", "") + lines[0].get("low_t", ""))

    def test_filed(self):
        lines = {(line["year"], line["region"]): line for line in self.made() if line["category"] == "total"}
        mass = lines["1993", "north"]["certain_t"]
        digits = mass.replace(".", "")
        i = next(i for i in range(1, len(digits) - 1) if digits[i] != digits[i + 1])
        swapped = digits[:i] + digits[i + 1] + digits[i] + digits[i + 2:]
        both = sum(int(lines["1991", region]["low_mg"]) for region in ("north", "south"))
        point = mass.index(".")
        self.put("filed.csv", "Year,Region,Category,Mechanism,Figure,Unit\n1990,NORTH,total,,%s,t\n"
                 "1993,north,total,,%s.%s,t\n1994,south,all,hot soak,NE,t\n1995,south,total,,1,kt\n"
                 "1991,,total,,%.6f,Gg\n2050,north,total,,1,t\n" % (
                     lines["1990", "north"]["certain_t"], swapped[:point], swapped[point:], both / 10 ** 12))
        found = years(self.folder / "p", "-o", self.folder / "out", "--filed", self.folder / "filed.csv")
        self.assert_plain(found, 1)
        marks = {(line["year"], line["region"]): line for line in read(self.folder / "out/marks.csv")}
        self.assertEqual({key: line["verdict"] for key, line in marks.items()}, {
            ("1990", "NORTH"): "agrees", ("1993", "north"): marks["1993", "north"]["verdict"], ("1994", "south"):
            "unreadable", ("1995", "south"): "high", ("1991", ""): "agrees", ("2050", "north"): "absent"})
        self.assertIn(marks["1993", "north"]["verdict"], ("low", "high"))
        self.assertIn("digits may be exchanged", marks["1993", "north"]["note"])

    def test_page(self):
        self.put("p/fleet.csv", fleet(1996))
        self.made()
        page = (self.folder / "out/index.html").read_text(encoding="utf-8")
        self.assertEqual(Page(page.replace("results.csv", "each/").replace("nfr.csv", "each/").replace(
            "results.xlsx", "each/")).faults, [])
        self.assertIn("north 1996", page)
        self.assertIn("from 4.80 to 9.60 (2 times)", page)
        self.assertIn("not of the uncertainty", " ".join(page.split()))
        self.assertEqual(page.count('<svg class="yr-chart'), 6)
        self.assertNotIn("<script src", page)

    def test_words_are_no_formulas_and_no_markup(self):
        self.put("p/fleet.csv", fleet().replace("south", "=1+1").replace("north", "<b>x</b>"))
        self.put("p/seasons.csv", TABLE_SEASONS.replace("south", "=1+1").replace("north", "<b>x</b>"))
        self.made()
        self.assertIn("'=1+1", (self.folder / "out/results.csv").read_text())
        self.assertNotIn("<b>x</b>", (self.folder / "out/index.html").read_text())


@unittest.skipIf(openpyxl is None, "not run: sudo apt install python3-openpyxl")
class WorkbookTest(ProjectTestCase):
    workbook = True

    def test_workbook(self):
        self.tables()
        lines = self.made()
        sheet = openpyxl.load_workbook(self.folder / "out/results.xlsx", read_only=True)["results"]
        rows = list(sheet.iter_rows(values_only=True))
        self.assertEqual(list(rows[0]), list(lines[0]))
        self.assertEqual(len(rows) - 1, len(lines))
        for row, line in zip(rows[1:], lines):
            self.assertEqual(["" if value is None else str(value) for value in row[:6]], list(line.values())[:6])
            self.assertIsInstance(row[4], int)
            self.assertEqual(row[6], float(line["low_t"]))


class OutliersTest(ProjectTestCase):
    def found(self) -> str:
        self.made()
        return self.said.partition("rule of thumb:")[2].partition("results.csv")[0]

    def put_years(self, **wrong: bytes):
        for year in range(1990, 2010):
            self.put("p/%d.evp" % year, sheet_of(18400 - 300 * (year - 1990)))
        for name, data in wrong.items():
            self.put("p/%s.evp" % name[1:], data)

    def test_nothing_stands_away(self):
        self.put_years()
        self.assertNotIn("Outliers", self.found() + self.said)

    def test_trips_doubled(self):
        self.put_years(y2007=sheet_of(18400 - 300 * 17, 9.6))
        found = self.found()
        self.assertIn("  2007: ", found)
        self.assertIn("trips a day of row 1 (car below 1.4 l, conventional) from 4.80 to 9.60 (2 times)", found)
        self.assertIn("with the trips a day of 2006", found)
        self.assertEqual(found.count("\n  "), 1)

    def test_vehicles_of_one_row(self):
        self.put_years(y2003=sheet_of(10 * (18400 - 300 * 13)))
        self.assertRegex(self.found(), r"  2003: .*vehicles of row 1 .* from 14,800 to 145,000 \(9\.8 times\)")

    def test_last_year(self):
        self.put_years(y2009=sheet_of(18400 - 300 * 19, 9.6))
        self.assertRegex(self.found(), "  2009: .*trips a day")

    def test_a_row_left_out(self):
        from evp import sheet
        from years.making import text_of
        lines = text_of(18400 - 300 * 8).splitlines(True)
        self.put_years(y1998=sheet.write("".join(line for line in lines if "class=1" not in line)))
        self.assertRegex(self.found(), "  1998: .*1 row missing: car below 1.4 l, conventional")

    def test_a_step_that_stays(self):
        self.put_years(**{"y%d" % year: sheet_of(18400 - 300 * (year - 1990), 9.6) for year in range(2000, 2010)})
        found = self.found()
        self.assertRegex(found, "  2000: .*trips a day of row 1")
        self.assertEqual(found.count("\n  "), 1)


if __name__ == "__main__":
    unittest.main()
