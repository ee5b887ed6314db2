"""Each form of a project, and what is reported of one that is not complete."""

import unittest

from support import LIBRARY, DeskTestCase, grid
from years.making import FLEET, PARKING, TABLE_SEASONS, YEARS, fleet, read, sheet_of, without_workbook, years

from evp import sheet
from evp.figures import bands
from evp.pages import forms
from evp.years.project import GUIDEBOOK
from evp.years.tables import clean

try:
    import openpyxl
except ImportError:
    openpyxl = None


class ProjectTestCase(DeskTestCase):
    workbook = False  # whether results.xlsx is made

    def setUp(self):
        super().setUp()
        if not self.workbook:
            without_workbook(self)

    def made(self, *more: object, status: int = 0) -> list[dict[str, str]]:
        """The lines of results.csv of the project in `p`."""
        found = years(self.folder / "p", "-o", self.folder / "out", "--jobs", 1, *more)
        self.assert_plain(found, status)
        self.said = found.out + found.err
        return read(self.folder / "out" / "results.csv")

    def tables(self, **tables: str):
        for name, text in {"seasons": TABLE_SEASONS, "fleet": fleet(), "parking": PARKING, **tables}.items():
            if text:
                self.put("p/%s.csv" % name, text)

    def check_sheets(self, lines: list[dict[str, str]]):
        """Every line that is reported is what a report call says of its sheet, and none is missing."""
        by_sheet: dict[str, dict[tuple[str, str], tuple[int, int]]] = {}
        for line in lines:
            if line["status"] == "reported":
                figure = line["category"], line["mechanism"]
                by_sheet.setdefault(line["sheet"], {})[figure] = int(line["low_mg"]), int(line["high_mg"])
        for name, masses in by_sheet.items():
            folder = self.folder / ("out" if name.startswith("sheets/") else "p")
            report = LIBRARY.report((folder / name).read_bytes())
            wanted = {tuple(figure): tuple(band) for figure, band in bands(report).items() if not figure.row.isdigit()}
            self.assertEqual(masses, wanted)


class SheetsTest(ProjectTestCase):
    def test_names_of_all_forms(self):
        for name in ("1990.evp", "north-1990.evp", "1991_north.evp", "south/1990.evp", "1992/north.evp",
                     "Saint Étienne 1990.EVP", "inventory_1993_final.evp"):
            self.put("p/" + name, sheet_of(1000 + len(name)))
        lines = self.made()
        self.assertEqual([(line["year"], line["region"]) for line in lines[::13]], [
            ("1990", ""), ("1990", "north"), ("1990", "Saint Étienne"), ("1990", "south"), ("1991", "north"),
            ("1992", "north"), ("1993", "")])
        self.assertEqual(list(lines[0])[:6], ["year", "region", "category", "mechanism", "low_mg", "high_mg"])
        self.check_sheets(lines)

    def test_a_folder_that_all_share_is_no_region(self):
        for year in (1990, 1991):
            self.put("p/data/north-%d.evp" % year, sheet_of(year))
        self.assertEqual({line["region"] for line in self.made()}, {"north"})

    def test_two_files_for_one_year(self):
        for name in ("north-1990.evp", "North_1990_final.evp", "north-1991.evp"):
            self.put("p/" + name, sheet_of())
        lines = self.made(status=1)
        self.assertEqual((lines[0]["year"], lines[0]["status"], lines[0]["low_mg"]), ("1990", "twice", ""))
        for name in ("north-1990.evp", "North_1990_final.evp"):
            self.assertIn(name, lines[0]["reason"])
        self.assertEqual(len(lines), 14)

    def test_a_name_without_a_year_or_with_two(self):
        for name in ("north.evp", "1990-1991.evp", "1990.evp"):
            self.put("p/" + name, sheet_of())
        lines = self.made(status=1)
        self.assertEqual({line["sheet"].rpartition("/")[2]: line["status"] for line in lines}, {
            "north.evp": "unnamed", "1990-1991.evp": "unnamed", "1990.evp": "reported"})
        self.assertIn("1990, 1991", next(line["reason"] for line in lines if "1990-1991" in line["sheet"]))

    def test_refused_sheets_are_lines(self):
        for year in YEARS:
            self.put("p/%d.evp" % year, sheet_of(100 * year))
        self.put("p/1995.evp", sheet.write(LONG_YEAR))
        self.put("p/1996.evp", b"no sheet")
        self.put("p/1997.evp", b"")
        lines = self.made(status=1)
        self.check_sheets(lines)
        refused = {line["year"]: line["reason"] for line in lines if line["status"] == "refused"}
        self.assertEqual(set(refused), {"1995", "1996", "1997"})
        self.assertIn("refused 10", refused["1995"])
        self.assertEqual(len(lines), 13 * (len(YEARS) - 3) + 3)
        self.assertIn("9 reported, 3 not", self.said)

    def test_no_project(self):
        self.put("p/other.txt", "text")
        self.put("file.txt", "text")
        self.put("both/1990.evp", sheet_of())
        self.put("both/fleet.csv", fleet())
        for name, words in (("p", "neither sheets"), ("file.txt", "a folder of sheets"), ("gone", "no such folder"),
                            ("both", "both sheets")):
            found = years(self.folder / name, "-o", self.folder / "out")
            self.assert_plain(found, 2)
            self.assertIn(words, found.err)

    def test_the_folder_of_results(self):
        self.put("p/1990.evp", sheet_of())
        self.put("full/letter.txt", "mine")
        for out, words in (("full", "other files"), ("p", "a folder of their own")):
            found = years(self.folder / "p", "-o", self.folder / out)
            self.assert_plain(found, 2)
            self.assertIn(words, found.err)
        self.assert_plain(years(self.folder / "p", "-o", self.folder / "full", "--force"), 0)
        self.assert_plain(years(self.folder / "p", "-o", self.folder / "p" / "out"), 0)
        again = years(self.folder / "p", "-o", self.folder / "p" / "out")
        self.assertIn("1 sheet of 1 year: 1 reported", again.out)


LONG_YEAR = sheet.read(sheet_of()).replace("days=182", "days=190")


class TablesTest(ProjectTestCase):
    def test_long_tables(self):
        self.tables()
        lines = self.made()
        self.assertEqual(len(lines), 13 * 2 * len(YEARS))
        self.check_sheets(lines)
        text = sheet.read((self.folder / "out/sheets/north-1995.evp").read_bytes())
        self.assertIn("vehicles=16900", text)
        self.assertIn("highest=29.0", text)
        self.assertEqual(text.count("row "), 2)
        names = (self.folder / "out/sheets/north-1995.names.csv").read_text()
        self.assertIn("season,2,summer", names)
        self.assertIn("row,1,old cars", names)

    def test_as_an_office_saves_them(self):
        """With ; and a decimal comma, CRLF, a byte order mark or of Windows, empty lines, capital letters, columns in
        another order: the same sheets."""
        self.tables()
        self.made()
        wanted = {path.name: path.read_bytes() for path in (self.folder / "out/sheets").glob("*.evp")}
        header = "Vehicles;YEAR;Region;Trips [a day];Class;Technology;Carburettor;Hot;Fill;Minutes;Comment\r\n"
        lines = [header, "\r\n"]
        for line in fleet().splitlines()[1:]:
            year, region, _, number, technology, carburettor, hot, fill, vehicles, trips, minutes, *_ = line.split(",")
            technology = "Euro 1" if technology == "1" else "conventional"
            lines.append(";".join((vehicles + ",0", year, region.upper(), trips.replace(".", ","), number, technology,
                                   carburettor, hot, fill, minutes, "geprüft")) + "\r\n;;;;\r\n")
        for encoding in ("utf-8-sig", "cp1252", "utf-16"):
            self.put("p/fleet.csv", "")
            (self.folder / "p/fleet.csv").unlink()
            self.put("p/Fleet.CSV", "".join(lines).encode(encoding))
            self.made()
            made = {path.name.lower(): path.read_bytes() for path in (self.folder / "out/sheets").glob("*.evp")}
            self.assertEqual(made, wanted, encoding)

    def test_ranges_of_years(self):
        seasons = ("year_from,year_to,days,lowest,highest,vp\n,1994,365,5.0,15.0,70.0\n1995,1997,365,5.0,15.0,65.0\n"
                   "1998,,365,5.0,15.0,60.0\n")
        self.tables(seasons=seasons)
        self.made()
        for year, vp in ((1990, 70), (1994, 70), (1995, 65), (1997, 65), (1998, 60), (2001, 60)):
            self.assertIn("vp=%d.0" % vp, sheet.read((self.folder / ("out/sheets/south-%d.evp" % year)).read_bytes()))
        self.put("p/seasons.csv", seasons.replace("year_from,year_to", "year").replace("\n,1994,", "\n-1994,").replace(
            "\n1995,1997,", "\n1995 - 1997,").replace("\n1998,,", "\n1998-,"))
        before = (self.folder / "out/results.csv").read_bytes()
        self.made()
        self.assertEqual((self.folder / "out/results.csv").read_bytes(), before)

    def test_a_table_for_each_year_or_region(self):
        """The year or region in the name of a table holds for its rows."""
        self.tables()
        self.made()
        wanted = (self.folder / "out/results.csv").read_bytes()
        (self.folder / "p/fleet.csv").unlink()
        rows = fleet().splitlines()[1:]
        for region in ("north", "south"):
            lines = [",".join([row.split(",")[0], "", *row.split(",")[2:]]) for row in rows if region in row]
            self.put("p/%s/fleet.csv" % region, FLEET + "\n".join(lines))
        self.put("p/fleet-all.csv", FLEET + rows[-1])
        (self.folder / "p/fleet-all.csv").rename(self.folder / "p/fleet.csv")
        lines = self.made()
        self.assertEqual(len(lines), 13 * 2 * len(YEARS))
        self.check_sheets(lines)
        self.assertEqual(sorted(line["low_mg"] for line in lines),
                         sorted(line.split(",")[4] for line in wanted.decode().splitlines()[1:]))

    def test_what_is_missing_is_told(self):
        self.tables(fleet="".join(line + "\n" for line in fleet().splitlines()[:-1] if "1994,south" not in line),
                    seasons=TABLE_SEASONS)
        lines = self.made(status=1)
        missing = [line for line in lines if line["status"] != "reported"]
        self.assertEqual([(line["year"], line["region"], line["status"]) for line in missing], [
            ("1994", "south", "missing")])
        self.assertIn("fleet", missing[0]["reason"])

    def test_a_wrong_cell_is_of_its_year_alone(self):
        self.tables(fleet=fleet().replace("1994,south,old cars,1,0", "1994,south,old cars,1,zero"))
        lines = self.made(status=1)
        wrong = [line for line in lines if line["status"] != "reported"]
        self.assertEqual([(line["year"], line["region"], line["status"]) for line in wrong], [
            ("1994", "south", "unreadable")])
        self.assertRegex(wrong[0]["reason"], "fleet.csv: line 11: technology: 'zero' is no number")

    def test_tables_that_cannot_be_read(self):
        for name, text, words in (
                ("fleet", fleet().replace("vehicles", "vehicels"), "did you mean vehicles"),
                ("fleet", fleet().replace("1994,south", "94,south"), "line 11: year: '94' is no year"),
                ("seasons", "", "no table seasons"), ("fleet", FLEET + ",,,1,0,9,9,9,9,1,1,,\n", "names a year")):
            with self.subTest(words):
                self.tables(**{name: text})
                if not text:
                    (self.folder / "p" / (name + ".csv")).unlink()
                found = years(self.folder / "p", "-o", self.folder / "out")
                self.assert_plain(found, 2)
                self.assertIn(words, found.err)
                self.tables()

    def test_without_parking_the_guidebook(self):
        self.tables(parking="")
        self.made()
        self.assertIn("Tables 3-12 and 3-13", self.said)
        self.assertEqual(GUIDEBOOK, forms.GUIDEBOOK)
        text = sheet.read((self.folder / "out/sheets/north-1990.evp").read_bytes())
        self.assertIn("durations %s" % " ".join(GUIDEBOOK["durations"]), text)

    def test_what_may_be_a_thousand_is_not_guessed(self):
        for word, wanted in (("18400.0", "18400"), ("18400,00", "18400"), ("4.80", "4.8"), ("45 %", "45"),
                             ("1.000", "1.000"), ("18,400", "18,400"), ("\u22122.0", "-2"), (".5", "0.5"),
                             ("4.8000", "4.8")):
            self.assertEqual(clean(word), wanted)
        self.tables(fleet=fleet().replace(",9100,", ',"9,100",'))
        self.assertEqual({line["status"] for line in self.made(status=1) if line["region"] == "south"}, {"unreadable"})

    def test_a_title_above_the_table(self):
        self.tables(fleet="Fleet of the country,,,,\n\n" + fleet())
        self.assertEqual(len(self.made()), 13 * 2 * len(YEARS))

    def test_more_rows_than_lists_take(self):
        """With more than 32 rows the two lists become a grid."""
        rows = "".join("1990,,,1,0,99,45,40,%d,4.80,12,,\n" % i for i in range(1, 41))
        self.tables(fleet=FLEET + rows, seasons="days,lowest,highest,vp\n365,5.0,15.0,70.0\n")
        self.check_sheets(self.made())
        data = (self.folder / "out/sheets/1990.evp").read_bytes()
        self.assertEqual((data[3], data[6]), (4, 40))

    def test_a_grid(self):
        header = "end_hour," + ",".join("%g" % (d / 2) for d in range(1, 25)) + ",region\n"
        rows = "".join(",".join(line.split()[1:]) + ",%s\n" for line in grid().splitlines())
        self.tables(parking="", grid=header + rows.replace("%s", "north") + rows.replace("%s", "South"))
        self.check_sheets(self.made())

    def test_results_within_the_project_are_no_part_of_it(self):
        self.tables()
        for name in ("first", "second"):
            self.assert_plain(years(self.folder / "p", "-o", self.folder / "p" / name, "--jobs", 1), 0)

    def test_sheets_of_years_that_are_gone_are_removed(self):
        self.tables()
        self.made()
        self.put("p/fleet.csv", "".join(line + "\n" for line in fleet().splitlines() if not line.startswith("2001")))
        self.made()
        self.assertFalse((self.folder / "out/sheets/north-2001.evp").exists())
        self.assertFalse((self.folder / "out/sheets/north-2001.names.csv").exists())


@unittest.skipIf(openpyxl is None, "not run: sudo apt install python3-openpyxl")
class WorkbookTest(ProjectTestCase):
    def test_a_workbook_is_as_its_tables(self):
        self.tables()
        self.made()
        wanted = (self.folder / "out/results.csv").read_bytes()
        book = openpyxl.Workbook()
        book.active.title = "Notes"
        for name, text in (("Seasons", TABLE_SEASONS), ("FLEET", fleet()), ("parking", PARKING)):
            worksheet = book.create_sheet(name)
            for line in text.splitlines():
                worksheet.append([_typed(word) for word in line.split(",")])
        book.save(self.folder / "country.xlsx")
        found = years(self.folder / "country.xlsx", "-o", self.folder / "out2")
        self.assert_plain(found, 0)
        self.assertEqual((self.folder / "out2/results.csv").read_bytes(), wanted)

    def test_no_workbook(self):
        self.put("broken.xlsx", b"PK\3\4 nothing")
        found = years(self.folder / "broken.xlsx", "-o", self.folder / "out")
        self.assert_plain(found, 2)
        book = openpyxl.Workbook()
        book.save(self.folder / "other.xlsx")
        found = years(self.folder / "other.xlsx", "-o", self.folder / "out")
        self.assert_plain(found, 2)
        self.assertIn("no worksheet", found.err)


def _typed(word: str) -> object:
    try:
        return float(word)
    except ValueError:
        return word or None


if __name__ == "__main__":
    unittest.main()
