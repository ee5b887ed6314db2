"""Input without dead ends: lists for any number of rows, names, workbooks, words as spreadsheets write them, doubts."""

import csv
import io
import json
import unittest
from datetime import date
from importlib.util import find_spec
from unittest import mock

from support import CAR, DRIVEN, FITTED, GRID_TEXT, LIBRARY, LISTS, SEASONS, TEXT, DeskTestCase, run, sample, samples

from evp import layout, sheet
from evp.doubting import doubt_lines
from evp.files import InputError
from evp.layout import FIELDS
from evp.sheet import books, take_text
from evp.sheet.names import Names, names_beside, names_file, names_of, names_text
from evp.sheet.spelling import respelt

HAS_BOOKS = all(map(find_spec, ("openpyxl", "odf")))
NO_BOOKS = "not run: workbooks need python3-openpyxl and python3-odf"
GUIDEBOOK = ("durations 420 140 20 49 59 20 29 15 15 10 10 5 10 5 5 5 5 5 5 5 5 5 5 130\n"
             "hours 12 7 4 7 22 46 55 52 52 53 55 46 52 56 58 64 65 63 51 44 42 39 31 22\n")
COUNTRY = GUIDEBOOK + SEASONS + "".join(
    CAR.replace("hot=45", "hot=%d" % i).replace("\n", " # region %d\n" % i) for i in range(60))


class ListsTest(DeskTestCase):
    """Two lists of parkings become the grid of their products where a grid is needed."""

    def test_sixty_rows(self):
        path = self.put("country.txt", COUNTRY)
        found = run("write", path)
        self.assertEqual(found.status, 0, found)
        self.assertIn("accepted: version 4, 2 seasons, 60 rows", found.out)
        self.assertIn("written as the grid of their products, which version 4 has", found.err)
        data = (self.folder / "country.evp").read_bytes()
        self.assertEqual(sum(sum(layout.counts(data, 8 + 48 * t)) for t in range(24)), 982 * 998)

    def test_a_mileage(self):
        data = sheet.write(GUIDEBOOK + SEASONS + CAR + DRIVEN)
        self.assertEqual((layout.version_of(data), LIBRARY.check(data)), (3, None))

    def test_no_mileage_needs_no_grid(self):
        data = sheet.write(GUIDEBOOK + SEASONS + CAR.replace("\n", " mileage=0\n"))
        self.assertEqual((layout.version_of(data), LIBRARY.check(data)), (1, None))

    def test_the_grid_has_the_words_of_the_lists(self):
        """The library's words, where both can be written."""
        for lists in (GUIDEBOOK, LISTS):
            path = self.put("a.txt", lists + SEASONS + CAR + FITTED)
            words = LIBRARY.report(sheet.write(lists + SEASONS + CAR + FITTED))
            for version in (2, 3, 4):
                target = self.folder / "b.evp"
                self.assertEqual(run("write", path, "--version", version, "-o", target, "--force").status, 0)
                self.assertEqual(layout.version_of(target.read_bytes()), version)
                self.assertEqual(LIBRARY.report(target.read_bytes()), words)

    def test_a_version_is_written_where_it_is_accepted_alone(self):
        target = self.folder / "b.evp"
        for text, version, said in (
            (TEXT.replace("load=32.0", "load=70.0"), 4, "not written, since in version 4 this sheet is refused 19 at "),
            (GRID_TEXT, 2, "not written, since in version 2 this sheet is refused 21 at "),
            (COUNTRY, 1, "not written, since in version 1 this sheet is refused 5 at 6"),
            (COUNTRY, 3, "not written, since in version 3 this sheet is refused 5 at 6"),
        ):
            found = run("write", self.put("a.txt", text), "--version", version, "-o", target)
            self.assertEqual((found.status, found.out, target.exists()), (1, "", False))
            self.assertIn(said, found.err)

    def test_lists_that_no_grid_holds(self):
        for lists, said in (
            (GUIDEBOOK.replace("420", "520"), "durations: the counts of the 24 durations sum to 1,082; write counts"),
            ("durations 401" + " 0" * 22 + " 99\nhours 900" + " 0" * 22 + " 91\n",
             "a product of the two lists is 360900, and a count of a grid is at most 65535; write a grid in place"),
        ):
            found = run("write", self.put("a.txt", lists + COUNTRY.partition(GUIDEBOOK)[2]))
            self.assertEqual(found.status, 2)
            self.assertIn(said, found.err)

    def test_a_mileage_beside_version_1(self):
        found = run("write", self.put("a.txt", GUIDEBOOK + SEASONS + DRIVEN), "--version", 1)
        self.assertEqual(found.status, 2)
        self.assertIn("a mileage wants version 3 or 4, and version 1 is asked for", found.err)


class NamesTest(DeskTestCase):
    """Names of rows and seasons live beside the sheet, and come back."""

    def setUp(self):
        super().setUp()
        self.text = TEXT.replace("vp=90.0", "vp=90.0 # winter")
        self.text = self.text.replace("minutes=12\n", "minutes=12 # old cars, north\n")
        self.path, self.target = self.put("a.txt", self.text), self.folder / "a.evp"
        self.found = run("write", self.path)

    def test_written_beside_the_sheet(self):
        self.assertIn("a.names.csv: the names of its rows and seasons", self.found.out)
        lines = list(csv.reader(io.StringIO((self.folder / "a.names.csv").read_text(encoding="utf-8-sig"))))
        self.assertEqual(lines, [
            ["record", "number", "name"], ["season", "1", "winter"], ["row", "1", "old cars, north"]])
        self.assertEqual(self.target.read_bytes(), sheet.write(TEXT))

    def test_shown_wherever_a_row_is(self):
        self.assertRegex(run("show", self.target).out, r"\nrow  name +vehicle .*\n1    old cars, north  car < 1.4 l ")
        self.assertIn("row 1 (old cars, north) soak", run("show", self.target, "--unit", "mg").out)
        lines = run("show", self.target, "--csv").out.splitlines()
        self.assertEqual(lines[0], "row,mechanism,low,high,unit,name")
        self.assertTrue(lines[1].endswith(',mg,"old cars, north"'))
        found = json.loads(run("show", self.target, "--json").out)
        self.assertEqual((found["rows"][0]["name"], found["seasons"][0]["name"]), ("old cars, north", "winter"))
        self.assertNotIn("name", found["rows"][1])
        other = self.put_sheet("b.evp", TEXT.replace("vp=60.0", "vp=70.0"))
        self.assertIn("row 1 (old cars, north) soak", run("compare", self.target, other).out)

    def test_in_refusals(self):
        path = self.put("b.txt", self.text.replace("trips=4.80", "trips=31.00").replace("lowest=-2.0", "lowest=-2.0"))
        self.assertIn("row 1 (old cars, north): trips 31.00 a day is above", run("write", path).out)
        for command in ("check", "explain", "show"):
            found = run(command, self.folder / "b.evp")
            self.assertIn("row 1 (old cars, north)", found.out + found.err)

    def test_there_and_back(self):
        for options, source in ((("--csv", self.folder / "f"), self.folder / "f"),
                                (("--csv", self.folder / "g", "--semicolon"), self.folder / "g")):
            self.assertEqual(run("read", self.target, *options).status, 0)
            back = self.folder / "back.evp"
            self.assertEqual(run("write", source, "-o", back, "--force").status, 0)
            self.assertEqual(back.read_bytes(), self.target.read_bytes())
            self.assertEqual(names_beside(back, back.read_bytes()), names_beside(self.target, self.target.read_bytes()))
        text = run("read", self.target).out
        self.assertIn("  # old cars, north\n", text)
        self.assertEqual(take_text(text).names, Names(["winter", ""], ["old cars, north", ""]))

    def test_names_of_an_earlier_sheet_do_not_stay(self):
        path = self.put("c.txt", TEXT)
        found = run("write", path, "-o", self.target)
        self.assertEqual(found.status, 2)
        self.assertEqual(run("write", path, "-o", self.target, "--force").status, 0)
        self.assertFalse(names_beside(self.target, self.target.read_bytes()).any())

    def test_names_of_another_sheet(self):
        self.put("a.names.csv", "record,number,name\nrow,9,x\n")
        found = run("show", self.target)
        self.assertEqual(found.status, 0)
        self.assertIn("row '9': the sheet has 2 rows; are these the names of another sheet?", found.err)
        for text in ("record,number,name\nrow,0,x\n", "record,number,name\nhead,1,x\n", "a,b\n"):
            with self.assertRaises(InputError):
                names_of(text, "n.csv", self.target.read_bytes())

    def test_kept_by_convert_and_pool(self):
        later = self.folder / "later.evp"
        self.assertEqual(run("convert", self.target, "--to", 4, "-o", later).status, 0)
        self.assertEqual(names_beside(later, later.read_bytes()).row(0), "old cars, north")
        pooled = self.folder / "pooled.evp"
        self.assertEqual(run("pool", later, later, "-o", pooled).status, 0)
        self.assertEqual(names_beside(pooled, pooled.read_bytes()).rows, ["old cars, north", ""] * 2)

    def test_what_a_terminal_or_a_spreadsheet_would_obey(self):
        names = Names([], ["=1+1", "a\x1b[2Jb"])
        self.assertIn("'=1+1", names_text(names))
        data = sheet.write(TEXT)
        self.assertEqual(names_of(names_text(names), "n", data).rows, ["=1+1", "a?[2Jb"])
        self.assertEqual(names_file("x/North.EVP").name, "North.names.csv")


@unittest.skipUnless(HAS_BOOKS, NO_BOOKS)
class BooksTest(DeskTestCase):
    """A workbook in and out."""

    def changed(self, *changes: tuple[str, str, object]) -> bytes:
        import openpyxl
        book = openpyxl.load_workbook(io.BytesIO(books.book_bytes(sheet.write(TEXT), Names(["winter"], ["old cars"]))))
        for worksheet, cell, value in changes:
            book[worksheet][cell] = value
        out = io.BytesIO()
        book.save(out)
        return out.getvalue()

    def test_every_sample_there_and_back(self):
        for path in samples():
            names = Names(["=season"], ["", "vans"][:layout.row_count(path.read_bytes())])
            made = books.book_of(books.book_bytes(path.read_bytes(), names), "b.xlsx")
            self.assertEqual(made.data(), path.read_bytes(), path.name)
            self.assertEqual((made.names.seasons[0], made.names.rows[:2]), ("=season", names.rows[:2]))

    def test_commands(self):
        text = self.put("a.txt", COUNTRY)
        self.assertEqual(run("write", text).status, 0)
        book, back = self.folder / "a.xlsx", self.folder / "b.evp"
        self.assertEqual(run("read", self.folder / "a.evp", "--xlsx", book).status, 0)
        self.assertEqual(run("write", book, "-o", back).status, 0)
        self.assertEqual(back.read_bytes(), (self.folder / "a.evp").read_bytes())
        self.assertEqual(names_beside(back, back.read_bytes()).row(59), "region 59")
        self.assertIn("overwrite what it is made from", run("write", book, "-o", book, "--force").err)

    def test_a_version_that_the_records_do_not_make(self):
        data = sheet.write(GRID_TEXT + "version 4")
        self.assertEqual(books.book_of(books.book_bytes(data), "b.xlsx").data(), data)

    def test_what_a_cell_may_be(self):
        made = books.book_of(self.changed(
            ("fleet", "D3", "Medium"), ("fleet", "B2", "car < 1.4 l"), ("fleet", "C3", "Euro 3"),
            ("fleet", "I3", "500.0"), ("seasons", "C2", "\u22122,0"), ("fleet", "J2", 4.8000000000000007)), "b.xlsx")
        record = take_text(TEXT.replace("technology=3", "technology=3 canister=medium")).data()
        self.assertEqual(made.data(), record)

    def test_a_percentage_is_as_it_is_shown(self):
        import openpyxl
        book = openpyxl.load_workbook(io.BytesIO(self.changed()))
        book["fleet"]["E2"], book["fleet"]["E2"].number_format = 0.99, "0%"
        out = io.BytesIO()
        book.save(out)
        self.assertEqual(books.book_of(out.getvalue(), "b.xlsx").data(), sheet.write(TEXT))

    def test_what_is_said_of_a_cell(self):
        for change, said in (
            (("fleet", "J2", "many"), "b.xlsx: fleet, cell J2: trips: 'many' is no number"),
            (("fleet", "J3", "=1+1"), "b.xlsx: fleet, cell J3: the formula has no value; let the spreadsheet"),
            (("seasons", "D3", date(2026, 5, 14)), "b.xlsx: seasons, cell D3: this is a date or a time"),
            (("fleet", "I2", True), "b.xlsx: fleet, cell I2: TRUE is no number; write digits"),
            (("parking", "B3", "x"), "b.xlsx: parking, cell B3: count: 'x' is no number"),
            (("fleet", "I2", "5,000"), "b.xlsx: fleet, cell I2: vehicles: '5,000' is no number; it can mean 5000 or"),
        ):
            with self.subTest(said):
                path = self.put("b.xlsx", self.changed(change))
                found = run("write", path)
                self.assert_plain(found, 2)
                self.assertIn(said, found.err)

    def test_what_is_no_book(self):
        for content, said in ((b"PK\3\4abc", "this is no workbook, or not a whole one"), (b"", "this is no workbook"),
                              (self.changed()[:900], "this is no workbook, or not a whole one")):
            found = run("write", self.put("b.xlsx", content))
            self.assert_plain(found, 2)
            self.assertIn(said, found.err)
        import openpyxl
        book = openpyxl.Workbook()
        out = io.BytesIO()
        book.save(out)
        self.assertIn("there is no worksheet parking", run("write", self.put("b.xlsx", out.getvalue())).err)

    def test_an_archive_that_unpacks_to_too_much(self):
        with mock.patch("evp.sheet.books.MOST_INSIDE", 100):
            found = run("write", self.put("b.xlsx", self.changed()))
        self.assertIn("it unpacks to more than", found.err)

    def test_without_the_package(self):
        path = self.put("b.xlsx", self.changed())
        with mock.patch("evp.sheet.books.find_spec", return_value=None):
            found = run("write", path)
        self.assertEqual((found.status, found.err), (
            2, "evp: openpyxl is missing, which reads and writes workbooks: sudo apt install python3-openpyxl\n"))

    def test_a_workbook_of_libreoffice(self):
        from odf.opendocument import OpenDocumentSpreadsheet
        from odf.table import Table, TableCell, TableRow
        from odf.text import P
        document = OpenDocumentSpreadsheet()
        for name, lines in books.worksheets(books.book_bytes(sheet.write(TEXT)), "b").items():
            table = Table(name=name)
            for line in lines:
                row = TableRow()
                for cell in line:
                    if isinstance(cell.value, (int, float)):
                        row.addElement(TableCell(valuetype="float", value=str(cell.value)))
                    else:
                        text = TableCell(valuetype="string")
                        text.addElement(P(text=str(cell.value or "")))
                        row.addElement(text)
                table.addElement(row)
            document.spreadsheet.addElement(table)
        out = io.BytesIO()
        document.write(out)
        self.assertEqual(books.book_of(out.getvalue(), "b.ods").data(), sheet.write(TEXT))


# A word, its field, whether a comma may be the decimal character, and what it is; None where it stays as it is.
SPELLINGS = (
    ("Medium", "canister", False, "medium"), ("by class", "canister", False, "class"),
    ("Euro 3", "technology", False, "3"),
    ("EURO3", "technology", False, "3"), ("conv.", "technology", False, "0"), ("car < 1.4 l", "class", False, "1"),
    ("2 car 1.4\u20132.0 l", "class", False, "2"), ("4-stroke >750", "class", False, "9"),
    ("14.50", "lowest", False, "14.5"), ("15200.0", "vehicles", False, "15200"), ("\u22122.0", "lowest", False, "-2.0"),
    ("45 %", "hot", False, "45"), ("14.5 °C", "lowest", False, "14.5"), ("4,80", "trips", True, "4.80"),
    ("4,80", "trips", False, None), ("18,400", "vehicles", False, "18400"), ("18\u202f400", "vehicles", False, "18400"),
    ("18'400", "vehicles", False, "18400"), ("1.234.567", "vehicles", True, "1234567"),
    ("18.400", "vehicles", True, "18400"), ("5.000", "vehicles", False, None), ("5.000", "vehicles", True, None),
    ("5,000", "vehicles", True, None), ("1,234", "load", True, None), ("1.234,5", "lowest", True, None),
    ("4.805", "trips", False, None), ("1e3", "vehicles", False, None), ("\u0661", "days", False, None),
    ("9" * 5_000, "vehicles", False, None),
)


class SpellingTest(DeskTestCase):
    """Words and numbers as spreadsheets write them."""

    def test_words(self):
        for word, name, comma, wanted in SPELLINGS:
            with self.subTest(word[:20], comma=comma):
                self.assertEqual(respelt(word, FIELDS[name], comma), word if wanted is None else wanted)

    def test_every_name_that_show_prints(self):
        from evp.show import SHORT_NAMES
        for number, (name, _, technologies) in layout.CLASSES.items():
            self.assertEqual(respelt(name, FIELDS["class"]), str(number))
            self.assertEqual(respelt(SHORT_NAMES.get(number, name), FIELDS["class"]), str(number))
            for technology in range(len(technologies)):
                self.assertEqual(respelt(layout.technology_name(technology), FIELDS["technology"]), str(technology))

    def test_a_folder_of_such_tables(self):
        run("read", self.put_sheet("a.evp", TEXT), "--csv", self.folder / "f")
        self.put("f/seasons.csv", "Name;Days;lowest (°C);Highest;vp [kPa]\nwinter;182,0;\u22122;9,50;90,0\n"
                 "summer;183;14,5;29;60\n")
        self.put("f/fleet.csv", "class,technology,canister,carburettor,hot,fill,vehicles,trips,minutes,load,m_sat\n"
                 'car < 1.4 l,conv.,,99 %,45,40,"18,400",4.800,12,,\n'
                 "car 1.4-2.0 l,Euro 3,Medium,0,50,45,500.0,5.1,13,32,60\n")
        found = run("write", self.folder / "f", "-o", self.folder / "b.evp")
        self.assertEqual(found.status, 0, found)
        self.assertEqual((self.folder / "b.evp").read_bytes(),
                         sheet.write(TEXT.replace("technology=3", "technology=3 canister=medium")))


class DoubtsTest(DeskTestCase):
    """What may not be meant, with what it does to the mass: the library's totals."""

    def lines(self, text: str) -> list[str]:
        return list(doubt_lines(LIBRARY, sheet.write(text)))

    def test_each(self):
        for text, said, otherwise in (
            (TEXT.replace("load=32.0 saturation=60.0", ""), "row 2: m_sat is 0, so the canister holds nothing",
             "with the largest m_sat that is accepted"),
            (TEXT.replace("days=183", "days=18"), "all seasons together have 200 days, not 365, so the masses are of",
             "if they had 365 in the same proportion"),
            (TEXT.replace("carburettor=0", "carburettor=30"), "row 2: carburettors or fuel return in Euro 3 or later",
             "without them"),
            (TEXT.replace("hot=50", "hot=1"), "row 2: hot 1 %; is this 100 %, written as a fraction?", "with 100 %"),
            (TEXT.replace("technology=3", "technology=3 canister=small").replace("saturation=60", "saturation=40"),
             "row 2: a small canister in Euro 3 or later",
             "with that of the class"),
        ):
            with self.subTest(said):
                lines = self.lines(text)
                self.assertEqual(len(lines), 1, lines)
                self.assertTrue(lines[0].startswith(said), lines[0])
                self.assertRegex(lines[0], r"; the total is [\d.,]+ k?[tg], and [\d.,]+ k?[tg] %s "
                                 r"\([+-][\d.]+ %%\)$" % otherwise)
        self.assertEqual(self.lines(TEXT), [])
        for name in ("table-3-5-day", "region", "survey", "districts"):
            self.assertEqual(list(doubt_lines(LIBRARY, sample(name))), [], name)

    def test_the_figures_are_the_librarys(self):
        from evp.masses import shown
        wrong, right = (sheet.write(TEXT.replace("carburettor=0", "carburettor=%d" % c)) for c in (30, 0))
        line = next(doubt_lines(LIBRARY, wrong))
        for data in (wrong, right):
            self.assertIn(shown(LIBRARY.report(data).total), line)

    def test_the_largest_m_sat(self):
        """It is accepted, and one more is not."""
        from evp.doubting import doubts_of
        data = sheet.write(GRID_TEXT.replace("saturation=40.0", "") + FITTED.replace("load=32.0 saturation=60.0", ""))
        other = doubts_of(LIBRARY, data)[0].other
        self.assertIsNone(LIBRARY.check(other))
        for i in (1, 2):
            place = layout.row_place(other, i) + 18
            value = int.from_bytes(other[place:place + 2], "little")
            more = other[:place] + (value + 1).to_bytes(2, "little") + other[place + 2:]
            self.assertIn(LIBRARY.check(more).number, (20, 25))

    def test_in_write_and_show(self):
        path = self.put("a.txt", TEXT.replace("load=32.0 saturation=60.0", "# vans"))
        for command, name in (("write", path), ("show", self.folder / "a.evp")):
            found = run(command, name)
            self.assertEqual(found.err.count("row 2 (vans): m_sat is 0"), 1, found)
            self.assertIn("documents 001 to 004 give no usual m_sat", found.err)


if __name__ == "__main__":
    unittest.main()
