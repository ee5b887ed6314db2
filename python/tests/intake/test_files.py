"""Files as people send them: folders, archives, workbooks, and what operating systems leave beside them."""

import datetime
import io
import sys
import tempfile
import unicodedata
import unittest
import unittest.mock
import zipfile
from importlib.util import find_spec
from pathlib import Path

sys.path.insert(0, str(Path(__file__).resolve().parents[2]))

from intake.ways import HEADER, PLAIN

from evp.figures import Figure
from evp.intake import Taken, find, reading, workbook

TEXT = HEADER + "north.evp,cars,soak,13.303,t\n" + PLAIN
NAMES = ["north.evp", "south.evp", "zürich.evp"]
LINES = [line.split(",") for line in TEXT.splitlines()]
HAS_XLSX, HAS_ODS = find_spec("openpyxl") is not None, find_spec("odf") is not None
NO_XLSX, NO_ODS = "python3-openpyxl is not installed", "python3-odf is not installed"


def zipped(files: dict[str, bytes]) -> bytes:
    made = io.BytesIO()
    with zipfile.ZipFile(made, "w", zipfile.ZIP_DEFLATED) as archive:
        for name, data in files.items():
            archive.writestr(name, data)
    return made.getvalue()


def taken_of(files: dict[str, bytes], names=NAMES) -> Taken:
    found = find.given(files.items())
    return reading.take([file for file in found if not file.is_sheet], names)


class Base(unittest.TestCase):
    def read(self, taken: Taken, many: int = 4) -> dict[tuple[str, Figure], reading.Filing]:
        self.assertEqual(len([filing for filing in taken.filings if filing.filed]), many, taken)
        return {(filing.sheet, filing.figure): filing for filing in taken.filings}


class FilesTest(Base):
    def test_archive(self):
        found = taken_of({"all.zip": zipped({
            "class/filed.csv": TEXT.encode(), "__MACOSX/class/._filed.csv": b"\0\5\x16\7", "class/.DS_Store": b"\0\0\0",
            "class/~$filed.xlsx": b"\x07me", "class/.~lock.filed.csv#": b",me", "class/Thumbs.db": b"\xd0\xcf"})})
        self.read(found)
        self.assertEqual((found.unread, found.remarks), ([], []))

    def test_archive_in_an_archive(self):
        self.read(taken_of({"a.zip": zipped({"b.zip": zipped({"filed.csv": TEXT.encode()})})}))

    def test_damaged_and_closed_archives(self):
        data = zipped({"filed.csv": TEXT.encode() * 20})
        broken = data[:60] + bytes(40) + data[100:]
        taken = taken_of({"north.zip": broken, "filed.csv": TEXT.encode()})
        self.read(taken)
        self.assertEqual(len(taken.unread), 1)
        self.assertIn("again", taken.unread[0])

    def test_bombs(self):
        """Members are not unpacked further than a table has, and no more of them than there may be."""
        taken = taken_of({"big.zip": zipped({"filed.csv": bytes(40_000_000)}), "filed.csv": TEXT.encode()})
        self.read(taken)
        self.assertEqual(len(taken.unread), 1)
        taken = taken_of({"many.zip": zipped({"%d.csv" % i: b"x" for i in range(2_100)}), "filed.csv": TEXT.encode()})
        self.read(taken)
        self.assertIn("more than 2000 files", taken.unread[0])

    def test_other_files(self):
        """A file that is no table is a line of the result for its participant, and the others are read."""
        for data, reason in (
            (b"%PDF-1.7", "a PDF"), (b"\x89PNG\r\n", "a picture"), (b"", "empty"),
            (b"\xd0\xcf\x11\xe0\xa1\xb1\x1a\xe1", "password"),
            (b"<html><table></table>", "a web page"), (b"{\\rtf1", "RTF"), (b"Dear marker,\nsee below.\n", "no table"),
            (zipped({"word/document.xml": b"x"}), "Word"), (zipped({"Index/Document.iwa": b"x"}), "Numbers"),
            (b"PK\3\4" + bytes(100), "damaged"), (b"\x1f\x8b\x08", "gzip"), (b"a\0b\0\1\2\3", "zero bytes"),
        ):
            with self.subTest(reason):
                taken = taken_of({"South.csv": data, "filed.csv": TEXT.encode()})
                self.read(taken)
                self.assertEqual(len(taken.unread), 1)
                self.assertIn(reason, taken.unread[0])
                line, = (filing for filing in taken.filings if filing.filed is None)
                self.assertEqual((line.sheet, line.figure), ("south.evp", Figure("", "")))

    def test_names(self):
        """Names in another form of Unicode, and one that is nearly that of a sheet."""
        decomposed = unicodedata.normalize("NFD", "zürich.evp")
        found = self.read(taken_of({"filed.csv": (TEXT.replace("north.evp", decomposed)).encode()}))
        self.assertEqual({sheet for sheet, _ in found}, {"zürich.evp"})
        taken = taken_of({"filed.csv": TEXT.replace("north.evp", "nortth.evp").encode()})
        self.assertEqual({filing.sheet for filing in taken.filings}, {"north.evp"})
        self.assertIn("'nortth.evp' is read as north.evp, the only sheet with nearly this name", taken.remarks)
        both = taken_of({"filed.csv": (TEXT + "nortth.evp,cars,soak,1,t\n").encode()})
        self.assertIn("nortth.evp", {filing.sheet for filing in both.filings})  # it may be another participant

    def test_own_marks(self):
        marks = HEADER.strip() + ",verdict,low_mg,high_mg,off_mg,note,sha256\n"
        marks += "north.evp,cars,soak,1,t,agrees,1,2,,,\n"
        taken = taken_of({"marks.csv": marks.encode(), "filed.csv": TEXT.encode()})
        self.read(taken)
        self.assertIn("marks that evp mark has made", taken.remarks[0])

    def test_folder(self):
        with tempfile.TemporaryDirectory() as name:
            folder = Path(name)
            (folder / "a" / "b").mkdir(parents=True)
            (folder / "a" / "b" / "North.csv").write_text(TEXT.replace("sheet,", "").replace("north.evp,", ""))
            (folder / "a" / ".hidden.csv").write_text("x")
            (folder / "out.csv").symlink_to("/etc/hosts")
            files = find.found_in([folder])
            self.assertEqual([file.path for file in files], ["a/b/North.csv", "out.csv"])
            taken = reading.take(files, NAMES)
            self.read(taken)
            self.assertIn("leads out of the folder", taken.unread[0])


@unittest.skipUnless(HAS_XLSX, NO_XLSX)
class XlsxTest(Base):
    def book(self, change=lambda sheet: None, lines=LINES, title="filed") -> bytes:
        import openpyxl
        book = openpyxl.Workbook()
        sheet = book.active
        sheet.title = title
        for line in lines:
            sheet.append([float(cell) if i == 3 and cell[:1].isdigit() else cell or None
                          for i, cell in enumerate(line)])
        change(sheet)
        made = io.BytesIO()
        book.save(made)
        return made.getvalue()

    def test_plain(self):
        found = self.read(taken_of({"filed.xlsx": self.book()}))
        self.assertEqual(found["north.evp", Figure("cars", "soak")].filed, (13303, 3, 3))

    def test_shown_digits(self):
        """A number is what the cell shows."""
        def change(sheet):
            sheet["D2"].value, sheet["D2"].number_format = 13.3029999, "0.000"
            sheet["D4"].number_format = "0.000"  # 0.73
        found = self.read(taken_of({"filed.xlsx": self.book(change)}))
        self.assertEqual(found["north.evp", Figure("cars", "soak")].filed, (13303, 3, 3))
        self.assertEqual(found["north.evp", Figure("1", "diurnal")].filed, (730, 3, 3))

    def test_cells_that_are_no_mass(self):
        for value, form, reason in (
            (datetime.date(2026, 3, 13), None, "a date"), ("#REF!", None, "#REF!"), (0.13, "0%", "a percentage"),
            (13303, '#,##0.0,', "in thousands"), (True, None, "true or false"), ("=A1*2", None, "value was not saved"),
            ("NE", None, "NE, not estimated"), (None, None, "nothing filed"), ("1,234", None, "can mean two things"),
        ):
            with self.subTest(reason):
                def change(sheet):
                    sheet["D2"].value = value
                    sheet["D2"].number_format = form or sheet["D2"].number_format
                found = self.read(taken_of({"filed.xlsx": self.book(change)}), 3)
                self.assertIn(reason, found["north.evp", Figure("cars", "soak")].problem)
                self.assertIn("line 2, column D (mass)", found["north.evp", Figure("cars", "soak")].problem)

    def test_text_and_units(self):
        def change(sheet):
            sheet["D2"].value = "13.303"
            sheet["D3"].value, sheet["D3"].number_format = 5.848, '0.000" t"'
            sheet["E3"].value = None
        self.read(taken_of({"filed.xlsx": self.book(change)}))

    def test_merged_and_titled(self):
        def change(sheet):
            sheet.insert_rows(1, 2)
            sheet["A1"].value = "My results"
            for at in range(5, 8):
                sheet.cell(at, 1).value = None
            sheet.merge_cells("A4:A7")
        self.read(taken_of({"filed.xlsx": self.book(change)}))

    def test_tabs(self):
        """The name of a tab tells the sheet; hidden tabs and tabs of another kind are passed over, and said."""
        def change(sheet):
            other = sheet.parent.create_sheet("old")
            other.sheet_state = "hidden"
            other.append(["sheet", "row", "mechanism", "mass", "unit"])
            other.append(["north.evp", "cars", "soak", 99, "t"])
            sheet.parent.create_sheet("my steps").append(["a", "b", 1])
        lines = [line[1:] for line in LINES]
        book = self.book(lambda sheet: change(sheet), [["", *line][1:] for line in lines], "North")
        import openpyxl
        made = openpyxl.load_workbook(io.BytesIO(book))
        for row in made["North"].iter_rows(min_row=2, min_col=3, max_col=3):
            for cell in row:
                cell.value = float(cell.value)
        out = io.BytesIO()
        made.save(out)
        taken = taken_of({"results.xlsx": out.getvalue()})
        self.read(taken)
        self.assertEqual({filing.sheet for filing in taken.filings}, {"north.evp"})
        self.assertTrue(any("tab old" in remark for remark in taken.remarks), taken.remarks)

    def test_bounded(self):
        with unittest.mock.patch.object(workbook, "MOST_CELLS", 20):
            taken = taken_of({"filed.xlsx": self.book()})
        self.assertIn("larger than any filing", " ".join(taken.remarks))
        with unittest.mock.patch.object(workbook, "MOST_PART", 10):
            self.assertIn("too large", taken_of({"filed.xlsx": self.book()}).unread[0])

    def test_not_installed(self):
        with unittest.mock.patch.object(workbook, "find_spec", return_value=None):
            taken = taken_of({"South.xlsx": self.book(), "filed.csv": TEXT.encode()})
        self.read(taken)
        self.assertIn("sudo apt install python3-openpyxl", taken.unread[0])


@unittest.skipUnless(HAS_ODS, NO_ODS)
class OdsTest(Base):
    def book(self, soak=("float", "13.303", "13,303")) -> bytes:
        from odf.opendocument import OpenDocumentSpreadsheet
        from odf.table import Table, TableCell, TableRow
        from odf.text import P
        document = OpenDocumentSpreadsheet()
        table = Table(name="filed")
        for number, line in enumerate(LINES):
            row = TableRow()
            for at, word in enumerate(line):
                kind, value, text = soak if (number, at) == (1, 3) else (
                    ("float", word, word) if at == 3 and number else ("string", None, word))
                more = {"value": value} if kind == "float" else {"datevalue": value} if kind == "date" else {}
                cell = TableCell(valuetype=kind, **more)
                cell.addElement(P(text=text))
                row.addElement(cell)
            table.addElement(row)
        table.addElement(TableRow(numberrowsrepeated=1_000_000))
        document.spreadsheet.addElement(table)
        made = io.BytesIO()
        document.write(made)
        return made.getvalue()

    def test_plain(self):
        found = self.read(taken_of({"filed.ods": self.book()}))
        self.assertEqual(found["north.evp", Figure("cars", "soak")].filed, (13303, 3, 3))
        found = self.read(taken_of({"filed.ods": self.book(("float", "13.30299999", "13,303 t"))}))
        self.assertEqual(found["north.evp", Figure("cars", "soak")].filed, (13303, 3, 3))

    def test_cells_that_are_no_mass(self):
        for cell, reason in ((("date", "2026-03-13", "13.03.26"), "a date"), (("string", None, "#REF!"), "#REF!"),
                             (("string", None, "NE"), "not estimated")):
            found = self.read(taken_of({"filed.ods": self.book(cell)}), 3)
            self.assertIn(reason, found["north.evp", Figure("cars", "soak")].problem)


if __name__ == "__main__":
    unittest.main()
