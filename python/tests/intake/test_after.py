"""After marking: filings against themselves, the one changed input, letters, and the class as a table."""

import csv
import io
import unittest
import zipfile
from importlib.util import find_spec

from support import LIBRARY, SAMPLES, DeskTestCase, run

from evp import diagnosis, layout, marking
from evp.figures import Figure, bands
from evp.intake import checks, filed_of
from evp.masses import shown

COURSE = SAMPLES / "course"
NORTH = (COURSE / "north.evp").read_bytes()
HEADER = "sheet,row,mechanism,mass,unit\n"


def filed(data: bytes, **changed: str) -> str:
    """All figures of a sheet in kg, as `show` has them; changed ones by their names, such as cars_soak."""
    lines = []
    for figure, band in bands(LIBRARY.report(data)).items():
        word = changed.get("_".join(filter(None, figure)), shown(band, "kg").split()[0].replace(",", ""))
        lines.append("north.evp,%s,%s,%s,kg\n" % (*figure, word))
    return HEADER + "".join(lines)


def marked(text: str, data: bytes = NORTH):
    """The sheet, the filings and the marks of a table."""
    sheets = {"north.evp": marking.marked(LIBRARY, data)}
    filings = filed_of(text, "filed.csv", None, sheets).filings
    return sheets, filings, marking.marks_of(LIBRARY, sheets, filings)


class ChecksTest(unittest.TestCase):
    def found(self, text: str) -> list[str]:
        sheets, filings, marks = marked(text)
        return [finding.text for found in checks.against_themselves(LIBRARY, sheets, filings, marks).values()
                for finding in found]

    def test_right(self):
        self.assertEqual(self.found(filed(NORTH)), [])

    def test_sums(self):
        """A row, a subtotal and the total that do not add up."""
        self.assertTrue(self.found(filed(NORTH, light_soak="99.9"))[0].startswith("light-duty soak: its 1 rows add up"))
        self.assertTrue(any(text.startswith("all rows diurnal: cars, light-duty and two-wheelers add up to ")
                            for text in self.found(filed(NORTH, all_diurnal="2200.0"))))
        self.assertTrue(any(text.startswith("total: diurnal, soak and running add up to ")
                            for text in self.found(filed(NORTH, total="22951"))))

    def test_digits(self):
        right = shown(bands(LIBRARY.report(NORTH))[Figure("cars", "soak")], "kg").split()[0].replace(",", "")
        swapped = right[1] + right[0] + right[2:]
        self.assertIn("two digits of cars soak are exchanged: %s kg for %s kg" % (right, swapped),
                      " ".join(self.found(filed(NORTH, cars_soak=swapped))))

    def test_copies(self):
        right = shown(bands(LIBRARY.report(NORTH))[Figure("cars", "soak")], "kg").split()[0].replace(",", "")
        self.assertIn("two-wheelers soak: %s kg is filed for cars soak too, and is right there" % right,
                      self.found(filed(NORTH, two_soak=right)))


class DiagnosisTest(unittest.TestCase):
    def found(self, changed: bytes) -> diagnosis.Diagnosis:
        """What is found where the figures of a changed sheet are filed for the right one."""
        sheets, filings, marks = marked(filed(changed))
        wrong = {filing.figure for filing, mark in zip(filings, marks) if mark.verdict in ("low", "high")}
        return diagnosis.diagnose(LIBRARY, sheets["north.evp"], {filing.figure: filing for filing in filings}, wrong,
                                  diagnosis.COST)

    def row(self, i: int, name: str, value: int) -> bytes:
        at, field = diagnosis.Changes(NORTH, [i]).row_fields[i][name]
        return diagnosis._with(NORTH, at, field, value)

    def test_changes(self):
        row = layout.row(NORTH, 1)
        swapped = diagnosis.Changes(self.row(1, "hot", row["carburettor"]), [1])
        at, field = swapped.row_fields[1]["carburettor"]
        season = diagnosis.Changes(NORTH, []).season_fields[1]["highest"]
        fahrenheit = layout.season(NORTH, 1)["highest"]
        for words, data in (
            ("trips of row 2 4.60 in place of 4.80", self.row(1, "trips", 460)),
            ("the share of carburettors and the share of hot ends of row 2 exchanged",
             diagnosis._with(swapped.data, at, field, row["hot"])),
            ("row 3 left out", self.row(2, "vehicles", 0)),
            ("the highest temperature of season 2", diagnosis._with(NORTH, *season, fahrenheit + 10)),
        ):
            with self.subTest(words):
                found = self.found(data)
                self.assertTrue(any(words in fit for fit in found.fits), found)
                self.assertRegex(found.line(), r"^with .* all 34 figures agree \([0-9,]+ changes tried, ")

    def test_nothing(self):
        sheets, filings, marks = marked(filed(NORTH, cars_soak="12345", two_running="1"))
        found = diagnosis.diagnose_all(LIBRARY, sheets, filings, marks, False, lambda done, many: None, set())
        self.assertEqual(found["north.evp"].line(), "")
        self.assertLessEqual(found["north.evp"].tried, diagnosis.COST // diagnosis.LEAST_COST)


class LettersTest(DeskTestCase):
    @unittest.skipUnless(find_spec("jinja2") and find_spec("openpyxl"), "jinja2 or openpyxl is not there")
    def test_all(self):
        for name in ("north", "harbour", "cape"):
            self.put("sheets/%s.evp" % name, (COURSE / (name + ".evp")).read_bytes())
        lines = (COURSE / "filed.csv").read_text().splitlines(True)
        table = self.put("filed.csv", lines[0] + "".join(
            line for line in lines if line.startswith(("north", "harbour", "cape"))).replace(
                "north.evp,cars,soak,13.303,t", "north.evp,Cars,hot soak,13303,Kg"))
        found = run("mark", self.folder / "sheets", "--filed", table, "--letters", self.folder / "letters",
                    "--class-table", self.folder / "class.xlsx", "--before", COURSE / "marks.csv",
                    "--readings", self.folder / "readings.csv", "-o", self.folder / "marks.csv")
        self.assert_plain(found, 1)
        texts = {path.name: path.read_text() for path in (self.folder / "letters").iterdir()}
        self.assertEqual(set(texts), {"north.html", "harbour.html", "cape.html"})
        self.assertIn("All 15 of your figures are right", texts["north.html"])
        self.assertIn("is read as cars soak: 13303 kg", texts["north.html"])
        self.assertIn("14 of your figures are right, 1 too low", texts["harbour.html"])
        self.assertIn("two digits of cars soak are exchanged", texts["harbour.html"])
        self.assertIn("First and now", texts["harbour.html"])
        self.assertIn("Your figures could not be marked", texts["cape.html"])
        with open(self.folder / "readings.csv", encoding="utf-8", newline="") as file:
            self.assertEqual([line["read"] for line in csv.DictReader(file)], ["cars soak: 13303 kg"])
        import openpyxl
        book = openpyxl.load_workbook(io.BytesIO((self.folder / "class.xlsx").read_bytes()))
        self.assertEqual([cell.value for cell in book["class"]["A"]], ["sheet", "cape.evp", "harbour.evp", "north.evp"])
        self.assertEqual(book["marks"].max_row, 46)

    def test_files_as_people_name_them(self):
        """Several tables, none dropped, and one that cannot be read at all."""
        for name in ("north", "harbour"):
            self.put("sheets/%s/%s.evp" % (name, name.capitalize()), (COURSE / (name + ".evp")).read_bytes())
        one = self.put("a/North final.csv", "row;mechanism;mass;unit\ncars;soak;13,303;t\n")
        two = self.put("b/filed.csv", HEADER + "harbour,cars,running,9.232,t\n")
        self.put("b/broken.csv", b"%PDF-1.4")
        target = self.folder / "marks.csv"
        found = run("mark", self.folder / "sheets", "--filed", one, "--filed", two.parent, "-o", target)
        self.assertEqual(found.status, 2)
        self.assertIn("broken.csv: this is a PDF", found.err)
        with open(target, encoding="utf-8", newline="") as file:
            marks = [(mark["sheet"], mark["row"], mark["verdict"]) for mark in csv.DictReader(file)]
        self.assertEqual(marks, [("North.evp", "cars", "agrees"), ("broken.csv", "", "unreadable"),
                                 ("Harbour.evp", "cars", "agrees")])


@unittest.skipUnless(find_spec("flask"), "flask is not there")
class ClassPageTest(unittest.TestCase):
    """The class page takes what people send, by the same functions."""

    def test_dropped(self):
        from flask import Flask

        from evp.pages.routes import blueprint
        app = Flask("a test")
        app.register_blueprint(blueprint)
        archive = io.BytesIO()
        with zipfile.ZipFile(archive, "w") as made:
            made.writestr("class/North.evp", NORTH)
            made.writestr("class/north final.csv", "row;mechanism;mass;unit\ncars;hot soak;13 303;Kg\ntotal;;NE;t\n")
            made.writestr("__MACOSX/class/._North.evp", b"x")
        harbour = (COURSE / "harbour.evp").read_bytes()
        for path in ("/class", "/open"):
            answer = app.test_client().post(path, data={"files": [
                (io.BytesIO(archive.getvalue()), "class.zip"), (io.BytesIO(harbour), "Harbour.EVP"),
                (io.BytesIO(b"sheet,row,mechanism,mass,unit\nharbour,cars,soak,12.437,t\n"), "my results.csv"),
                (io.BytesIO(b"%PDF"), "notes.csv")]}, content_type="multipart/form-data", follow_redirects=True)
            text = answer.get_data(as_text=True)
            self.assertEqual(answer.status_code, 200, text[:500])
            for words in ("cars soak: 13303 kg", "NE, not estimated", "two digits are exchanged", "this is a PDF"):
                self.assertIn(words, text)


if __name__ == "__main__":
    unittest.main()
