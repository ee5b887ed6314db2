"""Every result has an address, where it is kept for a time: Back and reloading work."""

import hashlib
import io
import json
import unittest
from importlib.util import find_spec

from support import LIBRARY, SAMPLES, sample

HAS_MODULES = all(map(find_spec, ("flask", "jinja2", "openpyxl")))
NO_MODULES = "not run: pages need python3-flask, python3-jinja2 and python3-openpyxl"

if HAS_MODULES:
    from flask import Flask
    from unittest import mock

    from evp import layout, sheet
    from evp.pages import forms
    from evp.pages import routes
    from evp.pages.asks import ASKS
    from evp.pages.kept import Kept
    from evp.sheet import books
    from evp.sheet.names import Names


@unittest.skipUnless(HAS_MODULES, NO_MODULES)
class KeptTest(unittest.TestCase):
    """What is kept is bounded in number, in bytes and in time; the oldest goes first."""

    def test_number(self):
        kept = Kept(most=3)
        keys = [kept.put("sheet", str(i)) for i in range(5)]
        self.assertEqual([kept.get("sheet", key) for key in keys], [None, None, "2", "3", "4"])
        self.assertIsNone(kept.get("class", keys[4]))
        self.assertIsNone(kept.get("sheet", "no key"))

    def test_bytes(self):
        kept = Kept(most_bytes=3_000)
        noise = [b"".join(hashlib.sha256(b"%d %d" % (i, j)).digest() for j in range(35)).hex() for i in range(5)]
        keys = [kept.put("sheet", text) for text in noise]
        self.assertIsNone(kept.get("sheet", keys[0]))
        self.assertEqual(kept.get("sheet", keys[-1]), noise[-1])
        self.assertIsNone(kept.get("sheet", kept.put("sheet", "".join(noise) * 3)))

    def test_time(self):
        now = [0.0]
        kept = Kept(seconds=60, clock=lambda: now[0])
        key = kept.put("sheet", "x")
        now[0] = 59
        self.assertEqual(kept.get("sheet", key), "x")
        now[0] = 61
        self.assertIsNone(kept.get("sheet", key))
        self.assertEqual(len(kept), 0)


@unittest.skipUnless(HAS_MODULES, NO_MODULES)
class AddressTest(unittest.TestCase):

    def setUp(self):
        app = Flask("a test", static_folder=None)
        app.register_blueprint(routes.blueprint)
        self.client = app.test_client()

    def text(self, answer) -> str:
        return answer.get_data(as_text=True)

    def test_every_page(self):
        for name, ask in ASKS.items():
            answer = self.client.post("/" + name, data={"example": ask.example})
            self.assertEqual(answer.status_code, 303, name)
            self.assertRegex(answer.location, r"^/%s\?kept=[\w-]{16}$" % name)
            first, again = (self.client.get(answer.location) for _ in range(2))
            self.assertEqual((first.status_code, first.data), (200, again.data))
            self.assertIn("kept at its address for 2 hours", self.text(first))

    def test_what_is_dropped_on_the_first_page(self):
        files = {"files": (io.BytesIO(sample("region")), "region.evp")}
        self.assertRegex(self.client.post("/open", data=files).location, r"^/sheet\?kept=")

    def test_gone(self):
        for name in (*ASKS, "form"):
            answer = self.client.get("/%s?kept=x" % name)
            self.assertEqual(answer.status_code, 410, name)
            self.assertIn("is no longer kept: a result stays for 2 hours", self.text(answer))
        with mock.patch.object(routes, "RESULTS", Kept(most=0)):
            answer = self.client.post("/species", data={"example": "region"}, follow_redirects=True)
            self.assertEqual(answer.status_code, 410)

    def test_a_form_has_an_address_and_leads_to_its_page(self):
        answer = self.client.post("/form", data={"files": (io.BytesIO(sample("region")), "region.evp")})
        self.assertRegex(answer.location, r"^/form\?kept=")
        self.assertIn('value="region"', self.text(self.client.get(answer.location)))
        form = forms.example_form()
        form["rows"][1]["name"] = "family cars"
        answer = self.client.post("/form/open", data={"form": json.dumps(form), "name": "mine"}, follow_redirects=True)
        self.assertEqual(answer.status_code, 200)
        self.assertIn("family cars: cars 1.4 to 2.0 l, Euro 3", self.text(answer))
        self.assertIn("mine.evp", self.text(answer))
        self.assertEqual(self.client.post("/form/open", data={"form": "["}).status_code, 400)


@unittest.skipUnless(HAS_MODULES, NO_MODULES)
class FormTest(unittest.TestCase):
    """The form takes names, workbooks and lists for any number of rows."""

    def setUp(self):
        app = Flask("a test", static_folder=None)
        app.register_blueprint(routes.blueprint)
        self.client = app.test_client()

    def country(self, rows: int = 60) -> dict:
        form = forms.example_form()
        form["rows"] = [{**form["rows"][0], "hot": str(i % 100), "name": "region %d" % i} for i in range(rows)]
        return form

    def test_sixty_rows_with_the_guidebooks_lists(self):
        found = forms.check_form(LIBRARY, forms.form_of(self.country()))
        self.assertEqual(found["state"], "accepted", found)
        self.assertIn("version 4", found["line"])
        self.assertIn(forms.MULTIPLIED, found["doubts"])
        self.assertEqual(found["results"][-1]["name"], "total")

    def test_a_sheet_of_an_earlier_version_grows(self):
        for version in ("2", "3"):
            form = {**self.country(), "version": version}
            self.assertEqual(forms.check_form(LIBRARY, forms.form_of(form))["state"], "accepted")

    def test_a_mileage_beside_lists(self):
        form = forms.example_form()
        form["rows"][1].update(mileage="84000", load="", saturation="40")
        found = forms.check_form(LIBRARY, forms.form_of(form))
        self.assertEqual((found["state"], found["faults"]), ("accepted", []))

    def test_words_as_spreadsheets_write_them(self):
        form = forms.example_form()
        plain = forms.made_of(forms.form_of(form)).data
        form["rows"][0].update(trips="4,80", vehicles="1.840,0", canister="By class", technology="conv.")
        form["rows"][1].update(vehicles="15 200", technology="Euro 3")
        form["seasons"][0].update(lowest="\u22122,0")
        form["durations"][0] = "420,0"
        self.assertEqual(forms.made_of(forms.form_of(form)).data, plain)
        form["rows"][0].update(vehicles="5,000")
        self.assertIn("it can mean 5000 or 5.000", forms.check_form(LIBRARY, forms.form_of(form))["faults"][0]["text"])

    def test_saved_as_a_workbook_with_its_names(self):
        form = self.country()
        answer = self.client.post("/form/save", data={"form": json.dumps(form), "name": "land", "what": "xlsx"})
        self.assertEqual(answer.headers["Content-Disposition"], 'attachment; filename="land.xlsx"')
        made = books.book_of(answer.data, "land.xlsx")
        self.assertEqual((made.data(), made.names.rows[59]), (forms.made_of(forms.form_of(form)).data, "region 59"))
        files = {"files": (io.BytesIO(answer.data), "land.xlsx")}
        back = self.client.post("/form/read", data=files).get_json()
        self.assertEqual((back["name"], back["form"]["rows"][59]["name"]), ("land", "region 59"))

    def test_names_beside_a_sheet_and_a_workbook_on_a_page(self):
        data = sample("region")
        names = b"record,number,name\nrow,1,first of all\nseason,2,spring\n"
        files = {"files": [(io.BytesIO(data), "region.evp"), (io.BytesIO(names), "region.names.csv")]}
        text = self.client.post("/sheet", data=files, follow_redirects=True).get_data(as_text=True)
        self.assertIn("first of all: ", text)
        self.assertIn("season 2 (spring)", text)
        book = books.book_bytes(data, Names([], ["first of all"]))
        for page in ("sheet", "day", "parking", "species"):
            answer = self.client.post("/" + page, data={"files": (io.BytesIO(book), "b.xlsx")}, follow_redirects=True)
            self.assertEqual(answer.status_code, 200)
            self.assertIn("b.evp", answer.get_data(as_text=True))

    def test_doubts_with_what_they_do(self):
        form = forms.example_form()
        form["rows"][1].update(load="", saturation="")
        found = self.client.post("/form/doubts", data=json.dumps(form)).get_json()["doubts"]
        self.assertEqual(len(found), 1)
        self.assertIn("row 2: m_sat is 0", found[0])
        self.assertRegex(found[0], r"the total is [\d.]+ t, and [\d.]+ t with the largest m_sat")
        self.assertEqual(self.client.post("/form/doubts", data="[").get_json(), {"doubts": []})

    def test_every_sample_there_and_back(self):
        for path in sorted(SAMPLES.glob("*.evp")):
            names = Names(["a"], ["b"])
            form = forms.form_from(path.read_bytes(), path.name, names)
            made = forms.made_of(forms.form_of(form))
            self.assertEqual((made.data, made.names.row(0)), (path.read_bytes(), "b"), path.name)
            self.assertEqual(layout.version_of(made.data), layout.version_of(path.read_bytes()))
        self.assertTrue(sheet)


if __name__ == "__main__":
    unittest.main()
