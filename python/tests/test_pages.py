"""The pages: well-formed, self-contained, labelled and readable, with the library's numbers on them; and the form."""

import base64
import hashlib
import io
import json
import re
import unittest
import zipfile
from unittest import mock
from urllib.parse import unquote

from support import LIBRARY, SAMPLES, TEXT, DeskTestCase, run, sample, samples

from evp import layout, marking, sheet
from evp.explain import REASONS, explain
from evp.intake import filed_for, filed_of, read_class
from evp.library import Filed, Outcome, Unit
from evp.masses import shown
from html_check import Page

try:
    import flask
    import jinja2  # noqa: F401
except ImportError as error:
    raise unittest.SkipTest("no pages: %s (apt install python3-flask python3-jinja2)" % error)

from evp.pages import forms, parts, render, turns
from evp.pages.asks import ASKS
from evp.pages.classes import page_class
from evp.pages.days import page_day, parking_on
from evp.pages.fuels import fuel_change, page_fuels
from evp.pages.interval import deviation, edges_text, picture
from evp.pages.parkings import page_parking
from evp.pages.routes import blueprint
from evp.pages.sheets import page_sheet
from evp.pages.splits import page_cells, page_pool, page_species
from evp.cells import travel_of

COURSE = SAMPLES / "course"
TRAVEL = "row,town,urban_mileage,rural_mileage,highway_mileage,rural_speed,highway_speed\nall,yes,40,35,25,60,100\n"
MARKUP = "<script>alert(1)</script>&\"'.evp"


def with_pressure(data: bytes, season: int, more: int) -> bytes:
    """The sheet with another vapour pressure in a season."""
    place = layout.season_place(data, season) + 6
    value = layout.number_at(data, place, 2) + more
    return data[:place] + value.to_bytes(2, "little") + data[place + 2:]


def course(name: str = "north") -> bytes:
    return (COURSE / (name + ".evp")).read_bytes()


def class_page(**more) -> str:
    found = read_class(LIBRARY, str(COURSE), [str(COURSE / "filed.csv")], lambda done, many: None)
    sheets, filings = found.sheets, found.taken.filings
    return page_class(sheets, filings, marking.marks_of(LIBRARY, sheets, filings), **more)


def pages() -> dict[str, str]:
    """Every page of the samples."""
    region, survey = sample("region"), sample("survey")
    filings = filed_for([str(COURSE / "filed.csv")], ["ridge.evp"]).filings
    filed = [filing for filing in filings if filing.sheet == "ridge.evp"]
    districts = sample("districts")
    return {
        "class": class_page(), "sheet": page_sheet(LIBRARY, "region.evp", region),
        "sheet with figures": page_sheet(LIBRARY, "ridge.evp", course("ridge"), filed),
        "a refused row": page_sheet(LIBRARY, "heath.evp", course("heath")),
        "a sheet too short": page_sheet(LIBRARY, "cape.evp", course("cape")),
        "an empty file": page_sheet(LIBRARY, "none.evp", b""),
        "a text": page_sheet(LIBRARY, "text.evp", b"row,town\n1,yes\n"),
        "a refused season": page_sheet(LIBRARY, "hot.evp", sheet.write(TEXT.replace("highest=29.0", "highest=95.0"))),
        "a refused head": page_sheet(LIBRARY, "head.evp", b"EVP\7\0" + course()[5:]),
        "no parkings": page_sheet(LIBRARY, "none.evp", course()[:8] + bytes(96) + course()[104:]),
        "day": page_day(LIBRARY, "region.evp", region), "day of one row": page_day(LIBRARY, "north.evp", course(), [3]),
        "parking": page_parking(LIBRARY, "survey.evp", survey), "lists": page_parking(LIBRARY, "north.evp", course()),
        "fuels": page_fuels(LIBRARY, ("a.evp", "b.evp"), (course(), with_pressure(course(), 1, 100))),
        "two regions": page_fuels(LIBRARY, ("a.evp", "b.evp"), (course(), course("glen"))),
        "species": page_species(LIBRARY, "region.evp", region),
        "cells": page_cells(LIBRARY, "north.evp", course(), travel_of(TRAVEL, "travel.csv", 7)),
        "pool": page_pool(LIBRARY, ("a.evp", "b.evp"), (districts, districts), LIBRARY.pool(districts, districts)),
        "form": forms.page_form(), "a filled form": forms.page_form(forms.form_from(region, "region.evp"), "region"),
    }


class TestPages(unittest.TestCase):
    """What holds of every page."""

    @classmethod
    def setUpClass(cls):
        cls.pages = pages()
        client = make_client()
        for name in ("", *(name for name, _ in render.LINKS)):
            cls.pages["/" + name] = client.get("/" + name).get_data(as_text=True)
        for name, ask in ASKS.items():
            cls.pages["served " + name] = client.post(
                "/" + name, data={"example": ask.example}, follow_redirects=True).get_data(as_text=True)

    def test_well_formed_and_labelled(self):
        for name, html in self.pages.items():
            with self.subTest(name):
                self.assertTrue(html.startswith("<!doctype html>\n<html lang=\"en\">"))
                self.assertEqual(Page(html).faults, [])

    def test_self_contained(self):
        for name, html in self.pages.items():
            with self.subTest(name):
                self.assertIsNone(re.search(r"https?:|@import|url\((?!#)|\bsrc=|<iframe|<object|<embed", html))

    def test_scripts_are_those_of_the_policy(self):
        for name, html in self.pages.items():
            with self.subTest(name):
                page = Page(html)
                policy = re.search('Content-Security-Policy" content="([^"]*)"', html)[1].replace("&#39;", "'")
                self.assertIn("default-src 'none'", policy)
                self.assertNotIn("unsafe-inline", policy.partition("script-src")[2])
                for script in page.scripts:
                    digest = base64.b64encode(hashlib.sha256(script.encode()).digest()).decode()
                    self.assertIn("'sha256-%s'" % digest, policy)

    def test_no_number_fails_to_be_one(self):
        for name, html in self.pages.items():
            with self.subTest(name):
                self.assertIsNone(re.search(r"\b(nan|inf|None|Undefined|Band\()", Page(html).text))

    def test_pages_are_small(self):
        for name, html in self.pages.items():
            with self.subTest(name):
                self.assertLess(len(html.encode()), 800_000)


class TestMarkup(DeskTestCase):
    """Names and values of others are text."""

    def assert_text(self, html: str, sign: str = "alert(1)"):
        page = Page(html)
        self.assertEqual(page.faults, [])
        self.assertIn(sign, page.text)
        self.assertFalse([script for script in page.scripts if sign in script])

    def test_name_of_a_sheet(self):
        travels = travel_of(TRAVEL, "t", 7)
        pooled = LIBRARY.pool(sample("districts"), sample("districts"))
        for html in (page_sheet(LIBRARY, MARKUP, course()), page_sheet(LIBRARY, MARKUP, course("heath")),
                     page_sheet(LIBRARY, MARKUP, b""), page_day(LIBRARY, MARKUP, course()),
                     page_parking(LIBRARY, MARKUP, course()), page_species(LIBRARY, MARKUP, course()),
                     page_fuels(LIBRARY, (MARKUP, MARKUP), (course(), course())),
                     page_cells(LIBRARY, MARKUP, course(), travels),
                     page_pool(LIBRARY, (MARKUP, MARKUP), (sample("districts"), sample("districts")), pooled)):
            self.assert_text(html)

    def test_names_in_filed_csv(self):
        text = 'sheet,row,mechanism,mass,unit\n"%s",total,,1.0,t\n' % MARKUP.replace('"', '""')
        table = filed_of(text, "filed.csv")
        sheets = {MARKUP: marking.marked(LIBRARY, course()), "other": marking.marked(LIBRARY, b"EVP" + MARKUP.encode())}
        marks = marking.marks_of(LIBRARY, sheets, table.filings)
        self.assert_text(page_class(sheets, table.filings, marks, True, packed={MARKUP: {"name": MARKUP, "x": MARKUP}},
                                    marks_csv=marking.marks_csv(marks, False)))
        marks = marking.marks_of(LIBRARY, {}, table.filings)
        self.assert_text(page_class({}, table.filings, marks))

    def test_form(self):
        form = {**forms.example_form(), "rows": [{"class": MARKUP, "technology": "</script><b>"}]}
        html = forms.page_form(form, MARKUP, MARKUP)
        self.assert_text(html)
        self.assertEqual(json.loads(re.search('id="data">(.*?)</script>', html)[1])["form"], form)

    def test_files_that_cannot_be_read(self):
        client = make_client()
        answer = client.post("/class", data={"files": [(io.BytesIO(b"<i>,b\n"), "<b>.csv"),
                                                       (io.BytesIO(course()), "north.evp")]}, follow_redirects=True)
        self.assertEqual(answer.status_code, 200)
        self.assert_text(answer.get_data(as_text=True), "<b>.csv: no table of filed masses is found in it")


# ------------------------------------------------------------------ colours


def _light(colour: str) -> float:
    parts = [int(colour[i:i + 2], 16) / 255 for i in (1, 3, 5)]
    linear = [part / 12.92 if part <= 0.04045 else ((part + 0.055) / 1.055) ** 2.4 for part in parts]
    return 0.2126 * linear[0] + 0.7152 * linear[1] + 0.0722 * linear[2]


def contrast(a: str, b: str) -> float:
    dark, light = sorted((_light(a), _light(b)))
    return (light + 0.05) / (dark + 0.05)


def palettes() -> dict[str, dict[str, str]]:
    """The colours of style.css: light, and dark where they differ."""
    css = str(render.source("style.css"))
    blocks = re.findall(r":root \{(.*?)\}", css, re.S)
    found = [dict(re.findall(r"--(\w[\w-]*): (#[0-9a-f]{3,6})", block)) for block in blocks]
    whole = [{name: "#" + 2 * value[1] + 2 * value[2] + 2 * value[3] if len(value) == 4 else value
              for name, value in palette.items()} for palette in found]
    return {"light": whole[0], "dark": {**whole[0], **whole[1]}, "print": {**whole[0], **whole[2]}}


class TestContrast(unittest.TestCase):
    """WCAG AA: 4.5 for text, 3 for what is drawn and for the borders of fields."""

    def test_text(self):
        for name, colours in palettes().items():
            for ink in ("ink", "soft", "low", "high", "link"):
                for ground in ("paper", "panel"):
                    with self.subTest(palette=name, ink=ink, ground=ground):
                        self.assertGreaterEqual(contrast(colours[ink], colours[ground]), 4.5)
            for ink, ground in (("low", "low-bg"), ("high", "high-bg"), ("ink", "high-bg"), ("ink", "low-bg"),
                                ("paper", "high"), ("paper", "ink"), ("paper", "soft"), ("ink", "rule")):
                with self.subTest(palette=name, ink=ink, ground=ground):
                    self.assertGreaterEqual(contrast(colours[ink], colours[ground]), 4.5)

    def test_drawn(self):
        for name, colours in palettes().items():
            for ink in ("line", "ok", "bar", "low", "high", "focus"):
                for ground in ("paper", "panel"):
                    with self.subTest(palette=name, ink=ink, ground=ground):
                        self.assertGreaterEqual(contrast(colours[ink], colours[ground]), 3)

    def test_levels_are_in_order(self):
        """Each level of a map is darker than the last in light, lighter in dark, so that greys tell them too."""
        for name, colours in palettes().items():
            for kind in "cf":
                lights = [_light(colours["%s%d" % (kind, i)]) for i in range(7)]
                self.assertEqual(lights, sorted(lights, reverse=name != "dark"))
                self.assertGreater(contrast(colours[kind + "0"], colours[kind + "6"]), 8)

    def test_shapes_tell_verdicts_apart(self):
        band = {"agrees": (2831491356, 2831497572), "low": (2843491356, 2843497572), "high": (2816491356, 2816497572)}
        drawn = {verdict: str(picture(Filed(283, 2, Unit.T), marking.Band(*ends), verdict))
                 for verdict, ends in band.items()}
        paths = {verdict: re.search('class="br" d="([^"]*)"', svg)[1] for verdict, svg in drawn.items()}
        self.assertEqual(len({re.sub("[0-9.]+", "", path) + path[:3] for path in paths.values()}), 3)


# ------------------------------------------------------------------ what is on them


class TestNumbers(unittest.TestCase):
    """Masses are those of reports."""

    def test_parts_of_a_sheet(self):
        for path in samples():
            data = path.read_bytes()
            if LIBRARY.check(data):
                continue
            report, rows = LIBRARY.report(data), range(min(8, layout.row_count(data)))
            self.assertEqual(parts.only_rows(data, range(layout.row_count(data))), data)
            for i in rows:
                with self.subTest(path.name, row=i):
                    self.assertEqual(LIBRARY.report(parts.only_rows(data, [i])).rows, [report.rows[i]])
                    self.assertIsNone(LIBRARY.check(parts.one_vehicle(data, i)))
            for i in range(layout.season_count(data)):
                self.assertEqual(layout.season(parts.only_season(data, i), 0), layout.season(data, i))
                self.assertIsNone(LIBRARY.check(parts.only_season(data, i)))
            self.assertEqual(parts.with_end_hours(data, 1, 24), data)

    def test_temperatures_are_those_of_the_second_reckoning(self):
        from tools.reckoning import WEIGHTS
        self.assertEqual([round(weight * 1e9) for weight in parts.WEIGHTS], list(WEIGHTS))

    def test_sheet_has_the_words_of_its_report(self):
        text = Page(page_sheet(LIBRARY, "region.evp", sample("region"))).text.replace(" ", "")
        report = LIBRARY.report(sample("region"))
        for band in (*report.all, *report.cars, *report.light, *report.two, report.total):
            self.assertIn("%sto%s" % (format(band.low, ","), format(band.high, ",")), text)
            self.assertIn(shown(band).replace(" ", ""), text)

    def test_parking_ends_with_the_factor_of_the_sheet(self):
        html = page_parking(LIBRARY, "survey.evp", sample("survey"), 1, 0)
        told = json.loads(re.search('id="data">(.*?)</script>', html)[1])
        whole = LIBRARY.factor(sample("survey"), 1, 0, 1)
        self.assertEqual(told["filled"][23], ["21,108", "%.4f" % (whole.low / 1e6)])
        self.assertEqual(sum(map(sum, told["counts"])), 21_108)

    def test_parking_over_midnight(self):
        day = parts.temperatures(layout.season(sample("region"), 2))
        on = parking_on(day, 2, 8)  # 22:00 to 2:00
        self.assertEqual((on.start, on.end, len(on.parked), on.rising), (44, 4, 8, []))
        on = parking_on(day, 17, 17)
        self.assertEqual((on.start, len(on.rising)), (17, 11))
        self.assertAlmostEqual(on.rise, day[28] - day[17])

    def test_class_has_the_verdicts_of_marks(self):
        html = class_page()
        text = Page(html).text
        with open(COURSE / "marks.csv", encoding="utf-8") as file:
            marks = file.read()
        for verdict in ("agrees", "fits", "low", "high", "refused", "absent", "unreadable"):
            many = len(re.findall(",%s," % verdict, marks))
            self.assertIn("%d %s" % (many, verdict), text)
        self.assertIn("14 of 30 sheets to look at", text)
        self.assertFalse("<a class=\"button\"" in html)

    def test_class_links_to_its_sheets(self):
        self.assertTrue('href="each/sheet-1.html"' in class_page(pages={"north.evp": "each/sheet-1.html"}))

    def test_figures_in_words(self):
        filed, band = Filed(2834, 3, Unit.T), marking.Band(2_834_491_356, 2_834_497_572)
        self.assertEqual(edges_text(filed), "2.8335 to 2.8345")
        self.assertEqual(edges_text(Filed(0, 0, Unit.KG)), "0.0 to 0.5")
        self.assertEqual(LIBRARY.mark(filed, band).outcome, Outcome.AGREES)
        self.assertEqual(deviation(Filed(2834, 0, Unit.T), band), "×\u202f1,000")
        self.assertEqual(deviation(Filed(1417, 3, Unit.T), band), "÷\u202f2.0")
        self.assertEqual(deviation(Filed(2750, 3, Unit.T), band), "\u22123.0\u202f%")


class TestFuels(unittest.TestCase):
    """The theorem is told where it holds, and nowhere else."""

    def test_change(self):
        base = course()
        self.assertEqual(fuel_change(base, with_pressure(base, 1, 100)).one_way, "B")
        self.assertEqual(fuel_change(with_pressure(base, 0, 100), base).one_way, "A")
        self.assertEqual(fuel_change(base, base).one_way, "")
        both = with_pressure(with_pressure(base, 1, 100), 0, -100)
        self.assertEqual(fuel_change(base, both), ([2], [1]))
        self.assertEqual(fuel_change(base, both).one_way, "")
        self.assertIsNone(fuel_change(base, course("south")))

    def test_page(self):
        told = "at least as much in B: that is proved for any two such sheets"
        base = course()
        page = Page(page_fuels(LIBRARY, ("a", "b"), (base, with_pressure(base, 1, 100)))).text
        self.assertIn(told, page)
        self.assertEqual(page.count("§"), 3 * 2 + 1)  # rows 1 and 6 have no canister; the caption names the sign
        self.assertNotIn("proved for any", Page(page_fuels(LIBRARY, ("a", "b"), (base, course("south")))).text)


class TestRefused(unittest.TestCase):
    """The page of a refused sheet."""

    def test_every_refusal_of_a_row_or_season_has_its_page(self):
        edits = ["trips=31.00", "minutes=2000", "load=70.0", "fill=101", "vehicles=20000000", "tank=200.0", "class=10",
                 "technology=9", "canister=9", "saturation=6000.0", "days=400", "vp=10.0", "highest=95.0",
                 "lowest=40.0"]
        for edit in edits:
            text = _edited(edit)
            with self.subTest(edit):
                page = Page(page_sheet(LIBRARY, "x.evp", sheet.write(text)))
                found = explain(LIBRARY, sheet.write(text))
                self.assertTrue(found.number)
                self.assertEqual(page.faults, [])
                self.assertIn("refused %d at %d" % (found.number, found.place), page.text)

    def test_what_was_tried_is_the_librarys(self):
        self.assertIn("With 12.00 a day in its place the sheet is accepted; this was tried.",
                      Page(page_sheet(LIBRARY, "heath.evp", course("heath"))).text)
        text = _edited("load=70.0").replace("trips=5.10", "trips=31.00")
        self.assertIn("the next thing is wrong: row 2: load 70.0 g is above m_sat 60.0 g",
                      Page(page_sheet(LIBRARY, "x.evp", sheet.write(text))).text)

    def test_long_sheets_are_shown_around_the_fault(self):
        data = bytearray(sample("districts"))
        place = layout.row_place(data, 200)
        data[place] = 77
        html = page_sheet(LIBRARY, "districts.evp", bytes(data))
        self.assertIn("row 201", Page(html).text)
        self.assertLess(len(html), 80_000)


def _edited(edit: str) -> str:
    """The text with another value: of its second row, else of its last season."""
    name = edit.partition("=")[0]
    lines = TEXT.splitlines()
    for i in (-1, 3):
        if re.search(r"\b%s=" % name, lines[i]):
            lines[i] = re.sub(r"\b%s=\S+" % name, edit, lines[i])
            return "\n".join(lines) + "\n"
    lines[-1] += " " + edit
    return "\n".join(lines) + "\n"


# ------------------------------------------------------------------ the form


class TestForm(unittest.TestCase):

    def test_sheets_come_back_as_they_were(self):
        for path in (*samples(), *COURSE.glob("*.evp")):
            data = path.read_bytes()
            if path.name == "cape.evp":  # cut short
                continue
            with self.subTest(path.name):
                form = forms.form_of(json.loads(json.dumps(forms.form_from(data, path.name))))
                self.assertEqual(forms.made_of(form).data, data)

    def test_guidebook(self):
        data = course()
        self.assertEqual([list(map(str, layout.counts(data, at))) for at in (8, 56)], [*forms.GUIDEBOOK.values()])
        self.assertEqual([sum(map(int, words)) for words in forms.GUIDEBOOK.values()], [982, 998])

    def test_example_is_accepted(self):
        found = forms.check_form(LIBRARY, forms.form_of(forms.example_form()))
        self.assertEqual((found["state"], found["faults"], found["doubts"]), ("accepted", [], []))

    def test_refusals_stand_at_their_field(self):
        ids = Page(forms.page_form()).ids
        for edit, id in {
            ("rows", 1, "load", "70.0"): "row-1-load", ("rows", 3, "trips", "31"): "row-3-trips",
            ("rows", 0, "load", "1.0"): "row-0-load", ("seasons", 1, "days", "300"): "season-1-days",
            ("seasons", 0, "vp", "10.0"): "season-0-vp", ("seasons", 0, "lowest", "10.0"): "season-0-lowest",
            ("rows", 1, "mileage", "90000"): "row-1-load", ("rows", 3, "technology", "5"): "row-3-technology",
            ("rows", 2, "saturation", "9000.0"): "row-2-saturation", ("rows", 2, "fill", "101"): "row-2-fill",
        }.items():
            with self.subTest(edit):
                form = forms.example_form()
                form[edit[0]][edit[1]][edit[2]] = edit[3]
                found = forms.check_form(LIBRARY, forms.form_of(form))
                self.assertNotEqual(found["state"], "accepted")
                self.assertEqual([fault["id"] for fault in found["faults"]], [id])
        for change, id in (({"durations": ["0"] * 24}, "durations"), ({"hours": ["60"] * 24}, "hours"),
                           ({"parking": "grid"}, "grid"), ({"seasons": []}, "seasons"), ({"rows": []}, "rows"),
                           ({"rows": forms.example_form()["rows"] * 260}, "rows"),
                           ({"rows": forms.example_form()["rows"] * 10, "hours": ["60"] * 24}, "hours")):
            with self.subTest(id):
                found = forms.check_form(LIBRARY, forms.form_of({**forms.example_form(), **change}))
                self.assertEqual([fault["id"] for fault in found["faults"]], [id])
                self.assertIn(id, ids)

    def test_every_reason_has_a_field(self):
        ids = {*Page(forms.page_form()).ids}
        names = {kind: {field.name for field in fields} for kind, fields in forms.FIELDS.items()}
        for record, field, _ in REASONS.values():
            for parking in ("lists", "grid"):
                form = forms.form_of({**forms.empty_form(), "parking": parking})
                id = forms._id_of(form, record, 1, field.name)
                kind = id.partition("-")[0]
                self.assertTrue(id in ids or id.rpartition("-")[2] in names[kind], id)

    def test_words_that_are_no_numbers(self):
        form = forms.example_form()
        form["rows"][0]["trips"], form["seasons"][1]["vp"] = "4,8,0", ""
        form["durations"][4] = "-1"
        found = forms.check_form(LIBRARY, forms.form_of(form))
        self.assertEqual(found["state"], "unread")
        self.assertEqual({fault["id"]: fault["text"] for fault in found["faults"]}, {
            "row-0-trips": "trips: '4,8,0' is no number",
            "season-1-vp": "vapour pressure is missing", "durations-5": "2.5 h: -1 has a sign, and the field has none"})

    def test_doubts_speak_of_rows(self):
        form = forms.example_form()
        form["rows"] += [form["rows"][0], {"class": "5", "technology": "1"}]
        doubts = forms.check_form(LIBRARY, forms.form_of(form))["doubts"]
        self.assertIn("rows 1, 5: these rows are alike in all but vehicles; was one entered twice?", doubts)
        self.assertTrue(all("fleet" not in doubt for doubt in doubts))

    def test_a_text_fills_the_form(self):
        self.assertEqual(forms.form_from(TEXT.encode(), "north.txt")["rows"][1]["load"], "32.0")

    def test_tables(self):
        with zipfile.ZipFile(io.BytesIO(forms.tables_of(sample("survey")))) as archive:
            self.assertEqual(sorted(archive.namelist()), ["fleet.csv", "grid.csv", "seasons.csv"])
            self.assertTrue(archive.read("seasons.csv").startswith(b"\xef\xbb\xbfdays,"))


# ------------------------------------------------------------------ the server's part


def make_client():
    app = flask.Flask("test", static_folder=None)
    app.register_blueprint(blueprint)
    app.config["PROPAGATE_EXCEPTIONS"] = True
    return app.test_client()


class TestRoutes(unittest.TestCase):

    def setUp(self):
        self.client = make_client()

    def post(self, where: str, *files: tuple[str, bytes, str], **more):
        data = dict(more)
        for field, content, name in files:
            data.setdefault(field, []).append((io.BytesIO(content), name))
        return self.client.post(where, data=data, follow_redirects=True)

    def test_thirty_sheets_are_marked(self):
        files = [("files", path.read_bytes(), path.name) for path in COURSE.iterdir() if path.name != "marks.csv"]
        answer = self.post("/class", *files)
        self.assertEqual(answer.status_code, 200)
        html = answer.get_data(as_text=True)
        self.assertIn("14 of 30 sheets to look at", Page(html).text)
        marks = re.search('base64,([^"]*)" download="marks.csv"', html)[1]
        self.assertEqual(base64.b64decode(marks), (COURSE / "marks.csv").read_bytes())
        self.assertIn("frame-ancestors 'none'", answer.headers["Content-Security-Policy"])

    def test_a_page_leads_to_another_of_the_same_sheet(self):
        sheet64 = base64.b64encode(course("ridge")).decode()
        filed = "sheet,row,mechanism,mass,unit\nridge.evp,total,,1.0,t\nother.evp,total,,1.0,t\n"
        html = self.post("/sheet", name="ridge.evp", sheet64=sheet64, filed=filed).get_data(as_text=True)
        self.assertIn("The filed figures", Page(html).text)
        for page in ("day", "parking", "species", "form"):
            answer = self.post("/" + page, name="ridge.evp", sheet64=sheet64)
            self.assertEqual((page, answer.status_code), (page, 200))

    def test_refused_sheets_say_why_on_every_page(self):
        for page in ("sheet", "day", "parking", "species"):
            html = self.post("/" + page, ("files", course("heath"), "heath.evp")).get_data(as_text=True)
            self.assertIn("refused 18 at 168", Page(html).text)
            self.assertIn("Mend it in the form", Page(html).text)
        html = self.post("/sheet", ("files", course("cape"), "c.evp")).get_data(as_text=True)
        self.assertNotIn("Mend it in the form", Page(html).text)

    def test_files_that_are_missing_or_wrong(self):
        for page in ASKS:
            answer = self.post("/" + page)
            self.assertEqual((page, answer.status_code), (page, 400))
            self.assertTrue('role="alert"' in answer.get_data(as_text=True))
        answer = self.post("/pool", ("a", course(), "a.evp"), ("b", course(), "b.evp"))
        self.assertIn("only sheets of version 4 are pooled", Page(answer.get_data(as_text=True)).text)
        twice = [("files", course(), "a.evp")] * 2 + [("files", b"sheet,row,mechanism,mass,unit\n", "f.csv")]
        self.assertIn("a.evp is there twice", Page(self.post("/class", *twice).get_data(as_text=True)).text)
        self.assertIn("did not come whole", Page(self.post("/sheet", sheet64="***").get_data(as_text=True)).text)
        self.assertEqual(self.post("/sheet/save").status_code, 400)
        self.assertEqual(self.post("/sheet", example="../../etc/passwd").status_code, 400)

    def test_files_dropped_on_the_first_page(self):
        table = ("files", (COURSE / "filed.csv").read_bytes(), "filed.csv")
        north, heath = (("files", course(name), name + ".evp") for name in ("north", "heath"))
        for files, words in (([north], "north.evp accepted"), ([north, table], "The filed figures"),
                             ([heath], "refused 18 at 168"), ([north, heath, table], "1 of 2 sheets to look at"),
                             ([north, heath], "choose the sheets and the tables"), ([table], "choose a sheet first"),
                             ([], "choose a sheet first")):
            with self.subTest(words):
                self.assertIn(words, Page(self.post("/open", *files).get_data(as_text=True)).text)
        self.assertIn("one is shown here", Page(self.post("/sheet", north, heath).get_data(as_text=True)).text)

    def test_pages_take_turns(self):
        """Where too many wait, a page is told to try again; the form, which takes no time, is not."""
        sheet64 = base64.b64encode(course()).decode()
        for held, others, paths in ((turns.CLASSES, turns.PAGES, ("/class",)), (turns.PAGES, turns.CLASSES, (
                "/sheet", "/day", "/parking", "/species", "/fuels", "/cells", "/pool", "/open"))):
            with mock.patch.object(held, "_together", 0):
                for path in paths:
                    example = {"example": ASKS[path[1:]].example} if path != "/open" else {"sheet64": sheet64}
                    self.assertEqual((path, self.post(path, **example).status_code), (path, 503))
                self.assertEqual(self.post("/form", sheet64=sheet64).status_code, 200)
                with flask.Flask("test").test_request_context(), others:
                    pass  # whose places are their own
        with mock.patch.object(turns.CLASSES, "_together", 0):
            self.assertEqual(self.post("/open", example="course").status_code, 503)
        for _ in range(20):  # a turn is given back, also after a page that failed
            self.assertEqual(self.post("/sheet").status_code, 400)
        self.assertEqual(self.post("/sheet", sheet64=sheet64).status_code, 200)

    def test_long_requests_are_turned_away(self):
        self.assertEqual(self.client.post("/sheet", data=b"x" * 1_000_001).status_code, 413)
        self.assertEqual(self.client.post("/form/check", data=b"x" * 1_000_001).status_code, 413)
        self.assertEqual(self.client.post("/class", data=b"x" * 4_000_001).status_code, 413)

    def test_form_is_checked_and_saved(self):
        form = forms.example_form()
        found = self.client.post("/form/check?serial=7", data=json.dumps(form)).get_json()
        self.assertEqual((found["state"], found["serial"]), ("accepted", 7))
        answer = self.client.post("/form/save", data={"form": json.dumps(form), "name": "../a b", "what": "sheet"})
        self.assertEqual(answer.headers["Content-Disposition"], 'attachment; filename="a-b.evp"')
        self.assertEqual(answer.data, forms.made_of(forms.form_of(form)).data)
        answer = self.client.post("/form/save", data={"form": json.dumps(form), "name": "", "what": "csv"})
        self.assertEqual(answer.headers["Content-Disposition"], 'attachment; filename="csv.zip"')
        self.assertTrue(zipfile.is_zipfile(io.BytesIO(answer.data)))

    def test_what_is_no_form(self):
        for body in ("", "[", "[]", "{}", '{"parking": "grid"}', "[" * 50_000, '{"parking": "lists", "seasons": [1]}',
                     '{"parking": "lists", "seasons": [{"days": 1}], "rows": []}', '"x"', "null",
                     '{"parking": "lists", "seasons": [], "rows": [], "durations": 4}'):
            with self.subTest(body[:40]):
                self.assertEqual(self.client.post("/form/check", data=body).status_code, 400)
                self.assertEqual(self.client.post("/form/save", data={"form": body}).status_code, 400)

    def test_dropped_sheet_fills_the_form(self):
        found = self.post("/form/read", ("files", course("heath"), "heath.evp")).get_json()
        self.assertEqual((found["name"], found["form"]["rows"][2]["trips"]), ("heath", "31.00"))
        for body in (course("cape"), b"", b"\0" * 9, b"PK\3\4", b"\xff\xfe", b"EVP", b"hello"):
            self.assertEqual(self.post("/form/read", ("files", body, "x")).status_code, 400)

    def test_dropped_tables_fill_the_form(self):
        """With what is wrong in them, which the form then says at its field."""
        names = ("seasons.csv", "parking.csv", "fleet.csv")
        files = [("files", (SAMPLES / "afternoon" / name).read_bytes(), name) for name in names]
        form = self.post("/form/read", *files).get_json()["form"]
        found = forms.check_form(LIBRARY, forms.form_of(form))
        self.assertEqual(form["rows"][0]["trips"], "4,80")  # which in a form can mean one thing
        self.assertEqual([fault["id"] for fault in found["faults"]], ["row-1-load"])
        self.assertEqual(found["doubts"], ["row 3: vehicles left out, so 0"])
        for path in samples():
            tables = sheet.folder_of(path.read_bytes())
            files = [("files", text.encode("utf-8-sig"), name) for name, text in tables.items()]
            form = {**forms.empty_form(), **self.post("/form/read", *files).get_json()["form"]}
            form["version"] = forms.form_from(path.read_bytes(), path.name)["version"]
            self.assertEqual(forms.made_of(forms.form_of(form)).data, path.read_bytes(), path.name)
        self.assertEqual(self.post("/form/read", ("files", b"a,b\n", "other.csv")).status_code, 400)
        self.assertEqual(self.post("/form/read", ("files", b"a,b\n", "fleet.csv")).status_code, 400)

    def test_season_and_row_of_the_parkings(self):
        sheet64 = base64.b64encode(sample("region")).decode()
        html = self.post("/parking", name="r.evp", sheet64=sheet64, season="2", row="3").get_data(as_text=True)
        self.assertIn("season 2, row 3: cars below 1.4 l, Euro 2", Page(html).text)
        self.assertIn("Season 2 has 92 days", Page(html).text)
        self.assertEqual(self.post("/parking", name="r.evp", sheet64=sheet64, season="99", row="x").status_code, 200)


class TestCommand(DeskTestCase):

    def test_each_page(self):
        travel = self.put("travel.csv", TRAVEL)
        for words in (["sheet", SAMPLES / "region.evp"], ["day", SAMPLES / "region.evp", "--row", "1", "4"],
                      ["parking", SAMPLES / "survey.evp", "--season", "2"], ["species", SAMPLES / "region.evp"],
                      ["fuels", SAMPLES / "region.evp", SAMPLES / "region.evp"],
                      ["cells", COURSE / "north.evp", "--travel", travel],
                      ["pool", SAMPLES / "districts.evp", SAMPLES / "districts.evp"]):
            target = self.folder / (words[0] + ".html")
            found = run("page", *words, "-o", target)
            self.assert_plain(found, 0)
            self.assertEqual(Page(target.read_text(encoding="utf-8")).faults, [])
        self.assert_plain(run("page", "sheet", SAMPLES / "region.evp", "-o", self.folder / "sheet.html"), 2)
        self.assert_plain(run("page", "sheet", COURSE / "heath.evp", "-o", self.folder / "refused.html"), 1)

    def test_a_sheet_alone(self):
        """`evp page SHEET` is the page of a sheet; what is no kind of page and no sheet is said."""
        self.assert_plain(run("page", "sheet", COURSE / "north.evp", "-o", self.folder / "a.html"), 0)
        self.assert_plain(run("page", COURSE / "north.evp", "-o", self.folder / "b.html"), 0)
        self.assertEqual((self.folder / "a.html").read_bytes(), (self.folder / "b.html").read_bytes())
        found = run("page", "--filed", COURSE / "filed.csv", COURSE / "ridge.evp", "-o", self.folder / "c.html")
        self.assert_plain(found, 1)
        self.assertIn(" bytes: 1 sheet, 15 figures: 10 agrees, 3 fits, 2 low", found.out)
        self.assertIn("The filed figures", (self.folder / "c.html").read_text(encoding="utf-8"))
        self.assertIn("invalid choice: 'clas'", run("page", "clas", COURSE, "-o", self.folder / "x").err)
        self.assertIn("there is no such file", run("page", "none.evp", "-o", self.folder / "x").err)

    def test_figures_that_are_not_there(self):
        """A table of filed masses without a line for the sheet: said in the terminal and on the page."""
        found = run("page", SAMPLES / "region.evp", "--filed", COURSE / "filed.csv", "-o", self.folder / "a.html")
        self.assert_plain(found, 1)
        self.assertIn("filed.csv has no figure for it", found.out)
        self.assertIn("The table of filed masses has none for region.evp",
                      Page((self.folder / "a.html").read_text(encoding="utf-8")).text)
        fine = self.put("filed.csv", "sheet,row,mechanism,mass,unit\nregion.evp,total,,589.57,t\n")
        self.assert_plain(run("page", SAMPLES / "region.evp", "--filed", fine, "-o", self.folder / "b.html"), 0)

    def test_class_with_its_sheets(self):
        target = self.folder / "class.html"
        each = self.folder / "each #1"
        found = run("page", "class", COURSE, "--filed", COURSE / "filed.csv", "--each", each, "-o", target)
        self.assert_plain(found, 1)
        self.assertRegex(found.out, "bytes: 30 sheets, [0-9]+ figures: [0-9]+ agrees")
        links = re.findall('class="button" href="([^"]*)"', target.read_text(encoding="utf-8"))
        self.assertEqual(len(links), 30)
        for link in links:
            self.assertNotIn("#", link)
            self.assertTrue((self.folder / unquote(link)).exists())

    def test_what_is_not_there(self):
        self.assert_plain(run("page", "day", COURSE / "north.evp", "--row", "8", "-o", self.folder / "x"), 2)
        self.assert_plain(run("page", "parking", COURSE / "heath.evp", "-o", self.folder / "x"), 1)
        self.assert_plain(run("page", "pool", COURSE / "north.evp", COURSE / "south.evp", "-o", self.folder / "x"), 1)
        self.assert_plain(run("page", "-o", self.folder / "x"), 2)

    def test_missing_module_is_named_in_a_sentence(self):
        with mock.patch("evp.pages.needs.find_spec", return_value=None):
            found = run("page", "sheet", COURSE / "north.evp", "-o", self.folder / "x")
        self.assertEqual((found.status, found.err.count("\n")), (2, 1))
        self.assertIn("sudo apt install python3-flask python3-waitress python3-jinja2", found.err)


if __name__ == "__main__":
    unittest.main()
