"""The desk in a real browser: a class marked, a refusal mended, a grid filled, all of it by keyboard once."""

import tempfile
from pathlib import Path

from driving import SAMPLES, BrowserTestCase, Keys

from evp import layout, library, marking, sheet
from evp.intake import filed_of
from evp.pages.asks import ASKS
from evp.pages.classes import page_class
from evp.pages.days import page_day
from evp.pages.fuels import page_fuels
from evp.pages.parkings import page_parking
from evp.pages.sheets import page_sheet

COURSE = SAMPLES / "course"


LONG = "-".join(["a-name-that-someone-has-chosen-without-a-thought-for-those-who-read-it"] * 2) + ".evp"
MARKUP = "<b>bold</b> & <script>alert(1)</script>.evp"


def big_sheet() -> bytes:
    """Of 1,000 rows and 12 seasons, in a grid."""
    lines = ["grid %d %s" % (t, " ".join(str(t * d % 7) for d in range(1, 25))) for t in range(1, 25)]
    lines += ["season days=30 lowest=%.1f highest=%.1f vp=%.1f" % (2 * i - 10, 3.3 * i - 2, 90 - 3 * i)
              for i in range(12)]
    lines += ["row class=%d technology=%d carburettor=9 hot=45 fill=40 vehicles=%d trips=4.80 minutes=12%s" % (
        1 + i % 3, i % 4, 100 * (i % 97), " load=20.0 saturation=50.0" if i % 4 else "") for i in range(1_000)]
    return sheet.write("\n".join(lines) + "\n")


def class_of(sheets: dict[str, bytes], filed: str) -> str:
    lib = library.load()
    marked = {name: marking.marked(lib, data) for name, data in sheets.items()}
    filings = filed_of("sheet,row,mechanism,mass,unit\n" + filed, "filed.csv").filings
    return page_class(marked, filings, marking.marks_of(lib, marked, filings))


def extremes() -> dict[str, str]:
    """Pages of what is seldom seen, by name."""
    lib, big, empty = library.load(), big_sheet(), (SAMPLES / "example.evp").read_bytes()
    north, heath = ((COURSE / name).read_bytes() for name in ("north.evp", "heath.evp"))
    spoilt = big[:-70] + b"\xff\xff" + big[-68:]  # near its end, at a place of five digits
    return {
        "big": page_sheet(lib, "big.evp", big), "big day": page_day(lib, "big.evp", big),
        "big parking": page_parking(lib, "big.evp", big), "big refused": page_sheet(lib, "big.evp", spoilt),
        "empty": page_sheet(lib, "empty.evp", empty), "empty parking": page_parking(lib, "empty.evp", empty),
        "flat day": page_day(lib, "empty.evp", empty), "long": page_sheet(lib, LONG, north),
        "long refused": page_sheet(lib, LONG, heath), "fuels": page_fuels(lib, (MARKUP, LONG), (north, big)),
        "names": class_of({LONG: north, MARKUP: north}, "%s,total,,9.9,t\n%s,cars,soak,1,t\nnobody,total,,1,t\n" % (
            LONG, MARKUP)),
        "refused alone": class_of({"a.evp": heath}, "a.evp,total,,1.0,t\n"),
        "fine alone": class_of({"a.evp": north}, "a.evp,total,,%.1f,t\n" % (lib.report(north).total.low / 1e9)),
    }


class TestClass(BrowserTestCase):

    def drop_course(self):
        self.open("/class")
        self.drop([*COURSE.glob("*.evp"), COURSE / "filed.csv"])
        self.wait(lambda: "sheets to look at" in self.text("h1"), "the class is marked")

    def test_thirty_sheets_are_dropped_and_marked(self):
        self.drop_course()
        self.assertEqual(self.text("h1"), "14 of 30 sheets to look at")
        self.assertEqual(self.visible("tr.p"), 31)  # and a name without a sheet
        self.look(1100, 900)
        self.look(1100, self.run_script("""
            var edges = Array.from(document.querySelectorAll("tr.p")).map(function (line) {
              return Math.floor(line.getBoundingClientRect().bottom); });
            return Math.max.apply(null, edges.filter(function (edge) { return edge <= 900; }));"""))
        self.picture("class")  # up to the end of a line
        self.look(1280, 900)
        self.one("#only").click()
        self.assertEqual(self.visible("tr.p"), 15)
        self.one("tr.p th a").click()
        self.assertEqual(self.visible("tr.more tbody tr"), 15)
        self.assertIn("high by", self.text("tr.more.open"))

    def test_a_refusal_is_mended_in_the_form_and_saved(self):
        self.drop_course()
        next(name for name in self.all("tr.p th a") if name.text == "heath").click()
        self.one("tr.more.open button").click()
        self.wait(lambda: self.text("h1").startswith("heath.evp"), "the page of the sheet")
        self.assertIn("Write at most 12.00.", self.text(".say"))
        next(button for button in self.all("button") if button.text == "Mend it in the form").click()
        self.wait(lambda: self.one("#told").get_attribute("data-state") == "refused", "the form is checked")
        field = self.one("#row-2-trips")
        self.assertEqual(field.get_attribute("aria-invalid"), "true")
        fault = self.text("#" + field.get_attribute("aria-describedby"))
        self.assertIn("31.00 a day is above 12.00 a day; write at most 12.00", fault)
        self.look(360, 740)
        self.wait(lambda: len(self.all("td > .fault-text")) == 1, "narrow, the words stand in the field's own cell")
        below = self.run_script("""
            var words = document.querySelector(".fault-text").getBoundingClientRect();
            return [words.right, words.top - document.querySelector("#row-2-trips").getBoundingClientRect().bottom];""")
        self.assertLessEqual(below[0], 360)
        self.assertLess(below[1], 20)
        self.look(1280, 500)
        self.one("#to-fault").click()
        self.assertEqual(self.focused(), "#row-2-trips")
        bar, top = (self.run_script("return document.querySelector(arguments[0]).getBoundingClientRect()[arguments[1]]",
                                    *where) for where in (("#state", "bottom"), ("#row-2-trips", "top")))
        self.assertLess(bar, top)  # the bar on top does not hide the field
        field.clear()
        field.send_keys("5.10")
        self.wait(lambda: self.one("#told").get_attribute("data-state") == "accepted", "the mended sheet is accepted")
        self.assertEqual(self.all("[aria-invalid]"), [])
        self.one("#save").click()
        data = self.downloaded("heath.evp")
        self.assertIsNone(library.load().check(data))
        self.assertEqual(layout.row(data, 2)["trips"], 510)
        before = (COURSE / "heath.evp").read_bytes()
        self.assertEqual([i for i, (a, b) in enumerate(zip(before, data)) if a != b], [180, 181])
        self.one("#save-csv").click()
        self.assertTrue(self.downloaded("heath-csv.zip").startswith(b"PK"))


class TestForm(BrowserTestCase):

    def state(self) -> str:
        return self.one("#told").get_attribute("data-state")

    def test_an_empty_form_complains_of_nothing(self):
        self.open("/form")
        self.wait(lambda: self.state() == "empty", "the form is looked at")
        self.assertEqual((self.text("#told"), self.all(".fault-text")), ("Nothing is filled in yet.", []))
        self.assertFalse(self.one("#save").is_enabled())
        self.one("#season-0-days").send_keys("90")
        self.wait(lambda: self.state() == "unread", "what is missing is told")
        self.assertEqual(len(self.all("#season-table tr.fault-row")), 1)  # in one line
        self.assertEqual(len(self.all("#season-table [aria-invalid]")), 3)

    def test_the_grid_is_filled_end_hour_by_end_hour(self):
        self.open("/form")
        self.one("#example").click()
        self.wait(lambda: self.state() == "accepted", "the example is accepted")
        self.one("[name=kind][value=grid]").click()
        self.wait(lambda: self.state() == "refused", "an empty grid is refused")
        self.assertIn("all are 0", self.text("#grid .fault-text"))
        self.one("#grid-1-20").click()
        for hour in range(1, 25):  # Enter goes to the next end hour
            self.assertEqual(self.focused(), "#grid-%d-20" % hour)
            self.press(str(hour), *([Keys.ENTER] if hour < 24 else []))
            self.assertEqual(self.text("#grid-%d-sum" % hour), str(hour))
        self.assertEqual(self.text("#grid-sum"), "300")
        self.wait(lambda: self.state() == "accepted", "the filled grid is accepted")
        self.assertIn("version 2", self.text("#told"))

    def test_a_dropped_sheet_fills_the_form(self):
        self.open("/form")
        self.drop([SAMPLES / "survey.evp"])
        self.wait(lambda: self.one("#name").get_attribute("value") == "survey" and self.state() == "accepted", "survey")
        self.assertEqual(self.text("#grid-sum"), "21,108")
        self.one("#save").click()
        self.assertEqual(self.downloaded("survey.evp"), (SAMPLES / "survey.evp").read_bytes())

    def test_dropped_tables_fill_the_form_with_their_mistakes(self):
        self.open("/form")
        self.drop(list((SAMPLES / "afternoon").glob("*.csv")))
        self.wait(lambda: self.text("#durations-sum") == "982" and self.state() == "refused", "the tables")
        self.assertEqual(self.one("#row-0-trips").get_attribute("value"), "4,80")  # which can mean one thing here
        self.assertIn("Row 2 (newer cars): load 70.0 g is above m_sat 60.0 g; write at most 60.0", self.text("#told"))

    def test_the_guidebooks_tables_by_one_click(self):
        self.open("/form")
        self.one("#guidebook").click()
        self.assertEqual((self.text("#durations-sum"), self.text("#hours-sum")), ("982", "998"))

    def test_rows_are_added_copied_and_taken_out(self):
        self.open("/form")
        self.one("#example").click()
        self.wait(lambda: self.state() == "accepted", "the example is accepted")
        self.all("#row-table .copy")[1].click()
        self.assertEqual(self.focused(), "#row-2-vehicles")
        self.wait(lambda: "rows 2, 3: these rows are alike" in self.text("#doubts"), "a doubt about two rows alike")
        self.all("#row-table .drop-line")[2].click()
        self.wait(lambda: self.text("#doubts") == "", "no doubt")
        self.assertEqual(len(self.all("#row-table tr.record")), 4)


class TestParking(BrowserTestCase):

    def test_end_hours_are_filled_one_after_another(self):
        self.look(1024, 768)
        self.open("/parking")
        self.one("form:not(.drop) button").click()
        self.wait(lambda: "21,108 parkings" in self.text("h1"), "the parkings of the survey")
        foot = self.run_script("return document.querySelectorAll('.key')[1].getBoundingClientRect().bottom")
        self.assertLess(foot, 768)  # a projector shows the maps with their keys
        slider = self.one("#end")
        slider.send_keys(Keys.HOME)
        for hour in range(1, 25):
            later = self.run_script("return document.querySelectorAll('.hm')[0].querySelectorAll('g.later').length")
            self.assertEqual(later, 24 - hour)
            self.assertTrue(self.text("#tell").startswith("Up to end hour %d:" % hour))
            if hour == 17:
                self.run_script("scrollTo(0, 0); document.activeElement.blur()")
                self.picture("parking")
            slider.send_keys(Keys.ARROW_RIGHT)
        self.assertIn("21,108 of 21,108 parkings, mean so far 3.4210 g", self.text("#tell"))
        self.one("#play").click()
        self.wait(lambda: self.text("#tell").startswith("Up to end hour 2:"), "play goes on")
        self.one("#play").click()

    def test_a_parking_on_a_day(self):
        self.open("/day")
        self.one("form:not(.drop) button").click()
        self.wait(lambda: "A day’s temperature" in self.text("h1"), "the day")
        self.assertIn("8:30 to 17:00 in season 3: 11 of 17 half-hours rise, by 7.6 °C", self.text("#tell"))
        self.one("#end").send_keys(Keys.HOME)
        self.assertIn("16:30 to 1:00 in season 3: 0 of 17 half-hours rise", self.text("#tell"))


class TestKeyboard(BrowserTestCase):

    def test_everything_by_keyboard(self):
        """From the first page to a class, a sheet, its form and a saved sheet, without a mouse."""
        self.open("/")
        self.tab_to("Class")
        self.press(Keys.ENTER)
        self.wait(lambda: self.text("h1") == "Mark a class", "the page that asks")
        self.tab_to("Show an example")
        self.press(Keys.ENTER)
        self.wait(lambda: "sheets to look at" in self.text("h1"), "the class")
        self.tab_to("#every")
        self.press(Keys.ARROW_RIGHT)
        self.assertTrue(self.one("#only").is_selected())
        self.tab_to("heath")
        self.press(Keys.ENTER)
        self.tab_to("The page of heath")
        self.press(Keys.ENTER)
        self.wait(lambda: self.text("h1").startswith("heath.evp"), "the page of the sheet")
        self.tab_to("Mend it in the form")
        self.press(Keys.ENTER)
        self.wait(lambda: self.one("#told").get_attribute("data-state") == "refused", "the form")
        self.tab_to("#to-fault")
        self.press(Keys.ENTER)
        self.assertEqual(self.focused(), "#row-2-trips")
        self.press(*(Keys.BACKSPACE * 5), *"5.10")
        self.wait(lambda: self.one("#told").get_attribute("data-state") == "accepted", "accepted")
        self.press(Keys.ENTER)  # within a field it saves nothing
        self.one("body").send_keys(Keys.HOME)
        self.run_script("document.getElementById('main').focus()")
        self.tab_to("#save")
        self.press(Keys.ENTER)
        self.assertIsNone(library.load().check(self.downloaded("heath.evp")))

    def test_the_skip_link_comes_first(self):
        self.open("/sheet")
        self.press(Keys.TAB)
        self.assertEqual(self.focused(), "Skip to the page")
        self.press(Keys.ENTER)
        self.assertEqual(self.focused(), "#main")


class TestLooks(BrowserTestCase):

    def shown(self):
        """Every page, one after another."""
        self.open("/")
        self.drop([COURSE / "heath.evp"])
        self.wait(lambda: self.text("h1").startswith("heath"), "a refused sheet")
        yield "refused"
        for name in ("", "form", *ASKS):
            self.open("/" + name)
            yield "/" + name
        for name in ("survey", "course/heath"):
            self.open("/form")
            self.drop([SAMPLES / (name + ".evp")])
            self.wait(lambda: self.one("#told").get_attribute("data-state") in ("accepted", "refused"), name)
            yield "form of " + name
        for name in ASKS:
            self.open("/" + name)
            self.one("form:not(.drop) button").click()
            self.wait(lambda: not self.all("form.drop"), "the example of " + name)
            self.run_script("document.querySelectorAll('details').forEach(function (more) { more.open = true; })")
            yield name

    def test_nothing_is_cut_off_and_all_can_be_read(self):
        seen = 0
        for name in self.shown():
            seen += self.check_looks(name)
            self.check_paper(name)
        self.assertGreater(seen, 30_000)
        print("contrast and layout of %d texts" % seen)

    def test_extremes(self):
        """A sheet of 1,000 rows and 12 seasons, one without vehicles, and names that are long or have markup."""
        with tempfile.TemporaryDirectory() as folder:
            for name, html in extremes().items():
                path = Path(folder) / (name + ".html")
                path.write_text(html, encoding="utf-8")
                self.open(path.as_uri())
                self.check_looks(name)
                self.check_paper(name)


class TestWithoutScript(BrowserTestCase):

    def tearDown(self):
        self.browser.execute_cdp_cmd("Emulation.setScriptExecutionDisabled", {"value": False})
        super().tearDown()

    def test_files_are_sent_and_names_open(self):
        self.browser.execute_cdp_cmd("Emulation.setScriptExecutionDisabled", {"value": True})
        self.open("/class")
        files = [str(path) for path in (*COURSE.glob("*.evp"), COURSE / "filed.csv")]
        self.one("#files").send_keys("\n".join(files))
        self.one("form.drop button").click()
        self.wait(lambda: "14 of 30" in self.text("h1"), "the class")
        self.one("tr.p th a").click()
        self.assertTrue(self.one("tr.more").is_displayed())
