"""The form in a real browser: a country pasted from a spreadsheet, reloaded, mended and saved as a workbook; and Back
from every result."""

import os
import time
from operator import truediv

from driving import SAMPLES, ActionChains, BrowserTestCase, Keys

from evp import layout, library
from evp.pages import forms
from evp.pages.asks import ASKS
from evp.sheet import books

ANSWER = 0.3  # seconds, in which a form of 1,000 rows answers a change
TRIES = 15  # where other programs keep the machine busy
HEADER = "name\tclass\ttechnology\tcanister\tcarburettor\thot\tfill\ttank\tvehicles\ttrips\tminutes\tload\tm_sat"


def fleet(rows: int) -> str:
    """Rows as a spreadsheet with a decimal comma has them on its clipboard."""
    line = "region %d\tcar < 1.4 l\tEuro %d\t\t20\t%d\t45\t\t%d\t4,80\t12\t20,5\t40,0"
    lines = [line % (i, 1 + i % 2, i % 97, 900 + i) for i in range(1, rows + 1)]
    return "\r\n".join([HEADER, *lines]) + "\r\n"


class FormTestCase(BrowserTestCase):

    def state(self) -> str:
        return self.one("#told").get_attribute("data-state")

    def value(self, id: str) -> str:
        return self.run_script("return document.getElementById(arguments[0]).value", id)

    def paste(self, id: str, text: str):
        """What the clipboard has, into a field."""
        self.run_script("""
            var field = document.getElementById(arguments[0]), held = new DataTransfer();
            held.setData("text/plain", arguments[1]);
            field.focus();
            var how = {clipboardData: held, bubbles: true, cancelable: true};
            field.dispatchEvent(new ClipboardEvent("paste", how));""", id, text)

    def chord(self, key: str):
        """A key with Ctrl."""
        ActionChains(self.browser).key_down(Keys.CONTROL).send_keys(key).key_up(Keys.CONTROL).perform()

    def rows(self) -> int:
        return self.run_script("return document.querySelectorAll('#row-table tr.record').length")

    def accepted(self, what: str):
        self.wait(lambda: self.state() == "accepted", what)


class TestWorkbench(FormTestCase):

    def paste_country(self):
        self.open("/form")
        self.paste("season-0-name", "winter\t182\t\u22122,0\t9,5\t90,0\nsummer\t183\t14,5\t29,0\t60,0\n")
        self.paste("durations-1", "\n".join(forms.GUIDEBOOK["durations"]))
        keyed = ["%d\t%s" % (hour, count) for hour, count in enumerate(forms.GUIDEBOOK["hours"], 1)]
        self.paste("hours-1", "\n".join(keyed))
        self.paste("row-0-class", fleet(60))

    def test_a_country_is_pasted_reloaded_mended_and_saved(self):
        self.paste_country()
        self.accepted("sixty rows with the guidebook's lists")
        self.assertIn("version 4", self.text("#told"))
        self.assertEqual((self.rows(), self.text("#durations-sum"), self.text("#hours-sum")), (60, "982", "998"))
        self.one("#row-30-trips").clear()
        self.one("#row-30-trips").send_keys("31")
        self.wait(lambda: self.state() == "refused", "too many trips")
        self.assertIn("Row 31 (region 31): trips 31.00 a day", self.text("#told"))
        time.sleep(0.2)  # a draft is kept a moment later
        self.browser.refresh()
        self.wait(lambda: self.state() == "refused", "the draft")
        self.assertRegex(self.text("#restored"), r"^A draft of \d\d:\d\d was restored\.")
        self.assertEqual((self.rows(), self.value("row-59-name")), (60, "region 60"))
        self.one("#row-30-trips").clear()
        self.one("#row-30-trips").send_keys("4.80")
        self.accepted("mended")
        self.run_script("document.getElementById('name').value = 'country'")
        self.one("#save-xlsx").click()
        made = books.book_of(self.downloaded("country.xlsx"), "country.xlsx")
        self.assertEqual((made.names.seasons, made.names.row(59)), (["winter", "summer"], "region 60"))
        data = made.data()
        self.assertIsNone(library.load().check(data))
        self.assertEqual((layout.row_count(data), layout.row(data, 59)["load"]), (60, 205))
        self.one("#open-page").click()
        self.wait(lambda: self.text("h1").startswith("country.evp"), "its page")
        self.assertIn("region 60: cars below 1.4 l", self.text("body"))
        self.browser.back()
        self.accepted("Back to the form, with its draft")
        self.assertEqual((self.rows(), self.value("row-59-name")), (60, "region 60"))
        self.one("#start-anew").click()
        self.wait(lambda: self.state() == "empty", "anew")

    def test_paste_from_any_cell_undo_and_redo(self):
        self.open("/form")
        self.one("#example").click()
        self.accepted("the example")
        self.paste("row-1-trips", "1,5\t20\n2,5\t30\n3,5\t40\n4,5\t50")
        self.wait(lambda: self.rows() == 5, "a row more")
        self.assertEqual([self.value("row-%d-trips" % i) for i in range(5)], ["4.80", "1,5", "2,5", "3,5", "4,5"])
        self.assertEqual(self.value("row-4-minutes"), "50")
        self.one("#undo").click()
        self.wait(lambda: self.rows() == 4 and self.value("row-1-trips") == "5.10", "undone")
        self.chord("y")
        self.wait(lambda: self.rows() == 5 and self.value("row-1-trips") == "1,5", "done again")
        self.chord("z")
        self.wait(lambda: self.rows() == 4, "undone by keys")
        self.one("#row-0-trips").send_keys("1")
        self.chord("z")
        self.wait(lambda: self.value("row-0-trips") == "4.80", "what was typed is undone")

    def test_emptying_is_asked_for(self):
        self.open("/form")
        self.one("#empty").click()  # nothing to lose, and no question
        self.one("#example").click()
        self.accepted("the example")
        self.one("#empty").click()
        self.browser.switch_to.alert.dismiss()
        self.assertEqual(self.rows(), 4)
        self.one("#empty").click()
        self.browser.switch_to.alert.accept()
        self.wait(lambda: self.state() == "empty", "emptied")
        self.one("#undo").click()
        self.accepted("brought back")

    def test_results_now_and_before(self):
        self.open("/form")
        self.one("#example").click()
        self.accepted("the example")
        self.assertRegex(self.text("#result"), r"^Total [\d.]+ t$")
        self.one("#season-1-vp").clear()
        self.one("#season-1-vp").send_keys("70")
        self.wait(lambda: "before" in self.text("#result"), "the change")
        self.assertRegex(self.text("#result"), r"^Total [\d.]+ t, before [\d.]+ t \(\+[\d.]+ %\)$")
        form = {**forms.example_form()}
        form["seasons"][1]["vp"] = "70"
        total = forms.check_form(library.load(), forms.form_of(form))["results"][-1]["masses"][0]["text"]
        self.assertIn("Total %s," % total, self.text("#result"))
        self.one("#results summary").click()
        self.assertEqual(len(self.all("#results-body tr")), 13)
        self.one("#before").click()
        self.assertEqual(self.text("#result"), "Total %s" % total)

    def test_doubts_with_what_they_do(self):
        self.open("/form")
        self.one("#example").click()
        self.accepted("the example")
        for id in ("row-1-load", "row-1-saturation"):
            self.one("#" + id).clear()
        self.wait(lambda: "row 2: m_sat is 0" in self.text("#doubts"), "the doubt")
        self.assertRegex(self.text("#doubts"), r"the total is [\d.]+ t, and [\d.]+ t with the largest m_sat")

    def test_the_header_stays_and_five_digits_fit(self):
        self.paste_country()
        self.accepted("the country")
        self.run_script("document.querySelector('.scroll.tall').scrollTop = 900")
        places = self.run_script("""
            var box = document.querySelector(".scroll.tall").getBoundingClientRect();
            return [document.querySelector("#row-table .c-trips").getBoundingClientRect().top - box.top,
                    document.querySelector("#row-0-trips").getBoundingClientRect().top - box.top];""")
        self.assertLess(abs(places[0]), 2)
        self.assertLess(places[1], -500)
        self.run_script("document.querySelector('[name=kind][value=grid]').click()")
        self.paste("grid-3-4", "65535\t27300\n12345\t54321")
        self.assertEqual(self.text("#grid-3-sum"), "92,835")
        self.assertLessEqual(*self.run_script(
            "var cell = document.getElementById('grid-3-4'); return [cell.scrollWidth, cell.clientWidth];"))

    def loop(self) -> float:
        """How many seconds a loop takes in the browser: how fast the machine is at this moment."""
        return self.run_script("""
            var start = performance.now(), sum = 0;
            for (var i = 0; i < 5000000; i++) sum = (sum + i * i) % 1000003;
            return performance.now() - start + 0 * sum;""") / 1_000

    def test_a_thousand_rows_answer_a_change(self):
        """In time on a quiet machine. Where others keep it busy, or where a loop just before an answer took longer than
        its quickest time, the answer may take so many times longer."""
        self.paste_country()
        self.paste("row-0-class", fleet(1_000))
        self.wait(lambda: self.rows() == 1_000 and self.state() == "accepted" and "25,176 bytes" in self.text("#told"),
                  "1,000 rows")
        self.loop()  # is compiled
        times, loops = [], []
        for i in range(TRIES):
            loops.append(self.loop())
            self.browser.set_script_timeout(60)
            times.append(self.browser.execute_async_script("""
                var done = arguments[1], field = document.getElementById("row-500-vehicles"), start = performance.now();
                var told = document.getElementById("told");
                new MutationObserver(function (_, watch) { watch.disconnect(); done(performance.now() - start); })
                  .observe(told, {childList: true});
                field.value = String(2000 + arguments[0]);
                field.dispatchEvent(new Event("input", {bubbles: true}));""", i) / 1_000)
            if times[-1] < ANSWER and i > 1 or sum(times) > 15:
                break
            time.sleep(0.6)  # the doubts are asked for meanwhile
        busy = os.getloadavg()[0] / (os.cpu_count() or 1)  # programs for each processor
        slower = [max(busy, seconds / min(loops)) for seconds in loops]
        print("a form of 1,000 rows answers in %s s, where the machine is %s times slower than a quiet one" % tuple(
            ", ".join("%.2f" % each for each in found) for found in (times, slower)))
        self.assertLess(min(map(truediv, times, slower)), ANSWER)


class TestBack(BrowserTestCase):

    def test_back_from_every_result(self):
        for name in ASKS:
            self.open("/" + name)
            title = self.text("h1")
            self.one("form:not(.drop) button").click()
            self.wait(lambda: "?kept=" in self.browser.current_url, "the result of " + name)
            result = self.text("h1")
            self.browser.refresh()  # without a question whether to send the files again
            self.assertEqual(self.text("h1"), result)
            self.browser.back()
            self.wait(lambda: self.text("h1") == title, "Back from " + name)
            self.browser.forward()
            self.wait(lambda: self.text("h1") == result, "forward to " + name)

    def test_from_a_sheet_to_its_day_and_back(self):
        self.open("/")
        self.drop([SAMPLES / "region.evp"])
        self.wait(lambda: self.text("h1").startswith("region.evp"), "the sheet")
        next(button for button in self.all("button") if button.text == "a day").click()
        self.wait(lambda: "/day?kept=" in self.browser.current_url, "the day")
        self.browser.back()
        self.wait(lambda: self.text("h1").startswith("region.evp"), "Back to the sheet")

    def test_what_is_gone_is_said(self):
        self.open("/sheet?kept=gone")
        self.assertIn("is no longer kept: a result stays for 2 hours", self.text("#message"))
        self.browser.get_log("browser")  # the browser notes the status 410
