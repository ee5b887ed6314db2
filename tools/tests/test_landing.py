"""The check's time before and after a change: which crates are timed, and the table."""

import tempfile
import unittest
from pathlib import Path

from tools import landing
from tools.landing import Row

LIST = """\
# The crates, lowest first.
numbers:
bounds: numbers
sheet: numbers bounds   # a comment
# Programs.
report: sheet json
text:
"""
FILES = {
    "crates/numbers/src/lib.rt": "1", "crates/bounds/src/lib.rt": "2", "crates/bounds/must-fail/low.edit": "3",
    "crates/sheet/specs/Limits.antt": "4", "crates/report/src/main.rt": "5", "crates/text/src/lib.rt": "6",
}


def state(files: dict[str, str] | None = None, text: str = LIST) -> landing.State:
    return landing.state_of(text, {**FILES, **(files or {})}.items())


class ChangedTest(unittest.TestCase):
    """Which crates a change touches."""

    def test_lines(self):
        self.assertEqual(landing.read_lines(LIST)["sheet"], ["numbers", "bounds"])
        self.assertEqual(landing.read_lines(LIST)["report"], ["sheet", "json"])
        self.assertEqual(len(landing.read_lines(LIST)), 5)

    def test_needs_leave_out_the_kit(self):
        self.assertEqual(state().needs("report"), ["sheet"])

    def test_nothing_changed(self):
        self.assertEqual(landing.changed(state(), state()), [])

    def test_files(self):
        for path in FILES:
            names = [] if "must-fail" in path else [path.split("/")[1]]
            self.assertEqual(landing.changed(state(), state({path: "7"})), names, path)
        self.assertEqual(landing.changed(state(), state({"crates/report/stdout": "7", "crates/text/out/x": "7"})), [])

    def test_moved_file(self):
        moved = {**FILES, "crates/text/specs/lib.rt": FILES["crates/text/src/lib.rt"]}
        del moved["crates/text/src/lib.rt"]
        self.assertEqual(landing.changed(state(), landing.state_of(LIST, moved.items())), ["text"])

    def test_line(self):
        after = state(text=LIST.replace("report: sheet", "report: sheet text"))
        self.assertEqual(landing.changed(state(), after), ["report"])

    def test_static_library(self):
        after = state(text=LIST.replace("text:", "text staticlib: numbers"))
        self.assertEqual(after.lines["text"], ["staticlib", "numbers"])
        self.assertEqual(after.needs("text"), ["numbers"])
        self.assertEqual(landing.changed(state(text=LIST.replace("text:", "text: numbers")), after), ["text"])

    def test_comment_is_no_change(self):
        self.assertEqual(landing.changed(state(), state(text=LIST.replace("a comment", "another"))), [])

    def test_new_and_removed(self):
        after = state({"crates/lines/src/lib.rt": "8"}, LIST.replace("text:", "lines: numbers"))
        self.assertEqual(landing.changed(state(), after), ["lines", "text"])


class OrderTest(unittest.TestCase):
    """What is proved first, and what a proof may be reused for."""

    def test_lowest_first(self):
        self.assertEqual(landing.ordered(["report"], state()), ["numbers", "bounds", "sheet", "report"])

    def test_list_in_another_order(self):
        turned = state(text="\n".join(reversed(LIST.splitlines())))
        self.assertEqual(landing.ordered(["report"], turned), ["numbers", "bounds", "sheet", "report"])

    def test_each_crate_is_visited_once(self):
        tower = "".join("c%d: %s\n" % (i, " ".join("c%d" % below for below in range(i))) for i in range(60))
        names = ["c%d" % i for i in range(60)]
        self.assertEqual(landing.ordered(["c59"], landing.state_of(tower, [])), names)

    def test_keys_follow_what_a_crate_depends_on(self):
        before, after = landing.keys_of(state()), landing.keys_of(state({"crates/bounds/src/lib.rt": "7"}))
        self.assertEqual([name for name in before if before[name] != after[name]], ["bounds", "sheet", "report"])


class CheckTest(unittest.TestCase):
    """The command of a check, and the seconds that are kept in a folder."""

    def test_words(self):
        words = landing.check_words(Path("/kit"), "report", state(), True)
        self.assertEqual(words[:5], ["/kit/bin/rattle", "check", "--crate-name", "report", "src/main.rt"])
        pairs = list(zip(words[5::2], words[6::2]))
        self.assertEqual([said for word, said in pairs if word == "--extern"], [
            "std=/kit/rlibs/std.rlib", "sheet=../sheet/out/rlib/sheet.rlib", "json=/kit/rlibs/json.rlib"])
        self.assertEqual([said for word, said in pairs if word == "-L"], [
            *("dependency=../%s/out/rlib" % name for name in ("numbers", "bounds", "sheet")),
            "dependency=/kit/rlibs"])
        self.assertNotIn("--incremental", words)
        static = landing.check_words(Path("/kit"), "text", state(text=LIST.replace("text:", "text staticlib:")), False)
        self.assertEqual((static[4], static[-2:]), ("src/lib.rt", ["--crate-type", "staticlib"]))

    def test_kept(self):
        with tempfile.TemporaryDirectory() as name:
            records = landing.Records(Path(name))
            records.add("key", 12.345)
            records.add("key", 11)
            again = landing.Records(Path(name))
            self.assertEqual((again.taken("key"), again.taken("other")), ([12.35, 11], []))


class TableTest(unittest.TestCase):
    """What is printed."""

    def test_table(self):
        rows = [Row("bounds", 8.04, 8.26), Row("pool", None, 13), Row("lines", 1.5, None)]
        self.assertEqual(landing.table(rows).splitlines(), [
            "| Crate | Before | After |", "|---|---|---|", "| bounds | 8.0 | 8.3 |", "| pool | new | 13.0 |",
            "| lines | 1.5 | removed |", "| together | 9.5 | 21.3 |",
        ])

    def test_seconds_of_children(self):
        spin = "import time\nwhile time.process_time() < 0.3: pass\nprint('done')"
        seconds, printed = landing.spent(["python3", "-c", spin], Path.cwd())
        self.assertGreaterEqual(seconds, 0.29)
        self.assertEqual(printed, "done\n")

    def test_command_that_fails(self):
        with self.assertRaisesRegex(landing.LandingError, "status 3:\nlast words"):
            landing.spent(["sh", "-c", "echo last words; exit 3"], Path.cwd())


if __name__ == "__main__":
    unittest.main()
