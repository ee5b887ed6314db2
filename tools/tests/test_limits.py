"""The limits of a sheet and the numbers of its refusals stand alike in definitions, desk, header and document."""

import re
import unittest

from tools.check.figures import constants
from tools.command import TOP
from tools.sheet import MEANINGS, layout

from evp import explain  # behind tools.sheet, which says where it is

LIMITS = constants("crates/sheet/specs/Limits.antt") | constants("crates/shared_ledger/specs/Opening.antt")


class LimitsTest(unittest.TestCase):
    """What the desk takes for the limits, against the definitions."""

    def test_desk(self):
        self.assertEqual(layout.MOST_ROWS, LIMITS["rows_limit"])
        for name in ("days", "vp", "tank", "vehicles", "trips", "minutes", "mileage"):
            self.assertEqual(layout.FIELDS[name].most, LIMITS[name + "_limit"], name)
        for name in ("carburettor", "hot", "fill"):
            self.assertEqual(layout.FIELDS[name].most, LIMITS["percent_limit"], name)
        for name in ("lowest", "highest"):
            field = layout.FIELDS[name]
            self.assertEqual((field.least, field.most), (-LIMITS["cold_limit"], LIMITS["warm_limit"]))
        self.assertEqual(layout.FIELDS["vp"].least, LIMITS["vp_least"])


class NumbersTest(unittest.TestCase):
    """The table of docs/SHEET.md has every number of the header."""

    def test_numbers(self):
        header = (TOP / "include" / "evaporation.h").read_text(encoding="utf-8")
        enum = header.partition("enum evp_number")[2].partition("};")[0]
        named = {int(number) for number in re.findall(r"^ +EVP_\w+ = (\d+)", enum, re.M)} - {0}
        page = (TOP / "docs" / "SHEET.md").read_text(encoding="utf-8").partition("## Where a sheet stops\n")[2]
        rows = re.findall(r"^\| [^|]+ \| ([\d, ]+) \|", page.partition("\n## ")[0], re.M)
        told = {int(number) for row in rows for number in row.split(", ")}
        self.assertEqual(told, named)
        self.assertGreater(len(told), 31)


def header_comments() -> dict[int, str]:
    """What stands beside the numbers of the header's enum."""
    header = (TOP / "include" / "evaporation.h").read_text(encoding="utf-8")
    enum = header.partition("enum evp_number")[2].partition("};")[0]
    return {int(number): re.sub(r"\s*\* |\s+", " ", text)
            for number, text in re.findall(r"EVP_\w+ = (\d+),? */\*(.*?)\*/", enum, re.S)}


def header_texts() -> dict[int, str]:
    """What the header's evp_number_text says of each number."""
    header = (TOP / "include" / "evaporation.h").read_text(encoding="utf-8")
    numbers = dict(re.findall(r"(EVP_\w+) = (\d+)", header.partition("enum evp_number")[2].partition("};")[0]))
    said = re.findall(r'case (EVP_\w+):\s+return "([^"]*)"', header.partition("evp_number_text")[2].partition("\n}")[0])
    return {int(numbers[name]): text for name, text in said}


def rust_texts() -> dict[int, str]:
    """What the crate for Rust says of each number."""
    source = (TOP / "bindings" / "rust" / "src" / "refusal.rs").read_text(encoding="utf-8")
    return {int(number): text for number, text in re.findall(r'^ +\w+ = (\d+), \w+,\s+"([^"]*)";', source, re.M)}


def said_limits() -> dict[int, tuple[str, ...]]:
    """The limits that a refusal is told with, by its number, as they are written there."""
    whole = {name: "{:,}".format(limit) for name, limit in LIMITS.items()}
    tenths = {name: "%.1f" % (limit / 10) for name, limit in LIMITS.items()}
    trips = "%.2f trips" % (LIMITS["trips_limit"] / 100)
    return {
        3: ("1 to " + whole["version_limit"],), 4: ("1 to " + whole["seasons_limit"],),
        5: ("1 to " + whole["rows_limit"], "1 to " + whole["many_rows_limit"]), 8: (whole["counts_limit"],),
        9: (whole["counts_limit"],), 24: (whole["grid_limit"],), 10: (whole["days_limit"],),
        11: ("-" + tenths["cold_limit"], tenths["warm_limit"]), 12: (tenths["vp_least"] + " to " + tenths["vp_limit"],),
        15: (whole["percent_limit"],), 16: (whole["vehicles_limit"],), 26: (whole["fleet_limit"],),
        17: (tenths["tank_limit"],), 18: (trips, whole["minutes_limit"] + " minutes"),
        25: (whole["mileage_limit"] + " km",), 31: (whole["rows_each"] + " rows", whole["vehicles_each"] + " vehicles"),
    }


class WordsTest(unittest.TestCase):
    """Where a refusal is told in words, its limits are those of the definitions."""

    def test_limits(self):
        for place, texts in (("the header's comments", header_comments()), ("evp_number_text", header_texts()),
                             ("bindings/rust", rust_texts()), ("tools/sheet/meanings.py", MEANINGS)):
            self.assertGreaterEqual(len(texts), 24, place)
            for number, limits in said_limits().items():
                if number == 31 and place == "tools/sheet/meanings.py":  # of a sheet alone
                    continue
                for limit in limits:
                    with self.subTest(place=place, number=number):
                        self.assertRegex(texts[number], r"(?<![\d.,])%s(?!,?\d)" % re.escape(limit))

    def test_calls(self):
        """Of the desk's words for a call that is refused."""
        self.assertIn("{:,} rows".format(LIMITS["many_rows_limit"]), explain.CALLS[5])
        self.assertIn("{:,} vehicles".format(LIMITS["fleet_limit"]), explain.CALLS[26])
        for limit in said_limits()[31]:
            self.assertIn(limit, explain.CALLS[31])


if __name__ == "__main__":
    unittest.main()
