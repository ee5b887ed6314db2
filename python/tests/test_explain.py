"""Refusals in words: every number and reason, and damaged sheets against the check and their own bytes."""

import json
import random
import unittest
from collections.abc import Iterator
from decimal import Decimal

from support import CAR, GRID_TEXT, LIBRARY, LISTS, SEASONS, TEXT, DeskTestCase, grid, run, sample

from evp import layout, sheet
from evp.explain import CALLS, REASONS, Explanation, explain
from evp.library import Finding, Number
from tools import reckoning
from tools.reckoning import findings

JSON_KEYS = ["file", "number", "place", "reason", "record", "index", "field", "at", "bytes", "value", "least", "most",
             "unit", "text"]
TEN_MILLION = "row class=1 technology=0 vehicles=10000000\n"


def changed(old: str, new: str, text: str = TEXT) -> str:
    """A text with one thing changed in it."""
    assert old in text, old
    return text.replace(old, new, 1)


# Number and reason, a text whose sheet has it, and what is said.
CASES = (
    ((1, 1), TEXT + "cut 5", """
refused 1 at 0: sheet
  5 bytes, and a sheet has at least 8 for its head
  is this the right file?
"""),
    ((1, 1), TEXT + "cut 0", """
refused 1 at 0: sheet
  the file is empty
  take the sheet again
"""),
    ((2, 1), TEXT + "letters 4f5650", """
refused 2 at 0: head (bytes 0 to 7)
  a sheet starts with EVP (45 56 50 hexadecimal), this one with 4f 56 50
  is this the right file?
"""),
    ((2, 2), TEXT + "letters 455750", """
refused 2 at 0: head (bytes 0 to 7)
  a sheet starts with EVP (45 56 50 hexadecimal), this one with 45 57 50
  is this the right file?
"""),
    ((2, 3), TEXT + "letters 455651", """
refused 2 at 0: head (bytes 0 to 7)
  a sheet starts with EVP (45 56 50 hexadecimal), this one with 45 56 51
  is this the right file?
"""),
    ((3, 1), TEXT + "version 5", """
refused 3 at 3: head (bytes 0 to 7)
  version 5 (bytes 3 to 4) is none that is read
  write 1, 2, 3 or 4
"""),
    ((3, 1), TEXT + "version 256", """
refused 3 at 3: head (bytes 0 to 7)
  version 256 (bytes 3 to 4) is none that is read
  write 1, 2, 3 or 4; the lowest byte comes first, so 1 is 01 00
"""),
    ((4, 1), TEXT + "seasons 13", """
refused 4 at 5: head (bytes 0 to 7)
  13 seasons (byte 5); a sheet has 1 to 12
  write at most 12 seasons
"""),
    ((5, 1), TEXT + "rows 0", """
refused 5 at 6: head (bytes 0 to 7)
  0 rows (byte 6); a sheet has 1 to 32 in version 1
  write at least one row
"""),
    ((5, 1), TEXT + "rows 40", """
refused 5 at 6: head (bytes 0 to 7)
  40 rows (byte 6); a sheet has 1 to 32 in version 1
  write at most 32 rows; more need version 4, which has a grid
"""),
    ((6, 1), TEXT + "zero 1", """
refused 6 at 7: head (bytes 0 to 7)
  byte 7 is 1, and it must be 0 up to version 3
  write 0; more than 255 rows need version 4
"""),
    ((7, 1), TEXT + "cut 150", """
refused 7 at 0: sheet
  150 bytes, and the head asks for 168: 18 are missing
  head: version 1, 2 seasons, 2 rows
  take the whole file again
"""),
    ((7, 1), TEXT + "tail 00", """
refused 7 at 0: sheet
  169 bytes, and the head asks for 168: 1 too many
  head: version 1, 2 seasons, 2 rows
  take the whole file again
"""),
    ((7, 1), TEXT + "version 2", """
refused 7 at 0: sheet
  168 bytes, and the head asks for 1,224: 1,056 are missing
  head: version 2, 2 seasons, 2 rows
  it is as long as a sheet of version 1: look at bytes 3 and 4
"""),
    ((7, 1), TEXT + "rows 3", """
refused 7 at 0: sheet
  168 bytes, and the head asks for 192: 24 are missing
  head: version 1, 2 seasons, 3 rows
  it is as long as a sheet with 2 rows: look at byte 6, or take the whole file again
"""),
    ((7, 1), GRID_TEXT + "version 4\nrows 300", """
refused 7 at 0: sheet
  1,224 bytes, and the head asks for 8,376: 7,152 are missing
  head: version 4, 2 seasons, 300 rows
  it is as long as a sheet with 2 rows: look at bytes 6 and 7, or take the whole file again
"""),
    ((7, 1), TEXT + "tail " + "00" * 24 * 31, """
refused 7 at 0: sheet
  912 bytes, and the head asks for 168: 744 too many
  head: version 1, 2 seasons, 2 rows
  take the whole file again
"""),
    ((8, 1), changed("durations 420", "durations 4200"), """
refused 8 at 8: parking (bytes 8 to 103)
  the counts of the 24 durations (bytes 8 to 55): they sum to 4,490
  write counts that sum to 1 to 1,000
"""),
    ((9, 1), changed("hours" + " 10" * 24, "hours" + " 0" * 24), """
refused 9 at 56: parking (bytes 8 to 103)
  the counts of the 24 end hours (bytes 56 to 103): all are 0
  write counts that sum to 1 to 1,000
"""),
    ((24, 1), grid(0) + SEASONS + CAR, """
refused 24 at 8: parking (bytes 8 to 1159)
  the 576 counts of the grid (bytes 8 to 1159): all are 0
  write counts that sum to 1 to 1,000,000
"""),
    ((10, 1), changed("days=182", "days=400"), """
refused 10 at 104: season 1 (bytes 104 to 111)
  days 400 (bytes 104 to 105) is above 366
  write 1 to 366
"""),
    ((10, 2), changed("days=183", "days=200"), """
refused 10 at 112: season 2 (bytes 112 to 119)
  its 200 days (bytes 112 to 113) and the 182 of the seasons before are 382 days, and a year has at most 366
  write at most 184 here
"""),
    ((10, 2), LISTS + SEASONS.replace("182", "366") + CAR, """
refused 10 at 112: season 2 (bytes 112 to 119)
  its 183 days (bytes 112 to 113) and the 366 of the seasons before are 549 days, and a year has at most 366
  the seasons before have all days of a year: leave this one out
"""),
    ((11, 1), changed("lowest=-2.0", "lowest=-31.0"), """
refused 11 at 104: season 1 (bytes 104 to 111)
  lowest -31.0 °C (bytes 106 to 107) is below -30.0 °C
  write -30.0 to 50.0
"""),
    ((11, 2), changed("highest=29.0", "highest=84.0"), """
refused 11 at 112: season 2 (bytes 112 to 119)
  highest 84.0 °C (bytes 116 to 117) is above 50.0 °C
  write -30.0 to 50.0; if 84.0 is in °F, it is 28.9 °C
"""),
    ((11, 3), changed("lowest=14.5", "lowest=29.1"), """
refused 11 at 112: season 2 (bytes 112 to 119)
  lowest 29.1 °C (bytes 114 to 115) is above highest 29.0 °C (bytes 116 to 117)
  write at most 29.0, or a highest of 29.1 to 50.0
"""),
    ((12, 1), changed("vp=60.0", "vp=9.0"), """
refused 12 at 112: season 2 (bytes 112 to 119)
  vp 9.0 kPa (bytes 118 to 119) is below 30.0 kPa
  write 30.0 to 110.0; if 9.0 is in psi, it is 62.1 kPa
"""),
    ((12, 1), changed("vp=60.0", "vp=600.0"), """
refused 12 at 112: season 2 (bytes 112 to 119)
  vp 600.0 kPa (bytes 118 to 119) is above 110.0 kPa
  write 30.0 to 110.0; if 600.0 is in hPa, it is 60.0 kPa
"""),
    ((12, 1), changed("vp=60.0", "vp=2000.0"), """
refused 12 at 112: season 2 (bytes 112 to 119)
  vp 2000.0 kPa (bytes 118 to 119) is above 110.0 kPa
  write 30.0 to 110.0
"""),
    ((13, 1), changed("class=2", "class=12"), """
refused 13 at 144: row 2 (bytes 144 to 167)
  class 12 (byte 144) is none of the table
  write 1 to 3 for cars, 4 for light-duty vehicles, 5 to 9 for two-wheelers
"""),
    ((13, 2), changed("class=2 technology=3", "class=9 technology=3"), """
refused 13 at 144: row 2 (bytes 144 to 167)
  technology 3 (byte 145) is not in the table for class 9, four-stroke above 750 cm³
  write 0 to 2, conventional to Euro 2
"""),
    ((14, 1), changed("technology=3", "technology=3 canister=7"), """
refused 14 at 144: row 2 (bytes 144 to 167)
  canister 7 (byte 146) is no code
  write 0 none, 1 small, 2 medium, 3 large, or 255 by class
"""),
    ((15, 1), changed("carburettor=99", "carburettor=140"), """
refused 15 at 120: row 1 (bytes 120 to 143)
  carburettor 140 % (byte 123) is above 100 %
  write at most 100
"""),
    ((15, 2), changed("hot=45", "hot=101"), """
refused 15 at 120: row 1 (bytes 120 to 143)
  hot 101 % (byte 124) is above 100 %
  write at most 100
"""),
    ((15, 3), changed("fill=40", "fill=255"), """
refused 15 at 120: row 1 (bytes 120 to 143)
  fill 255 % (byte 125) is above 100 %
  write at most 100
"""),
    ((16, 1), changed("vehicles=500", "vehicles=10000001"), """
refused 16 at 144: row 2 (bytes 144 to 167)
  vehicles 10,000,001 (bytes 152 to 155) is above 10,000,000
  write at most 10,000,000
"""),
    ((26, 1), grid() + SEASONS + TEN_MILLION * 10 + "row class=1 technology=0 vehicles=7\nversion 4", """
refused 26 at 1416: row 11 (bytes 1416 to 1439)
  with its 7 vehicles (bytes 1424 to 1427) the rows so far have 100,000,007, and a sheet has at most 100,000,000
  write at most 0 here, or fewer in the rows before
"""),
    ((17, 1), changed("minutes=13", "minutes=13 tank=150.1"), """
refused 17 at 144: row 2 (bytes 144 to 167)
  tank 150.1 l (bytes 150 to 151) is above 150.0 l
  write at most 150.0, or 0 for the tank of the class
"""),
    ((18, 1), changed("trips=5.10", "trips=31.00"), """
refused 18 at 144: row 2 (bytes 144 to 167)
  trips 31.00 a day (bytes 156 to 157) is above 12.00 a day
  write at most 12.00
"""),
    ((18, 2), changed("minutes=13", "minutes=1441"), """
refused 18 at 144: row 2 (bytes 144 to 167)
  minutes 1,441 (bytes 158 to 159) is above 1,440
  write at most 1,440
"""),
    ((19, 1), changed("load=32.0", "load=70.0"), """
refused 19 at 144: row 2 (bytes 144 to 167)
  load 70.0 g (bytes 160 to 161) is above m_sat 60.0 g (bytes 162 to 163)
  canister: medium, by class 2 technology 3
  write at most 60.0
"""),
    ((19, 1), changed("load=32.0 saturation=60.0", "load=32.0"), """
refused 19 at 144: row 2 (bytes 144 to 167)
  load 32.0 g (bytes 160 to 161) is above m_sat 0.0 g (bytes 162 to 163)
  canister: medium, by class 2 technology 3
  write at most 0.0, or an m_sat of at least 32.0
"""),
    ((19, 2), changed("trips=4.80 minutes=12", "trips=4.80 minutes=12 load=3.0"), """
refused 19 at 120: row 1 (bytes 120 to 143)
  load 3.0 g (bytes 136 to 137) is given, and the row has no canister
  canister: none, by class 1 technology 0
  write 0, or give the row a canister
"""),
    ((19, 3), changed("technology=3", "technology=3 canister=none").replace("load=32.0", "load=0"), """
refused 19 at 144: row 2 (bytes 144 to 167)
  m_sat 60.0 g (bytes 162 to 163) is given, and the row has no canister
  canister: none, as written (byte 146)
  write 0, or give the row a canister
"""),
    ((20, 1), changed("saturation=60.0", "saturation=600.0"), """
refused 20 at 144: row 2 (bytes 144 to 167)
  m_sat 600.0 g (bytes 162 to 163) is too large for a medium canister in season 1
  canister: medium, by class 2 technology 3
  season 1: highest 9.5 °C, vp 90.0 kPa; a + b·s·m_sat is above 3
  write at most 119.5
"""),
    ((20, 1), changed("load=32.0 saturation=60.0", "load=150.0 saturation=600.0"), """
refused 20 at 144: row 2 (bytes 144 to 167)
  m_sat 600.0 g (bytes 162 to 163) is too large for a medium canister in season 1
  canister: medium, by class 2 technology 3
  season 1: highest 9.5 °C, vp 90.0 kPa; a + b·s·m_sat is above 3
  write at most 119.5, and no more for the load
"""),
    ((21, 1), changed("saturation=60.0", "saturation=60.0 spare=0a000000"), """
refused 21 at 144: row 2 (bytes 144 to 167)
  bytes 20 to 23 of the row (bytes 164 to 167) are 0a 00 00 00, and version 1 has zeros there
  write zeros; a mileage stands there from version 3 on
"""),
    ((25, 1), changed("mileage=84000", "mileage=1000001", GRID_TEXT), """
refused 25 at 1200: row 2 (bytes 1200 to 1223)
  mileage 1,000,001 km (bytes 1220 to 1223) is above 1,000,000 km
  write at most 1,000,000
"""),
    ((25, 2), changed("technology=1 ", "technology=0 ", GRID_TEXT).replace("saturation=40.0 ", ""), """
refused 25 at 1200: row 2 (bytes 1200 to 1223)
  mileage 84,000 km (bytes 1220 to 1223) is given, and the row has no canister
  canister: none, by class 1 technology 0
  write 0, or give the row a canister
"""),
    ((25, 3), changed("saturation=40.0", "load=30.0 saturation=40.0", GRID_TEXT), """
refused 25 at 1200: row 2 (bytes 1200 to 1223)
  load 30.0 g (bytes 1216 to 1217) stands beside a mileage of 84,000 km (bytes 1220 to 1223)
  canister: small, by class 1 technology 1
  write 0 for one of the two
"""),
    ((25, 4), changed("saturation=40.0", "saturation=50.0", GRID_TEXT), """
refused 25 at 1200: row 2 (bytes 1200 to 1223)
  m_sat 50.0 g (bytes 1218 to 1219) is too large for a small canister beside a mileage in season 2
  canister: small, by class 1 technology 1
  season 2: highest 29.0 °C, vp 60.0 kPa; a + b·s·m_sat is above 0
  write at most 45.9, or a load in place of the mileage
"""),
)


def counts_of(total: int, size: int) -> bytes:
    """Counts of two bytes each with this sum."""
    counts = []
    for _ in range(size // 2):
        counts.append(min(total, 65535))
        total -= counts[-1]
    return b"".join(count.to_bytes(2, "little") for count in counts)


def mended(data: bytes, found: Explanation) -> Iterator[bytes]:
    """The sheet with each limit that is told in place of what it has. Where a sum is too large, its last part is made
    smaller, as far as it can be; a length is cut or filled with zeros."""
    key = found.number, found.reason
    for value in {found.least, found.most}:
        if found.at is None:
            yield (data + bytes(value))[:value]
            continue
        end = found.at + found.bytes
        if key in ((10, 2), (26, 1)):
            value = layout.number_at(data, found.at, found.bytes) - (found.value - value)
            if value < 0 or not value and key == (10, 2):
                continue
        field = counts_of(value, found.bytes) if key in ((8, 1), (9, 1), (24, 1)) else (
            value.to_bytes(found.bytes, "little", signed=value < 0))
        yield data[:found.at] + field + data[end:]


class WordsTest(DeskTestCase):
    """Each message as a participant reads it."""

    def test_every_reason(self):
        for key, text, expected in CASES:
            with self.subTest(expected.strip()):
                found = explain(LIBRARY, sheet.write(text))
                self.assertEqual((found.number, found.reason), key)
                self.assertEqual("\n".join(found.lines), expected.strip())

    def test_limits_and_classes_of_the_desk(self):
        """What templates and pages show of limits, tanks and canisters is what the library asks and the second
        reckoning has."""
        found = {}
        for _, text, _ in CASES:
            said = explain(LIBRARY, sheet.write(text))
            found.setdefault(said.field, (said.least, said.most))  # by a number's first reason
        for name, field in layout.FIELDS.items():
            if name not in ("class", "technology", "load", "saturation"):  # of these other fields say the most
                self.assertEqual(found[name], (field.least, field.most), name)
        self.assertEqual({number: (tank, canisters) for number, _, tank, canisters in reckoning.CLASS_TABLE},
                         {number: words[1:] for number, words in layout.CLASSES.items()})

    def test_no_reason_is_left_out(self):
        self.assertEqual({key for key, _, _ in CASES}, set(REASONS))
        self.assertEqual({number for number, _ in REASONS} | set(CALLS) | {0}, set(Number))

    def test_what_is_advised_passes(self):
        """With each limit that is told the sheet is not refused for this any more, whatever the reason."""
        tried = set()
        for key, text, _ in CASES:
            data = sheet.write(text)
            found = explain(LIBRARY, data)
            for changed_data in mended(data, found):
                after = explain(LIBRARY, changed_data)
                self.assertNotEqual((after.number, after.reason, after.index), (*key, found.index), key)
                tried.add(key)
        self.assertEqual(tried, set(REASONS))

    def test_command(self):
        path = self.put_sheet("a.evp", changed("load=32.0", "load=70.0"))
        found = run("explain", path)
        self.assertEqual(found, (1, "\n".join((
            "refused 19 at 144: row 2 (bytes 144 to 167)",
            "  load 70.0 g (bytes 160 to 161) is above m_sat 60.0 g (bytes 162 to 163)",
            "  canister: medium, by class 2 technology 3", "  write at most 60.0\n")), ""))
        self.assertEqual(run("check", path), (
            1, "%s: refused 19 at 144: row 2: load 70.0 g is above m_sat 60.0 g; write at most 60.0\n" % path, ""))
        self.assertEqual(run("explain", self.put_sheet("b.evp", TEXT)),
                         (0, "accepted: version 1, 2 seasons, 2 rows\n", ""))

    def test_json(self):
        path = self.put_sheet("a.evp", changed("lowest=-2.0", "lowest=-31.0"))
        found = json.loads(run("explain", path, "--json").out)
        self.assertEqual(list(found), JSON_KEYS)
        self.assertEqual(list(found.values())[:-1], [
            str(path), 11, 104, 1, "season", 1, "lowest", 106, 2, -310, -300, 500, "0.1 °C"])
        self.assertEqual(json.loads(run("check", path, "--json").out), [found])
        short = json.loads(run("explain", self.put("b.evp", b"EVP"), "--json").out)
        self.assertEqual([short[key] for key in ("index", "at", "bytes", "value")], [None, None, None, 3])
        fine = json.loads(run("explain", self.put_sheet("c.evp", TEXT), "--json").out)
        self.assertEqual([fine[key] for key in JSON_KEYS[1:5]], [0, 0, None, None])

    def test_files_that_are_no_sheets(self):
        for content, said in (
            (b"", "the file is empty"), (b"\0" * 100, "all its bytes are 0"), (b"PK\3\4" + b"\1" * 50, "a workbook"),
            (TEXT.encode(), "a text: evp write makes a sheet of it"), (b"\xff\x80" * 40, "is this the right file?"),
        ):
            self.assertIn(said, run("explain", self.put("a", content)).out)


class DamagedTest(unittest.TestCase):
    """2,000 sheets that are refused since some of their bytes were changed; those that are accepted all the same are
    passed over, but for what their check and their explanation say."""

    MANY = 2000
    SUMS = ((8, 1), (9, 1), (24, 1))
    PLACES = {"lowest": 1, "highest": 1, "vp": 1, "tank": 1, "load": 1, "saturation": 1, "trips": 2}

    @staticmethod
    def damaged() -> Iterator[bytes]:
        draw = random.Random(31)
        whole = [sample(name) for name in ("example", "table-3-5", "region", "survey", "odometer")]
        whole += [sheet.write(GRID_TEXT + "version 4"),
                  sheet.write(grid() + SEASONS + TEN_MILLION * 10 + CAR.replace("18400", "0") + "version 4")]
        while True:
            data = bytearray(draw.choice(whole))
            size, records = len(data), layout.seasons_start(data)
            for _ in range(draw.choice((1, 1, 1, 2, 3))):
                at = draw.choice((draw.randrange(8), draw.randrange(8, layout.LISTS_END), draw.randrange(size),
                                  draw.randrange(records, size), draw.randrange(max(records, size - 24), size)))
                data[at] = draw.choice((0, 1, 2, 4, 255, draw.randrange(256)))
            if draw.random() < 0.03:  # no parking at all
                data[8:records] = bytes(records - 8)
            yield bytes(data[:draw.randrange(size)] if draw.random() < 0.05 else data)

    def value_in(self, data: bytes, said: Explanation) -> int:
        """What the bytes have: a number, a sum up to there, or the length."""
        if said.at is None:
            return len(data)
        key, number = (said.number, said.reason), int.from_bytes(
            data[said.at:said.at + said.bytes], "little", signed=said.number == 11)
        if key == (10, 2):
            return sum(layout.season(data, i)["days"] for i in range(said.index))
        if key == (26, 1):
            return sum(layout.row(data, i)["vehicles"] for i in range(said.index))
        if key in self.SUMS:
            return sum(data[at] + 256 * data[at + 1] for at in range(said.at, said.at + said.bytes, 2))
        return number

    def words_for(self, data: bytes, said: Explanation) -> str:
        """The value as the sentence has to have it, by the bytes and the units that a participant writes."""
        if said.field in ("letters", "spare"):
            start, end = (0, 3) if said.field == "letters" else (said.at, said.at + said.bytes)
            return data[start:end].hex(" ")
        value = self.value_in(data, said)
        if not value and (said.number, said.reason) in self.SUMS:
            return "all are 0"
        places = self.PLACES.get(said.field, 0)
        return "the file is empty" if not data else "%.*f" % (places, Decimal(value).scaleb(-places))

    def assert_explained(self, data: bytes, said: Explanation, finding: Finding):
        """What is told holds of the bytes, and what is advised passes."""
        shift = 32768 if said.number == 11 else 0
        self.assertEqual(said.value, self.value_in(data, said))
        self.assertEqual((said.value + shift, said.least + shift, said.most + shift), finding[-3:])
        self.assertFalse(said.least <= said.value <= said.most)
        self.assertIn(self.words_for(data, said), said.words.sentence.replace(",", ""))
        self.assertLess(len(said.lines), 6)
        self.assertTrue(said.words.advice)
        for changed_data in mended(data, said):
            after = LIBRARY.explain(changed_data)
            self.assertNotEqual((after.number, after.reason, after.index), (*finding[:1], said.reason, finding.index))

    def test_damaged(self):
        reasons, refused = set(), 0
        for data in self.damaged():
            check, finding, second = LIBRARY.check(data), LIBRARY.explain(data), reckoning.check(data)
            self.assertEqual((check.number, check.place) if check else None, second)
            self.assertEqual((finding.number, finding.place), second or (0, 0))
            self.assertEqual(tuple(finding), tuple(findings.explain(data)))
            said = explain(LIBRARY, data)
            self.assertEqual((said.number, said.place), second or (0, 0))
            if check:
                refused += 1
                reasons.add((said.number, said.reason))
                self.assertIn("refused %d at %d: " % second, said.line)
                self.assert_explained(data, said, finding)
            if refused == self.MANY:
                break
        self.assertEqual(reasons, set(REASONS))


if __name__ == "__main__":
    unittest.main()
