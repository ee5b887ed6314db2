"""Writes samples/course: thirty made-up sheets of a course, and what was filed for them with mistakes of many kinds.

    python3 python/tests/make_course.py

The sheets are made by evp.sheet, the right masses are the library's, those of a misreading the second reckoning's.
marks.csv is what `evp mark` writes for them; look at its differences before you keep it:

    ./evp mark samples/course --filed samples/course/filed.csv -o samples/course/marks.csv --force
"""

import random
import re
from fractions import Fraction

from support import LIBRARY, SAMPLES

from evp import sheet
from evp.figures import Figure, bands
from evp.hints import MISREADINGS, Guesser
from evp.library import GROUPS, MECHANISMS, Band, Library
from evp.marking import COLUMNS, Marked
from evp.masses import POWERS
from evp.tables import table_text

COURSE = SAMPLES / "course"
NAMES = """north south east west lakes hills coast islands valley moor forest delta harbour plain ridge marsh upland
lowland river bay cape fen heath glen downs sound border midland headland orchard""".split()

TEXT = """# Tables 3-12 and 3-13 in tenths of a percent; hour 0 of the table is end hour 24.
durations 420 140 20 49 59 20 29 15 15 10 10 5 10 5 5 5 5 5 5 5 5 5 5 130
hours 12 7 4 7 22 46 55 52 52 53 55 46 52 56 58 64 65 63 51 44 42 39 31 22
season days=182 lowest=-2.0 highest=9.5 vp=90.0
season days=183 lowest=14.5 highest=29.0 vp=60.0
row class=1 technology=0 carburettor=99 hot=45 fill=40 vehicles=18400 trips=4.80 minutes=12
row class=1 technology=1 carburettor=20 hot=45 fill=40 vehicles=22750 trips=4.80 minutes=12 load=52.5 saturation=55.0
row class=1 technology=4 carburettor=0 hot=50 fill=45 vehicles=152000 trips=5.10 minutes=13 load=32.0 saturation=110.0
row class=3 technology=4 carburettor=0 hot=55 fill=50 vehicles=12600 trips=4.50 minutes=15 load=70.0 saturation=220.0
row class=4 technology=1 carburettor=30 hot=60 fill=40 vehicles=5100 trips=6.50 minutes=14 load=30.0 saturation=55.0
row class=5 technology=1 carburettor=100 hot=30 fill=50 vehicles=14200 trips=3.00 minutes=9
row class=9 technology=2 carburettor=20 hot=50 fill=45 vehicles=5300 trips=1.75 minutes=22 load=53.5 saturation=55.0
"""
MEDIUM = """row class=1 technology=0 carburettor=99 hot=45 fill=40 vehicles=18400 trips=4.80 minutes=12
row class=2 technology=3 carburettor=0 hot=50 fill=45 vehicles=152000 trips=5.10 minutes=13 load=32.0 saturation=110.0
"""
FILED = [Figure(str(row), "diurnal") for row in (1, 2)] + [
    Figure(group, mechanism) for group in GROUPS for mechanism in MECHANISMS
] + [Figure("total", "")]


def text_of(name: str) -> str:
    """A region: other counts, another summer; glen has medium canisters alone."""
    draw = random.Random(name)
    part = draw.uniform(0.06, 0.12)
    text = TEXT[:TEXT.index("row ")] + MEDIUM if name == "glen" else TEXT
    text = re.sub(r"(?<=vehicles=)\d+", lambda found: "%d" % (int(found[0]) * part * draw.uniform(0.8, 1.2)), text)
    return text.replace("highest=29.0", "highest=%.1f" % (27.5 + draw.randrange(35) / 10))


def sheet_of(name: str) -> bytes:
    data = sheet.write(text_of(name))
    if name == "heath":  # 31.00 trips a day
        return sheet.write(text_of(name).replace("trips=5.10", "trips=31.00"))
    return data[:-12] if name == "cape" else data


def figure_text(mass: Fraction, unit: str, places: int, cut: bool = False) -> str:
    """A mass in milligrams as it is filed."""
    steps = mass / Fraction(10) ** (POWERS[unit] - places)
    digits = str(int(steps if cut else steps + Fraction(1, 2))).rjust(places + 1, "0")
    return "%s.%s" % (digits[:-places], digits[-places:]) if places else digits


def filed_bands(library: Library, name: str, data: bytes) -> dict[Figure, Band]:
    """What a participant took for the bands: those of a changed sheet, or of a misreading."""
    right = bands(library.report(data))
    misreading = {"lakes": "divided", "moor": "cooling", "fen": "cut"}.get(name)
    if misreading:
        guesser = Guesser(library, Marked(data, "", right), {}, [])
        found = next(one for one in MISREADINGS if one.name == misreading)
        return {figure: guesser._misread(figure, found) for figure in FILED}
    if name in ("valley", "glen"):  # read from a wrong line: other trips, other days
        text = text_of(name).replace("trips=4.80", "trips=4.60")
        text = text.replace("days=183", "days=184") if name == "glen" else text
        return bands(library.report(sheet.write(text)))
    return right


def lines_of(library: Library, name: str):
    taken = filed_bands(library, name, sheet.write(text_of(name)))
    unit, places = {"bay": ("kg", 3), "sound": ("kg", 1)}.get(name, ("t", 3))
    for figure in FILED:
        if name == "islands" or (name == "river" and figure.row == "total"):
            continue
        row = {"light": "two", "two": "light"}.get(figure.row, figure.row) if name == "delta" else figure.row
        mass = Fraction(sum(taken[Figure(row, figure.mechanism)]), 2)
        word = figure_text(mass, "kg", 0) if name == "south" else figure_text(mass, unit, places, name == "ridge")
        if name == "harbour" and figure == Figure("cars", "soak"):
            word = word[1] + word[0] + word[2:]
        if name == "sound" and figure.row == "total":
            word = "9" * 20
        yield name + ".evp", *figure, word, unit
    if name == "border":
        yield "border.evp", "9", "diurnal", "0.012", "t"


def files() -> dict[str, bytes]:
    """The sheets and filed.csv by their names."""
    lines = [line for name in NAMES for line in lines_of(LIBRARY, name)]
    lines.append(("atlantis.evp", "total", "", "54.311", "t"))
    return {**{name + ".evp": sheet_of(name) for name in NAMES}, "filed.csv": table_text(COLUMNS, lines).encode()}


def main():
    COURSE.mkdir(exist_ok=True)
    for name, data in files().items():
        (COURSE / name).write_bytes(data)


if __name__ == "__main__":
    main()
