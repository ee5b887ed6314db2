"""The form: what its page collects, as a sheet or as what is wrong, at its field.

A form is the JSON `{"seasons": [{"days": "92", ..}], "parking": "lists" or "grid", "durations": [24 words],
"hours": [24 words], "grid": [24 lists of 24 words], "rows": [{"class": "1", ..}]}`; every value is the word that was
typed, and a season or row may have a `name`. Field N of record I has the id `season-I-N` or `row-I-N`, I from 0.
"""

import io
import re
import zipfile
from collections.abc import Callable
from functools import lru_cache
from typing import NamedTuple

from evp import layout
from evp.explain import explain
from evp.files import InputError, text_of
from evp.doubting import doubt_lines
from evp.figures import GROUP_NAMES, groups
from evp.layout import CANISTERS, CLASSES, MILEAGE, ROW_FIELDS, SEASON_FIELDS, Field
from evp.library import MECHANISMS, Band, Library, Report
from evp.masses import shown
from evp.pages.refusals import limits_of, minus_in
from evp.pages.render import render
from evp.pages.words import hours
from evp.sheet import Builder, TextError, doubts, folder_of, folders, take_text
from evp.sheet.books import book_of, is_book
from evp.sheet.folders import column_of, numbers, plain
from evp.sheet.names import NO_NAMES, Names, as_name
from evp.sheet.reader import record_words
from evp.sheet.spelling import COUNT, respelt, respelt_record
from evp.sheet.words import encode
from evp.tables import read_table
from evp.wording import counted, name_shown

MOST_RECORDS = 1_200  # some more than a sheet may have, so that the library says so
MOST_WORD = 200  # signs
NAME = "name"  # of a season or row
MULTIPLIED = "the two lists of parkings are written as the grid of their products; the masses are the same"
PLACE = "fleet line %d"  # of a row, as messages about several rows take it
FIELDS = {"season": SEASON_FIELDS, "row": (*ROW_FIELDS, MILEAGE)}
CHOSEN = ("class", "technology", "canister")  # from a list
NEEDED = {"season": [field.name for field in SEASON_FIELDS], "row": ["class", "technology"]}
GUIDEBOOK = {  # Tables 3-12 and 3-13 in tenths of a percent; below 0.5 h is 0.5 h, above 12 h 12 h, hour 0 end hour 24
    "durations": "420 140 20 49 59 20 29 15 15 10 10 5 10 5 5 5 5 5 5 5 5 5 5 130".split(),
    "hours": "12 7 4 7 22 46 55 52 52 53 55 46 52 56 58 64 65 63 51 44 42 39 31 22".split(),
}
EXAMPLE = """season days=182 lowest=-2.0 highest=9.5 vp=90.0
season days=183 lowest=14.5 highest=29.0 vp=60.0
row class=1 technology=0 carburettor=99 hot=45 fill=40 vehicles=1840 trips=4.80 minutes=12
row class=2 technology=3 carburettor=0 hot=50 fill=45 vehicles=15200 trips=5.10 minutes=13 load=32.0 saturation=60.0
row class=4 technology=1 carburettor=30 hot=60 fill=40 vehicles=510 trips=6.50 minutes=14 load=30.0 saturation=45.0
row class=5 technology=1 carburettor=100 hot=30 fill=50 vehicles=1420 trips=3.00 minutes=9
"""


class Fault(NamedTuple):
    """What is wrong at a field; where it stands, empty where the text says it."""
    id: str
    text: str
    where: str = ""


class Form(NamedTuple):
    seasons: list[dict[str, str]]
    parking: str
    durations: list[str]
    hours: list[str]
    grid: list[list[str]]
    rows: list[dict[str, str]]
    version: str = ""
    names: Names = NO_NAMES


# ------------------------------------------------------------------ JSON to a form


def _words(given: object, many: int) -> list[str]:
    if not isinstance(given, list) or len(given) != many or not all(isinstance(word, str) for word in given):
        raise InputError("this is no form: %d words wanted" % many)
    return [respelt(word.strip()[:MOST_WORD], COUNT, comma=True) for word in given]


def _records(given: object, kind: str) -> list[dict[str, str]]:
    """Records by name; a field that is left empty is left out."""
    if not isinstance(given, list) or len(given) > MOST_RECORDS or not all(isinstance(line, dict) for line in given):
        raise InputError("this is no form: a list of at most %s wanted" % counted(MOST_RECORDS, kind))
    names = {field.name for field in FIELDS[kind]}
    found = []
    for line in given:
        if not all(isinstance(name, str) and isinstance(word, str) for name, word in line.items()):
            raise InputError("this is no form: a field is no word")
        found.append(respelt_record(
            {name: word.strip()[:MOST_WORD] for name, word in line.items() if name in names and word.strip()}, True))
    return found


def _names(given: list[dict[str, str]]) -> list[str]:
    return [as_name(line.get(NAME, "")[:MOST_WORD]) for line in given]


def form_of(given: object) -> Form:
    """InputError where it is none; what the words say is another matter."""
    if not isinstance(given, dict):
        raise InputError("this is no form")
    grid = given.get("grid") or [[""] * 24] * 24
    if given.get("parking") not in ("lists", "grid") or not isinstance(grid, list) or len(grid) != 24:
        raise InputError("this is no form: parking is lists or grid, and a grid has 24 end hours")
    version, seasons, rows = given.get("version", ""), given.get("seasons"), given.get("rows")
    return Form(
        _records(seasons, "season"), given["parking"],
        *(_words(given.get(name) or [""] * 24, 24) for name in ("durations", "hours")),
        [_words(line, 24) for line in grid], _records(rows, "row"),
        version if version in ("1", "2", "3", "4") else "", Names(_names(seasons), _names(rows)))


# ------------------------------------------------------------------ a form to bytes


def _field_faults(kind: str, i: int, given: dict[str, str]) -> list[Fault]:
    """The words of a record that are none for their field."""
    return [Fault("%s-%d-%s" % (kind, i, name), text, "%s %d" % (kind, i + 1))
            for name, text in _record_faults(kind, tuple(given.items()))]


@lru_cache(maxsize=4_096)
def _record_faults(kind: str, items: tuple[tuple[str, str], ...]) -> list[tuple[str, str]]:
    """The same by the names of the fields. Most records of a form that is checked again are as they were."""
    given, found = dict(items), []
    for field in FIELDS[kind]:
        word = given.get(field.name)
        if word is None and field.name in NEEDED[kind]:
            found.append((field.name, "%s is missing" % label_of(field)))
        if word is None or field.name == "canister" and word in CANISTERS or field.name == "tank" and word == "class":
            continue
        found += [(field.name, fault.text) for fault in _encoded(word, field, label_of(field), "")]
    return found


def _encoded(word: str, field: Field, label: str, id: str, where: str = "") -> list[Fault]:
    try:
        encode(word, field)
    except TextError as error:
        return [Fault(id, "%s: %s" % (label, str(error).partition(": ")[2]), where)]
    return []


def _count_faults(form: Form) -> list[Fault]:
    if form.parking == "lists":
        lists = [("durations-%d" % d, hours(d), word) for d, word in enumerate(form.durations, 1)]
        lists += [("hours-%d" % t, "hour %d" % t, word) for t, word in enumerate(form.hours, 1)]
    else:
        lists = [("grid-%d-%d" % (t, d), "end hour %d, %s" % (t, hours(d)), word)
                 for t, line in enumerate(form.grid, 1) for d, word in enumerate(line, 1)]
    return [fault for id, label, word in lists if word for fault in _encoded(word, Field("count", 2), label, id)]


def _builder(form: Form) -> Builder:
    """Of a form whose words are all read."""
    builder = Builder()
    lists = {"durations": form.durations, "hours": form.hours}
    if form.parking == "grid":
        lists = {"grid %d" % t: line for t, line in enumerate(form.grid, 1)}
    for name, words in lists.items():
        with builder.at(name):
            builder.add_counts(name, tuple(word or "0" for word in words))
    for i, season in enumerate(form.seasons, 1):
        with builder.at("season %d" % i):
            builder.add_season(season, form.names.season(i - 1))
    for i, row in enumerate(form.rows, 1):
        with builder.at(PLACE % i):
            builder.add_row(row, form.names.row(i - 1))
    builder.least_version = int(form.version or 1)
    return builder


class Made(NamedTuple):
    """The bytes of a form, or what cannot be read; and what may not be meant."""
    data: bytes | None
    faults: list[Fault]
    doubts: list[str]
    names: Names = NO_NAMES


def made_of(form: Form) -> Made:
    faults = [fault for i, season in enumerate(form.seasons) for fault in _field_faults("season", i, season)]
    faults += _count_faults(form)
    faults += [fault for i, row in enumerate(form.rows) for fault in _field_faults("row", i, row)]
    if faults:
        return Made(None, faults, [])
    builder = _builder(form)
    try:
        notes = [MULTIPLIED] if builder.is_multiplied() else []
        return Made(builder.data(), [], [*(_in_form(line) for line in doubts(builder)), *notes], builder.names)
    except TextError as error:
        return Made(None, [_whole_fault(form, message) for message in error.messages], [])


def _whole_fault(form: Form, message: str) -> Fault:
    """A message of the builder that is about several records."""
    place = re.match(r"fleet line ([0-9]+): (?:row: )?", message)
    if place and "mileage" in message:
        return Fault("row-%d-mileage" % (int(place[1]) - 1), message[place.end():], "row " + place[1])
    lists = re.match(r"(durations|hours): (?:\1: )?", message)
    if lists:
        return Fault(lists[1], message[lists.end():])
    return Fault("rows" if place else "parking", _in_form(message))


def _in_form(text: str) -> str:
    """A message about lines of a table, as one about rows of the form."""
    return re.sub(r"fleet line(s?) ", r"row\1 ", text)


# ------------------------------------------------------------------ what the library says of it


def is_empty(form: Form) -> bool:
    """Whether nobody has filled in anything yet; what is chosen from a list is chosen always."""
    if form.names.any():
        return False
    typed = [word for row in form.rows for name, word in row.items() if name not in CHOSEN]
    counts = (*form.durations, *form.hours, *(word for line in form.grid for word in line))
    return len(form.seasons) < 2 and len(form.rows) < 2 and not any((*form.seasons, *typed, *counts))


def check_form(library: Library, form: Form) -> dict:
    """What a page shows: the state, a line, what is wrong at which field, what may not be meant, and the masses."""
    if is_empty(form):
        return {"state": "empty", "line": "Nothing is filled in yet.", "faults": [], "doubts": []}
    made = made_of(form)
    if made.data is None:
        many = counted(len(made.faults), "field")
        return {"state": "unread", "line": "%s cannot be read yet." % many, "doubts": [],
                "faults": [fault._asdict() for fault in made.faults]}
    found = explain(library, made.data, made.names)
    if found.number:
        id, where = _id_of(form, found.record, found.index, found.field), found.record_name if found.index else ""
        fault = Fault(id, minus_in(_told(found)), where)
        return {"state": "refused", "line": "Refused %d at %d." % (found.number, found.place), "doubts": made.doubts,
                "faults": [fault._asdict()], "bytes": len(made.data)}
    report = library.report(made.data)
    parts = ", ".join("%s %s" % (name, shown(band)) for name, band in zip(MECHANISMS, report.all))
    return {"state": "accepted", "line": "Accepted: version %d, %s. %s a year: %s." % (
        layout.version_of(made.data), counted(len(made.data), "byte"), shown(report.total), parts),
        "doubts": made.doubts, "faults": [], "bytes": len(made.data), "results": results_of(report)}


def results_of(report: Report) -> list[dict]:
    """The masses of a report for the table beside the form: in words, and both ends in milligrams, which say by how
    much one has changed."""
    lines = [(GROUP_NAMES[name], [*masses]) for name, masses in groups(report)]
    return [{"name": name, "masses": [_mass(band) for band in masses]} for name, masses in lines] + [
        {"name": "total", "masses": [_mass(report.total)]}]


def _mass(band: Band) -> dict:
    return {"text": shown(band), "low": str(band.low), "high": str(band.high)}


def effects_of(library: Library, form: Form) -> list[str]:
    """What else may not be meant in an accepted form, and what that does to its mass."""
    made = made_of(form)
    if made.data is None or library.check(made.data):
        return []
    return [minus_in(line) for line in doubt_lines(library, made.data, made.names)]


def _told(found) -> str:
    """A refusal without the name of its record."""
    return found.text.removeprefix("%s: " % found.record_name)


def _id_of(form: Form, record: str | None, index: int | None, field: str | None) -> str:
    """The field of the page that a refusal is about."""
    if record in ("season", "row") and index:
        names = [f.name for f in FIELDS[record]]
        return "%s-%d-%s" % (record, index - 1, field if field in names else names[0])
    if record == "parking":
        return form.parking if form.parking == "grid" else str(field)
    return "seasons" if field == "seasons" else "rows"


# ------------------------------------------------------------------ a sheet to a form


def sheet_of(data: bytes, name: str, names: Names = NO_NAMES) -> tuple[bytes, Names]:
    """The bytes and names of a sheet, of a workbook or of a text; InputError where it is none."""
    if data[:3] == b"EVP" or data[:1] in (b"", b"\0"):
        return data, names
    try:
        builder = book_of(data, name_shown(name)) if is_book(name) else take_text(
            data.decode("utf-8-sig"), name_shown(name) + ": ")
        return builder.data(), builder.names
    except UnicodeDecodeError:
        raise InputError("%s: this is no sheet, no workbook, and no text in UTF-8" % name_shown(name)) from None
    except TextError as error:
        raise InputError("\n".join(error.messages[:3])) from None


def form_from(data: bytes, name: str, names: Names = NO_NAMES) -> dict:
    """The form of a sheet's bytes, of a refused sheet too, of a workbook's or of a text's; InputError where it has
    none."""
    data, names = sheet_of(data, name, names)
    if len(data) < 8 or layout.version_of(data) not in (1, 2, 3, 4) or len(data) != layout.length_of(data):
        raise InputError("%s: the form holds whole sheets of versions 1 to 4; the page of the sheet says what is "
                         "wrong" % name_shown(name))
    grid = layout.has_grid(data)
    lists = [list(map(str, layout.counts(data, at))) for at in ((8, 56) if not grid else ())] or [[""] * 24] * 2
    cells = [list(map(str, layout.counts(data, 8 + 48 * t))) for t in range(24)] if grid else [[""] * 24] * 24
    seasons = [record_words(data, layout.season_place(data, i), SEASON_FIELDS)
               for i in range(layout.season_count(data))]
    rows = [_row_of(data, i) for i in range(layout.row_count(data))]
    return {"seasons": [{NAME: names.season(i), **words} for i, words in enumerate(seasons)],
            "parking": "grid" if grid else "lists", "durations": lists[0], "hours": lists[1], "grid": cells,
            "rows": [{NAME: names.row(i), **words} for i, words in enumerate(rows)], "version": _version_of(data)}


def _row_of(data: bytes, i: int) -> dict[str, str]:
    fields = (*ROW_FIELDS, MILEAGE) if layout.has_mileage(data) else ROW_FIELDS
    words = record_words(data, layout.row_place(data, i), fields)
    if words["tank"] == "class":
        words["tank"] = ""
    if words.get("mileage") == "0":
        words["mileage"] = ""
    return words


def _version_of(data: bytes) -> str:
    """The version, where the records would make another."""
    version, rows = layout.version_of(data), layout.row_count(data)
    driven = any(layout.row(data, i)["mileage"] for i in range(rows)) and layout.has_mileage(data)
    made = 1 if not layout.has_grid(data) else 4 if rows > layout.MOST_ROWS else 3 if driven else 2
    return "" if version == made else str(version)


# ------------------------------------------------------------------ tables to a form


def form_from_tables(files: dict[str, bytes]) -> dict:
    """What tables of a sheet give of a form, by the names of their files: words as they stand, so that the form can
    say what is wrong with one. InputError where a table is none."""
    unknown = [name for name in files if name not in TABLES]
    if unknown:
        raise InputError("%s: the tables of a sheet are %s" % (name_shown(unknown[0]), ", ".join(TABLES)))
    found: dict = {}
    for name, data in files.items():
        found.update(TABLES[name](text_of(data, name)))
    return found


def _records_of(key: str, name: str, columns: list[str], needed: list[str]) -> Callable[[str], dict]:
    def read(text: str) -> dict:
        lines = numbers(read_table(text, name, columns, needed, column_of))
        return {key: [{NAME: as_name(line.note), **{column: line.cells.get(column, "") for column in columns}}
                      for line in lines]}
    return read


def _lists_of(text: str) -> dict:
    found = {"parking": "lists", "durations": [""] * 24, "hours": [""] * 24}
    for line in read_table(text, folders.PARKING, folders.PARKING_COLUMNS, folders.PARKING_COLUMNS).lines:
        for name, (key, count, keys) in folders.LISTS.items():
            if plain(line.cells.get(key, "")) in keys:
                found[name][keys.index(plain(line.cells[key]))] = line.cells.get(count, "")
    return found


def _grid_of(text: str) -> dict:
    grid = [[""] * 24 for _ in range(24)]
    for line in read_table(text, folders.GRID, folders.GRID_COLUMNS, folders.GRID_COLUMNS, plain).lines:
        hour = plain(line.cells.get("end_hour", ""))
        if hour in folders.HOURS:
            grid[int(hour) - 1] = [line.cells.get(duration, "") for duration in folders.DURATIONS]
    return {"parking": "grid", "grid": grid}


TABLES = {
    folders.SEASONS: _records_of("seasons", folders.SEASONS, folders.SEASON_COLUMNS, NEEDED["season"]),
    folders.FLEET: _records_of("rows", folders.FLEET, folders.ROW_COLUMNS, NEEDED["row"]),
    folders.PARKING: _lists_of, folders.GRID: _grid_of,
}


def tables_of(data: bytes, names: Names = NO_NAMES) -> bytes:
    """The csv files of a sheet, together."""
    out = io.BytesIO()
    with zipfile.ZipFile(out, "w", zipfile.ZIP_DEFLATED) as archive:
        for name, text in folder_of(data, names=names).items():
            archive.writestr(zipfile.ZipInfo(name, (1980, 1, 1, 0, 0, 0)), text.encode("utf-8-sig"))
    return out.getvalue()


# ------------------------------------------------------------------ its page

LABELS = {"saturation": "m_sat", "carburettor": "carb.", "hot": "ends hot", "vp": "vapour pressure",
          "fill": "fill level"}
SHORT = {  # of classes, so that a line fits a window of 1024 pixels
    1: "car < 1.4 l", 2: "car 1.4–2.0 l", 3: "car > 2.0 l", 7: "4-stroke < 250", 8: "4-stroke ≤ 750",
    9: "4-stroke > 750",
}
ABOUT = {  # as docs/SHEET.md has it
    "days": "length of the season; all seasons together at most 366", "lowest": "lowest temperature of the day",
    "highest": "highest temperature of the day", "vp": "vapour pressure of the fuel",
    "class": "kind of vehicle: cars by engine in l, light-duty, mopeds, two-strokes, four-strokes by engine in cm³",
    "technology": "conventional or Euro 1 to 5; classes 5 to 8 up to Euro 3, class 9 up to Euro 2",
    "canister": "none, small, medium or large; by class is that of class and technology",
    "carburettor": "share of vehicles with carburettor or fuel return",
    "hot": "share of trips that end with a hot engine", "fill": "fill level of the tank",
    "tank": "size of the tank; left empty it is that of the class", "vehicles": "number of vehicles",
    "trips": "trips of a vehicle a day", "minutes": "length of a trip",
    "load": "load of the canister when the parking starts; the guidebook gives no usual load, but one by mileage",
    "saturation": "load that saturates the canister; the guidebook gives no usual m_sat, and with 0 the canister holds "
                  "nothing",
    "mileage": "km that the vehicle has driven, in place of a load: eq. 12 of the guidebook gives the load of it",
}
UNITS = {
    "days": "1 to 366", "lowest": "°C", "highest": "°C", "vp": "kPa", "class": "", "technology": "", "canister": "",
    "carburettor": "% of vehicles", "hot": "% of trips", "fill": "% of tank", "tank": "l", "vehicles": "number",
    "trips": "a day", "minutes": "a trip", "load": "g", "saturation": "g", "mileage": "km",
}


def label_of(field: Field) -> str:
    return LABELS.get(field.name, field.name)


def _columns(kind: str) -> list[dict]:
    return [{"name": field.name, "label": label_of(field), "unit": UNITS[field.name],
             "about": ABOUT[field.name], "limits": limits_of(field)} for field in FIELDS[kind]]


def empty_form() -> dict:
    return {"seasons": [{}], "parking": "lists", "durations": [""] * 24, "hours": [""] * 24, "grid": [[""] * 24] * 24,
            "rows": [{}], "version": ""}


def example_form() -> dict:
    lists = "".join("%s %s\n" % (name, " ".join(words)) for name, words in GUIDEBOOK.items())
    return form_from((lists + EXAMPLE).encode(), "example")


def page_form(form: dict | None = None, name: str = "sheet", message: str = "") -> str:
    """The page of the form, filled where a form is given."""
    return render(
        "form.html", True, columns={kind: _columns(kind) for kind in FIELDS}, name=name, message=message,
        classes=[(number, SHORT.get(number, words[0])) for number, words in CLASSES.items()],
        technologies=["conv.", *("Euro %d" % i for i in range(1, 6))],
        canisters=[name for name in ("class", "none", "small", "medium", "large")],
        told={"form": form or empty_form(), "guidebook": GUIDEBOOK, "example": example_form()})
