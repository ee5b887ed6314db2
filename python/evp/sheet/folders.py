"""A sheet as a folder of tables: seasons.csv, fleet.csv, and parking.csv for two lists or grid.csv for a grid."""

import re
from collections.abc import Callable, Iterable
from pathlib import Path

from evp.files import InputError, read_text
from evp.layout import (
    CLASSES, LISTS_END, MILEAGE, ROW_FIELDS, SEASON_FIELDS, Field, counts, has_grid, has_mileage, length_of, row_count,
    row_place, season_count, season_place, version_of,
)
from evp.sheet.builder import Builder
from evp.sheet.names import NO_NAMES, Names
from evp.sheet.reader import record_words
from evp.sheet.spelling import COUNT, respelt, respelt_record
from evp.sheet.words import TextError
from evp.tables import NOTE, Line, Table, read_table, table_text
from evp.wording import name_shown, quoted

SEASONS, FLEET, PARKING, GRID = TABLES = "seasons.csv", "fleet.csv", "parking.csv", "grid.csv"
SEASON_COLUMNS = [field.name for field in SEASON_FIELDS]
ROW_COLUMNS = [field.name for field in (*ROW_FIELDS, MILEAGE)]
PARKING_COLUMNS = ["duration", "lasting", "end_hour", "ending"]
DURATIONS = ["%g" % (d / 2) for d in range(1, 25)]  # in hours
HOURS = [str(t) for t in range(1, 25)]
GRID_COLUMNS = ["end_hour", *DURATIONS]
KNOWN = {*SEASON_COLUMNS, *ROW_COLUMNS, *PARKING_COLUMNS, NOTE}
LISTS = {"durations": ("duration", "lasting", DURATIONS), "hours": ("end_hour", "ending", HOURS)}


# ------------------------------------------------------------------ read


def take_folder(folder: str | Path) -> Builder:
    """What the tables of a folder give."""
    folder, builder = Path(folder), Builder()
    _take_parking(builder, folder)
    for line in numbers(_table(folder, SEASONS, SEASON_COLUMNS, SEASON_COLUMNS, column_of)):
        with builder.at(_where(folder, SEASONS, line.number)):
            builder.add_season(line.cells, line.note)
    for line in numbers(_table(folder, FLEET, ROW_COLUMNS, ("class", "technology"), column_of)):
        with builder.at(_where(folder, FLEET, line.number)):
            builder.add_row(line.cells, line.note)
    return builder


def column_of(word: str) -> str:
    """The column that a header names, with its unit behind it or not: `lowest (°C)`, `Lowest`; `name` is the note."""
    plain_name = re.sub(r" *[(\[][^()\[\]]*[)\]]$", "", word).strip().lower().replace(" ", "_")
    return {"name": NOTE, "m_sat": "saturation"}.get(plain_name, plain_name if plain_name in KNOWN else word)


def _where(folder: Path, name: str, number: int) -> str:
    return "%s: line %d" % (name_shown(folder / name), number)


def _table(folder: Path, name: str, columns: list[str], needed: Iterable[str],
           rename: Callable[[str], str] = str) -> Table:
    if not (folder / name).exists():
        raise InputError("%s: there is no %s; a folder has %s, %s, and %s or %s" % (
            name_shown(folder), name, SEASONS, FLEET, PARKING, GRID))
    return read_table(read_text(folder / name), name_shown(folder / name), columns, needed, rename)


def numbers(table: Table) -> Iterable[Line]:
    """The lines with the words of a sheet (spelling.py). With ; the decimal character is a comma or a point."""
    comma = table.separator == ";"
    return [line._replace(cells=respelt_record(line.cells, comma)) for line in table.lines]


def _with_point(word: str) -> str:
    return word.replace(",", ".") if re.fullmatch(r"[+-]?[0-9]+,[0-9]+", word) else word


def _take_parking(builder: Builder, folder: Path):
    if (folder / GRID).exists() and (folder / PARKING).exists():
        raise InputError("%s: a grid stands in place of two lists, and both %s and %s are there" % (
            name_shown(folder), GRID, PARKING))
    if (folder / GRID).exists():
        _take_grid(builder, folder)
    else:
        _take_lists(builder, folder)


def _take_grid(builder: Builder, folder: Path):
    table = _table(folder, GRID, GRID_COLUMNS, GRID_COLUMNS, plain)
    for line in table.lines:
        with builder.at(_where(folder, GRID, line.number)):
            hour = _key(line.cells.get("end_hour", ""), HOURS, "end_hour")
            name = "grid %s" % hour
            if name in builder.parking:
                raise TextError("end_hour %s is given twice" % hour)
            builder.add_counts(name, tuple(
                respelt(line.cells.get(duration, "0"), COUNT, table.separator == ";") for duration in DURATIONS))


def plain(word: str) -> str:
    """A duration or an end hour as it is written here: 1,0 or 1.0 is 1."""
    return re.sub(r"\.0$", "", _with_point(word))


def _key(word: str, keys: list[str], column: str) -> str:
    """A duration or an end hour, one of the keys."""
    if plain(word) not in keys:
        raise TextError("%s: %s is not %s to %s" % (column, quoted(word), keys[0], keys[-1]))
    return plain(word)


def _take_lists(builder: Builder, folder: Path):
    table = _table(folder, PARKING, PARKING_COLUMNS, PARKING_COLUMNS)
    for name, (key_column, count_column, keys) in LISTS.items():
        found: dict[str, str] = {}
        for line in table.lines:
            with builder.at(_where(folder, PARKING, line.number)):
                if key_column not in line.cells and count_column not in line.cells:
                    continue
                key = _key(line.cells.get(key_column, ""), keys, key_column)
                if key in found:
                    raise TextError("%s %s is given twice" % (key_column, key))
                found[key] = respelt(line.cells.get(count_column, "0"), COUNT, table.separator == ";")
        with builder.at(name_shown(folder / PARKING)):
            missing = [key for key in keys if key not in found]
            if missing:
                more = " and %d more" % (len(missing) - 3) if len(missing) > 3 else ""
                raise TextError("%s: all of %s to %s are wanted; %s%s %s missing" % (
                    key_column, keys[0], keys[-1], ", ".join(missing[:3]), more, "is" if len(missing) == 1 else "are"))
            builder.add_counts(name, tuple(found[key] for key in keys))


# ------------------------------------------------------------------ write


def folder_of(data: bytes, semicolon: bool = False, names: Names = NO_NAMES) -> dict[str, str]:
    """The tables of a sheet, by the names of their files, with the names of its records in the column `note` where it
    has any; TextError where they cannot hold its bytes."""
    check_plain(data)
    fields = (*ROW_FIELDS, MILEAGE) if has_mileage(data) else ROW_FIELDS
    seasons = [record_words(data, season_place(data, i), SEASON_FIELDS) for i in range(season_count(data))]
    rows = [record_words(data, row_place(data, i), fields) for i in range(row_count(data))]
    for row in rows:
        for name in ("canister", "tank"):
            row[name] = "" if row[name] == "class" else row[name]
    return {
        SEASONS: _table_of(SEASON_COLUMNS, seasons, semicolon, names.seasons),
        FLEET: _table_of([field.name for field in fields], rows, semicolon, names.rows),
        **(_grid_of(data, semicolon) if has_grid(data) else _lists_of(data, semicolon)),
    }


def check_plain(data: bytes):
    """That the tables can hold the bytes: only what they tell stands in them."""
    if len(data) < 8 or data[:3] != b"EVP" or version_of(data) not in (1, 2, 3, 4) or len(data) != length_of(data):
        raise TextError("tables hold whole sheets of versions 1 to 4 alone; evp explain says what is wrong here")
    if version_of(data) != 4 and data[7]:
        raise TextError("byte 7 is not 0, and tables have no place for it; evp read without --csv makes a text of it")
    for i in range(row_count(data)):
        if not has_mileage(data) and any(data[row_place(data, i) + 20:row_place(data, i) + 24]):
            raise TextError("row %d: bytes 20 to 23 are not 0, and tables have no place for them; "
                            "evp read without --csv makes a text of it" % (i + 1))


def _table_of(columns: list[str], records: Iterable[dict[str, str]], semicolon: bool, names: list[str]) -> str:
    lines = [[_signed(record[name], semicolon) for name in columns] for record in records]
    if not any(names):
        return table_text(columns, lines, semicolon)
    return table_text([NOTE, *columns], ([name, *line] for name, line in zip(names, lines)), semicolon)


def _signed(word: str, semicolon: bool) -> str:
    """A decimal word with the decimal sign of the table."""
    return word.replace(".", ",") if semicolon else word


def _grid_of(data: bytes, semicolon: bool) -> dict[str, str]:
    header = [_signed(name, semicolon) for name in GRID_COLUMNS]
    return {GRID: table_text(header, ([t + 1, *counts(data, 8 + 48 * t)] for t in range(24)), semicolon)}


def _lists_of(data: bytes, semicolon: bool) -> dict[str, str]:
    lists = zip((_signed(d, semicolon) for d in DURATIONS), counts(data, 8), HOURS, counts(data, (8 + LISTS_END) // 2))
    return {PARKING: table_text(PARKING_COLUMNS, lists, semicolon)}


# ------------------------------------------------------------------ templates

WORDS = {
    "days": "all seasons together at most 366",
    "class": "; ".join("%d %s" % (number, words[0]) for number, words in CLASSES.items()),
    "technology": "0 conventional; 1 to 5 Euro 1 to 5; classes 5 to 8 up to 3; class 9 up to 2",
    "canister": "none small medium large (0 to 3); empty: by class",
    "carburettor": "% of vehicles with carburettor or fuel return",
    "hot": "% of trips that end hot",
    "fill": "% of the tank",
    "tank": "l; empty: by class",
    "vehicles": "",
    "trips": "a day",
    "minutes": "a trip",
    "load": "g; 0 without canister",
    "saturation": "g; m_sat of the canister",
    "mileage": "km; in place of a load",
}


def templates(grid: bool, semicolon: bool) -> dict[str, str]:
    """Empty tables with the unit and the limits of each column, by the names of their files."""
    fields = (*ROW_FIELDS, MILEAGE) if grid else ROW_FIELDS
    tables = {SEASONS: _template(SEASON_FIELDS, semicolon), FLEET: _template(fields, semicolon)}
    if grid:
        lines = [["# how many parkings end at this hour (down) and last so many hours (across); together 1 to 1000000"],
                 *([t] for t in HOURS)]
        return {**tables, GRID: table_text([_signed(name, semicolon) for name in GRID_COLUMNS], lines, semicolon)}
    about = ["# hours", "how many parkings last so long; together 1 to 1000", "hour of the day",
             "how many end then; together 1 to 1000"]
    lines = [about, *([_signed(d, semicolon), "", t] for d, t in zip(DURATIONS, HOURS))]
    return {**tables, PARKING: table_text(PARKING_COLUMNS, lines, semicolon)}


def _template(fields: tuple[Field, ...], semicolon: bool) -> str:
    lines = [
        ["# unit", *(WORDS.get(field.name, field.unit) for field in fields)],
        ["# least", *(_signed(field.shown(field.least), semicolon) for field in fields)],
        ["# most", *(_signed(_most(field), semicolon) for field in fields)],
    ]
    return table_text([NOTE, *(field.name for field in fields)], lines, semicolon)


def _most(field: Field) -> str:
    if field.most is not None:
        return field.shown(field.most)
    return "saturation" if field.name == "load" else "by canister and seasons"
