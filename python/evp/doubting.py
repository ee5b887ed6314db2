"""What an accepted sheet may not mean, and what that does to its mass: the library's total as the sheet is, and as it
would be otherwise. Nothing here calculates a mass."""

from collections.abc import Iterable, Iterator, Sequence
from typing import NamedTuple

from evp import layout
from evp.layout import FIELDS, MILEAGE, ROW_FIELDS, canister_of
from evp.library import Band, Library, Refusal
from evp.masses import shown
from evp.sheet.names import NO_NAMES, Names, with_name

NO_TYPICAL = "documents 001 to 004 give no usual m_sat"
FROM_EURO = 3  # where a carburettor or a small canister in a car is in doubt
FRACTIONS = ("carburettor", "hot", "fill")
YEARS = (365, 366)
MOST_NAMED = 3  # rows by number in a line


class Doubt(NamedTuple):
    """What may not be meant, the same sheet as it would be otherwise, and in which words."""
    text: str
    other: bytes
    otherwise: str


def doubts_of(library: Library, data: bytes, names: Names = NO_NAMES) -> list[Doubt]:
    """Of an accepted sheet, each kind once."""
    rows = [layout.row(data, i) for i in range(layout.row_count(data))]
    return [*_days(data), *_saturation(library, data, rows, names), *_carburettors(data, rows, names),
            *_fractions(data, rows, names), *_small_canisters(data, rows, names)]


def effect(library: Library, total: Band, doubt: Doubt) -> str:
    """What a doubt does to the mass, in words."""
    try:
        other = library.report(doubt.other).total
    except Refusal:
        return ""
    change = " (%+.1f %%)" % (100 * (sum(other) - sum(total)) / sum(total)) if sum(total) else ""
    return "the total is %s, and %s %s%s" % (shown(total), shown(other), doubt.otherwise, change)


def doubt_lines(library: Library, data: bytes, names: Names = NO_NAMES) -> Iterator[str]:
    """The doubts of an accepted sheet, each with what it does to the mass."""
    found = doubts_of(library, data, names)
    total = library.report(data).total if found else Band(0, 0)
    for doubt in found:
        said = effect(library, total, doubt)
        yield "%s; %s" % (doubt.text, said) if said else doubt.text


# ------------------------------------------------------------------ the doubts


def _places(rows: Sequence[int], names: Names) -> str:
    """row 2 (vans), or rows 2, 5, 7 and 4 more."""
    if len(rows) == 1:
        return with_name("row %d" % (rows[0] + 1), names.row(rows[0]))
    words = ", ".join(str(i + 1) for i in rows[:MOST_NAMED])
    more = " and %d more" % (len(rows) - MOST_NAMED) if len(rows) > MOST_NAMED else ""
    return "rows %s%s" % (words, more)


def _with_fields(data: bytes, changes: Iterable[tuple[int, str, int]]) -> bytes:
    """The sheet with other numbers, in parts, in fields of rows."""
    found, starts, at = bytearray(data), {}, 0
    for field in (*ROW_FIELDS, MILEAGE):
        starts[field.name], at = at, at + field.size
    for row, name, value in changes:
        place, size = layout.row_place(data, row) + starts[name], FIELDS[name].size
        found[place:place + size] = value.to_bytes(size, "little")
    return bytes(found)


def _days(data: bytes) -> Iterator[Doubt]:
    """Seasons that are no year; a sheet whose seasons have a day each is meant so."""
    days = [layout.season(data, i)["days"] for i in range(layout.season_count(data))]
    if sum(days) in YEARS or sum(days) == len(days):
        return
    found = bytearray(data)
    for i, many in enumerate(_year_of(days)):
        place = layout.season_place(data, i)
        found[place:place + 2] = many.to_bytes(2, "little")
    yield Doubt("all seasons together have %d days, not 365, so the masses are of %d days" % (sum(days), sum(days)),
                bytes(found), "if they had 365 in the same proportion")


def _year_of(days: list[int]) -> list[int]:
    """365 days in the proportion of these, whole ones and none of 0."""
    found, so_far, given = [], 0, 0
    for many in days:
        so_far += many
        end = (2 * 365 * so_far + sum(days)) // (2 * sum(days))
        found.append(max(1, end - given))
        given += found[-1]
    return found


def _saturation(library: Library, data: bytes, rows: list[dict[str, int]], names: Names) -> Iterator[Doubt]:
    empty = [i for i, row in enumerate(rows) if canister_of(row) and not row["saturation"]]
    if not empty:
        return
    most: dict[tuple[int, bool], int] = {}  # by what the limit depends on
    for i in empty:
        key = canister_of(rows[i]), bool(rows[i]["mileage"])
        if key not in most:
            most[key] = _largest(library, data, i)
    changes = [(i, "saturation", most[canister_of(rows[i]), bool(rows[i]["mileage"])]) for i in empty]
    yield Doubt("%s: m_sat is 0, so the canister holds nothing and all vapour escapes; %s" % (
        _places(empty, names), NO_TYPICAL), _with_fields(data, changes), "with the largest m_sat that is accepted")


def _largest(library: Library, data: bytes, row: int) -> int:
    """The largest m_sat that the library accepts in a row; 0 where it accepts no other."""
    value = FIELDS["saturation"].capacity[1]
    for _ in range(layout.season_count(data) + 1):
        found = library.explain(_with_fields(data, [(row, "saturation", value)]))
        if not found.number:
            return value
        value = found.most
    return 0


def _is_new_car(row: dict[str, int]) -> bool:
    return row["class"] <= 4 and row["technology"] >= FROM_EURO


def _carburettors(data: bytes, rows: list[dict[str, int]], names: Names) -> Iterator[Doubt]:
    found = [i for i, row in enumerate(rows) if _is_new_car(row) and row["carburettor"]]
    if found:
        yield Doubt("%s: carburettors or fuel return in Euro %d or later" % (_places(found, names), FROM_EURO),
                    _with_fields(data, [(i, "carburettor", 0) for i in found]), "without them")


def _fractions(data: bytes, rows: list[dict[str, int]], names: Names) -> Iterator[Doubt]:
    found = [(i, name) for i, row in enumerate(rows) for name in FRACTIONS if row[name] == 1]
    if found:
        fields = ", ".join(name for name in FRACTIONS if any(field == name for _, field in found))
        yield Doubt("%s: %s 1 %%; is this 100 %%, written as a fraction?" % (
            _places(sorted({i for i, _ in found}), names), fields),
            _with_fields(data, [(i, name, 100) for i, name in found]), "with 100 %")


def _small_canisters(data: bytes, rows: list[dict[str, int]], names: Names) -> Iterator[Doubt]:
    found = [i for i, row in enumerate(rows) if _is_new_car(row) and row["canister"] == 1]
    if found:
        yield Doubt("%s: a small canister in Euro %d or later, where Table 3-11 has a larger one" % (
            _places(found, names), FROM_EURO),
            _with_fields(data, [(i, "canister", layout.BY_CLASS) for i in found]), "with that of the class")
