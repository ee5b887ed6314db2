"""Which bytes of a sheet an uncertain input is, and the sheet with some inputs moved."""

from collections.abc import Callable, Sequence
from dataclasses import dataclass
from fractions import Fraction
from math import floor
from struct import pack_into

from evp import layout
from evp.analysis.uncertainty import SEASON_INPUTS, TEMPERATURES, Move, Uncertainty
from evp.analysis.values import Record, number_words
from evp.files import InputError
from evp.layout import CLASSES, FIELDS, MILEAGE, ROW_FIELDS, SEASON_FIELDS, Field, canister_of
from evp.wording import name_shown, quoted

CATEGORIES = {"cars": (1, 2, 3), "light": (4,), "light-duty": (4,), "two": (5, 6, 7, 8, 9),
              "two-wheelers": (5, 6, 7, 8, 9)}
OWN_LEAST = {"tank": 1, "mileage": 1}  # 0 has another meaning in these fields


@dataclass(frozen=True)
class Cells:
    """Values of a sheet that the same lines of the table move: how they are written, what they may be, and where each
    is with what it is, in parts."""
    lines: tuple[int, ...]
    form: str  # of struct
    least: int
    most: int
    values: tuple[tuple[int, int], ...]


@dataclass(frozen=True)
class Plan:
    """A sheet with the values that are moved."""
    name: str
    data: bytes
    values: tuple[int, ...]  # the first value that each line of the table moves; 0 where there is none
    cells: tuple[Cells, ...]
    loads: tuple[tuple[int, int, int], ...]  # places of a load and its m_sat, and a line that moves one of them


def _offsets(fields: Sequence[Field]) -> dict[str, int]:
    found, at = {}, 0
    for field in fields:
        found[field.name] = at
        at += field.size
    return found


PLACES = {**_offsets(SEASON_FIELDS), **_offsets((*ROW_FIELDS, MILEAGE))}


def _rows_chosen(where: str) -> Callable[[int, Record], bool]:
    """Which rows a line names."""
    kind, _, number = where.partition(" ")
    if where == "all":
        return lambda i, row: True
    if where in CATEGORIES:
        return lambda i, row: row["class"] in CATEGORIES[where]
    if where == "conventional":
        return lambda i, row: row["technology"] == 0
    if kind in ("row", "class", "euro", "technology") and number.isascii() and number.isdigit():
        wanted = int(number)
        if kind == "row":
            return lambda i, row: i + 1 == wanted
        name = "class" if kind == "class" else "technology"
        return lambda i, row: row[name] == wanted
    raise InputError(f"where: {quoted(where)} is not all, row 3, class 2, cars, light, two, conventional or euro 3")


def _seasons_chosen(where: str) -> Callable[[int], bool]:
    kind, _, number = where.partition(" ")
    if where == "all":
        return lambda i: True
    if kind == "season" and number.isascii() and number.isdigit():
        return lambda i: i + 1 == int(number)
    raise InputError(f"where: {quoted(where)} is not all or season 2")


def _value(name: str, row: Record) -> int | None:
    """The value of a field of a row; None where the row has no such input. A tank by class is that of its class."""
    if name in ("load", "saturation", "mileage"):
        if not canister_of(row) or (name == "load") == bool(row["mileage"]) and name != "saturation":
            return None
    if name == "tank" and not row["tank"]:
        return 10 * CLASSES[row["class"]][1]
    return row[name]


def _places(line: Uncertainty, data: bytes, rows: Sequence[Record]) -> list[tuple[int, str, int]]:
    """Where the values of a line are in a sheet with these rows: place, field and value."""
    if line.input in SEASON_INPUTS:
        chosen = _seasons_chosen(line.where)
        names = ("lowest", "highest") if line.input == TEMPERATURES else (line.input,)
        return [(layout.season_place(data, i) + PLACES[name], name, layout.season(data, i)[name])
                for i in range(layout.season_count(data)) if chosen(i) for name in names]
    wanted, found = _rows_chosen(line.where), []
    for i, row in enumerate(rows):
        value = _value(line.input, row) if wanted(i, row) else None
        if value is not None:
            found.append((layout.row_place(data, i) + PLACES[line.input], line.input, value))
    return found


def _check_values(line: Uncertainty, values: Sequence[int], name: str) -> None:
    """That a low and a high value are of one value of the sheet, and lie around it."""
    low, high = (number_words(line.input, end) for end in (line.low, line.high))
    if len(set(values)) > 1:
        raise InputError(
            f"line {line.line}: {line.name}: the values of {name_shown(name)} differ "
            f"({number_words(line.input, min(values))} to {number_words(line.input, max(values))}), and one low and "
            "high cannot be meant for all; write an uncertainty, or a line for each")
    if not line.low <= values[0] <= line.high:
        raise InputError(f"line {line.line}: {line.name}: {number_words(line.input, values[0])} of {name_shown(name)} "
                         f"is not between {low} and {high}")


Found = dict[int, tuple[str, int, list[int]]]  # by place: field, value and the lines that move it


def _found(name: str, data: bytes, lines: Sequence[Uncertainty]) -> Found:
    found: Found = {}
    rows = [layout.row(data, i) for i in range(layout.row_count(data))]
    for number, line in enumerate(lines):
        try:
            places = _places(line, data, rows)
        except InputError as error:
            raise InputError(f"line {line.line}: {error}") from None
        if line.kind == "values" and places:
            _check_values(line, [value for _, _, value in places], name)
        for place, field_name, value in places:
            found.setdefault(place, (field_name, value, []))[2].append(number)
    return found


def _cells(field_name: str, lines: tuple[int, ...], values: Sequence[tuple[int, int]]) -> Cells:
    field = FIELDS[field_name]
    most = field.most if field.most is not None else field.capacity[1]
    form = "<" + {1: "b", 2: "h", 4: "i"}[field.size]
    return Cells(lines, form if field.signed else form.upper(), OWN_LEAST.get(field_name, field.least), most,
                 tuple(values))


def plan_of(name: str, data: bytes, lines: Sequence[Uncertainty]) -> Plan:
    """The values of an accepted sheet that the lines of a table move."""
    found = _found(name, data, lines)
    groups: dict[tuple[str, tuple[int, ...]], list[tuple[int, int]]] = {}
    firsts: dict[int, int] = {}
    for place, (field_name, value, numbers) in sorted(found.items()):
        groups.setdefault((field_name, tuple(numbers)), []).append((place, value))
        for number in numbers:
            firsts.setdefault(number, value)
    cells = tuple(_cells(field_name, numbers, values) for (field_name, numbers), values in groups.items())
    return Plan(name, data, tuple(firsts.get(number, 0) for number in range(len(lines))), cells,
                tuple(_loads(data, found)))


def _loads(data: bytes, found: Found) -> list[tuple[int, int, int]]:
    """The rows whose load or m_sat is moved: a load must not pass m_sat."""
    pairs = []
    for i in range(layout.row_count(data)):
        places = [layout.row_place(data, i) + PLACES[name] for name in ("load", "saturation")]
        moving = [found[place][2][0] for place in places if place in found]
        if moving:
            pairs.append((places[0], places[1], moving[0]))
    return pairs


def check_targets(plans: Sequence[Plan], lines: Sequence[Uncertainty]) -> None:
    """InputError where a line moves nothing in any sheet."""
    used = {number for plan in plans for cells in plan.cells for number in cells.lines}
    for number, line in enumerate(lines):
        if number not in used:
            raise InputError(f"line {line.line}: {line.name}: no row or season of the sheet has this input; "
                             "evp show lists the rows, and load, saturation and mileage need a canister")


def _together(moves: Sequence[Move | None], lines: Sequence[int]) -> tuple[Move, int] | None:
    """The moves of several lines one after another as one, and the last line of them; None where nothing moves."""
    factor: Fraction | float = 1
    shift: Fraction | float = 0
    last = -1
    for number in lines:
        move = moves[number]
        if move is not None:
            factor, shift, last = factor * move.factor, shift * move.factor + move.shift, number
    return None if last < 0 else (Move(factor, shift), last)


def moved(plan: Plan, moves: Sequence[Move | None]) -> tuple[bytes, set[int]]:
    """The sheet with its values moved, a move for each line of the table, rounded to what a field holds and limited to
    what it may hold; and the lines of which a value was outside its limits."""
    data, limited = bytearray(plan.data), set()
    for cells in plan.cells:
        found = _together(moves, cells.lines)
        if found is None:
            continue
        factor, shift, least, most = found[0].factor, found[0].shift + 0.5, cells.least, cells.most
        for place, value in cells.values:
            whole = floor(value * factor + shift)
            if not least <= whole <= most:
                whole = least if whole < least else most
                limited.add(found[1])
            pack_into(cells.form, data, place, whole)
    for load, saturation, line in plan.loads:
        if layout.number_at(data, load, 2) > layout.number_at(data, saturation, 2):
            data[load:load + 2] = data[saturation:saturation + 2]
            limited.add(line)
    return bytes(data), limited
