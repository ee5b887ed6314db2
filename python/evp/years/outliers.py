"""Outliers of a series: years away from their neighbours, and the inputs that stepped there.

A rule of thumb, which is not proved: the change from a year to the next is compared with the middle of the changes
around it. The inputs are found by trial: one group of inputs of the year before is put into the sheet, and the group
that brings the mass back is named. Every mass is a report of the library.
"""

import math
from array import array
from collections.abc import Callable, Iterable, Iterator, Sequence
from dataclasses import dataclass
from fractions import Fraction
from statistics import median

from evp import layout
from evp.explain import amount
from evp.layout import CLASSES, FIELDS, MILEAGE, ROW_BYTES, ROW_FIELDS, SEASON_BYTES, SEASON_FIELDS, technology_name
from evp.library import LAST_WORDS, MECHANISMS, Band, Library, Refusal
from evp.masses import shown
from evp.wording import counted
from evp.years.naming import region_key
from evp.years.project import Entry, sheet_bytes
from evp.years.results import REPORTED, Names, Result, names_of

WINDOW = 4  # changes to each side that are taken for usual
LEAST_SPIKE, LEAST_STEP = math.log(1.12), math.log(1.20)  # that are named
TIMES_USUAL = 3  # how much larger than the usual change one must be
ROW_GROUPS = tuple(field.name for field in (*ROW_FIELDS[2:], MILEAGE))
SEASON_GROUPS = tuple(field.name for field in SEASON_FIELDS)
WIDER = {  # several fields at once, where no single one explains it
    "temperatures": ("lowest", "highest"), "canisters": ("canister", "load", "saturation", "mileage"),
}
LABELS = {"vp": "vapour pressure", "saturation": "m_sat", "lowest": "lowest temperature",
          "highest": "highest temperature", "fill": "fill level", "hot": "share of hot trips",
          "carburettor": "share of carburettors", "minutes": "minutes a trip", "trips": "trips a day"}
UNITS = {"trips": "a day", "minutes": "minutes"}
SERIES = {"total": "total", "cars": "cars", "light": "light-duty", "two": "two-wheelers", **{m: m for m in MECHANISMS}}


@dataclass(frozen=True)
class Point:
    """A reported year of a region: the last words of its report, and its sheet when asked for."""
    year: int
    words: "array[int]"
    sheet: Callable[[], bytes]
    names: Callable[[], Names]


@dataclass(frozen=True)
class Step:
    """A year whose mass is away from its neighbours (`spike`), or from which on the masses are others."""
    at: int  # its place among the points
    spike: bool
    off: float  # as a logarithm
    expected: float  # of the mass


@dataclass(frozen=True)
class Outlier:
    """What is said of a step."""
    region: str
    year: int
    before: int
    series: str
    band: Band
    percent: int
    spike: bool
    cause: str  # the group of inputs, empty where none explains it
    inputs: str  # how they stepped
    trial: Band | None  # the mass with the inputs of the year before

    @property
    def sentence(self) -> str:
        what = "" if self.series == "total" else "%s: " % SERIES[self.series]
        way = "above" if self.percent > 0 else "below"
        where = "the years around it" if self.spike else "what the years before it suggest"
        text = "%s%s is %d %% %s %s" % (what, shown(self.band), abs(self.percent), way, where)
        if self.inputs:
            text += "; %s" % self.inputs
        if self.trial is not None:
            text += "; with the %s of %d it would be %s" % (label_of(self.cause), self.before, shown(self.trial))
        return text


def label_of(group: str) -> str:
    return LABELS.get(group, group)


# ------------------------------------------------------------------ series


def series_band(words: Sequence[int], series: str) -> Band:
    """The band of a series of the last words of a report: a subtotal's mechanisms together, or a mechanism of all."""
    if series == "total":
        return Band(*words[-2:])
    if series in MECHANISMS:
        place = 18 + 2 * MECHANISMS.index(series)
        return Band(words[place], words[place + 1])
    place = 6 * ("cars", "light", "two").index(series)
    return Band(sum(words[place:place + 6:2]), sum(words[place + 1:place + 6:2]))


def steps_of(years: list[int], bands: list[Band]) -> list[Step]:
    """The outliers of a series."""
    logs = [math.log(sum(band) / 2) if sum(band) else 0.0 for band in bands]
    if len(logs) < 3 or not all(sum(band) for band in bands):
        return []
    changes = [(b - a) / (y - x) for a, b, x, y in zip(logs, logs[1:], years, years[1:])]
    beyond, usual = _beyond(changes, years)
    found: list[Step] = []
    used: set[int] = set()
    for i in range(1, len(logs) - 1):
        into, out = beyond[i - 1], beyond[i]
        least = max(LEAST_SPIKE, TIMES_USUAL * min(usual[i - 1], usual[i]))
        if into * out < 0 and min(abs(into), abs(out)) > least and i - 1 not in used:
            share = (years[i] - years[i - 1]) / (years[i + 1] - years[i - 1])
            middle = logs[i - 1] + share * (logs[i + 1] - logs[i - 1])
            found.append(Step(i, True, logs[i] - middle, math.exp(middle)))
            used.update((i - 1, i))
    for i, step in enumerate(beyond):
        if i not in used and abs(step) > max(LEAST_STEP, TIMES_USUAL * usual[i]):
            found.append(Step(i + 1, False, step, math.exp(logs[i + 1] - step)))
    return sorted(found, key=lambda step: step.at)


def _beyond(changes: list[float], years: list[int]) -> tuple[list[float], list[float]]:
    """How far each change is beyond the middle of those around it, and how far they are by the middle."""
    beyond, usual = [], []
    for i, change in enumerate(changes):
        around = [changes[j] for j in range(max(0, i - WINDOW), min(len(changes), i + WINDOW + 1)) if j != i]
        trend = median(around)
        gap = years[i + 1] - years[i]
        beyond.append((change - trend) * gap)
        usual.append(median(abs(other - trend) for other in around) * gap)
    return beyond, usual


def outliers_of(library: Library, region: str, points: list[Point]) -> Iterator[Outlier]:
    """The outliers of a region: of its totals, and where a total is none, of its categories and mechanisms."""
    years = [point.year for point in points]
    named: set[int] = set()
    for series in SERIES:
        bands = [series_band(point.words, series) for point in points]
        for step in steps_of(years, bands):
            if step.at not in named:
                named.add(step.at)
                yield _explained(library, region, points, step, series)


def _point(year: int, entry: Entry, words: list[int]) -> Point:
    return Point(year, array("Q", words), lambda: sheet_bytes(entry)[0], lambda: names_of(entry.path))


def find_outliers(library: Library, results: Iterable[Result]) -> list[Outlier]:
    """The outliers of all regions, in the order of regions and years."""
    points: dict[str, list[Point]] = {}
    names: dict[str, str] = {}
    for result in results:
        year, key = result.entry.year, region_key(result.entry.region)
        if year is not None and result.status == REPORTED:
            names.setdefault(key, result.entry.region)
            points.setdefault(key, []).append(_point(year, result.entry, result.words))
    found = (outlier for key in sorted(points) for outlier in outliers_of(library, names[key], points[key]))
    return sorted(found, key=lambda outlier: (region_key(outlier.region), outlier.year))


# ------------------------------------------------------------------ causes


def _explained(library: Library, region: str, points: list[Point], step: Step, series: str) -> Outlier:
    here, before = points[step.at], points[step.at - 1]
    old, new = before.sheet(), here.sheet()
    band = series_band(here.words, series)
    best: tuple[float, str, Band] | None = None
    for group, sheet in trials(old, new):
        mass = _mass(library, sheet, series)
        if mass is None or not sum(mass):
            continue
        left = abs(math.log(sum(mass) / 2) - math.log(step.expected))
        if best is None or left < best[0] - 0.02:
            best = (left, group, mass)
    explained = best is not None and best[0] < abs(step.off) / 2
    cause = best[1] if best is not None and explained else ""
    inputs = described(cause, old, new, here.names()) if cause else _no_cause(old, new)
    percent = round(100 * (math.exp(step.off) - 1))
    return Outlier(region, here.year, before.year, series, band, percent, step.spike, cause, inputs,
                   best[2] if best is not None and explained else None)


def _mass(library: Library, sheet: bytes, series: str) -> Band | None:
    try:
        return series_band(library.words(sheet)[-LAST_WORDS:], series)
    except Refusal:
        return None


def _no_cause(old: bytes, new: bytes) -> str:
    groups = [label_of(group) for group, _ in trials(old, new) if group not in WIDER and group != "all rows"]
    if not groups:
        return "no input differs from the year before"
    return "no single input explains it; these differ from the year before: %s" % ", ".join(groups)


def _records(data: bytes) -> tuple[list[bytes], list[bytes]]:
    """The seasons and rows of a sheet, as bytes."""
    seasons = [data[at:at + SEASON_BYTES] for i in range(layout.season_count(data))
               for at in [layout.season_place(data, i)]]
    rows = [data[at:at + ROW_BYTES] for i in range(layout.row_count(data)) for at in [layout.row_place(data, i)]]
    return seasons, rows


def _with(data: bytes, seasons: list[bytes], rows: list[bytes]) -> bytes:
    """A sheet with other records."""
    version = layout.version_of(data)
    head = data[:5] + bytes([len(seasons)]) + (
        len(rows).to_bytes(2, "little") if version == 4 else bytes([len(rows) % 256, 0]))
    return head + data[8:layout.seasons_start(data)] + b"".join(seasons) + b"".join(rows)


def pairs(old: list[bytes], new: list[bytes]) -> list[tuple[int, int]]:
    """Rows of two sheets that belong together: by their place where both have the same classes, else those of one
    class and technology in their order."""
    if [record[:2] for record in old] == [record[:2] for record in new]:
        return [(i, i) for i in range(len(new))]
    places: dict[bytes, list[int]] = {}
    for i, record in enumerate(old):
        places.setdefault(record[:2], []).append(i)
    found = []
    for j, record in enumerate(new):
        if places.get(record[:2]):
            found.append((places[record[:2]].pop(0), j))
    return found


OFFSETS = {}  # of the fields of a row and of a season
for _fields in (SEASON_FIELDS, (*ROW_FIELDS, MILEAGE)):
    _at = 0
    for _field in _fields:
        OFFSETS[_field.name] = (_at, _at + _field.size)
        _at += _field.size


def _mixed(old: list[bytes], new: list[bytes], names: tuple[str, ...], matched: list[tuple[int, int]]) -> list[bytes]:
    """The new records with some fields of the old ones."""
    made = list(new)
    for i, j in matched:
        record = bytearray(made[j])
        for name in names:
            start, end = OFFSETS[name]
            record[start:end] = old[i][start:end]
        made[j] = bytes(record)
    return made


def trials(old: bytes, new: bytes) -> Iterator[tuple[str, bytes]]:
    """The new sheet with one group of inputs of the old one at a time, where that differs; single fields first."""
    (old_seasons, old_rows), (seasons, rows) = _records(old), _records(new)
    matched, same = pairs(old_rows, rows), list(zip(range(len(old_seasons)), range(len(seasons))))
    groups = [(name, (name,)) for name in (*SEASON_GROUPS, *ROW_GROUPS)] + list(WIDER.items())
    for group, fields in groups:
        of_season = fields[0] in SEASON_GROUPS
        if of_season and len(old_seasons) != len(seasons):
            continue
        made = _with(new, _mixed(old_seasons, seasons, fields, same), rows) if of_season else (
            _with(new, seasons, _mixed(old_rows, rows, fields, matched)))
        if made != new:
            yield group, made
    if len(old_seasons) != len(seasons):
        yield "seasons", _with(new, old_seasons, rows)
    if len(matched) != len(rows) or len(matched) != len(old_rows):
        yield "all rows", _with(new, seasons, old_rows)
    if layout.has_grid(old) == layout.has_grid(new) and old[8:layout.seasons_start(old)] != (
            new[8:layout.seasons_start(new)]):
        yield "parking", new[:8] + old[8:layout.seasons_start(old)] + new[layout.seasons_start(new):]


# ------------------------------------------------------------------ words


def described(group: str, old: bytes, new: bytes, names: Names) -> str:
    """How a group of inputs stepped: the record that stepped most, and how many did."""
    (old_seasons, old_rows), (seasons, rows) = _records(old), _records(new)
    if group == "parking":
        return "the parking is another"
    if group == "seasons":
        return "%s in place of %s" % (counted(len(seasons), "season"), str(len(old_seasons)))
    if group == "all rows":
        return _other_rows(old_rows, rows)
    name = WIDER.get(group, (group,))[0]
    if name in SEASON_GROUPS:
        both = [(a, b, _season_name(i, names)) for i, (a, b) in enumerate(zip(old_seasons, seasons))]
        return _stepped(WIDER.get(group, (group,)), both, "season")
    found = [(old_rows[i], rows[j], _row_name(j, rows[j], names)) for i, j in pairs(old_rows, rows)]
    return _stepped(WIDER.get(group, (group,)), found, "row")


def _season_name(i: int, names: Names) -> str:
    return names.seasons.get(i + 1) or "season %d" % (i + 1)


def _row_name(j: int, record: bytes, names: Names) -> str:
    number, technology = record[0], record[1]
    words = names.rows.get(j + 1) or "%s, %s" % (
        CLASSES.get(number, ("class %d" % number,))[0], technology_name(technology))
    return "row %d (%s)" % (j + 1, words)


def _other_rows(old: list[bytes], new: list[bytes]) -> str:
    matched = pairs(old, new)
    gone = [old[i] for i in range(len(old)) if i not in {pair[0] for pair in matched}]
    come = [new[j] for j in range(len(new)) if j not in {pair[1] for pair in matched}]
    words = []
    for records, verb in ((gone, "missing"), (come, "new")):
        if records:
            kinds = ["%s, %s" % (CLASSES.get(record[0], ("class %d" % record[0],))[0], technology_name(record[1]))
                     for record in records[:3]]
            words.append("%s %s: %s" % (counted(len(records), "row"), verb, "; ".join(kinds)))
    return ", ".join(words)


def _value(record: bytes, name: str) -> int:
    start, end = OFFSETS[name]
    return int.from_bytes(record[start:end], "little", signed=FIELDS[name].signed)


def _stepped(fields: tuple[str, ...], both: list[tuple[bytes, bytes, str]], kind: str) -> str:
    changed = [(_size(_value(a, name), _value(b, name)), name, _value(a, name), _value(b, name), words)
               for a, b, words in both for name in fields if _value(a, name) != _value(b, name)]
    if not changed:
        return ""
    largest, name, a, b, words = max(changed, key=lambda change: change[0])
    alike = [change for change in changed if change[0] >= largest / 2]  # small steps of other records say nothing
    many = len({change[4] for change in alike})
    ratios = {Fraction(change[3], change[2]) if change[2] else None for change in alike}
    text = "%s of %s from %s to %s" % (label_of(name), words, _shown(name, a), _shown(name, b))
    ratio = _ratio(a, b)
    if ratio and name not in ("lowest", "highest"):
        text += " (%s)" % ratio
    if many > 1:
        how = "in the same ratio" if len(ratios) == 1 and len(fields) == 1 else "likewise"
        text += ", and of %s %s" % (counted(many - 1, "other %s" % kind), how)
    return text


def _size(a: int, b: int) -> float:
    """How large a step is: the larger, the more it changes a number."""
    if a > 0 and b > 0:
        return abs(math.log(b / a))
    return 10.0 + abs(b - a) / 1e6 if a != b else 0.0


def _shown(name: str, value: int) -> str:
    if name == "canister":
        return layout.CANISTER_NAMES.get(value, str(value))
    if name == "tank" and value == 0:
        return "by class"
    field = FIELDS[name]
    if name in UNITS:
        return field.shown(value)
    return amount(field, value)


def _ratio(a: int, b: int) -> str:
    if a <= 0 or b <= 0:
        return ""
    if b >= 1.5 * a:
        return "%.3g times" % (b / a)
    if a >= 1.5 * b:
        return "1/%.3g" % (a / b)
    return "%+.0f %%" % (100 * (b / a - 1)) if abs(b - a) * 100 >= a else ""
