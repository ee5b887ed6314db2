"""What changed between two sheets: the inputs that differ, and the mass that each group of them brings.

The groups are changed one after another in the order of ORDER, from sheet A to sheet B. The library reports every sheet
between, and the difference of two reports that follow one another is what a group brings: low to low and high to high.
So the differences add up exactly to the difference of the bands of A and B. In another order a group can bring another
mass; the sum is the same.

A sheet between the two that the library refuses has no report. Its group is changed together with the next one, and the
reason is kept.
"""

from collections.abc import Iterable, Iterator, Sequence
from dataclasses import dataclass, replace

from evp import layout
from evp.analysis.matching import Pair, matched_rows
from evp.analysis.values import (
    FIELD_NAMES, Names, NoNames, Record, Values, grid_of, row_words, sheet_of, value_words, values_of, with_name,
)
from evp.explain import explain
from evp.files import InputError
from evp.library import Band, Library, Refusal, Report
from evp.sheet.folders import DURATIONS, HOURS
from evp.wording import apart, counted


@dataclass(frozen=True)
class Group:
    """Inputs that are changed together, and the fields of a row or season that they are."""
    title: str
    fields: tuple[str, ...] = ()


VERSION = Group("version of the sheet")
REMOVED = Group("rows removed")
ADDED = Group("rows added")
PARKING = Group("parking")
ROW_GROUPS = (
    Group("class and technology", ("class", "technology")),
    Group("canister", ("canister", "load", "saturation")),
    Group("mileage", ("mileage",)),
    Group("carburettor share", ("carburettor",)),
    Group("tank and fill level", ("tank", "fill")),
    Group("vehicles", ("vehicles",)),
    Group("trips", ("trips", "minutes", "hot")),
)
SEASON_GROUPS = (
    Group("seasons", ("days",)),
    Group("temperatures", ("lowest", "highest")),
    Group("fuel", ("vp",)),
)
ORDER = (VERSION, REMOVED, ADDED, *ROW_GROUPS, PARKING, *SEASON_GROUPS)


@dataclass(frozen=True)
class Change:
    """An input that differs: row 3, vehicles, 1,000, 1,200. `where` names several rows where all changed alike."""
    where: str
    what: str
    before: str
    after: str
    unit: str = ""

    @property
    def words(self) -> str:
        unit = f" {self.unit}" if self.unit else ""
        named = f"{self.where}: {self.what}".removesuffix(": ")
        if not self.after:
            return named
        return f"{named} {self.before} → {self.after}{unit}"


@dataclass(frozen=True)
class Step:
    """One group of inputs changed, or several where a sheet between is refused, with the reports before and after."""
    groups: tuple[Group, ...]
    changes: tuple[Change, ...]
    before: Report
    after: Report
    refusals: tuple[str, ...] = ()

    @property
    def title(self) -> str:
        return ", ".join(group.title for group in self.groups)

    @property
    def short(self) -> str:
        """The title where there is little room."""
        more = len(self.groups) - 1
        return self.groups[0].title + (f" and {more} more" if more else "")

    @property
    def low(self) -> int:
        """The low of the total after the step less that before it, in milligrams."""
        return self.after.total.low - self.before.total.low

    @property
    def high(self) -> int:
        return self.after.total.high - self.before.total.high

    @property
    def difference(self) -> Band:
        """Milligrams between which the difference of the exact masses lies."""
        return Band(self.after.total.low - self.before.total.high, self.after.total.high - self.before.total.low)

    @property
    def note(self) -> str:
        """Why several groups were changed together; empty where one was."""
        if not self.refusals:
            return ""
        more = len(self.refusals) - 1
        others = f" (and {counted(more, 'sheet')} more)" if more else ""
        return f"changed together, since a sheet between{others} is {self.refusals[0]}"


@dataclass(frozen=True)
class Changes:
    """The steps from sheet A to sheet B."""
    a: Report
    b: Report
    steps: tuple[Step, ...]

    @property
    def order(self) -> str:
        return ", ".join(group.title for group in ORDER)


# ------------------------------------------------------------------ the inputs that differ


def _numbers_words(numbers: Sequence[int]) -> str:
    """1 to 4, 7 and 9."""
    runs: list[list[int]] = []
    for number in sorted(numbers):
        if runs and number == runs[-1][-1] + 1:
            runs[-1].append(number)
        else:
            runs.append([number])
    words = [word for run in runs for word in (
        [f"{run[0]} to {run[-1]}"] if len(run) > 2 else list(map(str, run)))]
    return words[0] if len(words) == 1 else f"{', '.join(words[:-1])} and {words[-1]}"


@dataclass(frozen=True)
class _Cell:
    """A field of a season or row that differs."""
    number: int
    field: str
    before: int
    after: int


def _cells(pairs: Iterable[tuple[int, Record, Record]], fields: Sequence[str]) -> list[_Cell]:
    return [_Cell(number, name, a[name], b[name]) for number, a, b in pairs for name in fields if a[name] != b[name]]


def _field_changes(cells: Sequence[_Cell], what: str, names: Sequence[str]) -> Iterator[Change]:
    """A change for each field and pair of values: seasons or rows that changed alike are named together."""
    alike: dict[tuple[str, int, int], list[int]] = {}
    for cell in cells:
        alike.setdefault((cell.field, cell.before, cell.after), []).append(cell.number)
    for (field, before, after), numbers in alike.items():
        name, unit = FIELD_NAMES[field]
        where = f"{what}s {_numbers_words(numbers)}" if len(numbers) > 1 else with_name(
            f"{what} {numbers[0]}", names, numbers[0] - 1)
        yield Change(where, name, value_words(field, before), value_words(field, after), unit)


def _rows_named(rows: Sequence[Record], numbers: Iterable[int], names: Sequence[str]) -> Iterator[Change]:
    """Rows that are in one sheet alone."""
    for i in numbers:
        what = f"{row_words(rows[i])}, {counted(rows[i]['vehicles'], 'vehicle')}"
        yield Change(with_name(f"row {i + 1}", names, i), what, "", "")


def _in_all(pairs: Sequence[tuple[int, Record, Record]], cells: Sequence[_Cell]) -> Iterator[Change]:
    """The vehicles of all rows that both sheets have, where several rows differ."""
    if len(cells) > 1:
        before, after = (sum(row["vehicles"] for row in rows) for rows in list(zip(*pairs))[1:])
        yield Change("all rows of both sheets", "vehicles", apart(before), apart(after))


def _list_changes(a: bytes, b: bytes) -> Iterator[Change]:
    """The counts of two lists that differ."""
    lists = (0, "parkings that last %s h", DURATIONS), (48, "parkings that end at hour %s", HOURS)
    for place, name, keys in lists:
        for key, before, after in zip(keys, layout.counts(a, place), layout.counts(b, place)):
            if before != after:
                yield Change("parking", name % key, apart(before), apart(after))


def _grid_changes(a: bytes, b: bytes) -> Iterator[Change]:
    """The cells of a grid that differ."""
    for t in range(24):
        for d, (before, after) in enumerate(zip(layout.counts(a, 48 * t), layout.counts(b, 48 * t))):
            if before != after:
                yield Change("parking", f"ends at hour {t + 1} after {DURATIONS[d]} h", apart(before), apart(after))


def _parking_changes(a: Values, b: Values) -> list[Change]:
    if a.parking == b.parking:
        return []
    if a.has_grid == b.has_grid:
        return list((_grid_changes if a.has_grid else _list_changes)(a.parking, b.parking))
    try:
        if grid_of(a.parking) == grid_of(b.parking):
            return []
    except InputError:  # the lists fit no grid, so that they differ from it
        pass
    return [Change("parking", "counts", *("a grid" if values.has_grid else "two lists" for values in (a, b)))]


def _season_changes(a: Values, b: Values, group: Group, names: Sequence[str]) -> list[Change]:
    """Where the sheets have other numbers of seasons these cannot be paired, and all of them are one change."""
    if len(a.seasons) == len(b.seasons):
        pairs = [(i + 1, *pair) for i, pair in enumerate(zip(a.seasons, b.seasons))]
        return list(_field_changes(_cells(pairs, group.fields), "season", names))
    if group is not SEASON_GROUPS[0]:
        return []
    return [Change("seasons", "number, with their days, temperatures and vapour pressures",
                   *(str(len(values.seasons)) for values in (a, b)))]


# ------------------------------------------------------------------ one group after another


class _Walk:
    """The way from A to B: `values` are those of the sheet between, whose rows are in the order of `pairs`."""

    def __init__(self, a: Values, b: Values, names: tuple[Names, Names]):
        self.a, self.b, self.names = a, b, names
        self.values = a
        self.pairs = matched_rows(a.rows, b.rows, names[0].rows, names[1].rows)
        self.present = [pair for pair in self.pairs if pair.a is not None]

    def change(self, group: Group) -> list[Change]:
        """Changes a group; the inputs that differ."""
        if group is REMOVED:
            return self._remove()
        if group is ADDED:
            return self._add()
        if group is PARKING:
            found = _parking_changes(self.a, self.b)
            self.values = replace(self.values, parking=self.b.parking) if found else self.values
            return found
        if group in SEASON_GROUPS:
            return self._change_seasons(group)
        return self._change_rows(group)

    def _remove(self) -> list[Change]:
        gone = [pair.a for pair in self.present if pair.a is not None and pair.b is None]
        kept = [(pair, row) for pair, row in zip(self.present, self.values.rows) if pair.b is not None]
        self.present = [pair for pair, _ in kept]
        self.values = replace(self.values, rows=tuple(row for _, row in kept))
        return list(_rows_named(self.a.rows, gone, self.names[0].rows))

    def _add(self) -> list[Change]:
        new = [pair for pair in self.pairs if pair.a is None]
        self.present += new
        numbers = [pair.b for pair in new if pair.b is not None]
        self.values = replace(self.values, rows=(*self.values.rows, *(self.b.rows[j] for j in numbers)))
        return list(_rows_named(self.b.rows, numbers, self.names[1].rows))

    def _change_seasons(self, group: Group) -> list[Change]:
        found = _season_changes(self.a, self.b, group, self.names[0].seasons)
        if not found:
            return []
        if len(self.a.seasons) != len(self.b.seasons):
            self.values = replace(self.values, seasons=self.b.seasons)
        else:
            self.values = replace(self.values, seasons=tuple(
                _taken(season, to, group.fields) for season, to in zip(self.values.seasons, self.b.seasons)))
        return found

    def _change_rows(self, group: Group) -> list[Change]:
        both = [(pair.a + 1, self.a.rows[pair.a], self.b.rows[pair.b]) for pair in self.present
                if pair.a is not None and pair.b is not None]
        cells = _cells(both, group.fields)
        self.values = replace(self.values, rows=tuple(
            row if pair.b is None else _taken(row, self.b.rows[pair.b], group.fields)
            for pair, row in zip(self.present, self.values.rows)))
        totals = _in_all(both, cells) if "vehicles" in group.fields else iter(())
        return [*totals, *_field_changes(cells, "row", self.names[0].rows)]


def _taken(record: Record, other: Record, fields: Sequence[str]) -> Record:
    """A record with some fields of another."""
    return {**record, **{name: other[name] for name in fields}}


def _reported(library: Library, values: Values, version: int) -> Report | str:
    """The report of a sheet between, or why it has none."""
    try:
        data = sheet_of(values, version)
        return library.report(data)
    except Refusal:
        return explain(library, data).line
    except InputError as error:
        return f"not possible: {error}"


def _version_change(a: Values, b: Values) -> tuple[Change, ...]:
    return (Change("sheet", "version", str(a.version), str(b.version)),)


class _Steps:
    """The steps so far, and what was changed since the last report."""

    def __init__(self, first: Report):
        self.now = first
        self.steps: list[Step] = []
        self.groups: list[Group] = []
        self.changes: list[Change] = []
        self.refusals: list[str] = []

    def take(self, group: Group, changes: Sequence[Change], reached: Report | str) -> None:
        """A group that was changed, and the report of the sheet with it, or why it has none."""
        self.groups.append(group)
        self.changes.extend(changes)
        if isinstance(reached, str):
            self.refusals.append(reached)
            return
        self.steps.append(Step(tuple(self.groups), tuple(self.changes), self.now, reached, tuple(self.refusals)))
        self.now = reached
        self.groups, self.changes, self.refusals = [], [], []


def changes_of(library: Library, a: bytes, b: bytes, names_a: Names = NoNames(),
               names_b: Names = NoNames()) -> Changes:
    """The steps from an accepted sheet to another; `names_a` and `names_b` are those of their rows and seasons. Sheets
    of two versions are compared in the later one."""
    walk = _Walk(values_of(a), values_of(b), (names_a, names_b))
    version = max(walk.a.version, walk.b.version)
    last = library.report(b)
    made = _Steps(library.report(a))
    first = made.now
    if walk.a.version < version:
        made.take(VERSION, _version_change(walk.a, walk.b), _reported(library, walk.values, version))
    for group in ORDER[1:]:
        changes = walk.change(group)
        if changes:
            made.take(group, changes, _reported(library, walk.values, version))
    if walk.b.version < version or made.now.total != last.total:
        made.take(VERSION, _version_change(walk.a, walk.b), last)
    return Changes(first, last, tuple(made.steps))
