"""Diagnosis by inputs: the one changed field of a sheet with which all filed figures agree.

Each change that people make by mistake is put into the sheet, the library makes its report, and its bands decide on
every filed figure. So an answer is checked and no guess; other changes may fit too, and how many were tried is said.
"""

from collections.abc import Callable, Iterator
from typing import NamedTuple

from evp import layout
from evp.figures import Figure, bands
from evp.layout import MILEAGE, ROW_FIELDS, SEASON_FIELDS, Field
from evp.library import Filed, Library, Outcome, Refusal
from evp.marking import Filing, Mark, Marked
from evp.wording import apart, counted, listed, name_shown

COST = 150_000  # rows times seasons that the reports of one sheet may take: a part of a second
MORE_COST = 1_500_000  # with --hints
LEAST_COST = 60  # what a report costs whatever its size
MOST_FITS = 3  # changes that are told
WRONG = ("low", "high")
FINE = (Outcome.AGREES, Outcome.FITS)
NUMBERS = ("trips", "vehicles", "minutes", "hot", "carburettor", "fill", "tank", "load", "saturation")
PAIRS = (("carburettor", "hot"), ("hot", "fill"), ("carburettor", "fill"), ("load", "saturation"), ("trips", "minutes"))
LABELS = {"saturation": "m_sat", "hot": "the share of hot ends", "carburettor": "the share of carburettors",
          "fill": "the fill level", "vp": "the vapour pressure", "lowest": "the lowest temperature",
          "highest": "the highest temperature"}


class Change(NamedTuple):
    """A changed sheet, and what is changed in words."""
    words: str
    data: bytes


class Diagnosis(NamedTuple):
    """What was found for a sheet: the changes that fit all its figures, how many were tried, and whether all were."""
    fits: list[str]
    tried: int
    whole: bool
    figures: int

    def line(self) -> str:
        """In one sentence; empty where nothing fits."""
        if not self.fits:
            return ""
        more = " (%s tried, %s)" % (counted(self.tried, "change"), _others(len(self.fits), self.whole))
        return "with %s all %d figures agree%s" % (listed_or(self.fits[:MOST_FITS]), self.figures, more)


def _others(many: int, whole: bool) -> str:
    rest = "" if whole else "; not all changes were tried"
    return ("no other fits" if many == 1 else "%d fit, so that the figures do not tell which" % many) + rest


def listed_or(words: list[str]) -> str:
    return " or with ".join(words)


# ------------------------------------------------------------------ changes


def _with(data: bytes, at: int, field: Field, value: int) -> bytes | None:
    """A sheet with another value of a field; None where the field cannot hold it."""
    least, most = field.capacity
    if not least <= value <= most:
        return None
    word = value.to_bytes(field.size, "little", signed=field.signed)
    return data[:at] + word + data[at + field.size:]


def _places(start: int, fields: tuple[Field, ...]) -> dict[str, tuple[int, Field]]:
    found = {}
    for field in fields:
        found[field.name] = start, field
        start += field.size
    return found


def _label(name: str) -> str:
    return LABELS.get(name, name)


def _slips(value: int) -> Iterator[int]:
    """The numbers that one slip makes of a number: two digits exchanged, a digit changed or left out, a decimal place
    lost."""
    word = str(abs(value))
    sign = -1 if value < 0 else 1
    seen = {value}
    found = [word[:i] + word[i + 1] + word[i] + word[i + 2:] for i in range(len(word) - 1)]
    for i in range(len(word)):
        found += [word[:i] + str((int(word[i]) + step) % 10) + word[i + 1:] for step in (1, 9, 2, 8, 3, 7, 4, 6, 5)]
    found += [word + "0", word[:-1] or "0", word + "00", word[:-2] or "0"]
    found += [word[:i] + word[i + 1:] for i in range(len(word) - 1)]
    for one in found:
        number = sign * int(one)
        if number not in seen:
            seen.add(number)
            yield number


class Changes:
    """The changes of one sheet, those of rows with wrong figures first."""

    def __init__(self, data: bytes, rows: list[int]):
        self.data, self.rows = data, rows
        fields = (*ROW_FIELDS, MILEAGE) if layout.has_mileage(data) else ROW_FIELDS
        self.row_fields = [_places(layout.row_place(data, i), fields) for i in range(layout.row_count(data))]
        self.season_fields = [_places(layout.season_place(data, i), SEASON_FIELDS)
                              for i in range(layout.season_count(data))]

    def all(self) -> Iterator[Change]:
        yield from self._left_out()
        yield from self._exchanged()
        yield from self._fahrenheit()
        yield from self._of_rows("trips")
        yield from self._seasons()
        for name in ("minutes", "hot", "vehicles", "fill", "carburettor", "load", "saturation", "tank"):
            yield from self._of_rows(name)
        yield from self._copied()

    def _value(self, place: tuple[int, Field]) -> int:
        at, field = place
        return layout.number_at(self.data, at, field.size, field.signed)

    def _change(self, words: str, *values: tuple[tuple[int, Field], int]) -> Iterator[Change]:
        data: bytes | None = self.data
        for (at, field), value in values:
            data = _with(data, at, field, value) if data is not None else None
        if data is not None and data != self.data:
            yield Change(words, data)

    def _left_out(self) -> Iterator[Change]:
        for i in self.rows:
            yield from self._change("row %d left out" % (i + 1), (self.row_fields[i]["vehicles"], 0))
        seasons = layout.season_count(self.data)
        for i in range(seasons) if seasons > 1 else ():
            at = layout.season_place(self.data, i)
            data = self.data[:5] + bytes([seasons - 1]) + self.data[6:at] + self.data[at + layout.SEASON_BYTES:]
            yield Change("season %d left out" % (i + 1), data)

    def _seasons(self) -> Iterator[Change]:
        for i, places in enumerate(self.season_fields, 1):
            for name, place in places.items():
                value = self._value(place)
                others = [("", other) for other in _slips(value)]
                if name in ("lowest", "highest"):
                    others = [(" (read as °F)", round((value - 320) * 5 / 9)),
                              (" (put in °F)", round(value * 9 / 5 + 320)), ("", -value), *others]
                for words, other in others:
                    yield from self._change("%s of season %d %s in place of %s%s" % (
                        _label(name), i, place[1].shown(other), place[1].shown(value), words), (place, other))
        for i, one in enumerate(self.season_fields):
            for j in range(i):
                for name in ("days", "vp"):
                    a, b = one[name], self.season_fields[j][name]
                    yield from self._change("%s of seasons %d and %d exchanged" % (_label(name), j + 1, i + 1),
                                            (a, self._value(b)), (b, self._value(a)))

    def _fahrenheit(self) -> Iterator[Change]:
        """All temperatures of the sheet in the other unit."""
        places = [one[name] for one in self.season_fields for name in ("lowest", "highest")]
        for words, factor, less, more in (("all temperatures read as °F", 5 / 9, 320, 0),
                                          ("all temperatures put in °F", 9 / 5, 0, 320)):
            yield from self._change(words, *(
                (place, round((self._value(place) - less) * factor) + more) for place in places))

    def _exchanged(self) -> Iterator[Change]:
        for one, other in PAIRS:
            swaps: list[tuple[tuple[int, Field], int]] = []
            for i in self.rows:
                a, b = self.row_fields[i][one], self.row_fields[i][other]
                pair = (a, self._value(b)), (b, self._value(a))
                swaps += pair
                yield from self._change("%s and %s of row %d exchanged" % (_label(one), _label(other), i + 1), *pair)
            if len(self.rows) > 1:
                yield from self._change("%s and %s exchanged in all rows" % (_label(one), _label(other)), *swaps)
        for name in ("hot", "carburettor"):
            places = [(self.row_fields[i][name], 100 - self._value(self.row_fields[i][name])) for i in self.rows]
            yield from self._change("%s taken from 100 %% in all rows" % _label(name), *places)
        for i in self.rows:
            if "mileage" in self.row_fields[i]:
                load, mileage = self.row_fields[i]["load"], self.row_fields[i]["mileage"]
                for words, value in (("", self._value(mileage) // 1000), (" / 10", self._value(mileage) // 10_000)):
                    yield from self._change("the mileage of row %d taken for a load%s" % (i + 1, words),
                                            (load, value), (mileage, 0))
                yield from self._change("the mileage of row %d left out" % (i + 1), (mileage, 0))

    def _of_rows(self, name: str) -> Iterator[Change]:
        """One number written wrong: in all rows that have it, as where it was looked up once, and in each row."""
        shared: dict[int, list[int]] = {}
        for i, places in enumerate(self.row_fields):
            shared.setdefault(self._value(places[name]), []).append(i)
        for value, rows in shared.items():
            if len(rows) > 1 and value and not {*rows}.isdisjoint(self.rows):
                field = self.row_fields[0][name][1]
                for other in _slips(value):
                    yield from self._change("%s of rows %s %s in place of %s" % (
                        _label(name), listed(str(i + 1) for i in rows), field.shown(other), field.shown(value)),
                        *((self.row_fields[i][name], other) for i in rows))
        for i in self.rows:
            place = self.row_fields[i][name]
            value = self._value(place)
            for other in _slips(value):
                yield from self._change("%s of row %d %s in place of %s" % (
                    _label(name), i + 1, place[1].shown(other), place[1].shown(value)), (place, other))

    def _copied(self) -> Iterator[Change]:
        """A field of one row taken for that of another."""
        for name in ("trips", "vehicles", "technology", "class", "canister", "minutes", "hot", "fill"):
            for i in self.rows:
                place = self.row_fields[i][name]
                for j in range(len(self.row_fields)):
                    if j != i:
                        yield from self._change("%s of row %d taken for row %d" % (_label(name), j + 1, i + 1),
                                                (place, self._value(self.row_fields[j][name])))


# ------------------------------------------------------------------ trials


def diagnose(library: Library, sheet: Marked, filings: dict[Figure, Filing], wrong: set[Figure],
             cost: int) -> Diagnosis:
    """Tries changes of a sheet, as many as the cost allows, on all its filed figures."""
    figures = [(figure, filing.filed) for figure, filing in filings.items()
               if filing.filed is not None and not filing.tens and figure in sheet.bands]
    figures.sort(key=lambda one: one[0] not in wrong)  # those that a change must mend come first
    data, tried, seen = sheet.data, 0, set[bytes]()
    fits: list[str] = []
    each = max(LEAST_COST, layout.row_count(data) * layout.season_count(data))
    for change in Changes(data, _rows(sheet, filings, wrong)).all():
        if change.data in seen:
            continue
        if cost < each:
            return Diagnosis(fits, tried, False, len(figures))
        seen.add(change.data)
        cost, tried = cost - each, tried + 1
        if _fits(library, change.data, figures):
            fits.append(change.words)
    return Diagnosis(fits, tried, True, len(figures))


def _rows(sheet: Marked, filings: dict[Figure, Filing], wrong: set[Figure]) -> list[int]:
    """The rows to change: those with a wrong figure of their own where there are such, else all; rows without vehicles
    change nothing."""
    many = layout.row_count(sheet.data)
    own = sorted({int(figure.row) - 1 for figure in wrong if figure.row.isdigit() and int(figure.row) <= many})
    return own or list(range(many))


def _fits(library: Library, data: bytes, figures: list[tuple[Figure, Filed]]) -> bool:
    try:
        found = bands(library.report(data))
    except Refusal:
        return False
    return all(figure in found and library.mark(filed, found[figure]).outcome in FINE for figure, filed in figures)


def diagnose_all(library: Library, sheets: dict[str, Marked], filings: list[Filing], marks: list[Mark], more: bool,
                 progress: Callable[[int, int], None], explained: set[str]) -> dict[str, Diagnosis]:
    """The diagnoses of all sheets with two wrong figures or more that nothing simpler explains."""
    of_sheet: dict[str, dict[Figure, Filing]] = {}
    wrong: dict[str, set[Figure]] = {}
    for filing, mark in zip(filings, marks):
        if filing.filed is not None:
            of_sheet.setdefault(filing.sheet, {})[filing.figure] = filing
            if mark.verdict in WRONG:
                wrong.setdefault(filing.sheet, set()).add(filing.figure)
    wanting = [name for name, figures in wrong.items() if name not in explained and len(of_sheet[name]) >= 3]
    found = {}
    for done, name in enumerate(wanting, 1):
        found[name] = diagnose(library, sheets[name], of_sheet[name], wrong[name], MORE_COST if more else COST)
        progress(done, len(wanting))
    return found


def lines(found: dict[str, Diagnosis], all_of_them: bool) -> Iterator[str]:
    """A line for each sheet that a change explains; for all of them also for those that none explains."""
    for name, diagnosis in found.items():
        if diagnosis.fits:
            yield "%s: %s" % (name_shown(name), diagnosis.line())
        elif diagnosis.tried and all_of_them:
            yield "%s: none of %s changes of one input explains the figures" % (
                name_shown(name), apart(diagnosis.tried))
