"""Filed masses marked against the bands of their sheets. The verdict is the library's."""

import hashlib
from collections import Counter
from collections.abc import Iterable, Iterator
from fractions import Fraction
from typing import NamedTuple

from evp.collecting import no_collection
from evp.explain import explain
from evp.figures import Figure, bands
from evp.layout import row_count
from evp.library import Band, Filed, Library, Outcome, Refusal, Verdict
from evp.masses import shown
from evp.tables import table_text
from evp.wording import apart, counted, name_shown, printable, shortened

COLUMNS = ["sheet", "row", "mechanism", "mass", "unit"]
MOST_WORD = 2 ** 64 - 1
FINE = ("agrees", "fits")
# The first five as the library counts them.
VERDICTS = ("agrees", "fits", "low", "high", "unreadable", "refused", "absent", "missing")
SETTLES_NOTHING = "the band does not settle it: it reaches over a rounding edge"


class Filing(NamedTuple):
    """A filed figure: its sheet and figure as they were read, its mass and unit as they were written, and the mass for
    the library, which is to be taken 10^tens times; None where it cannot be read, with the reason. A table that cannot
    be read at all is a filing without a figure."""
    sheet: str
    figure: Figure
    mass: str
    unit: str
    filed: Filed | None
    problem: str = ""
    tens: int = 0
    place: str = ""


class Mark(NamedTuple):
    """A line of marks.csv. What a verdict has not is empty."""
    sheet: str
    row: str
    mechanism: str
    mass: str
    unit: str
    verdict: str
    low_mg: int | str = ""
    high_mg: int | str = ""
    off_mg: int | str = ""
    note: str = ""
    sha256: str = ""


# ------------------------------------------------------------------ sheets


class Marked(NamedTuple):
    """A sheet of the folder: its digest, and its bands or why it has none: it is refused, or it cannot be read."""
    data: bytes
    digest: str
    bands: dict[Figure, Band]
    refusal: str = ""
    unread: str = ""


def marked(library: Library, data: bytes, digest: str = "") -> Marked:
    """A sheet by its bytes; `digest` where they are not all that its file has."""
    digest = digest or hashlib.sha256(data).hexdigest()
    try:
        return Marked(data, digest, bands(library.report(data)))
    except Refusal:
        return Marked(data, digest, {}, explain(library, data).line)


# ------------------------------------------------------------------ marks


def marks_of(library: Library, sheets: dict[str, Marked], filings: Iterable[Filing]) -> list[Mark]:
    """The marks of all filed masses, and of the sheets that nobody filed for."""
    marks, filed_for = [], set()
    with no_collection():
        for filing in filings:
            filed_for.add(filing.sheet)
            marks.append(_mark(library, sheets, filing))
    for name, sheet in sheets.items():
        if name not in filed_for:
            note = "nobody filed for this sheet" + (": " + sheet.unread if sheet.unread else "")
            marks.append(Mark(name, "", "", "", "", "missing", note=note, sha256=sheet.digest))
    return marks


def _mark(library: Library, sheets: dict[str, Marked], filing: Filing) -> Mark:
    filed = filing.sheet, filing.figure.row, filing.figure.mechanism, filing.mass, filing.unit
    sheet = sheets.get(filing.sheet)
    if filing.filed is None:
        return Mark(*filed, "unreadable", note=filing.problem, sha256=sheet.digest if sheet else "")
    if sheet is None:
        return Mark(*filed, "absent", note=_no_sheet(filing.sheet, sheets))
    if sheet.unread:
        return Mark(*filed, "unreadable", note=sheet.unread)
    if sheet.refusal:
        return Mark(*filed, "refused", note=sheet.refusal, sha256=sheet.digest)
    band = sheet.bands.get(filing.figure)
    if band is None:
        note = "the sheet has %s" % counted(row_count(sheet.data), "row")
        return Mark(*filed, "absent", note=note, sha256=sheet.digest)
    outcome, off = verdict_of(library, filing.filed, filing.tens, band)
    wrong = outcome in (Outcome.LOW, Outcome.HIGH)
    return Mark(*filed, VERDICTS[outcome], band.low, band.high, off if wrong else "",
                _note(outcome, filing.filed, filing.tens, band), sheet.digest)


def verdict_of(library: Library, filed: Filed, tens: int, band: Band) -> Verdict:
    """The library's verdict on a mass that is to be taken 10^tens times, as 133 times 100 t for 13.3 kt. The library
    has no such unit: it is asked for 133 t and the band in units 10^tens times as large, rounded outwards. So what it
    calls agreeing, low or high is so, by at least as much; within one such unit of a rounding edge it may say `fits`.
    """
    if not tens:
        return library.mark(filed, band)
    step = 10 ** tens
    found = library.mark(filed, Band(band.low // step, -(-band.high // step)))
    return Verdict(found.outcome, found.off * step)


def _note(outcome: Outcome, filed: Filed, tens: int, band: Band) -> str:
    if outcome == Outcome.UNREADABLE:
        return _beyond(filed, tens)
    if outcome == Outcome.FITS:
        return SETTLES_NOTHING
    return "" if outcome == Outcome.AGREES else "the mass is %s" % shown(band, filed.unit.name.lower())


def _beyond(filed: Filed, tens: int) -> str:
    """What of a figure is beyond those that the library reads."""
    power = 3 * filed.unit - filed.places + tens
    if power < -6:
        return "a last place below 10^-6 mg"
    return "10^18 mg or more" if filed.digits * Fraction(10) ** power >= 10 ** 18 else "more than 18 digits"


def _no_sheet(name: str, sheets: dict[str, Marked]) -> str:
    if name + ".evp" in sheets:
        return "there is no such sheet; %s is there" % name_shown(name + ".evp")
    return "there is no such sheet in the folder"


def marks_csv(marks: Iterable[Mark], semicolon: bool) -> str:
    return table_text(Mark._fields, marks, semicolon)


def summary(marks: list[Mark], sheets: int) -> Iterator[str]:
    """How many of each verdict, and what to look at, sheet by sheet."""
    counts = Counter(mark.verdict for mark in marks if mark.row or mark.verdict == "missing")
    figures = sum(counts.values()) - counts["missing"]
    yield "%s, %s: %s" % (counted(sheets, "sheet"), counted(figures, "figure"), _verdicts(counts))
    wrong: dict[str, list[Mark]] = {}
    for mark in marks:
        if mark.verdict not in FINE:
            wrong.setdefault(mark.sheet, []).append(mark)
    for sheet, found in wrong.items():
        yield "  %s: %s" % (name_shown(sheet), _sheet_summary(found))


def _sheet_summary(marks: list[Mark]) -> str:
    first = marks[0]
    if first.verdict in ("refused", "missing") or not first.row:
        return first.note
    if first.verdict in ("absent", "unreadable") and not first.sha256 and len({mark.note for mark in marks}) == 1:
        return "%s filed, and %s" % (counted(len(marks), "figure"), first.note)
    words = _verdicts(Counter(mark.verdict for mark in marks))
    mass = " ".join(filter(None, (shortened(first.mass), shortened(first.unit, 20)))) if first.mass else "nothing"
    filed = "%s: %s filed" % (printable(shortened(Figure(first.row, first.mechanism).name)), printable(mass))
    return "%s; first %s, %s" % (words, filed, first.note)


def _verdicts(counts: Counter[str]) -> str:
    return ", ".join("%s %s" % (apart(counts[verdict]), verdict) for verdict in VERDICTS if counts[verdict]) or "none"
