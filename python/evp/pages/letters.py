"""The letter of a participant: one page, printable on A4."""

from collections import Counter
from typing import NamedTuple

from evp import layout
from evp.explain import contents
from evp.figures import GROUP_NAMES, TOTAL, Figure
from evp.letters import Participant
from evp.library import GROUPS, MECHANISMS
from evp.marking import FINE
from evp.masses import shown
from evp.pages.classes import Judged
from evp.pages.interval import interval_of
from evp.pages.render import render
from evp.wording import apart, counted, listed, shortened

MOST_ROWS = 12  # in the small table
MOST_WRONG = 30
MOST_READINGS = 12
SIGNS = {"agrees": "✓", "fits": "✓", "low": "▼", "high": "▲"}
WIDTH = 70  # of half a bar, which is 50 %


class Line(NamedTuple):
    """A wrong figure: its name, what was filed, the mass, the bar from and to, how far it is off."""
    name: str
    filed: str
    mass: str
    start: float
    width: float
    deviation: str
    by: str
    verdict: str


def page_letter(one: Participant, marked_by: str = "") -> str:
    """The letter of a participant."""
    judged = [Judged(filing.figure, filing.filed, mark, filing.tens) for filing, mark in zip(one.filings, one.marks)]
    wrong = [found for found in judged if found.wrong]
    right = [found for found in judged if found.verdict in FINE]
    unread = [found for found in judged if found.verdict in ("unreadable", "absent")]
    refusal = one.sheet.refusal or one.sheet.unread if one.sheet else "there is no such sheet"
    return render(
        "letter.html", name=one.name, heading=_heading(one, wrong, right, unread), about=_about(one), refusal=refusal,
        glance=_glance(judged), wrong=[_line(found) for found in wrong[:MOST_WRONG]],
        more_wrong=max(len(wrong) - MOST_WRONG, 0), right=right, unread=unread, sides=_sides(wrong),
        findings=[found.text for found in one.findings], diagnosis=one.diagnosis, guesses=one.guesses,
        readings=one.readings[:MOST_READINGS], more_readings=max(len(one.readings) - MOST_READINGS, 0),
        before=_before(one), before_words=_before_words(one), marked_by=marked_by,
        example=next((found for found in (*wrong, *right) if found.drawn), None))


def _heading(one: Participant, wrong: list[Judged], right: list[Judged], unread: list[Judged]) -> str:
    if not one.marks:
        return "Nothing was filed"
    if one.sheet is None or one.sheet.refusal or one.sheet.unread:
        return "Your figures could not be marked"
    counts = Counter(found.verdict for found in wrong)
    words = ["%d too %s" % (counts[side], side) for side in ("low", "high") if counts[side]]
    words += ["%d cannot be compared" % len(unread)] if unread else []
    if not words:
        return "All %d of your figures are right" % len(right) if len(right) > 1 else "Your figure is right"
    return "%d of your figures %s right, %s" % (len(right), "is" if len(right) == 1 else "are", listed(words))


def _about(one: Participant) -> str:
    if one.sheet is None or not one.sheet.bands:
        return ""
    data = one.sheet.data
    vehicles = sum(layout.row(data, i)["vehicles"] for i in range(layout.row_count(data)))
    return "Your sheet was accepted: %s, %s vehicles. You filed %s for it." % (
        contents(data), apart(vehicles), counted(sum(bool(mark.row) for mark in one.marks), "mass").replace(
            "masss", "masses"))


def _glance(judged: list[Judged]) -> list[tuple[str, list[tuple[str, str]]]]:
    """Rows by mechanisms, each a sign and a class; the total is the last."""
    by_figure = {found.figure: found for found in judged}
    rows = [figure.row for figure in by_figure if figure.row.isdigit()]
    shown_rows = sorted(dict.fromkeys(rows), key=int)[:MOST_ROWS]
    found = []
    for row in (*shown_rows, *GROUPS):
        cells = [_sign(by_figure.get(Figure(row, mechanism))) for mechanism in MECHANISMS]
        if any(sign != "–" for sign, _ in cells):
            found.append((GROUP_NAMES.get(row, "row " + row), cells))
    total = by_figure.get(Figure(TOTAL, ""))
    return found + ([("total", [_sign(total)])] if total else [])


def _sign(found: Judged | None) -> tuple[str, str]:
    if found is None:
        return "–", ""
    return SIGNS.get(found.verdict, "?"), "bad-" + found.verdict if found.wrong else (
        "good" if found.verdict in FINE else "unread")


def _sides(wrong: list[Judged]) -> str:
    sides = {found.verdict for found in wrong}
    return "Too %s" % listed(sorted(sides, reverse=True)) if len(sides) == 1 else "Too low or too high"


def _line(found: Judged) -> Line:
    band = found.band
    assert band is not None and found.filed is not None
    middle = (band.low + band.high) / 2
    ratio = float(interval_of(found.filed).value * 10 ** found.tens) / middle - 1 if middle else 1.0
    width = max(min(abs(ratio), 0.5) * 2 * WIDTH, 1.5)
    return Line(found.name[0].upper() + found.name[1:], found.text, shown(band, found.filed.unit.name.lower()),
                75 if ratio > 0 else 75 - width, width, found.deviation, found.by, found.verdict)


def _before(one: Participant) -> list[tuple[str, str, str, str, str]]:
    """The figures that were wrong before or are now: what was filed then and is now, with both verdicts."""
    found = []
    for filing, mark in zip(one.filings, one.marks):
        earlier = one.before.get(filing.figure)
        if earlier and not (earlier.verdict in FINE and mark.verdict in FINE):
            found.append((filing.figure.name, "%s %s" % (shortened(earlier.mass, 20), earlier.unit), earlier.verdict,
                          "%s %s" % (shortened(filing.mass, 20), filing.unit), mark.verdict))
    return found[:MOST_WRONG]


def _before_words(one: Participant) -> str:
    if not one.before:
        return ""
    now = {filing.figure: mark.verdict in FINE for filing, mark in zip(one.filings, one.marks)}
    then = {figure: earlier.verdict in FINE for figure, earlier in one.before.items()}
    mended = sum(now[figure] and not then[figure] for figure in now if figure in then)
    spoiled = sum(then[figure] and not now[figure] for figure in now if figure in then)
    still = sum(not then[figure] and not now[figure] for figure in now if figure in then)
    return "Since your first submission %s put right, %s still not right, and %s no longer right." % (
        _are(mended), _are(still), _are(spoiled))


def _are(many: int) -> str:
    return "%s %s" % (counted(many, "figure"), "is" if many == 1 else "are")
