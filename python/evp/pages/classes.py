"""The page of a class: sheets by figures with their verdicts, what is wrong first."""

from base64 import b64encode
from collections import Counter
from collections.abc import Iterable
from typing import NamedTuple

from markupsafe import Markup

from evp.figures import GROUP_NAMES, TOTAL, Figure
from evp.intake import Taken
from evp.library import GROUPS, MECHANISMS, Band, Filed, Unit
from evp.marking import Filing, Mark, Marked
from evp.pages.interval import deviation, edges_text, figure_text, picture
from evp.pages.render import render
from evp.pages.words import about, listed
from evp.wording import counted, name_shown, shortened

ACROSS = [Figure(group, mechanism) for group in GROUPS for mechanism in MECHANISMS] + [Figure(TOTAL, "")]
ORDER = ("wrong", "refused", "unclear", "missing", "fits", "agrees")  # states of a sheet, what to look at first
LOOK = ORDER[:4]
WRONG = ("low", "high")
MOST_DETAILS = 60  # figures of rows that are told one by one
MOST_NAMES = 2_000  # sheets, and names without a sheet, that a page lists
MOST_REMARKS = 60  # on how tables were read
MOST_READINGS = 300
MEANINGS = {
    "agrees": "the band lies in the bar: the exact mass rounds to the figure",
    "fits": "the band reaches over the bar’s edge: it cannot settle the figure",
    "low": "the bar ends before the band: the figure is too small",
    "high": "the bar starts behind the band: the figure is too large",
    "refused": "the sheet has no bands: the check stops at a fault",
    "absent": "a figure was filed, and its sheet or row is not there",
    "unreadable": "the figure cannot be read or compared; the reason is beside it",
    "missing": "the sheet is there, and nobody filed for it",
}


class Judged(NamedTuple):
    """A filed figure with its verdict."""
    figure: Figure
    filed: Filed | None
    mark: Mark
    tens: int = 0

    @property
    def verdict(self) -> str:
        return self.mark.verdict

    @property
    def name(self) -> str:
        return self.figure.name if self.figure.row else "the table"

    @property
    def band(self) -> Band | None:
        return Band(self.mark.low_mg, self.mark.high_mg) if self.mark.low_mg != "" else None

    @property
    def drawn(self) -> bool:
        """Whether the figure can be drawn with its band: it is read, and in one of the units of the library."""
        return self.band is not None and self.filed is not None and not self.tens and self.verdict != "unreadable"

    @property
    def wrong(self) -> bool:
        return self.verdict in WRONG

    @property
    def text(self) -> str:
        if self.filed is None or self.tens or self.filed.digits >= 1 << 63:
            return ("%s %s" % (shortened(self.mark.mass), self.mark.unit)).strip()
        return "%s %s" % (figure_text(self.filed), self.filed.unit.name.lower())

    @property
    def edges(self) -> str:
        return "%s %s" % (edges_text(self.filed), self.filed.unit.name.lower()) if self.drawn else ""

    @property
    def deviation(self) -> str:
        return deviation(self.filed, self.band, self.tens)

    @property
    def by(self) -> str:
        return about(self.mark.off_mg)

    @property
    def guess(self) -> str:
        return self.mark.note.partition("; guess: ")[2]

    @property
    def why(self) -> str:
        """Why the band does not settle it, or why it cannot be compared."""
        if self.verdict == "fits" and self.drawn:
            step = 2 * 10 ** (3 * self.filed.unit) < 2 * (self.band.high - self.band.low) * 10 ** self.filed.places
            return "filed finer than the band is wide" if step else "the band reaches over a rounding edge"
        note = self.mark.note if self.verdict in ("absent", "unreadable", "fits") else ""
        return note.replace("10^18", "10¹⁸").replace("10^-6", "10⁻⁶")

    @property
    def small(self) -> Markup:
        return picture(self.filed, self.band, self.verdict)

    @property
    def large(self) -> Markup:
        return picture(self.filed, self.band, self.verdict, 240, 26)


class Sheet(NamedTuple):
    """A sheet of the class, or a name for which there is no sheet."""
    id: str
    file: str
    name: str
    judged: list[Judged]
    refusal: str
    there: bool
    wanted: tuple[Figure, ...] = ()  # that others filed

    @property
    def across(self) -> dict[Figure, Judged]:
        return {judged.figure: judged for judged in self.judged if not judged.figure.row.isdigit()}

    @property
    def rows(self) -> list[Judged]:
        return [judged for judged in self.judged if judged.figure.row.isdigit()]

    def count(self, *verdicts: str) -> int:
        return sum(judged.verdict in verdicts for judged in self.judged)

    @property
    def state(self) -> str:
        if self.refusal:
            return "refused"
        if not self.judged:
            return "missing"
        if self.count(*WRONG):
            return "wrong"
        return "unclear" if self.count("absent", "unreadable") else "fits" if self.count("fits") else "agrees"

    @property
    def words(self) -> str:
        """What is wrong, and by how much."""
        parts = [self._wrong_words(), self._settled_words()]
        parts += ["%s %s: %s" % (judged.name, judged.verdict, judged.why) for judged in self.judged
                  if judged.verdict in ("absent", "unreadable")][:2]
        wrong = list(filter(None, parts)) or [self._fine_words()]
        return "; ".join([*wrong, *filter(None, [self._missing_words()])])

    def _fine_words(self) -> str:
        return "all %d agree" % len(self.judged) if len(self.judged) > 1 else "the one figure agrees"

    def _missing_words(self) -> str:
        left_out = [figure.name for figure in self.wanted if figure not in self.across]
        return "" if not left_out else "%s not filed" % (
            listed(left_out) if len(left_out) <= 2 else "%d subtotals" % len(left_out))

    def _wrong_words(self) -> str:
        wrong = [judged for judged in self.judged if judged.wrong]
        if len(wrong) <= 2:
            return "; ".join("%s %s by %s (%s)" % (j.name, j.verdict, j.by, j.deviation) for j in wrong)
        most = max(wrong, key=lambda judged: judged.mark.off_mg)
        counts = listed("%d %s" % (self.count(side), side) for side in WRONG if self.count(side))
        return "%s; most: %s by %s (%s)" % (counts, most.name, most.by, most.deviation)

    def _settled_words(self) -> str:
        fits = [judged.name for judged in self.judged if judged.verdict == "fits"]
        if not fits:
            return ""
        what = ", ".join(fits) if len(fits) <= 2 else "%d of %d" % (len(fits), len(self.judged))
        return "%s cannot be settled" % what

    @property
    def guesses(self) -> list[str]:
        counts = Counter(judged.guess for judged in self.judged if judged.guess)
        return ["%s: %s?" % (counted(many, "figure"), guess) for guess, many in counts.most_common()]

    @property
    def row_words(self) -> list[tuple[str, int]]:
        """The verdicts of rows, what is wrong first."""
        counts = Counter(judged.verdict for judged in self.rows)
        order = ("high", "low", "absent", "unreadable", "fits", "agrees")
        return [(verdict, counts[verdict]) for verdict in order if counts[verdict]]

    @property
    def details(self) -> list[Judged]:
        """The figures that are told one by one: of many rows those that do not agree."""
        rows = self.rows
        if len(rows) > MOST_DETAILS:
            rows = [judged for judged in rows if judged.verdict != "agrees"][:MOST_DETAILS]
        return [*self.across.values(), *rows]

    @property
    def rest(self) -> int:
        return len(self.judged) - len(self.details)


def _sheets(sheets: dict[str, Marked], filings: Iterable[Filing], marks: Iterable[Mark],
            across: tuple[Figure, ...]) -> list[Sheet]:
    judged: dict[str, list[Judged]] = {name: [] for name in sheets}
    for filing, mark in zip(filings, marks):
        judged.setdefault(filing.sheet, []).append(Judged(filing.figure, filing.filed, mark, filing.tens))
    found = [Sheet("s%d" % i, file, name_shown(file).removesuffix(".evp"), of_sheet,
                   sheets[file].refusal if file in sheets else "", file in sheets, across)
             for i, (file, of_sheet) in enumerate(judged.items(), 1)]
    return sorted(found, key=lambda sheet: (ORDER.index(sheet.state), -sheet.count(*WRONG), sheet.name))


def _heading(sheets: list[Sheet]) -> str:
    """The answer: how many sheets to look at."""
    there = [sheet for sheet in sheets if sheet.there]
    look = sum(sheet.state in LOOK for sheet in there)
    if not there:
        return "No sheet"
    told = counted(len(there), "sheet")
    return "%d of %s to look at" % (look, told) if look else "%s, %sfine" % (told, "all " if len(there) > 1 else "")


def _lead(sheets: list[Sheet]) -> str:
    """How many sheets to look at, and why, in a sentence."""
    states = Counter(sheet.state for sheet in sheets if sheet.there)
    nowhere = sum(not sheet.there for sheet in sheets)
    words = {
        "wrong": ("has a wrong figure", "have a wrong figure"), "refused": ("is refused", "are refused"),
        "unclear": ("has a figure that cannot be compared", "have a figure that cannot be compared"),
        "missing": ("was not filed for", "were not filed for"),
    }
    look = listed("%d %s" % (states[state], words[state][states[state] > 1]) for state in LOOK if states[state])
    fine = sum(states[state] for state in ORDER if state not in LOOK)
    unsettled = "the band cannot settle a figure of it" if fine == 1 else (
        "in %d of them the band cannot settle a figure" % states["fits"])
    end = "; " + unsettled if states["fits"] else ""
    beyond = " Figures were filed for %s without a sheet." % counted(nowhere, "name") if nowhere else ""
    rest = "None is" if not fine else "%d %s" % (fine, "is" if fine == 1 else "are")
    told = "%s%s fine%s." % (look + ". " if look else "", rest, end) if states else ""
    return (told + beyond).strip()


EXAMPLE = Filed(283, 2, Unit.T)
EXAMPLE_BANDS = {
    "agrees": Band(2831491356, 2831497572), "fits": Band(2834996000, 2835002216),
    "low": Band(2843491356, 2843497572), "high": Band(2816491356, 2816497572),
}


def _legend(counts: Counter) -> list[dict]:
    return [{"verdict": verdict, "words": words, "many": counts[verdict],
             "picture": picture(EXAMPLE, EXAMPLE_BANDS[verdict], verdict) if verdict in EXAMPLE_BANDS else None}
            for verdict, words in MEANINGS.items() if counts[verdict] or verdict in EXAMPLE_BANDS]


def page_class(sheets: dict[str, Marked], filings: list[Filing], marks: list[Mark], served: bool = False,
               pages: dict[str, str] | None = None, packed: dict[str, dict] | None = None, hints: bool = False,
               marks_csv: str = "", taken: Taken | None = None, remarks: Iterable[str] = ()) -> str:
    """The marks of a class. `pages` has the page of a sheet by its file, `packed` what a served page sends for it."""
    counts = Counter(mark.verdict for mark in marks)
    filed = {filing.figure for filing in filings}
    across = tuple(figure for figure in ACROSS if figure in filed)
    found = _sheets(sheets, filings, marks, across)
    heads = [(GROUP_NAMES[group], [figure for figure in across if figure.row == group]) for group in GROUPS]
    listed_sheets = found[:MOST_NAMES]  # what to look at comes first
    return render(
        "class.html", served, heading=_heading(found), lead=_lead(found), more=len(found) - len(listed_sheets),
        look=[sheet for sheet in listed_sheets if sheet.state in LOOK],
        fine=[sheet for sheet in listed_sheets if sheet.state not in LOOK],
        counts=counts, legend=_legend(counts), across=across, heads=[head for head in heads if head[1]],
        with_total=Figure(TOTAL, "") in filed, with_rows=any(figure.row.isdigit() for figure in filed),
        pages=pages or {}, packed=packed or {}, hints=hints, remarks=taken.remarks[:MOST_REMARKS] if taken else [],
        shows=[remark.strip() for remark in remarks][:MOST_REMARKS],
        readings=taken.readings[:MOST_READINGS] if taken else [],
        more_readings=max(len(taken.readings) - MOST_READINGS, 0) if taken else 0,
        marks=b64encode(marks_csv.encode("utf-8", "replace")).decode())
