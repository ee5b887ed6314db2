"""A filing against itself: rows that do not add up to their filed subtotal, subtotals that do not add up to the total,
two digits exchanged, a figure copied from its neighbour. Nothing is guessed: the filed digits alone tell it, and where
a repaired figure is named the library has found it right."""

from collections.abc import Iterable, Iterator, Sequence
from typing import NamedTuple

from evp import layout
from evp.figures import TOTAL, Figure
from evp.library import GROUPS, MECHANISMS, Filed, Library, Outcome
from evp.marking import Filing, Mark, Marked
from evp.masses import best_unit, exact
from evp.wording import listed

CLASSES = {"cars": range(1, 4), "light": range(4, 5), "two": range(5, 10)}
FINEST = -6  # the power of ten, in milligrams, of the last place that is added up
MOST_ROWS = 12  # rows that are named one by one


class Finding(NamedTuple):
    """What does not fit in the filing of a sheet, in a sentence, and the figures that it is about."""
    sheet: str
    figures: tuple[Figure, ...]
    text: str


class _Amount(NamedTuple):
    """What a figure stands for: its middle and half its last place, in halves of 10^-6 mg."""
    middle: int
    half: int


def _amount(filing: Filing) -> _Amount | None:
    if filing.filed is None:
        return None
    power = 3 * filing.filed.unit - filing.filed.places + filing.tens - FINEST
    if power < 0 or power > 40 or filing.filed.digits > 10 ** 18:
        return None
    return _Amount(2 * filing.filed.digits * 10 ** power, 10 ** power)


def against_themselves(library: Library, sheets: dict[str, Marked], filings: Sequence[Filing],
                       marks: Sequence[Mark]) -> dict[str, list[Finding]]:
    """What does not fit in the filing of each sheet."""
    by_sheet: dict[str, dict[Figure, int]] = {}
    for i, filing in enumerate(filings):
        if filing.filed is not None and filing.sheet in sheets:
            by_sheet.setdefault(filing.sheet, {})[filing.figure] = i
    found = {}
    for name, places in by_sheet.items():
        if not any(marks[i].verdict in ("low", "high") for i in places.values()):
            continue  # what agrees or fits adds up
        of_sheet = _Filing(library, name, sheets[name], {figure: filings[i] for figure, i in places.items()},
                           {figure: marks[i].verdict for figure, i in places.items()})
        lines = [*of_sheet.sums(), *of_sheet.digits(), *of_sheet.copies()]
        if lines:
            found[name] = lines
    return found


class _Filing:
    """The filing of one sheet."""

    def __init__(self, library: Library, name: str, sheet: Marked, filings: dict[Figure, Filing],
                 verdicts: dict[Figure, str]):
        self.library, self.name, self.sheet, self.filings, self.verdicts = library, name, sheet, filings, verdicts
        self.amounts = {figure: amount for figure, filing in filings.items() if (amount := _amount(filing))}
        self.told: set[Figure] = set()

    def sums(self) -> Iterator[Finding]:
        """The sums that do not come out."""
        for parts, whole in self._all_sums():
            if whole not in self.amounts or any(part not in self.amounts for part in parts) or not parts:
                continue
            low = sum(self.amounts[part].middle - self.amounts[part].half for part in parts)
            high = sum(self.amounts[part].middle + self.amounts[part].half for part in parts)
            filed = self.amounts[whole]
            if high < filed.middle - filed.half or low > filed.middle + filed.half:
                yield self._sum(parts, whole)

    def _all_sums(self) -> Iterator[tuple[list[Figure], Figure]]:
        groups = self._rows()
        for mechanism in MECHANISMS:
            for group, rows in groups.items():
                yield [Figure(row, mechanism) for row in rows], Figure(group, mechanism)
            subtotals = [Figure(group, mechanism) for group in GROUPS[:3]]
            yield subtotals, Figure("all", mechanism)
            if any(figure not in self.filings for figure in subtotals):
                yield [Figure(row, mechanism) for rows in groups.values() for row in rows], Figure("all", mechanism)
        yield [Figure("all", mechanism) for mechanism in MECHANISMS], Figure(TOTAL, "")

    def _rows(self) -> dict[str, list[str]]:
        data = self.sheet.data
        if not self.sheet.bands:
            return {}
        classes = [data[layout.row_place(data, i)] for i in range(layout.row_count(data))]
        return {group: [str(i) for i, one in enumerate(classes, 1) if one in known] for group, known in CLASSES.items()}

    def _sum(self, parts: list[Figure], whole: Figure) -> Finding:
        total = sum(self.amounts[part].middle for part in parts)
        of_rows = parts[0].row.isdigit()
        names = "its %d rows" % len(parts) if of_rows else "diurnal, soak and running" if whole.row == TOTAL else (
            listed([part.row_name for part in parts]))
        text = "%s: %s add up to %s, and %s is filed" % (
            whole.name, names, _shown(total), self._written(whole))
        repaired = [(part, words) for part in (*parts, whole) if (words := self._exchanged(part))]
        if len(repaired) == 1 and repaired[0][0] not in self.told:
            self.told.add(repaired[0][0])
            text += "; two digits of %s are exchanged: %s" % (repaired[0][0].name, repaired[0][1])
        return Finding(self.name, (*parts, whole), text)

    def _written(self, figure: Figure) -> str:
        filing = self.filings[figure]
        return "%s %s" % (filing.mass, filing.unit)

    def _exchanged(self, figure: Figure) -> str:
        """A wrong figure that is right with two neighbouring digits exchanged, in words; else empty."""
        filing = self.filings.get(figure)
        if filing is None or filing.filed is None or filing.tens or self.verdicts[figure] not in ("low", "high"):
            return ""
        band = self.sheet.bands.get(figure)
        for filed in _swapped(filing.filed):
            if band is not None and self.library.mark(filed, band).outcome in (Outcome.AGREES, Outcome.FITS):
                return "%s for %s" % (_decimal(filed), self._written(figure))
        return ""

    def digits(self) -> Iterator[Finding]:
        """Figures that are right with two digits exchanged, where no sum has told it."""
        for figure in self.filings:
            words = self._exchanged(figure) if figure not in self.told else ""
            if words:
                self.told.add(figure)
                yield Finding(self.name, (figure,), "%s: two digits are exchanged: %s" % (figure.name, words))

    def copies(self) -> Iterator[Finding]:
        """Wrong figures with the very mass that is filed, and right, for a neighbour of the same row or mechanism."""
        right: dict[int, list[Figure]] = {}
        for figure, amount in self.amounts.items():
            if self.verdicts[figure] in ("agrees", "fits"):
                right.setdefault(amount.middle, []).append(figure)
        for figure, amount in self.amounts.items():
            filed = self.filings[figure].filed
            if self.verdicts[figure] not in ("low", "high") or filed is None or filed.digits < 100:
                continue
            near = [other for other in right.get(amount.middle, ())
                    if other.row == figure.row or other.mechanism == figure.mechanism]
            if len(near) == 1 and figure not in self.told:
                yield Finding(self.name, (figure, near[0]), "%s: %s is filed for %s too, and is right there" % (
                    figure.name, self._written(figure), near[0].name))


def _swapped(filed: Filed) -> Iterator[Filed]:
    """A figure with each two neighbouring digits exchanged."""
    word = str(filed.digits).rjust(filed.places + 1, "0")
    for i in range(len(word) - 1):
        if word[i] != word[i + 1]:
            yield filed._replace(digits=int(word[:i] + word[i + 1] + word[i] + word[i + 2:]))


def _decimal(filed: Filed) -> str:
    return "%s %s" % (layout.decimal(filed.digits, filed.places), filed.unit.name.lower())


def _shown(amount: int) -> str:
    """A sum with all its digits that are not 0 at the end."""
    milligrams, rest = divmod(amount, 2 * 10 ** -FINEST)
    unit = best_unit(milligrams)
    text = exact(milligrams, unit)
    text = text.rstrip("0").rstrip(".") if "." in text else text
    return "%s %s" % (text if not rest else "about " + text, unit)


def lines(found: dict[str, list[Finding]], most: int = 2) -> Iterable[str]:
    """A line for each finding, of a sheet no more than some."""
    for findings in found.values():
        for finding in findings[:most]:
            yield "%s: %s" % (finding.sheet, finding.text)
        if len(findings) > most:
            yield "%s: %d more of this kind" % (findings[0].sheet, len(findings) - most)
