"""After marking: a letter for each participant, what changed since an earlier submission, and the class as a table."""

import csv
import io
import re
from collections import Counter
from collections.abc import Iterable, Sequence
from dataclasses import dataclass, field
from pathlib import Path
from typing import NamedTuple

from evp.diagnosis import Diagnosis
from evp.figures import Figure
from evp.files import InputError, read_text
from evp.intake import ClassFiles, Reading
from evp.intake.checks import Finding
from evp.marking import FINE, VERDICTS, Filing, Mark, Marked
from evp.tables import table_text
from evp.wording import name_shown

CLASS_COLUMNS = ("sheet", "figures", *VERDICTS[:-1], "right_before", "what_to_look_at", "what_to_try")
MARKS = "marks.csv"


class Earlier(NamedTuple):
    """A figure of an earlier submission."""
    mass: str
    unit: str
    verdict: str


@dataclass
class Participant:
    """All that is known of one participant after marking."""
    file: str
    sheet: Marked | None
    filings: list[Filing] = field(default_factory=list)
    marks: list[Mark] = field(default_factory=list)
    findings: list[Finding] = field(default_factory=list)
    diagnosis: Diagnosis | None = None
    readings: list[Reading] = field(default_factory=list)
    before: dict[Figure, Earlier] = field(default_factory=dict)

    @property
    def name(self) -> str:
        return name_shown(self.file).removesuffix(".evp")

    def count(self, *verdicts: str) -> int:
        return sum(mark.verdict in verdicts for mark in self.marks if mark.row)

    @property
    def guesses(self) -> list[str]:
        """The guesses in the notes of wrong figures, those that explain the most first."""
        counts = Counter(guess for mark in self.marks if (guess := mark.note.partition("; guess: ")[2]))
        return [guess for guess, _ in counts.most_common(3)]

    @property
    def advice(self) -> list[str]:
        """What to try: what the filing shows by itself, then changes of one input that fit, then guesses."""
        found = [finding.text for finding in self.findings]
        if self.diagnosis is not None and self.diagnosis.fits:
            found.append(self.diagnosis.line())
        return found + ["maybe %s" % guess for guess in self.guesses]


def participants(of_class: ClassFiles, marks: Sequence[Mark], findings: dict[str, list[Finding]],
                 diagnoses: dict[str, Diagnosis], before: dict[str, dict[Figure, Earlier]]) -> list[Participant]:
    """The participants of a class, by their sheets and the names that were filed under."""
    found = {name: Participant(name, sheet) for name, sheet in of_class.sheets.items()}
    for filing, mark in zip(of_class.taken.filings, marks):
        one = found.setdefault(filing.sheet, Participant(filing.sheet, None))
        one.filings.append(filing)
        one.marks.append(mark)
    for reading in of_class.taken.readings:
        if reading.sheet in found:
            found[reading.sheet].readings.append(reading)
    for name, one in found.items():
        one.findings, one.diagnosis = findings.get(name, []), diagnoses.get(name)
        one.before = before.get(name, {})
    return list(found.values())


def read_before(name: str) -> dict[str, dict[Figure, Earlier]]:
    """The figures of an earlier marking, by sheet: of a file marks.csv, or of a folder that has one."""
    path = Path(name)
    if path.is_dir():
        path = path / MARKS
    text = read_text(path)
    separator = ";" if text.startswith("sheet;") else ","
    lines = csv.DictReader(io.StringIO(text, newline=""), delimiter=separator)
    wanted = {"sheet", "row", "mechanism", "mass", "unit", "verdict"}
    if not wanted <= set(lines.fieldnames or ()):
        raise InputError("%s: these are no marks; --before wants a marks.csv that evp mark has made" % name_shown(path))
    found: dict[str, dict[Figure, Earlier]] = {}
    for line in lines:
        if line["row"]:
            found.setdefault(line["sheet"], {})[Figure(line["row"], line["mechanism"] or "")] = Earlier(
                line["mass"] or "", line["unit"] or "", line["verdict"] or "")
    return found


# ------------------------------------------------------------------ letters


def letter_names(people: Iterable[Participant]) -> dict[str, Participant]:
    """The participants by the names of the files of their letters."""
    found: dict[str, Participant] = {}
    for one in people:
        stem = re.sub(r"\.evp$", "", one.file, flags=re.IGNORECASE)
        plain = re.sub(r"[^\w.-]+", "-", stem).strip("-.")[:80] or "sheet"
        name, number = plain, 1
        while name.casefold() in {other.casefold() for other in found}:
            number += 1
            name = "%s-%d" % (plain, number)
        found[name] = one
    return {name + ".html": one for name, one in found.items()}


# ------------------------------------------------------------------ the class as a table


def class_lines(people: Iterable[Participant]) -> list[tuple[object, ...]]:
    """A line for each participant."""
    found: list[tuple[object, ...]] = []
    for one in people:
        right_before = sum(earlier.verdict in FINE for earlier in one.before.values()) if one.before else ""
        look = next((mark.note for mark in one.marks if mark.verdict not in FINE), "" if one.marks else "nothing filed")
        counts = [one.count(verdict) for verdict in VERDICTS[:-1]]
        found.append((one.file, sum(bool(mark.row) for mark in one.marks), *counts, right_before, look,
                      "; ".join(one.advice[:3])))
    return found


def class_csv(people: Iterable[Participant], semicolon: bool) -> str:
    return table_text(CLASS_COLUMNS, class_lines(people), semicolon)


def class_xlsx(people: Iterable[Participant], marks: Iterable[Mark]) -> bytes:
    """A workbook with the class on one tab and all marks on another."""
    import openpyxl
    book = openpyxl.Workbook()
    first, second = book.active, book.create_sheet("marks")
    first.title = "class"
    for sheet, header, lines in ((first, CLASS_COLUMNS, class_lines(people)), (second, Mark._fields, marks)):
        sheet.append(list(header))
        for line in lines:
            sheet.append([_cell(value) for value in line])
            for cell in sheet[sheet.max_row]:
                if isinstance(cell.value, str):
                    cell.data_type = "s"  # no text is a formula
        sheet.freeze_panes = "B2"
        for cell in sheet[1]:
            cell.font = openpyxl.styles.Font(bold=True)
    made = io.BytesIO()
    book.save(made)
    return made.getvalue()


def _cell(value: object) -> object:
    """A value that a workbook can hold: no control characters, no endless text, whole numbers as they are."""
    if isinstance(value, int):
        return value if abs(value) < 10 ** 15 else str(value)
    text = re.sub(r"[\x00-\x08\x0b\x0c\x0e-\x1f\ud800-\udfff]", "?", str(value))[:30_000]
    return text or None
