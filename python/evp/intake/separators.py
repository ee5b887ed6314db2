"""The lines and cells of a text: what separates its columns is found from the text itself."""

import csv
import io
import re
from collections import Counter
from collections.abc import Iterator
from itertools import islice

SEPARATORS = ",;\t|"
LOOK = 60  # lines that tell the separator
SHOW = re.compile(r"\s*row +vehicle +tech\. +canister +vehicles +diurnal")  # the table that evp show prints
Line = tuple[int, list[str]]  # its number from 1, and its cells

csv.field_size_limit(1_000_000)


def separator_of(text: str) -> str:
    """What separates the columns of a text. A first line sep=; says it; else it is what most lines have alike, outside
    of quotation marks, and most often."""
    told = re.match(r"sep=(.)\r?\n?", text, re.IGNORECASE)
    if told:
        return told[1]
    lines = [re.sub(r'"[^"]*"', "", line) for line in islice(_lines(text), LOOK) if line.strip()]
    best, most = ",", (0, 0)
    for sign in SEPARATORS:
        counts = Counter(line.count(sign) for line in lines if sign in line)
        if counts:
            number, many = max(counts.items(), key=lambda item: (item[1], item[0]))
            score = sum(counts.values()) if sign != "," else many, number
            best, most = (sign, score) if score > most else (best, most)
    return best


def _lines(text: str) -> Iterator[str]:
    return (found[0] for found in re.finditer(r"[^\r\n]+", text))


def is_show(text: str) -> bool:
    """Whether a text is what evp show prints."""
    return any(SHOW.match(line) for line in islice(_lines(text), LOOK))


def records(text: str, separator: str) -> Iterator[Line]:
    """The lines that are not empty. Where quotation marks are not closed, each line is read alone, so that none is lost
    in the cell of another."""
    start = re.match(r"sep=[^\r\n]*", text, re.IGNORECASE)
    skip = start.end() if start else 0
    body = text[skip:] if skip else text
    if '"' not in body:
        return _plain(body, separator)
    return _quoted(body, separator) if _closed(body, separator) else _one_by_one(body, separator)


def _plain(text: str, separator: str) -> Iterator[Line]:
    if "\r" in text:
        text = text.replace("\r\n", "\n").replace("\r", "\n")
    at, number, spaced = 0, 0, re.search(r"[^\S\n%s]" % re.escape(separator), text) is not None
    while at < len(text):  # no list of all lines: a text of bad lines alone would take a lot of memory
        end = text.find("\n", at)
        end = len(text) if end < 0 else end
        number += 1
        if end > at:
            cells = text[at:end].split(separator)
            yield number, [cell.strip() for cell in cells] if spaced else cells
        at = end + 1


def _closed(text: str, separator: str) -> bool:
    """Whether the quotation marks of a text are paired, and none takes lines of the table into one cell."""
    try:
        for cells in csv.reader(io.StringIO(text, newline=""), delimiter=separator, strict=True):
            if any("\n" in cell and cell.count(separator) >= 3 for cell in cells):
                return False
    except csv.Error:
        return False
    return True


def _quoted(text: str, separator: str) -> Iterator[Line]:
    reader, start = csv.reader(io.StringIO(text, newline=""), delimiter=separator), 1
    for cells in reader:
        if any(cells):
            yield start, [cell.strip() for cell in cells]
        start = reader.line_num + 1


def _one_by_one(text: str, separator: str) -> Iterator[Line]:
    for number, line in enumerate(io.StringIO(text.replace("\r\n", "\n").replace("\r", "\n")), 1):
        if line.strip():
            cells: list[str]
            try:
                cells = next(csv.reader([line], delimiter=separator), [])
            except csv.Error:
                cells = line.split(separator)
            yield number, [cell.strip().strip('"') for cell in cells]


def show_records(text: str) -> Iterator[Line]:
    """The lines of what evp show prints, as a table with the columns sheet, row, diurnal, soak, running and total."""
    sheet, number, unit = "", 0, ""
    yield 1, ["sheet", "row", "diurnal", "soak", "running", "total"]
    for number, line in enumerate(io.StringIO(text), 1):
        named = re.match(r"\s*(\S.*?): version [0-9]+, ", line)
        if named:
            sheet = named[1]
        head = re.search(r"diurnal (mg|g|kg|t)\b", line) if SHOW.match(line) else None
        unit = " " + head[1] if head else unit
        cells = re.split(r"\s{2,}", line.strip())
        total = re.match(r"\s*total\s+(.+?)\s*$", line)
        if total:
            yield number, [sheet, "total", "", "", "", total[1]]
        elif len(cells) >= 4 and not SHOW.match(line) and (cells[0].isdigit() or len(cells) == 4):
            yield number, [sheet, cells[0], *(cell + unit for cell in cells[-3:]), ""]
