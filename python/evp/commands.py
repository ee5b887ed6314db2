"""What the commands do. Each gives its exit status, 0 fine or 1 where a sheet is refused or a figure wrong;
SheetRefused is 1 too, InputError 2."""

import json
import os
import sys
import time
from argparse import Namespace
from collections.abc import Callable, Iterable, Iterator
from typing import NamedTuple

from evp import diagnosis, letters, marking, show
from evp import library as calls
from evp.cells import cells_csv, cells_of, read_travel
from evp.convert import converted
from evp.doubting import doubt_lines
from evp.explain import Explanation, call_text, explain, looks_like
from evp.files import InputError, check_target, make_folder, read_sheet, read_text, same_file, write_file
from evp.hints import plainly_explained, with_hints
from evp.intake import ClassFiles, checks, read_class, readings_csv
from evp.intake.checks import Finding
from evp.layout import version_of
from evp.library import SHEET_BYTES, Library, Refusal, Report
from evp.making import make_library
from evp.marking import Mark
from evp.pages.needs import prefer, require
from evp.sheet import Builder, TextError, doubts, folder_of, read, take_folder, take_text, templates
from evp.sheet.books import book_bytes, is_book, take_book
from evp.sheet.folders import TABLES
from evp.sheet.names import NO_NAMES, Names, names_beside, names_file, names_text, shared_names
from evp.sheet.reader import told_version
from evp.wording import apart, counted, name_shown, printable, shortened

MOST_LINES = 20  # of messages that any input can make
MOST_HINTS = 12  # of these
MOST_REMARKS = 6  # on how tables were read
FINE, REFUSED = 0, 1


def get_library() -> Library:
    """The library, made first where the repository has none."""
    if calls.find() is None:
        make_library()
    try:
        return calls.load()
    except OSError as error:
        raise InputError("the library cannot be loaded: %s" % error) from None


# ------------------------------------------------------------------ what is printed


def say(lines: Iterable[str]):
    for line in lines:
        print(line)


def limited(lines: Iterable[str], rest: str, most: int = MOST_LINES, more: int = 0) -> list[str]:
    """No more lines than a screen has; `more` are counted besides these."""
    shown, many = [], more
    for line in lines:
        many += 1
        if len(shown) < most:
            shown.append(line)
    if many <= most:
        return shown
    return [*shown[:most - 1], "%s more %s" % (apart(many - len(shown[:most - 1])), rest)]


def print_json(found: object):
    print(json.dumps(found, indent=2))


class SheetRefused(Exception):
    """A sheet that has no report, and why, in one line."""


def read_report(library: Library, name: str) -> tuple[bytes, Report]:
    """A sheet and its report."""
    data = read_sheet(name)
    try:
        return data, library.report(data)
    except Refusal:
        explanation = explain(library, data, find_names(name, data))
        raise SheetRefused("%s: %s" % (name_shown(name), explanation.line)) from None


def find_names(name: str, data: bytes) -> Names:
    """The names beside a sheet. Where they are not its own, a note says so, and it has none."""
    try:
        return names_beside(name, data)
    except InputError as error:
        note("%s; the names are left out" % error)
        return NO_NAMES


def note(words: str):
    print("evp: note: %s" % words, file=sys.stderr)


def say_doubts(library: Library, data: bytes, names: Names):
    for line in limited(doubt_lines(library, data, names), "things to look at"):
        note(line)


# ------------------------------------------------------------------ sheets


def check(given: Namespace) -> int:
    library, found, failures = get_library(), [], []
    for name in given.sheets:
        try:
            data = read_sheet(name)
            found.append((name, explain(library, data, find_names(name, data))))
        except InputError as error:
            failures.append(str(error))
    if given.json:
        print_json([explanation.json(name) for name, explanation in found])
    else:
        say("%s: %s" % (name_shown(name), explanation.line) for name, explanation in found)
    if failures:
        raise InputError("\n".join(failures))
    return REFUSED if any(explanation.number for _, explanation in found) else FINE


def explain_sheet(given: Namespace) -> int:
    data = read_sheet(given.sheet)
    explanation = explain(get_library(), data, find_names(given.sheet, data))
    if given.json:
        print_json(explanation.json(given.sheet))
    else:
        say(explanation.lines)
    return REFUSED if explanation.number else FINE


def show_sheet(given: Namespace) -> int:
    library = get_library()
    data, report = read_report(library, given.sheet)
    names = find_names(given.sheet, data)
    if given.json:
        print_json(show.report_json(given.sheet, data, report, names))
    elif given.csv:
        print(show.report_csv(report, given.unit, names), end="")
    else:
        say(show.report_lines(name_shown(given.sheet), data, report, given.unit, names))
        say_doubts(library, data, names)
    return FINE


def _taken(source: str) -> Builder:
    if source != "-" and os.path.isdir(source):
        return take_folder(source)
    if is_book(source):
        prefer("odf" if source.lower().endswith(".ods") else "openpyxl")
        return take_book(source)
    return take_text(read_text(source), name_shown(source) + ": ")


def _target(source: str, given: str | None, end: str = ".evp") -> str:
    """Where a sheet is written: as it is given, or by the name of what it is made from."""
    if given:
        return given
    if source == "-":
        raise InputError("standard input has no name: -o SHEET names the sheet")
    return (os.path.normpath(source) if os.path.isdir(source) else os.path.splitext(source)[0]) + end


def _tables_in(source: str) -> list[str]:
    """What a sheet is made from: a text, or the tables of a folder."""
    if source == "-" or not os.path.isdir(source):
        return [source]
    return [os.path.join(source, name) for name in TABLES]


def write_sheet(given: Namespace) -> int:
    """Asks the library before anything is written. What it refuses is written all the same, to be looked at with
    explain, but not in another version than the source has."""
    library, builder, target = get_library(), _taken(given.source), _target(given.source, given.output)
    builder.version = given.version or builder.version
    try:
        data = builder.data()
    except TextError as error:
        raise InputError(str(error), error.more) from None
    explanation = explain(library, data, builder.names)
    if explanation.number and given.version:
        raise SheetRefused("%s: not written, since in version %d this sheet is %s" % (
            name_shown(target, "standard output"), given.version, explanation.line))
    write_with_names(target, data, builder.names, given.force, _tables_in(given.source))
    _say_notes(library, builder, data, explanation)
    _say_written(builder, target, data, explanation)
    return REFUSED if explanation.number else FINE


def _say_notes(library: Library, builder: Builder, data: bytes, explanation: Explanation):
    lines = [*doubts(builder)]
    if builder.is_multiplied():
        lines.append("the two lists of parkings are written as the grid of their products, which version %d has; the "
                     "masses are the same" % version_of(data))
    if not explanation.number:
        lines += doubt_lines(library, data, builder.names)
    for line in limited(lines, "things to look at"):
        note(line)


def _say_written(builder: Builder, target: str, data: bytes, explanation: Explanation):
    out = sys.stderr if target == "-" else sys.stdout
    where = _source_of(builder, explanation)
    line = explanation.refusal if where else explanation.line
    print("%s: %d bytes, %s" % (name_shown(target, "standard output"), len(data), line), file=out)
    if where:
        print("%s: %s" % (where, explanation.text), file=out)
    if builder.names.any() and target != "-":
        print("%s: the names of its rows and seasons" % name_shown(names_file(target)), file=out)


def write_with_names(target: str, data: bytes, names: Names, force: bool, sources: Iterable[str]):
    """Writes a sheet, and its names beside it. Names of an earlier sheet do not stay there."""
    beside, sources = names_file(target), list(sources)
    is_stream = target == "-" or os.path.exists(target) and not os.path.isfile(target)  # as /dev/stdout
    check_target(target, force, sources)
    has_file = not is_stream and (names.any() or os.path.isfile(beside))
    if has_file:  # both before the first is written
        check_target(beside, force, sources)
    write_file(target, data, force, sources)
    if has_file:
        write_file(beside, names_text(names).encode("utf-8-sig"), force, sources)


def _source_of(builder: Builder, explanation: Explanation) -> str:
    """Where the record at fault stands in the text; empty where it does not."""
    places = {"season": builder.season_places, "row": builder.row_places}.get(explanation.record, [])
    return places[explanation.index - 1] if explanation.index and explanation.index <= len(places) else ""


def read_back(given: Namespace) -> int:
    data = read_sheet(given.sheet)
    if len(data) > SHEET_BYTES:
        raise InputError("%s: this is no sheet; it has more than %s bytes" % (
            name_shown(given.sheet), apart(SHEET_BYTES)))
    other = looks_like(data)
    if data and other:
        raise InputError("%s: this is no sheet; %s" % (name_shown(given.sheet), other))
    names = find_names(given.sheet, data)
    if given.xlsx:
        prefer("openpyxl")
    try:
        if given.xlsx:
            return _write_book(given, book_bytes(data, names))
        if not given.csv:
            print(read(data, names), end="")
            return FINE
        tables = folder_of(data, given.semicolon, names)
    except TextError as error:
        raise InputError("%s: %s" % (name_shown(given.sheet), error)) from None
    _write_tables(given.csv, tables, given.force, [given.sheet])
    if told_version(data) is not None:
        note("these tables make another version; evp write --version %d gives this one back" % told_version(data))
    return FINE


def _write_book(given: Namespace, book: bytes) -> int:
    write_file(given.xlsx, book, given.force, [given.sheet])
    if given.xlsx != "-":
        print("%s: %d bytes; evp write makes the sheet of it again" % (name_shown(given.xlsx), len(book)))
    return FINE


def _write_tables(folder: str, tables: dict[str, str], force: bool, sources: Iterable[str] = ()):
    made = make_folder(folder)
    for name in tables:  # all of them before the first is written
        check_target(made / name, force, sources)
    for name, text in tables.items():
        write_file(made / name, text.encode("utf-8-sig"), force, sources)
        print(name_shown(made / name))


def template(given: Namespace) -> int:
    _write_tables(given.folder, templates(given.grid, given.semicolon), given.force)
    print("Fill them in, then evp write %s makes the sheet." % name_shown(given.folder))
    return FINE


def convert(given: Namespace) -> int:
    library = get_library()
    data, report = read_report(library, given.sheet)
    later, its_report = _later_version(library, given.sheet, data, given.to)
    target = _target(given.sheet, given.output, "-version-%d.evp" % given.to)
    write_with_names(target, later, find_names(given.sheet, data), given.force, [given.sheet])
    if target != "-":
        same = "the same report" if its_report == report else "the same exact masses, other bands"
        print("%s: %d bytes, version %d, %s" % (name_shown(target), len(later), given.to, same))
    return FINE


def _later_version(library: Library, name: str, data: bytes, version: int) -> tuple[bytes, Report]:
    """An accepted sheet in a later version, and its report. The later version may have a rule that the sheet breaks
    (version 4 limits the vehicles of all rows together), so the library checks the result before it is written."""
    try:
        later = converted(data, version)
        return later, library.report(later)
    except InputError as error:
        raise InputError("%s: %s" % (name_shown(name), error)) from None
    except Refusal:
        raise SheetRefused("%s: not written, since in version %d this sheet is %s" % (
            name_shown(name), version, explain(library, later).line)) from None


# ------------------------------------------------------------------ marking


class Progress:
    """A bar on standard error where it takes longer than a second, on a terminal alone."""

    def __init__(self, what: str = "sheets"):
        self.start, self.drawn, self.what = time.monotonic(), False, what

    def __call__(self, done: int, many: int):
        if not sys.stderr.isatty() or not self.drawn and time.monotonic() - self.start < 1:
            return
        self.drawn = True
        bar = ("#" * (40 * done // many)).ljust(40, ".")
        end = "\n" if done == many else ""
        print("\r%s %d of %d %s" % (bar, done, many, self.what), end=end, file=sys.stderr, flush=True)


def mark(given: Namespace) -> int:
    _check_outputs(given)
    library = get_library()
    of_class = read_class(library, given.folder, given.filed, Progress())
    result = marked_class(library, of_class, given.hints, Progress)
    before = letters.read_before(given.before) if given.before else {}
    people = letters.participants(of_class, result.marks, result.findings, result.diagnoses, before) if (
        given.letters or given.class_table) else []
    _save_marks(given, of_class, result, people)
    if given.json:
        print_json([line._asdict() for line in result.marks])
    elif given.output != "-":
        summary = marking.summary(result.plain, len(of_class.sheets))
        remarks = [*result.remarks, *_read_lines(of_class, given)]
        say([*_on_one_screen(summary, remarks), *_files_made(given, result.marks)])
    if of_class.unread or of_class.taken.unread:
        raise InputError("\n".join([*of_class.unread, *of_class.taken.unread]))
    return FINE if all(line.verdict in marking.FINE for line in result.marks) else REFUSED


class Result(NamedTuple):
    """The marks of a class, without guesses in their notes and with them, what does not fit in a filing, the changes of
    inputs that fit, and lines that say so."""
    plain: list[Mark]
    marks: list[Mark]
    findings: dict[str, list[Finding]]
    diagnoses: dict[str, diagnosis.Diagnosis]
    remarks: list[str]


def marked_class(library: Library, of_class: ClassFiles, hints: bool,
                 progress: Callable[[str], Callable[[int, int], None]]) -> Result:
    """Marks a class, compares each filing with itself, and looks for the one changed input where nothing simpler
    explains the figures; with `hints` for longer, and for misreadings of the guidebook too."""
    sheets, filings = of_class.sheets, of_class.taken.filings
    plain = marks = marking.marks_of(library, sheets, filings)
    findings = checks.against_themselves(library, sheets, filings, marks)
    guesses: list[str] = []
    explained = {name for name, found in findings.items() if any("digits" in finding.text for finding in found)}
    explained |= plainly_explained(library, sheets, filings, marks)
    if hints:
        marks, guesses = with_hints(library, sheets, filings, marks, progress("sheets guessed at"))
        explained |= {name for name in sheets if all(
            "; guess: " in mark.note for mark in marks if mark.sheet == name and mark.verdict in ("low", "high"))}
    diagnoses = diagnosis.diagnose_all(library, sheets, filings, marks, hints, progress("sheets tried"), explained)
    remarks = ["  against itself: %s" % line for line in checks.lines(findings)]
    remarks += ["  by inputs: %s" % line for line in diagnosis.lines(diagnoses, hints)]
    return Result(plain, marks, findings, diagnoses, remarks + guesses)


def _check_outputs(given: Namespace):
    """Before the work: that what is asked for can be told apart, and that it can be made."""
    if given.json and given.output == "-" or given.page == "-" and (given.json or given.output == "-"):
        raise InputError("two of -o, --json and --page would share standard output")
    if given.page or given.letters:
        require("jinja2")
    if given.class_table and given.class_table.lower().endswith(".xlsx"):
        require("openpyxl")
    targets = [target for target in (given.output, given.page, given.readings, given.class_table) if target]
    for i, target in enumerate(targets):
        if any(same_file(target, other) for other in targets[:i]):
            raise InputError("two of -o, --page, --readings and --class-table name one file")
        check_target(target, given.force, [*given.filed, *filter(None, [given.before])])


def _save_marks(given: Namespace, of_class: ClassFiles, result: Result, people: list[letters.Participant]):
    """marks.csv, readings.csv, the page and the table of the class, and the letters."""
    semicolon, sources = of_class.taken.semicolon, [*of_class.sources, *filter(None, [given.before])]

    def save(name: str | os.PathLike | None, made: Callable[[], str | bytes]):
        if name:
            data = made()
            write_file(name, data if isinstance(data, bytes) else data.encode("utf-8", "surrogateescape"), given.force,
                       sources)

    save(given.output, lambda: marking.marks_csv(result.marks, semicolon))
    save(given.readings, lambda: readings_csv(of_class.taken.readings, semicolon))
    workbook = given.class_table and given.class_table.lower().endswith(".xlsx")
    save(given.class_table, lambda: letters.class_xlsx(people, result.marks) if workbook else (
        letters.class_csv(people, semicolon)))
    if given.page:
        from evp.pages.classes import page_class
        save(given.page, lambda: page_class(of_class.sheets, of_class.taken.filings, result.marks, hints=given.hints,
                                            taken=of_class.taken, remarks=result.remarks))
    if given.letters:
        from evp.pages.letters import page_letter
        named, folder = letters.letter_names(people), make_folder(given.letters)
        for name in named:  # all of them before the first is written
            check_target(folder / name, given.force, sources)
        for name, one in named.items():
            save(folder / name, lambda one=one: page_letter(one))


def _read_lines(of_class: ClassFiles, given: Namespace) -> Iterator[str]:
    """What was said once of the tables, and how many figures were read that were not plain."""
    taken = of_class.taken
    yield from ("  note: %s" % printable(remark) for remark in limited(taken.remarks, "such notes", MOST_REMARKS))
    if taken.readings:
        first = taken.readings[0]
        yield "  read: %s not plain; first %s, %s: %s is %s%s" % (
            counted(len(taken.readings), "figure"), first.file, printable(first.place),
            printable(shortened(first.filed, 60)), printable(first.read),
            "" if given.readings else "; --readings FILE has all")


def _on_one_screen(summary: Iterable[str], remarks: list[str]) -> list[str]:
    hints = limited(remarks, "such lines; -o and --readings have all", MOST_HINTS)
    return [*limited(summary, "sheets to look at", MOST_LINES - len(hints)), *hints]


def _files_made(given: Namespace, marks: list[Mark]) -> Iterator[str]:
    yield "%s: %s" % (name_shown(given.output), counted(len(marks), "line")) if given.output else (
        "-o FILE keeps the marks of all figures")
    if given.readings:
        yield "%s: what was read, beside the original" % name_shown(given.readings)
    if given.class_table:
        yield "%s: the class, a line for each participant" % name_shown(given.class_table)
    if given.letters:
        yield "%s: a letter for each participant" % name_shown(given.letters)
    if given.page:
        yield "%s: the page of the class" % name_shown(given.page)


def compare(given: Namespace) -> int:
    from evp.analysis import telling
    from evp.analysis.changes import changes_of
    library = get_library()
    sheets = [read_report(library, name) for name in (given.a, given.b)]
    reports = [report for _, report in sheets]
    found = show.differences(*reports)
    beside = [find_names(name, data) for name, (data, _) in zip((given.a, given.b), sheets)]
    changes = changes_of(library, *(data for data, _ in sheets), *beside)
    if given.json:
        print_json({"a": given.a, "b": given.b, "figures": [difference.json() for difference in found],
                    "changes": telling.changes_json(changes)})
    elif given.csv:
        print(telling.changes_csv(changes), end="")
    else:
        rows = len(changes.a.rows), len(changes.b.rows)
        names = shared_names(*beside)
        say(show.comparison_lines(name_shown(given.a), name_shown(given.b), rows, found, names))
        say(["", *telling.changes_lines(changes)])
    return FINE


# ------------------------------------------------------------------ species, cells, pool


def species(given: Namespace) -> int:
    library = get_library()
    _, report = read_report(library, given.sheet)
    total = report.total.high
    masses = library.species(total)
    if given.csv:
        print(show.species_csv(masses), end="")
    else:
        say(show.species_report(name_shown(given.sheet), total, masses))
    return FINE


def cells(given: Namespace) -> int:
    library = get_library()
    _, report = read_report(library, given.sheet)
    travels = read_travel(given.travel, len(report.rows))
    text = cells_csv(cells_of(library, report, travels))
    if given.output:
        write_file(given.output, text.encode(), given.force, [given.sheet, given.travel])
    else:
        print(text, end="")
    return FINE


def pool_refusal(library: Library, refusal: Refusal, names: tuple[str, str], sheets: tuple[bytes, bytes]) -> str:
    if refusal.sheet == 3:
        return "%s and %s: %s" % (*map(name_shown, names), call_text(refusal))
    name, data = names[refusal.sheet - 1], sheets[refusal.sheet - 1]
    explanation = explain(library, data)
    line = explanation.line
    if explanation.number != refusal.number:
        line = "%s: only sheets of version 4 are pooled; evp convert --to 4 makes one" % refusal
    return "%s: %s" % (name_shown(name), line)
