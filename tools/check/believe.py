"""What a reader must believe: does docs/READING.md name all of it, and does the rest say that it is method?

The three demands of document 01 rest on the definitions that their statements name,
directly or by others; they are computed from crates/*/specs, not from file names.
Checked here: docs/READING.md names each of them in a table, in the row of its file,
with the value of each limit and the number of definitions; it names what
docs/PROMISES.md names, and a function whose `requires` it speaks of has it; a file
that no contract of a public call and no statement of docs/PROMISES.md needs says in
its first line "Need not be believed"; no definition serves proofs alone; and no file
has both definitions to believe and definitions of the method. The exceptions are in
the constants UNMARKED, MISMARKED, PROOFS_ALONE and MIXED; one that is no longer
needed is a fault. No public call has a `requires`.
"""

import re
from collections.abc import Iterable, Iterator, Mapping
from functools import cache
from typing import NamedTuple

from tools.check import names, promises
from tools.check.definitions import (
    CRATES, DECLARED, Key, bare, closure, contracts, declared, definitions, graph, imported, unresolved,
)
from tools.command import TOP

READING = "docs/READING.md"

# Where each demand starts: a crate, and names of its definitions, in whatever file they are. Beside the statement
# itself these are the functions that take number, place, low and high from an answer.
DEMANDS: dict[str, dict[str, str]] = {
    "1": {
        "inventory": "report_demands factor_demands written",
        "sheet": "Says",
        "refusals": "number_of place_of",
    },
    "2": {"inventory": "FactorBand answer_low answer_high", "sheet": "Written"},
    "3": {"report_words": "ReportPromise"},
}

# Functions that the code is proved to compute. A statement that names one says that its value encloses an exact value,
# or that two calls have the same words, and is understood without the inside of the function, which is method.
COMPUTED = {
    "report_words": "report words_of subtotal subtotals grand_total",
    "inventory": "report_check room_check factor_check factor_answer units_at band",
    "sheet": "sheet_check",
    "factors": "factor_units low_micrograms high_micrograms",
    "masses": "row_figures",
    "marks": "step_at rise_error",
}

# The record of the bounds that the crates above `bounds` cite: no mass and no word is stated with it, so that what it
# names in other files is method.
LAWS = ("bounds", "Laws")

# The crates that are programs for a person: their contracts speak of what is read and written.
PROGRAMS = ("report_run", "species_run", "pool_run")

# The crates whose functions C can call: the library, and the static library that calls it.
EXPORTS = ("evaporation", "evaporation_c")

# The exceptions. Each list can only become shorter: one that is no longer needed is a fault.

# Files of the method whose first line does not say so.
UNMARKED: set[str] = set()

# Files whose first line says so, although a statement names one of their definitions.
MISMARKED: set[str] = set()

# Definitions that neither a contract nor a statement needs. Laws in proofs/ that a page cites are stated with the first
# three; the next two make `Taken` and `Unread`, and only the proofs of two functions may.
PROOFS_ALONE = {
    "map_cells: Sums add_to", "text: Decimal value_behind", "text: Decimal Numeral",
    "program: Reads taken", "program: Reads missed",
    "program: Writes wrote", "program: Writes stopped",
}

# Files that have definitions to believe and definitions of the method.
MIXED: set[str] = set()

MARK = re.compile(r"^-- .*\b(?:[Nn]eeds? not be believed|nothing here has to be believed)\b")
NO_BELIEF = "need not be believed"  # in the heading of the part of READING on the method
LIMITS = ("sheet", "Limits")
COUNTED = re.compile(r"^\| (\d) \|.*\| (\d+) \| (\d+) \|$", re.M)
ALL = re.compile(r"^\| all three \|.*\| (\d+) \| (\d+) \|$", re.M)

File = tuple[str, str]


class Missing(Exception):
    """A name of a constant above that its crate does not have, or has twice."""


def find(crate: str, name: str) -> Key:
    """The definition of a crate by its name."""
    found = [key for key in definitions() if key.crate == crate and key.name == name]
    if len(found) != 1:
        raise Missing("crates/%s/specs has %d definitions of %s; tools/check/believe.py starts at one" % (
            crate, len(found), name))
    return found[0]


def found_all(listed: Mapping[str, str]) -> set[Key]:
    return {find(crate, name) for crate, words in listed.items() for name in words.split()}


def titled(file: File) -> str:
    """A file as the documents name it."""
    return "%s: %s" % file


def demanded(which: Iterable[str] = tuple(DEMANDS)) -> set[Key]:
    """What the demands rest on, with the types that the code declares."""
    return closure({key for each in which for key in found_all(DEMANDS[each])}, graph())


def in_specs(keys: Iterable[Key]) -> list[Key]:
    """Those that are in specs/, in the order of the files."""
    wanted = set(keys)
    return [key for key in definitions() if key in wanted]


def line_count(keys: Iterable[Key]) -> int:
    return sum(len(definitions()[key].lines) for key in in_specs(keys))


def said_by(cell: str) -> Iterator[Key]:
    """The definitions that a cell of docs/PROMISES.md names."""
    start = 0
    for file in promises.SPEC.finditer(cell):
        listed = (Key(file[1], file[2], name) for name in promises.NAME.findall(cell[start:file.start()]))
        yield from (key for key in listed if key in definitions())
        start = file.end()


@cache
def requests() -> dict[str, set[Key]]:
    """The definitions that docs/PROMISES.md names, by its heading or by the request of document 02."""
    lines = (TOP / promises.PAGE).read_text(encoding="utf-8").splitlines()
    headings = {number: line.removeprefix("## ") for number, line in enumerate(lines, 1) if line.startswith("## ")}
    found: dict[str, set[Key]] = {}
    heading = group = ""
    for number, (sentence, said, _) in promises.rows():
        above = headings[max(place for place in headings if place < number)]
        request = re.match(r"\*\*(\w+)\.\*\*", sentence)
        group = request[1] if request else above if above != heading else group
        heading = above
        found.setdefault(group, set()).update(said_by(said))
    return found


def public_calls() -> set[tuple[str, str]]:
    """The public functions by file and name: those of READING's table of calls, and those that C can call."""
    table = re.search(r"^\| In Rattle \|.*?\n\n", (TOP / READING).read_text(encoding="utf-8"), re.M | re.S)
    rows = table[0].splitlines() if table else []
    found = {(file, name) for row in rows for listed, file in names.NAMED.findall(row)
             for name in re.findall(r"`([^`]+)`", listed)}
    return found | {(str(each.path.relative_to(TOP)), each.name) for each in contracts()
                    if each.path.relative_to(CRATES).parts[0] in PROGRAMS
                    or each.path.relative_to(CRATES).parts[0] in EXPORTS and each.name.startswith("evp_")}


@cache
def statements() -> frozenset[Key]:
    """Where the statements start: contracts of public calls, what PROMISES names, every type of a theorem."""
    calls = public_calls()
    found = {key for each in contracts() if (str(each.path.relative_to(TOP)), each.name) in calls
             for key in each.needs | each.ensures}
    found |= {key for keys in requests().values() for key in keys}
    return frozenset(found | {key for key in definitions() if key.name.endswith("Theorem")})


@cache
def stated() -> frozenset[Key]:
    """What the statements name, directly or by others, but not what the computed functions are made of."""
    ends = found_all(COMPUTED)
    laws = {key for key in definitions() if key[:2] == LAWS}
    return frozenset(laws | closure(statements() - laws, graph(), ends) - ends)


class Sorts(NamedTuple):
    """The definitions of a file, by what they are for."""
    believed: list[str]  # the three demands rest on them
    stated: list[str]  # further statements do
    method: list[str]  # neither


@cache
def files() -> dict[File, Sorts]:
    """The files of definitions, each with its definitions by what they are for."""
    believed, said = demanded(), stated()
    found: dict[File, Sorts] = {}
    for key in definitions():
        sorts = found.setdefault((key.crate, key.file), Sorts([], [], []))
        (sorts.believed if key in believed else sorts.stated if key in said else sorts.method).append(key.name)
    return found


def is_marked(text: str) -> bool:
    """Whether the first line of a text says that it need not be believed."""
    return MARK.search(text.partition("\n")[0]) is not None


def marked(file: File) -> bool:
    return is_marked((CRATES / file[0] / "specs" / (file[1] + ".antt")).read_text(encoding="utf-8"))


def unmarked() -> list[str]:
    """The files of the method whose first line does not say so."""
    return [titled(file) for file, sorts in files().items() if not sorts.believed + sorts.stated and not marked(file)]


def mismarked() -> list[str]:
    """The files whose first line says that they need not be believed, although a statement needs them."""
    return [titled(file) for file, sorts in files().items() if sorts.believed + sorts.stated and marked(file)]


def mixed() -> dict[str, Sorts]:
    """The files that have definitions to believe and definitions of the method."""
    return {titled(file): sorts for file, sorts in files().items() if sorts.believed and sorts.method}


def proofs_alone() -> list[str]:
    """The definitions that no statement, no contract and no loop of the code needs."""
    used = set(statements()) | demanded()
    for path in CRATES.glob("*/src/**/*.rt"):
        used |= {key for _, key, _ in imported(path.read_text(encoding="utf-8"))}
    needed = closure(used, graph())
    return ["%s %s" % (titled(key[:2]), key.name) for key in definitions() if key not in needed]


class Row(NamedTuple):
    """A row of a table of READING: the files of its first cell, the names of its second, the text of its third."""
    files: list[File]
    names: list[str]
    said: str


def table_rows(text: str) -> Iterator[Row]:
    """The rows of the tables whose first cell has crate: File, or is empty below one that has."""
    held: list[File] = []
    for line in text.splitlines():
        cells = [cell.strip() for cell in re.split(r"(?<!\\)\|", line)[1:-1]]
        if len(cells) < 3:
            held = []
            continue
        if cells[0]:
            held = [(crate, file) for crate, listed in names.SPECS.findall(cells[0]) for file in listed.split(", ")]
        yield Row(held, re.findall(r"`([^`]+)`", cells[1]), cells[2])


def parts(text: str) -> tuple[str, str]:
    """READING without the part on the method, and that part."""
    sections = re.split(r"^(?=## )", text, flags=re.M)
    aside = [each for each in sections if NO_BELIEF in each.partition("\n")[0]]
    return "".join(each for each in sections if each not in aside), "".join(aside)


def named(text: str) -> set[tuple[str, str, str]]:
    """The definitions that a text names, in the tables or as `name` in crate: File."""
    found = {(*file, name) for row in table_rows(text) for file in row.files for name in row.names}
    flat = " ".join(text.split())
    for listed, crate, file in re.findall(r"((?:`[^`]+`(?:, and |, | and )?)+) in ([a-z_]+): ([A-Z]\w*)", flat):
        found |= {(crate, file, name) for name in re.findall(r"`([^`]+)`", listed)}
    return found


def naming_faults(text: str) -> Iterator[str]:
    """Definitions that the demands rest on and the page does not name, or counts to the method."""
    said, aside = (named(part) for part in parts(text))
    for key in demanded():
        if key.file == DECLARED:
            if "`%s`" % key.name not in text:
                yield "%s of crates/%s/src is not named" % (key.name, key.crate)
        elif (key.crate, key.file, bare(key.name)) not in said:
            yield "%s of %s is not named in a table" % (bare(key.name), titled(key[:2]))
        elif (key.crate, key.file, bare(key.name)) in aside:
            yield "%s of %s is to be believed, and the part on the method names it" % (key.name, titled(key[:2]))


def promise_faults(text: str) -> Iterator[str]:
    """Definitions that docs/PROMISES.md names and the page does not."""
    for key in sorted({key for keys in requests().values() for key in keys}):
        if "`%s`" % bare(key.name) not in text:
            yield "%s of %s is named in %s and not here" % (key.name, titled(key[:2]), promises.PAGE)


def limit_faults(text: str) -> Iterator[str]:
    """Limits whose value in the page is not that of the definition."""
    for row in table_rows(text):
        if row.files == [LIMITS] and len(row.names) == 1:
            key = Key(*LIMITS, row.names[0])
            value = definitions()[key].lines[-1].partition(" = ")[2] if key in definitions() else "missing"
            if row.said.replace(",", "") != value:
                yield "%s is %s, and the page says %s" % (key.name, value, row.said)


def count_faults(text: str) -> Iterator[str]:
    """Numbers of definitions and lines in the page's table of the demands that are not those of the files."""
    given = {which: (int(number), int(lines)) for which, number, lines in COUNTED.findall(text)}
    given |= {"all": (int(number), int(lines)) for number, lines in ALL.findall(text)}
    for which in (*DEMANDS, "all"):
        keys = in_specs(demanded() if which == "all" else demanded(which))
        found = (len(keys), line_count(keys))
        if given.get(which) != found:
            yield "demand %s rests on %d definitions in %d lines, and the page says %s" % (
                which, *found, "%d in %d" % given[which] if which in given else "nothing")


def requires_faults(text: str) -> Iterator[str]:
    """Functions of the part on the method that do not require what its third column says, as in
    `Name`: in the `requires` of `f` and `g`; without a name before it, one of the second column."""
    for row in table_rows(parts(text)[1]):
        for clause in row.said.split(";"):
            before, _, after = clause.partition("`requires` of")
            wanted = re.findall(r"`([^`]+)`", before) or row.names
            for name in re.findall(r"`(\w+)`", after.partition(", met")[0]):
                needs = {key for each in contracts() if each.name == name for key in each.needs}
                if not any(key.name in wanted and key[:2] in row.files for key in needs):
                    yield "%s does not require %s" % (name, " or ".join(wanted))


def against(found: Iterable[str], listed: Iterable[str], what: str, constant: str) -> Iterator[str]:
    """What is found and not listed as an exception, and exceptions that are none any more."""
    there, excepted = set(found), set(listed)
    yield from ("%s %s" % (name, what) for name in sorted(there - excepted))
    yield from ("%s needs no exception: take it out of %s in tools/check/believe.py" % (name, constant)
                for name in sorted(excepted - there))


def file_faults() -> Iterator[str]:
    """Files that are not marked, are marked wrongly or mix, and definitions that proofs alone use."""
    yield from against(unmarked(), UNMARKED, 'has no definition that a statement needs; its first line should say '
                       '"Need not be believed"', "UNMARKED")
    yield from against(mismarked(), MISMARKED, "says that it need not be believed, and a statement needs it",
                       "MISMARKED")
    yield from against(proofs_alone(), PROOFS_ALONE, "is used by proofs alone, and belongs in proofs/", "PROOFS_ALONE")
    yield from against(mixed(), MIXED, "has definitions to believe and definitions of the method", "MIXED")


def import_faults() -> Iterator[str]:
    """Names that a file imports and that were not found: the reader of definitions is then at fault."""
    for path in (*CRATES.glob("*/specs/*.antt"), *CRATES.glob("*/src/**/*.rt")):
        for name in unresolved(path.read_text(encoding="utf-8")):
            yield "%s imports %s, which tools/check/definitions.py does not find" % (path.relative_to(TOP), name)


def call_faults() -> Iterator[str]:
    """Public calls with a `requires`, and calls that the page names and the code does not have."""
    known = {(str(each.path.relative_to(TOP)), each.name): each for each in contracts()}
    for file, name in sorted(public_calls()):
        if (file, name) not in known:
            yield "%s has no contract of %s" % (file, name)
        elif known[file, name].requires and file.split("/")[1] not in PROGRAMS:
            yield "%s: the public call %s has a `requires`" % (file, name)


def faults() -> list[str]:
    """What is wrong with the page and with the files."""
    text = (TOP / READING).read_text(encoding="utf-8")
    try:
        page = [*naming_faults(text), *promise_faults(text), *limit_faults(text), *count_faults(text),
                *requires_faults(text)]
        return [*sorted("%s: %s" % (READING, fault) for fault in page), *import_faults(), *call_faults(),
                *file_faults()]
    except Missing as missing:
        return [str(missing)]


def by_file(keys: Iterable[Key]) -> Iterator[str]:
    """A line for each file, with its definitions among these."""
    found: dict[File, list[Key]] = {}
    for key in in_specs(keys):
        found.setdefault((key.crate, key.file), []).append(key)
    for file, listed in found.items():
        yield "  %s (%d, %d lines): %s" % (
            titled(file), len(listed), line_count(listed), " ".join(bare(key.name) for key in listed))


def counted(keys: Iterable[Key]) -> str:
    listed = in_specs(keys)
    return "%d definitions, %d lines" % (len(listed), line_count(listed))


def listing() -> Iterator[str]:
    """The definitions that the demands rest on, by file; then those that each request needs beside them, each
    definition at the first that needs it."""
    yield from ("demand %s: %s" % (which, counted(demanded(which))) for which in DEMANDS)
    believed = demanded()
    yield "all three: " + counted(believed)
    yield from by_file(believed)
    yield "  declared in the code: " + " ".join(sorted(key.name for key in believed if key in declared()))
    yield "beside these, by heading and request of %s:" % promises.PAGE
    listed: set[Key] = set()
    for request, roots in requests().items():
        more = closure(roots, graph(), found_all(COMPUTED)) & stated() - believed
        yield "%s: %s, %s of them above" % (request, counted(more), len(in_specs(more & listed)))
        yield from by_file(more - listed)
        listed |= more


def mixture() -> Iterator[str]:
    """The files that mix, each with its definitions."""
    for file, sorts in mixed().items():
        crate, name = file.split(": ")
        believed, method = ([Key(crate, name, each) for each in part] for part in (sorts.believed, sorts.method))
        yield "%s: to believe (%d lines): %s" % (file, line_count(believed), " ".join(map(bare, sorts.believed)))
        yield "  method (%d lines): %s" % (line_count(method), " ".join(map(bare, sorts.method)))
        if sorts.stated:
            yield "  of further statements: %s" % " ".join(map(bare, sorts.stated))
