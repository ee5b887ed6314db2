"""Figures in README.md, CONTRIBUTING.md and docs/*.md against what programs print and files hold.

A claim is a piece of a sentence with the names of facts in braces. It must
stand in some document, and wherever it stands the figures must be those of the
facts; spaces and line ends count alike. A figure beside one of NOUNS that no
claim holds is reported too. docs/changes, docs/PORT.md, docs/DESIGN-PASS.md and
docs/TIMES.md tell how things were, and are not read.
"""

import re
from collections.abc import Iterator
from typing import NamedTuple

from tools import crates
from tools.check import inputs
from tools.check.edits import find as find_edits
from tools.check.names import HISTORY
from tools.check.pressures import PRESSURES
from tools.command import SAMPLES, TOP
from tools.make import times

NUMBER = r"(?:\d{1,3}(?:,\d{3})+|\d+)(?:\.\d+)?"

# What the programs print, by program: the line, with facts in braces and * for what does not matter.
PRINTED = {
    "vectors_bounds": (
        "exponentials from 0 below 1/4096: * largest error {quadratic_error} of *",
        "exponentials from 0 below 1/16: * largest error {fine_error} of *",
        "exponentials up to 2.3: * largest error {error_2_3} of {bound_2_3}",
        "exponentials up to 3: * largest error {error_3} of {bound_3}",
        "exponentials up to 3.6: * largest error {error_3_6} of {bound_3_6}",
        "exponentials below 4.1: {exponents} enclosed * largest error {error_4_1} of {bound_4_1}",
        "powers up to 65 degrees: {temperatures} enclosed * largest error {error_power} of {bound_power}",
    ),
    "vectors_species": ("totals: {totals} split as given *",),
    "vectors_sheet": ("sheets {sheets} checked as given * explained as given *",),
    "vectors_factor": (
        "factors: {factors} enclosed * widest band {factor_band} ug farthest from its middle {middle_ng} ng",
        "rows with a mileage: {driven_factors} enclosed * widest band {driven_band} ug * middle {driven_middle_ng} ng",
        "refused calls {refused_factors} alike *",
    ),
    "vectors_report": (
        "diurnal bands {rows} right * widest {diurnal_ng} ng *, * {driven_rows} right * widest {driven_diurnal_ng} ng",
        "soak bands * right * widest {soak_ng} ng * with a mileage * right * widest {driven_soak_ng} ng",
        "running bands * right * widest {running_ng} ng * with a mileage * right * widest {driven_running_ng} ng",
        "sums of accepted sheets {reports} right *",
        "refused sheets {refused_reports} right *",
    ),
    "vectors_map": (
        "rows with cells {rows_with_cells} agree *", "rows refused 27: {rows_27} agree *",
        "rows refused 28: {rows_28} agree *",
        "sums with a cell {sums_with_cell} agree *", "sums refused 27: {sums_27} agree *",
    ),
    "vectors_ledger": ("calls that pass {ledger_passed} right *", "calls that are refused {ledger_refused} right *"),
    "vectors_shared_ledger": ("openings {shared_ledgers} right *", "calls {shared_calls} right *",
                       "pairs told the same {shared_pairs} right *"),
    "vectors_pool": ("refused pairs {refused_pools} right *", "pooled sheets {accepted_pools} right *"),
    "vectors_marks": ("figures {filed_figures} as given *",),
}

CLAIMS = (
    # what the programs vectors_* were run on
    "{exponents} exponents and {temperatures} temperatures",
    "{sheets} sheets, {sheets_2} of them of version 2, {sheets_3} of version 3 and {sheets_4} of version 4",
    "{factors} factors, {factors_2} of them of version 2, {factors_3} of version 3 and {factors_4} of version 4",
    "on {factors} factors (every version", "and {refused_factors} refused calls",
    "three masses of {rows} rows of {reports} sheets, {reports_2} of them of version 2,"
    " {reports_3} of version 3 and {reports_4} of version 4",
    "and {refused_reports} refusals",
    "{totals} totals with",
    "{cell_rows} rows, {cell_rows_refused} of them refused,",
    "and {cell_sums} sums of two cells, {sums_27} of them refused",
    "{ledger_calls} calls on {ledgers} ledgers and on {no_ledgers} pairs of buffers",
    "{ledger_passed} calls pass and {ledger_refused} are refused",
    "{shared_calls} calls on {shared_ledgers} shared ledgers", "{shared_pairs} pairs of ledgers",
    "{pools} pairs of sheets, {refused_pools} of them refused",
    "{pressure_pairs} pairs of sheets",
    "{filed_figures} filed figures",
    # the gate
    "{tests} tests: {crates} crates proved", "and {edits} must-fail edits refused",
    # the longest sheet, its report and its text
    "longest sheet, which has {sheet_bytes} bytes", "at most {sheet_bytes} for S = 12 and R = 1,000",
    "the report has at most {report_words} words", "lends {report_words}, those of 1,000 rows",
    "longer than {text_bytes} bytes",
    # the limits of a sheet, in the tables of its fields and of its refusals
    "| S | 1 to {seasons_limit} | number of seasons", "S is not 1 to {seasons_limit} |",
    "u8 | R | 1 to {rows_limit} |", "u16 | R | 1 to {many_rows_limit} |",
    "R is not 1 to {rows_limit}; in version 4 not 1 to {many_rows_limit} |",
    "sum P from 1 to {counts_limit} |", "sum Q from 1 to {counts_limit} |",
    "duration counts sum to 0 or to more than {counts_limit} |",
    "end-hour counts sum to 0 or to more than {counts_limit} |",
    "| grid | sum from 1 to {grid_limit} |", "counts of the grid sum to 0 or to more than {grid_limit} |",
    "| 1 to {days_limit}, all seasons together at most {days_limit} |", "days are 0 or above {days_limit}, or the",
    "| lowest | 0.1 °C | −{cold_limit} to {warm_limit} |", "is below −{cold_limit} or above {warm_limit}, or lowest",
    "| vp | 0.1 kPa | {vp_least} to {vp_limit} |", "vp is below {vp_least} or above {vp_limit} |",
    "| h | % | 0 to {percent_limit} |", "c, p or h is above {percent_limit} |",
    "| tank | 0.1 l | 0 to {tank_limit} |", "the tank is above {tank_limit} |",
    "| vehicles | | 0 to {vehicles_limit} |", "there are more than {vehicles_limit} vehicles |",
    "rows 0 to i together are more than {fleet_limit} |",
    "| trips | 0.01 a day | 0 to {trips_limit} |", "| minutes | min | 0 to {minutes_limit} |",
    "trips are above {trips_limit} or minutes above {minutes_limit} |",
    "| mileage | km | 0 to {mileage_limit} |", "the mileage is above {mileage_limit}; or",
    # how near a word comes to 2^64
    "in the buffer | {year_most} | {year_share} % |",
    "a word of a row, {vehicles_limit} vehicles, in milligrams | {row_most} | {row_share} % |",
    "a subtotal, {lists_fleet} vehicles ({rows_limit} rows of versions 1 to 3) | {lists_sum} | {lists_share} % |",
    "the grand total of these | {lists_total} | {lists_total_share} % |",
    "a subtotal in version 4, {fleet_limit} vehicles in up to {many_rows_limit} rows | {many_sum} | {many_share} % |",
    "the grand total in version 4 | {many_total} | {many_total_share} % |",
    # the course's ledger
    "{most_calls} calls, and a ledger has no room for more", "each of the nine has {most_calls} calls",
    "{load_calls} calls at once",
    # docs/METHOD.md, proved and measured
    "the terms left out 11/4 | 2^-40 | 5 | {quadratic_error} |", "E up to 1/16 | 2^-40 | 8 | {fine_error} |",
    "0.004·vp | 2^-40 | {bound_2_3} | {error_2_3} |",
    "up to 50 °C | 2^-40 | {bound_3_6} | {error_3_6} |", "up to 56 °C | 2^-40 | {bound_4_1} | {error_4_1} |",
    "up to 65 °C | 2^-24 | {bound_power} | {error_power} |",
    "factors tried | | | {factors} | {driven_factors} |", "rows tried | | | {rows} | {driven_rows} |",
    "widest band of a factor | 10 µg | 2 µg | {factor_band} µg | {driven_band} µg |",
    "the middle of its band | 5 µg | 1 µg | {middle} µg | {driven_middle} µg |",
    "for each vehicle and day | 10 µg and 2 mg | 2 µg and 2 mg | {diurnal} µg | {driven_diurnal} µg |",
    "of a soak mass, for each trip | 10 µg and 2 mg | 2 µg and 2 mg | {soak} µg | {driven_soak} µg |",
    "of a running mass, for each trip | 10 µg and 2 mg | 2 µg and 2 mg | {running} µg | {driven_running} µg |",
)

# A figure of two digits or more beside one of these wants a claim.
NOUNS = (
    "exponents", "temperatures", "totals", "sheets", "factors", "masses", "sums", "calls", "ledgers", "pairs", "crates",
    "edits", "must-fail edits", "tests", "refusals",
)
# Figures beside a noun that are of the sheet, of the method or of a measurement, and of no program of the gate.
KNOWN = (
    "43 pairs are in the table", "29 masses", "26 sums, which are all that grows",
    "16,384 exponents from the whole range", "25 temperatures",
    "20 calls, processor time", "30 sheets, 436 figures", "32 sheets of 16 years", "27,390 masses, take",
)


class Text(NamedTuple):
    """A document, with spaces and line ends made one."""
    name: str
    words: str


class Standing(NamedTuple):
    """A place where a claim stands, and the facts of its figures."""
    claim: str
    document: str
    match: re.Match
    facts: list[str]


# ------------------------------------------------------------------- the facts


def pattern_of(template: str) -> tuple[str, list[str]]:
    """A regular expression for a template, with a group for each fact, and the facts' names in their order."""
    parts = re.split(r"\{(\w+)\}|(\*)", " ".join(template.split()))
    pattern, names = "", []
    for literal, name, star in zip(parts[0::3], parts[1::3] + [None], parts[2::3] + [None]):
        pattern += re.escape(literal) + ("(%s)" % NUMBER if name else ".*" if star else "")
        names += [name] if name else []
    return pattern, names


def plain(number: str) -> str:
    return number.replace(",", "")


def printed_facts(program: str) -> Iterator[tuple[str, str]]:
    text = (TOP / "crates" / program / "stdout").read_text(encoding="utf-8")
    for template in PRINTED[program]:
        pattern, names = pattern_of(template)
        match = re.search("^%s$" % pattern, text, re.M)
        if match is None:
            raise ValueError("crates/%s/stdout has no line %r" % (program, template))
        yield from zip(names, map(plain, match.groups()))


def header_facts() -> Iterator[tuple[str, str]]:
    header = (TOP / "include" / "evaporation.h").read_text(encoding="ascii")
    for name, macro in (("sheet_bytes", "SHEET_BYTES"), ("report_words", "WORDS"), ("text_bytes", "TEXT_BYTES")):
        yield name, re.search(r"#define EVP_%s (\d+)$" % macro, header, re.M)[1]


def desk_facts() -> Iterator[tuple[str, str]]:
    """Numbers that stand in the desk's code and in its tests."""
    for name, file, line in (
        ("most_calls", "evp/desk/ledger.py", r"^MOST_CALLS = ([\d_]+)"),
        ("load_calls", "tests/test_desk_load.py", r'^CALLS = .*"(\d+)"'),
    ):
        found = re.search(line, (TOP / "python" / file).read_text(encoding="utf-8"), re.M)
        yield name, found[1].replace("_", "")


def counted_facts() -> Iterator[tuple[str, int]]:
    """What is counted in files, and not printed."""
    for name, by_version in (
        ("sheets", inputs.sheets_by_version()), ("factors", inputs.factors_by_version()),
        ("reports", inputs.reports_by_version()),
    ):
        yield from (("%s_%d" % (name, version), by_version[version]) for version in (2, 3, 4))
    opened = inputs.ledgers()
    yield from (("ledgers", opened[True]), ("no_ledgers", opened[False]))
    yield "crates", len(crates.names())
    yield "edits", len(find_edits())
    yield "samples", len(list(SAMPLES.glob("*.evp")))
    yield "pressure_pairs", 4 * len(PRESSURES)  # of each version


def constants(path: str) -> dict[str, int]:
    """The numbers that a file of definitions gives a name."""
    found = re.findall(r"^ *(\w+) = (\d+)$", (TOP / path).read_text(encoding="utf-8"), re.M)
    return {name: int(value) for name, value in found}


def size_facts(limits: dict[str, int]) -> Iterator[tuple[str, str]]:
    """How large the words of a report can be, as masses/proofs/MassSizes has it: a vehicle's in a year, a fleet's."""
    sizes = (TOP / "crates/factors/proofs/Sizes.antt").read_text(encoding="utf-8")
    micrograms = 10 ** 6 * int(re.search(r"^grams_limit F2 = (\d+)$", sizes, re.M)[1])
    year = limits["days_limit"] * limits["trips_limit"] * 10_000 * micrograms
    row = year // 10 ** 9 * limits["vehicles_limit"]
    lists, many = limits["rows_limit"] * limits["vehicles_limit"], limits["fleet_limit"]
    yield "lists_fleet", str(lists)
    for name, most in (
        ("year", year), ("row", row), ("lists_sum", year // 10 ** 9 * lists), ("many_sum", year // 10 ** 9 * many),
        ("lists_total", 3 * (year // 10 ** 9) * lists), ("many_total", 3 * (year // 10 ** 9) * many),
    ):
        yield name if "_" in name else name + "_most", str(most)
        yield name.removesuffix("_sum") + "_share", "%.1f" % (100 * most / 2 ** 64)


def facts() -> dict[str, str]:
    """All facts, as decimals without commas."""
    found = dict(fact for program in PRINTED for fact in printed_facts(program)) | dict(header_facts())
    found |= dict(desk_facts())
    found |= {name: str(value) for name, value in counted_facts()}
    limits = constants("crates/sheet/specs/Limits.antt")
    found |= {name: str(value) for name, value in limits.items()}
    sizes = dict(size_facts(limits))
    number = {name: int(value) for name, value in found.items()}
    sums = {
        "masses": 3 * number["rows"], "cell_rows": number["rows_with_cells"] + number["rows_27"] + number["rows_28"],
        "cell_rows_refused": number["rows_27"] + number["rows_28"],
        "cell_sums": number["sums_with_cell"] + number["sums_27"],
        "ledger_calls": number["ledger_passed"] + number["ledger_refused"],
        "pools": number["refused_pools"] + number["accepted_pools"], "tests": number["crates"] + number["edits"],
    }
    found |= {name: str(value) for name, value in sums.items()}
    found |= {name.removesuffix("_ng"): "%.3f" % (value / 1000)
              for name, value in number.items() if name.endswith("_ng")}
    return found | sizes


# --------------------------------------------------------------- the documents


def documents() -> list[Text]:
    pages = sorted(set((TOP / "docs").glob("*.md")) - {TOP / times.PAGE, *(TOP / page for page in HISTORY)})
    paths = [TOP / "README.md", TOP / "CONTRIBUTING.md", *pages]
    return [Text(str(path.relative_to(TOP)), " ".join(path.read_text(encoding="utf-8").split())) for path in paths]


def standing(texts: list[Text]) -> list[Standing]:
    """Where the claims stand. A claim inside a longer one says nothing there, such as
    `pairs of sheets` in `pairs of sheets to pool`."""
    found = []
    for claim in CLAIMS:
        pattern, names = pattern_of(claim)
        found += [Standing(claim, text.name, match, names)
                  for text in texts for match in re.finditer(r"(?<![\d,.])" + pattern, text.words)]
    return [one for one in found if not any(inside(one, other) for other in found)]


def inside(one: Standing, other: Standing) -> bool:
    (start, end), (first, last) = one.match.span(), other.match.span()
    return one.document == other.document and first <= start and end <= last and (start, end) != (first, last)


def stale(found: list[Standing], known: dict[str, str]) -> Iterator[str]:
    """Claims that stand nowhere, and those whose figures are others."""
    for one in found:
        for name, figure in zip(one.facts, one.match.groups()):
            if plain(figure) != known[name]:
                yield "%s: %r: %s is %s" % (one.document, one.match.group(), name, known[name])
    for claim in CLAIMS:
        if claim not in {one.claim for one in found}:
            yield "no document says %r" % claim


def unheld(found: list[Standing], texts: list[Text]) -> Iterator[str]:
    """Figures beside a noun that no claim holds."""
    held = {(one.document, one.match.start(i)) for one in found for i in range(1, len(one.facts) + 1)}
    pattern = r"(?<![\d,.])(?=\d\d|\d,\d)(%s) (?:%s)\b" % (NUMBER, "|".join(NOUNS))
    for text in texts:
        for match in re.finditer(pattern, text.words):
            known = any(text.words.startswith(words, match.start()) for words in KNOWN)
            if not known and (text.name, match.start()) not in held:
                yield "%s: nothing is held against %r" % (text.name, text.words[match.start():match.end() + 40])


def faults() -> Iterator[str]:
    texts = documents()
    found = standing(texts)
    yield from stale(found, facts())
    yield from unheld(found, texts)
