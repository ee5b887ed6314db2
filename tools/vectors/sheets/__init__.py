"""The input of vectors_sheet: sheets with the number and place at which the reckoning stops them, and why.

The file says in four bytes how many sheets there are. Before each sheet stand
how many bytes follow in two bytes, the place in the sheet where they stand in
two and the length of the sheet in two; then the finding: number, reason and
season in one byte each, place, index, the field's first byte and its bytes in
two each, and value, least and most in four each; then these bytes. All of the
finding is 0 where the sheet is accepted. Elsewhere the sheet has the bytes that
the sheets before it left at the same places, and zeros where none did: a
thousand rows have 24,000 bytes, and most sheets differ from the one before in a
few. Every number has its lowest byte first.

Sheets of version 1 come first, those made for version 2 behind them, then those
for version 3 and for version 4.

A sheet that is made for a condition or a limit carries the answer that
document 01's table and the requests' numbers give it. Where the reckoning gives
another the run ends, so that a slip of either does not pass unseen. Where no
answer is known beforehand, as for damage by chance, that of the reckoning stands.
The finding is the reckoning's, held against the answer and the bytes of the sheet.
"""

import functools
from collections import Counter
from collections.abc import Iterator
from itertools import chain

from tools import reckoning
from tools.reckoning.findings import explain
from tools.vectors.frame import VectorError, VectorSet, packed
from tools.vectors.plans import VERSIONS, records_start, rows_of, version_of
from tools.vectors.sheets import findings, version1, version2, version3, version4
from tools.vectors.sheets.case import ACCEPTED, Case
from tools.vectors.sheets.findings import Vector

NUMBERS = (*range(1, 22), 24, 25, 26)  # those of a sheet; 22 and 23 are those of a call

ABSENT = {1: {24, 25, 26}, 2: {3, 8, 9, 25, 26}, 3: {3, 8, 9, 21, 26},
          4: {3, 6, 8, 9, 21}}  # what a version cannot have

LEAST_SHEETS = {1: 420, 2: 150, 3: 150, 4: 150}
LEAST_OF_A_NUMBER = 5
LONGEST = 25_257  # one byte more than the longest sheet: ROOM of the program


GROUPS = version1.GROUPS + version2.GROUPS + version3.GROUPS + version4.GROUPS


def answered(case: Case) -> Case:
    """The case with the answer that the reckoning gives."""
    answer = reckoning.check(case.data) or ACCEPTED
    if case.answer not in (None, answer):
        raise VectorError("%s: %d at %d by the table, %d at %d by the reckoning" % (case.words, *case.answer, *answer))
    return case._replace(answer=answer)


@functools.lru_cache(maxsize=None)
def all_cases() -> list[Case]:
    """No sheet twice."""
    found = {}
    for case in chain.from_iterable(group() for group in GROUPS):
        found.setdefault(case.data, case)
    return [answered(case) for case in found.values()]


def all_vectors() -> list[Vector]:
    return [Vector(case, explain(case.data)) for case in all_cases()]


def refused_cases() -> list[Case]:
    """The first sheet for each number, of each version that can have it."""
    found = {}
    for case in all_cases():
        found.setdefault((case.answer[0], version_of(case.data)), case)
    return [found[key] for key in sorted(found) if key[0]]


def end_of(case: Case) -> tuple[int, str | None] | None:
    """The number with "first" or "last" where the place is that of the first
    or last of several records."""
    number, place = case.answer
    if not (10 <= number <= 21 or number in (25, 26)):
        return None
    seasons, rows = case.data[5], rows_of(case.data)
    place -= records_start(case.data)
    count, index = (seasons, place // 8) if number < 13 else (rows, (place - 8 * seasons) // 24)
    return (number, {0: "first", count - 1: "last"}.get(index)) if count > 1 else None


def missing(vectors: list[Vector]) -> Iterator[str]:
    yield from missing_cases([vector.case for vector in vectors])
    yield from findings.missing(vectors)


def missing_cases(cases: list[Case]) -> Iterator[str]:
    """What the sheets as a whole should show and do not."""
    numbers = Counter(case.answer[0] for case in cases)
    for number in NUMBERS:
        if numbers[number] < LEAST_OF_A_NUMBER:
            yield "number %d: %d sheets" % (number, numbers[number])
    for version in VERSIONS:
        of_version = [case for case in cases if version_of(case.data) == version]
        if len(of_version) < LEAST_SHEETS[version]:
            yield "version %d: %d sheets" % (version, len(of_version))
        if {case.answer[0] for case in of_version} != {0, *NUMBERS} - ABSENT[version]:
            yield "version %d: not the numbers that it can have" % version
        ends = {end_of(case) for case in of_version}
        for number in {*range(10, 22), 25, 26} - ABSENT[version]:
            # ten rows at least stand before the one that takes the sum of vehicles past its limit
            if not {(number, "first"), (number, "last")} - {(26, "first")} <= ends:
                yield "version %d: number %d not in the first and in the last record" % (version, number)
    if max(len(case.data) for case in cases) != LONGEST:
        yield "no sheet of %d bytes, or a longer one" % LONGEST


def other_part(before: bytes, data: bytes) -> tuple[int, int]:
    """The ends of the part outside which two byte strings are alike; beyond the
    end of the one there are zeros."""
    x, y = (int.from_bytes(part, "little") for part in (before, data))
    other = x ^ y
    return ((other & -other).bit_length() - 1) // 8 if other else 0, (other.bit_length() + 7) // 8


def other_parts(cases: list[Case]) -> Iterator[tuple[int, bytes]]:
    """For each sheet a place, and the bytes from there in which it differs from what the sheets before it left."""
    left = bytes(LONGEST)  # at each place
    for case in cases:
        here = case.data + left[len(case.data):]
        start, end = other_part(left, here)
        yield start, here[start:end]
        left = here


def encoded(vectors: list[Vector]) -> bytes:
    parts = [packed(4, [len(vectors)])]
    for (case, finding), (start, part) in zip(vectors, other_parts([vector.case for vector in vectors])):
        parts += [packed(2, [len(part), start, len(case.data)]), findings.finding_bytes(finding), part]
    return b"".join(parts)


def lines(vectors: list[Vector]) -> Iterator[str]:
    for position, (case, finding) in enumerate(vectors, 1):
        why = "; " + findings.reason_text(finding) if finding.number else ""
        yield "%4d  %-17s  %s%s" % (position, reckoning.answer_text(*case.answer), case.words, why)


VECTORS = VectorSet("vectors_sheet", all_vectors, encoded, lines, missing)
