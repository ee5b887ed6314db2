"""What the reckoning finds wrong on the sheets, held against their bytes.

Number and place are those of the check, a field's value is read from its bytes,
and where the limit is put there the sheet no longer stops with this reason. Some
sheet has each limit itself and passes, and some is beyond it by one.
"""

from collections import Counter
from collections.abc import Iterator
from typing import NamedTuple

from tools.reckoning.findings import Finding, explain, lines
from tools.vectors.frame import packed
from tools.vectors.sheets.case import Case

# By number how many reasons it has, where there is more than one.
SEVERAL = {2: 3, 10: 2, 11: 3, 13: 2, 15: 3, 18: 2, 19: 3, 25: 4}
REASONS = {(number, reason) for number in (*range(1, 22), 24, 25, 26)
           for reason in range(1, SEVERAL.get(number, 1) + 1)}
LEAST_OF_A_REASON = 5
SUMS = {(8, 1), (9, 1), (24, 1), (10, 2), (26, 1)}  # whose value is a sum and stands nowhere
LENGTHS = {(1, 1), (7, 1)}
TEMPERATURES = {(11, 1), (11, 2), (11, 3)}
# What no sheet is refused for by one: a length above all, and a letter, a load or a sum that need not be so near.
NOT_ABOVE = {(1, 1), (2, 1), (19, 2)}
NOT_BELOW = {(2, 1), (2, 2), (2, 3), (10, 2), (11, 2), (11, 3)}
SIGN = 2 ** 15  # between the bits of a temperature and its place in the order of temperatures


class Vector(NamedTuple):
    """A sheet, and what is wrong on it."""
    case: Case
    finding: Finding


def rule(finding: Finding) -> tuple[int, int]:
    return finding.number, finding.reason


def standing(data: bytes, finding: Finding) -> int:
    """The value of the finding's field, read from the sheet."""
    if rule(finding) in LENGTHS:
        return len(data)
    found = int.from_bytes(data[finding.at:finding.at + finding.bytes], "little")
    return found ^ SIGN if rule(finding) in TEMPERATURES else found


def mended(data: bytes, finding: Finding, value: int) -> bytes:
    bits = value ^ SIGN if rule(finding) in TEMPERATURES else value
    return data[:finding.at] + bits.to_bytes(finding.bytes, "little") + data[finding.at + finding.bytes:]


def faults_of(data: bytes, finding: Finding) -> Iterator[str]:
    """What of a finding is not so."""
    if finding.least <= finding.value <= finding.most:
        yield "the value is within its limits"
    if rule(finding) in SUMS:
        return
    if standing(data, finding) != finding.value:
        yield "another value stands there"
    if rule(finding) in LENGTHS:
        return
    for value in {finding.least, finding.most}:
        after = explain(mended(data, finding, value))
        if (rule(after), after.place) == (rule(finding), finding.place):
            yield "with %d there it is refused as before" % value


def missing(vectors: list[Vector]) -> Iterator[str]:
    """What the findings as a whole should show and do not."""
    counts = Counter(rule(vector.finding) for vector in vectors)
    for reason in sorted(REASONS | set(counts)):
        if reason != (0, 0) and (reason not in REASONS or counts[reason] < LEAST_OF_A_REASON):
            yield "number %d reason %d: %d sheets" % (*reason, counts[reason])
    for case, finding in vectors:
        if (finding.number, finding.place) != case.answer:
            yield "%s: number or place is not the check's" % case.words
        if finding.number:
            yield from ("%s: %s" % (case.words, fault) for fault in faults_of(case.data, finding))
    for name in ("index", "season"):
        if not any(getattr(vector.finding, name) for vector in vectors):
            yield "no finding with %s above 0" % name
    yield from missing_ends(vectors)


def missing_ends(vectors: list[Vector]) -> Iterator[str]:
    """Limits that no sheet meets, or that none is beyond by one."""
    refused = [vector.finding for vector in vectors if vector.finding.number]
    passed = [line for vector in vectors if not vector.finding.number for line in lines(vector.case.data)]
    shown = {
        "one above the most": NOT_ABOVE | {rule(found) for found in refused if found.value == found.most + 1},
        "one below the least": NOT_BELOW | {rule(found) for found in refused if found.value + 1 == found.least}
        | {rule(found) for found in refused if found.least == 0},
        "the most, which passes": LENGTHS | {rule(found) for found in passed if found.value == found.most},
        "the least, which passes": LENGTHS | {rule(found) for found in passed if found.value == found.least},
    }
    for words, reasons in shown.items():
        yield from ("number %d reason %d: no sheet has %s" % (*reason, words) for reason in sorted(REASONS - reasons))


def finding_bytes(finding: Finding) -> bytes:
    return (packed(1, [finding.number, finding.reason, finding.season])
            + packed(2, [finding.place, finding.index, finding.at, finding.bytes])
            + packed(4, [finding.value, finding.least, finding.most]))


def reason_text(finding: Finding) -> str:
    """All but number and place, as the program prints it."""
    return "reason %d index %d season %d field %d size %d value %d least %d most %d" % finding[2:]
