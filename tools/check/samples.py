"""The programs `report` and `species` on every sample, and with `pool` on many other sheets.

What `report` prints is held against the stored report, samples/NAME.report;
`species` must print the species of that report's last word as the reckoning has
them. Of a sheet that lacks its last byte both must print the same refusal. The
examples of docs/SHEET.md must be stored reports, word for word, and the start of
such species. A sheet that is named must be answered as one on standard input; a
wrong call, a file that is not there and a folder must be said on standard error.
Then all three programs are run on sheets of the vectors and pairs of them, accepted
and refused, empty and longest: each must write one answer (tools/check/runs.py).

The exit status must be 0 for an answer, 1 for a refusal and 2 for neither. The
programs are target/bin/report, target/bin/species and target/bin/pool, as c/programs
puts them there as `rt ci` or `rt run` made them.
"""

import re
import subprocess
import tempfile
from collections.abc import Iterator, Sequence
from pathlib import Path

from tools.check.runs import ANSWERED, LINK, NEITHER, REFUSED, answered
from tools.command import SAMPLES, TOP
from tools.reckoning import species

REPORT = TOP / "target" / "bin" / "report"
SPECIES = TOP / "target" / "bin" / "species"
POOL = TOP / "target" / "bin" / "pool"
PAGE = "docs/SHEET.md"
INDENT = "    "


def printed(program: Path, data: bytes) -> bytes:
    """What a program prints for a sheet; it must say nothing else, and end with the status of that."""
    out, said, found = answered(program, data=data)
    status = REFUSED if out.startswith(b"refused ") else ANSWERED
    if found != status or said:
        raise ValueError("%s: status %d in place of %d (%s), %r on standard error" % (
            program.name, found, status, LINK, said))
    return out


def named(program: Path, *words: str | Path) -> tuple[bytes, str, int]:
    """What a program prints for its arguments, what it says on standard error, and its exit status."""
    run = subprocess.run([program, *words], stdin=subprocess.DEVNULL, capture_output=True, timeout=60)
    return run.stdout, run.stderr.decode(), run.returncode


def argument_faults(program: Path, sheets: Sequence[Path]) -> Iterator[str]:
    """What a program does otherwise than it should with its arguments."""
    for sheet in sheets:
        if named(program, sheet) != (printed(program, sheet.read_bytes()), "", ANSWERED):
            yield "%s samples/%s: another answer than on standard input" % (program.name, sheet.name)
    usage = "usage: %s [FILE]   without FILE the sheet is read from standard input\n" % program.name
    with tempfile.TemporaryDirectory() as folder:
        missing = Path(folder, "a sheet that is not there.evp")
        for words, said in (
            ((sheets[0], sheets[0]), usage),
            (("--help",), usage),
            ((missing,), "%s: cannot open %s: No such file or directory\n" % (program.name, missing)),
            ((folder,), "%s: cannot read %s: Is a directory\n" % (program.name, folder)),
        ):
            if named(program, *words) != (b"", said, NEITHER):
                yield "%s %s: it does not say %r and nothing else, with status %d" % (
                    program.name, " ".join(map(str, words)), said, NEITHER)


def blocks(text: str) -> list[str]:
    """The indented blocks of a text, without their indent."""
    found, block = [], []
    for line in [*text.splitlines(), ""]:
        if line.startswith(INDENT):
            block.append(line[len(INDENT):] + "\n")
        elif block:
            found.append("".join(block))
            block = []
    return found


def faults(sheets: Sequence[Path], reports: dict[Path, bytes]) -> Iterator[str]:
    """What differs from the stored reports."""
    for sheet in sheets:
        stored = sheet.with_suffix(".report")
        if not stored.exists():
            yield "samples/%s is missing" % stored.name
        elif stored.read_bytes() != reports[sheet]:
            yield "samples/%s is not what the program prints" % stored.name
    for stored in sorted(SAMPLES.glob("*.report")):
        if stored.with_suffix(".evp") not in sheets:
            yield "samples/%s has no sheet" % stored.name
    shown = blocks((TOP / PAGE).read_text(encoding="utf-8"))
    examples = [block for block in shown if re.match(r"EVP \d+ rows ", block)]
    if not examples:
        yield "%s has no example of a report" % PAGE
    for example in examples:
        if example.encode() not in reports.values():
            yield "%s has an example that is no sample's report:\n%s" % (PAGE, example)


def example_faults(texts: Sequence[str]) -> Iterator[str]:
    """Examples of species on the page with which none of these texts begins."""
    for example in blocks((TOP / PAGE).read_text(encoding="utf-8")):
        if re.match(r"EVP \d+ total ", example) and not any(text.startswith(example) for text in texts):
            yield "%s has an example that is no sample's species:\n%s" % (PAGE, example)


def species_of(report: bytes) -> str:
    """The text of the species of a report's last word, as the reckoning has them."""
    fields = report.split()
    return species.text(int(fields[1]), int(fields[-1]))


def species_faults(sheet: Path, report: bytes) -> Iterator[str]:
    """What the program `species` prints otherwise than it should."""
    data = sheet.read_bytes()
    if printed(SPECIES, data).decode() != species_of(report):
        yield "samples/%s: other species than the reckoning has" % sheet.name
    refusal = printed(SPECIES, data[:-1])
    if not refusal.startswith(b"refused ") or refusal != printed(REPORT, data[:-1]):
        yield "samples/%s without its last byte: `species` and `report` refuse it otherwise" % sheet.name


def check(write: bool) -> Iterator[str]:
    """What is wrong; with `write` what `report` prints is stored first."""
    for program in (REPORT, SPECIES, POOL):
        if not program.exists():
            yield "no target/bin/%s; rt ci and bash c/programs make it" % program.name
            return
    sheets = sorted(SAMPLES.glob("*.evp"))
    if not sheets:
        yield "no sample"
    reports = {}
    for sheet in sheets:
        try:
            reports[sheet] = printed(REPORT, sheet.read_bytes())
            yield from species_faults(sheet, reports[sheet])
        except (ValueError, subprocess.TimeoutExpired) as error:
            yield "%s: %s" % (sheet.name, error)
            return
    for program in (REPORT, SPECIES):
        yield from argument_faults(program, sheets)
    if write:
        for sheet, report in reports.items():
            sheet.with_suffix(".report").write_bytes(report)
    yield from faults(sheets, reports)
    yield from example_faults([species_of(report) for report in reports.values()])
