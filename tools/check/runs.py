"""The programs `report`, `species` and `pool`, run on many sheets.

No contract can say what a program reads and writes, so that runs show it: each
answers each sheet once and whole, by standard input and by a named file alike, with
the exit status of its answer. The answer of a refused sheet is that of the reference
calculation, number and place. A report has a line for each row and the sums of its
rows; the species are those of its last word.
"""

import contextlib
import signal
import subprocess
import tempfile
import time
from collections.abc import Iterable, Iterator, Sequence
from pathlib import Path
from typing import NamedTuple

from tools import reckoning
from tools.command import SAMPLES, TOP
from tools.reckoning import format as layout
from tools.reckoning import pool, species
from tools.vectors import pools, sheets

BIN = TOP / "target" / "bin"
LONGEST = 25_256  # the bytes of the longest sheet
ROW_WORDS = 6
CATEGORIES = {"cars": (1, 2, 3), "light": (4,), "two": (5, 6, 7, 8, 9)}  # the classes of each
REFUSED_EACH, ACCEPTED_EACH = 20, 10  # of the vectors every so many are run
LEAST = {"refused": 100, "accepted": 70, "pairs": 100}
ANSWERED, REFUSED, NEITHER = 0, 1, 2  # the exit statuses
LINK = "bash c/programs puts there what rt ci made"


class Run(NamedTuple):
    """A sheet, and the number and place of its refusal by the reference calculation, or None."""
    words: str
    data: bytes
    refusal: tuple[int, int] | None


class Counts(NamedTuple):
    """How many sheets and pairs were run."""
    accepted: int
    refused: int
    pairs: int


@contextlib.contextmanager
def without_sigpipe() -> Iterator[None]:
    """SIGPIPE is ignored while a program is written to: one that has read all that it needs may have ended, and the
    signal, by which a command ends whose own reader has gone (tools/command.py), would end this one without a word."""
    before = signal.signal(signal.SIGPIPE, signal.SIG_IGN)
    try:
        yield
    finally:
        signal.signal(signal.SIGPIPE, before)


def answered(program: Path, words: Sequence[str | Path] = (), data: bytes = b"") -> tuple[bytes, bytes, int]:
    """What a program writes to standard output and to standard error, and its exit status."""
    with without_sigpipe():
        run = subprocess.run([program, *words], input=data, capture_output=True, timeout=60)
    return run.stdout, run.stderr, run.returncode


def in_pieces(program: Path, data: bytes) -> tuple[bytes, bytes, int]:
    """The same with the sheet on standard input in three pieces, and a pause after each."""
    third = len(data) // 3
    with without_sigpipe(), subprocess.Popen(
            [program], stdin=subprocess.PIPE, stdout=subprocess.PIPE, stderr=subprocess.PIPE) as run:
        assert run.stdin is not None
        with contextlib.suppress(BrokenPipeError):
            for piece in (data[:third], data[third:2 * third], data[2 * third:]):
                run.stdin.write(piece)
                run.stdin.flush()
                time.sleep(0.02)
        out, said = run.communicate(timeout=60)
    return out, said, run.returncode


def sample_runs() -> Iterator[Run]:
    """The samples, the sheets of the course, and each of them without its last byte."""
    for file in sorted([*SAMPLES.glob("*.evp"), *SAMPLES.glob("course/*.evp")]):
        data = file.read_bytes()
        for words, part in ((file.name, data), (file.name + " without its last byte", data[:-1])):
            yield Run(words, part, reckoning.check(part))


def vector_runs() -> Iterator[Run]:
    """Of the vectors the first sheet for each number of each version, some others, and the longest of all."""
    cases = sheets.all_cases()
    refused = [case for case in cases if case.answer != sheets.ACCEPTED]
    accepted = [case for case in cases if case.answer == sheets.ACCEPTED]
    longest = [case for case in cases if len(case.data) >= LONGEST][:4]
    chosen = [*sheets.refused_cases(), *refused[::REFUSED_EACH], *accepted[::ACCEPTED_EACH], *longest]
    for case in chosen:
        yield Run(case.words, case.data, case.answer if case.answer != sheets.ACCEPTED else None)


def edge_runs(longest: bytes) -> Iterator[Run]:
    """No byte, one byte, the longest sheet, one byte more, and far more than a program has room for."""
    for words, data in (
        ("no byte", b""), ("one byte", b"E"), ("the longest sheet", longest),
        ("one byte more than the longest sheet", longest + b"\0"), ("the longest sheet twice", 2 * longest),
    ):
        yield Run(words, data, reckoning.check(data))


def all_runs() -> list[Run]:
    """Each sheet once."""
    found = [*sample_runs(), *vector_runs()]
    longest = next(run.data for run in found if len(run.data) == LONGEST and run.refusal is None)
    return list({run.data: run for run in [*edge_runs(longest), *found]}.values())


def refusal_text(refusal: tuple[int, int]) -> bytes:
    return b"refused %d at %d\n" % refusal


def number_lines(text: bytes) -> dict[str, list[int]]:
    """The numbers of each line of a report but the first, by the line's name; ValueError where it is no such line."""
    found: dict[str, list[int]] = {}
    for line in text.decode("ascii").splitlines()[1:]:
        words = line.split(" ")
        skip = 2 if words[0] == "row" else 1
        name = " ".join(words[:skip])
        if name in found:
            raise ValueError("the line %r twice" % name)
        found[name] = [int(word) for word in words[skip:]]
    return found


def summed(rows: Iterable[Sequence[int]]) -> list[int]:
    """Six words that are the sums of those of rows."""
    return [sum(column) for column in zip([0] * ROW_WORDS, *rows)]


def expected_sums(data: bytes, rows: list[list[int]]) -> dict[str, list[int]]:
    """The lines below the rows, from the classes of the sheet's rows and the words of the rows."""
    classes = [layout.row_at(data, layout.row_place(data, i)).vehicle_class for i in range(len(rows))]
    sums = {name: summed(row for row, kind in zip(rows, classes) if kind in kinds)
            for name, kinds in CATEGORIES.items()}
    sums["all"] = summed(sums.values())
    return {**sums, "total": [sum(sums["all"][0::2]), sum(sums["all"][1::2])]}


def report_fault(data: bytes, text: bytes) -> str | None:
    """Why a text is not one report of an accepted sheet, as far as its lines and sums show it; or None."""
    count = layout.row_count(data)
    head = b"EVP %d rows %d\n" % (layout.version_of(data), count)
    if not text.startswith(head) or not text.endswith(b"\n") or text.count(b"\n") != count + len(CATEGORIES) + 3:
        return "not one report of %d rows" % count
    try:
        found = number_lines(text)
    except ValueError as error:
        return str(error)
    names = ["row %d" % i for i in range(1, count + 1)]
    rows = [found[name] for name in names if len(found.get(name, ())) == ROW_WORDS]
    if list(found)[:count] != names or len(rows) != count:
        return "not a line of six words for each row"
    if any(low > high for row in rows for low, high in zip(row[0::2], row[1::2])):
        return "a low above its high"
    if {name: found[name] for name in list(found)[count:]} != expected_sums(data, rows):
        return "other sums than those of its rows"
    return None


def sheet_faults(run: Run, folder: Path) -> Iterator[str]:
    """What `report` and `species` do otherwise than they should with a sheet, read from standard input or a file."""
    file = folder / "sheet.evp"
    file.write_bytes(run.data)
    report, said, status = answered(BIN / "report", data=run.data)
    expected_status = ANSWERED if run.refusal is None else REFUSED
    if run.refusal is not None:
        if report != refusal_text(run.refusal):
            yield "report, %s: %r in place of %r" % (run.words, report[:60], refusal_text(run.refusal))
        listed = refusal_text(run.refusal)
    else:
        fault = report_fault(run.data, report)
        if fault:
            yield "report, %s: %s" % (run.words, fault)
            return
        listed = species.text(layout.version_of(run.data), int(report.split()[-1])).encode()
    if said or status != expected_status:
        yield "report, %s: status %d in place of %d (%s), %r on standard error" % (
            run.words, status, expected_status, LINK, said)
        return
    for name, expected in (("report", report), ("species", listed)):
        for words, data in (((), run.data), ((file,), b"")):
            if answered(BIN / name, words, data) != (expected, b"", expected_status):
                yield "%s, %s, %s: another answer" % (name, run.words, "by a file" if words else "on standard input")


def piece_faults(runs: Iterable[Run]) -> Iterator[str]:
    """Sheets that come in pieces, and a standard output that takes nothing."""
    for run in runs:
        for name in ("report", "species"):
            if in_pieces(BIN / name, run.data) != answered(BIN / name, data=run.data):
                yield "%s, %s: another answer where it comes in pieces" % (name, run.words)
    for name in ("report", "species"):
        with open("/dev/full", "wb") as full:
            done = subprocess.run([BIN / name], input=b"", stdout=full, stderr=subprocess.PIPE, timeout=60)
        if (done.stderr.decode(), done.returncode) != ("%s: cannot write standard output\n" % name, NEITHER):
            yield "%s: status %d, %r on standard error where nothing can be written" % (
                name, done.returncode, done.stderr)


def pair_answer(first: bytes, second: bytes) -> tuple[bytes, bytes, int]:
    """What `pool` is to write for two sheets, by the reference calculation."""
    refusal = pool.check(first, second, LONGEST)
    if refusal is None:
        return pool.pooled(first, second), b"", ANSWERED
    sheet, number, place = refusal
    return b"", ("%s sheet: refused %d at %d\n" % (pool.NAMES[sheet], number, place)).encode(), REFUSED


def all_pairs() -> list[tuple[str, bytes, bytes]]:
    """The pairs of the vectors, and pairs of the longest sheet, no byte and one byte."""
    found = [(case.words, case.first, case.second) for case, *_ in pools.VECTORS.find()]
    longest = next(run.data for run in vector_runs() if len(run.data) == LONGEST and run.refusal is None)
    edges = [("no byte", b""), ("one byte", b"E"), ("the longest", longest), ("one byte more", longest + b"\0")]
    found += [("%s and %s" % (a, b), first, second) for a, first in edges for b, second in edges]
    return list({(first, second): (words, first, second) for words, first, second in found}.values())


def pair_faults(pairs: Iterable[tuple[str, bytes, bytes]], folder: Path) -> Iterator[str]:
    """What `pool` does otherwise than it should."""
    files = folder / "first.evp", folder / "second.evp"
    for words, *both in pairs:
        for file, data in zip(files, both):
            file.write_bytes(data)
        found, expected = answered(BIN / "pool", files), pair_answer(*both)
        if found != expected:
            yield "pool, %s: %r in place of %r" % (words, [*(part[:60] for part in found[:2]), found[2]],
                                                   [*(part[:60] for part in expected[:2]), expected[2]])
    missing = folder / "missing.evp"
    not_there = b"pool: cannot open %s: No such file or directory\n" % str(missing).encode()
    usage = b"usage: pool FIRST SECOND\n"
    wrong: list[tuple[list[Path], bytes]] = [
        ([], usage), ([files[0]], usage), ([*files, files[0]], usage),
        ([missing, files[1]], not_there), ([files[0], missing], not_there),
    ]
    for given, said in wrong:
        if answered(BIN / "pool", given) != (b"", said, NEITHER):
            yield "pool with %d arguments: it does not write %r alone, with status %d" % (len(given), said, NEITHER)


def few(counts: Counts) -> Iterator[str]:
    """What there are too few runs of."""
    for name, least in LEAST.items():
        if getattr(counts, name) < least:
            yield "%d runs of %s sheets; %d are wanted" % (getattr(counts, name), name, least)


def check() -> tuple[list[str], Counts]:
    """What is wrong, and how many sheets and pairs were run."""
    runs, pairs = all_runs(), all_pairs()
    refused = sum(run.refusal is not None for run in runs)
    counts = Counts(len(runs) - refused, refused, len(pairs))
    with tempfile.TemporaryDirectory() as name:
        found = [fault for run in runs for fault in sheet_faults(run, Path(name))]
        found += [*piece_faults(runs[:3]), *pair_faults(pairs, Path(name)), *few(counts)]
    return found, counts
