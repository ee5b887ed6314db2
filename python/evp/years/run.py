"""The reports of many sheets, by processes of this machine."""

import json
import os
import struct
import sys
import time
from collections.abc import Iterable, Iterator, Sequence
from dataclasses import dataclass
from typing import Any

from evp import library as calls
from evp.explain import explain
from evp.layout import ROW_BYTES, row_place
from evp.library import LAST_WORDS, Library, Refusal
from evp.wording import apart
from evp.workers import Workers

CHUNK = 16  # sheets that a process gets at once, at most
AHEAD = 3  # chunks for each process that are read and not answered yet, at most
ENDED = ("a process was ended from outside, perhaps for want of memory; what is done is kept, and the same command "
         "goes on")
RECORD = struct.Struct("<BB6xI12x")  # class, technology and vehicles of a row


@dataclass(frozen=True)
class Options:
    """What is asked of a sheet besides its subtotals: masses by season, and of every row."""
    seasons: bool = False
    rows: bool = False


@dataclass(frozen=True)
class Chunk:
    """Some sheets, each with the key of its answer."""
    keys: list[str]
    sheets: list[bytes]


# ------------------------------------------------------------------ one sheet


def answer_of(library: Library, data: bytes, options: Options) -> str:
    """What the library says of a sheet, as JSON: its subtotals and total, its classes, and what else is asked."""
    try:
        words = library.words(data)
    except Refusal:
        return json.dumps({"refused": explain(library, data).line}, ensure_ascii=False)
    found: dict[str, Any] = {"words": words[-LAST_WORDS:], "classes": _classes(data, words)}
    if options.rows:
        found["rows"] = words[:-LAST_WORDS]
    if options.seasons:
        found["seasons"] = [_last_words(report) for report in library.report_seasons(data)]
    return json.dumps(found, separators=(",", ":"))


def _last_words(report: calls.Report) -> list[int]:
    """The subtotals and the total of a report as words."""
    groups = (getattr(report, name) for name in calls.GROUPS)
    return [end for masses in groups for band in masses for end in band] + list(report.total)


def _classes(data: bytes, words: list[int]) -> list[list[int]]:
    """Class, technology, vehicles and the sums of the rows' words of each class and technology that there is."""
    many, start = (len(words) - LAST_WORDS) // 6, row_place(data, 0)
    found: dict[tuple[int, int], list[int]] = {}
    vehicles = []
    for i, (number, technology, count) in enumerate(RECORD.iter_unpack(data[start:start + ROW_BYTES * many])):
        found.setdefault((number, technology), []).append(i)
        vehicles.append(count)
    columns = [vehicles, *(words[k:6 * many:6] for k in range(6))]
    return [[*key, *(sum(map(column.__getitem__, rows)) for column in columns)] for key, rows in sorted(found.items())]


def answers(sheets: Sequence[bytes], options: Options) -> list[str]:
    """The answers of some sheets, with the library of this process."""
    library = calls.load()
    return [answer_of(library, data, options) for data in sheets]


# ------------------------------------------------------------------ processes


def cores() -> int:
    """The cores that this process may use."""
    return len(os.sched_getaffinity(0)) if hasattr(os, "sched_getaffinity") else os.cpu_count() or 1


def chunk_size(many: int, jobs: int) -> int:
    """So many sheets at once that every process gets several times some."""
    return max(1, min(CHUNK, many // (4 * jobs)))


def run_local(chunks: Iterable[Chunk], options: Options, jobs: int) -> Iterator[tuple[list[str], list[str]]]:
    """The keys and answers of chunks, as they are finished; few are read ahead."""
    if jobs == 1:
        for chunk in chunks:
            yield chunk.keys, answers(chunk.sheets, options)
        return

    def work(chunk: Chunk) -> list[str]:
        return answers(chunk.sheets, options)

    workers: Workers[Chunk, list[str]]
    with Workers(lambda: work, jobs, ENDED) as workers:
        for chunk, found in workers.as_finished(chunks):
            yield chunk.keys, found


# ------------------------------------------------------------------ how far it is


class Bar:
    """How far it is and the time left, on a terminal alone."""

    WIDTH = 30

    def __init__(self, many: int, what: str = "sheets") -> None:
        self._many, self._what, self._before = many, what, 0
        self._start = self._shown = time.monotonic()
        self._terminal = sys.stderr.isatty()

    def begin(self, done: int) -> None:
        """From here on the time counts; so many were done before."""
        self._before, self._start = done, time.monotonic()

    def __call__(self, done: int) -> None:
        now = time.monotonic()
        if not self._terminal or done < self._many and now - self._shown < 0.1:
            return
        self._shown = now
        filled = self.WIDTH * done // max(1, self._many)
        line = "%s%s %s of %s %s%s" % ("#" * filled, "." * (self.WIDTH - filled), apart(done), apart(self._many),
                                       self._what, self._left(done, now))
        print("\r" + line.ljust(78), end="\n" if done == self._many else "", file=sys.stderr, flush=True)

    def _left(self, done: int, now: float) -> str:
        if done <= self._before or done == self._many:
            return ""
        seconds = round((now - self._start) / (done - self._before) * (self._many - done))
        hours, rest = divmod(seconds, 3600)
        return ", %s%02d:%02d left" % ("%d:" % hours if hours else "", rest // 60, rest % 60)
