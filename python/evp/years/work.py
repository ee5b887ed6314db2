"""A project of many sheets to tables and a page."""

import os
import re
import sqlite3
import sys
from argparse import Namespace
from collections.abc import Iterator
from contextlib import closing
from dataclasses import replace
from pathlib import Path

from evp import commands
from evp.files import InputError, check_target, make_folder, same_file
from evp.library import SHEET_BYTES, Library
from evp.pages.needs import require
from evp.wording import apart, counted, name_shown
from evp.years.cluster import Cluster
from evp.years.filed import FINE, MARK_COLUMNS, FiledFigures, Verdict, read_filed, verdicts_of
from evp.years.needs import sentence
from evp.years.outliers import Outlier, find_outliers
from evp.years.project import Entry, Project, find_project, make_sheets, sheet_bytes
from evp.years.results import (
    COLUMNS, NFR_COLUMNS, REPORTED, ROW_COLUMNS, Result, names_file, names_text, nfr_lines, result_lines, result_of,
    row_lines, whole, write_csv, write_workbook,
)
from evp.years.resume import ANSWERS, FOLDER, Store, key_of, key_start, state_of
from evp.years.run import Bar, Chunk, Options, chunk_size, cores, run_local

MOST_NOTES = 6
RESULTS, WORKBOOK, NFR, ROWS = "results.csv", "results.xlsx", "nfr.csv", "rows.csv"
MARKS, PAGE = "marks.csv", "index.html"



def run(given: Namespace) -> int:
    project, out = Path(given.project), Path(given.output)
    library = commands.get_library()
    _prefer_debian(given)
    filed = _filed(given)
    _check_out(project, out, given.force)
    make_folder(out)
    with state_of(out) as state:
        try:
            series = Series(library, find_project(project, out, state), out, given)
            with closing(series):
                series.make_sheets()
                series.calculate(state)
                return series.write(filed)
        except KeyboardInterrupt:
            print("\nevp: what is done is kept; the same command goes on from there", file=sys.stderr)
            raise
        except sqlite3.OperationalError as error:  # as on a full disk
            raise InputError("%s: %s" % (name_shown(state), error)) from None


def _prefer_debian(given: Namespace) -> None:
    """Goes on with Debian's Python where only that has the packages; without them some files are not made."""
    wanted = ["jinja2", "openpyxl", *(["distributed"] if given.scheduler else [])]
    try:
        require(*wanted)
    except InputError:
        return


def _filed(given: Namespace) -> FiledFigures | None:
    if not given.filed:
        return None
    if not os.path.isfile(given.filed):
        raise InputError("%s: there is no such file" % name_shown(given.filed))
    for name in (RESULTS, NFR, MARKS, ROWS):
        check_target(Path(given.output) / name, True, [given.filed])
    return read_filed(Path(given.filed))


def _check_out(project: Path, out: Path, force: bool) -> None:
    if project.exists() and out.exists() and same_file(project, out):
        raise InputError("%s: the results want a folder of their own; name another with -o" % name_shown(out))
    if out.is_dir() and any(out.iterdir()) and not (out / FOLDER).is_dir() and not force:
        raise InputError("%s: this folder has other files; name a new one, or --force writes into it" % name_shown(out))


class Series:
    """A project on its way to its results."""

    def __init__(self, library: Library, project: Project, out: Path, given: Namespace) -> None:
        self._library, self._project, self._out, self._given = library, project, out, given
        self._options = Options(given.seasons, given.rows)
        self._entries = project.entries
        self._keys: list[str] = []
        self._store: Store | None = None
        self._notes = list(project.notes)
        self._root = out if project.rows else Path(given.project)  # from where the sheets are named

    def close(self) -> None:
        if self._store:
            self._store.close()
        if self._project.rows:
            self._project.rows.close()

    # -------------------------------------------------------------- sheets of tables

    def make_sheets(self) -> None:
        """Writes the sheets of a project of tables, and removes those of years that it no longer has."""
        rows = self._project.rows
        if rows is None:
            return
        folder = make_folder(self._out / "sheets")
        kept: set[str] = set()
        notes: dict[str, list[str]] = {}
        made_entries = []
        bar = Bar(len(self._entries), "sheets made")
        all_made = make_sheets(rows, self._entries, self._given.jobs or cores())
        for i, (entry, made) in enumerate(zip(self._entries, all_made), 1):
            bar(i)
            if made.status:
                made_entries.append(replace(entry, status=made.status, reason=made.reason))
                continue
            path = _free(folder / entry.file_name, kept)
            names = names_text(made.seasons, made.rows)
            for target, data in ((path, made.data), (names_file(path), names.encode())):
                if data:
                    kept.add(target.name)
                    _put(target, data)
            made_entries.append(replace(entry, path=path))
            for note in made.notes:
                notes.setdefault(re.sub("[0-9]+", "0", note), []).append(note)
        for path in folder.iterdir():
            if path.name not in kept and path.name.endswith((".evp", ".names.csv")):
                path.unlink()
        self._entries = made_entries
        self._notes += [same[0] + (" (and of %s alike)" % counted(len(same) - 1, "other sheet") if same[1:] else "")
                        for same in notes.values()]

    # -------------------------------------------------------------- reports

    def calculate(self, state: Path) -> None:
        """The reports of all sheets that have none yet."""
        store = self._store = Store(state / ANSWERS)
        start = key_start(self._library, self._options)
        given, many = self._given, len(self._entries)
        cluster = Cluster(given.scheduler, start.partition(" ")[0]) if given.scheduler else None
        jobs = cluster.threads if cluster else given.jobs or cores()
        bar = Bar(many)
        chunks = self._chunks(store, start, chunk_size(many, jobs), bar)
        try:
            running = cluster.run(chunks, self._options) if cluster else run_local(
                chunks, self._options, min(jobs, max(1, many)))
            with closing(running):  # so that the processes have ended when an exception leaves here
                for keys, answers in running:
                    store.put(keys, answers)
                    self._done += len(keys)
                    bar(self._done)
        finally:
            if cluster:
                cluster.close()
        bar(many)
        store.drop_others(start)

    def _chunks(self, store: Store, start: str, size: int, bar: Bar) -> Iterator[Chunk]:
        """The sheets to calculate, read as they are asked for; those that are done or of the same bytes are not."""
        self._keys, self._done = [""] * len(self._entries), 0
        chunk = Chunk([], [])
        asked: set[str] = set()
        for i, entry in enumerate(self._entries):
            data, unread = (b"", "") if entry.status else sheet_bytes(entry)
            if entry.status or unread:
                self._entries[i] = entry if entry.status else replace(entry, status="unreadable", reason=unread)
                self._done += 1
                continue
            key = self._keys[i] = key_of(start, data[:SHEET_BYTES + 1])
            if key in asked or key in store:
                self._done += 1
                if not asked:
                    bar.begin(self._done)
                continue
            asked.add(key)
            chunk.keys.append(key)
            chunk.sheets.append(data)
            if len(chunk.keys) == size:
                yield chunk
                chunk = Chunk([], [])
        if chunk.keys:
            yield chunk

    # -------------------------------------------------------------- files

    def results(self) -> Iterator[Result]:
        """The results in the order of years and regions."""
        if self._store is None:
            return
        for entry, key in zip(self._entries, self._keys):
            yield result_of(entry, self._store.get(key) if key else "")

    def write(self, filed: FiledFigures | None) -> int:
        out, comma = self._out, self._given.decimal == "comma"
        lines = write_csv(out / RESULTS, COLUMNS, result_lines(self.results(), self._root, comma), comma)
        write_csv(out / NFR, NFR_COLUMNS, nfr_lines(self.results(), comma), comma)
        files = ["%s: %s" % (name_shown(out / RESULTS), counted(lines, "line")), name_shown(out / NFR)]
        if self._options.rows:
            write_csv(out / ROWS, ROW_COLUMNS, row_lines(self.results(), comma), comma)
            files.append(name_shown(out / ROWS))
        verdicts = list(verdicts_of(self._library, filed, self.results())) if filed else []
        if filed:
            self._notes += filed.notes
            write_csv(out / MARKS, MARK_COLUMNS, (verdict.line for verdict in verdicts), comma)
            files.append(name_shown(out / MARKS))
        files += self._workbook()
        outliers = find_outliers(self._library, self.results())
        files += self._page(outliers, verdicts)
        return self._say(outliers, verdicts, files)

    def _workbook(self) -> list[str]:
        path = self._out / WORKBOOK
        try:
            write_workbook(path, {
                "results": (COLUMNS, result_lines(self.results(), self._root)),
                "nfr": (NFR_COLUMNS, (line for line in nfr_lines(self.results()) if line[5] == "" and line[10] == "")),
            })
        except InputError as error:
            if str(error) != sentence("openpyxl"):
                raise
            self._notes.append("%s is not made: %s" % (WORKBOOK, error))
            path.unlink(missing_ok=True)
            return []
        return [name_shown(path)]

    def _page(self, outliers: list[Outlier], verdicts: list[Verdict]) -> list[str]:
        path = self._out / PAGE
        try:
            from evp.years.series import page_series
        except ImportError:
            self._notes.append("%s is not made: %s" % (PAGE, sentence("jinja2")))
            return []
        title = Path(os.path.abspath(self._given.project)).name
        html = page_series(title, self.results, outliers, verdicts)
        with whole(path) as file:
            file.write(html.encode("utf-8", "replace"))
        return [name_shown(path)]

    # -------------------------------------------------------------- words

    def _say(self, outliers: list[Outlier], verdicts: list[Verdict], files: list[str]) -> int:
        many, wrong, regions, years = 0, [], set(), set()
        for result in self.results():
            many += 1
            if result.entry.year is not None:
                regions.add(result.entry.region)
                years.add(result.entry.year)
            if result.status != REPORTED:
                wrong.append("  %s: %s: %s" % (_where(result.entry), result.status, result.reason))
        bad = [verdict for verdict in verdicts if verdict.verdict not in FINE]
        print("%s of %s%s: %s reported%s" % (
            counted(many, "sheet"), counted(len(years), "year"),
            " and %s" % counted(len(regions), "region") if len(regions) > 1 else "", apart(many - len(wrong)),
            ", %s not" % apart(len(wrong)) if wrong else ""))
        commands.say(commands.limited(wrong, "such lines; results.csv has all", 8))
        if outliers:
            print("Outliers, by a rule of thumb:")
            lines = ["  %s: %s" % (_named(found.region, found.year), found.sentence) for found in outliers]
            commands.say(commands.limited(lines, "outliers; index.html has all", 8))
        if verdicts:
            print("Filed figures: %s, %s wrong" % (apart(len(verdicts)), apart(len(bad))))
            lines = ["  %s %s: %s %s filed: %s; %s" % (
                _named(v.figure.region, v.figure.year), " ".join(filter(None, (v.figure.category, v.figure.mechanism))),
                v.figure.text, v.figure.unit, v.verdict, v.note) for v in bad]
            commands.say(commands.limited(lines, "such figures; marks.csv has all", 8))
        commands.say(files)
        for note in commands.limited(self._notes, "things to look at", MOST_NOTES):
            print("evp: note: %s" % note, file=sys.stderr)
        return commands.REFUSED if wrong or bad else commands.FINE


def _where(entry: Entry) -> str:
    if entry.year is None:
        return name_shown(entry.path.name) if entry.path else "a sheet"
    return _named(entry.region, entry.year)


def _named(region: str, year: int) -> str:
    return name_shown("%d %s" % (year, region) if region else str(year))


def _free(path: Path, used: set[str]) -> Path:
    """A name that no other sheet of this run has; regions may differ in signs that a name cannot have."""
    number, found = 2, path
    while found.name in used:
        found, number = path.with_name("%s-%d.evp" % (path.stem, number)), number + 1
    return found


def _put(path: Path, data: bytes) -> None:
    """Writes a file where it is not there already with the same bytes; one that a power cut empties is made again."""
    if path.is_file() and path.read_bytes() == data:
        return
    with whole(path, on_disk=False) as file:
        file.write(data)
