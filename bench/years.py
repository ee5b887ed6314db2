#!/usr/bin/env python3
"""How much of what the cores can do `evp years` gets done: the bare library beside it, in one run.

    /usr/bin/python3 bench/years.py [--sheets 1440] [--jobs N] [--dask]

Makes sheets of 300 rows and 12 seasons. In rounds, one behind the other so that other work of the machine meets both
alike: all processes call the library on sheets that are in memory, and nothing else (bare); the same sheets go through
the calculation of `evp years`, with reading, digests, processes and keeping (run). Then the whole command with its
tables and its page, its memory for a tenth of the sheets and for all, and with --dask the time of a sheet on a
scheduler with as many workers of one thread on this machine.
"""

import argparse
import ctypes
import os
import resource
import subprocess
import sys
import tempfile
import time
from collections.abc import Callable, Iterator
from multiprocessing import get_context
from pathlib import Path

TOP = Path(__file__).resolve().parents[1]
sys.path.insert(0, str(TOP / "python"))

from evp import library as calls  # noqa: E402
from evp.sheet import write  # noqa: E402
from evp.years.project import GUIDEBOOK  # noqa: E402
from evp.years.resume import Store, key_of  # noqa: E402
from evp.years.run import Chunk, Options, chunk_size, cores, run_local  # noqa: E402

ROUNDS = 3


def text_of(number: int) -> str:
    """A sheet of 300 rows and 12 seasons with the guidebook's parkings."""
    durations, hours = ([int(word) for word in GUIDEBOOK[name]] for name in ("durations", "hours"))
    lines = ["grid %d %s" % (t, " ".join(str(d * h // 10) for d in durations)) for t, h in enumerate(hours, 1)]
    for month in range(12):
        warm = 6 - abs(month - 6)
        lines.append("season days=30 lowest=%.1f highest=%.1f vp=%.1f" % (2 * warm - 2, 4 * warm + 4, 90 - 5 * warm))
    for row in range(300):
        technology = row % 6
        fitted = "" if technology == 0 else " load=%.1f saturation=46.0" % (20 + row % 20)
        lines.append("row class=%d technology=%d carburettor=%d hot=40 fill=%d vehicles=%d trips=%.2f minutes=12%s" % (
            1 + row % 2, technology, 99 if technology == 0 else 5, 30 + row % 40, 1000 + 10 * number + row,
            3 + row % 7 / 10, fitted))
    return "\n".join(lines) + "\n"


def bare(share: list[bytes]) -> float:
    """The library's calls on sheets, and nothing else; the processor time."""
    library, start = calls.load(), time.process_time()
    call, words = library.calls["evp_report"], (ctypes.c_uint64 * calls.REPORT_WORDS)()
    for data in share:
        if call(data, len(data), words, len(words)).number:
            raise SystemExit("a sheet of this benchmark is refused")
    return time.process_time() - start


def processor_time() -> float:
    """Of this process and of all that have ended."""
    return sum(sum(resource.getrusage(who)[:2]) for who in (resource.RUSAGE_SELF, resource.RUSAGE_CHILDREN))


def timed(work: Callable[[], object]) -> float:
    start = time.perf_counter()
    work()
    return time.perf_counter() - start


def chunks_of(paths: list[Path], size: int) -> Iterator[Chunk]:
    for i in range(0, len(paths), size):
        sheets = [path.read_bytes() for path in paths[i:i + size]]
        yield Chunk([key_of("", data) for data in sheets], sheets)


def through(paths: list[Path], store: Store, jobs: int) -> None:
    for keys, answers in run_local(chunks_of(paths, chunk_size(len(paths), jobs)), Options(), jobs):
        store.put(keys, answers)


def rounds(paths: list[Path], folder: Path, jobs: int) -> None:
    store = Store(folder / "answers.sqlite")
    spent, processor = {"bare": 0.0, "run": 0.0}, {"bare": 0.0, "run": 0.0}
    many = len(paths) // ROUNDS
    with get_context("fork").Pool(jobs, calls.load) as pool:
        for i in range(ROUNDS):
            part = paths[many * i:many * (i + 1)]
            data = [path.read_bytes() for path in part]
            shares = [data[k::4 * jobs] for k in range(4 * jobs)]
            start = time.perf_counter()
            processor["bare"] += sum(pool.imap_unordered(bare, shares))
            spent["bare"] += time.perf_counter() - start
            before = processor_time()
            spent["run"] += timed(lambda: through(part, store, jobs))
            processor["run"] += processor_time() - before
    for name, seconds in spent.items():
        print("%-5s %d sheets in %.2f s, %.2f ms a sheet; processor time %.2f ms a sheet" % (
            name, ROUNDS * many, seconds, *(1000 * each / ROUNDS / many for each in (seconds, processor[name]))))
    print("share of what %d processes can do: %.0f %% of the time, %.0f %% of the processor time; load %.1f" % (
        jobs, *(100 * by["bare"] / by["run"] for by in (spent, processor)), os.getloadavg()[0]))


def command(project: Path, out: Path, *words: str) -> tuple[float, int]:
    """The seconds of the whole command, and the largest memory of one of its processes in MB."""
    before = resource.getrusage(resource.RUSAGE_CHILDREN).ru_maxrss
    whole = [sys.executable, TOP / "evp", "years", project, "-o", out, *words]
    seconds = timed(lambda: subprocess.run(whole, check=True, stdout=subprocess.DEVNULL))
    return seconds, max(before, resource.getrusage(resource.RUSAGE_CHILDREN).ru_maxrss) // 1024


def dask(project: Path, folder: Path, jobs: int) -> None:
    """The same on a scheduler and workers of this machine."""
    told = folder / "scheduler.json"
    environment = {**os.environ, "PYTHONPATH": str(TOP / "python"), "EVP_LIBRARY": str(calls.find())}
    quiet = {"stdout": subprocess.DEVNULL, "stderr": subprocess.DEVNULL, "env": environment, "cwd": folder}
    started = [subprocess.Popen(["dask-scheduler", "--host", "127.0.0.1", "--port", "0", "--no-dashboard",
                                 "--scheduler-file", told], **quiet)]
    started += [subprocess.Popen(["dask-worker", "--scheduler-file", told, "--nthreads", "1", "--no-nanny",
                                  "--no-dashboard"], **quiet) for _ in range(jobs)]
    try:
        import distributed
        while not told.exists():
            time.sleep(0.1)
        client = distributed.Client(scheduler_file=str(told), set_as_default=False)
        client.wait_for_workers(jobs)
        address = client.scheduler.address
        client.close()
        here, _ = command(project, folder / "here", "--jobs", str(jobs))
        there, _ = command(project, folder / "there", "--scheduler", address)
        many = len(list(project.iterdir()))
        print("the whole command on Dask %.1f s, without %.1f s: %.2f ms more a sheet; load %.1f" % (
            there, here, 1000 * (there - here) / many, os.getloadavg()[0]))
    finally:
        for process in started:
            process.terminate()
            process.wait()


def main() -> None:
    given = argparse.ArgumentParser(description=__doc__.splitlines()[0])
    given.add_argument("--sheets", type=int, default=1440)
    given.add_argument("--jobs", type=int, default=cores())
    given.add_argument("--dask", action="store_true")
    asked = given.parse_args()
    calls.load()
    with tempfile.TemporaryDirectory() as name:
        folder = Path(name)
        project, tenth = folder / "p", folder / "tenth"
        for made in (project, tenth):
            made.mkdir()
        first = write(text_of(0))
        place = len(first) - 300 * 24 + 8
        for i in range(asked.sheets):
            data = first[:place] + (1000 + 10 * i).to_bytes(4, "little") + first[place + 4:]
            for made in (project, tenth) if i < asked.sheets // 10 else (project,):
                (made / ("r%d-%d.evp" % (i // 36, 1990 + i % 36))).write_bytes(data)
        rounds(sorted(project.iterdir()), folder, asked.jobs)
        few = command(tenth, folder / "few", "--jobs", str(asked.jobs))
        all_of = command(project, folder / "all", "--jobs", str(asked.jobs))
        print("the whole command: %d sheets %.1f s, at most %d MB; %d sheets %.1f s, at most %d MB" % (
            asked.sheets // 10, *few, asked.sheets, *all_of))
        if asked.dask:
            dask(project, folder, asked.jobs)


if __name__ == "__main__":
    main()
