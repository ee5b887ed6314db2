"""The command: python3 -m tools.check WHAT."""

import argparse
import sys
from collections.abc import Iterable
from itertools import chain
from pathlib import Path

from tools.check import (
    believe, bindings, bounds, calls, edits, figures, header, lines, names, pressures, promises, runs, samples,
    snippets,
)
from tools.command import TOP, add_command, described, report, run


def finish(name: str, faults: Iterable[str], said: str) -> int:
    """Prints what is wrong, or that nothing is, and gives the exit status."""
    status = report("check " + name, faults)
    if not status:
        print(said)
    return status


def run_samples(given: argparse.Namespace) -> int:
    status = finish("samples", samples.check(given.write), "samples: the programs print the stored reports and their "
                    "species; the examples of %s are such" % samples.PAGE)
    if status:
        return status
    found, counts = runs.check()
    return finish("samples", found, "runs: `report` and `species` answer %d accepted and %d refused sheets once each, "
                  "by standard input and by a file; `pool` answers %d pairs" % counts)


def run_pressures(_: argparse.Namespace) -> int:
    found, counts = pressures.check()
    said = "%d pairs of sheets: %d masses of %d rows without canister are in order, %d with bands apart"
    return finish("pressures", found, said % (counts.pairs, 3 * counts.rows, counts.rows, counts.apart))


def run_edits(given: argparse.Namespace) -> int:
    if given.one:
        said, faults = edits.try_edit(Path(given.one).resolve())
        return finish("edits", faults, said)
    count = len(edits.find(given.crates))
    said = "%d edits are read whole and change one place" % count
    log = Path(given.logs).read_text(encoding="utf-8", errors="replace") if given.logs else None
    unproved = [] if log is None else list(edits.unproved(log, given.crates))
    if log is not None:
        said += "; %d are refused by a fact" % (count - len(unproved))
    return finish("edits", edits.faults(log, given.crates), "\n".join([*unproved, said]))


def run_figures(_: argparse.Namespace) -> int:
    return finish("figures", figures.faults(), "%d claims of the documents hold" % len(figures.CLAIMS))


def run_header(_: argparse.Namespace) -> int:
    ours, theirs = header.both_sources()
    named = header.name_faults(Path(TOP / header.HEADER).read_text(encoding="ascii"))
    said = "%s declares the %d functions and %d structs of the crate" % (
        header.HEADER, len(theirs.functions), len(theirs.structs))
    return finish("header", chain(header.faults(ours, theirs), named, header.own_export_faults()), said)


def run_bindings(_: argparse.Namespace) -> int:
    return finish("bindings", bindings.faults(), "%s declares the %d functions of %s" % (
        bindings.RUST, bindings.count(), header.HEADER))


def run_snippets(given: argparse.Namespace) -> int:
    return finish("snippets", snippets.faults(given.write), "%s shows %d files as they are, and names every call" % (
        snippets.PAGE, snippets.count()))


def run_promises(_: argparse.Namespace) -> int:
    return finish("promises", promises.faults(), "%d sentences of %s are stated by the laws and contracts they name" % (
        len(list(promises.rows())), promises.PAGE))


def run_bounds(_: argparse.Namespace) -> int:
    return finish("bounds", bounds.faults(),
                  "of bounds' proofs the crates above cite the %d laws of its record, each of them, and its calculus, "
                  "which speaks of no series: %s; %d files open definitions, to compute examples" % (
                      len(bounds.listed(bounds.laws_file())), ", ".join(sorted(bounds.CALCULUS)),
                      len(bounds.computing())))


def run_believe(given: argparse.Namespace) -> int:
    if given.list or given.mixed:
        print("\n".join(believe.listing() if given.list else believe.mixture()))
        return 0
    keys = believe.in_specs(believe.demanded())
    return finish("believe", believe.faults(),
                  "%s names the %d definitions, %d lines, that the three demands rest on; %d files are still to be "
                  "split, %d to be marked" % (believe.READING, len(keys), believe.line_count(keys),
                                       len(believe.MIXED), len(believe.UNMARKED)))


def run_calls(_: argparse.Namespace) -> int:
    return finish("calls", calls.faults(), "%d public calls require nothing of their caller; %s write at most one "
                  "answer each, of a sheet that a function of program read" % (
                      calls.count(), ", ".join(calls.PROGRAMS)))


def run_names(_: argparse.Namespace) -> int:
    return finish("names", names.faults(), "the files, links and %d functions that %d pages name are there" % (
        sum(len(list(names.named(page))) for page in names.pages()), len(names.pages())))


def run_lines(given: argparse.Namespace) -> int:
    paths = [Path(name).resolve() for name in given.files] or list(lines.files())
    for path in lines.wrap(paths) if given.wrap else []:
        print("%s: wrapped" % path)
    said = "no line of %d files passes %d characters, or of Rattle %d, where it can be wrapped"
    return finish("lines", lines.faults(paths), said % (len(paths), lines.LIMIT, lines.RATTLE_LIMIT))


def parser() -> argparse.ArgumentParser:
    top = argparse.ArgumentParser(prog="python3 -m tools.check", **described(
        "Checks programs that were proved, and files that must agree with one another.",
        "python3 -m tools.check edits"))
    commands = top.add_subparsers(required=True, metavar="WHAT")
    found = {}
    for name, module, run_it in (
        ("samples", samples, run_samples), ("pressures", pressures, run_pressures), ("edits", edits, run_edits),
        ("figures", figures, run_figures), ("header", header, run_header), ("promises", promises, run_promises),
        ("bounds", bounds, run_bounds), ("names", names, run_names), ("lines", lines, run_lines),
        ("bindings", bindings, run_bindings), ("believe", believe, run_believe), ("calls", calls, run_calls),
        ("snippets", snippets, run_snippets),
    ):
        about, _, more = module.__doc__.partition("\n\n")
        found[name] = add_command(commands, name, about, "python3 -m tools.check " + name, "\n\n" + more)
        found[name].set_defaults(run=run_it)
    found["samples"].add_argument("--write", action="store_true", help="store what `report` prints")
    found["snippets"].add_argument("--write", action="store_true", help="put the files into the document")
    found["believe"].add_argument("--list", action="store_true", help="print these definitions by file, with lines")
    found["believe"].add_argument("--mixed", action="store_true", help="print the files that are to be split")
    found["edits"].add_argument("--logs", metavar="LOG", help="look at this log of rt ci or rt must-fail too")
    found["edits"].add_argument("--try", dest="one", metavar="FILE.edit", help="try this edit alone, by rt check")
    found["edits"].add_argument("crates", nargs="*", metavar="CRATE", help="the edits of these crates alone")
    found["lines"].add_argument("--wrap", action="store_true", help="wrap those of Markdown first")
    found["lines"].add_argument("files", nargs="*", metavar="FILE", help="these files alone")
    return top


if __name__ == "__main__":
    sys.exit(run(parser()))
