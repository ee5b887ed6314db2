"""The command: python3 -m tools.reckoning COMMAND.

SEASON and ROW are counted from 0, as in the factor call; rows that are printed
are numbered as each command says. n is 40 where none is given. Exit status: 0
done, 1 refused, 2 not understood.
"""

import argparse
import re
import sys
from collections.abc import Callable
from fractions import Fraction
from itertools import product
from pathlib import Path

from tools import reckoning
from tools.command import add_command, described, run
from tools.reckoning import pool, species
from tools.reckoning.tables import CANISTER_NAMES

MECHANISMS = ("diurnal", "soak", "running")


class Refused(Exception):
    """A sheet or a call that is refused."""


def sheet_of(given: argparse.Namespace, call: tuple[int, int, int] | None = None) -> reckoning.Sheet:
    """The sheet of a file; Refused where it is, or the call on it."""
    refusal = reckoning.check(given.sheet, call=call)
    if refusal is not None:
        raise Refused(reckoning.answer_text(*refusal))
    return reckoning.read(given.sheet)


def file_bytes(path: str) -> bytes:
    """The type of an argument that names a file."""
    try:
        return Path(path).read_bytes()
    except OSError as error:
        raise argparse.ArgumentTypeError(str(error)) from None


def check(given: argparse.Namespace):
    refusal = reckoning.check(given.sheet, words=given.words)
    if refusal is not None:
        raise Refused(reckoning.answer_text(*refusal))
    print("accepted")


def factor(given: argparse.Namespace):
    sheet = sheet_of(given, (given.season, given.row, given.factor))
    print(reckoning.shown(reckoning.factor(sheet, given.season, given.row, given.factor, given.n, given.mode),
                          given.mode))


def factors(given: argparse.Namespace):
    sheet = sheet_of(given, (*given.of, 1) if given.of else None)
    pairs = [given.of] if given.of else product(range(len(sheet.seasons)), range(len(sheet.rows)))
    for season, row in pairs:
        for k, value in enumerate(reckoning.seven_factors(sheet, season, row, given.n, given.mode), 1):
            print("season %d row %d factor %d %s" % (season, row, k, reckoning.shown(value, given.mode)))


def masses(given: argparse.Namespace):
    sheet = sheet_of(given)
    for row in range(len(sheet.rows)):
        for name, value in zip(MECHANISMS, reckoning.masses(sheet, row, given.n, given.mode)):
            print("row %d %s %s" % (row + 1, name, reckoning.shown(value, given.mode)))


def loads(given: argparse.Namespace):
    sheet = sheet_of(given, (given.season, given.row, 1))
    season, row = sheet.seasons[given.season], sheet.rows[given.row]
    for i in range(48):
        print("mark %d %s" % (i, exact_text(
            reckoning.load_of(row, season, reckoning.temperature(season, i), given.n, given.mode), given)))


def exact_text(value: Fraction, given: argparse.Namespace) -> str:
    """A value that is exact in both modes."""
    return reckoning.shown(value, "exact") if given.mode == "exact" else reckoning.cut(value)


def exponential(given: argparse.Namespace):
    # One E or one root is small enough to be exact at all times.
    print(exact_text(reckoning.E(given.value, given.n, "exact"), given))


def root(given: argparse.Namespace):
    print(exact_text(reckoning.power_2_5(given.value, given.n), given))


def weights(_: argparse.Namespace):
    for i, weight in enumerate(reckoning.WEIGHTS):
        print(i, weight)


def table(_: argparse.Namespace):
    for number, name, tank, canisters in reckoning.CLASS_TABLE:
        for technology, canister in enumerate(canisters):
            print(number, technology, tank, CANISTER_NAMES[canister], "#", name)


def split(given: argparse.Namespace):
    for name, mass in zip(species.NAMES, species.split(given.total)):
        print(name, mass)


def pool_sheets(given: argparse.Namespace):
    refusal = pool.check(given.first, given.second, len(given.first) + len(given.second))
    if refusal is not None:
        sheet, number, place = refusal
        print("%s sheet: %s" % (pool.NAMES[sheet], reckoning.answer_text(number, place)), file=sys.stderr)
        raise Refused
    sys.stdout.buffer.write(pool.pooled(given.first, given.second))


def fraction(word: str) -> Fraction:
    return Fraction(word.strip())


def whole(word: str) -> int:
    """A whole number, 0 or more."""
    if not (word.isascii() and word.isdigit()):
        raise ValueError
    return int(word)


NUMBERS = ("--n", {"type": whole, "default": 40, "metavar": "N",
                   "help": "terms of the series, 40 where none are given"})
EXACT = ("--exact", {"dest": "mode", "action": "store_const", "const": "exact", "default": "decimal",
                     "help": "in fractions; the fraction is printed before the decimal"})
SHEET = ("sheet", {"type": file_bytes, "metavar": "SHEET"})
SEASON, ROW = ("season", {"type": int, "metavar": "SEASON"}), ("row", {"type": int, "metavar": "ROW"})
VALUE = ("value", {"type": fraction, "metavar": "Y", "help": "such as -3/2 or 0.7"})

# name, what it does, an example, its function and its arguments
COMMANDS: tuple[tuple[str, str, str, Callable, tuple], ...] = (
    ("check", "accepted, or refused N at P", "check samples/region.evp --words 6026", check, (
        SHEET, ("--words", {"type": whole, "metavar": "N", "help": "the length of the report buffer (22)"}))),
    ("factor", "one factor in grams", "factor samples/region.evp 0 2 1", factor, (
        SHEET, SEASON, ROW, ("factor", {"type": int, "metavar": "K", "help": "1 to 7"}), NUMBERS, EXACT)),
    ("factors", "the seven factors in grams, of one season and row or of all",
     "factors samples/region.evp --of 0 2 --n 60", factors, (
        SHEET, ("--of", {"type": int, "nargs": 2, "metavar": ("SEASON", "ROW"), "help": "one season and row"}), NUMBERS,
        EXACT)),
    ("masses", "the grams of the year; rows are counted from 1, as in the report", "masses samples/table-3-5-day.evp",
     masses, (
        SHEET, NUMBERS, EXACT)),
    ("loads", "the grams that a row's canister holds at parking start, for the temperature of each mark",
     "loads samples/odometer.evp 0 1", loads, (SHEET, SEASON, ROW, NUMBERS, EXACT)),
    ("e", "E(Y)", "e -3/2 --n 40 --exact", exponential, (VALUE, NUMBERS, EXACT)),
    ("root", "Y^2.5", "root 35.5", root, (VALUE, NUMBERS, EXACT)),
    ("weights", "the 48 weights in billionths", "weights", weights, ()),
    ("table", "class, technology, tank in litres, canister", "table", table, ()),
    ("species", "the species of a total in milligrams", "species 44140793", split,
     (("total", {"type": whole, "metavar": "TOTAL"}),)),
    ("pool", "the pooled sheet of two sheets of version 4, on standard output",
     "pool crates/pool/data/north.evp crates/pool/data/south.evp > pooled.evp", pool_sheets,
     (("first", {"type": file_bytes, "metavar": "FIRST"}), ("second", {"type": file_bytes, "metavar": "SECOND"}))),
)


def status_of(command: Callable[[argparse.Namespace], None], given: argparse.Namespace) -> int:
    try:
        command(given)
    except Refused as refused:
        if refused.args:
            print(*refused.args)
        return 1
    return 0


def parser() -> argparse.ArgumentParser:
    top = argparse.ArgumentParser(prog="python3 -m tools.reckoning", **described(
        "A second reckoning of the evaporation workbook, apart from the proved program.",
        "python3 -m tools.reckoning masses samples/table-3-5-day.evp"))
    commands = top.add_subparsers(required=True, metavar="COMMAND")
    for name, about, example, command, arguments in COMMANDS:
        own = add_command(commands, name, about, "python3 -m tools.reckoning " + example)
        for argument, options in arguments:
            own.add_argument(argument, **options)
        own.set_defaults(run=lambda given, command=command: status_of(command, given))
    return top


def main(words: list[str]) -> int:
    # Exact fractions run to more digits than Python prints unasked.
    sys.set_int_max_str_digits(0)
    # A word with a space is no option to argparse, so that -3/2 is taken as a value.
    return run(parser(), [" " + word if re.fullmatch(r"-\d+/\d+", word) else word for word in words])


if __name__ == "__main__":
    sys.exit(main(sys.argv[1:]))
