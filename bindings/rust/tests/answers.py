"""What the Python binding answers for every sheet of a folder, as lines that tests/python.rs makes too.

usage: python3 answers.py FOLDER
"""

import sys
from pathlib import Path

TOP = Path(__file__).resolve().parents[3]
sys.path.insert(0, str(TOP / "python"))

from evp.library import Filed, Refusal, Travel, Unit, load  # noqa: E402

TRAVEL = Travel(True, 4, 3, 2, 60, 110)


def words(masses) -> str:
    return " ".join("%d %d" % band for band in masses)


def answer(call, *given) -> str:
    """What a call gives, or its refusal."""
    try:
        return call(*given)
    except Refusal as refusal:
        sheet = " of sheet %d" % refusal.sheet if refusal.sheet else ""
        return "refused %d at %d%s" % (refusal.number, refusal.place, sheet)


def report_lines(library, sheet: bytes):
    report = library.report(sheet)
    yield from map(words, report.rows)
    yield from map(words, (report.cars, report.light, report.two, report.all, (report.total,)))
    yield " ".join(map(str, library.species(report.total.high)))
    row = report.rows[0]
    cells = answer(library.cells_of_row, row, TRAVEL)
    yield cells if isinstance(cells, str) else " ".join("%d %.0f %.0f" % cell for cell in cells)
    yield "%d %d" % library.mark(Filed(report.total.low // 1000, 0, Unit.G), report.total)


def factor_lines(library, sheet: bytes):
    for factor in range(1, 8):
        band = answer(library.factor, sheet, 0, 1, factor)
        yield band if isinstance(band, str) else "%d %d" % band


def bulk_lines(library, sheet: bytes):
    yield from map(words, (library.row_factors(sheet, 0, 0), *library.factors(sheet)[-1]))
    for season in library.report_seasons(sheet):
        yield from map(words, (*season.rows, season.all, (season.total,)))


def ledger_lines(library, sheet: bytes):
    ledger = library.ledger(sheet)
    yield answer(ledger.arrive, 0, 12) or "arrived"
    yield answer(ledger.depart, 1, 7) or "departed"
    yield "%d %d" % ledger.report.total
    rows = len(ledger.report.rows)
    shared = library.shared_ledger(sheet, bytes(1 + i % 8 for i in range(rows)))
    yield answer(shared.arrive, 1, 0, 5) or "arrived"
    yield answer(shared.depart, 2, 0, 5) or "departed"
    read = shared.row(0, 0)
    yield "%d %s" % (read.count, words(read.masses))
    yield "%d %d" % shared.totals(0).total


def lines(library, sheet: bytes):
    yield from library.text(sheet).splitlines()
    refusal = library.check(sheet)
    yield "refused %d at %d" % (refusal.number, refusal.place) if refusal else "accepted"
    composition = answer(library.species_of, sheet)
    if not isinstance(composition, str):
        composition = " ".join(map(str, (composition.total, *composition.milligrams)))
    yield composition
    yield " ".join(map(str, library.explain(sheet)))
    yield from factor_lines(library, sheet)
    for part in (report_lines, bulk_lines, ledger_lines):
        try:
            yield from part(library, sheet)
        except Refusal as refusal:
            yield "refused %d at %d" % (refusal.number, refusal.place)
    pooled = answer(library.pool, sheet, sheet)
    yield pooled if isinstance(pooled, str) else pooled.hex()


def main():
    library = load()
    print("%d %d %d" % library.version())
    for path in sorted(Path(sys.argv[1]).glob("*.evp"), key=lambda path: path.stem):
        print("# " + path.name)
        for line in lines(library, path.read_bytes()):
            print(line)


if __name__ == "__main__":
    main()
