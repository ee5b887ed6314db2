"""The input of vectors_map: rows with their cells and sums of two cells, bit by bit.

The file says in four bytes each how many rows and how many sums there are; then
come the rows and the sums, as numbers of eight bytes, the lowest first. A row:
its six words; town (1 or 0), urban, rural and highway mileage, rural and highway
speed; the number and the place that are expected; three cells. A sum: two cells;
number and place; a cell. A cell is a kind and the bits of two doubles.
"""

from collections.abc import Iterable, Iterator
from itertools import product
from typing import NamedTuple

from tools.reckoning.cells import (
    BAND, EMPTY, EXACT, FRACTION, INFINITY, LIMIT, MINUS, NANS, TRAVEL_LIMIT, Cell, Row, Travel, Words, add_cells,
    bits_of, cell_of, cells_of_row, refusal_of, value_of,
)
from tools.vectors.chance import Chance
from tools.vectors.frame import VectorSet, packed


class Sum(NamedTuple):
    """Two cells to add."""
    first: Cell
    second: Cell


Vectors = tuple[list[Row], list[Sum]]


# ---------------------------------------------------------------------- rows

WORKED = Row(Words(3875007, 3875009, 8463293, 8463295, 1843000, 1843002), Travel(1, 6000, 4500, 3000, 60, 100))
LEVEL = Travel(1, 1, 1, 1, 1, 1)
BEYOND = (0, TRAVEL_LIMIT + 1, 2 ** 32, 2 ** 64 - 1)
NO_TOWNS = (2, 3, 256, 2 ** 32, 2 ** 64 - 1)


def travel_rows() -> Iterator[Row]:
    """Each mileage and speed at its ends and beyond them, and what is no answer to
    the question of town, of good words and of words that would be refused too."""
    wrong = WORKED.words._replace(soak_low=WORKED.words.soak_high + 1)
    for field in Travel._fields[1:]:
        for x in (1, TRAVEL_LIMIT):
            yield Row(WORKED.words, WORKED.travel._replace(**{field: x}))
        for x in BEYOND:
            yield Row(WORKED.words, WORKED.travel._replace(**{field: x}))
            yield Row(wrong, WORKED.travel._replace(town=0, **{field: x}))
    for words, town in product((WORKED.words, wrong), NO_TOWNS):
        yield Row(words, WORKED.travel._replace(town=town))
    for town in (0, 1):
        for x in (1, TRAVEL_LIMIT):
            yield Row(WORKED.words, Travel(town, *[x] * 5))


def word_rows() -> Iterator[Row]:
    """Each mechanism at the limits: a low above its high, words about 2^53."""
    for town, mechanism in product((0, 1), range(3)):
        for low, high in ((0, 0), (0, 1), (1, 1), (1, 0), (5, 4), (LIMIT - 1, LIMIT), (LIMIT, LIMIT),
                          (LIMIT, LIMIT + 1), (0, LIMIT + 1),
                          (LIMIT + 1, LIMIT + 1), (2 ** 64 - 1, 2 ** 64 - 1), (2 ** 64 - 1, 0)):
            words = [0] * 6
            words[2 * mechanism], words[2 * mechanism + 1] = low, high
            yield Row(Words(*words), WORKED.travel._replace(town=town))


def cell_rows() -> Iterator[Row]:
    """Cells about 2^53, of words that are below it."""
    for town in (0, 1):
        for more in (-1, 0, 1, 2):
            # all soak, and a third of the running mass rounded up, on one road kind
            yield Row(Words(0, 0, LIMIT - 10, LIMIT - 10, 0, 3 * (10 + more)), LEVEL._replace(town=town))
            yield Row(Words(0, 0, LIMIT - 10, LIMIT - 10, 0, 3 * (9 + more) + 1), LEVEL._replace(town=town))
        yield Row(Words(*[LIMIT] * 6), Travel(town, 1, TRAVEL_LIMIT, 1, 1, TRAVEL_LIMIT))
        yield Row(Words(LIMIT, LIMIT, 0, 0, 0, 0), Travel(town, *[TRAVEL_LIMIT] * 5))
        yield Row(Words(LIMIT - 1, LIMIT, 0, 0, 0, 0), Travel(town, 1, TRAVEL_LIMIT, 1, 1, TRAVEL_LIMIT))


def chance_mass(chance: Chance) -> int:
    return chance.below(chance.one_of((1, 100, 10 ** 9, 10 ** 15, LIMIT // 4)))


def chance_rows(count: int) -> Iterator[Row]:
    chance = Chance("rows of cells")
    for _ in range(count):
        words = []
        for _ in range(3):
            low = chance_mass(chance)
            words += [low, low + chance.one_of((0, 1, 5, 1000))]
        travel = [chance.between(1, chance.one_of((1, 10, 130, 20000, TRAVEL_LIMIT))) for _ in range(5)]
        yield Row(Words(*words), Travel(chance.below(2), *travel))


# ---------------------------------------------------------------------- sums

# what a caller may hand in where a mass should be
SPECIAL = {
    "0": 0, "-0": MINUS, "1": bits_of(1), "-1": MINUS + bits_of(1), "7": bits_of(7),
    "1/2": 1022 * FRACTION, "-1/2": MINUS + 1022 * FRACTION, "3/2": 1023 * FRACTION + FRACTION // 2,
    "2^52 - 1/2": bits_of(2 ** 52) - 1, "the least above 0": 1, "the least below 0": MINUS + 1,
    "the least normal": FRACTION, "just below 1": bits_of(1) - 1, "just above 1": bits_of(1) + 1,
    "2^53 - 1": bits_of(LIMIT - 1), "2^53": bits_of(LIMIT), "2^53 + 2": bits_of(LIMIT + 2),
    "-2^53": MINUS + bits_of(LIMIT),
    "2^63": bits_of(2 ** 63), "just below 2^64": bits_of(2 ** 64) - 1, "2^64": bits_of(2 ** 64),
    "the largest": INFINITY - 1,
    "infinity": INFINITY, "-infinity": MINUS + INFINITY,
    "NaN": NANS[0], "a signalling NaN": NANS[1], "a NaN with a sign": NANS[2], "a NaN of ones": NANS[3],
}

FIVE, MOST = bits_of(5), bits_of(LIMIT)


def places(x: int) -> tuple[Cell, ...]:
    """A double in every place of a cell handed in."""
    return (
        Cell(EXACT, x, x), Cell(EXACT, x, FIVE), Cell(EXACT, FIVE, x),
        Cell(BAND, x, MOST), Cell(BAND, x, FIVE), Cell(BAND, 0, x), Cell(BAND, MINUS, x), Cell(BAND, FIVE, x),
        Cell(BAND, x, x),
        Cell(EMPTY, x, 0), Cell(EMPTY, 0, x),
    )


def special_sums() -> Iterator[Sum]:
    """Each double in each place of the first cell and of the second, beside an
    empty cell and beside one that is not."""
    beside = cell_of(0, 0), cell_of(2, 3)
    for index, x in enumerate(SPECIAL.values()):
        for cell in places(x):
            yield Sum(cell, beside[index % 2])
            yield Sum(beside[1 - index % 2], cell)


def kind_sums() -> Iterator[Sum]:
    """Kinds that are none, with masses that would make any of the three."""
    for kind, (low, high) in product((3, 4, 2 ** 32, 2 ** 64 - 1), ((0, 0), (5, 5), (5, 6))):
        cell = Cell(kind, bits_of(low), bits_of(high))
        yield Sum(cell, cell_of(1, 2))
        yield Sum(cell_of(0, 0), cell)


def limit_sums() -> Iterator[Sum]:
    """Highs that sum to 2^53 and about it; the double of 2^53 + 1 would be that
    of 2^53."""
    for high, more in product((1, 2, 2 ** 20, LIMIT // 2, LIMIT - 1, LIMIT), (-1, 0, 1)):
        other = LIMIT - high + more
        if not 0 <= other <= LIMIT:
            continue
        for low, other_low in ((high, other), (0, other), (high, 0), (high // 2, other // 2)):
            yield Sum(cell_of(low, high), cell_of(other_low, other))
            yield Sum(cell_of(other_low, other), cell_of(low, high))


def chance_cell(chance: Chance) -> Cell:
    low = chance_mass(chance)
    return cell_of(low, low + chance.one_of((0, 0, 1, 1000, LIMIT // 8)))


def chance_sums(count: int) -> Iterator[Sum]:
    chance = Chance("sums of cells")
    for _ in range(count):
        yield Sum(chance_cell(chance), chance_cell(chance))


# ------------------------------------------------------------------ the file


def found() -> Vectors:
    rows = [WORKED, WORKED._replace(travel=WORKED.travel._replace(town=0)), *travel_rows(), *word_rows(), *cell_rows(),
            *chance_rows(300)]
    sums = [*special_sums(), *kind_sums(), *limit_sums(), *chance_sums(300)]
    return rows, sums


def encoded(vectors: Vectors) -> bytes:
    rows, sums = vectors
    data = [packed(4, (len(rows), len(sums)))]
    for row in rows:
        number, place, cells = cells_of_row(row)
        data.append(packed(8, (*row.words, *row.travel, number, place, *(x for cell in cells for x in cell))))
    for first, second in sums:
        number, place, cell = add_cells(first, second)
        data.append(packed(8, (*first, *second, number, place, *cell)))
    return b"".join(data)


def missing(vectors: Vectors) -> Iterator[str]:
    """What the vectors should show and do not."""
    rows, sums = vectors
    if len(rows) < 300 or len(sums) < 300:
        yield "%d rows and %d sums" % (len(rows), len(sums))
    for reason in ("travel", "order", "word", "cell", None):
        for town in (0, 1):
            if not any(row.travel.town == town and refusal_of(row) == reason for row in rows):
                yield "no row, town %d, with the refusal %s" % (town, reason)
    given = [cells for number, _, cells in map(cells_of_row, rows) if number == 0]
    for road, kind in product(range(3), (EMPTY, EXACT, BAND)):
        if not any(cells[road].kind == kind for cells in given):
            yield "no cell of kind %d on road %d" % (kind, road)
    answers = [add_cells(*cells) for cells in sums]
    for kind in (EMPTY, EXACT, BAND):
        if not any(number == 0 and cell.kind == kind for number, _, cell in answers):
            yield "no sum of kind %d" % kind
    for name, x in SPECIAL.items():
        for cell in places(x):
            if not (any(cells.first == cell for cells in sums) and any(cells.second == cell for cells in sums)):
                yield "no sum with %s as the first and the second %s" % (name, cell)


def double_text(bits: int) -> str:
    value = value_of(bits)
    if value is None:
        return "NaN" if bits % MINUS > INFINITY else "-inf" if bits >= MINUS else "inf"
    return ("-0" if bits == MINUS else str(value)) if value.denominator == 1 else "%.17g" % float(value)


def cell_text(cell: Cell) -> str:
    kinds = {EMPTY: "empty", EXACT: "exact", BAND: "band"}
    return "%s %s %s" % (kinds.get(cell.kind, "kind %d" % cell.kind), double_text(cell.low), double_text(cell.high))


def answer_line(what: str, number: int, cells: Iterable[Cell]) -> str:
    return "%s: %s" % (what, "refused %d" % number if number else ", ".join(map(cell_text, cells)))


def lines(vectors: Vectors) -> Iterator[str]:
    rows, sums = vectors
    for i, row in enumerate(rows, 1):
        number, _, cells = cells_of_row(row)
        yield answer_line("row %d: %s, %s" % (i, " ".join(map(str, row.words)), " ".join(map(str, row.travel))), number,
                          cells)
    for i, cells in enumerate(sums, 1):
        number, _, cell = add_cells(*cells)
        yield answer_line("sum %d: %s + %s" % (i, cell_text(cells.first), cell_text(cells.second)), number, [cell])


VECTORS = VectorSet("vectors_map", found, encoded, lines, missing)
