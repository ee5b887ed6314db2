"""Sheets for these tests: samples with random changes that the library accepts."""

from random import Random

from support import LIBRARY, sample

from evp import layout
from evp.analysis.values import Values, sheet_of, values_of
from evp.layout import ROW_FIELDS, SEASON_FIELDS

SMALL = ("table-3-5-day", "survey", "odometer", "region")
NUMBERS = {field.name: field for field in (*SEASON_FIELDS, *ROW_FIELDS)}


def _other(rng: Random, name: str, value: int) -> int:
    """Another value of a field, mostly near the first."""
    field = NUMBERS[name]
    most = field.most if field.most is not None else field.capacity[1]
    wanted = round(value * rng.uniform(0.6, 1.5)) + rng.choice((-1, 0, 1))
    return min(max(wanted, field.least), most)


def _changed(rng: Random, values: Values) -> Values:
    """A few random changes of any kind."""
    seasons, rows = [dict(season) for season in values.seasons], [dict(row) for row in values.rows]
    for _ in range(rng.randrange(1, 7)):
        record = rng.choice(seasons if rng.random() < 0.3 else rows)
        name = rng.choice([name for name in record if name in NUMBERS and name not in ("class", "canister")])
        record[name] = _other(rng, name, record[name])
    if rng.random() < 0.3 and len(rows) > 1:
        del rows[rng.randrange(len(rows))]
    if rng.random() < 0.3:
        rows.insert(rng.randrange(len(rows) + 1), dict(rng.choice(rows)))
    parking = bytearray(values.parking)
    if rng.random() < 0.3:
        parking[2 * rng.randrange(len(parking) // 2)] ^= 1
    return Values(values.version, bytes(parking), tuple(seasons), tuple(rows))


def mutated(rng: Random, data: bytes) -> bytes:
    """Another accepted sheet of the same version."""
    while True:
        values = _changed(rng, values_of(data))
        made = sheet_of(values, layout.version_of(data))
        if LIBRARY.check(made) is None:
            return made


def random_pair(rng: Random) -> tuple[bytes, bytes]:
    """Two accepted sheets: mutants of one sample, or of two."""
    first = sample(rng.choice(SMALL))
    second = first if rng.random() < 0.8 else sample(rng.choice(SMALL))
    return mutated(rng, first), mutated(rng, second)
