"""Where a sheet stops, in words."""

from tools import reckoning

# What is wrong where a sheet stops, by number.
MEANINGS = {
    1: "under 8 bytes",
    2: "the letters EVP are missing",
    3: "the version is not 1 to 4",
    4: "seasons not 1 to 12",
    5: "rows not 1 to 32, or in version 4 not 1 to 1,000",
    6: "byte 7 is not 0",
    7: "the length is not 104 + 8S + 24R, or from version 2 on 1160 + 8S + 24R",
    8: "duration counts sum to 0 or above 1,000",
    9: "end-hour counts sum to 0 or above 1,000",
    10: "days 0, above 366, or above 366 with the seasons before",
    11: "temperatures below -30.0, above 50.0, or lowest above highest",
    12: "vapour pressure not 30.0 to 110.0 kPa",
    13: "class and technology not in the table",
    14: "canister code not 0 to 3 or 255",
    15: "a share or the fill level above 100 %",
    16: "more than 10,000,000 vehicles",
    17: "tank above 150.0 l",
    18: "more than 12.00 trips a day or 1,440 minutes a trip",
    19: "load above m_sat, or either without canister",
    20: "a + b.s.m_sat above 3 at some season's highest temperature",
    21: "bytes 20 to 23 of the row are not zero",
    24: "grid counts sum to 0 or above 1,000,000",
    25: "mileage above 1,000,000 km, or a mileage without canister, beside a load, or with a + b.s.m_sat above 0 at "
        "some season's highest temperature",
    26: "more than 100,000,000 vehicles in this row and those before it together",
}


def place_text(data: bytes, number: int, place: int) -> str:
    """Which season or row a refusal is of, counted from 1; empty where it is of neither."""
    if 10 <= number <= 12:
        return "season %d: " % ((place - reckoning.seasons_start(data)) // 8 + 1)
    if 13 <= number <= 21 or number in (25, 26):
        return "row %d: " % ((place - reckoning.row_place(data, 0)) // 24 + 1)
    return ""


def verdict(data: bytes) -> str:
    """Whether the bytes are accepted; where they are not, why, in words."""
    refusal = reckoning.check(data)
    if refusal is None:
        return "accepted"
    number, place = refusal
    return "refused %d at %d (%s%s)" % (number, place, place_text(data, number, place), MEANINGS[number])
