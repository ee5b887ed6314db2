"""The inputs of the programs vectors_* read back, as far as the documents say how many of what they hold."""

from collections import Counter

from tools.command import TOP

FINDING = 23  # the bytes of a finding in the input of vectors_sheet


class Bytes:
    """The bytes of a file, read from the start on."""

    def __init__(self, data: bytes):
        self.data = data
        self.at = 0

    def take(self, size: int) -> bytes:
        self.at += size
        return self.data[self.at - size:self.at]

    def number(self, size: int) -> int:
        return int.from_bytes(self.take(size), "little")

    def numbers(self, size: int, count: int) -> list[int]:
        return [self.number(size) for _ in range(count)]

    def more(self) -> bool:
        return self.at < len(self.data)


def stdin_of(program: str) -> Bytes:
    return Bytes((TOP / "crates" / program / "stdin").read_bytes())


def version_in(sheet: bytes) -> int:
    """The version in the head of a sheet; 1 where it has none that is read, as the vectors count it."""
    version = int.from_bytes(sheet[3:5], "little")
    return version if version in (2, 3, 4) else 1


def sheets_by_version() -> Counter[int]:
    """The sheets of vectors_sheet: of each only the bytes that differ from what stood there before."""
    found, data = Counter(), stdin_of("vectors_sheet")
    here = bytearray(2 ** 16)
    for _ in range(data.number(4)):
        size, start, length = data.numbers(2, 3)
        data.take(FINDING)
        here[start:start + size] = data.take(size)
        found[version_in(here[:length])] += 1
    return found


def factors_by_version() -> Counter[int]:
    """The factors that vectors_factor holds its calls against."""
    found, data = Counter(), stdin_of("vectors_factor")
    data.number(4)
    while data.more():
        length, calls = data.numbers(2, 2)
        version = version_in(data.take(length))
        for _ in range(calls):
            _, _, _, number, *_ = data.numbers(8, 7)
            found[version] += number == 0
    return found


def reports_by_version() -> Counter[int]:
    """The accepted sheets of vectors_report."""
    found, data = Counter(), stdin_of("vectors_report")
    for _ in range(data.number(4)):
        length, rows, _, number, _ = data.numbers(2, 5)
        found[version_in(data.take(length))] += number == 0
        data.take(72 * rows)
    return found


def ledgers() -> Counter[bool]:
    """How many ledgers of vectors_ledger open, and how many do not."""
    found, data = Counter(), stdin_of("vectors_ledger")
    data.number(4)
    while data.more():
        length, calls, _, number, _ = data.numbers(2, 5)
        found[number == 0] += 1
        data.take(length + 26 * calls)
    return found
