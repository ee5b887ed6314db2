"""Damage by chance: what befalls a sheet's bytes, in words, and the bytes that are left."""

from tools.vectors.chance import Chance
from tools.vectors.plans import patched, records_start

Damaged = tuple[str, bytes]


def byte_changed(chance: Chance, data: bytes) -> Damaged:
    at, value = chance.below(len(data)), chance.below(256)
    return "byte %d becomes %d" % (at, value), patched(data, at, bytes([value]))


def bit_changed(chance: Chance, data: bytes) -> Damaged:
    at, bit = chance.below(len(data)), chance.below(8)
    return "bit %d of byte %d turned" % (bit, at), patched(data, at, bytes([data[at] ^ 1 << bit]))


def record_byte_changed(chance: Chance, data: bytes) -> Damaged:
    at, value = chance.between(records_start(data), len(data) - 1), chance.below(256)
    return "byte %d of the records becomes %d" % (at, value), patched(data, at, bytes([value]))


def neighbours_exchanged(chance: Chance, data: bytes) -> Damaged:
    at = chance.below(len(data) - 1)
    return "bytes %d and %d exchanged" % (at, at + 1), patched(data, at, data[at:at + 2][::-1])


def part_overwritten(chance: Chance, data: bytes) -> Damaged:
    at, size = chance.between(records_start(data), len(data) - 8), chance.between(2, 8)
    values = bytes(chance.below(256) for _ in range(size))
    return "%d bytes from %d overwritten" % (size, at), patched(data, at, values)


def byte_lost(chance: Chance, data: bytes) -> Damaged:
    at = chance.below(len(data))
    return "byte %d lost" % at, data[:at] + data[at + 1:]


DAMAGE = (
    byte_changed, bit_changed, bit_changed, record_byte_changed, record_byte_changed, neighbours_exchanged,
    part_overwritten, byte_lost,
)
