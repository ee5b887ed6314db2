"""The same inventory in a later version of the sheet (docs/SHEET.md)."""

from evp import layout
from evp.files import InputError
from evp.sheet.products import products
from evp.sheet.words import TextError


def converted(data: bytes, version: int) -> bytes:
    """An accepted sheet in a later version: the lists of version 1 become the grid of their products, else the bytes of
    the version alone change."""
    present = layout.version_of(data)
    if version <= present:
        raise InputError("this is a sheet of version %d already, and only a later version is made of it" % present)
    try:
        parking = data[8:layout.GRID_END] if present > 1 else products(
            layout.counts(data, 8), layout.counts(data, 56))
    except TextError as error:
        raise InputError(str(error)) from None
    return data[:3] + version.to_bytes(2, "little") + data[5:8] + parking + data[layout.seasons_start(data):]
