"""The writer and the reader of sheets, which are the desk's, python/evp/sheet; where a sheet stops, by the second
reckoning."""

import sys

from tools.command import TOP

if str(TOP / "python") not in sys.path:
    sys.path.append(str(TOP / "python"))

from evp import layout  # noqa: E402
from evp.sheet import TextError, read, write  # noqa: E402
from tools.sheet.meanings import MEANINGS, verdict  # noqa: E402

__all__ = ["MEANINGS", "TextError", "layout", "read", "verdict", "write"]
