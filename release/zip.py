"""Packs a folder as a zip file, the same bytes for the same files: names in order, one time, no modes.

python3 release/zip.py FOLDER FILE SECONDS   SECONDS is the time of every file, since 1970
"""

import sys
import time
import zipfile
from pathlib import Path


def pack(folder: Path, file: Path, seconds: int) -> None:
    """Writes the file."""
    moment = time.gmtime(seconds)[:6]
    with zipfile.ZipFile(file, "w", zipfile.ZIP_DEFLATED, compresslevel=9) as packed:
        for path in sorted(path for path in folder.rglob("*") if path.is_file()):
            info = zipfile.ZipInfo(str(path.relative_to(folder.parent)), moment)
            info.compress_type = zipfile.ZIP_DEFLATED
            packed.writestr(info, path.read_bytes())


if __name__ == "__main__":
    if len(sys.argv) != 4:
        sys.exit("usage: python3 release/zip.py FOLDER FILE SECONDS")
    pack(Path(sys.argv[1]), Path(sys.argv[2]), int(sys.argv[3]))
