"""Makes the wheel of the package evp from the archive of a release, with the shared library and the samples in it.

python3 release/wheel.py ARCHIVE [FOLDER]   FOLDER is that of the archive where none is given

The library is the one of the archive, byte for byte. The same archive gives the same wheel: names in order, the time
of the commit, mode 644. A wheel of an archive that is not proved has a version such as 1.0.0.dev0, which the proved one
replaces.
"""

import base64
import hashlib
import re
import sys
import tarfile
import time
import zipfile
from pathlib import Path

LIBRARY = "evp/libevaporation.so.1"
GLIBC = (2, 17)  # manylinux_2_17, which is manylinux2014: no library but the C library, and that of 2.17 or later
TAGS = ("manylinux_2_17_x86_64", "manylinux2014_x86_64")
METADATA = """Metadata-Version: 2.1
Name: evp
Version: {version}
Summary: Evaporation of a vehicle fleet by the EMEP/EEA Tier 3 method, with proved bounds
License: LICENSE
Platform: Linux
Requires-Python: >=3.10
Requires-Dist: flask; extra == 'pages'
Requires-Dist: jinja2; extra == 'pages'
Requires-Dist: waitress; extra == 'pages'
Provides-Extra: pages
Description-Content-Type: text/markdown

The command `evp` and the package `evp`, with the shared library libevaporation.so.1 in it. `evp page` and `evp serve`
need the extra `pages`. PROVED says what was proved of the library.
"""
WHEEL = "Wheel-Version: 1.0\nGenerator: release/wheel.py\nRoot-Is-Purelib: false\n"
COMMANDS = "[console_scripts]\nevp = evp.cli:main\n"


def read(tar: tarfile.TarFile, member: tarfile.TarInfo) -> bytes:
    """The bytes of a file."""
    file = tar.extractfile(member)
    assert file is not None, "a member that is a file has bytes"
    return file.read()


class Archive:
    """The files of a release, by their names under its folder."""

    def __init__(self, path: Path):
        with tarfile.open(path) as tar:
            found = [member for member in tar.getmembers() if member.isfile()]
            self.files = {member.name.partition("/")[2]: read(tar, member) for member in found}
            self.time = next(member.mtime for member in found)
            self.version = found[0].name.split("-")[1]
        if path.name.endswith("-unproved.tar.gz"):
            self.version += ".dev0"

    def under(self, folder: str) -> dict[str, bytes]:
        """The files under a folder, by their names there."""
        return {name[len(folder):]: data for name, data in self.files.items() if name.startswith(folder)}

    def library(self) -> bytes:
        """The shared library; ValueError where it needs a later C library than the wheel's tags promise."""
        name = next(name for name in self.files if re.fullmatch(r"lib/libevaporation\.so\.1\.\d+\.\d+", name))
        data = self.files[name]
        needed = max((int(major), int(minor)) for major, minor in re.findall(rb"GLIBC_(\d+)\.(\d+)", data))
        if needed > GLIBC:
            raise ValueError("%s needs glibc %d.%d, and the wheel's tags promise %d.%d" % (name, *needed, *GLIBC))
        return data


def contents(archive: Archive) -> dict[str, bytes]:
    """The files of the wheel, but RECORD."""
    tags = "".join("Tag: py3-none-%s\n" % tag for tag in TAGS)
    info = {
        "METADATA": METADATA.format(version=archive.version).encode(), "WHEEL": (WHEEL + tags).encode(),
        "entry_points.txt": COMMANDS.encode(),
        "LICENSE": archive.files["LICENSE"], "PROVED": archive.files["PROVED"],
    }
    return {
        **{"evp/" + name: data for name, data in archive.under("python/evp/").items()},
        **{"evp/samples/" + name: data for name, data in archive.under("samples/").items()},
        LIBRARY: archive.library(),
        **{"%s/%s" % (info_folder(archive), name): data for name, data in info.items()},
    }


def info_folder(archive: Archive) -> str:
    return "evp-%s.dist-info" % archive.version


def record(files: dict[str, bytes], own: str) -> bytes:
    """RECORD: each file with its digest and length, and itself without."""
    def digest(data: bytes) -> str:
        return base64.urlsafe_b64encode(hashlib.sha256(data).digest()).rstrip(b"=").decode()
    lines = ["%s,sha256=%s,%d\n" % (name, digest(data), len(data)) for name, data in sorted(files.items())]
    return "".join([*lines, "%s,,\n" % own]).encode()


def write(archive: Archive, folder: Path) -> Path:
    """Writes the wheel into a folder."""
    files = contents(archive)
    own = info_folder(archive) + "/RECORD"
    made = folder / ("evp-%s-py3-none-%s.whl" % (archive.version, ".".join(TAGS)))
    folder.mkdir(parents=True, exist_ok=True)
    with zipfile.ZipFile(made, "w", zipfile.ZIP_DEFLATED, compresslevel=9) as wheel:
        for name, data in [*sorted(files.items()), (own, record(files, own))]:  # RECORD last, as PEP 427 asks
            entry = zipfile.ZipInfo(name, time.gmtime(archive.time)[:6])
            entry.compress_type, entry.external_attr, entry.create_system = zipfile.ZIP_DEFLATED, 0o100644 << 16, 3
            wheel.writestr(entry, data)
    return made


def main(words: list[str]) -> int:
    """Makes the wheel, and prints its path."""
    if len(words) not in (1, 2):
        print("usage: python3 release/wheel.py ARCHIVE [FOLDER]", file=sys.stderr)
        return 2
    path = Path(words[0]).resolve()
    try:
        print(write(Archive(path), Path(words[1]).resolve() if len(words) == 2 else path.parent))
    except (OSError, ValueError, tarfile.TarError) as error:
        print("release/wheel.py: %s" % error, file=sys.stderr)
        return 1
    return 0


if __name__ == "__main__":
    sys.exit(main(sys.argv[1:]))
