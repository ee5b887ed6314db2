"""The manual page of evp: python3 -B release/manual.py FOLDER VERSION prints it, from what FOLDER/evp --help prints."""

import os
import subprocess
import sys
from pathlib import Path

PAGE = """.TH EVP 1 "" "evaporation {version}" "User Commands"
.SH NAME
evp \\- evaporation of a vehicle fleet by the EMEP/EEA Tier 3 method, with proved bounds
.SH SYNOPSIS
.B evp
.I COMMAND
\\&...
.SH DESCRIPTION
The yearly mass of diurnal, hot-soak and running losses of a vehicle fleet.
Each mass is a low and a high in whole milligrams, with a proof that the exact mass lies between them.
.B evp
.I COMMAND
.B \\-\\-help
describes a command.
.PP
.nf
{help}
.fi
.SH ENVIRONMENT
.TP
.B EVP_LIBRARY
The shared library to use, in place of the installed one.
.SH FILES
.TP
.I /usr/share/evp/samples
Sheets to try.
.TP
.I /usr/share/doc/evp
The documents: COURSE.md describes each command with examples, SHEET.md the bytes of a sheet.
"""


def quoted(line: str) -> str:
    """A line of text for troff: hyphens as they are typed, and none that troff takes for a command of its own."""
    line = line.replace("\\", "\\\\").replace("-", "\\-")
    return "\\&" + line if line[:1] in (".", "'") else line


def manual(folder: Path, version: str) -> str:
    """The manual page of the command in a folder."""
    run = subprocess.run([sys.executable, "-B", folder / "evp", "--help"], capture_output=True, text=True, check=True,
                         env={**os.environ, "COLUMNS": "80"})
    return PAGE.format(version=version, help="\n".join(map(quoted, run.stdout.rstrip().splitlines())))


def main(words: list[str]) -> int:
    """Prints the page."""
    if len(words) != 2:
        print("usage: python3 -B release/manual.py FOLDER VERSION", file=sys.stderr)
        return 2
    print(manual(Path(words[0]), words[1]), end="")
    return 0


if __name__ == "__main__":
    sys.exit(main(sys.argv[1:]))
