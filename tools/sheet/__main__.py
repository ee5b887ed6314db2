"""The command: python3 -m tools.sheet write TEXT [SHEET], or read SHEET."""

import argparse
import os
import sys

from tools import sheet
from tools.command import add_command, described


def write_file(source: str, target: str):
    """Makes the sheet of a text's file, and says what was written."""
    with open(source, encoding="utf-8") as file:
        data = sheet.write(file.read())
    # the same file under another name, or through a link, too
    if os.path.exists(target) and os.path.samefile(source, target):
        raise sheet.TextError("the sheet would overwrite its text; name another file")
    with open(target, "wb") as file:
        file.write(data)
    print("%s: %d bytes, %s" % (target, len(data), sheet.verdict(data)))


def print_text(source: str):
    """Prints the text of a sheet's file."""
    with open(source, "rb") as file:
        sys.stdout.write(sheet.read(file.read()))


def parser() -> argparse.ArgumentParser:
    top = argparse.ArgumentParser(prog="python3 -m tools.sheet", **described(
        "Makes a sheet from a readable text, and back. docs/TOOLS.md has the lines of the text.",
        "python3 -m tools.sheet write samples/region.txt my.evp"))
    commands = top.add_subparsers(required=True, metavar="COMMAND")
    write = add_command(commands, "write", "makes the sheet of a text",
                        "python3 -m tools.sheet write samples/region.txt my.evp",
                        ", and says what it wrote and whether it would be accepted; never writes over the text")
    write.add_argument("source", metavar="TEXT")
    write.add_argument("target", metavar="SHEET", nargs="?", help="TEXT's name with .evp where none is given")
    write.set_defaults(run=lambda given: write_file(
        given.source, given.target or os.path.splitext(given.source)[0] + ".evp"))
    read = add_command(commands, "read", "prints the text of a sheet", "python3 -m tools.sheet read samples/region.evp")
    read.add_argument("source", metavar="SHEET")
    read.set_defaults(run=lambda given: print_text(given.source))
    return top


def main(words: list[str] | None = None) -> int:
    """Exit status 0 done, 2 for a text or sheet that cannot be read, with the line."""
    given = parser().parse_args(words)
    try:
        given.run(given)
    except (OSError, UnicodeDecodeError) as error:
        print("sheet: %s" % error, file=sys.stderr)
        return 2
    except sheet.TextError as error:
        print("sheet: %s: %s" % (given.source, error), file=sys.stderr)
        return 2
    return 0


if __name__ == "__main__":
    sys.exit(main())
