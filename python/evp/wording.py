"""Words that messages share."""

import os
from collections.abc import Iterable


def apart(number: int) -> str:
    """Thousands apart."""
    return format(number, ",")


def counted(number: int, name: str) -> str:
    """So many of a thing: 1 row, 24 rows."""
    return "%s %s%s" % (apart(number), name, "" if number == 1 else "s")


def listed(words: Iterable[str]) -> str:
    """a, b and c."""
    words = list(words)
    return " and ".join([", ".join(words[:-1]), words[-1]]) if len(words) > 1 else "".join(words)


def shortened(word: str, most: int = 40) -> str:
    return word if len(word) <= most else word[:most] + "…"


def quoted(word: str) -> str:
    """A word of someone else in a message: nothing that a terminal would obey, and not long."""
    return repr(shortened(word))


class Messages:
    """What is wrong with an input: the first messages, and how many there are. An input of bad lines alone so takes no
    more memory than one of good lines."""

    MOST_KEPT = 20

    def __init__(self):
        self.kept: list[str] = []
        self.many = 0

    def add(self, message: str):
        self.many += 1
        if len(self.kept) < self.MOST_KEPT:
            self.kept.append(message)

    @property
    def more(self) -> int:
        """How many are counted alone."""
        return self.many - len(self.kept)

    def __str__(self) -> str:
        return "\n".join(self.kept)


MOST_SHOWN = 200  # signs of a name or of what was called, in a message


def printable(word: str) -> str:
    """A word without what a terminal would obey."""
    return "".join(sign if sign.isprintable() else "?" for sign in word)


def name_shown(name: str | os.PathLike, dash: str = "standard input") -> str:
    """A file's name for a message, likewise; `dash` is what - stands for."""
    shown = printable(dash if name == "-" else os.fspath(name)) or "''"
    return shown if len(shown) <= MOST_SHOWN else "…" + shown[1 - MOST_SHOWN:]
