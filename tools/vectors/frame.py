"""What the sets of vectors share: the file of a set, numbers as its bytes, and what a set says of itself."""

from collections.abc import Callable, Iterable, Iterator
from typing import Any, NamedTuple

from tools.command import MadeFile

ROOM = 2 ** 19  # what a program can read: `buffer` of crates/vectors/src/input.rt


class VectorError(Exception):
    """Vectors that are not what they should be."""


class VectorSet(NamedTuple):
    """The input of one program.

    `find` makes the vectors and `encode` the bytes of the file; `lines` prints
    them, one line each, and `missing` yields what they should show and do not.
    `beside` makes other files from the same cases, by their paths.
    """
    program: str
    find: Callable[[], Any]
    encode: Callable[[Any], bytes]
    lines: Callable[[Any], Iterable[str]]
    missing: Callable[[Any], Iterable[str]] = lambda vectors: ()
    beside: Callable[[], dict[str, bytes]] = dict

    def files(self) -> Iterator[MadeFile]:
        """The files of the set; VectorError where its vectors lack something."""
        vectors = self.find()
        data = self.encode(vectors)
        faults = list(self.missing(vectors))
        if len(data) > ROOM:
            faults.append("%d bytes, and the program reads %d" % (len(data), ROOM))
        if faults:
            raise VectorError("; ".join(faults))
        yield MadeFile("crates/%s/stdin" % self.program, data)
        for path, content in self.beside().items():
            yield MadeFile(path, content)


def packed(size: int, numbers: Iterable[int]) -> bytes:
    """Numbers of this many bytes each, the lowest byte first."""
    return b"".join(number.to_bytes(size, "little") for number in numbers)
