"""What a file has in it."""

from __future__ import annotations

import enum
from typing import Iterator, List, NamedTuple, Tuple

from .paths import text_of


class Kind(enum.IntEnum):
    """What an entry is. The numbers are those in the file."""

    STORAGE = 1
    STREAM = 2
    ROOT = 5


class Entry(NamedTuple):
    """What a path leads to."""

    #: Its number in the directory. The root is 0. An object keeps it as long as it is there.
    number: int
    kind: Kind
    #: Of a stream its length; of a storage 0; of the root the length of the stream that holds all small streams.
    size: int


class Object(NamedTuple):
    """A stream or a storage of a file."""

    #: Its whole path from the root, by which it is found.
    path: str
    kind: Kind
    #: Of a stream its length; of a storage 0.
    size: int
    #: Its number in the directory.
    entry: int

    @property
    def names(self) -> List[str]:
        """The names of its path."""
        return self.path.split("/")


def listed(listing: bytes) -> Iterator[Tuple[str, Kind, int]]:
    """Path, kind and size of each object of a listing."""
    for line in listing.decode("ascii").split("\n")[1:-1]:
        letter, size, path = line.split(" ", 2)
        yield text_of(path), Kind.STORAGE if letter == "D" else Kind.STREAM, int(size)
