"""What a file answers without being changed."""

from __future__ import annotations

from typing import Iterator, List, Literal, Optional, SupportsIndex, Union

from .arguments import bounded
from .library import BAD_PATH, NOT_FOUND, STREAM_ON_THE_WAY
from .objects import Entry, Kind, Object, listed
from .paths import PathLike, path_of
from .refusals import Refusal
from .volume import Volume

#: The refusals that say that nothing is at a path.
_NOTHING_THERE = (BAD_PATH, NOT_FOUND, STREAM_ON_THE_WAY)


class Queries:
    """The part of a `CompoundFile` that reads.

    A path is a str, with names parted by "/", or a list of names; the empty one is the root. Small and capital
    letters are the same in the ranges of Latin, Greek and Cyrillic that docs/RULES.md has.
    """

    _volume: Volume

    def find(self, path: PathLike) -> Entry:
        """Number, kind and size of what is at a path. Refused: 20, 21 and 22.

        >>> from gyomrelas import open
        >>> with open("samples/site.cfb") as file:
        ...     file.find("site/LOG").size
        5000
        """
        with self._volume.held() as opened:
            return opened.find(path_of(path))

    def _found(self, path: PathLike) -> Optional[Entry]:
        try:
            return self.find(path)
        except Refusal as refusal:
            if refusal.number in _NOTHING_THERE:
                return None
            raise

    def exists(self, path: PathLike) -> bool:
        """Whether something is at a path."""
        return self._found(path) is not None

    def get_type(self, path: PathLike) -> Union[Kind, Literal[False]]:
        """1 for a storage, 2 for a stream, 5 for the root, and False where nothing is."""
        entry = self._found(path)
        return False if entry is None else entry.kind

    def isstream(self, path: PathLike) -> bool:
        """Whether a stream is at a path."""
        return self.get_type(path) == Kind.STREAM

    def isstorage(self, path: PathLike) -> bool:
        """Whether a storage is at a path; the root is one too."""
        return self.get_type(path) in (Kind.STORAGE, Kind.ROOT)

    def get_size(self, path: PathLike) -> int:
        """The length of a stream in bytes. Refused: 20 to 23."""
        with self._volume.held() as opened:
            return opened.size(opened.handle(path_of(path)))

    def listdir(self, streams: bool = True, storages: bool = False) -> List[List[str]]:
        """The names of the path of every stream, and of every storage if asked for, in the order of the file's trees.

        >>> from gyomrelas import open
        >>> with open("samples/site.cfb") as file:
        ...     file.listdir()
        ...     file.listdir(streams=False, storages=True)
        [['Site', 'log'], ['Site', 'Jets']]
        [['Site']]
        """
        wanted = {Kind.STREAM: streams, Kind.STORAGE: storages}
        with self._volume.held() as opened:
            listing = opened.listing()
        return [path.split("/") for path, kind, _ in listed(listing) if wanted[kind]]

    def walk(self) -> Iterator[Object]:
        """Every stream and storage as it is now, a storage before all that is below it.

        >>> from gyomrelas import open
        >>> with open("samples/site.cfb") as file:
        ...     for item in file.walk():
        ...         print(item.entry, item.kind.name, item.size, item.path)
        1 STORAGE 0 Site
        2 STREAM 5000 Site/log
        3 STREAM 70 Site/Jets
        """
        with self._volume.held() as opened:
            objects = [
                Object(path, kind, size, opened.find(path_of(path)).number)
                for path, kind, size in listed(opened.listing())
            ]
        return iter(objects)

    def __iter__(self) -> Iterator[Object]:
        return self.walk()

    def read_bytes(self, path: PathLike, offset: SupportsIndex = 0, length: Optional[SupportsIndex] = None) -> bytes:
        """The bytes of a stream from an offset on: all that are left, or so many. Refused: 20 to 24.

        >>> from gyomrelas import open
        >>> with open("samples/site.cfb") as file:
        ...     file.read_bytes("Site/Jets", 13, 26)
        b'jet 12 opens\\njet 12 opens\\n'
        """
        start = bounded(offset, 64)
        with self._volume.held() as opened:
            handle = opened.handle(path_of(path))
            left = max(opened.size(handle) - start, 0)
            wanted = left if length is None else min(bounded(length, 64), left)
            return opened.read_at(handle.entry, start, wanted, handle.path.text)

    def read_at(self, entry: SupportsIndex, position: SupportsIndex, length: SupportsIndex) -> bytes:
        """Up to so many bytes of the stream that has an entry number. Refused: 33, where no stream has it; then 24.

        Where a stream is removed, one that is created later may get its number: `openstream` knows them apart.
        """
        with self._volume.held() as opened:
            return opened.read_at(bounded(entry, 32), bounded(position, 64), bounded(length, 64))

    def tobytes(self) -> bytes:
        """A copy of the whole image as it is now."""
        with self._volume.held() as opened:
            return opened.tobytes()

    def validate(self) -> None:
        """Validates the whole image anew. It is accepted after every call; this says so once more."""
        with self._volume.held() as opened:
            opened.validate()
