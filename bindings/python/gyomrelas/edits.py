"""What changes a file, in memory."""

from __future__ import annotations

import io
from contextlib import contextmanager
from typing import TYPE_CHECKING, Iterator, SupportsIndex

from .arguments import bounded, content
from .opened import Opened
from .paths import PathLike, path_of
from .queries import Queries
from .refusals import NotFound, Refusal

if TYPE_CHECKING:
    from _typeshed import ReadableBuffer


class Edits(Queries):
    """The part of a `CompoundFile` that edits. A refused call changes nothing; `write_bytes` names the one exception.

    The image itself never grows: a stream's bytes go to free sectors of it.
    """

    _writable: bool

    @contextmanager
    def _edited(self) -> Iterator[Opened]:
        with self._volume.held() as opened:
            if not self._writable:
                raise io.UnsupportedOperation('the file is open for reading: open it in mode "r+" to edit it')
            yield opened

    def create_stream(self, path: PathLike) -> None:
        """Creates a stream of no bytes. Refused: 20 to 22, 29 where something is there, and 30.

        >>> from gyomrelas import open
        >>> file = open("samples/site4.cfb", "r+")
        >>> file.create_storage("Site/old")
        >>> file.create_stream("Site/old/log")
        >>> file.listdir()
        [['Site', 'log'], ['Site', 'old', 'log'], ['Site', 'Jets']]
        >>> file.remove("Site/old")
        Traceback (most recent call last):
        gyomrelas.refusals.Refusal: refused 28: the storage to be removed has something in it: 'Site/old'
        """
        with self._edited() as opened:
            opened.create_stream(path_of(path))

    def create_storage(self, path: PathLike) -> None:
        """Creates a storage with nothing in it. Refused as a stream is."""
        with self._edited() as opened:
            opened.create_storage(path_of(path))

    def remove(self, path: PathLike) -> None:
        """Removes a stream, or a storage with nothing in it. Refused: 20 to 22, 28, and 31 for the root."""
        with self._edited() as opened:
            opened.remove(path_of(path))

    def set_len(self, path: PathLike, length: SupportsIndex) -> None:
        """Cuts a stream, or lengthens it with zero bytes. Refused: 20 to 23, and 26.

        A stream of 4,096 bytes and more lies in sectors, a smaller one in mini sectors. A length on the other side of
        that line takes free units of the other kind, so that a shorter length may be refused for room too.
        """
        with self._edited() as opened:
            opened.set_len(path_of(path), bounded(length, 64))

    def overwrite(self, path: PathLike, offset: SupportsIndex, data: ReadableBuffer) -> None:
        """Puts bytes into a stream from an offset on. They have to end within it. Refused: 20 to 24.

        >>> from gyomrelas import open
        >>> file = open("samples/site.cfb", "r+")
        >>> size = file.get_size("Site/log")
        >>> file.set_len("Site/log", size + 4)
        >>> file.overwrite("Site/log", size, b"end\\n")
        >>> print(file.read_bytes("Site/log", size - 25).decode(), end="")
        line 7 of the site's log
        end
        """
        start, piece = bounded(offset, 64), content(data)
        with self._edited() as opened:
            opened.overwrite(path_of(path), start, piece)

    def write_bytes(self, path: PathLike, data: ReadableBuffer) -> int:
        """Gives a stream these bytes and no others, and their number. It is created where nothing is at the path.

        Refused: 20, 22, 23 and 26; and as a creation is. A stream that was created and has no room is removed again,
        which makes the other entries of its storage black, where a program had written red ones.

        >>> from gyomrelas import new
        >>> file = new(65_536)
        >>> file.write_bytes("note", b"hello\\n")
        6
        >>> file.read_bytes("note")
        b'hello\\n'
        """
        piece = content(data)
        with self._edited() as opened:
            place = path_of(path)
            try:
                opened.handle(place)
                created = False
            except NotFound:
                opened.create_stream(place)
                created = True
            try:
                opened.set_len(place, len(piece))
            except Refusal:
                if created:
                    opened.remove(place)
                raise
            opened.overwrite(place, 0, piece)
        return len(piece)

    def repair(self) -> int:
        """Makes the colours of the directory's trees black, and gives the number of changes.

        An open file is accepted already, so there is nothing else to repair: for one that is refused see
        `gyomrelas.repair`.
        """
        with self._edited() as opened:
            return opened.repair()
