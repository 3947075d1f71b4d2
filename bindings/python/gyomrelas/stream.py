"""A stream of a file, as a file object."""

from __future__ import annotations

import ctypes
import io
from typing import TYPE_CHECKING, Optional, SupportsIndex

from .arguments import bounded, content
from .opened import Handle
from .uncopied import Uncopied
from .volume import Volume

if TYPE_CHECKING:
    from _typeshed import ReadableBuffer, WriteableBuffer


class Stream(Uncopied, io.RawIOBase):
    """A stream with a position, as `CompoundFile.openstream` gives it.

    Nothing is held back: what is written is in the file's image at once, and what another call wrote is read. A read
    gives all bytes that are asked for, up to the stream's end, and a write writes all bytes or, where there is no
    room, none. A write behind the end makes the stream longer, with zero bytes in between. Each call goes along the
    stream from its start, so for many small reads put an `io.BufferedReader` around it. An `io.BufferedRandom` holds
    bytes back: flush it before the file is saved.

    Once the stream is removed every read and write is refused (33), also where another stream has its name or its
    entry of the directory since then. Once the file is closed it is a ValueError.

    >>> from gyomrelas import open
    >>> with open("samples/site.cfb") as file:
    ...     stream = file.openstream("Site/log")
    ...     print(stream.readline())
    ...     print(stream.seek(-5, 2), stream.read())
    b"line 7 of the site's log\\n"
    4995 b' log\\n'
    """

    #: The stream's path.
    name: str
    mode: str

    def __init__(self, volume: Volume, handle: Handle, writable: bool) -> None:
        super().__init__()
        self._volume = volume
        self._handle = handle
        self._writable = writable
        self._position = 0
        self.name = handle.path.text
        self.mode = "rb+" if writable else "rb"

    def __repr__(self) -> str:
        return f"<gyomrelas.Stream {self.name!r} mode={self.mode!r}>"

    def _check(self) -> None:
        if self.closed:
            raise ValueError("the stream is closed")

    def readable(self) -> bool:
        self._check()
        return True

    def seekable(self) -> bool:
        self._check()
        return True

    def writable(self) -> bool:
        self._check()
        return self._writable

    @property
    def size(self) -> int:
        """The stream's length as it is now."""
        self._check()
        with self._volume.held() as opened:
            return opened.size(self._handle)

    def read(self, size: Optional[int] = -1) -> bytes:
        """The next bytes, or all that are left."""
        self._check()
        with self._volume.held() as opened:
            left = max(opened.size(self._handle) - self._position, 0)
            length = left if size is None or size < 0 else min(size, left)
            if length == 0:
                return b""
            piece = opened.read_at(self._handle.entry, self._position, length, self.name)
            self._position += len(piece)
            return piece

    def readall(self) -> bytes:
        return self.read()

    def readinto(self, buffer: WriteableBuffer) -> int:
        """Reads into a buffer, and gives the number of bytes."""
        target = (ctypes.c_char * memoryview(buffer).nbytes).from_buffer(buffer)
        piece = self.read(len(target))
        ctypes.memmove(target, piece, len(piece))
        return len(piece)

    def readline(self, size: Optional[int] = -1) -> bytes:
        """The bytes up to the end of the line, or of the stream, or so many."""
        self._check()
        with self._volume.held() as opened:
            left = max(opened.size(self._handle) - self._position, 0)
            longest = left if size is None or size < 0 else min(size, left)
            line = b""
            while len(line) < longest and not line.endswith(b"\n"):
                # pieces that become longer, as nobody knows how long the line is
                length = min(128 + len(line), longest - len(line))
                piece = opened.read_at(self._handle.entry, self._position + len(line), length, self.name)
                line += piece[: piece.find(b"\n") + 1] or piece
            self._position += len(line)
            return line

    def write(self, data: ReadableBuffer) -> int:
        """Writes bytes, which makes the stream longer where they end behind it."""
        self._check_writable()
        piece = content(data)
        if not piece:
            return 0
        with self._volume.held() as opened:
            end = self._position + len(piece)
            if end > opened.size(self._handle):
                opened.set_len(self._handle.path, end)
            opened.overwrite(self._handle.path, self._position, piece)
            self._position = end
        return len(piece)

    def truncate(self, size: Optional[int] = None) -> int:
        """Makes the stream so long, by zero bytes where it was shorter. The position stays."""
        self._check_writable()
        with self._volume.held() as opened:
            opened.size(self._handle)
            length = self._position if size is None else size
            opened.set_len(self._handle.path, bounded(length, 64))
        return length

    def _check_writable(self) -> None:
        self._check()
        if not self._writable:
            raise io.UnsupportedOperation("the stream is not open for writing")

    def tell(self) -> int:
        self._check()
        return self._position

    def seek(self, offset: SupportsIndex, whence: int = io.SEEK_SET) -> int:
        """Moves to a position from the start (0), from here (1) or from the end (2). It may be behind the end."""
        self._check()
        position = offset.__index__()
        if whence == io.SEEK_CUR:
            position += self._position
        elif whence == io.SEEK_END:
            position += self.size
        elif whence != io.SEEK_SET:
            raise ValueError(f"whence is 0, 1 or 2, not {whence}")
        if position < 0:
            raise ValueError(f"a negative position: {position}")
        self._position = position
        return position
