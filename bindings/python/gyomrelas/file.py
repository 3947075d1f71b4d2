"""A compound file, opened from a path, from bytes or from a file object."""

from __future__ import annotations

import builtins
import io
import os
from types import TracebackType
from typing import TYPE_CHECKING, Any, Optional, Type, Union

from .arguments import content
from .disk import Place, read_file, read_source, write_file
from .edits import Edits
from .images import image_of
from .paths import PathLike, path_of
from .pulses import Pulses
from .stream import Stream
from .uncopied import Uncopied
from .volume import Volume

if TYPE_CHECKING:
    from _typeshed import ReadableBuffer, SupportsRead

_MODES = ("r", "r+")


class CompoundFile(Uncopied, Edits):
    """A compound file in memory: that of some bytes, or of what is left of a file object.

    It is validated here, and refused with 1 or 10 to 18. Edits are made in memory, and `save` writes them;
    `gyomrelas.open` opens a file of the disk. The file is shared by threads: one call waits for the other. It can be
    neither copied nor pickled, and in a process that was forked from the one that opened it every call is a
    ValueError, as after `close`.

    >>> from pathlib import Path
    >>> file = CompoundFile(Path("samples/site.cfb").read_bytes())
    >>> file.write_bytes("Site/Jets", b"jet 12 closes\\n")
    14
    >>> CompoundFile(file.tobytes()).read_bytes("Site/Jets")
    b'jet 12 closes\\n'
    """

    def __init__(self, source: Union[ReadableBuffer, SupportsRead[bytes]], mode: str = "r+") -> None:
        if mode not in _MODES:
            raise ValueError(f'the mode is "r" or "r+", not {mode!r}')
        given: Any = source
        if isinstance(given, (str, os.PathLike)):
            raise TypeError("bytes or a file object is needed: gyomrelas.open opens a path")
        self._volume = Volume(read_source(given) if hasattr(given, "read") else image_of(given))
        self._writable = mode == "r+"
        self._place: Optional[Place] = None
        self._saved = 0

    def __repr__(self) -> str:
        state = "closed" if self.closed else "mode=" + repr("r+" if self._writable else "r")
        return f"<gyomrelas.CompoundFile {state}>"

    def openstream(self, path: PathLike, mode: Optional[str] = None) -> Stream:
        """A stream as a file object. It can be written to in mode "r+", which is the file's own where none is given.

        Refused: 20 to 23.

        >>> from gyomrelas import open
        >>> with open("samples/site.cfb") as file:
        ...     print(len(file.openstream(["Site", "log"]).read()), "bytes")
        5000 bytes
        """
        if mode is not None and mode not in _MODES:
            raise ValueError(f'the mode is "r" or "r+", not {mode!r}')
        if mode == "r+" and not self._writable:
            raise io.UnsupportedOperation('the file is open for reading: open it in mode "r+" to edit it')
        with self._volume.held() as opened:
            return Stream(self._volume, opened.handle(path_of(path)), self._writable and mode != "r")

    def pulses(self, path: PathLike) -> Pulses:
        """The pulses of the stream at a path."""
        return Pulses(self._volume, path_of(path), self._writable)

    def save(self, path: Union[str, "os.PathLike[str]", None] = None) -> None:
        """Writes the image to the file that was opened, or to the one at a path.

        A new file is written beside the old one, and renamed over it once it is on the disk: so the old one is there
        whole, or the new one. Where the file that was opened has changed meanwhile, it is an OSError (ESTALE), and
        stays.
        """
        with self._volume.held() as opened:
            data, edits = opened.tobytes(), opened.edits
        if self._place is not None and (path is None or self._place.is_at(os.fsdecode(path))):
            self._place.save(data)
            self._saved = edits
        elif path is not None:
            write_file(os.fsdecode(path), data)
        elif self._writable:
            raise ValueError("the file was not opened from a path: save needs one")
        else:
            raise io.UnsupportedOperation('the file is open for reading: open it in mode "r+" to save it')

    @property
    def closed(self) -> bool:
        """Whether the file is closed."""
        return self._volume.closed

    def close(self) -> None:
        """Closes the file, without saving it. Then every call of it and of its streams is a ValueError."""
        self._volume.close()

    def __enter__(self) -> CompoundFile:
        with self._volume.held():
            return self

    def __exit__(
        self, kind: Optional[Type[BaseException]], error: Optional[BaseException], trace: Optional[TracebackType]
    ) -> None:
        """Saves what was edited, unless there is an exception or nowhere to save it, and closes the file.

        A process that was forked in the block saves nothing.
        """
        try:
            if kind is None and self._place is not None and not self.closed and self._volume.here:
                with self._volume.held() as opened:
                    edited = opened.edits != self._saved
                if edited:
                    self.save()
        finally:
            self.close()


def open(path: Union[str, "os.PathLike[str]"], mode: str = "r") -> CompoundFile:
    """Opens the compound file at a path: for reading, or in mode "r+" for edits.

    Edits are made in memory. They are written by `save`, and at the end of a `with` block that has no exception; an
    exception in the block discards them. A file that is longer than 64 MiB is refused (1) unread.

    >>> with open("samples/site.cfb") as file:
    ...     print(file.get_size("Site/log"), "bytes")
    5000 bytes
    """
    if mode not in _MODES:
        raise ValueError(f'the mode is "r" or "r+", not {mode!r}')
    text = os.fsdecode(path)
    data, seen = read_file(text, mode == "r+")
    file = CompoundFile(data, mode)
    if mode == "r+":
        file._place = Place(text, seen)
    return file


def isOleFile(source: Any) -> bool:
    """Whether a path leads to a file, or a file object or bytes begin, with the signature of compound files.

    The rest is not looked at: `gyomrelas.validate` does that. A file object is left where it stood.

    >>> isOleFile("samples/site.cfb"), isOleFile("README.md")
    (True, False)
    """
    signature = bytes.fromhex("D0CF11E0A1B11AE1")
    if isinstance(source, (str, os.PathLike)):
        with builtins.open(source, "rb") as file:
            return file.read(len(signature)) == signature
    if not hasattr(source, "read"):
        return content(source)[: len(signature)] == signature
    position = source.tell()
    start: bytes = source.read(len(signature))
    source.seek(position)
    return start == signature
