"""Files on the disk: how they are read, and replaced whole."""

from __future__ import annotations

import errno
import os
import stat
import threading
from typing import TYPE_CHECKING, List, Optional, Tuple

from .arguments import content
from .library import BAD_LENGTH, GREATEST_IMAGE
from .pending import fill, pending, sync_folder
from .refusals import refusal

if TYPE_CHECKING:
    from _typeshed import SupportsRead


def read_source(source: SupportsRead[bytes]) -> bytes:
    """The bytes of a file object from where it stands. Longer ones than the library takes are refused (1)."""
    pieces: List[bytes] = []
    left = GREATEST_IMAGE + 1
    while left > 0:
        piece = content(source.read(left))
        if not piece:
            return b"".join(pieces)
        pieces.append(piece)
        left -= len(piece)
    raise refusal(BAD_LENGTH)


def read_file(path: str, writable: bool) -> Tuple[bytes, os.stat_result]:
    """The bytes of a file. One that is to be replaced must be one that may be written to."""
    _regular(os.stat(path), path)
    with open(path, "r+b" if writable else "rb", buffering=0) as file:
        seen = os.fstat(file.fileno())
        _regular(seen, path)
        if seen.st_size > GREATEST_IMAGE:
            raise refusal(BAD_LENGTH, path)
        return read_source(file), seen


def _regular(status: os.stat_result, path: str) -> None:
    """Asks that a file is a regular one. To open a pipe would wait for a writer, so it is asked before."""
    if stat.S_ISDIR(status.st_mode):
        raise IsADirectoryError(errno.EISDIR, os.strerror(errno.EISDIR), path)
    if not stat.S_ISREG(status.st_mode):
        raise OSError(errno.EINVAL, "no regular file", path)


class Place:
    """Where a file is saved: the file that was read, or a place where none was.

    A link is followed once, so that it stays a link, and the working folder may change.
    """

    def __init__(self, path: str, seen: Optional[os.stat_result]) -> None:
        folder, name = os.path.split(path)
        self._target = os.path.realpath(path) if seen else os.path.join(os.path.realpath(folder), name)
        self._seen = seen
        self._lock = threading.Lock()

    def is_at(self, path: str) -> bool:
        """Whether a path leads here."""
        return os.path.realpath(path) == self._target

    def save(self, data: bytes) -> None:
        """Writes the file anew. It is an error where it is no longer the file that was read or saved last."""
        with self._lock, pending(self._target, 0o600 if self._seen else 0o666) as (path, descriptor):
            if self._seen is not None and not _same(self._seen, self._target):
                raise OSError(errno.ESTALE, "the file has changed since it was read", self._target)
            fill(descriptor, data, self._seen)
            if self._seen is None:
                _place(path, self._target)
            else:
                os.rename(path, self._target)
            self._seen = os.fstat(descriptor)
            sync_folder(self._target)


def write_file(path: str, data: bytes) -> None:
    """Writes a file in the place of the one that is there, or of none."""
    seen: Optional[os.stat_result] = None
    if os.path.lexists(path):
        _regular(os.stat(path), path)
        with open(path, "r+b", buffering=0) as old:
            seen = os.fstat(old.fileno())
    Place(path, seen).save(data)


def _same(seen: os.stat_result, path: str) -> bool:
    """Whether a path still leads to the file that was seen, and nobody has written to it."""
    try:
        now = os.stat(path)
    except FileNotFoundError:
        return False
    return os.path.samestat(now, seen) and (now.st_size, now.st_mtime_ns) == (seen.st_size, seen.st_mtime_ns)


def _place(path: str, target: str) -> None:
    """Gives a file a name that none has. Where the file system has no hard links, it is looked first, then renamed."""
    try:
        os.link(path, target)
    except FileExistsError:
        raise FileExistsError(errno.EEXIST, os.strerror(errno.EEXIST), target) from None
    except OSError:
        if os.path.lexists(target):
            raise FileExistsError(errno.EEXIST, os.strerror(errno.EEXIST), target) from None
        os.rename(path, target)
