"""The new file beside an old one: it takes the old one's place whole or not at all.

It has the name that the command `cfb` gives it, and is locked in the same way, so that of two programs that write one
file the second waits.
"""

from __future__ import annotations

import errno
import fcntl
import os
import stat
import time
from contextlib import contextmanager
from typing import Iterator, Optional, Tuple

#: How long to wait for another edit of the same file, in seconds.
PATIENCE = 10.0


@contextmanager
def pending(target: str, mode: int) -> Iterator[Tuple[str, int]]:
    """Path and descriptor of the new file, which is there and locked. It is removed unless the block has renamed it."""
    path = _beside(target)
    descriptor = _taken(path, mode, target)
    try:
        yield path, descriptor
    finally:
        if _owned(descriptor, path):
            os.unlink(path)
        os.close(descriptor)


def fill(descriptor: int, data: bytes, old: Optional[os.stat_result]) -> None:
    """Writes all bytes to the new file, which gets owner and permissions of the old one, and waits for the disk."""
    if old is not None:
        _take_over(descriptor, old)
    with open(descriptor, "wb", closefd=False) as file:
        file.write(data)
    os.fsync(descriptor)


def sync_folder(target: str) -> None:
    """Waits for the disk to have the new name. A folder that may not be read cannot be synced."""
    try:
        folder = os.open(os.path.dirname(target), os.O_RDONLY)
    except OSError:
        return
    try:
        os.fsync(folder)
    finally:
        os.close(folder)


def _beside(target: str) -> str:
    """The name of the new file. A long name is cut: files that share one wait for each other, and no more."""
    folder, name = os.path.split(target)
    return os.path.join(folder, "." + os.fsdecode(os.fsencode(name)[:200]) + ".cfb-new")


def _taken(path: str, mode: int, target: str) -> int:
    """Makes and locks the new file. While another edit has one, it waits."""
    end = time.monotonic() + PATIENCE
    while True:
        try:
            descriptor = os.open(path, os.O_WRONLY | os.O_CREAT | os.O_EXCL, mode)
        except FileExistsError:
            _discard_stale(path)
        else:
            if _owned(descriptor, path):
                return descriptor
            os.close(descriptor)
        if time.monotonic() > end:
            raise BlockingIOError(errno.EAGAIN, "another edit of it is under way", target)
        time.sleep(0.005)


def _discard_stale(path: str) -> None:
    """Removes a new file that nobody has locked: it was left by an edit that was killed."""
    try:
        descriptor = os.open(path, os.O_RDONLY | os.O_NOFOLLOW | os.O_NONBLOCK)
    except FileNotFoundError:
        return
    try:
        if _owned(descriptor, path):
            os.unlink(path)
    finally:
        os.close(descriptor)


def _owned(descriptor: int, path: str) -> bool:
    """Locks a file, and asks whether its path still leads to it: its last owner may have renamed or removed it."""
    try:
        fcntl.flock(descriptor, fcntl.LOCK_EX | fcntl.LOCK_NB)
        return os.path.samestat(os.fstat(descriptor), os.lstat(path))
    except (BlockingIOError, FileNotFoundError):
        return False


def _take_over(descriptor: int, old: os.stat_result) -> None:
    """Gives a new file owner and permissions of the old one. Without the owner the bits that lend his rights go."""
    kept = True
    new = os.fstat(descriptor)
    if (new.st_uid, new.st_gid) != (old.st_uid, old.st_gid):
        try:
            os.fchown(descriptor, old.st_uid, old.st_gid)
        except OSError:
            kept = False
    os.fchmod(descriptor, stat.S_IMODE(old.st_mode) if kept else stat.S_IMODE(old.st_mode) & 0o777)
