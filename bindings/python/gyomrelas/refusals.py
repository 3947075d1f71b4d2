"""Why a call was refused."""

from __future__ import annotations

import errno
from typing import Any, Dict, Optional, Tuple, Type

#: What each answer but 0 means.
SENTENCES: Dict[int, str] = {
    1: "the image's length is no multiple of 512 from 1,536 to 67,108,864; in version 4 of 4,096 from 12,288; or not"
    " the plan's",
    2: "the work buffer or the spare buffer is too short",
    10: "the image breaks a rule on the header",
    11: "the image breaks a rule on the sectors of the tables",
    12: "the image breaks a rule on the tables' cells",
    13: "the image breaks a rule on the directory's chain",
    14: "the image breaks a rule on the fields of an entry",
    15: "the image breaks a rule on the trees of entries",
    16: "the image breaks a rule on the mini tables",
    17: "the image breaks a rule on the streams' chains",
    18: "the image breaks a rule on who owns a sector",
    20: "a name of the path is empty, longer than 31 units, or has a unit 0, '\\', ':' or '!'",
    21: "a storage on the way has no child of that name",
    22: "a stream stands where a storage is needed",
    23: "the path ends at a storage or the root, and a stream is needed",
    24: "a read would start, or a write end, behind the stream's end",
    26: "there are too few free sectors or mini sectors",
    27: "the listing is longer than the out buffer",
    28: "the storage to be removed has something in it",
    29: "something is at the path already",
    30: "no entry of the directory is blank",
    31: "the root cannot be removed",
    32: "the plan has an unknown version, no directory, too small a mini FAT, or more than its sectors hold",
    33: "the entry number is beyond the directory, or of an entry that is no stream",
    40: "the stream is no pulse stream: its trailer or one of its records is not right",
    41: "a pulse of no ticks is not added",
    42: "there is no record of that number",
}

_ERRNO: Dict[int, int] = {
    21: errno.ENOENT,
    22: errno.ENOTDIR,
    23: errno.EISDIR,
    26: errno.ENOSPC,
    28: errno.ENOTEMPTY,
    29: errno.EEXIST,
    30: errno.ENOSPC,
    33: errno.ESTALE,
}


class Refusal(OSError):
    """A refused call: nothing was changed by it.

    `number` is the library's answer, `sentence` says what it means, and `filename` is the path, where there is one.
    `errno` is the system's number for such a case, EINVAL where there is no nearer one. Some are also the exceptions
    that Python has for their case:

    >>> from gyomrelas import open
    >>> with open("samples/site.cfb") as file:
    ...     try:
    ...         file.read_bytes("Site/logs")
    ...     except FileNotFoundError as refusal:
    ...         print(refusal)
    ...         print(refusal.number)
    refused 21: a storage on the way has no child of that name: 'Site/logs'
    21
    """

    number: int
    sentence: str

    def __init__(self, number: int, path: Optional[str] = None) -> None:
        self.number = number
        self.sentence = SENTENCES[number]
        super().__init__(_ERRNO.get(number, errno.EINVAL), self.sentence)
        self.filename = path

    def __str__(self) -> str:
        text = f"refused {self.number}: {self.sentence}"
        return text if self.filename is None else f"{text}: {self.filename!r}"

    def __reduce__(self) -> Tuple[Any, ...]:
        return (refusal, (self.number, self.filename))


class NotFound(Refusal, FileNotFoundError):
    """21: a storage on the way has no child of that name."""


class StreamOnTheWay(Refusal, NotADirectoryError):
    """22: a stream stands where a storage is needed."""


class NotAStream(Refusal, IsADirectoryError):
    """23: the path ends at a storage or the root, and a stream is needed."""


class AlreadyThere(Refusal, FileExistsError):
    """29: something is at the path already."""


_CLASSES: Dict[int, Type[Refusal]] = {21: NotFound, 22: StreamOnTheWay, 23: NotAStream, 29: AlreadyThere}


def refusal(number: int, path: Optional[str] = None) -> Refusal:
    """The refusal of a number, of its own class where there is one."""
    return _CLASSES.get(number, Refusal)(number, path)


def answered(number: int, path: Optional[str] = None) -> None:
    """Raises the refusal of an answer, unless it is 0."""
    if number == 0:
        return
    if number not in SENTENCES:
        raise RuntimeError(f"the shared library gave the answer {number}, which is none")
    raise refusal(number, path)
