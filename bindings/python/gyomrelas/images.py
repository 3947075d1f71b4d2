"""Images that are looked at or repaired without being opened."""

from __future__ import annotations

from ctypes import c_uint8, c_uint32, c_uint64
from typing import TYPE_CHECKING, NamedTuple

from . import library
from .arguments import content
from .refusals import answered, refusal

if TYPE_CHECKING:
    from _typeshed import ReadableBuffer


class Repaired(NamedTuple):
    """What a repair gives."""

    #: The image, accepted now.
    data: bytes
    #: How many cells and colours differ.
    changed: int


def validate(data: ReadableBuffer) -> None:
    """Asks whether bytes are a file that keeps every rule. Refused: 1, and 10 to 18, the first group that is broken."""
    piece = image_of(data)
    work = (c_uint32 * library.work_need(len(piece)))()
    image = (c_uint8 * len(piece)).from_buffer_copy(piece)
    answered(library.validate(image, len(image), work, len(work)))


def repair(data: ReadableBuffer) -> Repaired:
    """Repairs a file that a power cut has bent, and gives it anew.

    Cells of FAT and mini FAT that stand for nothing, or for what nobody owns, become free, and colours become black.
    Nothing else is touched. Refused: 1, and 10 to 18 for a group that is broken still.

    >>> from pathlib import Path
    >>> bent = bytearray(Path("samples/site.cfb").read_bytes())
    >>> bent[1020] = 5  # a cell of the FAT that stands for no sector, and should be free
    >>> try:
    ...     validate(bent)
    ... except OSError as refusal:
    ...     print(refusal)
    refused 12: the image breaks a rule on the tables' cells
    >>> repair(bent).changed
    1
    """
    piece = image_of(data)
    length = len(piece)
    image, spare = (c_uint8 * length).from_buffer_copy(piece), (c_uint8 * length)()
    work = (c_uint32 * library.work_need(length))()
    changed = c_uint64()
    answered(library.repair(image, length, work, len(work), spare, length, changed))
    return Repaired(bytes(image), changed.value)


def image_of(data: ReadableBuffer) -> bytes:
    """The bytes of an image. Where there are more than the library takes, they are not copied first."""
    if memoryview(data).nbytes > library.GREATEST_IMAGE:
        raise refusal(library.BAD_LENGTH)
    return content(data)
