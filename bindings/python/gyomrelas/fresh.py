"""Fresh files."""

from __future__ import annotations

import errno
import os
from ctypes import c_uint8
from typing import NamedTuple, Optional, SupportsIndex, Union

from . import library
from .arguments import bounded
from .disk import Place
from .file import CompoundFile
from .refusals import answered, refusal

#: The FAT sectors that the header itself lists.
_HEADER_DIFAT = 109


class Plan(NamedTuple):
    """The parts of a fresh file. None of these numbers changes as long as it lives."""

    #: 3, with sectors of 512 bytes, or 4, with sectors of 4,096.
    version: int
    #: How many sectors there are. The file's length is one more.
    sectors: int
    #: How many of them the directory has, with 4 entries each, in version 4 with 32: one is the root's.
    directory_sectors: int
    #: How many of them the mini FAT has, with the cells of 128 mini sectors each, in version 4 of 1,024.
    mini_fat_sectors: int
    #: How many mini sectors there are, of 64 bytes each, for the streams of fewer than 4,096 bytes.
    mini_sectors: int

    @classmethod
    def for_size(cls, version: int, size: int, objects: int, small_bytes: int) -> Plan:
        """A plan for a file of so many bytes, with room for so many streams and storages, of which the streams of fewer
        than 4,096 bytes have up to `small_bytes` together, however these are spread.

        Nothing is larger than that asks for; all other sectors are free for streams of 4,096 bytes and more. Refused:
        1, where the version has no such size; and 32, where no plan has the room.

        >>> Plan.for_size(3, 65_536, objects=10, small_bytes=2_000)
        Plan(version=3, sectors=127, directory_sectors=3, mini_fat_sectors=1, mini_sectors=41)
        """
        sector = _sector_bytes(version)
        if size % sector != 0 or not 3 * sector <= size <= library.GREATEST_IMAGE:
            raise refusal(library.BAD_LENGTH)
        mini_sectors = _mini_sectors(bounded(objects, 64), bounded(small_bytes, 64))
        plan = cls(
            version=version,
            sectors=size // sector - 1,
            # the root has an entry too
            directory_sectors=objects // (sector // 128) + 1,
            mini_fat_sectors=_up(mini_sectors, sector // 4),
            mini_sectors=mini_sectors,
        )
        if plan.free_sectors is None:
            raise refusal(library.PLAN_DOES_NOT_FIT)
        return plan

    @property
    def free_sectors(self) -> Optional[int]:
        """How many sectors are free, for streams of 4,096 bytes and more; None where the parts do not fit (32)."""
        sector = _sector_bytes(self.version)
        cells = sector // 4
        enough_cells = self.mini_sectors <= self.mini_fat_sectors * cells
        if self.version not in (3, 4) or self.directory_sectors == 0 or not enough_cells:
            return None
        fat = _up(self.sectors, cells)
        # the last number of a DIFAT sector is a link
        difat = _up(max(fat - _HEADER_DIFAT, 0), cells - 1)
        mini_stream = _up(self.mini_sectors, sector // 64)
        free = self.sectors - fat - difat - self.directory_sectors - self.mini_fat_sectors - mini_stream
        return free if free >= 0 else None

    def image(self) -> bytes:
        """The fresh file's bytes. Refused: 1 and 32."""
        length = (bounded(self.sectors, 64) + 1) * _sector_bytes(self.version)
        if length > library.GREATEST_IMAGE:
            raise refusal(library.BAD_LENGTH)
        image = (c_uint8 * length)()
        sizes = (bounded(number, 64) for number in self[1:])
        answered(library.format_image(image, length, bounded(self.version, 32), *sizes))
        return bytes(image)


def new(
    size: SupportsIndex = 1 << 20,
    *,
    version: int = 3,
    objects: Optional[int] = None,
    small_bytes: Optional[int] = None,
    plan: Optional[Plan] = None,
) -> CompoundFile:
    """A fresh file in memory, with nothing in it, of so many bytes or by a plan. `save` writes it to a path.

    Its parts never grow. Where nothing is said, it has entries for so many objects as fill a 16th of the file, and an
    8th of it for streams of fewer than 4,096 bytes. Refused: 1 and 32.

    >>> file = new(65_536, objects=10, small_bytes=2_000)
    >>> file.create_stream("note")
    >>> file.openstream("note").write(b"hello\\n")
    6
    >>> file.listdir()
    [['note']]
    """
    if plan is None:
        length, sector = bounded(size, 64), _sector_bytes(version)
        sectors = length // sector - 1
        if objects is None:
            objects = max(sectors // 16, 1) * (sector // 128) - 1
        if small_bytes is None:
            small_bytes = sectors // 8 * sector
        plan = Plan.for_size(version, length, objects, small_bytes)
    return CompoundFile(plan.image())


def create(
    path: Union[str, "os.PathLike[str]"],
    size: SupportsIndex = 1 << 20,
    *,
    version: int = 3,
    objects: Optional[int] = None,
    small_bytes: Optional[int] = None,
    plan: Optional[Plan] = None,
) -> CompoundFile:
    """A fresh file for a path at which nothing is, as `new` gives it.

    It is written by `save`, and at the end of a `with` block that has no exception. Something that is there by then
    is a FileExistsError, too, and stays.
    """
    text = os.fsdecode(path)
    if os.path.lexists(text):
        raise FileExistsError(errno.EEXIST, os.strerror(errno.EEXIST), text)
    file = new(size, version=version, objects=objects, small_bytes=small_bytes, plan=plan)
    file._place = Place(text, None)
    # what is fresh is not saved, even where nothing is edited
    file._saved = -1
    return file


def _sector_bytes(version: int) -> int:
    """An unknown version has the lengths of version 3."""
    return 4096 if version == 4 else 512


def _up(number: int, divisor: int) -> int:
    return -(-number // divisor)


def _mini_sectors(objects: int, small_bytes: int) -> int:
    """The most that streams of fewer than 4,096 bytes can need: each begins a mini sector with its first byte, and
    another one with every 64 bytes more, up to 64 of them."""
    streams = min(objects, small_bytes)
    return min(streams + (small_bytes - streams) // 64, objects * 64)
