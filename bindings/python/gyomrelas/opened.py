"""An image in buffers of its own, with the library's calls on it."""

from __future__ import annotations

import ctypes
from ctypes import c_uint8, c_uint16, c_uint32, c_uint64
from typing import Any, Callable, Dict, NamedTuple, Optional, Tuple

from . import library
from .arguments import bounded
from .objects import Entry, Kind
from .paths import Path
from .refusals import answered, refusal
from .uncopied import Uncopied

#: The longest listing in bytes that is tried. A file can be made whose listing takes gigabytes; one whose storages are
#: not deeply nested stays far below this.
LONGEST_LISTING = 1 << 26


class Handle(NamedTuple):
    """A stream that was found, to be used later."""

    path: Path
    entry: int
    #: How many streams of that entry number had been removed by then.
    removed: int


class Opened(Uncopied):
    """An image that is opened once, for many calls.

    cfb_opened.h has a duty: from opening to closing nobody but the opened calls writes to the image, to the work buffer
    or to what opening found, and every call is given these three. It is kept so:

    - The three are made here, the image as a copy. No method gives one of them away: what goes in or out is copied. An
      object of this class can be neither copied nor pickled.
    - Before a plain call, which writes to the work buffer and perhaps to the image, what opening found is forgotten.
      The next opened call opens the image again, and so validates it.
    - `cfb_close` is not called. It would do no more than zero the work buffer, which another thread's call may still
      use. The memory is freed when no call has it any more.
    - A `Volume` has the only reference, and lends it to one caller at a time.
    """

    __slots__ = ("_buffers", "_found", "_removed", "edits")

    #: How many edits were made.
    edits: int

    def __init__(self, data: bytes) -> None:
        if len(data) > library.GREATEST_IMAGE:
            raise refusal(library.BAD_LENGTH)
        image = (c_uint8 * len(data)).from_buffer_copy(data)
        work = (c_uint32 * library.work_need(len(data)))()
        self._buffers = (image, len(image), work, len(work))
        self._found: Optional[library.Found] = None
        self._removed: Dict[int, int] = {}
        self.edits = 0
        self._open()

    def _open(self) -> Tuple[Any, ...]:
        """The first arguments of an opened call."""
        if self._found is None:
            found = library.Found()
            answered(library.open_volume(*self._buffers, found))
            self._found = found
        return (*self._buffers, self._found)

    def _plain(self) -> Tuple[Any, ...]:
        """The first arguments of a plain call, before which what opening found is forgotten."""
        self._found = None
        return self._buffers

    def _edit(self, call: Callable[..., int], buffers: Tuple[Any, ...], path: Path, *others: Any) -> None:
        """Makes an edit. It is counted first, so that one that is interrupted counts; one that is refused does not."""
        self.edits += 1
        answer = call(*buffers, path.units, len(path.units), *others)
        if answer != 0:
            self.edits -= 1
        answered(answer, path.text)

    def tobytes(self) -> bytes:
        return bytes(self._buffers[0])

    def find(self, path: Path) -> Entry:
        number, kind, size = c_uint32(), c_uint32(), c_uint64()
        answered(library.find(*self._open(), path.units, len(path.units), number, kind, size), path.text)
        return Entry(number.value, Kind(kind.value), size.value)

    def read_at(self, entry: int, position: int, length: int, path: Optional[str] = None) -> bytes:
        """Up to so many bytes of the stream that has an entry number."""
        length = min(length, self._buffers[1])
        out, count = (c_uint8 * length)(), c_uint64()
        answer = library.read_at(*self._open(), bounded(entry, 32), bounded(position, 64), out, length, count)
        answered(answer, path)
        return ctypes.string_at(out, count.value)

    def listing(self) -> bytes:
        length, answer = 2048, library.OUT_TOO_SHORT
        while answer == library.OUT_TOO_SHORT and length < LONGEST_LISTING:
            length *= 2
            out, count = (c_uint8 * length)(), c_uint64()
            answer = library.listing(*self._open(), out, length, count)
        answered(answer)
        return ctypes.string_at(out, count.value)

    def overwrite(self, path: Path, offset: int, data: bytes) -> None:
        self._edit(library.overwrite, self._open(), path, bounded(offset, 64), data, len(data))

    def set_len(self, path: Path, length: int) -> None:
        self._edit(library.set_len, self._open(), path, bounded(length, 64))

    def create_stream(self, path: Path) -> None:
        self._edit(library.create_stream, self._open(), path)

    def create_storage(self, path: Path) -> None:
        self._edit(library.create_storage, self._open(), path)

    def remove(self, path: Path) -> None:
        entry = self.find(path)
        # before the call: if it is interrupted, a handle is invalid too early rather than too late
        self._removed[entry.number] = self._removed.get(entry.number, 0) + 1
        self._edit(library.remove, self._open(), path)

    def handle(self, path: Path) -> Handle:
        """A handle of the stream at a path."""
        entry = self.find(path)
        if entry.kind != Kind.STREAM:
            raise refusal(library.NOT_A_STREAM, path.text)
        return Handle(path, entry.number, self._removed.get(entry.number, 0))

    def size(self, handle: Handle) -> int:
        """The length of a handle's stream. Refused (33) once it is removed, whatever has its entry or path now."""
        if self._removed.get(handle.entry, 0) != handle.removed:
            raise refusal(library.BAD_ENTRY, handle.path.text)
        return self.find(handle.path).size

    def validate(self) -> None:
        answered(library.validate(*self._plain()))

    def repair(self) -> int:
        """Gives the number of changes."""
        length = self._buffers[1]
        changed = c_uint64()
        answered(library.repair(*self._plain(), (c_uint8 * length)(), length, changed))
        self.edits += changed.value != 0
        return changed.value

    def pulse_summary(self, path: Path) -> Tuple[int, int]:
        count, total = c_uint32(), c_uint64()
        answered(library.pulse_summary(*self._plain(), path.units, len(path.units), count, total), path.text)
        return count.value, total.value

    def pulse_record(self, path: Path, number: int) -> Tuple[int, int]:
        valve, ticks = c_uint16(), c_uint32()
        arguments = (path.units, len(path.units), bounded(number, 32), valve, ticks)
        answered(library.pulse_record(*self._plain(), *arguments), path.text)
        return valve.value, ticks.value

    def pulse_add(self, path: Path, valve: int, ticks: int) -> None:
        self._edit(library.pulse_add, self._plain(), path, valve, ticks)
