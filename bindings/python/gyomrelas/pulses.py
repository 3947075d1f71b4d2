"""Pulse streams: streams that keep which valve was open for how long, in ticks of 0.1 ms."""

from __future__ import annotations

import io
import struct
from dataclasses import dataclass
from typing import Iterator, NamedTuple, SupportsIndex

from .arguments import bounded, exact
from .paths import Path
from .volume import Volume

#: The trailer of no records. A stream that ends with these bytes is a pulse stream.
NO_RECORDS = bytes([16]) + bytes(15)

_RECORD = struct.Struct("<HHI")


@dataclass(frozen=True)
class Totals:
    """What a summary gives."""

    #: How many records there are.
    count: int
    #: The ticks of all of them.
    total: int


class Pulse(NamedTuple):
    """What a record holds."""

    valve: int
    ticks: int


class Pulses:
    """The pulses of the stream that is at a path when a call is made, as `CompoundFile.pulses` gives them.

    Each call validates the whole image, and looks at all records: it is refused (40) where they and the trailer
    disagree, and for what every call on a stream is refused for (20 to 23).

    >>> from gyomrelas import NO_RECORDS, open
    >>> file = open("samples/site.cfb", "r+")
    >>> file.overwrite("Site/log", 5000 - 16, NO_RECORDS)
    >>> pulses = file.pulses("Site/log")
    >>> pulses.add(12, 25)
    >>> pulses.add(valve=3, ticks=400)
    >>> sums = pulses.summary()
    >>> print(f"{sums.count} pulses of {sums.total} ticks, the last of valve {pulses.record(1).valve}")
    2 pulses of 425 ticks, the last of valve 3
    >>> list(pulses)
    [Pulse(valve=12, ticks=25), Pulse(valve=3, ticks=400)]
    """

    def __init__(self, volume: Volume, path: Path, writable: bool) -> None:
        self._volume = volume
        self._path = path
        self._writable = writable

    def summary(self) -> Totals:
        """How many records there are, and the total of their ticks."""
        with self._volume.held() as opened:
            return Totals(*opened.pulse_summary(self._path))

    def record(self, number: SupportsIndex) -> Pulse:
        """The record of a number, from 0. Refused (42) where there is none."""
        with self._volume.held() as opened:
            return Pulse(*opened.pulse_record(self._path, bounded(number, 32)))

    def __iter__(self) -> Iterator[Pulse]:
        """The records that there are now, read at once."""
        with self._volume.held() as opened:
            count, _ = opened.pulse_summary(self._path)
            handle = opened.handle(self._path)
            # they stand before the trailer of 16 bytes
            start = opened.size(handle) - 16 - _RECORD.size * count
            records = opened.read_at(handle.entry, start, _RECORD.size * count, self._path.text)
        return (Pulse(valve, ticks) for valve, _, ticks in _RECORD.iter_unpack(records))

    def add(self, valve: SupportsIndex, ticks: SupportsIndex) -> None:
        """Adds a record behind the others, or nothing. Refused (41) for no ticks, then (26) where there is no room.

        A valve is a number of 16 bits and ticks one of 32; others are a ValueError.
        """
        pulse = Pulse(exact(valve, 16), exact(ticks, 32))
        with self._volume.held() as opened:
            if not self._writable:
                raise io.UnsupportedOperation('the file is open for reading: open it in mode "r+" to add pulses')
            opened.pulse_add(self._path, *pulse)
