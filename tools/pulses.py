"""Pulse streams (02, W-208): any preamble, records of 8 bytes, a trailer of 16."""
import struct

RECORD, TRAILER = 8, 16


def record(valve, ticks, zero=0):
    return struct.pack("<HHI", valve, zero, ticks)


def trailer(count, total, distance=None):
    """With the distance that goes with the count, or another."""
    return struct.pack("<IIQ", TRAILER + RECORD * count if distance is None else distance, count, total)


def end(pulses):
    """All of a stream but its preamble, for these valves and ticks."""
    return b"".join(record(v, t) for v, t in pulses) + trailer(len(pulses), sum(t for _, t in pulses))


def added(stream, valve, ticks):
    """The last 24 bytes of a pulse stream after an addition: the record, and the trailer with one more and its ticks more."""
    _, count, total = struct.unpack("<IIQ", stream[-TRAILER:])
    return record(valve, ticks) + trailer(count + 1, total + ticks)
