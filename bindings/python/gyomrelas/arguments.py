"""What the caller gives, made ready for C, where a number that is too large would be cut silently."""

from __future__ import annotations

import operator
from typing import TYPE_CHECKING, SupportsIndex

if TYPE_CHECKING:
    from _typeshed import ReadableBuffer


def bounded(number: SupportsIndex, bits: int) -> int:
    """A number that is not negative, at most the greatest of so many bits.

    Of offsets, lengths, entry numbers and record numbers the greatest is refused just like any larger one, since no
    image has more than 64 MiB.
    """
    value = operator.index(number)
    if value < 0:
        raise ValueError("a negative number")
    return min(value, (1 << bits) - 1)


def exact(number: SupportsIndex, bits: int) -> int:
    """A number that has to fit into so many bits."""
    value = operator.index(number)
    if not 0 <= value < 1 << bits:
        raise ValueError(f"a number from 0 to {(1 << bits) - 1:,} is needed")
    return value


def content(data: ReadableBuffer) -> bytes:
    """The bytes of an object as they are now, so that nobody changes them during a call."""
    return data if type(data) is bytes else memoryview(data).tobytes()
