"""Paths as the caller gives them, and as the library takes them."""

from __future__ import annotations

from ctypes import Array, c_uint16
from typing import NamedTuple, Sequence, Union

from .library import BAD_PATH
from .refusals import refusal

#: Names parted by "/", or a list of names. The empty one is the root.
PathLike = Union[str, Sequence[str]]


class Path(NamedTuple):
    """A path, as text and in the units of UTF-16."""

    text: str
    units: "Array[c_uint16]"


def path_of(given: PathLike) -> Path:
    """The path that the caller means.

    Names may hold halves of surrogate pairs, as those of a file may. A name of a list is one name: one that is empty or
    has a "/" in it is refused (20), and not taken for none or two.
    """
    if isinstance(given, str):
        text = given
    else:
        names = list(given)
        if not all(isinstance(name, str) for name in names):
            raise TypeError("a path is a str, or a list of names that are str")
        text = "/".join(names)
        if not all(names) or any("/" in name for name in names):
            raise refusal(BAD_PATH, text)
    encoded = text.encode("utf-16-le", "surrogatepass")
    return Path(text, (c_uint16 * (len(encoded) // 2)).from_buffer_copy(encoded))


def text_of(listed: str) -> str:
    """The path that a line of a listing spells: a `\\` and four digits of base 16 are a unit of UTF-16."""
    first, *others = listed.split("\\")
    encoded = first.encode("utf-16-le")
    for part in others:
        encoded += int(part[:4], 16).to_bytes(2, "little") + part[4:].encode("utf-16-le")
    return encoded.decode("utf-16-le", "surrogatepass")
