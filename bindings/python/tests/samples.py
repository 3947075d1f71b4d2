"""The samples, and what is known of them: a storage Site with the streams log and Jets, and no free sector."""

from __future__ import annotations

import runpy
import struct
import unittest
from pathlib import Path
from typing import Any, Callable, Dict, List, Optional, Tuple

from gyomrelas import CompoundFile, Refusal
from gyomrelas.paths import text_of

ROOT = Path(__file__).resolve().parents[3]
FOLDER = ROOT / "samples"
LOG = (b"line 7 of the site's log\n" * 200)[:5000]
JETS = (b"jet 12 opens\n" * 6)[:70]
SITES = ("site.cfb", "site4.cfb")

#: Where things stand in site.cfb.
FAT = 512
MINI_FAT = 11 * 512
ROOT_ENTRY = 4 * 512
LOG_ENTRY = ROOT_ENTRY + 2 * 128
JETS_ENTRY = ROOT_ENTRY + 3 * 128

_END = 0xFFFFFFFE
_NONE = 0xFFFFFFFF

#: For each group of rules what breaks one of them in site.cfb: places and 32-bit numbers.
BREAKS: Dict[int, List[Tuple[int, int]]] = {
    10: [(0, 0)],  # the signature
    11: [(44, 0)],  # no FAT sector
    12: [(FAT + 4, 1000)],  # a sector behind the image
    13: [(48, _END)],  # no directory
    14: [(ROOT_ENTRY + 68, 1)],  # a sibling of the root
    15: [(ROOT_ENTRY + 76, _NONE)],  # nothing below the root
    16: [(ROOT_ENTRY + 120, 127)],  # half a mini sector
    17: [(LOG_ENTRY + 120, 5121)],  # a sector more than its chain has
    18: [(JETS_ENTRY + 120, 64), (MINI_FAT + 4, _END)],  # a mini sector that nobody owns
}


def sample(name: str = "site.cfb") -> bytes:
    return (FOLDER / name).read_bytes()


def site(name: str = "site.cfb") -> CompoundFile:
    """A sample, to be edited."""
    return CompoundFile(sample(name))


def broken(number: int) -> bytes:
    """The sample with a rule of a group broken."""
    image = bytearray(sample())
    for place, value in BREAKS[number]:
        struct.pack_into("<I", image, place, value)
    return bytes(image)


def places(image: bytes) -> Tuple[int, int, int]:
    """Where FAT and directory of a sample stand, and how many cells the FAT's one sector has."""
    sector = 1 << image[30]
    fat, directory = (sector * (struct.unpack_from("<I", image, at)[0] + 1) for at in (76, 48))
    return fat, directory, sector // 4


def reddened(image: bytes) -> bytes:
    """A sample in which log or Jets is red, whichever is not the top of their tree."""
    _, directory, _ = places(image)
    top = struct.unpack_from("<I", image, directory + 128 + 76)[0]
    red = bytearray(image)
    red[directory + 128 * (5 - top) + 67] = 0
    return bytes(red)


def read_plainly(image: bytes) -> Dict[str, Optional[bytes]]:
    """The bytes of every stream, and None for a storage, by a reader that is not the library's (tools/plain.py)."""
    reader = runpy.run_path(str(ROOT / "tools" / "plain.py"))["Reader"](image)
    return {text_of(path): reader.stream(entry) if entry[66] == 2 else None for path, entry in reader.objects()}


class Case(unittest.TestCase):
    def refused(self, number: int, call: Callable[..., Any], *arguments: Any, **named: Any) -> Refusal:
        """That a call is refused with a number."""
        with self.assertRaises(Refusal) as caught:
            call(*arguments, **named)
        self.assertEqual(caught.exception.number, number, (call, arguments))
        return caught.exception
