"""The C functions of the shared library, as include/cfb.h, cfb_opened.h and pulse.h declare them.

A pointer argument takes an array or a variable of ctypes, whose address is passed. The interpreter's lock is released
during each call.
"""

from __future__ import annotations

from ctypes import POINTER, Structure, c_char_p, c_size_t, c_uint8, c_uint16, c_uint32, c_uint64
from typing import Any, Callable, Tuple

from .search import load

#: The longest image, in bytes.
GREATEST_IMAGE = 67_108_864

#: The answers that this package looks for; any other but 0 just becomes a refusal.
BAD_LENGTH = 1
BAD_PATH = 20
NOT_FOUND = 21
STREAM_ON_THE_WAY = 22
NOT_A_STREAM = 23
OUT_TOO_SHORT = 27
PLAN_DOES_NOT_FIT = 32
BAD_ENTRY = 33


def work_need(image_len: int) -> int:
    """How many 32-bit numbers the work buffer needs for an image of so many bytes."""
    return 13 * (image_len // 512)


class Found(Structure):
    """What opening found (cfb_volume): for the calls alone."""

    _fields_ = [("numbers", c_uint64 * 9)]


_library = load()


def _function(name: str, *arguments: Any) -> Callable[..., int]:
    """A function that gives the number of an answer."""
    try:
        function = getattr(_library, name)
    except AttributeError:
        raise ImportError(f"the shared library {_library._name} has no {name}: it is another or older one") from None
    function.argtypes = arguments
    function.restype = c_uint32
    result: Callable[..., int] = function
    return result


_Arguments = Tuple[Any, ...]
_bytes: _Arguments = (POINTER(c_uint8), c_size_t)
_image_and_work: _Arguments = (*_bytes, POINTER(c_uint32), c_size_t)
_path: _Arguments = (POINTER(c_uint16), c_size_t)
_count: Any = POINTER(c_uint64)
_opened: _Arguments = (*_image_and_work, POINTER(Found))

validate = _function("cfb_validate", *_image_and_work)
format_image = _function("cfb_format", *_bytes, c_uint32, c_uint64, c_uint64, c_uint64, c_uint64)
repair = _function("cfb_repair", *_image_and_work, *_bytes, _count)

open_volume = _function("cfb_open", *_opened)
find = _function("cfb_opened_find", *_opened, *_path, POINTER(c_uint32), POINTER(c_uint32), POINTER(c_uint64))
read_at = _function("cfb_opened_read_at", *_opened, c_uint32, c_uint64, *_bytes, _count)
overwrite = _function("cfb_opened_overwrite", *_opened, *_path, c_uint64, c_char_p, c_size_t)
set_len = _function("cfb_opened_set_len", *_opened, *_path, c_uint64)
create_stream = _function("cfb_opened_create_stream", *_opened, *_path)
create_storage = _function("cfb_opened_create_storage", *_opened, *_path)
remove = _function("cfb_opened_remove", *_opened, *_path)
listing = _function("cfb_opened_list", *_opened, *_bytes, _count)

pulse_summary = _function("pulse_summary", *_image_and_work, *_path, POINTER(c_uint32), POINTER(c_uint64))
pulse_record = _function("pulse_record", *_image_and_work, *_path, c_uint32, POINTER(c_uint16), POINTER(c_uint32))
pulse_add = _function("pulse_add", *_image_and_work, *_path, c_uint16, c_uint32)
