"""Where the shared library is looked for."""

from __future__ import annotations

import ctypes
import ctypes.util
import os
from pathlib import Path
from typing import Iterator

#: The name by which the system's loader knows the library.
SONAME = "libcfb.so.0"


def load() -> ctypes.CDLL:
    """The shared library, from the first place that has it.

    The places are: the file that the environment variable CFB_LIBRARY names; libcfb.so beside this module; the
    repository's target/shared/libcfb.so, where the package is used from a checkout; and those of the system's loader.
    """
    named = os.environ.get("CFB_LIBRARY")
    if named:
        try:
            return ctypes.CDLL(named)
        except OSError as error:
            raise ImportError(f"CFB_LIBRARY has to name the shared library libcfb.so: {error}") from None
    for place in _places():
        try:
            return ctypes.CDLL(place)
        except OSError:
            continue
    raise ImportError(
        "the shared library libcfb.so is not found: build it by tools/shared in the repository of Gyomrelas, and put it"
        " on the loader's path or name it, with its whole path, in the environment variable CFB_LIBRARY"
    )


def _places() -> Iterator[str]:
    here = Path(__file__).resolve().parent
    if (here / "libcfb.so").is_file():
        yield str(here / "libcfb.so")
    if here.parts[-3:-1] == ("bindings", "python"):
        built = here.parents[2] / "target" / "shared" / "libcfb.so"
        if built.is_file():
            yield str(built)
    yield SONAME
    found = ctypes.util.find_library("cfb")
    if found:
        yield found
