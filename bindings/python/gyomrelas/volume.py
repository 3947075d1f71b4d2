"""An opened image that one caller has at a time."""

from __future__ import annotations

import os
import threading
from contextlib import contextmanager
from typing import Iterator, Optional

from .opened import Opened
from .uncopied import Uncopied


class Volume(Uncopied):
    """Lends an `Opened` to one caller at a time, until it is closed.

    - C runs without the interpreter's lock, so threads wait for each other here.
    - A signal handler or a finalizer may run in the middle of a call, in the same thread. What it calls then is an
      error.
    - A process that was forked has a copy of the image that may be in the middle of an edit. It cannot use the copy.
    - Closing forgets the image. A call of another thread that is under way still has it, and ends as it would.
    """

    __slots__ = ("_opened", "_lock", "_busy", "_process")

    def __init__(self, data: bytes) -> None:
        self._opened: Optional[Opened] = Opened(data)
        self._lock = threading.RLock()
        self._busy = False
        self._process = os.getpid()

    @contextmanager
    def held(self) -> Iterator[Opened]:
        """The opened image, for the block alone."""
        if not self.here:
            raise ValueError("the file was opened in another process: it has to be opened again in this one")
        with self._lock:
            if self._busy:
                raise RuntimeError("a call of this file was interrupted, and this is a call of it from there")
            opened = self._opened
            if opened is None:
                raise ValueError("the file is closed")
            self._busy = True
            try:
                yield opened
            finally:
                self._busy = False

    @property
    def here(self) -> bool:
        """Whether this is the process that opened it."""
        return os.getpid() == self._process

    @property
    def closed(self) -> bool:
        return self._opened is None

    def close(self) -> None:
        self._opened = None
