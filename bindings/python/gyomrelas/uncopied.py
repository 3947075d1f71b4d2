"""Objects of which there is one."""

from __future__ import annotations

from typing import Any, SupportsIndex


class Uncopied:
    """A base of classes whose objects can be neither copied nor pickled."""

    __slots__ = ()

    def __reduce_ex__(self, protocol: SupportsIndex) -> Any:
        raise TypeError(f"a {type(self).__name__} can be neither copied nor pickled")
