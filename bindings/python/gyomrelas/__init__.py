"""Compound files (MS-CFB, versions 3 and 4), by a library in which every function is proved.

>>> import gyomrelas
>>> with gyomrelas.open("samples/site.cfb") as file:
...     for item in file:
...         print(item.kind.name, item.size, item.path)
...     print(file.read_bytes("Site/log")[:25])
STORAGE 0 Site
STREAM 5000 Site/log
STREAM 70 Site/Jets
b"line 7 of the site's log\\n"

In mode "r+" a file is edited in memory. At the end of the block it is written whole, or, after an exception, not at
all. What the library does is proved; this package around it is ordinary Python, and tested.
"""

from .file import CompoundFile, isOleFile, open
from .fresh import Plan, create, new
from .images import Repaired, repair, validate
from .library import GREATEST_IMAGE
from .objects import Entry, Kind, Object
from .pulses import NO_RECORDS, Pulse, Pulses, Totals
from .refusals import AlreadyThere, NotAStream, NotFound, Refusal, StreamOnTheWay
from .stream import Stream

__version__ = "0.1.0"

__all__ = [
    "AlreadyThere",
    "CompoundFile",
    "Entry",
    "GREATEST_IMAGE",
    "Kind",
    "NO_RECORDS",
    "NotAStream",
    "NotFound",
    "Object",
    "Plan",
    "Pulse",
    "Pulses",
    "Refusal",
    "Repaired",
    "Stream",
    "StreamOnTheWay",
    "Totals",
    "create",
    "isOleFile",
    "new",
    "open",
    "repair",
    "validate",
]
