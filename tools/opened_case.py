#!/usr/bin/env python3
"""Writes what the program `opened_run` reads, the sample site.cfb with rubbish in the upper half of its sizes, and what it must print.

The answers stand here as 01 and 02 give them. The image after the edits is worked out by `edits.py`, the stream's bytes by the edits made, and the
listing is a plain reader's; nothing is asked of the library."""
import os
from edits import Edited
from groups import ROOT, STREAM, digest
from images import put
from plain import Reader

NEW, OFFSET, BYTES, ROOM = 4150, 4090, b"[over the end of a sector]", 64

top = os.path.join(os.path.dirname(os.path.abspath(__file__)), "..")
with open(os.path.join(top, "samples", "site.cfb"), "rb") as f:
    site = f.read()
for i, e in enumerate(Reader(site).entries):
    if e[66] in (ROOT, STREAM):
        site = put(site, (Edited(site).entry_at(i) + 124, 0x80000001))
need = 13 * (len(site) // 512)
reader = Reader(site)
log = dict(reader.objects())["Site/log"]
entry, row = reader.entries.index(log), reader.stream(log)

# ---- the edits: one sector of the stream becomes free, and the bytes go over the end of another
edited = Edited(site)
assert (len(row), edited.set_length(entry, NEW), edited.overwrite(entry, OFFSET, BYTES)) == (5000, 0, 0)
image = bytes(edited.bytes)
# the rubbish above the new length is gone, that of the root and the other stream is left
assert sorted(edited.upper(i) for i in range(4)) == [0, 0, 0x80000001, 0x80000001] and edited.upper(entry) == 0
row = row[:OFFSET] + BYTES + row[OFFSET + len(BYTES):NEW]
assert row == Reader(image).stream(Reader(image).entries[entry])
listing = Reader(image).listing()
read = row[OFFSET:OFFSET + ROOM]


def run(answers, out, text, zeros):
    """A run's lines: the answers, both out buffers, which hold dots behind these bytes, and how work buffer and image are left."""
    left = [b.ljust(ROOM, b".").decode() for b in (out, text)]
    return "".join(line + "\n" for line in answers + left + ["zeros %d" % zeros, "image %d" % digest(image)])


made = ["length 0", "overwrite 0", "find 0 %d %d %d" % (entry, STREAM, NEW), "read 0 %d" % len(read), "list 0 %d" % len(listing)]
missing = ["length 21", "overwrite 21", "find 21", "read 21", "list 0 %d" % len(listing)]
lines = run(made, read, listing, need) + run(missing, b"", listing, need) + run(["refused 2"], b"", b"", 0)
for name, content in ("stdin", site), ("stdout", lines.encode()):
    with open(os.path.join(top, "crates", "opened_run", name), "wb") as f:
        f.write(content)
print(lines, end="")
