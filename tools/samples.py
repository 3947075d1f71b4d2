#!/usr/bin/env python3
"""Writes the sample files and what the lister must print for them, and what `cfbls` and `samples_run` read and must print in the gate.

Listings come from a plan or from a plain reader, refusals from the tables in printed.py and others.py; nothing is asked of the library."""
import os
import struct
import expected
import printed
from images import V4
from plain import Reader
from plans import Plan

top = os.path.join(os.path.dirname(os.path.abspath(__file__)), "..")
samples, documents, programs = (os.path.join(top, "samples", f) for f in ("", "documents", "programs"))


def text(line, count):
    """So many bytes of a line repeated."""
    return (line.encode() * (count // len(line) + 1))[:count]


def write(path, content):
    with open(os.path.join(top, path), "wb") as f:
        f.write(content)
    print(path, len(content), "bytes")


def read(folder, name):
    with open(os.path.join(folder, name), "rb") as f:
        return f.read()


tree = {"Site": {"log": text("line 7 of the site's log\n", 5000), "Jets": text("jet 12 opens\n", 70)}}
site, site4 = Plan(tree), Plan(tree, g=V4)
nested = Plan({
    "Pumps": {"Nord": {"gauge": text("0123456789", 4095), "valve": b""}, "Süd": {}},
    "Timing": text("tick\n", 4096),
    "note": b"Read me first.\n",
}, free=3, free_minis=2)
plans = {"site.cfb": site, "nested.cfb": nested, "site4.cfb": site4}

# 01 gives this listing, whole
assert site.listing == site4.listing == b"objects 3\nD 0 Site\nF 5000 Site/log\nF 70 Site/Jets\n"
for name, plan in plans.items():
    assert Reader(plan.image).listing() == plan.listing
    write("samples/" + name, plan.image)
expected.save(samples, {name: plan.listing for name, plan in plans.items()})
for name, image, _ in printed.IMAGES:
    write("samples/documents/" + name, image)
expected.save(documents, {name: expected.output(image, answer) for name, image, answer in printed.IMAGES})
with open(os.path.join(documents, "SOURCES"), "w") as f:
    f.write("document\tfirst\tlast\tsource\n")
    for document, pieces in ("001", printed.DOC001), ("003", printed.DOC003):
        f.writelines("%s\t%03X\t%03X\t%s\n" % (document, a, b, source) for a, b, source in printed.ranges(pieces))

write("crates/cfbls/stdin", site.image)
write("crates/cfbls/stdout", site.listing)
runs = [(read(folder, name), out) for folder in (samples, documents, programs) for name, out in expected.load(folder).items()
        if os.path.exists(os.path.join(folder, name))]
write("crates/samples_run/stdin", b"".join(struct.pack("<I", len(image)) + image for image, _ in runs))
write("crates/samples_run/stdout", b"".join(out for _, out in runs))
print(len(runs), "files")
