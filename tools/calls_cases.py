#!/usr/bin/env python3
"""Writes the calls that the program `calls_run` makes, and the lines that it must print.

Every answer stands here, or in the modules `*_cases.py` that it takes groups from, as 01 and 02 give it; values and bytes come from the
plan of the image and from the edits made, and images after edits from `edits.py`. Nothing is asked of the library.
`groups.py` says how a call is laid out and what is printed of it."""
import os
import struct
import cursor_cases
import cutoff_cases
import edit_cases
import fresh_cases
import letter_cases
import object_cases
import pulse_cases
import repair_cases
import size_cases
import version4_cases
import version4_images
from groups import CREATE_STORAGE, CREATE_STREAM, FIND, FORMAT, LIST, OVERWRITE, PULSE_ADD, PULSE_RECORD, PULSE_SUMMARY, READ, READ_AT, REMOVE, REPAIR, SET_LENGTH, VALIDATE, Group
from images import END, byte, entry, image, put, root
from plans import Plan, text

plan = Plan({
    "Site": {"log": text(7, 5000), "Jets": text(11, 70), "deep": {"x": b"!", "Deeper": {"a" * 31: text(3, 64)}}},
    "empty": b"",
    "Void": {},
    "edge": text(5, 4095),
    "whole": text(13, 4096),
    "Ärger": text(17, 65),
    "t\x01 ~\x7f": b"",
}, free=5, free_minis=3)
most = 2 ** 64 - 1
g = Group(plan)

# ---- find: the root, storages, streams, letters of either case, a name of 31 units
for path in ["", "Site", "Site/log", "Site/Jets", "Site/deep", "Site/deep/x", "Site/deep/Deeper", "Site/deep/Deeper/" + "a" * 31, "empty", "Void", "edge", "whole", "Ärger", "t\x01 ~\x7f"]:
    g.finds(path)
for path, spelled in [("site/LOG", "Site/log"), ("SITE/jEtS", "Site/Jets"), ("SITE/DEEP/X", "Site/deep/x"), ("site/deep/deeper/" + "A" * 31, "Site/deep/Deeper/" + "a" * 31), ("EMPTY", "empty"), ("ÄRGER", "Ärger"), ("ärger", "Ärger")]:
    g.finds(path, spelled)

# ---- 21: names that are not there
for path in ["gone", "Site/gone", "Site/deep/gone", "Void/gone", "lo", "log", "Site/lo", "Site/logs", "Site/lof", "Site/deep/y", "Arger", "¤rger", "Site ", "{ite", "Site/deep/Deeper/" + "a" * 30, "Root Entry"]:
    g.find(path, 21)
# ---- 22: below a stream; 21 and 22 go by the first name that fails
for path, number in [("Site/log/x", 22), ("empty/x", 22), ("edge/gone", 22), ("Site/LOG/gone/x", 22), ("gone/empty/x", 21), ("empty/gone/x", 22), ("Site/gone/log", 21), ("whole/whole/whole", 22)]:
    g.find(path, number)
# ---- 20: whatever else the path would give
for path in ["/", "//", "/Site", "Site/", "Site//log", "/gone", "gone/", "empty//x", "a" * 32, "Site/" + "a" * 32, "a" * 200, "Si\0te", "\0", "Site/lo\0", "Si\\te", "\\", "Site:log", ":", "gone/a:b", "empty/x/y:", "Site/log/"]:
    g.find(path, 20)
    g.read(path, most, 20)
# ---- 20: the exclamation mark (W-202) at a name's beginning, in its middle and at its end, whatever the names before and behind it would give
for path in ["!", "!Site", "Si!te", "Site!", "!Site/log", "Site!/log", "Site/!", "Site/!log", "Site/lo!g", "Site/log!", "gone/!", "gone/!x", "gone/x!y", "gone/x!", "gone!/log", "empty/!x", "Site/log/x!",
             "a" * 30 + "!", "!" + "a" * 30]:
    g.find(path, 20)
    g.read(path, 0, 20)
    g.read(path, most, 20)
# ---- 21: the units beside it, and those of which it is a half
for path in [" ", '"', '"Site', "Si te", 'Site"', "Site/ log", 'Site/lo"g', "Site/log ", "gone/\"", "Site/lo\u0121", "\u2100", "\u2121"]:
    g.find(path, 21)
    g.read(path, 0, 21)

# ---- read: from the start, within, over the ends of sectors and mini sectors, up to the length
for path, size in [("Site/log", 5000), ("edge", 4095), ("whole", 4096), ("Site/Jets", 70), ("Ärger", 65), ("Site/deep/x", 1), ("empty", 0)]:
    for place in sorted({0, 1, 63, 64, 65, 511, 512, 513, 2500, size - 1, size}):
        if 0 <= place <= size:
            for room in [0, 1, 64, 513, 8192]:
                g.reads(path, place, room)
    g.reads(path, 0, size)
    for place in [size + 1, size + 512, 2 ** 32, 2 ** 32 + 1, 2 ** 63, most]:
        g.read(path, place, 24)
    g.read(path, size + 1, 24, room=0)
g.reads("SITE/LOG", 100, 5000, "Site/log")
# ---- 23 comes before 24; 20, 21 and 22 before 23
for path in ["", "Site", "Void", "Site/deep"]:
    for place in [0, 1, most]:
        g.read(path, place, 23)
for path, number in [("gone", 21), ("Site/gone", 21), ("empty/x", 22), ("gone/empty/x", 21), ("empty/gone/x", 22)]:
    g.read(path, 0, number)
    g.read(path, most, number)

# ---- list: room for exactly the listing, for one byte less, for more
length = len(plan.listing)
for room in [length, length + 1, 8192]:
    g.lists(room)
for room in [length - 1, length // 2, 10, 1, 0]:
    g.list(room, 27)

# ---- the work buffer: enough, one number too few, none; 2 comes before all that a path gives
need = 13 * (len(plan.image) // 512)
for work, number in [(need, 0), (need - 1, 2), (0, 2)]:
    g.call(VALIDATE, number, work=work)
    g.find("gone", 21 if number == 0 else 2, work=work)
    g.find("a//b", 20 if number == 0 else 2, work=work)
    g.read("empty", 1, 24 if number == 0 else 2, work=work)
    g.list(0, 27 if number == 0 else 2, work=work)

# ---- the smallest image: only a root
least = Plan({})
s = Group(least)
s.call(VALIDATE, 0)
s.finds("")
s.find("Root Entry", 21)
s.find("/", 20)
s.read("", 0, 23)
s.lists(10)
s.lists(11)
s.list(9, 27)

# ---- images that are refused: every call answers so, whatever its path
one = image(3, [0], [], [1], [root(1), entry("s", 2)])
broken = [(one[:1535], 1), (b"", 1), (byte(one, 0, 0), 10), (byte(one, 44, 0), 11), (put(one, (512 + 4 * 127, 0)), 12), (byte(one, 48, 0xFE), 13), (byte(one, 1024 + 67, 2), 14),
          (byte(one, 1024 + 76, 9), 15), (put(one, (60, 0)), 16), (put(one, (1024 + 128 + 116, 0)), 17), (put(one, (512 + 4 * 2, END)), 18)]
# a stream and a storage that have the exclamation mark in their names
broken += [(image(3, [0], [], [1], [root(1), entry("!", 2)]), 14), (image(3, [0], [], [1], [root(1), entry("s!", 1)]), 14)]
# a storage and a blank entry that have a byte in the upper half of their size (W-205), where the root and a stream may have it
above = image(3, [0], [], [1], [root(1, size=1 << 32), entry("s", 2, right=2, size=1 << 63), entry("Site", 1)])
broken += [(byte(above, 1024 + 128 * i + at, value), 14) for i in (2, 3) for at, value in [(124, 1), (127, 0x80)]]
groups = [g, s] + edit_cases.groups() + letter_cases.groups() + size_cases.groups() + version4_cases.groups() + cutoff_cases.groups() + object_cases.groups()
groups += fresh_cases.groups() + repair_cases.groups() + cursor_cases.groups() + pulse_cases.groups()
for img, number in broken + version4_images.REFUSED:
    b = Group(img=img)
    b.call(VALIDATE, number)
    for path in ["", "s", "gone", "a//b", "!"]:
        b.find(path, number)
        b.read(path, most, number)
        b.overwrite(path, 0, b"x", number)
        b.resize(path, 4096, number)
    for path in ["", "s", "new", "s/x", "a//b"]:
        b.create(CREATE_STREAM, path, number)
        b.create(CREATE_STORAGE, path, number)
        b.remove(path, number)
    b.list(100, number)
    for e in [0, 1, 2 ** 32 - 1]:
        b.read_at(e, most, number)
        b.read_at(e, 0, 1 if number == 1 else 2, work=0)
    for path in ["", "s", "gone", "a//b"]:
        b.summary(path, number)
        b.record(path, 2 ** 32 - 1, number)
        b.add(path, 1, 0, number)
        b.add(path, 1, 0, 1 if number == 1 else 2, work=0)
    for path in ["", "s"]:
        b.find(path, 1 if number == 1 else 2, work=0)
        b.overwrite(path, 0, b"", 1 if number == 1 else 2, work=0)
        b.resize(path, 0, 1 if number == 1 else 2, work=0)
        b.create(CREATE_STREAM, path, 1 if number == 1 else 2, work=0)
        b.remove(path, 1 if number == 1 else 2, work=0)
    groups.append(b)

# ---- every answer that a call can give is given
every = {0, 1, 2} | set(range(10, 19))
paths = every | {20, 21, 22}
counts = {kind: {} for kind in range(15)}
for x in groups:
    for c, line in zip(x.calls, x.lines):
        number, of_kind = int(line.split()[0]), counts[c[0]]
        of_kind[number] = of_kind.get(number, 0) + 1
for kind, numbers in [(VALIDATE, every), (FIND, paths), (READ, paths | {23, 24}), (LIST, every | {27}), (OVERWRITE, paths | {23, 24}), (SET_LENGTH, paths | {23, 26}),
                      (CREATE_STREAM, paths | {29, 30}), (CREATE_STORAGE, paths | {29, 30}), (REMOVE, paths | {28, 31}), (FORMAT, {0, 1, 32}), (REPAIR, every),
                      (READ_AT, every | {24, 33}), (PULSE_SUMMARY, paths | {23, 40}), (PULSE_RECORD, paths | {23, 40, 42}), (PULSE_ADD, paths | {23, 26, 40, 41})]:
    assert set(counts[kind]) == numbers, (kind, counts[kind])

# ---- a kind that there is not: the program says so, and makes no other call
last = Group(least)
last.call(15, 0)
last.call(VALIDATE, 0)
last.lines = ["unknown\n"]
groups.append(last)

out = os.path.join(os.path.dirname(os.path.abspath(__file__)), "..", "crates", "calls_run")
with open(os.path.join(out, "stdin"), "wb") as f:
    for x in groups:
        f.write(struct.pack("<II", len(x.first), len(x.calls)) + x.first + b"".join(x.calls))
with open(os.path.join(out, "stdout"), "w") as f:
    for x in groups:
        f.write("".join(x.lines))
print(len(groups), "images,", sum(len(x.calls) for x in groups), "calls,", os.path.getsize(os.path.join(out, "stdin")), "bytes")
for kind, name in enumerate(["validate", "find", "read", "list", "overwrite", "set length", "create stream", "create storage", "remove", "format", "repair", "read at", "pulse summary", "pulse record", "pulse add"]):
    print(name + ":", ", ".join("%d x %d" % (number, n) for number, n in sorted(counts[kind].items())))
