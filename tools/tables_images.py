#!/usr/bin/env python3
"""Writes the images that the program `tables_run` validates, and the numbers that it must print.

An image of 67,108,864 bytes has 1,024 FAT and 8 DIFAT sectors. A FAT may have more sectors than it needs, so that images of half a megabyte have as
many. They are nearly all tables: the program reads fills, each so many numbers from a place on with a step between them, and these are worked out here
from the image's bytes. Images of version 4 (02, W-207) are short so too: their sectors are nearly empty. The numbers to be printed are those that 01
and 02 give, rule by rule; nothing is asked of the library."""
import os
import struct
from images import DIFSECT, END, FATSECT, FREE, V3, V4, image, put
from version4_images import FILLED

ROOM = 583680
STEP = 1 << 32


def fills(img):
    """What writes these bytes over zeros: (place, count, first number, step)."""
    numbers = struct.unpack("<%dI" % (len(img) // 4), img)
    found, i = [], 0
    while i < len(numbers):
        k, step = i + 1, 0
        if k < len(numbers):
            step = (numbers[k] - numbers[i]) % STEP
            while k < len(numbers) and (numbers[k] - numbers[k - 1]) % STEP == step:
                k += 1
        if k - i == 2 and step:  # the second may begin a longer run
            k, step = i + 1, 0
        if numbers[i] or step:
            found.append((4 * i, k - i, numbers[i], step))
        i = k
    return found


class Base:
    """A good image with these FAT and DIFAT sectors, and the directory in one sector."""

    def __init__(self, sectors, fats, difats, directory, g=V3):
        self.sectors, self.fats, self.difats, self.directory, self.g = sectors, list(fats), list(difats), directory, g
        img = image(sectors, self.fats, self.difats, [directory], g=g)
        self.length, self.fills = len(img), fills(img)
        assert self.length <= ROOM

    def cell(self, s):
        """The place of a sector's cell."""
        return self.g.place(self.fats[s // self.g.cells]) + 4 * (s % self.g.cells)

    def entry(self, i):
        """The place of a DIFAT entry: the header has 109, each DIFAT sector as many as it has cells, less one."""
        k, i = divmod(i - 109, self.g.difat) if i >= 109 else (-1, i)
        return 76 + 4 * i if k < 0 else self.g.place(self.difats[k]) + 4 * i

    def link(self, k):
        """The place that names the DIFAT sector of number k, or the end: the header's field, then each DIFAT sector's last number."""
        return 68 if k == 0 else self.g.place(self.difats[k - 1] + 1) - 4


cases = []


def case(base, number, *patches, length=None):
    """The base with these numbers at these places, and the answer."""
    cases.append((length or base.length, base.fills + [(at, 1, value, 0) for at, value in patches], number))


def plain(fat, difat, spare=0, g=V3):
    """FAT sectors first, then DIFAT sectors, the directory, and free sectors."""
    return Base(fat + difat + 1 + spare, range(fat), range(fat, fat + difat), fat + difat, g)


def each(base, number, place, values):
    for value in values:
        case(base, number, (place, value))


F, D = 44, 72

# ---- accepted: the request's 1,024 and 8; on each side of the lines between 7, 8 and 9 DIFAT sectors, and of 0 and 1
request, eight, seven = plain(1024, 8), plain(999, 8), plain(998, 7)
full, nine = plain(1125, 8), plain(1126, 9)
header, first = plain(109, 0), plain(110, 1)
# tables in falling order behind the directory; DIFAT sectors among the FAT sectors; both in steps of 5 through the image
falling = Base(1008, range(1007, 8, -1), range(8, 0, -1), 0)
among = Base(1100, [s for s in range(1100) if s % 137 != 40][:999], range(40, 1100, 137), 1099)
steps = [5 * i % 1009 for i in range(1009)]
stepped = Base(1009, steps[:999], steps[999:1007], steps[1008])
others = [falling, among, stepped]
# a free sector behind all others, and before them
spare, before = plain(999, 8, spare=1), Base(1009, range(1, 1000), range(1000, 1008), 1008)
for base in [request, eight, seven, full, nine, header, first, spare, before] + others:
    case(base, 0)
# two DIFAT sectors change places in the chain: the FAT's sectors then stand in another order, and these hold only free cells
a, b, c = eight.difats[2:5]
case(eight, 0, (eight.link(2), b), (eight.link(4), a), (eight.link(3), c))

# ---- lengths: a sector more is free, as its cell is; a sector less is the directory's
case(eight, 1, length=eight.length - 1)
case(eight, 1, length=eight.length + 1)
case(eight, 0, length=eight.length + 512)
case(eight, 12, length=eight.length - 512)
case(eight, 13, (eight.cell(1007), FREE), length=eight.length - 512)

# ---- group 11: F is at least 1, and 128 x F at least N
each(eight, 11, F, [0, 1, 7, 8, 109, 110, 998, 1000, 1007, 1008, 1009, 1125, 1126, 0x01000000, 0x02000000, 0x80000000, END, FREE])
seven_sectors, eight_sectors = Base(896, range(7), [], 7), Base(897, range(8), [], 8)
case(seven_sectors, 0)
case(seven_sectors, 11, length=898 * 512)
case(eight_sectors, 0)
case(eight_sectors, 11, (F, 7), (eight_sectors.entry(7), FREE), (eight_sectors.cell(7), FREE))

# ---- group 11: D is what F asks for
each(eight, 11, D, [0, 1, 7, 9, 16, 0x80000000, END, FREE])
for base in [seven, full, nine, request]:
    each(base, 11, D, [len(base.difats) - 1, len(base.difats) + 1])
each(header, 11, D, [1])
each(first, 11, D, [0, 2])
# a DIFAT sector more than F asks for, whose entries are all free, counted in D and not
for base in [plain(109, 0, spare=1), plain(998, 7, spare=1), spare, plain(1125, 8, spare=1)]:
    extra, count = base.sectors - 1, len(base.difats)
    blank = [(512 * (extra + 1) + 4 * i, FREE) for i in range(127)] + [(512 * (extra + 1) + 508, END)]
    for number in [count + 1, count]:
        case(base, 11, *blank, (base.cell(extra), DIFSECT), (base.link(count), extra), (D, number))
# the eighth is given up: its sector free, the chain ended before it, and no place for the last FAT sector
less = (eight.link(7), END), (eight.cell(1006), FREE)
for number in [7, 8]:
    for f in [998, 999]:
        case(eight, 11, *less, (D, number), (F, f))
# with the last FAT sector given up too, all is as F = 998 asks
case(eight, 0, *less, (D, 7), (F, 998), (eight.cell(998), FREE))

# ---- group 11: where the DIFAT starts
last = eight.sectors - 1
each(header, 11, 68, [FREE, DIFSECT, 0, 109, 110])
each(eight, 11, 68, [END, FREE, FATSECT, DIFSECT, 0, 998, 1000, 1006, last, last + 1, 0x00800000, 0x7FFFFFFF])

# ---- group 11: each of the seven links to the next, and the last, which is end of chain
for k in range(1, 8):
    each(eight, 11, eight.link(k), [END, eight.difats[k - 1], last + 1] + eight.difats[k + 1:k + 2])
each(eight, 11, eight.link(7), [FREE, DIFSECT, 0, 998, eight.difats[0], last])
each(eight, 11, eight.link(8), [FREE, FATSECT, DIFSECT, 0, 998, eight.difats[0], eight.difats[7], last, last + 1])
for base in others + [request, full]:
    case(base, 11, (base.link(7), END))
    each(base, 11, base.link(8), [FREE, base.difats[0]])

# ---- group 11: entries behind F are free, in the header and in the last DIFAT sector
for i in [8, 108]:
    each(eight_sectors, 11, eight_sectors.entry(i), [0, 7, 8, END])
for base, i in [(eight, 999), (eight, 1124)]:
    each(base, 11, base.entry(i), [0, 998, base.directory, base.sectors, END, FATSECT])
for base, i in [(request, 1024), (request, 1124), (nine, 1126), (nine, 1251), (falling, 999), (among, 999), (stepped, 1124)]:
    each(base, 11, base.entry(i), [base.fats[-1], END])
# a free sector that would do as one more FAT sector, but F does not count it
case(spare, 11, (spare.entry(999), 1008))
case(spare, 11, (spare.entry(999), 1008), (spare.cell(1008), FATSECT))

# ---- group 11: FAT sectors are below N. The sector that stood there is free then, so that nothing else is broken
for i in [0, 108, 109, 235, 236, 998]:
    case(eight, 11, (eight.entry(i), eight.sectors), *[(eight.cell(eight.fats[i]), FREE)] * (i > 8))
for base in [eight] + others:
    for value in [base.sectors, base.sectors + 1, 0x007FFFFF, 0x7FFFFFFF, FATSECT, END, FREE][:7 if base is eight else 1]:
        case(base, 11, (base.entry(998), value), (base.cell(base.fats[998]), FREE))
# the last sector will do, if all its cells are free
moved = (spare.cell(998), FREE), (spare.cell(1008), FATSECT), (spare.entry(998), 1008)
case(spare, 0, *moved, *[(512 * 1009 + 4 * i, FREE) for i in range(128)])
case(spare, 12, *moved)

# ---- group 11: FAT and DIFAT sectors are all different. The sector that is not named any more is free here too
for base in [eight] + others:
    gone = (base.cell(base.fats[998]), FREE)
    for s in [base.fats[8], base.fats[108], base.fats[109], base.fats[997]] + base.difats[::7]:
        case(base, 11, (base.entry(998), s), gone)
    case(base, 11, (base.entry(998), base.directory), gone)
for i, k in [(0, 1), (108, 109), (235, 236), (997, 998)]:
    case(eight, 11, (eight.entry(i), eight.fats[k]))
    case(eight, 11, (eight.entry(k), eight.fats[i]))
# a FAT sector that is the last DIFAT sector too, with either mark
for mark in [FATSECT, DIFSECT]:
    case(eight, 11, (eight.link(7), 998), (eight.cell(1006), FREE), (eight.cell(998), mark), (512 * 999, 998), (512 * 999 + 508, END))

# ---- group 11: FATSECT on exactly the FAT sectors, DIFSECT on exactly the DIFAT sectors
for s in [0, 108, 109, 500, 998]:
    each(eight, 11, eight.cell(s), [FREE, DIFSECT])
each(eight, 11, eight.cell(998), [END, 0xFFFFFFFB, 1007, 1008])
for s in eight.difats:
    each(eight, 11, eight.cell(s), [FREE, FATSECT])
each(eight, 11, eight.cell(1006), [END, 0xFFFFFFFB, 1007, 1008])
for base in others:
    for s in [base.fats[8], base.fats[998], base.difats[0], base.difats[7]]:
        each(base, 11, base.cell(s), [FREE, END])
for base in [eight] + others:
    each(base, 11, base.cell(base.directory), [FATSECT, DIFSECT])
for base, free in [(spare, 1008), (before, 0)]:
    each(base, 11, base.cell(free), [FATSECT, DIFSECT])
    each(base, 18, base.cell(free), [END, base.directory])
case(eight, 11, (eight.cell(998), DIFSECT), (eight.cell(999), FATSECT))

# ---- group 12: cells from N on are free, marks too; those of the last FAT sector stand where the last DIFAT sector says
for s in [1008, 128 * 109, 128 * 998, 128 * 999 - 1]:
    each(eight, 12, eight.cell(s), [FATSECT, DIFSECT, END, 0])
for base in others + [request, full]:
    each(base, 12, base.cell(128 * len(base.fats) - 1), [FATSECT, END])
each(eight, 12, eight.cell(1007), [1008, 0xFFFFFFFB, 0x80000000])
# ---- the lowest number is given
case(eight, 10, (56, 4097), (F, 998))
case(eight, 11, (eight.entry(999), 0), (eight.cell(1008), END))
case(eight, 12, (eight.cell(1008), END), (48, END))
each(eight, 13, 48, [END, FREE, 0, 998, 999, 1006, 1008])

# ---- version 4: every rule, and then tables of 109 sectors, which the header names all, and of more. A DIFAT sector has 1,023 entries and a link
for img, number in FILLED:
    cases.append((len(img), fills(img + bytes(-len(img) % 4)), number))
header, first, spare = plain(109, 0, g=V4), plain(110, 1, g=V4), plain(111, 1, spare=1, g=V4)
falling, among = Base(112, range(111, 1, -1), [1], 0, V4), Base(120, [s for s in range(119) if s != 40][:111], [40], 119, V4)
for base in [header, first, spare, falling, among]:
    case(base, 0)
    case(base, 1, length=base.length - 512)
    case(base, 0, length=base.length + 4096)
    each(base, 11, D, [1 - len(base.difats)])
    each(base, 12, base.cell(1024 * len(base.fats) - 1), [END, FATSECT])
for base in [header, first]:
    # the counts, and where the DIFAT starts
    behind = base.sectors
    each(base, 11, F, [0, 1, len(base.fats) - 1, len(base.fats) + 1])
    each(base, 11, D, [2, FREE])
    each(base, 11, 68, [FREE, DIFSECT, base.fats[0], base.directory, behind] + [END] * len(base.difats))
    # FAT sectors are below N and different; each has its mark, and no other sector has one
    each(base, 11, base.entry(108), [base.fats[0], base.directory, behind, FREE])
    for s in [base.fats[0], base.fats[-1]] + base.difats:
        each(base, 11, base.cell(s), [FREE] + [FATSECT] * (s in base.difats))
    each(base, 11, base.cell(base.directory), [FATSECT, DIFSECT])
    # cells behind the last sector's, in the first FAT sector and in the second
    for s in [behind, 1023, 1024]:
        each(base, 12, base.cell(s), [END])
    each(base, 12, base.cell(base.directory), [behind])
for base in [first, falling, among]:
    # the first entry of the DIFAT sector, those behind F, the last of 1,023, and the link
    each(base, 11, base.entry(109), [base.fats[108], base.difats[0], base.directory, base.sectors])
    for i in [len(base.fats), 109 + 126, 109 + 127, 109 + 1022]:
        each(base, 11, base.entry(i), [base.fats[-1], END])
    each(base, 11, base.link(1), [FREE, 0, base.difats[0]])
# one FAT sector more would be right if F said so
more = spare.sectors - 1
free = put(image(spare.sectors, spare.fats + [more], spare.difats, [spare.directory], g=V4), (F, 111))
case(spare, 11, (spare.entry(111), more))
cases.append((len(free), fills(free), 11))
cases.append((len(free), fills(put(free, (F, 112))), 0))

out = os.path.join(os.path.dirname(os.path.abspath(__file__)), "..", "crates", "tables_run")
with open(os.path.join(out, "stdin"), "wb") as f:
    for length, found, _ in cases:
        f.write(struct.pack("<II", length, len(found)) + b"".join(struct.pack("<IIII", *x) for x in found))
with open(os.path.join(out, "stdout"), "w") as f:
    for _, _, number in cases:
        f.write("%d\n" % number)
print(len(cases), "images,", os.path.getsize(os.path.join(out, "stdin")), "bytes")
