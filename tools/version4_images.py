"""Images of version 4 (02, W-207) for the programs that validate: sectors of 4,096 bytes, a header of as many, a count of the directory's sectors, and
sizes of 64 bits. The numbers are those that 01 and 02 give, rule by rule.

`WHOLE` is for `validate_run`, which reads images whole, so that most are of the smallest length. `FILLED` is for `tables_run`, which reads only what
is not zero: each rule again, and on longer images. `REFUSED` is for `calls_run`."""
import struct
from images import DIFSECT, END, FATSECT, FREE, NONE, RED, V4, byte, entry, image, patched, put, root, storage, stream, volume, with_entries

FAT, DIRECTORY = V4.place(0), V4.place(1)
MAJOR, SHIFT, COUNT = 26, 30, 40
# the upper half of a size: one bit of it, and all of it
BIT, ABOVE = 1 << 32, 0xFFFFFFFF << 32


def half(img, at, value):
    return img[:at] + struct.pack("<H", value) + img[at + 2:]


def holding(*entries):
    return with_entries(entries, V4)


def one(e):
    return holding(root(1), e)


small, third = image(2, [0], [], [1], g=V4), image(2, [0], [], [1])
log, site = stream("log"), storage("Site")
last_entry = DIRECTORY + 31 * 128

# ---- lengths, and where the version is read
lengths = [(small[:n], 1) for n in [12287, 11776, 8704, 8192, 4608, 4096, 1536]] + [(small + bytes(512), 1)]
# the same of what is good in version 3, or would be but for its length
lengths += [(half(third, MAJOR, 4), 1), (half(third[:1024], MAJOR, 4), 1), (half(third[:1535], MAJOR, 4), 1), (half(half(third, MAJOR, 4), SHIFT, 12), 1)]
# every other number is version 3, whose lengths these are, and whose group 10 refuses them
majors = [(half(third, MAJOR, value), 10) for value in [0, 2, 5, 0x0103, 0x0104, 0x0300, 0x0400, 0x0404, 0x8004, 0xFFFF]] + [(half(third, SHIFT, 12), 10)]
versions = [(half(small, MAJOR, value), 10) for value in [0, 5, 0x0104]]

# ---- group 10
header = [(half(small, MAJOR, 3), 10), (half(small, MAJOR, 0x0400), 10), (half(small, SHIFT, 9), 10), (byte(small, 512, 1), 10), (byte(small, 4095, 0x80), 10)]
# ---- group 13: the count, one too few and one too many
counts = [(put(small, (COUNT, 0)), 13), (put(small, (COUNT, 2)), 13)]
# ---- sizes in full: those of the root in group 16, those of streams in 17, those of storages and blank entries in 14
sizes = [(holding(root(size=BIT)), 16), (one(stream("log", size=BIT)), 17), (one(patched(site, 124, [1])), 14),
         (holding(root(), patched(entry(), 126, [1])), 14)]

WHOLE = [(small, 0), (one(log), 0), (one(site), 0)] + lengths + majors + header + counts + sizes + [
    # groups 11 to 13: no FAT sector, a mark, the last of the 1,024 cells, no directory
    (put(small, (44, 0)), 11), (put(small, (FAT + 4, FATSECT)), 11), (put(small, (FAT + 4 * 1023, END)), 12), (put(small, (48, END)), 13),
    # groups 14 and 15: the last of the 32 entries, entry 32, a tree
    (byte(small, last_entry + 67, 1), 14), (holding(root(32)), 15), (holding(root(1), stream("log", right=2), stream("LOG")), 15),
    # groups 16 to 18: a mini FAT, a root and a stream without sectors, a stream in the directory's sector
    (put(small, (64, 1)), 16), (holding(root(size=64)), 16), (one(stream("log", size=4096)), 17), (one(stream("log", start=1, size=4096)), 18),
]

# for `calls_run`: every call is refused, with the same number as validation
REFUSED = [
    (half(third, MAJOR, 4), 1), (small + bytes(512), 1), (half(third, MAJOR, 0x0400), 10), (put(third, (COUNT, 1)), 10), (byte(small, 4095, 1), 10),
    (put(small, (COUNT, 2)), 13), (holding(root(32)), 15), (holding(root(size=BIT)), 16), (one(stream("s", size=BIT)), 17), (one(stream("s", start=1, size=4096)), 18),
]


# ---- longer images. Sector 1 is the directory, 2 the mini FAT, 3 and 4 the mini stream (65 mini sectors), 5 a stream of 4,096 bytes,
# 6 and 7 one of 4,097, 8 and 9 are free; `log` has mini sectors 0 and 64, `Jet` mini sector 1

def cell(s):
    return FAT + 4 * s


def mini(m):
    return V4.place(2) + 4 * m


def busy(log=(0, 70), jet=(1, 64), whole=(5, 4096), more=(6, 4097), start=3, size=65 * 64):
    entries = [root(2, start, size), stream("Jet", start=jet[0], size=jet[1]), stream("log", left=1, right=3, start=log[0], size=log[1]),
               stream("whole", right=4, start=whole[0], size=whole[1]), stream("timing", start=more[0], size=more[1])]
    return volume(10, [1], [[3, 4], [5], [6, 7]], entries, [2], [64, END] + [FREE] * 62 + [END], g=V4)


def wide(minis, mini_fats, upper=0):
    """So many mini sectors, none of them owned, and so many mini FAT sectors; `upper` is added to the root's size."""
    fats = list(range(2, 2 + mini_fats))
    own = list(range(2 + mini_fats, 2 + mini_fats + V4.need(64 * minis)))
    return volume(2 + len(fats + own), [1], [own] if own else [], [root(start=own[0] if own else END, size=upper + 64 * minis)], fats, g=V4)


def edged(upper=0):
    """A stream of 4,095 bytes: 64 mini sectors, which are one sector."""
    return volume(4, [1], [[3]], [root(1, 3, 4096), stream("log", start=0, size=upper + 4095)], [2], list(range(1, 64)) + [END], g=V4)


def far(n, right=NONE):
    """Two streams, the entries 1 and n, of which the first names the second."""
    return holding(root(1), stream("log", right=n), *[entry()] * (n - 2), stream("Jets", right=right))


good, chain = busy(), image(4, [2], [], [3, 0], g=V4)
full, over = far(31), far(32)
# the mini FAT's sector is the mini stream's first too
doubled = put(good[:V4.place(3)] + good[V4.place(2):V4.place(3)] + good[V4.place(4):], (60, 3), (cell(2), FREE), (cell(3), END),
              (DIRECTORY + 120, 4096), (cell(4), FREE), (V4.place(3), END), (V4.place(3) + 4 * 64, FREE), (DIRECTORY + 2 * 128 + 120, 64))
FILLED = [
    # accepted: a directory of two sectors in falling order, of 32 entries and of 33; both kinds of stream; a stream of 4,095 bytes; mini FATs
    (small, 0), (chain, 0), (full, 0), (over, 0), (good, 0), (edged(), 0), (wide(0, 0), 0), (wide(0, 1), 0), (wide(1, 2), 0), (wide(64, 1), 0),
    (wide(1024, 1), 0),
    (wide(1025, 2), 0), *versions, (small + bytes(4095), 1), (small + bytes(1), 1), (good[:-512], 1),
    # a sector more is free, as its cell is, and one that was free is not missed; third less leave a cell that names none
    (small + bytes(4096), 0), (small + b"\xEE" * 4096, 0), (small + bytes(3584), 1), (good[:-4096], 0), (good[:-3 * 4096], 12),
    # group 10: the fields; the minor version and the transaction number are free
    *[(byte(small, at, small[at] ^ 1), 10) for at in [0, 7, 8, 23, 27, 28, 29, 31, 32, 34, 39, 56, 59]], (byte(small, 24, 0), 0), (byte(small, 52, 9), 0),
    # group 10: bytes behind the header's fields, at either end and within
    *[(byte(small, at, 1), 10) for at in [513, 515, 516, 1023, 1024, 2048, 3583, 3584, 4092, 4094]], (byte(good, 512, 255), 10), (byte(good, 4095, 1), 10),
    # group 10: a FAT where version 3 has it
    (put(small, (512, FATSECT), (516, END)), 10),
    # group 13: the count of the directory's sectors, in directories of one, of two and of 33 entries
    *[(put(small, (COUNT, n)), 13) for n in [3, 256, 0x01000001, 0x80000001, NONE]], (put(full, (COUNT, 0)), 13), (put(full, (COUNT, 2)), 13),
    *[(put(over, (COUNT, n)), 13) for n in [0, 1, 3]], *[(put(chain, (COUNT, n)), 13) for n in [0, 1, 3, 0x00010002, END]],
    # the count in version 3: 0, whatever the directory has
    (put(third, (COUNT, 1)), 10), (put(third, (COUNT, 0x01000000)), 10), (put(image(4, [2], [], [3, 0]), (COUNT, 2)), 10),
    # the lowest number is given: the count comes behind 10 to 12, and before 14
    (byte(put(small, (COUNT, 2)), 512, 1), 10), (put(small, (COUNT, 2), (44, 0)), 11), (put(small, (COUNT, 2), (cell(2), END)), 12),
    (put(holding(root(), root()), (COUNT, 2)), 13), (put(small, (COUNT, 2), (64, 1)), 13), (put(one(stream("log", size=BIT)), (COUNT, 0)), 13),
    # group 11: the counts, the marks, the header's entries; 1,024 cells are enough for 1,024 sectors
    *[(put(small, (44, n)), 11) for n in [2, 109, 110, NONE]], *[(put(small, (72, n)), 11) for n in [1, NONE]],
    *[(put(small, (68, n)), 11) for n in [0, 1, FREE]],
    *[(put(small, (76, n)), 11) for n in [1, 2, END, FREE]], (put(small, (80, 0)), 11), (put(small, (508, 1)), 11),
    *[(put(small, (cell(0), n)), 11) for n in [END, FREE, DIFSECT, 1]], (put(small, (cell(1), DIFSECT)), 11), (put(good, (cell(9), FATSECT)), 11),
    # group 12: cells that name no sector; those behind the last sector's
    *[(put(small, (cell(1), n)), 12) for n in [2, 0xFFFFFFFB, 0x80000000]], *[(put(small, (cell(2), n)), 12) for n in [0, END, FATSECT, DIFSECT]],
    *[(put(small, (cell(s), END)), 12) for s in [127, 128, 1022]], (put(good, (cell(9), 10)), 12), (put(good, (cell(10), 0)), 12),
    (put(good, (cell(1023), FATSECT)), 12),
    # group 13: no sector, a table sector, a free one, a circle, a chain shorter than the count
    *[(put(small, (48, n)), 13) for n in [0, 2, FREE]], (put(small, (cell(1), FREE)), 13), (put(small, (cell(1), 1)), 13), (put(good, (48, 9)), 13),
    (put(chain, (V4.place(2), 3)), 13), (put(chain, (V4.place(2), FREE)), 13), (put(chain, (V4.place(2) + 12, END), (V4.place(2), FREE)), 13),
    (put(chain, (V4.place(2) + 12, END), (V4.place(2), FREE), (COUNT, 1)), 0),
    # group 14: each kind of entry, the first and the last of a sector, and in a second one
    (holding(log), 14), (holding(patched(root(), 68, bytes(4))), 14), (holding(patched(root(), 100, [1])), 14), (holding(root(), root()), 14),
    (holding(patched(root(), 108, [1])), 0),
    *[(byte(small, at, 1), 14) for at in [DIRECTORY + 128, DIRECTORY + 4 * 128 + 66, last_entry, last_entry + 127]], (put(small, (last_entry + 68, 0)), 14),
    (byte(over, V4.place(2) + 76, 0), 14), (byte(over, V4.place(2) + 128, 1), 14), (byte(over, V4.place(3) - 1, 1), 14),
    (byte(chain, V4.place(0) + 127, 1), 14),
    (one(stream("a/b")), 14), (one(stream("a!b")), 14), (one(stream("x" * 31)), 0), (one(patched(log, 64, [7])), 14), (one(patched(log, 67, [2])), 14),
    (one(patched(log, 80, [1])), 14),
    (one(patched(log, 115, [1])), 14), (one(patched(site, 116, [1])), 14),
    # group 14: each byte of the size of a storage and of a blank entry
    *[(one(patched(site, at, [1])), 14) for at in range(120, 128)], *[(holding(root(), patched(entry(), at, [1])), 14) for at in range(120, 128)],
    # group 15: order and colours; entry numbers from 32 on, and from 64 on where there are two sectors
    (holding(root(1), stream("log", right=2), stream("Jets")), 0), (holding(root(1), stream("Jets", right=2), log), 15), (one(stream("log", RED)), 15),
    (holding(root(1), stream("log", right=2), stream("Jets", RED, right=3), stream("Jetty", RED)), 15), (one(stream("log", right=31)), 15),
    (one(stream("log", right=32)), 15),
    (one(stream("log", left=0)), 15), (one(stream("log", right=1)), 15), (holding(root(), log), 15), (holding(root(1), storage("Site", child=1)), 15),
    *[(far(31, n), 15) for n in [1, 31, 32]], *[(far(32, n), 15) for n in [33, 63, 64, END]], (put(over, (DIRECTORY + 76, 32)), 15),
    # group 16: the mini FAT's chain, the mini stream's size and chain; its last sector need not be full, and 64 mini sectors fill one
    *[(put(good, (64, n)), 16) for n in [0, 2, NONE]], *[(put(good, (60, n)), 16) for n in [END, 8, 10]], (put(wide(0, 0), (60, FREE)), 16),
    (put(good, (cell(2), 2)), 16),
    (busy(size=66 * 64), 0), (busy(size=128 * 64), 0), (busy(size=64 * 64), 16), (busy(size=129 * 64), 16), (busy(size=65 * 64 - 1), 16), (busy(size=0), 16),
    (busy(start=END), 16), (busy(start=8), 16),
    (put(good, (cell(4), 8), (cell(8), END)), 16), (wide(1025, 1), 16), (wide(64, 0), 16), (put(wide(64, 1), (DIRECTORY + 120, 65 * 64)), 16),
    # group 16: mini cells below K and from K on
    *[(put(good, (mini(2), n)), 16) for n in [65, FATSECT, DIFSECT, 0xFFFFFFFB]], *[(put(good, (mini(m), END)), 16) for m in [65, 127, 128, 1023]],
    (put(good, (mini(1023), 0)), 16),
    # group 17: 4,096 bytes need one sector, 4,097 two; chains that are too short, too long, free, none
    (busy(whole=(5, 4097)), 17), (busy(whole=(5, 8192)), 17), (busy(more=(6, 4096)), 17), (busy(more=(6, 8192)), 0), (busy(more=(6, 8193)), 17),
    (busy(whole=(5, 4095)), 17),
    *[(busy(whole=(s, 4096)), 17) for s in [6, 8, 10, 0, END]], (put(good, (cell(5), 8), (cell(8), END)), 17), (put(good, (cell(7), 6)), 17),
    (put(good, (cell(6), END)), 17),
    (busy(log=(0, 64)), 17), (busy(log=(0, 65)), 0), (busy(log=(0, 128)), 0), (busy(log=(0, 129)), 17), (busy(log=(65, 64)), 17), (busy(log=(END, 1)), 17),
    (busy(log=(0, 0)), 17), (put(good, (mini(64), 0)), 17),
    # sizes in full: a size of 2 ^ 32 and more has too few sectors in any image; each byte of the upper half
    *[(patched(good, DIRECTORY + 128 * i + at, [1]), 17 if i else 16) for i in [0, 2, 4] for at in range(124, 128)],
    (busy(size=BIT + 65 * 64), 16), (busy(size=ABOVE + 65 * 64), 16), (wide(0, 0, BIT), 16), (wide(0, 1, ABOVE), 16), (wide(64, 1, 1 << 63), 16),
    (edged(BIT), 17), (edged(ABOVE), 17),
    (busy(log=(0, BIT + 70)), 17), (busy(whole=(5, ABOVE + 4096)), 17), (busy(more=(6, (1 << 63) + 4097)), 17), (busy(more=(6, 4097 << 32)), 17),
    (busy(log=(0, (1 << 64) - 1)), 17),
    (one(stream("log", size=ABOVE)), 17), (busy(whole=(5, (1 << 64) - 4095)), 17), (busy(whole=(5, (1 << 64) - 1)), 17),
    (busy(whole=(END, (1 << 64) - 1)), 17), (busy(size=(1 << 64) - 64), 16),
    # the lowest number is given
    (busy(size=BIT + 65 * 64, log=(0, BIT + 70)), 16), (put(busy(whole=(5, BIT + 4096)), (cell(8), END)), 17),
    (byte(put(busy(size=BIT), (COUNT, 1)), last_entry + 127, 1), 14),
    # group 18: two owners; units that nobody owns
    (busy(jet=(64, 64)), 18), (busy(jet=(0, 70)), 18), (busy(whole=(7, 4096)), 18), (busy(whole=(1, 4096)), 18), (busy(whole=(2, 4096)), 18),
    (busy(whole=(4, 4096)), 18),
    (doubled, 18), (busy(whole=(END, 0)), 18), (busy(jet=(END, 0)), 18), (put(good, (cell(8), END)), 18), (put(good, (cell(9), 8)), 18),
    (put(good, (mini(63), END)), 18),
]
