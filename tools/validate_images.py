#!/usr/bin/env python3
"""Writes the images that the program `validate_run` reads, and the numbers that it must print.

The numbers are those that 01 and 02 give, rule by rule."""
import version4_images
from images import DIFSECT, END, FATSECT, FREE, NONE, RED, ROOT, byte, entry, image, patched, put, root, storage, stream, volume, with_entries, write
from letters import BESIDE, ENDS, IN_ORDER, OTHERS, OUT_OF_PLAIN_ORDER, order, respelled

# the upper half of a size: one bit of it, and all of it (W-205)
BIT, ABOVE = 1 << 32, 0xFFFFFFFF << 32


def named(units, number=None, end=(0, 0)):
    """A stream with these units for a name, a number of name bytes of its own, and these two bytes behind the name."""
    e = stream("x" * units)
    e = patched(e, 2 * units, end)
    return e if number is None else patched(e, 64, [number & 255, number >> 8])


def one(e):
    return with_entries([root(1), e])


def siblings(*entries):
    return with_entries([root(1)] + list(entries))


# names of three letters in order: aaa, bbb, ..; seven of them in a balanced tree below the root
def seven(names):
    a, b, c, d, e, f, g = names
    return with_entries([root(4), stream(a), stream(b, left=1, right=3), stream(c), stream(d, left=2, right=6),
                         stream(e), stream(f, left=5, right=7), stream(g)])


def spine(n, name=lambda i: "n%05d" % i, last=NONE):
    """A tree that is all right sides, n deep."""
    return with_entries([root(1)] + [stream(name(i), right=i + 1 if i < n else last) for i in range(1, n + 1)])


def in_a_row(names, left=False):
    """A tree that is all right sides, or all left sides, with these names in this order."""
    if left:
        return with_entries([root(len(names))] + [stream(name, left=i if i else NONE) for i, name in enumerate(names)])
    return spine(len(names), lambda i: names[i - 1])


def around(number, unit):
    """The unit at the beginning, in the middle or at the end of a name of 31 units."""
    before = (0, 15, 30)[number % 3]
    return "n" * before + unit + "n" * (30 - before)


rising = ["aaa", "bbb", "ccc", "ddd", "eee", "fff", "ggg"]


small = image(2, [0], [], [1])
three = image(4, [2], [], [3, 0])
difat = image(112, list(range(110)), [110], [111])
mixed = image(112, list(range(111, 1, -1)), [1], [0])
tables = [
    # accepted: one FAT sector; a chain of two; one DIFAT sector; table sectors in falling order
    (small, 0), (three, 0), (difat, 0), (mixed, 0),
    # lengths
    (small[:1535], 1), (small[:1024], 1), (small + bytes(511), 1), (b"", 1),
    # group 10, field by field; the minor version and the transaction number are free
    (byte(small, 0, 0xD1), 10), (byte(small, 7, 0), 10), (byte(small, 8, 1), 10), (byte(small, 23, 1), 10),
    (byte(small, 26, 5), 10), (byte(small, 28, 0xFF), 10), (byte(small, 30, 12), 10), (byte(small, 32, 7), 10),
    (byte(small, 34, 1), 10), (byte(small, 39, 1), 10), (byte(small, 40, 1), 10), (byte(small, 56, 1), 10),
    (byte(small, 24, 0), 0), (byte(small, 52, 9), 0),
    # group 11: the counts, also far too large ones
    (put(small, (44, 0)), 11), (put(small, (44, 2)), 11), (put(small, (44, 0xFFFFFFFF)), 11), (put(small, (72, 1)), 11),
    (put(small, (72, 0xFFFFFFFF)), 11),
    # group 11: where the DIFAT starts and ends, its links, its entries
    (put(small, (68, FREE)), 11), (put(small, (68, 0)), 11),
    (put(difat, (111 * 512 + 508, FREE)), 11), (put(small, (508, 1)), 11), (put(small, (80, 0)), 11), (put(difat, (111 * 512 + 4, 5)), 11),
    # group 11: table sectors that are no sectors, that stand twice, that are both
    (put(small, (76, 2)), 11), (put(small, (76, END)), 11), (put(difat, (111 * 512, 0)), 11),
    # group 11: the marks
    (put(small, (512, END)), 11), (put(small, (512, DIFSECT)), 11), (put(small, (516, FATSECT)), 11), (put(small, (516, DIFSECT)), 11),
    # group 12: cells that name no sector, and cells behind the last sector's
    (put(small, (516, 2)), 12), (put(small, (516, 0xFFFFFFFB)), 12), (put(small, (520, END)), 12), (put(small, (1020, 0)), 12),
    (put(small, (520, FATSECT)), 12),
    # group 13: no sector, a free sector, a table sector, a circle
    (put(small, (48, END)), 13), (put(small, (48, 2)), 13), (put(small, (48, 0)), 13), (put(small, (516, FREE)), 13), (put(small, (516, 1)), 13),
    (put(three, (3 * 512, 3)), 13), (put(three, (3 * 512, FREE)), 13),
    # the lowest number is given
    (byte(put(small, (44, 0)), 0, 0), 10), (put(small, (508, 1), (520, END)), 11), (put(small, (520, END), (48, END)), 12),
]
# each unit of the pairs that are different once, in order
unlike = sorted({order(u)[1][0]: u for pair in BESIDE + OTHERS for u in pair}.values(), key=order)
directories = [
    # accepted: no object; one; a storage in a storage; a balanced tree; a tree all to one side
    (with_entries([root()]), 0), (one(stream("log")), 0), (siblings(storage("Site", child=2), storage("Jets", child=3), stream("log")), 0),
    (seven(rising), 0), (spine(100), 0),
    # group 14: the root
    (with_entries([stream("log")]), 14), (with_entries([patched(root(), 68, [0, 0, 0, 0])]), 14), (with_entries([patched(root(), 72, [0, 0, 0, 0])]), 14),
    (with_entries([patched(root(), 100, [1])]), 14), (with_entries([patched(root(), 67, [2])]), 14),
    (with_entries([patched(root(), 108, [1])]), 0), (with_entries([root(), root()]), 14),
    # group 14: blank entries
    (with_entries([root(), patched(entry(), 0, [1])]), 14), (with_entries([root(), patched(entry(), 64, [2])]), 14),
    (with_entries([root(), patched(entry(), 67, [1])]), 14), (with_entries([root(), patched(entry(), 76, [1, 0, 0, 0])]), 14),
    (with_entries([root(), patched(entry(), 96, [1])]), 14), (with_entries([root(), patched(entry(), 127, [1])]), 14),
    (with_entries([root(), patched(entry(), 66, [3])]), 14),
    # group 14: names of 1 and 31 units, name bytes 2, 3 and 66, a last unit that is not zero, units that no name has
    (one(named(1)), 0), (one(named(31)), 0), (one(named(1, 2)), 14), (one(named(1, 3)), 14), (one(named(31, 66)), 14), (one(named(2, 5)), 14),
    (one(named(3, end=(1, 0))), 14), (one(named(3, end=(0, 1))), 14), (one(stream("a/b")), 14), (one(stream("a\\b")), 14), (one(stream("a:b")), 14),
    (one(stream("a\0b")), 14), (one(patched(stream("ab"), 10, [7])), 0),
    # group 14: the exclamation mark (W-202) alone, at a name's beginning, in its middle and at its end; behind its end and in the root's name it is free
    (one(stream("!")), 14), (one(stream("!ab")), 14), (one(stream("a!b")), 14), (one(stream("ab!")), 14), (one(stream("!" + "a" * 30)), 14), (one(stream("a" * 30 + "!")), 14),
    (one(storage("!")), 14), (one(storage("!ab")), 14), (one(storage("a!b")), 14), (one(storage("ab!")), 14), (one(storage("a" * 30 + "!")), 14),
    (siblings(storage("Site", child=2), storage("Jets", child=3), stream("lo!g")), 14), (siblings(storage("Site", child=2), storage("Je!ts", child=3), stream("log")), 14),
    (one(patched(stream("ab"), 6, [0x21])), 0), (with_entries([entry("Root!Entry", ROOT)]), 0), (with_entries([entry("!", ROOT, child=1), stream("log")]), 0),
    (with_entries([entry("/\\:!", ROOT, child=1), stream("log")]), 0),
    # group 14: the units beside it, and those of which it is a half
    (one(stream("a b")), 0), (one(stream('a"b')), 0), (one(stream(" ")), 0), (one(stream('"')), 0), (one(stream(' ab"')), 0), (one(storage('"ab ')), 0), (one(storage(" ")), 0),
    (one(storage('"')), 0), (one(stream("a\u2100")), 0), (one(stream("\u0121b")), 0), (one(storage("\u2121")), 0),
    # group 14: streams and storages
    (one(patched(stream("log"), 76, [2, 0, 0, 0])), 14), (one(patched(stream("log"), 80, [1])), 14), (one(patched(stream("log"), 95, [1])), 14),
    (one(patched(stream("log"), 96, [1])), 0), (one(patched(stream("log"), 100, [1])), 14), (one(patched(stream("log"), 115, [1])), 14),
    (one(patched(storage("Site"), 80, [1])), 0), (one(patched(storage("Site"), 116, [1])), 14), (one(patched(storage("Site"), 120, [1])), 14),
    (one(patched(stream("log"), 67, [2])), 14),
    # group 14: each byte of the upper half of a size (W-205), which the root and streams may have, and all bytes of it
    *[(with_entries([patched(root(), at, [1])]), 0) for at in range(124, 128)], *[(one(patched(stream("log"), at, [1])), 0) for at in range(124, 128)],
    (with_entries([root(size=ABOVE)]), 0), (one(stream("log", size=ABOVE)), 0),
    (with_entries([root(1, size=ABOVE), storage("Site", child=2), stream("log", size=ABOVE)]), 0),
    # group 14: each byte of the size of a storage and of a blank entry, whatever the root and streams have
    *[(one(patched(storage("Site"), at, [1])), 14) for at in range(121, 128)],
    *[(with_entries([root(), patched(entry(), at, [1])]), 14) for at in range(120, 127)],
    (one(patched(storage("Site"), 124, [255] * 4)), 14), (with_entries([root(), patched(entry(), 124, [255] * 4)]), 14),
    (with_entries([root(1, size=ABOVE), patched(storage("Site", child=2), 124, [1]), stream("log", size=ABOVE)]), 14),
    (with_entries([root(1, size=ABOVE), stream("log", size=ABOVE), patched(entry(), 124, [1])]), 14), (with_entries([root(), stream("log", size=ABOVE)]), 15),
    # group 15: LOG equals log; the shorter name comes first; letters count as capitals
    (siblings(stream("log", right=2), stream("LOG")), 15), (siblings(stream("log", right=2), stream("Jets")), 0),
    (siblings(stream("Jets", right=2), stream("log")), 15), (siblings(stream("a_b", right=2), stream("aab")), 15),
    (siblings(stream("aab", right=2), stream("a_b")), 0), (siblings(stream("AAB", left=2), stream("aaa")), 0),
    # group 15: a small letter and its capital (W-211) at each end of each range, in names of one unit and of 31, one on either side
    *[(in_a_row([small, capital]), 15) for small, capital in ENDS], *[(in_a_row([around(i, capital), around(i, small)], True), 15) for i, (small, capital) in enumerate(ENDS)],
    # group 15: words that are equal, words that are not, and pairs that are in order by their plain units only
    (in_a_row(["\u0401\u043b\u043a\u0430", "\u0451\u041b\u041a\u0410"]), 15), (in_a_row(["\u039f\u03b4\u03cc\u03c2", "\u03bf\u0394\u03cc\u03c2"]), 15),
    (in_a_row(["\u03bf\u03b4\u03cc\u03c3", "\u039f\u0394\u03cc\u03c2"]), 0),
    *[(in_a_row([second, first]), 15) for first, second in OUT_OF_PLAIN_ORDER],
    # group 15: the ends, what is left out and the units beside them in one tree, spelled in both ways, and pairs that only another folding makes equal
    (in_a_row(IN_ORDER), 0), (in_a_row([respelled(name) for name in IN_ORDER], True), 0), (in_a_row(unlike), 0),
    # group 15: order broken deep in a side, though each node is right with the two below it
    (seven(["aaa", "bbb", "eee", "ddd", "ddf", "fff", "ggg"]), 15), (seven(["aaa", "bbb", "ccc", "ddd", "ccd", "fff", "ggg"]), 15),
    (seven(["aaa", "bbb", "ccc", "ddd", "eee", "fff", "eff"]), 15), (spine(100, lambda i: "n%05d" % (i if i < 100 else 98)), 15),
    # group 15: colours
    (one(stream("log", RED)), 15), (siblings(stream("log", right=2), stream("Jets", RED, right=3), stream("Jetty", RED)), 15),
    (siblings(stream("log", right=2), stream("Jets", RED, right=3), stream("Jetty")), 0), (siblings(storage("Site", child=2), stream("log", RED)), 15),
    # group 15: a cycle, a shared subtree, a way back to the parent, a storage below itself
    (siblings(stream("log", right=1)), 15), (siblings(stream("log", right=2), stream("Jets", right=1)), 15),
    (siblings(stream("log", left=2, right=2), stream("Jets")), 15), (siblings(storage("Site", child=2, right=3), storage("Jets", child=4), storage("Jetty", child=4), stream("log")), 15),
    (siblings(storage("Site", child=1)), 15), (spine(100, last=1), 15), (spine(100, last=50), 15),
    # group 15: objects that are not reached; numbers that name no object
    (with_entries([root(), stream("log")]), 15), (siblings(stream("log"), storage("Site")), 15), (siblings(stream("log", left=0)), 15),
    (siblings(stream("log", right=0)), 15), (siblings(storage("Site", child=0)), 15), (with_entries([root(0)]), 15), (siblings(stream("log", right=3)), 15),
    (siblings(stream("log", right=4)), 15), (siblings(stream("log", right=0xFFFFFFFE)), 15), (with_entries([root(1)]), 15),
    # the lowest number is given
    (siblings(stream("log", right=1), stream("a/b")), 14), (siblings(stream("log", right=1), stream("a!b")), 14),
    (put(one(stream("a!b")), (48, END)), 13),
]


# ---- groups 16 to 18

def cell(s):
    """The place of a sector's cell, in an image whose FAT is sector 0."""
    return 512 + 4 * s


def mini(m):
    """The place of a mini sector's cell, where the mini FAT is sector 2."""
    return 3 * 512 + 4 * m


# sector 1 the directory, 2 the mini FAT, 3 the mini stream (8 mini sectors), 4 to 11 a large stream, 12 and 13 free;
# `log` has mini sectors 0 and 5, `Jets` mini sector 1
def busy(log=(0, 70), jets=(1, 64), big=(4, 4096), start=3, size=512):
    entries = [root(1, start, size), stream("log", left=2, right=3, start=log[0], size=log[1]), stream("Jet", start=jets[0], size=jets[1]),
               stream("timing", start=big[0], size=big[1])]
    return volume(14, [1], [[3], list(range(4, 12))], entries, [2], [5, END, FREE, FREE, FREE, END])


def wide(minis, mini_fats, upper=0):
    """So many mini sectors, none of them owned, and so many mini FAT sectors; `upper` is added to the root's size."""
    n = (minis + 7) // 8
    fats = list(range(2, 2 + mini_fats))
    own = list(range(2 + mini_fats, 2 + mini_fats + n))
    return volume(2 + mini_fats + n, [1], [own] if own else [], [root(start=own[0] if own else END, size=upper + 64 * minis)], fats)


def edged(upper=0):
    """A stream of 4,095 bytes; `upper` is added to its size."""
    return volume(11, [1], [list(range(3, 11))], [root(1, 3, 4096), stream("log", start=0, size=upper + 4095)], [2], list(range(1, 64)) + [END])


good = busy()
# the mini FAT's sector is the mini stream's too
doubled = put(good[:4 * 512] + good[3 * 512:4 * 512] + good[5 * 512:], (60, 3), (cell(2), FREE))
spaces = [
    # accepted: both kinds of stream; a stream of 4,095 bytes; no mini sector, with and without a mini FAT; as many as there are cells
    (good, 0), (edged(), 0), (wide(0, 0), 0), (wide(0, 1), 0), (wide(128, 1), 0), (wide(1, 2), 0),
    # group 16: the mini FAT's chain
    (put(good, (64, 0)), 16), (put(good, (64, 2)), 16), (put(good, (64, 0xFFFFFFFF)), 16), (put(good, (60, END)), 16), (put(good, (60, 12)), 16),
    (put(good, (60, 14)), 16), (put(good, (cell(2), 12), (cell(12), END)), 16), (put(good, (cell(2), 2)), 16), (put(wide(0, 0), (60, FREE)), 16),
    (put(wide(0, 1), (64, 0)), 16),
    # group 16: the mini stream's size and chain; its last sector need not be full
    (busy(size=500), 16), (busy(size=448), 0), (busy(size=576), 16), (busy(size=0), 16), (busy(start=END), 16), (busy(start=12), 16), (busy(start=0), 16),
    (put(good, (cell(3), 12), (cell(12), END)), 16), (wide(129, 1), 16), (wide(8, 0), 16),
    # group 16: the cells
    (put(good, (mini(0), 8)), 16), (put(good, (mini(2), FATSECT)), 16), (put(good, (mini(2), DIFSECT)), 16), (put(good, (mini(8), END)), 16),
    (put(good, (mini(127), 0)), 16), (put(good, (mini(8), FATSECT)), 16),
    # group 17: chains of large streams
    (busy(big=(4, 4608)), 17), (busy(big=(4, 4095)), 17), (busy(big=(5, 4096)), 17), (busy(big=(12, 4096)), 17), (busy(big=(14, 4096)), 17),
    (busy(big=(END, 4096)), 17), (busy(big=(4, 0xFFFFFFFF)), 17), (put(good, (cell(11), 12), (cell(12), END)), 17), (put(good, (cell(11), 4)), 17),
    (put(good, (cell(11), FREE)), 17),
    # group 17: chains of small streams, and empty ones
    (busy(log=(0, 129)), 17), (busy(log=(0, 64)), 17), (busy(log=(2, 64)), 17), (busy(log=(8, 64)), 17), (busy(log=(END, 1)), 17), (busy(log=(0, 0)), 17),
    (put(good, (mini(5), 0)), 17), (put(good, (mini(5), FREE)), 17),
    # rubbish in the upper half of a size (W-205): the root's, a small stream's, a large one's, all of them, that of a stream of 4,095 bytes,
    # that of an empty mini stream
    (busy(size=BIT + 512), 0), (busy(log=(0, ABOVE + 70)), 0), (busy(jets=(1, BIT + 64)), 0), (busy(big=(4, ABOVE + 4096)), 0),
    (busy((0, BIT + 70), (1, BIT + 64), (4, BIT + 4096), size=BIT + 512), 0),
    (busy((0, ABOVE + 70), (1, ABOVE + 64), (4, ABOVE + 4096), size=ABOVE + 512), 0),
    (edged(BIT), 0), (wide(0, 0, BIT), 0), (wide(0, 1, ABOVE), 0), (wide(8, 1, ABOVE), 0),
    (busy(log=(0, BIT + 128)), 0), (busy(size=ABOVE + 448), 0),
    # the lower half alone is judged: the root's in group 16, those of streams in 17 and 18
    (busy(size=BIT + 500), 16), (busy(size=ABOVE + 576), 16), (busy(size=BIT), 16), (busy(start=END, size=ABOVE + 512), 16),
    (wide(8, 0, BIT), 16), (put(wide(0, 0, ABOVE), (1024 + 116, 1)), 16),
    (busy(big=(4, BIT + 4608)), 17), (busy(big=(4, ABOVE + 4095)), 17), (busy(big=(4, BIT)), 17), (busy(big=(END, ABOVE + 4096)), 17),
    (busy(log=(0, ABOVE + 129)), 17), (busy(log=(0, BIT + 64)), 17), (busy(log=(0, ABOVE)), 17), (busy(log=(END, BIT + 1)), 17),
    (busy(jets=(0, BIT + 70)), 18), (busy(jets=(END, ABOVE)), 18), (busy(big=(END, BIT)), 18),
    # a size that stands in the upper half alone
    (busy(size=512 << 32), 16), (busy(log=(0, 70 << 32)), 17), (busy(big=(4, 4096 << 32)), 17),
    # group 18: two owners
    (busy(jets=(0, 70)), 18), (busy(jets=(5, 64)), 18), (busy(big=(END, 0), jets=(4, 4096), log=(4, 4096)), 18),
    (put(busy(start=4, size=4096), (cell(3), FREE)), 18), (doubled, 18),
    # group 18: units that nobody owns
    (busy(big=(END, 0)), 18), (busy(jets=(END, 0)), 18), (put(good, (cell(12), END)), 18), (put(good, (cell(13), 12)), 18), (put(good, (mini(7), END)), 18),
    (put(good, (mini(6), 2)), 18),
    # the lowest number is given
    (put(busy(big=(4, 4095)), (64, 0)), 16), (put(busy(big=(4, 4095)), (cell(12), END)), 17), (put(busy(size=500), (cell(12), END)), 16),
]
write("validate_run", tables + directories + spaces + version4_images.WHOLE)
