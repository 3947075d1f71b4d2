"""Calls on images of version 4 (02, W-207): sectors of 4,096 bytes, 32 entries a sector, sizes of 64 bits. `edit_cases.py` has more edits of them.

Every answer stands here as 01 and 02 give it; values and bytes come from the plan of the image and from the edits made."""
from groups import VALIDATE, Group
from images import V4
from plans import Plan, text

WASTE = 0xEE
most = 2 ** 64 - 1
SECTOR = 4096


def every_call():
    """Streams on each side of the cutoff, of one sector and of two; 65 mini sectors and more, so that the mini stream has two sectors."""
    tree = {"Site": {"log": text(7, 5000), "Jets": text(11, 70)}, "empty": b"", "Void": {}, "edge": text(5, 4095), "whole": text(13, 4096)}
    g = Group(Plan(tree, free=1, free_minis=3, waste=WASTE, fat=2, seed=3, g=V4))
    assert (len(g.image), len(g.edited.mini_stream), len(g.edited.mini_fats), len(g.edited.directory)) == (10 * SECTOR, 2, 1, 1)
    questions(g)
    reads(g)
    refusals(g)
    edits(g)
    questions(g)
    return [g]


def questions(g):
    """Finds, in either case, and listings: room for exactly the listing, and for one byte less."""
    g.call(VALIDATE, 0)
    for path in g.plan.entries:
        g.finds(path)
        g.finds(path.upper(), path)
    length = len(g.plan.listed(g.rows))
    g.lists(length)
    g.lists(8192)
    g.list(length - 1, 27)
    g.list(0, 27)


def reads(g):
    """Over the ends of sectors and mini sectors, and up to the length."""
    for path, row in g.rows.items():
        size = len(row)
        for place in sorted({0, 1, 63, 64, 65, 511, 512, SECTOR - 1, SECTOR, SECTOR + 1, size - 1, size}):
            if 0 <= place <= size:
                for room in [0, 1, 65, SECTOR, SECTOR + 1, 8192]:
                    g.reads(path, place, room)
        g.reads(path, 0, size)
        for place in [size + 1, size + SECTOR, 2 ** 32, 2 ** 32 + size, 2 ** 63, most]:
            g.read(path, place, 24)
            g.overwrite(path, place, b"", 24)


def refusals(g):
    """Paths that lead to no stream, and work buffers that are too short: W is 104 numbers for each sector and for the header."""
    for path, number in [("", 23), ("Void", 23), ("gone", 21), ("Site/gone", 21), ("empty/x", 22), ("Site/log/gone/x", 22),
                         ("gone/log/x", 21), ("Site//log", 20), ("gone/!", 20), ("a" * 32, 20)]:
        if number != 23:
            g.find(path, number)
        for place in [0, 4096, most]:
            g.read(path, place, number)
            g.overwrite(path, place, b"xy", number)
            g.resize(path, place, number)
    need = 104 * (len(g.image) // SECTOR)
    for work in [need - 1, need // 8, 0]:
        g.call(VALIDATE, 2, work=work)
        g.list(100, 2, work=work)
        for path in ["", "Site/log", "gone", "/"]:
            g.find(path, 2, work=work)
            g.read(path, 0, 2, work=work)
            g.overwrite(path, 0, b"xy", 2, work=work)
            g.resize(path, 1, 2, work=work)
    g.call(VALIDATE, 0, work=need)
    g.read("Site/log", most, 24, work=need)
    g.list(10, 27, work=need)


def edits(g):
    """Overwrites over the ends of units, and lengths within the last unit, a unit more and less, from 0 and to 0, in both spaces."""
    for path, place, count in [("Site/log", SECTOR - 10, 20), ("Site/log", SECTOR, 904), ("whole", 0, 1), ("whole", SECTOR - 1, 1),
                               ("edge", 60, 70), ("edge", 4090, 5), ("Site/Jets", 0, 70)]:
        g.overwrite(path, place, text(place + 3, count), 0)
        g.overwrite(path, len(g.rows[path]) - 5, text(1, 6), 24)
        g.shows(path)
    for path, length, number in [
        # one free sector: a second one for `whole`, a third one for `log`, and one for `empty`
        ("empty", 4097, 26), ("whole", 8193, 26), ("Site/log", 12289, 26), ("whole", 4095, 26), ("Site/log", 193, 26), ("edge", 4097, 26),
        ("Site/Jets", most, 26),
        # over the cutoff and back, each into what another one left
        ("edge", 4096, 0), ("whole", 4095, 0), ("Site/log", 192, 0), ("edge", 1, 26), ("Site/log", 5000, 0), ("whole", 4096, 0), ("edge", 4095, 0),
        ("empty", 4096, 0), ("whole", 4097, 26), ("Site/log", 8193, 26), ("Site/log", 8192, 0), ("Site/log", 4097, 0), ("whole", 4097, 26),
        ("Site/log", 4096, 0),
        ("whole", 4097, 0), ("whole", 8192, 0), ("whole", 8193, 26), ("empty", 0, 0), ("whole", 12288, 0), ("whole", 12289, 26), ("empty", 4096, 26),
        ("whole", 4096, 0),
        ("Site/log", 12288, 0), ("Site/log", 5000, 0), ("empty", 8192, 26), ("empty", 4096, 0), ("empty", 0, 0), ("empty", 2 ** 32, 26), ("empty", most, 26),
        # three free mini sectors, where `Jets` has two
        ("empty", 193, 26), ("empty", 192, 0), ("Site/Jets", 129, 26), ("Site/Jets", 128, 0), ("Site/Jets", 71, 0), ("Site/Jets", 64, 0),
        ("edge", 4033, 0), ("edge", 4095, 0),
        ("empty", 0, 0), ("Site/Jets", 321, 26), ("Site/Jets", 320, 0), ("edge", 0, 0), ("Site/Jets", 4095, 0), ("edge", 321, 26), ("edge", 4096, 0),
        ("edge", 4097, 26),
    ]:
        g.resize(path, length, number)
        assert g.edited.upper(g.plan.entries[path]) == 0
        if number == 0:
            g.shows(path)
            g.overwrite(path, length // 2, text(length + 5, min(20, length - length // 2)), 0)
    for path in g.rows:
        g.resize(path, len(g.rows[path]), 0)
        g.shows(path)


def two_directory_sectors():
    """Entries on each side of 32, which each become longer and shorter in turn."""
    g = Group(Plan({"n%02d" % i: text(i, i) for i in range(1, 41)}, free=1, free_minis=2, waste=WASTE, fat=3, g=V4))
    assert len(g.edited.directory) == 2
    questions(g)
    for i in [1, 30, 31, 32, 33, 40]:
        path = "n%02d" % i
        g.resize(path, 193, 26)
        g.resize(path, 4097, 26)
        g.resize(path, 4096, 0)
        g.shows(path)
        g.resize(path, 193, 26)
        g.resize(path, 192, 0)
        g.overwrite(path, 60, text(i + 50, 132), 0)
        g.shows(path)
        g.resize(path, 0, 0)
        g.resize(path, 4096, 0)
        g.overwrite(path, 4090, b"to end", 0)
        g.overwrite(path, 4090, b"to end!", 24)
        g.shows(path)
        g.resize(path, 0, 0)
        g.resize(path, i, 0)
        g.shows(path)
    questions(g)
    return [g]


def smallest():
    """One FAT sector and one directory sector: only a root, and only empty streams."""
    root = Group(Plan({}, g=V4))
    assert len(root.image) == 12288
    questions(root)
    root.find("Root Entry", 21)
    root.read("", 0, 23)
    for work, number in [(312, 0), (311, 2), (72, 2)]:
        root.call(VALIDATE, number, work=work)
    return [root]


def groups():
    return every_call() + two_directory_sectors() + smallest()
