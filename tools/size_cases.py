"""Calls on images with rubbish in the upper half of sizes (02, W-205): they answer and give what they do with zeros there. What is left of it after
each call is told by the image's digest, and checked here.

Every answer stands here as 01 and 02 give it; values and bytes come from the plan of the image and from the edits made."""
from groups import VALIDATE, Group
from plans import Plan, text

WASTE = 0xEE
most = 2 ** 64 - 1
RUBBISH = [1, 0x100, 0x10000, 0x1000000, 0x80000000, 0xCDCDCDCD, 0xFFFFFFFF]


def left(g, **other):
    """The upper half of each size is what the plan gave it, but for these."""
    for path, entry in g.plan.entries.items():
        assert g.edited.upper(entry) == other.get(path, g.plan.upper.get(path, 0)), path


def questions(g):
    """All that changes nothing: finds, listings, reads, edits that leave a stream as it is, and refused calls. They go by the sizes as read; lines that
    all eight bytes would draw are tried too."""
    before = g.image
    g.call(VALIDATE, 0)
    for path in g.plan.entries:
        g.finds(path)
    listing = len(g.plan.listed(g.rows))
    g.lists(listing)
    g.list(listing - 1, 27)
    for path, row in g.rows.items():
        size, upper = len(row), g.edited.upper(g.plan.entries[path])
        g.resize(path, size, 0)
        for place in sorted({0, size // 2, size}):
            g.reads(path, place, 8192)
            g.overwrite(path, place, row[place:], 0)
            g.overwrite(path, place, row[place:] + b"x", 24)
        far = sorted({2 ** 32, 2 ** 32 + size, most} | ({(upper << 32) + size} if upper else set()))
        for place in [size + 1] + far:
            g.read(path, place, 24)
            g.overwrite(path, place, b"", 24)
        for length in far:
            g.resize(path, length, 26)
    for path, number in [("", 23), ("gone", 21), ("a//b", 20)]:
        g.read(path, 0, number)
        g.overwrite(path, 0, b"", number)
        g.resize(path, 0, number)
    assert g.image == before


def every_kind():
    """The root, small, large and empty streams, and a storage between them. Each stream is overwritten and gets other lengths in turn."""
    tree = {"zero": b"", "Site": {"log": text(7, 5000), "Jets": text(11, 70)}, "edge": text(5, 130)}
    upper = {"": 1, "zero": 0xFFFFFFFF, "Site/log": 0x80000000, "Site/Jets": 0x01020304, "edge": 0x10000}
    g = Group(Plan(tree, free=9, free_minis=4, waste=WASTE, fat=3, upper=upper))
    questions(g)
    left(g)
    # an overwrite and the same length again
    for path, place, count in [("Site/log", 500, 600), ("Site/Jets", 60, 10), ("edge", 0, 130), ("zero", 0, 0)]:
        g.overwrite(path, place, text(place + 3, count), 0)
        g.resize(path, len(g.rows[path]), 0)
        g.shows(path)
    left(g)
    # another length: within the last unit, a unit more, and one less; over the cutoff and back; from 0 and to 0. Refused first, for room
    now = {}
    for path, refused, lengths in [("Site/log", [9729, 4095, 257], [5001, 256, 5121, 4096, 1, 0, 4608, 5000]),
                                   ("zero", [4609, 257, 4095], [1, 0, 4096, 0]),
                                   ("Site/Jets", [385, 4609], [4096, 69, 320, 4608, 64, 70]), ("edge", [449, 4609], [129, 4097, 0, 130])]:
        for length in refused:
            g.resize(path, length, 26)
        left(g, **now)
        for length in lengths:
            g.resize(path, length, 0)
            now[path] = 0
            left(g, **now)
            g.shows(path)
        g.lists(200)
    questions(g)
    left(g, **now)
    return [g]


def each_byte():
    """Small images: each byte of the upper half, and all."""
    made = []
    for i, upper in enumerate(RUBBISH):
        g = Group(Plan({"b": text(i + 3, 65), "a": b""}, free=1, free_minis=2, waste=WASTE, upper={"": upper, "a": upper, "b": upper}))
        questions(g)
        g.resize("a", 129, 26)
        g.resize("b", 257, 26)
        left(g)
        g.resize("a", 128, 0)
        left(g, a=0)
        g.shows("a")
        g.shows("b")
        g.resize("b", 64, 0)
        left(g, a=0, b=0)
        g.shows("b")
        g.finds("")
        g.lists(100)
        g.call(VALIDATE, 0)
        made.append(g)
    return made


def large_stream():
    """0 to 4096 with 8 free sectors and with 7, and a large stream that grows, cut in between. All sizes have rubbish above."""
    eight = Group(Plan({"zero": b""}, free=8, waste=WASTE, fat=4, upper={"": 0xFFFFFFFF, "zero": 1}))
    for length in [4097, 2 ** 32, 2 ** 32 + 4096, most]:
        eight.resize("zero", length, 26)
    left(eight)
    eight.resize("zero", 4096, 0)
    left(eight, zero=0)
    eight.shows("zero")
    eight.lists(100)
    seven = Group(Plan({"zero": b""}, free=7, waste=WASTE, upper={"": 0x100, "zero": 0xFFFFFFFF}))
    for length in [4096, 1, 2 ** 32, 0xFFFFFFFF << 32, most]:
        seven.resize("zero", length, 26)
    seven.resize("zero", 0, 0)
    left(seven)
    seven.shows("zero")
    seven.lists(100)
    whole = Group(Plan({"whole": text(13, 4096)}, free=2, waste=WASTE, upper={"whole": 0xFFFFFFFE}))
    questions(whole)
    whole.resize("whole", 5121, 26)
    left(whole)
    whole.resize("whole", 5120, 0)
    left(whole, whole=0)
    whole.shows("whole")
    whole.resize("whole", 4096, 0)
    whole.shows("whole")
    whole.lists(100)
    whole.call(VALIDATE, 0)
    return [eight, seven, whole]


def groups():
    return every_kind() + each_byte() + large_stream()
