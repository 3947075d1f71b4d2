"""Reads by an entry number (02, W-212): entries of every kind, 33 before 24, and streams read to their end in pieces.

Every answer stands here as 02 gives it; bytes come from the plan of the image and from the edits made."""
from groups import CREATE_STORAGE, CREATE_STREAM, Group
from images import V3, V4
from plans import Plan, text

most = 2 ** 64 - 1
greatest = 2 ** 32 - 1


def base(version):
    """Streams on each side of the cutoff, storages, and a directory of more than one sector with blank entries; in version 3 with rubbish above the sizes."""
    tree = {"Site": {"log": text(7, 5000), "Jets": text(11, 70), "deep": {"x": b"!"}}, "empty": b"", "Void": {}, "edge": text(5, 4095), "whole": text(13, 4096)}
    upper = {"": 3, "Site/log": 1, "Site/Jets": 0x80000000, "empty": 1, "edge": greatest} if version is V3 else {}
    return Group(Plan(tree, free=1, free_minis=3, seed=5, waste=0xEE, upper=upper, blank_sectors=1, g=version))


def entries(g):
    """Every entry of the directory, numbers past it, and numbers that have a stream's in their lower bits."""
    streams = {e: p for p, e in g.entries.items() if p in g.rows}
    count = g.edited.g.entries * len(g.edited.directory)
    assert count > len(g.entries) and len(g.edited.directory) > 1
    past = [count, count + 1, count + 31, 2 * count, 2 ** 31, greatest - 1, greatest]
    for e in list(range(count)) + past + [2 ** n + g.entries["Site/log"] for n in (8, 16, 24, 25, 31)]:
        for place in [0, 1, 70, 71, 5001, most]:
            for room in [0, 9]:
                if e not in streams:
                    g.read_at(e, place, 33, room)
                elif place <= len(g.rows[streams[e]]):
                    g.reads_at(streams[e], place, room)
                else:
                    g.read_at(e, place, 24, room)


def positions(g):
    """Over the ends of sectors and mini sectors, up to the length, and past it by the size as read."""
    for path, row in g.rows.items():
        size = len(row)
        for place in sorted({0, 1, 63, 64, 65, 511, 512, 513, 4095, 4096, 4097, size - 1, size}):
            if 0 <= place <= size:
                for room in [0, 1, 65, 513, 8192]:
                    g.reads_at(path, place, room)
        g.reads_at(path, 0, size)
        for place in [size + 1, size + 512, 2 ** 32, 2 ** 32 + size, 2 ** 63, most]:
            g.read_at(g.entries[path], place, 24)
        g.read_at(g.entries[path], size + 1, 24, room=0)


def pieces(g):
    """To the end, in pieces of one length, and of many that pass over the ends of units."""
    for path, row in g.rows.items():
        for room in [1, 7, 64, 512, 513, 4096, 8192]:
            if len(row) <= 100 * room:
                g.pages(path, [room])
        g.pages(path, [1, 63, 64, 65, 7, 511, 512, 513])


def comes_and_goes(g):
    """An entry that is blank, a stream, which grows, blank again and a storage."""
    g.create(CREATE_STREAM, "new", 0)
    e = g.entries["new"]
    g.reads_at("new", 0, 9)
    g.read_at(e, 1, 24)
    g.resize("new", 100, 0)
    g.overwrite("new", 60, text(3, 40), 0)
    g.pages("new", [7])
    g.read_at(e, 101, 24)
    g.remove("new", 0)
    for place in [0, 1, most]:
        g.read_at(e, place, 33)
    g.create(CREATE_STORAGE, "new", 0)
    assert g.entries["new"] == e
    for place in [0, 1, most]:
        g.read_at(e, place, 33)
    # over the cutoff: the same entry, and its bytes in other units
    log = g.entries["Site/log"]
    g.resize("Site/log", 192, 0)
    g.pages("Site/log", [64, 7])
    g.read_at(log, 193, 24)
    g.resize("Site/log", 5000, 0)
    g.pages("Site/log", [512, 64])
    g.remove("Site/log", 0)
    g.read_at(log, 0, 33)


def buffers(g):
    """A work buffer that is just long enough, and two that are not: 2 comes before 33 and 24."""
    need = 13 * (len(g.image) // 512)
    for e, place, number in [(0, 0, 33), (g.entries["Void"], most, 33), (greatest, 0, 33), (g.entries["edge"], 4096, 24)]:
        g.read_at(e, place, number, work=need)
        g.read_at(e, place, 2, work=need - 1)
        g.read_at(e, place, 2, work=0)


def groups():
    made = []
    for version in V3, V4:
        g = base(version)
        for part in entries, positions, pieces, buffers, comes_and_goes:
            part(g)
        made.append(g)
        root = Group(Plan({}, g=version))
        for e in [0, 1, 3, 4, 31, 32, greatest]:
            for place in [0, most]:
                root.read_at(e, place, 33)
        made.append(root)
    return made
