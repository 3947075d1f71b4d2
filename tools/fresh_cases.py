"""Fresh images (02, W-209), in buffers that held rubbish or an accepted image, with all other calls on them.

Every answer stands here as 02 gives it; `fresh.py` works out the image, `edits.py` what it is after each edit, and each stream's bytes, the objects and
their entries follow from the edits made. Up to 65,536 bytes an image has one FAT sector and no DIFAT sector: longer ones are made by `tests/` alone."""
from groups import CREATE_STORAGE, CREATE_STREAM, VALIDATE, Group
from images import V3, V4, byte
from object_cases import site
from plans import Plan, text

most = 2 ** 64 - 1
# versions that there are not; some hold a 3 or a 4 in some of their bytes
UNKNOWN = [0, 1, 2, 5, 0x103, 0x400, 0x10003, 0x80000004, 2 ** 32 - 1]
# a length that both versions have, and the sectors of each
BOTH, SECTORS = 61440, {3: 119, 4: 14}


def rubbish(length):
    return text(11, length)


def other(g):
    return V4 if g is V3 else V3


def nothing_in(g):
    """What is fresh is valid, and has a root and nothing else."""
    g.call(VALIDATE, 0)
    g.finds("")
    g.lists(10)
    g.list(9, 27)
    g.find("Root Entry", 21)
    g.remove("", 31)


def smallest(version):
    """A FAT sector, a directory sector, and no room for more, whatever was there before."""
    length, major = 3 * version.sector, version.major
    made = [Group(img=img) for img in [rubbish(length), bytes(length), b"\xFF" * length]] + [Group(Plan({}, waste=0xEE, g=version))]
    for g in made:
        for parts in [(0, 0, 0), (2, 0, 0), (1, 1, 0), (1, 0, 1), (1, 1, 1), (0, 1, 0)]:
            g.format(32, major, 2, *parts)
        g.format(0, major, 2)
        nothing_in(g)
        g.create(CREATE_STREAM, "log", 0)
        g.resize("log", 1, 26)
        g.resize("log", 4096, 26)
        # the same again is as fresh
        g.format(0, major, 2)
        nothing_in(g)
    return made


def mini_sectors(version):
    """K = 0 with a mini FAT and without; some of a sector's mini sectors, all of them, one more; all cells of the mini FAT, and one more."""
    whole, cells, major = version.sector // 64, version.cells, version.major
    made = []
    for mini_fat, minis in [(0, 0), (1, 0), (3, 0), (1, 1), (1, whole - 1), (1, whole), (1, whole + 1), (2, 2 * whole)] + [(1, cells)] * (version is V3):
        stream = version.need(64 * minis)
        for directory, free in [(1, 0)] + [(2, 1)] * (version is V3 or minis < 2):
            sectors = 1 + directory + mini_fat + stream + free
            g = Group(img=rubbish(version.place(sectors)))
            g.format(32, major, sectors, directory + free + 1, mini_fat, minis)
            g.format(32, major, sectors, directory, mini_fat + free + 1, minis)
            g.format(32, major, sectors, directory, mini_fat, whole * (stream + free) + 1)
            g.format(32, major, sectors, directory, mini_fat, cells * mini_fat + 1)
            g.format(0, major, sectors, directory, mini_fat, minis)
            nothing_in(g)
            g.create(CREATE_STREAM, "log", 0)
            size = 64 * min(minis, 63)
            g.resize("log", size + 1, 26 if minis < 64 else 0)
            g.resize("log", size, 0)
            g.shows("log")
            g.create(CREATE_STREAM, "more", 0)
            g.resize("more", 64 * (minis - size // 64) + 1, 26)
            made.append(g)
    return made


def lengths():
    """Lengths that the version does not have, with any N that could go with them: 1, also where the parts are nothing. An unknown version has those of version 3,
    and is 32 then."""
    of_3 = [1536, 4096, 8192, 8704, 12288, 12800]
    of_4 = [12288]
    made = []
    for length in sorted({0, 1, 511, 512, 1024, 1535, 1537, 2049, 12287, 12289, *of_3, *of_4}):
        g = Group(img=rubbish(length))
        for major, sector, allowed in [(3, 512, of_3), (4, 4096, of_4)] + [(unknown, 512, of_3) for unknown in UNKNOWN[::3]]:
            if length not in allowed:
                for sectors in sorted({length // sector, max(0, length // sector - 1), 2, most}):
                    g.format(1, major, sectors)
                    g.format(1, major, sectors, 0, 0, 1)
            elif major not in (3, 4):
                g.format(32, major, length // sector - 1)
        made.append(g)
    return made


def counts(version):
    """N that is not the buffer's; one of them is by 2^64 bytes. 1 comes before 32."""
    made = []
    for sectors in [2, 3]:
        g = Group(img=rubbish(version.place(sectors)))
        near = [0, 1, sectors - 1, sectors + 1, sectors + 2, sectors + 256]
        far = [sectors + 2 ** (64 - version.shift), sectors + 2 ** 32, sectors + 2 ** 63, most - sectors, most - 1, most]
        for asked in near + far:
            g.format(1, version.major, asked)
            g.format(1, version.major, asked, 0, 1, 9999)
            g.format(1, version.major, asked, most, most, most)
        if version is V3:
            for unknown in UNKNOWN:
                g.format(1, unknown, sectors + 1)
                g.format(32, unknown, sectors)
        g.format(0, version.major, sectors)
        nothing_in(g)
        made.append(g)
    return made


def refused_parts(version):
    """Each reason for 32 by itself, and sums and products that are small in 64 bits, or numbers that are small in 32; each on rubbish and on an accepted image."""
    sectors, cells, major = 14, version.cells, version.major
    large = [2 ** 32, 2 ** 32 + 1, 2 ** 63, most - 40, most - 2, most - 1, most]
    m_of_cells = 2 ** 64 // cells
    parts = [(0, 1, 20), (0, 0, 0), (1, 0, 1), (1, 0, 20), (1, 1, cells + 1), (2, 2, 2 * cells + 1), (13, 1, 0), (1, 13, 0), (14, 0, 0), (12, 1, 1), (1, 10, 64 * 3)]
    parts += [(a, 1, 20) for a in large] + [(1, m, 20) for m in large + [m_of_cells, m_of_cells + 1]]
    parts += [(1, 1, k) for k in large + [2 ** 32 + 20, 2 ** 58, 2 ** 58 + 20, most - 63]]
    parts += [(most, 2, 0), (most - 1, 2, 0), (most - 3, 4, 0), (2 ** 63, 2 ** 63, 0), (2 ** 62, 3 * 2 ** 62, 20), (1, 2 ** 58, 2 ** 58), (1, most, most), (most, most, most),
              (1, 2 ** 51, 2 ** 58 + 20), (most - 2, most - 2, 0), (1, most, 0), (most, 0, 0)]
    if version is V4:
        parts.remove((1, 10, 64 * 3))
        parts.append((1, 10, 64 * 3 + 1))
    g = Group(img=rubbish(version.place(sectors)))
    for turn in range(2):
        for some in parts:
            g.format(32, major, sectors, *some)
        g.format(0, major, sectors, 2, 1, 20)
        g.create(CREATE_STREAM, "log", 0)
        g.resize("log", 20 * 64, 0)
        g.overwrite("log", 0, text(7, 20 * 64), 0)
    g.shows("log")
    for unknown in UNKNOWN:
        g.format(1 if version is V4 else 32, unknown, sectors, 2, 1, 20)
    g.shows("log")
    return [g]


def used(g, version):
    """All that was planned is there to be had: 20 mini sectors, two directory sectors, and every free sector."""
    parts = 7 if version is V3 else 5
    sectors = SECTORS[version.major] - parts
    for path in ["log", "Site/Jets"]:
        if path.startswith("Site"):
            g.create(CREATE_STORAGE, "Site", 0)
        g.create(CREATE_STREAM, path, 0)
        g.create(CREATE_STORAGE, path.upper(), 29)
    for path, length, number in [("log", 5000, 0), ("Site/Jets", 70, 0), ("Site/Jets", 20 * 64 + 1, 26), ("Site/Jets", 20 * 64, 0)]:
        g.resize(path, length, number)
    g.overwrite("Site/Jets", 1000, text(11, 280), 0)
    g.overwrite("log", 4090, text(13, 910), 0)
    g.shows("log")
    g.shows("Site/Jets")
    g.create(CREATE_STREAM, "last", 0)
    g.resize("last", 1, 26)
    blanks = 2 * version.entries - 1 - 4
    names = ["Site/%d" % (i * 37 % 101) for i in range(blanks)]
    for i, name in enumerate(names):
        g.create([CREATE_STREAM, CREATE_STORAGE][i % 2], name, 0)
    g.create(CREATE_STREAM, "more", 30)
    g.lists(4000)
    g.remove("Site", 28)
    for name in names[::-1] + ["Site/jets", "SITE"]:
        g.remove(name, 0)
    g.resize("last", 20 * 64 + 1, 26)
    g.resize("last", 20 * 64, 0)
    g.remove("log", 0)
    g.resize("last", sectors * version.sector + 1, 26)
    g.resize("last", sectors * version.sector, 0)
    g.overwrite("last", sectors * version.sector - 5, b"12345", 0)
    g.reads("last", sectors * version.sector - 100, 8192)
    g.resize("last", 10, 0)
    g.shows("last")
    g.lists(100)
    g.call(VALIDATE, 0)


def in_one_list(version):
    """A fresh image, all of it used, then one of the other version in its place, and this version again; refused ones between them leave all as it is."""
    first, second = version.major, other(version).major
    g = Group(img=rubbish(BOTH))
    g.format(0, first, SECTORS[first], 2, 1, 20)
    nothing_in(g)
    used(g, version)
    g.format(32, first, SECTORS[first], 0, 1, 20)
    g.format(1, first, SECTORS[second], 2, 1, 20)
    g.shows("last")
    g.format(0, second, SECTORS[second], 2, 1, 20)
    g.find("last", 21)
    nothing_in(g)
    used(g, other(version))
    g.format(1, second, 3, 2, 1, 20)
    g.shows("last")
    g.format(0, first, SECTORS[first], 1)
    nothing_in(g)
    g.create(CREATE_STREAM, "last", 0)
    g.resize("last", 1, 26)
    g.resize("last", 4096, 0)
    g.shows("last")
    return [g]


def in_the_place_of_another(version):
    """Of an accepted image with objects nothing is left, and none of a broken one. Refused ones leave them."""
    plan = site(2, version)
    sectors, major = len(plan.image) // version.sector - 1, version.major
    g = Group(plan)
    listing = len(g.listed())
    g.format(32, major, sectors, 1, sectors)
    g.format(1, major, sectors + 1)
    g.format(32 if version is V3 else 1, 2, sectors)
    g.lists(listing)
    g.shows("Site/log")
    g.format(0, major, sectors, 2, 1, 9)
    for path in ["Site", "note"]:
        g.find(path, 21)
    g.find("Site/log", 21)
    nothing_in(g)
    # the streams had bytes where the new ones get theirs
    for path, length in [("log", 5000), ("Jets", 70)]:
        g.create(CREATE_STREAM, path, 0)
        g.resize(path, length, 0)
        g.shows(path)
    g.lists(100)
    g.remove("log", 0)
    g.lists(100)
    made = [g]
    for at, number in [(0, 10), (44, 11)]:
        g = Group(img=byte(plan.image, at, 0x77))
        g.call(VALIDATE, number)
        g.format(32, major, sectors, 0)
        g.call(VALIDATE, number)
        g.format(0, major, sectors, 1, 2, 0)
        nothing_in(g)
        made.append(g)
    return made


def groups():
    made = lengths()
    for version in [V3, V4]:
        made += smallest(version) + mini_sectors(version) + counts(version) + refused_parts(version)
        made += in_one_list(version) + in_the_place_of_another(version)
    return made
