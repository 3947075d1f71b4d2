"""Changes of length over the cutoff and back (02, W-201), with rubbish in every free unit and behind every stream's end.

Every answer stands here as 01 and 02 give it; the image after each edit is worked out by `edits.py`, and each stream's bytes by the edits made."""
from groups import VALIDATE, Group
from images import V3, V4
from plans import Plan, text

WASTE = 0xEE
most = 2 ** 64 - 1
# lengths for which there is never room; cut to 32 bits, or counted in units cut to 32 bits, there would be
absurd = [2 ** 32, 2 ** 32 + 100, 2 ** 32 + 4096, 2 ** 41 + 4096, 2 ** 44 + 4096, 2 ** 63, most - 4095, most - 510, most]


def work(g):
    """A work buffer of just the numbers that are needed."""
    return 13 * (len(g.image) // 512)


def sectors_to_take(version):
    """4095 to 4096 with as many free sectors as that needs (8 in version 3, one in version 4), and with one less: the 64 mini sectors that would be released do
    not count."""
    need = version.need(4096)
    enough = Group(Plan({"log": text(5, 4095)}, free=need, waste=WASTE, fat=3, g=version))
    for length in [4097, 8192] + absurd:
        enough.resize("log", length, 26)
    enough.resize("log", 4096, 0)
    enough.shows("log")
    enough.lists(100)
    enough.resize("log", 4097, 26)
    # back into the mini sectors that were released, and over it again
    enough.resize("log", 4095, 0, work=work(enough))
    enough.shows("log")
    enough.overwrite("log", 4000, text(9, 95), 0)
    enough.resize("log", 4096, 0, work=work(enough))
    enough.shows("log")
    enough.call(VALIDATE, 0)
    less = Group(Plan({"log": text(5, 4095)}, free=need - 1, waste=WASTE, g=version))
    for length in [4096, 4097, 4608, 8192] + absurd:
        less.resize("log", length, 26)
    less.shows("log")
    less.resize("log", 100, 0)
    less.resize("log", 4096, 26)
    less.resize("log", 4095, 0)
    less.shows("log")
    return [enough, less]


def mini_sectors_to_take(version):
    """4096 to 4095 with 64 free mini sectors and with 63; and where there is no mini stream at all."""
    enough = Group(Plan({"log": text(13, 4096)}, free_minis=64, waste=WASTE, fat=2, seed=5, g=version))
    enough.resize("log", 4097, 26)
    enough.resize("log", 4095, 0)
    enough.shows("log")
    enough.lists(100)
    enough.resize("log", 4097, 26)
    enough.resize("log", 4096, 0)
    enough.shows("log")
    enough.call(VALIDATE, 0)
    less = Group(Plan({"log": text(13, 4096)}, free_minis=63, waste=WASTE, seed=6, g=version))
    for length in [4095, 4094, 4033]:
        less.resize("log", length, 26)
    less.shows("log")
    less.resize("log", 4032, 0)
    less.shows("log")
    less.resize("log", 4033, 26)
    less.resize("log", 4096, 0)
    less.shows("log")
    none = Group(Plan({"log": text(13, 5000)}, free=3, waste=WASTE, g=version))
    for length in [4095, 64, 1]:
        none.resize("log", length, 26)
    none.shows("log")
    none.resize("log", 0, 0)
    return [enough, less, none]


def one_byte(version):
    """1 to 4096 and 4096 to 1, with one free mini sector and with none."""
    g = Group(Plan({"a": b"a", "b": text(3, 4096), "c": text(7, 64)}, free=version.need(4096), free_minis=1, waste=WASTE, fat=1, seed=3, g=version))
    for path, length, number in [
        ("b", 65, 26), ("b", 64, 0), ("c", 65, 26), ("a", 4096, 0), ("c", 4097, 26), ("c", 4096, 0), ("a", 1, 0), ("b", 4096, 0), ("b", 4097, 26),
        ("b", 1, 0), ("a", 129, 26), ("b", 4096, 0), ("c", 1, 0), ("c", 65, 0), ("b", 1, 26), ("c", 64, 0), ("b", 65, 26), ("b", 1, 0),
    ]:
        g.resize(path, length, number)
        g.shows(path)
    g.lists(100)
    g.call(VALIDATE, 0)
    return [g]


def far_and_back(version, free):
    """100 bytes to all free sectors and back, as far as an image of 65,536 bytes has them; other streams around it stay."""
    tree = {"log": text(11, 100), "Site": {"Jets": text(3, 70), "timing": text(7, 4100)}}
    g = Group(Plan(tree, free=free, free_minis=3, waste=WASTE, fat=5, seed=7, g=version))
    whole = free * version.sector
    for length in [whole, whole - version.sector + 1, whole]:
        g.resize("LOG", whole + 1, 26, "log")
        g.resize("log", length, 0)
        g.finds("log")
        for place in [0, 60, 4090, length // 2, length - 20]:
            g.reads("log", place, 8192)
        g.overwrite("log", length - 20, text(9, 20), 0)
        g.overwrite("log", 0, text(13, 4096), 0)
        # its own two mini sectors are free, and three more
        g.resize("log", 321, 26)
        g.resize("log", 320 if length == whole else 100, 0)
        g.shows("log")
    for path in ["Site/Jets", "Site/timing"]:
        g.shows(path)
    g.lists(200)
    g.call(VALIDATE, 0)
    return [g]


def turns(version):
    """Two streams with all units of their kinds: what one is about to release is no room for itself, and room for the other once it is released."""
    g = Group(Plan({"small": text(5, 4095), "large": text(7, 4096)}, waste=WASTE, fat=4, seed=9, g=version))
    for path, length, number in [
        ("small", 4096, 26), ("large", 4095, 26), ("large", 1, 26), ("small", 4000, 0), ("large", 65, 26), ("large", 64, 0), ("small", 4096, 0), ("large", 4096, 26),
        ("large", 4095, 0), ("small", 1, 26), ("large", 4032, 0), ("small", 65, 26), ("small", 64, 0), ("large", 4096, 0), ("small", 4095, 0), ("small", 4096, 26),
    ]:
        g.resize(path, length, number)
        for each in g.rows:
            g.shows(each)
    g.lists(100)
    g.call(VALIDATE, 0)
    return [g]


def tails(version):
    """What a cut left behind the end does not come along, and what stood in the new units does not show."""
    g = Group(Plan({"log": text(11, 5000), "Jets": text(13, 200)}, free=version.need(5000), free_minis=64, waste=WASTE, fat=6, seed=11, g=version))
    for lengths in [[4100, 4096, 100, 4096, 5000], [4097, 130, 127, 4500], [70, 64, 4096, 63, 200, 5000], [4095, 4000, 4095, 4096, 4095, 5000]]:
        for length in lengths:
            g.resize("log", length, 0)
            g.shows("log")
        g.overwrite("log", 0, text(sum(lengths) % 256, len(g.rows["log"])), 0)
    for length in [4096, 200, 4999, 1]:
        g.resize("Jets", length, 0)
        g.overwrite("Jets", length // 3, text(length % 256, length // 2), 0)
        g.shows("Jets")
    g.shows("log")
    g.lists(100)
    g.call(VALIDATE, 0)
    return [g]


def groups():
    made = []
    for version, free in [(V3, 98), (V4, 9)]:
        made += sectors_to_take(version) + mini_sectors_to_take(version) + one_byte(version) + far_and_back(version, free) + turns(version) + tails(version)
    return made
