"""Overwrites and changes of length, call after call on one image, with finds, reads and listings between them.

Every answer stands here as 01 and 02 give it; the image after each edit is worked out by `edits.py`, and each stream's bytes by the edits made."""
from edits import Edited
from groups import VALIDATE, Group
from images import V3, V4
from plans import Plan, text

most = 2 ** 64 - 1
WASTE = 0xEE
# lengths for which there is never room. Cut to 32 bits, counted in units cut to 32 bits, or rounded up beyond 64 bits, they would be small
absurd = [2 ** 32, 2 ** 32 + 64, 2 ** 32 + 4096, 2 ** 38 + 64, 2 ** 41, 2 ** 41 + 4096, 2 ** 44, 2 ** 44 + 4096, 2 ** 63, most - 4095, most - 4094, most - 511, most - 510,
          most - 63, most - 62, most - 1, most]


def room_for_a_large_stream(version, fat):
    """0 to 4096: with as many free sectors as that needs (8 in version 3, one in version 4), and with one less."""
    need = version.need(4096)
    enough = Group(Plan({"zero": b""}, free=need, waste=WASTE, fat=fat, g=version))
    for length in [4097] + absurd:
        enough.resize("zero", length, 26)
    enough.resize("zero", 4096, 0)
    enough.shows("zero")
    enough.lists(100)
    enough.resize("zero", 4097, 26)
    enough.resize("zero", 4096, 0)
    # there is no mini stream
    enough.resize("zero", 1, 26)
    enough.resize("zero", 0, 0)
    enough.shows("zero")
    enough.lists(100)
    enough.call(VALIDATE, 0)
    less = Group(Plan({"zero": b""}, free=need - 1, waste=WASTE, g=version))
    # no mini stream, so no mini sector either
    for length in [4096, 4097, 5120, 1, 64, 3584, 4095] + absurd:
        less.resize("zero", length, 26)
    less.resize("zero", 0, 0)
    less.overwrite("zero", 0, b"", 0)
    less.overwrite("zero", 1, b"", 24)
    less.overwrite("zero", 0, b"x", 24)
    less.shows("zero")
    less.lists(100)
    return [enough, less]


def over_the_cutoff(version, fat):
    """4095 to 4096 and back, with room for either, and two large streams that take what the other leaves. `cutoff_cases.py` has more of the former."""
    tree = {"edge": text(5, 4095), "whole": text(13, 4096), "zero": b""}
    g = Group(Plan(tree, free=version.need(4096), free_minis=64, waste=WASTE, fat=fat, g=version))
    for length in [4097, 8192] + absurd:
        g.resize("edge", length, 26)
    for path, length in [("edge", 4096), ("whole", 4095), ("edge", 4095), ("whole", 4096)]:
        g.resize(path, length, 0)
        g.shows("edge")
        g.shows("whole")
    for length in [4095, 4094, 4032, 65, 64, 63, 1]:
        g.resize("whole", length, 0)
        g.shows("whole")
        g.resize("whole", 4096, 0)
        g.overwrite("whole", 0, text(13, 4096), 0)
    for length in [8193] + absurd:
        g.resize("whole", length, 26)
    g.lists(100)
    # the free sectors run out, and come back
    g.resize("zero", 4608, 26)
    g.resize("zero", 4096, 0)
    g.resize("whole", 4097, 26)
    g.overwrite("zero", 0, text(19, 4096), 0)
    for path in ["zero", "whole", "edge"]:
        g.shows(path)
    g.resize("zero", 0, 0)
    g.resize("whole", 8193, 26)
    g.resize("whole", 8192, 0)
    g.shows("whole")
    g.resize("zero", 4096, 26)
    g.resize("whole", 4608, 0)
    g.resize("zero", 4096, 26)
    g.resize("whole", 4097, 0)
    g.resize("zero", 4096, 26)
    g.resize("whole", 4096, 0)
    g.resize("zero", 4096, 0)
    g.shows("zero")
    g.resize("whole", 0, 0)
    g.resize("zero", 5000, 0)
    g.resize("whole", 4096, 26)
    g.resize("zero", 4608, 0)
    g.resize("zero", 8192, 0)
    g.shows("zero")
    # an emptied stream may take either kind
    g.resize("edge", 0, 0)
    g.resize("edge", 4096, 26)
    g.resize("zero", 0, 0)
    g.resize("edge", 4096, 0)
    g.resize("whole", 4095, 0)
    g.resize("zero", 4095, 0)
    for path in ["edge", "whole", "zero"]:
        g.shows(path)
    g.lists(100)
    g.call(VALIDATE, 0)
    return [g]


def room_for_small_streams(version):
    """64, 65 and 4095 from 0, with enough free mini sectors and with one too few."""
    g = Group(Plan({"a": b"", "b": b"", "c": b""}, free_minis=64, waste=WASTE, fat=2, g=version))
    for length in absurd:
        g.resize("a", length, 26)
    for path, length, number in [
        ("a", 4095, 0), ("b", 1, 26), ("b", 64, 26), ("b", 65, 26), ("b", 4096, 26), ("a", 4096, 26),
        # one free: 64 fits, 65 does not
        ("a", 4032, 0), ("b", 65, 26), ("b", 64, 0), ("c", 64, 26), ("b", 65, 26), ("a", 4033, 26),
        # 3969 releases none, 3968 one
        ("a", 3969, 0), ("c", 1, 26), ("a", 3968, 0), ("c", 65, 26), ("b", 129, 26), ("b", 65, 0), ("c", 1, 26),
        # two free: 65 fits
        ("a", 3840, 0), ("c", 129, 26), ("c", 65, 0), ("b", 129, 26),
        # 60, then 62, then 64 free
        ("a", 0, 0), ("a", 3841, 26), ("c", 0, 0), ("a", 3969, 26), ("b", 0, 0), ("c", 4095, 0), ("b", 1, 26),
    ]:
        g.resize(path, length, number)
        if number == 0:
            g.shows(path)
    g.lists(100)
    g.call(VALIDATE, 0)
    less = Group(Plan({"a": b"", "b": b""}, free_minis=63, waste=WASTE, g=version))
    less.resize("a", 4095, 26)
    less.resize("a", 4033, 26)
    less.resize("a", 4032, 0)
    less.shows("a")
    less.resize("b", 64, 26)
    less.resize("a", 4033, 26)
    less.lists(100)
    return [g, less]


def two_mini_fat_sectors():
    """More than 128 mini sectors, so that cells stand in two sectors, with free units among the owned ones."""
    g = Group(Plan({"a": text(5, 4000), "b": text(7, 3000), "c": b""}, free_minis=24, waste=WASTE, seed=2, fat=9))
    assert len(g.edited.mini_fats) == 2
    for path, length, number in [("c", 24 * 64 + 1, 26), ("c", 24 * 64, 0), ("a", 100, 0), ("c", 4095, 0), ("b", 4095, 0), ("a", 2000, 26), ("b", 5, 0), ("a", 2000, 0), ("c", 0, 0), ("b", 4095, 0)]:
        g.resize(path, length, number)
        g.shows(path)
    g.overwrite("b", 1, text(29, 4094), 0)
    for path in ["a", "b", "c"]:
        g.shows(path)
    g.lists(100)
    g.call(VALIDATE, 0)
    return [g]


def tails(g):
    """What a cut leaves behind the end must not come back."""
    # 100, 70, 90: zero from 70 to the end of the mini sector; then 128 and 129, at the end of a mini sector and behind it
    for length in [70, 90, 128, 127, 128, 129, 65, 64, 66, 63, 64, 1, 2, 0, 1, 0, 129, 100]:
        g.resize("jets", length, 0)
        g.shows("jets")
        g.overwrite("jets", 0, text(length + 3, length), 0)
    g.lists(200)
    # the same in sectors
    for length in [4500, 5120, 4999, 5000, 5119, 5121, 4608, 4609, 4607, 4096, 4097, 8192, 4096, 0, 4096, 4500]:
        g.resize("log", length, 0)
        g.shows("log")
        g.overwrite("log", length // 2, text(length + 3, min(600, length // 2)), 0)
    g.lists(200)
    # the same length changes nothing, whatever stands behind the end
    for path in g.rows:
        g.resize(path, len(g.rows[path]), 0)
        g.shows(path)
    # streams that grow in turn
    for length in [130, 200, 260, 330]:
        g.resize("jets", length, 0)
        g.resize("Site/tail", length - 1, 0)
        g.overwrite("jets", length - 70, text(length, 70), 0)
    for path in g.rows:
        g.shows(path)
    g.call(VALIDATE, 0)


def overwrites(g):
    """Bytes inside one unit, over the ends of units, the whole stream, none; and those that would end behind the stream."""
    for path, unit in [("log", g.plan.g.sector), ("Site/deep/Pump", 64), ("jets", 64), ("Site/tail", 64)]:
        size = len(g.rows[path])
        for place, count in [(0, 1), (3, 20), (unit - 1, 1), (unit, 1), (unit - 1, 2), (unit - 5, 10), (0, size), (size - 1, 1), (size - 3, 3), (0, 0), (1, 0), (size, 0)]:
            if place + count <= size:
                g.overwrite(path, place, text(place + count + 5, count), 0)
                g.reads(path, max(0, place - 2), count + 4)
        if 3 * unit < size:
            g.overwrite(path, unit // 2, text(23, 2 * unit), 0)
            g.overwrite(path, unit, text(25, 2 * unit), 0)
        g.shows(path)
        for place, count in [(size, 1), (size - 1, 2), (size - 40, 41), (size + 1, 0), (size + 1, 1), (size + unit, 0), (2 ** 32, 0), (2 ** 32, 1), (2 ** 32 + 1, 3), (2 ** 63, 2),
                             (most - 1, 2), (most, 0), (most, 1), (most, 2), (most - 9, 20)]:
            g.overwrite(path, place, text(1, count), 24)
        g.shows(path)
    g.overwrite("void", 0, b"", 0)
    g.overwrite("void", 0, b"x", 24)
    g.overwrite("void", 1, b"", 24)
    g.overwrite("void", most, b"xx", 24)
    # other spellings
    g.overwrite("SITE/Deep/PUMP", 60, b"by another spelling", 0, "Site/deep/Pump")
    g.shows("Site/deep/Pump")
    g.resize("SITE/TAIL", 300, 0, "Site/tail")
    g.overwrite("SITE/tail", 290, b"to the end", 0, "Site/tail")
    g.shows("Site/tail")
    # into a stream that was empty
    g.resize("void", 200, 0)
    g.overwrite("void", 190, text(31, 10), 0)
    g.overwrite("void", 190, text(31, 11), 24)
    g.shows("void")
    g.lists(200)
    g.call(VALIDATE, 0)


def refusals(g):
    """Paths that lead to no stream, and work buffers that are too short. All stays as it was."""
    for path, number in [
        ("", 23), ("Site", 23), ("SITE/deep", 23), ("gone", 21), ("Site/gone", 21), ("Site/log", 21), ("Site/deep/gone/Pump", 21), ("gone/log/x", 21),
        ("log/x", 22), ("void/x", 22), ("Site/tail/gone/x", 22), ("/", 20), ("log/", 20), ("/log", 20), ("Site//tail", 20), ("log/x:", 20), ("gone\\", 20), ("a" * 32, 20), ("Site/ta\0l", 20),
        ("!", 20), ("!log", 20), ("lo!g", 20), ("log!", 20), ("Site!/tail", 20), ("Site/tail!", 20), ("gone/!x", 20), ("gone/x!", 20), ("log/!", 20), ("Site!", 20),
        ("lo g", 21), ('log"', 21), ('Site/"tail', 21), ("log/ ", 22),
    ]:
        for place in [0, 1, 4096, most]:
            g.resize(path, place, number)
            g.overwrite(path, place, b"xy", number)
        g.overwrite(path, most, b"", number)
    need = 13 * (len(g.image) // 512)
    for work in [need - 1, 0]:
        for path in ["log", "jets", "void", "", "Site", "gone", "log/x", "/"]:
            for place in [0, 80, 5100, most]:
                g.resize(path, place, 2, work=work)
            g.overwrite(path, 0, b"xy", 2, work=work)
            g.overwrite(path, most, b"xy", 2, work=work)
    for path in g.rows:
        g.shows(path)
    g.lists(200)
    g.resize("log", 5100, 0, work=need)
    g.overwrite("log", 5098, b"xy", 0, work=need)
    g.overwrite("log", 5099, b"xy", 24, work=need)
    g.resize("log", 4095, 26, work=need)
    g.resize("log", most, 26, work=need)
    g.resize("log", 100, 0, work=need)
    g.shows("log")
    g.resize("log", 5100, 0, work=need)
    g.shows("log")
    g.lists(200)
    g.call(VALIDATE, 0)


def beside_the_exclamation_mark():
    """Names with the units beside it, and with units of which it is a half. The root has it in its name, which is not judged."""
    plan = Plan({"a b": text(3, 70), 'a"b': b"", '"': {" ": text(5, 4096), ' "': {}, "ab\u2100\u0121": text(7, 4)}}, free=2, free_minis=4, waste=WASTE)
    at = Edited(plan.image).entry_at(0)
    name = "!oot!Entr!".encode("utf-16-le")
    plan.image = plan.image[:at] + name + plan.image[at + len(name):]
    g = Group(plan)
    g.call(VALIDATE, 0)
    for path in plan.entries:
        g.finds(path)
    g.lists(200)
    for path, length in [("a b", 130), ('a"b', 64), ('"/ ', 4700), ('"/ab\u2100\u0121', 3)]:
        g.reads(path, 0, 8192)
        g.resize(path, length, 0)
        g.overwrite(path, 1, b"!!", 0)
        g.shows(path)
    for path, number in [("a!b", 20), ("!", 20), ('"/!', 20), ("a b!", 20), ('"!/ ', 20), ("gone/!", 20), ('a "b', 21), ('"/"', 21), (" ", 21), ("a b/ ", 22), ('"', 23), ('"/ "', 23)]:
        if number != 23:
            g.find(path, number)
        g.read(path, 0, number)
        g.overwrite(path, 0, b"!", number)
        g.resize(path, 0, number)
    g.lists(200)
    g.call(VALIDATE, 0)
    return [g]


def many_calls(version, fat):
    """One image, and all its calls. There is room for a log of 8192 bytes."""
    tree = {"jets": text(11, 100), "log": text(7, 5000), "Site": {"tail": text(3, 70), "deep": {"Pump": text(9, 600)}}, "void": b""}
    g = Group(Plan(tree, free=version.need(8192) - version.need(5000), free_minis=16, waste=WASTE, fat=fat, g=version))
    overwrites(g)
    tails(g)
    refusals(g)
    return [g]


def groups():
    third = room_for_a_large_stream(V3, 4) + over_the_cutoff(V3, 11) + room_for_small_streams(V3) + two_mini_fat_sectors() + beside_the_exclamation_mark() + many_calls(V3, 7)
    return third + room_for_a_large_stream(V4, 1) + over_the_cutoff(V4, 5) + room_for_small_streams(V4) + many_calls(V4, 3)
