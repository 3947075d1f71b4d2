#!/usr/bin/env python3
"""Streams and storages created and removed (02, W-203), call after call on one image, with all other calls between them. Rubbish stands in every free unit and
behind every stream's end.

Every answer stands here as 01 and 02 give it; the image after each edit is worked out by `edits.py`, and each stream's bytes, the objects and their entries by
the edits made. `object_cases.py FOLDER` writes these groups alone, as the program `calls_run` reads them, to FOLDER/stdin, and what it must print to
FOLDER/stdout."""
import functools
import itertools
import os
import struct
import sys
from edits import CHILD, COLOUR, Edited
from groups import CREATE_STORAGE, CREATE_STREAM, VALIDATE, Group
from images import RED, V3, V4, byte
from letters import BESIDE, ENDS, IN_ORDER, order
from plans import Plan, text

WASTE = 0xEE
KINDS = CREATE_STREAM, CREATE_STORAGE
UPPER = 0x80000001


def filled(tree, blanks, g, **more):
    """A plan of the tree with so many blank entries; empty streams below the root fill what is left of a sector."""
    def count(objects):
        return sum(1 + (count(o) if isinstance(o, dict) else 0) for o in objects.values())
    filling = -(1 + count(tree) + blanks) % g.entries
    return Plan({**tree, **{"filling %02d" % i: b"" for i in range(filling)}}, waste=WASTE, blank_sectors=blanks // g.entries, g=g, **more)


def reddened(plan, paths):
    """Other colours than the plan's, which are all black: these are red. None of them is the top of its tree, or below a red one."""
    for path in paths:
        plan.image = byte(plan.image, Edited(plan.image).entry_at(plan.entries[path]) + COLOUR, RED)
    edited = Edited(plan.image)
    for holder in plan.storages + [""]:
        no_red_below_red(edited, edited.tree(edited.link(plan.entries[holder], CHILD)), True)
    return plan


def is_red(edited, entry):
    return edited.bytes[edited.entry_at(entry) + COLOUR] == RED


def no_red_below_red(edited, tree, black):
    if tree:
        left, here, right = tree
        assert not (black and is_red(edited, here))
        no_red_below_red(edited, left, is_red(edited, here))
        no_red_below_red(edited, right, is_red(edited, here))


def site(blanks, g, **more):
    """Storages with streams of every kind, an empty storage among them. Their sizes have rubbish above in version 3."""
    tree = {"Site": {"log": text(7, 5000), "Jets": text(11, 70), "deep": {"x": text(3, 4096), "void": b""}}, "Void": {}, "note": b"", "gauge": text(5, 4095)}
    upper = {path: UPPER for path in ["", "Site/log", "Site/Jets", "Site/deep/x", "note", "gauge"]} if g is V3 else {}
    return filled(tree, blanks, g, free=3, free_minis=5, upper=upper, **more)


# ---- each answer

NEW = ["new", "Site/new", "Site/deep/new", "Void/new", "site/DEEP/lof", "VOID/log", "n" * 31]
THERE = ["", "Site", "sITE", "Void", "note", "NOTE", "Site/log", "site/LOG", "Site/deep", "Site/deep/X"]
FULL = ["Site", "SITE", "Site/deep", "site/DEEP"]
MISSING = ["gone/new", "gone/log", "Site/gone/new", "Void/gone/x", "gone/note/x", "log/new"]
THROUGH = ["note/new", "note/gone/new", "Site/log/new", "site/LOG/deep/x", "Site/deep/x/log", "gauge/gauge"]
BAD = ["/", "//", "/new", "new/", "Site//new", "Site/", "/Site/log", "ne!w", "!", "Void/a:b", "a\\b", "\0", "Site/ne\0w", "n" * 32, "n" * 32 + "/new", "Void/" + "n" * 64,
       "gone/a:b", "gone/", "gone//new", "note/x!", "note/x/", "Site/log/new:"]


def refusals(g, blanks):
    """All that is refused, with blank entries and without. 29 comes before 30, and what a path gives before both."""
    for kind in KINDS:
        for path in THERE:
            g.create(kind, path, 29)
        for path in NEW if not blanks else []:
            g.create(kind, path, 30)
    for path in FULL:
        g.remove(path, 28)
    g.remove("", 31)
    for path in NEW:
        g.remove(path, 21)
    for paths, number in [(MISSING, 21), (THROUGH, 22), (BAD, 20)]:
        for path in paths:
            for kind in KINDS:
                g.create(kind, path, number)
            g.remove(path, number)
    need = 13 * (len(g.image) // 512)
    for work in [need - 1, 0]:
        for path in ["", "new", "Site", "note", "gone/x", "note/x", "/"]:
            for kind in KINDS:
                g.create(kind, path, 2, work=work)
            g.remove(path, 2, work=work)


def each_answer(version):
    """Each refusal, then what is new at each path, and all of it removed again by another spelling."""
    made = []
    for blanks in [0, len(NEW)]:
        plan = reddened(site(blanks, version, seed=blanks + 2), ["Site/log", "Site/deep/x"])
        g = Group(plan)
        refusals(g, blanks)
        for kind in KINDS if blanks else []:
            for path in NEW:
                g.create(kind, path, 0, work=13 * (len(g.image) // 512))
                g.create(kind, path.upper(), 29)
                g.finds(path, g.spelled(path))
            for other in KINDS:
                g.create(other, "more", 30)
            g.lists(1200)
            for path in reversed(NEW):
                g.remove(path.lower(), 0)
                g.find(path, 21)
        for path in plan.streams:
            g.shows(path)
        g.call(VALIDATE, 0)
        made.append(g)
    return made


# ---- trees

def inserted(tree, name):
    """A tree of names with one more, for the orders that give different trees."""
    if tree is None:
        return None, name, None
    left, here, right = tree
    return (inserted(left, name), here, right) if order(name) < order(here) else (left, here, inserted(right, name))


def every_tree(names):
    """For every tree that these can have an order in which they give it."""
    orders = {}
    for some in itertools.permutations(names):
        orders.setdefault(functools.reduce(inserted, some, None), some)
    return list(orders.values())


# in order, the first and the last of a few; the greatest of a left side lies deep in it and has a left side itself
NAMES = ["b", "D", "aa", "Ab", "zzz"]
DEEP = ["Ab b aa D zzz", "Ab b D aa zzz", "zzz Ab b aa D", "b Ab aa D zzz"]


def shapes(version):
    """Every tree that up to four siblings can have, and some of five: each sibling is removed from it, another one created, and all are removed then. Nothing else
    in the directory moves, and what is red elsewhere stays red."""
    tree = {"Site": {}, "x": {"l": b"", "m": b"", "r": b""}, "y": b"", "z": b""}
    g = Group(reddened(filled(tree, 5, version), ["x/l", "x/r"]))
    orders = [some for count in range(1, 5) for some in every_tree(NAMES[:count])] + [some.split() for some in DEEP]
    assert len(orders) == 1 + 2 + 5 + 14 + 4
    for number, some in enumerate(orders):
        for out in some:
            for name in some:
                g.create(KINDS[number % 2], "Site/" + name, 0)
            g.remove("Site/" + out, 0)
            g.create(CREATE_STREAM, "Site/c", 0)
            for name in [n for n in some[::-1] if n != out] + ["C"]:
                g.remove("sITE/" + name, 0)
    g.lists(600)
    g.call(VALIDATE, 0)
    return [g]


def red_siblings(version):
    """A tree of seven with red ones in it, in the root and in a storage: creations leave colours as they are, a removal makes all of its tree black, and no other."""
    names = ["a", "b", "c", "d", "e", "f", "g"]
    tree = {**{n: text(i + 3, 70) for i, n in enumerate(names)}, "Store": {n: b"" for n in names}}
    made = []
    # in the storage the top is d, and below it b and f; in the root the eighth moves them
    for inner in itertools.product([True, False], repeat=2):
        red = ["Store/" + n for n in ("b", "f")] if inner[0] else ["Store/" + n for n in ("a", "c", "e", "g")]
        plan = reddened(filled(tree, 3, version, free_minis=4, seed=5), red)
        g = Group(plan)
        g.create(CREATE_STREAM, "Store/aa", 0)
        g.create(CREATE_STORAGE, "bb", 0)
        assert sorted(p for p in g.entries if p and is_red(g.edited, g.entries[p])) == sorted(red)
        g.remove("d", 0)
        assert all(is_red(g.edited, g.entries[p]) for p in red)
        g.remove("Store/d" if inner[1] else "STORE/G", 0)
        assert not any(is_red(g.edited, e) for p, e in g.entries.items() if p)
        for name in "fbgca":
            g.remove("Store/" + name, 21 if name == "g" and not inner[1] else 0)
        g.lists(600)
        g.call(VALIDATE, 0)
        made.append(g)
    return made


# ---- storages, names that come again, rooms

def emptied(version):
    """Storages are removed from the inside, and created again."""
    g = Group(reddened(site(2, version, seed=4), ["Site/log"]))
    for path, number in [("Site", 28), ("Site/deep", 28), ("Site/deep/x", 0), ("Site/deep", 28)]:
        g.remove(path, number)
    for path in ["Site/deep/x", "Site/deep/X/y"]:
        g.create(CREATE_STORAGE, path, 0)
    g.create(CREATE_STREAM, "Site/deep/x/y", 29)
    for path, number in [("Site/deep/x", 28), ("Site/deep/void", 0), ("Site/deep/x/y", 0), ("SITE/DEEP/X", 0), ("Site", 28), ("Site/Deep", 0), ("Site/deep", 21)]:
        g.remove(path, number)
    g.create(CREATE_STREAM, "Site/deep/x", 21)
    for path, number in [("Site/log", 0), ("Site", 28), ("Site/jets", 0), ("Site", 0), ("Site", 21), ("Void", 0)]:
        g.remove(path, number)
    g.create(CREATE_STREAM, "Site/log", 21)
    g.create(CREATE_STREAM, "Site", 0)
    g.create(CREATE_STREAM, "Site/log", 22)
    g.remove("", 31)
    g.lists(1200)
    for path in g.rows:
        g.shows(path)
    g.call(VALIDATE, 0)
    return [g]


def once_more(version):
    """A name that comes again has nothing of what it had: no bytes, and not the same kind. What it had is free."""
    g = Group(site(2, version, seed=6))
    sector = version.sector
    room = sector * (3 + version.need(5000))
    g.resize("Site/log", room + 1, 26)
    g.remove("Site/log", 0)
    g.read("Site/log", 0, 21)
    g.resize("Site/log", 1, 21)
    g.overwrite("Site/log", 0, b"", 21)
    g.create(CREATE_STREAM, "SITE/Log", 0)
    g.shows("Site/Log")
    g.overwrite("Site/Log", 0, b"x", 24)
    g.resize("Site/Log", room + 1, 26)
    g.resize("Site/Log", room, 0)
    g.shows("Site/Log")
    g.overwrite("Site/Log", room - 40, text(9, 40), 0)
    g.remove("site/LOG", 0)
    g.create(CREATE_STORAGE, "Site/LOG", 0)
    g.read("Site/log", 0, 23)
    g.resize("Site/log", 0, 23)
    g.create(CREATE_STREAM, "Site/log", 29)
    g.create(CREATE_STREAM, "Site/log/log", 0)
    g.resize("Site/LOG/log", 100, 0)
    g.shows("Site/LOG/log")
    g.remove("Site/log", 28)
    g.overwrite("Site/LOG/log", 30, text(13, 70), 0)
    g.resize("Site/LOG/log", 4100, 0)
    g.shows("Site/LOG/log")
    g.lists(1200)
    g.remove("Site/log/LOG", 0)
    g.create(CREATE_STREAM, "site/log/LOG", 0)
    g.shows("Site/LOG/LOG")
    g.resize("Site/LOG/LOG", 64, 0)
    g.shows("Site/LOG/LOG")
    g.remove("site/log/log", 0)
    g.remove("site/log", 0)
    g.find("site/log", 21)
    # the mini sectors of Jets are room for another
    g.create(CREATE_STREAM, "tail", 0)
    g.resize("tail", 64 * 7, 26)
    g.remove("Site/Jets", 0)
    g.resize("tail", 64 * 7, 0)
    g.resize("tail", 64 * 7 + 1, 26)
    g.shows("tail")
    g.lists(1200)
    # what stands above the other sizes stays
    for path in ["Site/deep/x", "gauge", "note"]:
        assert g.edited.upper(g.entries[path]) == (UPPER if version is V3 else 0)
        g.remove(path, 0)
    g.call(VALIDATE, 0)
    return [g]


def to_the_last_entry(version, sectors):
    """A directory filled to its last blank entry and emptied again in another order, twice; each object gets bytes, as long as there is room."""
    blanks = sectors * version.entries - 1
    g = Group(Plan({}, free=2, free_minis=12, waste=WASTE, seed=sectors, fat=2, blank_sectors=sectors - 1, g=version))
    for turn in range(2):
        paths = ["Site"] + ["%sobject %d" % ("Site/" if i % 3 == turn else "", i * 37 % 101) for i in range(blanks - 1)]
        for i, path in enumerate(paths):
            g.create(KINDS[i % 2] if i else CREATE_STORAGE, path, 0)
            if path in g.rows and i % 5 == 1:
                room = 64 * len(g.edited.free(1))
                g.resize(path, room + 1, 26)
                g.resize(path, min(room, 100), 0)
                g.overwrite(path, 0, text(i, min(room, 100)), 0)
        for path in ["last", "Site/last"]:
            for kind in KINDS:
                g.create(kind, path, 30)
        g.create(CREATE_STREAM, paths[1], 29)
        g.lists(4000)
        for path in list(g.rows)[:4]:
            g.shows(path)
        g.remove("Site", 28)
        mixed = [paths[(5 * i + turn) % len(paths)] for i in range(len(paths))] if len(paths) % 5 else paths[::-1]
        for path in [p for p in mixed if p != "Site"] + ["Site"]:
            g.remove(path, 0)
        g.lists(10)
        assert len(g.edited.blanks()) == blanks and not g.rows
    g.remove("", 31)
    g.call(VALIDATE, 0)
    return [g]


# ---- names

def letters(version):
    """A name in the other case is the same name (W-211), one that only looks so is another; and siblings come in order."""
    g = Group(filled({"Site": {}}, 50, version))
    for small, capital in ENDS:
        g.create(CREATE_STREAM, "Site/" + small + "x", 0)
        g.create(CREATE_STORAGE, "Site/" + capital + "X", 29)
        g.remove("Site/" + capital + "X", 0)
    for one, other in BESIDE:
        g.create(CREATE_STREAM, one, 0)
        g.create(CREATE_STREAM, other, 0)
        g.remove(other, 0)
        g.remove(one, 0)
    mixed = [IN_ORDER[i * 7 % len(IN_ORDER)] for i in range(len(IN_ORDER))]
    for i, name in enumerate(mixed):
        g.create(KINDS[i % 2], "Site/" + name, 0)
    g.lists(4000)
    for name in [mixed[i * 11 % len(mixed)] for i in range(len(mixed))]:
        g.remove("Site/" + name, 0)
    # names of each length, in one entry after the other
    for count in range(1, 32):
        g.create(CREATE_STREAM, "n" * count, 0)
    for count in range(31, 0, -1):
        g.remove("N" * count, 0)
    g.lists(400)
    g.call(VALIDATE, 0)
    return [g]


def groups():
    made = []
    for version, sectors in [(V3, 9), (V4, 1)]:
        made += each_answer(version) + shapes(version) + red_siblings(version) + emptied(version) + once_more(version)
        made += to_the_last_entry(version, sectors) + letters(version)
    return made


def main(folder):
    os.makedirs(folder, exist_ok=True)
    made = groups()
    with open(os.path.join(folder, "stdin"), "wb") as f:
        for g in made:
            f.write(struct.pack("<II", len(g.first), len(g.calls)) + g.first + b"".join(g.calls))
    with open(os.path.join(folder, "stdout"), "w") as f:
        for g in made:
            f.write("".join(g.lines))
    print(len(made), "images,", sum(len(g.calls) for g in made), "calls")


if __name__ == "__main__":
    main(sys.argv[1])
