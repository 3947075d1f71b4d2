"""Calls by paths with small letters for capitals and capitals for small letters (02, W-211), and with units that only another folding takes as the same.

Every answer stands here as 01 and 02 give it; values and bytes come from the plan of the image and from the edits made."""
from groups import VALIDATE, Group
from letters import BESIDE, ENDS, IN_ORDER, OTHERS, order, respelled
from plans import Plan, text

WASTE = 0xEE
most = 2 ** 64 - 1


def either_case():
    """Small letters in the image and capitals in the path, and the other way, at each end of each range; alone, on the way and in a name of 31 units.

    The ends, what is left out and the units beside them are siblings too: each is found by its own spellings alone."""
    small = {a: text(ord(a), 9 + i) for i, (a, _) in enumerate(ENDS)}
    capital = {b: text(ord(b), 70 + i) for i, (_, b) in enumerate(ENDS)}
    way = {a + b + "x": {b * 31: {}} if i % 2 else {"x" * 30 + a: b""} for i, (a, b) in enumerate(ENDS)}
    tree = {name: b"" for name in reversed(IN_ORDER)}
    g = Group(Plan({"small": small, "CAPITAL": capital, "way": way, "tree": tree}, free=3, free_minis=20, waste=WASTE))
    g.call(VALIDATE, 0)
    for path in g.plan.entries:
        if path:
            g.finds(path)
            g.finds(respelled(path), path)
    for i, (a, b) in enumerate(ENDS):
        for path, other in [("small/" + a, "small/" + b), ("CAPITAL/" + b, "CAPITAL/" + a)]:
            g.reads(other, i, 100, path)
            g.read(other, most, 24)
            g.overwrite(other, 8, b"!", 0, path)
            g.overwrite(other, 200, b"!", 24, path)
            g.resize(other, 64 + i, 0, path)
            g.resize(other, 4096, 26, path)
            g.reads(path, 0, 100)
            g.find(other + "/" + other, 22)
            g.read(other + other, 0, 21)
        on_the_way = b + a + "X"
        for path, number in [("WAY/" + on_the_way, 23), ("WAY/" + on_the_way + "/" + on_the_way, 21)]:
            g.read(path, 0, number)
            g.overwrite(path, 0, b"", number)
            g.resize(path, 0, number)
    g.lists(8192)
    g.call(VALIDATE, 0)
    return [g]


def rooms(pairs):
    """Storages with the first unit of each pair, so that none has the second one."""
    made = []
    for kept, asked in pairs:
        for room in made:
            names = {tuple(order(name)[1]) for name in list(room) + [kept]}
            fits = len(names) == len(room) + 1 and not names & {tuple(order(name)[1]) for name in [asked] + list(room.values())}
            if fits:
                room[kept] = asked
                break
        else:
            made.append({kept: asked})
    return made


def nowhere():
    """One unit of a pair in the image and the other in the path: such a name is not there."""
    found = rooms(BESIDE + OTHERS) + rooms([(b, a) for a, b in BESIDE])
    g = Group(Plan({"r%d" % i: {name: {} if j % 4 == 0 else b"" for j, name in enumerate(room)} for i, room in enumerate(found)}, waste=WASTE, seed=3))
    g.call(VALIDATE, 0)
    for i, room in enumerate(found):
        for kept, asked in room.items():
            g.finds("r%d/%s" % (i, kept))
            g.find("r%d/%s" % (i, asked), 21)
            if (kept, asked) in BESIDE or (asked, kept) in BESIDE:
                g.read("R%d/%s" % (i, asked), 0, 21)
                g.overwrite("R%d/%s" % (i, asked), 0, b"!", 21)
                g.resize("R%d/%s/x" % (i, asked), 0, 21)
    g.lists(8192)
    return [g]


def words():
    """Words of the northern dealers."""
    tree = {"\u00c6r\u00f8": {"Gr\u00f6\u00dfe": text(3, 80), "\u0178\u00fe\u00f7": b""}, "\u0401\u043b\u043a\u0430": {"\u0407\u0436\u0430\u043a": {"\u039f\u03b4\u03cc\u03c2": text(7, 4100)}}}
    g = Group(Plan(tree, free=2, free_minis=2, waste=WASTE))
    for path, spelled in [("\u00e6R\u00d8/GR\u00d6\u00dfE", "\u00c6r\u00f8/Gr\u00f6\u00dfe"),
                          ("\u00e6r\u00f8/\u00ff\u00de\u00f7", "\u00c6r\u00f8/\u0178\u00fe\u00f7"),
                          ("\u0451\u041b\u041a\u0410/\u0457\u0416\u0410\u041a/\u03bf\u0394\u03cc\u03c2", "\u0401\u043b\u043a\u0430/\u0407\u0436\u0430\u043a/\u039f\u03b4\u03cc\u03c2")]:
        g.finds(path, spelled)
        g.reads(path, 0, 8192, spelled)
        g.overwrite(path, 0, b"", 0, spelled)
        g.resize(path, len(g.rows[spelled]) + 1, 0, spelled)
        g.overwrite(path, len(g.rows[spelled]) - 1, b"#", 0, spelled)
        g.shows(spelled)
    for path in ["\u00e6r\u00f8/GROSSE", "\u00c6r\u00f8/Gr\u00f6\u1e9ee", "\u00c6r\u00f8/Gro\u0308\u00dfe", "\u00c6r\u00f8/\u0178\u00fe\u00d7", "\u00c6r\u00f8/y\u00fe\u00f7", "AEr\u00f8",
                 "\u0415\u043b\u043a\u0430", "\u0401\u043b\u043a\u0430/\u0407\u0436\u0430\u043a/\u039f\u0394\u038c\u03c2", "\u0401\u043b\u043a\u0430/\u0407\u0436\u0430\u043a/\u039f\u0394\u03cc\u03a3"]:
        g.find(path, 21)
        g.read(path, most, 21)
        g.overwrite(path, 0, b"", 21)
        g.resize(path, 0, 21)
    g.lists(8192)
    g.call(VALIDATE, 0)
    return [g]


def groups():
    return either_case() + nowhere() + words()
