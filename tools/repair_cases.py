"""Repairs (02, W-213): each of the four steps by itself and with the others, each that cannot be taken with the number of what is left then, and the buffers.
Rubbish stands in every free unit and behind every stream's end.

Every answer stands here as 02 gives it, and so does what `validate` says of the damage. `repairs.py` works out the image where nothing is refused; it must be the
plan's image to the last byte."""
import struct
from edits import CHILD, COLOUR, LEFT, MINIS, SECTORS, TYPE, Edited
from groups import CREATE_STORAGE, CREATE_STREAM, VALIDATE, Group
from images import DIFSECT, END, FATSECT, FREE, NONE, V3, V4
from object_cases import WASTE, filled, reddened
from plans import Plan, text
from repairs import cells, repaired

START, SIZE = 116, 120
ODD, MIDDLE = 0xFFFFFFFB, 0x80000000


def base(version, seed=3):
    """Streams of every kind, blank entries, two free sectors and three free mini sectors."""
    tree = {"Site": {"log": text(7, 4096), "Jets": text(11, 70)}, "note": b""}
    return filled(tree, 3, version, free=2, free_minis=3, seed=seed)


def bent(plan, changes):
    img = bytearray(plan.image)
    for at, new in changes:
        img[at:at + len(new)] = new
    return bytes(img)


# ---- a change is a place and the bytes that are put there

def word(at, value):
    return at, struct.pack("<I", value)


def size(at, value):
    return at + SIZE, struct.pack("<Q", value)


def cell(e, kind, unit, value):
    return word(e.cell_at(kind, unit), value)


def colour(e, entry, value):
    return e.entry_at(entry) + COLOUR, bytes([value])


# ---- a group: what is damaged, and what a repair makes of it

def mended(plan, changes, number=None, more=False):
    """A second repair finds nothing. What the directory named is there, in units that are whole again."""
    g = Group(plan, img=bent(plan, changes))
    if number is not None:
        g.call(VALIDATE, number)
    g.repair(0)
    assert g.image == repaired(plan.image)[0]
    g.call(VALIDATE, 0)
    g.repair(0)
    for path in plan.streams if more else []:
        g.shows(path)
    if more:
        g.lists(len(g.listed()))
    return g


def refused(plan, changes, number, before=None):
    """Twice, as nothing is changed."""
    g = Group(plan, img=bent(plan, changes))
    if before is not None:
        g.call(VALIDATE, before)
    g.repair(number)
    g.repair(number, spare=len(g.image))
    return g


# ---- steps 1 and 3

def rest(version):
    """The first and the last cells from N on and from K on, with any value; and the last ones before them, which these values break."""
    plan = base(version)
    e, made = Edited(plan.image), []
    for kind, number in [(SECTORS, 12), (MINIS, 16)]:
        limit, total = e.limits[kind], cells(e, kind)
        values = [0, 1, limit - 1, limit, limit + 1, total, MIDDLE, ODD, DIFSECT, FATSECT, END]
        some = [cell(e, kind, limit + i, value) for i, value in enumerate(values)]
        made.append(mended(plan, some + [cell(e, kind, total - 1, 0)], number, True))
        for value in values if version is V3 else []:
            made.append(mended(plan, [cell(e, kind, limit, value), cell(e, kind, limit + 1, FREE), cell(e, kind, total - 1, value)]))
        if version is V3:
            made.append(mended(plan, [cell(e, kind, unit, unit) for unit in range(limit, total)]))
        for value in [limit, total, ODD][:3 if version is V3 else 1]:
            made.append(refused(plan, [cell(e, kind, limit - 1, value), cell(e, kind, limit, 0)], number, number))
    return made


# ---- step 2

def colours(version):
    """Every value for storages, streams and the root. The colour of a blank entry and of one of no type is not touched."""
    names = {"s%03d" % i: {} if i % 3 else b"" for i in range(127)}
    plan = Plan(names, waste=WASTE, g=version)
    e, made = Edited(plan.image), []
    for turn in range(2):
        made.append(mended(plan, [colour(e, i, i + 128 * turn) for i in range(128)], 14))
    plan = base(version)
    e = Edited(plan.image)
    red = [colour(e, i, 0) for i in plan.entries.values()]
    made.append(mended(plan, red, 15, True))
    blank = e.blanks()[-1]
    for value in [1, 2, 255][:3 if version is V3 else 1]:
        made.append(refused(plan, red + [colour(e, blank, value)], 14, 14))
    for kind in [3, 4, 6, 255][:4 if version is V3 else 1]:
        made.append(refused(plan, red + [(e.entry_at(plan.entries["note"]) + TYPE, bytes([kind]))], 14))
    return made


# ---- step 4

def unowned(version):
    """Free units whose cells say something else; what no such cell may say is refused, and so is a chain that is longer or shorter than it should be."""
    plan = base(version)
    e, made = Edited(plan.image), []
    log, jets = e.stream(plan.entries["Site/log"])[1], e.stream(plan.entries["Site/Jets"])[1]
    for kind, chain, never in [(SECTORS, log, {FATSECT: 11, DIFSECT: 11, ODD: 12, e.limits[0]: 12}), (MINIS, jets, {FATSECT: 16, DIFSECT: 16, ODD: 16, e.limits[1]: 16})]:
        free, limit = e.free(kind), e.limits[kind]
        made.append(mended(plan, [cell(e, kind, unit, END) for unit in free], 18, True))
        values = [free[0], free[1], 0, chain[0], chain[-1], limit - 1] if version is V3 else [chain[0]]
        for value in values:
            made.append(mended(plan, [cell(e, kind, free[0], value)], 18))
        # in a ring
        made.append(mended(plan, [cell(e, kind, unit, after) for unit, after in zip(free, free[1:] + free[:1])], 18))
        for value, number in never.items() if version is V3 else []:
            made.append(refused(plan, [cell(e, kind, free[0], value), cell(e, kind, free[1], END)], number))
        made.append(refused(plan, [cell(e, kind, chain[-1], free[0]), cell(e, kind, free[0], END), cell(e, kind, free[1], END)], 17))
        made.append(refused(plan, [cell(e, kind, chain[0], FREE)], 17))
    return made


# ---- all steps

def damage(plan, steps):
    """Something for each of these steps."""
    e, changes = Edited(plan.image), []
    for kind, bit in [(SECTORS, 1), (MINIS, 4)]:
        if steps & bit:
            changes += [cell(e, kind, e.limits[kind] + 1, 0), cell(e, kind, cells(e, kind) - 1, END)]
    if steps & 2:
        changes += [colour(e, 0, 7), colour(e, plan.entries["Site/log"], 0), colour(e, plan.entries["Site"], 255)]
    if steps & 8:
        changes += [cell(e, SECTORS, e.free(SECTORS)[0], END), cell(e, MINIS, e.free(MINIS)[0], END), cell(e, MINIS, e.free(MINIS)[2], 0)]
    return changes


def together(version):
    """Every choice of steps."""
    plan = base(version)
    return [mended(plan, damage(plan, steps), more=steps == 15) for steps in (range(16) if version is V3 else [0, 15])]


def blocked(version):
    """What no step repairs, by itself and with something for each step: the number is that of what the steps left, and only the copy has it."""
    plan = base(version)
    e = Edited(plan.image)
    root, note, log, jets = (e.entry_at(plan.entries[path]) for path in ["", "note", "Site/log", "Site/Jets"])
    units = e.stream(plan.entries["Site/log"])[1]
    minis = e.stream(plan.entries["Site/Jets"])[1]
    shared = [(size(note, 70), word(note + START, minis[0])), (size(note, 4096), word(note + START, units[0]))]
    breaks = [([(0, b"\0")], 10), ([word(44, 0)], 11), ([cell(e, SECTORS, units[-1], ODD)], 12), ([word(48, END)], 13), ([word(root + LEFT, 1)], 14), ([(root + TYPE, b"\1")], 14),
              ([word(root + CHILD, NONE)], 15), ([word(root + SIZE, 65)], 16), ([word(64, 2)], 16), ([cell(e, MINIS, minis[0], FATSECT)], 16), ([size(log, 20000)], 17),
              ([word(jets + START, END)], 17), (shared[0], 18), (shared[1], 18)]
    if version is V4:
        breaks = [([word(40, 2)], 13), ([(log + 124, b"\1")], 17)] + [breaks[i] for i in (2, 7, 13)]
    made = [refused(plan, damage(plan, 15) + list(change), number, [12, number][number < 12]) for change, number in breaks]
    if version is V3:
        made += [refused(plan, change, number, number) for change, number in breaks]
    return made


def shared_sectors(version):
    """Tables in the sectors of something else: what the steps write there spoils it, in the copy alone."""
    bare = Plan({}, g=version)
    directory = Edited(bare.image).directory
    # all cells are from K on, so the third step fills the directory with free cells
    made = [refused(bare, [word(60, directory[0]), word(64, 1)], 14, 16)]
    if version is V3:
        # all are below K, and allowed, so the fourth step does
        full = Plan({}, free_minis=version.cells, blank_sectors=1, g=version)
        last = word(60, Edited(full.image).directory[-1])
        made += [refused(full, [last], 14, 18), refused(full, [last, cell(Edited(full.image), SECTORS, Edited(full.image).limits[0], 0)], 14, 12)]
    # in the last sector of a stream: its bytes are spoilt, and of the groups 18 alone is broken
    plan = base(version)
    e = Edited(plan.image)
    last, old = e.stream(plan.entries["Site/log"])[1][-1], version.place(e.mini_fats[0])
    copy = [word(60, last), (version.place(last), plan.image[old:old + version.sector])]
    limit = struct.pack("<I", 0)
    for more in [[], [(version.place(last) + 4 * e.limits[MINIS], limit)]]:
        made.append(refused(plan, damage(plan, 3) + copy + more, 18, 12))
    return made


def buffers(version):
    """1 comes before 2, and 2 is for either buffer and comes before all groups."""
    plan = base(version)
    img = bent(plan, damage(plan, 15))
    length, need = len(img), 13 * (len(img) // 512)
    short = [(need - 1, length), (need, length - 1), (need, 0), (0, length), (0, 0), (need - 1, length + 9)]
    g = Group(plan, img=img)
    for work, spare in short:
        g.repair(2, spare=spare, work=work)
    g.repair(0, spare=length, work=need)
    g.repair(0, spare=length + 1, work=need)
    g.repair(0, spare=length + 700, work=need + 9)
    for work, spare in short:
        g.repair(2, spare=spare, work=work)
    broken = Group(plan, img=b"\0" + img[1:])
    for work, spare in short:
        broken.repair(2, spare=spare, work=work)
    broken.repair(10, spare=length, work=need)
    made = [g, broken]
    for off in [img[:-1], img[:-512] if version is V4 else img + b"\0", img[:1024], b""]:
        g = Group(img=off)
        for work, spare in short + [(need, length), (need + 9, length + 9)]:
            g.repair(1, spare=spare, work=work)
        made.append(g)
    return made


def in_one_list(version):
    """An accepted image gets black colours and no other change. Repairs stand between all other calls, and change nothing that they show."""
    plan = reddened(base(version), ["Site/log", "note"])
    g = Group(plan)
    g.repair(0)
    assert g.image == base(version).image
    g.repair(0)
    g.create(CREATE_STORAGE, "old", 0)
    g.create(CREATE_STREAM, "old/log", 0)
    g.repair(0)
    g.resize("old/log", 200, 26)
    g.resize("old/log", 192, 0)
    g.overwrite("old/log", 100, text(5, 92), 0)
    g.repair(0)
    g.remove("Site/Jets", 0)
    g.repair(0)
    g.remove("Site", 28)
    for path in g.rows:
        g.shows(path)
    g.lists(len(g.listed()))
    # what no repair brings back is what the calls after it go by
    g = [g, Group(plan, img=bent(plan, damage(plan, 15)))]
    g[1].repair(0)
    free = 2 * version.sector
    g[1].resize("Site/log", 4096 + free + 1, 26)
    g[1].resize("Site/log", 4096 + free, 0)
    g[1].resize("note", 3 * 64 + 1, 26)
    g[1].resize("note", 3 * 64, 0)
    g[1].repair(0)
    g[1].shows("note")
    g[1].reads("Site/log", 4000, 8192)
    g[1].format(0, version.major, len(plan.image) // version.sector - 1, 1, 1, 5)
    g[1].repair(0)
    g[1].lists(10)
    g[1].call(VALIDATE, 0)
    return g


def groups():
    made = []
    for version in [V3, V4]:
        for of in [rest, colours, unowned, together, blocked, shared_sectors, buffers, in_one_list]:
            made += of(version)
    return made
