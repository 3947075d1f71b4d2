"""What a repair (02, W-213) makes of an image whose outcome is accepted: then all four steps are taken. Nothing is judged here, and the chains of the
system and of the streams are whole."""
from edits import COLOUR, MINIS, SECTORS, TYPE, Edited
from images import BLACK, FREE, ROOT, STORAGE, STREAM


def cells(e, kind):
    """How many cells the table of a kind has."""
    return e.g.cells * len(e.mini_fats if kind == MINIS else e.fats)


def entries(e):
    return range(e.g.entries * len(e.directory))


def owned(e):
    """The sectors and the mini sectors that the tables and the chains have."""
    units = [set(e.fats + e.directory + e.mini_fats + e.mini_stream), set()]
    for i in entries(e):
        if e.type(i) == STREAM:
            kind, chain = e.stream(i)
            units[kind] |= set(chain)
    return units


def repaired(image):
    """The outcome, and how many cells and colours differ."""
    e = Edited(image)
    units = owned(e)
    for kind in (SECTORS, MINIS):
        for unit in range(cells(e, kind)):
            if unit >= e.limits[kind] or unit not in units[kind]:
                e.put("<I", e.cell_at(kind, unit), FREE)
    for i in entries(e):
        if e.type(i) in (STORAGE, STREAM, ROOT):
            e.bytes[e.entry_at(i) + COLOUR] = BLACK
    places = [(e.cell_at(kind, unit), 4) for kind in (SECTORS, MINIS) for unit in range(cells(e, kind))] + [(e.entry_at(i) + COLOUR, 1) for i in entries(e)]
    return bytes(e.bytes), sum(image[at:at + n] != e.bytes[at:at + n] for at, n in places)
