"""What an overwrite, a change of length, a creation and a removal do to an image, byte by byte, worked out from 01 and 02.

Nothing is judged here: the image is an accepted one of at most 109 FAT sectors."""
import struct
from images import BLACK, END, FREE, NONE, STORAGE, STREAM, entry as entry_bytes, version
from letters import order

SECTORS, MINIS = 0, 1
TYPE, COLOUR, LEFT, RIGHT, CHILD = 66, 67, 68, 72, 76


class Edited:
    """An image, edit after edit."""

    def __init__(self, image):
        self.bytes = bytearray(image)
        self.g = version(image)
        self.unit_bytes = [self.g.sector, 64]
        self.fats = [self.word(76 + 4 * i) for i in range(self.word(44))]
        self.directory = self.chain(SECTORS, self.word(48))
        self.mini_fats = self.chain(SECTORS, self.word(60))
        self.mini_stream = self.chain(SECTORS, self.word(self.entry_at(0) + 116))
        self.limits = [len(image) // self.g.sector - 1, self.size(0) // 64]

    # ---- bytes of the image

    def word(self, at):
        return struct.unpack_from("<I", self.bytes, at)[0]

    def put(self, form, at, value):
        struct.pack_into(form, self.bytes, at, value)

    def entry_at(self, entry):
        return self.g.place(self.directory[entry // self.g.entries]) + 128 * (entry % self.g.entries)

    def size(self, entry):
        return self.g.size(self.bytes[self.entry_at(entry):][:128])

    def upper(self, entry):
        return self.word(self.entry_at(entry) + 124)

    def cell_at(self, kind, unit):
        tables = self.mini_fats if kind == MINIS else self.fats
        return self.g.place(tables[unit // self.g.cells]) + 4 * (unit % self.g.cells)

    def byte_at(self, kind, chain, offset):
        """Where a stream's byte stands."""
        if kind == SECTORS:
            return self.g.place(chain[offset // self.g.sector]) + offset % self.g.sector
        return self.byte_at(SECTORS, self.mini_stream, 64 * chain[offset // 64] + offset % 64)

    # ---- units

    def need(self, kind, length):
        """The units of a kind that a stream of this length needs."""
        return -(-length // self.unit_bytes[kind]) if (length < 4096) == (kind == MINIS) else 0

    def chain(self, kind, unit):
        units = []
        while unit != END:
            units.append(unit)
            unit = self.word(self.cell_at(kind, unit))
        return units

    def free(self, kind):
        """The free units, in rising order."""
        return [u for u in range(self.limits[kind]) if self.word(self.cell_at(kind, u)) == FREE]

    def stream(self, entry):
        """The kind of a stream's units, and these."""
        kind = MINIS if self.size(entry) < 4096 else SECTORS
        return kind, self.chain(kind, self.word(self.entry_at(entry) + 116))

    def contents(self, entry):
        kind, chain = self.stream(entry)
        return bytes(self.bytes[self.byte_at(kind, chain, i)] for i in range(self.size(entry)))

    # ---- edits of a stream, by the number of its entry; they give the number of the answer

    def overwrite(self, entry, offset, new):
        if offset + len(new) > self.size(entry):
            return 24
        kind, chain = self.stream(entry)
        for i, b in enumerate(new):
            self.bytes[self.byte_at(kind, chain, offset + i)] = b
        return 0

    def set_length(self, entry, new):
        old = self.size(entry)
        if new == old:
            return 0
        if any(self.need(kind, new) - self.need(kind, old) > len(self.free(kind)) for kind in (SECTORS, MINIS)):
            return 26
        kind = MINIS if max(old, new) < 4096 else SECTORS
        chain = self.stream(entry)[1]
        at = self.entry_at(entry)
        if 0 < min(old, new) < 4096 <= max(old, new):
            self.put("<I", at + 116, self.move(entry, new))
        elif new < old:
            self.shorten(kind, chain, self.need(kind, new))
        else:
            self.lengthen(kind, chain, self.need(kind, new), old)
        if 0 in (old, new):
            self.put("<I", at + 116, chain[0] if chain else END)
        # all eight bytes, the upper ones zero
        self.put("<Q", at + 120, new)
        return 0

    def move(self, entry, new):
        """Over the cutoff (02, W-201): copies the bytes that are kept into the lowest free units of the other kind, with zeros up to the end of the last one, and
        releases the old chain. Gives the new one's first unit."""
        (kind, chain), kept = self.stream(entry), self.contents(entry)[:new]
        other = SECTORS if kind == MINIS else MINIS
        taken = self.free(other)[:self.need(other, new)]
        for i, b in enumerate(kept.ljust(len(taken) * self.unit_bytes[other], b"\0")):
            self.bytes[self.byte_at(other, taken, i)] = b
        for unit, after in zip(taken, taken[1:] + [END]):
            self.put("<I", self.cell_at(other, unit), after)
        for unit in chain:
            self.put("<I", self.cell_at(kind, unit), FREE)
        return taken[0]

    def shorten(self, kind, chain, count):
        """Cuts a chain to so many units: the last cell is end of chain, the released ones are free, no data byte changes."""
        while len(chain) > count:
            self.put("<I", self.cell_at(kind, chain.pop()), FREE)
        if chain:
            self.put("<I", self.cell_at(kind, chain[-1]), END)

    def lengthen(self, kind, chain, count, old):
        """Adds the lowest free units, in rising order, up to so many, and zeroes all bytes from the old length to the end of the chain."""
        for unit in self.free(kind)[:count - len(chain)]:
            if chain:
                self.put("<I", self.cell_at(kind, chain[-1]), unit)
            self.put("<I", self.cell_at(kind, unit), END)
            chain.append(unit)
        for i in range(old, count * self.unit_bytes[kind]):
            self.bytes[self.byte_at(kind, chain, i)] = 0

    # ---- creation and removal (02, W-203) in a storage or the root, by entry numbers; they give the number of the answer

    def type(self, entry):
        return self.bytes[self.entry_at(entry) + TYPE]

    def link(self, entry, field):
        return self.word(self.entry_at(entry) + field)

    def relink(self, entry, field, target):
        self.put("<I", self.entry_at(entry) + field, target)

    def name(self, entry):
        at = self.entry_at(entry)
        return bytes(self.bytes[at:at + self.bytes[at + 64] - 2]).decode("utf-16-le")

    def write_entry(self, entry, new):
        at = self.entry_at(entry)
        self.bytes[at:at + 128] = new

    def blanks(self):
        return [e for e in range(self.g.entries * len(self.directory)) if self.type(e) == 0]

    def tree(self, top):
        """A tree of siblings: none, or its left side, its top and its right side."""
        return (self.tree(self.link(top, LEFT)), top, self.tree(self.link(top, RIGHT))) if top != NONE else None

    def create(self, holder, name, kind):
        """The lowest blank entry becomes a stream or a storage, and a leaf at its place in the holder's tree."""
        at, field, below = holder, CHILD, self.link(holder, CHILD)
        while below != NONE:
            if order(name) == order(self.name(below)):
                return 29
            at, field = below, LEFT if order(name) < order(self.name(below)) else RIGHT
            below = self.link(at, field)
        if not self.blanks():
            return 30
        new = self.blanks()[0]
        self.write_entry(new, entry_bytes(name, kind))
        self.relink(at, field, new)
        return 0

    def remove(self, holder, entry):
        """A stream is cut to 0; the holder's tree without it is black, and the entry is blank."""
        if self.type(entry) == STORAGE and self.link(entry, CHILD) != NONE:
            return 28
        if entry == 0:
            return 31
        if self.type(entry) == STREAM:
            self.set_length(entry, 0)
        left = without(self.tree(self.link(holder, CHILD)), entry)
        self.relink(holder, CHILD, top(left))
        self.rewrite(left)
        self.write_entry(entry, entry_bytes())
        return 0

    def rewrite(self, tree):
        """Each of a tree is black, and has its links."""
        if tree:
            left, entry, right = tree
            self.bytes[self.entry_at(entry) + COLOUR] = BLACK
            self.relink(entry, LEFT, top(left))
            self.relink(entry, RIGHT, top(right))
            self.rewrite(left)
            self.rewrite(right)


def top(tree):
    return tree[1] if tree else NONE


def members(tree):
    return members(tree[0]) + [tree[1]] + members(tree[2]) if tree else []


def without(tree, entry):
    """The tree without one of its entries. In its place is what stood on its only side; else the greatest of its left side, which leaves its own place in
    the same way."""
    left, here, right = tree
    if here != entry:
        return (without(left, entry), here, right) if entry in members(left) else (left, here, without(right, entry))
    if not (left and right):
        return left or right
    heir = members(left)[-1]
    return without(left, heir), heir, right
