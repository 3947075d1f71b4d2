"""Images built from a plan, a tree of objects with their bytes; what a call on the image must give is read off the plan.

A storage is a dict from names to objects, a stream is its bytes."""
import random
from images import END, NONE, V3, entry, root, volume
from letters import order, units


def printed(name):
    return "".join(chr(u) if 0x20 <= u <= 0x7E else "\\%04X" % u for u in units(name))


def text(seed, count):
    """So many bytes that differ from stream to stream and from unit to unit."""
    return bytes((seed * i + i // 251) % 256 for i in range(count))


class Plan:
    """The image of a tree: `entries` gives a path's entry number, `streams` a stream's bytes, `storages` the paths of storages.

    Units are dealt out in an order that the seed shuffles, so that chains wander; `free` and `free_minis` units are left over. The byte `waste`
    stands wherever nothing is stored and nothing is judged: in free units, behind a stream's end and a name's, in a stream's state bits. `upper` has
    the upper half of the sizes of streams and of the root, by path, where it is not zero. `blank_sectors` are directory sectors beyond those that the
    objects need. `g` has the sizes of the image's version."""

    def __init__(self, tree, free=0, free_minis=0, seed=1, waste=0, fat=0, upper={}, blank_sectors=0, g=V3):
        self.tree, self.waste, self.fat, self.upper, self.blank_sectors, self.g = tree, bytes([waste]), fat, upper, blank_sectors, g
        self.entries, self.streams, self.storages = {"": 0}, {}, []
        self.number(tree, "")
        self.mix = random.Random(seed)
        self.image = self.laid(tree, free, free_minis)
        self.listing = self.listed(self.streams)

    # ---- the plan

    def number(self, tree, before):
        """Entries in the order of the plan, a storage's objects behind it."""
        for name, what in tree.items():
            path = before + name
            self.entries[path] = len(self.entries)
            if isinstance(what, dict):
                self.storages.append(path)
                self.number(what, path + "/")
            else:
                self.streams[path] = what

    def listed(self, streams):
        """The listing, with these bytes for the streams."""
        return ("objects %d\n" % (len(self.entries) - 1) + "".join(line + "\n" for line in self.lines(self.tree, "", streams))).encode()

    def lines(self, tree, before, streams):
        """The lines of the listing: siblings in order, each storage followed at once by all that is below it."""
        for name in sorted(tree, key=order):
            path, what = before + name, tree[name]
            shown = "/".join(printed(n) for n in path.split("/"))
            if isinstance(what, dict):
                yield "D 0 " + shown
                yield from self.lines(what, path + "/", streams)
            else:
                yield "F %d %s" % (len(streams[path]), shown)

    # ---- the image

    def laid(self, tree, free, free_minis):
        small = {p: b for p, b in self.streams.items() if 0 < len(b) < 4096}
        large = {p: b for p, b in self.streams.items() if 4096 <= len(b)}
        minis = list(range(sum(-(-len(b) // 64) for b in small.values()) + free_minis))
        size = 64 * len(minis)
        g = self.g
        counts = [-(-len(self.entries) // g.entries) + self.blank_sectors, -(-len(minis) // g.cells), g.need(size)] + [g.need(len(b)) for b in large.values()]
        total = 1 + sum(counts) + free
        sectors = [s for s in range(total) if s != self.fat]
        self.mix.shuffle(sectors)
        self.mix.shuffle(minis)
        chains = [[sectors.pop() for _ in range(n)] for n in counts]
        chain_of = dict(zip(large, chains[3:]))
        mini_of = {p: [minis.pop() for _ in range(-(-len(b) // 64))] for p, b in small.items()}
        cells = [0xFFFFFFFF] * (size // 64)
        for c in mini_of.values():
            for m, t in zip(c, c[1:] + [END]):
                cells[m] = t
        starts = {p: c[0] for p, c in list(chain_of.items()) + list(mini_of.items())}
        directory, mini_fat, mini_stream = chains[:3]
        rows = self.rows(tree, mini_stream, size, starts)
        img = volume(total, directory, [c for c in [mini_stream] + list(chain_of.values()) if c], rows, mini_fat, cells, self.fat, g)
        pool = bytearray(self.waste * g.sector * len(mini_stream))
        for p, c in mini_of.items():
            for i, m in enumerate(c):
                part = small[p][64 * i:64 * (i + 1)]
                pool[64 * m:64 * m + len(part)] = part
        for data, chain in [(bytes(pool), mini_stream), (b"", sectors)] + [(large[p], c) for p, c in chain_of.items()]:
            for i, s in enumerate(chain):
                part = data[g.sector * i:g.sector * (i + 1)].ljust(g.sector, self.waste)
                img = img[:g.place(s)] + part + img[g.place(s + 1):]
        return img

    def rows(self, tree, mini_stream, size, starts):
        rows = [None] * len(self.entries)
        self.root = rows[0] = root(self.tops(tree, "", rows, starts), mini_stream[0] if mini_stream else END, self.field("", size))
        return rows

    def field(self, path, size):
        """All eight bytes of a size."""
        return size + (self.upper.get(path, 0) << 32)

    def tops(self, tree, before, rows, starts):
        """Writes the entries of a storage's objects as a balanced tree, all black, and says which is its top."""
        def top(names):
            if not names:
                return NONE
            k = len(names) // 2
            path, what = before + names[k], tree[names[k]]
            left, right = top(names[:k]), top(names[k + 1:])
            if isinstance(what, dict):
                e = entry(names[k], 1, left=left, right=right, child=self.tops(what, path + "/", rows, starts))
            else:
                e = entry(names[k], 2, left=left, right=right, start=starts.get(path, END), size=self.field(path, len(what)))
                end = e[64]
                e = e[:end] + self.waste * (64 - end) + e[64:96] + self.waste * 4 + e[100:]
            rows[self.entries[path]] = e
            return self.entries[path]
        return top(sorted(tree, key=order))
