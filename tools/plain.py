"""A plain reader of compound files: it follows the links and judges nothing. For images that are known to be valid."""
import struct

END, NONE = 0xFFFFFFFE, 0xFFFFFFFF


def u16(b, at):
    return struct.unpack_from("<H", b, at)[0]


def u32(b, at):
    return struct.unpack_from("<I", b, at)[0]


class Reader:
    def __init__(self, image):
        self.image = image
        self.sector_bytes, self.cells_in = 1 << u16(image, 30), 1 << u16(image, 30) - 2
        # in version 3 the upper half of a size does not count
        self.size_bytes = 4 if u16(image, 26) == 3 else 8
        fats, difat = [u32(image, 76 + 4 * i) for i in range(109)], u32(image, 68)
        while difat != END:
            numbers = self.numbers([difat])
            fats, difat = fats + numbers[:-1], numbers[-1]
        self.cells = self.numbers(fats[:u32(image, 44)])
        directory = self.chained(u32(image, 48))
        self.entries = [directory[at:at + 128] for at in range(0, len(directory), 128)]
        self.pool = self.chained(u32(self.entries[0], 116))
        self.mini_cells = self.numbers(self.chain(self.cells, u32(image, 60)))

    def sector(self, s):
        return self.image[self.sector_bytes * (s + 1):self.sector_bytes * (s + 2)]

    def numbers(self, sectors):
        return [u32(self.sector(s), 4 * i) for s in sectors for i in range(self.cells_in)]

    def chain(self, cells, s):
        found = []
        while s != END:
            found.append(s)
            s = cells[s]
        return found

    def chained(self, s):
        return b"".join(self.sector(t) for t in self.chain(self.cells, s))

    def size(self, e):
        return int.from_bytes(e[120:120 + self.size_bytes], "little")

    def stream(self, e):
        """The bytes of a stream's entry."""
        start, size = u32(e, 116), self.size(e)
        if 4096 <= size:
            return self.chained(start)[:size]
        return b"".join(self.pool[64 * m:64 * (m + 1)] for m in self.chain(self.mini_cells, start))[:size]

    def siblings(self, n):
        """The entries of a tree from its top, left sides first."""
        if n == NONE:
            return []
        e = self.entries[n]
        return self.siblings(u32(e, 68)) + [e] + self.siblings(u32(e, 72))

    def objects(self, e=None, before=""):
        """Paths, as a listing prints them, and entries, in the order of the listing."""
        for x in self.siblings(u32(e or self.entries[0], 76)):
            units = [u16(x, i) for i in range(0, u16(x, 64) - 2, 2)]
            path = before + "".join(chr(u) if 0x20 <= u <= 0x7E else "\\%04X" % u for u in units)
            yield path, x
            yield from self.objects(x, path + "/")

    def listing(self):
        lines = ["%s %d %s\n" % ("F" if x[66] == 2 else "D", self.size(x), path) for path, x in self.objects()]
        return ("objects %d\n" % len(lines) + "".join(lines)).encode()
