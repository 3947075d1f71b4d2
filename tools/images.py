"""Images for the programs of the gate, built field by field from the papers."""
import os
import struct

FREE, END, FATSECT, DIFSECT = 0xFFFFFFFF, 0xFFFFFFFE, 0xFFFFFFFD, 0xFFFFFFFC
NONE = 0xFFFFFFFF
STORAGE, STREAM, ROOT = 1, 2, 5
RED, BLACK = 0, 1


class Geometry:
    """What a version decides: the bytes of a sector, how many cells, DIFAT entries and directory entries it holds, and the bytes of a size that count."""

    def __init__(self, major, shift, size_bytes):
        self.major, self.shift, self.size_bytes = major, shift, size_bytes
        self.sector = 1 << shift
        self.cells = self.sector // 4
        self.difat = self.cells - 1
        self.entries = self.sector // 128
        self.counts_directory = major != 3

    def place(self, s):
        """The byte where a sector starts: sector 0 stands behind the header."""
        return self.sector * (s + 1)

    def size(self, entry):
        """The size as read (02, W-205 and W-207)."""
        return int.from_bytes(entry[120:120 + self.size_bytes], "little")

    def need(self, length):
        """The sectors that so many bytes need."""
        return -(-length // self.sector)


V3, V4 = Geometry(3, 9, 4), Geometry(4, 12, 8)


def version(img):
    """The version of an image that is known to have an allowed length."""
    return V4 if struct.unpack_from("<H", img, 26)[0] == 4 else V3


def words(values):
    return b"".join(struct.pack("<I", v) for v in values)


def header(fats, difats, directory, g=V3):
    first = bytes.fromhex("D0CF11E0A1B11AE1") + bytes(16)
    first += struct.pack("<HHHHH", 0x3E, g.major, 0xFFFE, g.shift, 6) + bytes(6)
    start = difats[0] if difats else END
    count = len(directory) if g.counts_directory else 0
    first += words([count, len(fats), directory[0], 0, 4096, END, 0, start, len(difats)])
    return (first + words(fats[:109] + [FREE] * (109 - len(fats[:109])))).ljust(g.sector, b"\0")


def entry(name=None, kind=0, colour=1, left=NONE, right=NONE, child=NONE, start=END, size=0):
    """One entry's 128 bytes; without a name it is blank. A storage has no start."""
    if name is None:
        return bytes(68) + words([NONE] * 3) + bytes(48)
    text = name.encode("utf-16-le") + bytes(2)
    fields = struct.pack("<HBB", len(text), kind, colour) + words([left, right, child])
    place = struct.pack("<IQ", 0 if kind == 1 else start, size)
    return text + bytes(64 - len(text)) + fields + bytes(36) + place


def root(child=NONE, start=END, size=0):
    return entry("Root Entry", 5, child=child, start=start, size=size)


def stream(name, colour=BLACK, left=NONE, right=NONE, child=NONE, start=END, size=0):
    return entry(name, STREAM, colour, left, right, child, start, size)


def storage(name, colour=BLACK, left=NONE, right=NONE, child=NONE):
    return entry(name, STORAGE, colour, left, right, child)


def patched(e, at, new):
    return e[:at] + bytes(new) + e[at + len(new):]


def image(sectors, fats, difats, directory, entries=(), g=V3):
    """An image of so many sectors with these table sectors, and this chain for the directory, which holds these entries."""
    cells = [FREE] * (g.cells * len(fats))
    for s in fats:
        cells[s] = FATSECT
    for s in difats:
        cells[s] = DIFSECT
    for s, t in zip(directory, directory[1:] + [END]):
        cells[s] = t
    body = [bytes(g.sector) for _ in range(sectors)]
    for k, s in enumerate(fats):
        body[s] = words(cells[g.cells * k:g.cells * (k + 1)])
    for k, s in enumerate(difats):
        numbers = fats[109 + g.difat * k:109 + g.difat * (k + 1)]
        link = difats[k + 1] if k + 1 < len(difats) else END
        body[s] = words(numbers + [FREE] * (g.difat - len(numbers)) + [link])
    entries = list(entries) or [root()]
    entries += [entry()] * (g.entries * len(directory) - len(entries))
    for k, s in enumerate(directory):
        body[s] = b"".join(entries[g.entries * k:g.entries * (k + 1)])
    return header(fats, difats, directory, g) + b"".join(body)


def with_entries(entries, g=V3):
    """An image of one FAT sector and a directory of these entries; blank entries fill its last sector."""
    n = -(-len(entries) // g.entries)
    return image(1 + n, [0], [], list(range(1, 1 + n)), entries, g)


def volume(sectors, directory, chains, entries, mini_fat=(), cells=(), fat=0, g=V3):
    """An image of one FAT sector, with the cells of these further chains, and a mini FAT of these sectors and cells."""
    img = image(sectors, [fat], [], directory, entries, g)
    patches = [(g.place(fat) + 4 * s, t) for c in list(chains) + [list(mini_fat)] for s, t in zip(c, c[1:] + [END])]
    if mini_fat:
        patches += [(60, mini_fat[0]), (64, len(mini_fat))]
    cells = list(cells) + [FREE] * (g.cells * len(mini_fat) - len(cells))
    return put(img, *patches, *[(g.place(mini_fat[i // g.cells]) + 4 * (i % g.cells), c) for i, c in enumerate(cells)])


def put(img, *patches):
    img = bytearray(img)
    for at, value in patches:
        img[at:at + 4] = struct.pack("<I", value)
    return bytes(img)


def byte(img, at, value):
    return img[:at] + bytes([value]) + img[at + 1:]


def write(program, cases):
    """Writes what the program reads, each image behind its length, and the numbers that it must print."""
    out = os.path.join(os.path.dirname(os.path.abspath(__file__)), "..", "crates", program)
    with open(os.path.join(out, "stdin"), "wb") as f:
        for img, _ in cases:
            f.write(struct.pack("<I", len(img)) + img)
    with open(os.path.join(out, "stdout"), "w") as f:
        for _, number in cases:
            f.write("%d\n" % number)
    print(len(cases), "images,", os.path.getsize(os.path.join(out, "stdin")), "bytes")
