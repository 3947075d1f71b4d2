"""Pulse streams (02, W-208): sums, records and additions on each side of every line, with rubbish in every free unit and behind every stream's end.

Every answer stands here as 02 gives it, and each stream's pulses are kept beside it; the image after each edit is worked out by `edits.py`."""
from groups import CREATE_STORAGE, CREATE_STREAM, VALIDATE, Group
from images import V3, V4
from plans import Plan, text
from pulses import end, record, trailer

WASTE = 0xEE
GREATEST = 2 ** 32 - 1
PULSES = [(12, 25), (0, 1), (65535, GREATEST), (3, 400), (256, 256), (7, 2 ** 31), (1, 65536), (512, 9)]


class Kept(Group):
    """A group that keeps the preamble's length and the pulses of one stream."""

    def __init__(self, plan, path, preamble=0, kept=()):
        super().__init__(plan)
        self.path, self.preamble, self.kept = path, preamble, list(kept)

    def holds(self, preamble, kept):
        """Gives the stream another length, and the pulses at its end; what stands before them stays, or is zero."""
        self.preamble, self.kept = preamble, list(kept)
        last = end(self.kept)
        self.resize(self.path, preamble + len(last), 0)
        self.overwrite(self.path, preamble, last, 0)

    def adds(self, valve, ticks, path=None):
        self.add(path or self.path, valve, ticks, 0, self.path)
        self.kept.append((valve, ticks))

    def shown(self, *numbers):
        """Its sum, and these records."""
        assert self.rows[self.path][self.preamble:] == end(self.kept)
        self.summary(self.path, 0, len(self.kept), sum(t for _, t in self.kept))
        for k in numbers:
            valve, ticks = self.kept[k]
            self.record(self.path, k, 0, valve, ticks)

    def wrong(self):
        """40 for every call, before 41 and 42, and before 26."""
        self.summary(self.path, 40)
        self.record(self.path, 0, 40)
        self.record(self.path, GREATEST, 40)
        self.add(self.path, 1, 0, 40)
        self.add(self.path, 1, 1, 40)


def base(version, stream=b""):
    """A stream log of these bytes in a storage, and other streams beside it; in version 3 with rubbish above the sizes."""
    tree = {"Site": {"log": stream, "Jets": text(11, 70)}, "empty": b"", "Void": {}, "whole": text(13, 4096)}
    upper = {"": 3, "Site/log": 1, "Site/Jets": 0x80000000, "empty": 1, "whole": GREATEST} if version is V3 else {}
    return Plan(tree, free=20 if version is V3 else 5, free_minis=70, seed=5, waste=WASTE, upper=upper, blank_sectors=1, g=version)


def preambles(version):
    """Of every length from 0 to 64, so that records lie at each place of a mini sector."""
    g = Kept(base(version, text(7, 64) + end(PULSES[:2])), "Site/log", 64, PULSES[:2])
    g.shown(0, 1)
    for p in range(65):
        g.holds(p, PULSES[:p % 5])
        g.shown(*range(len(g.kept)))
        for k in [len(g.kept), len(g.kept) + 1, 2 ** 29, GREATEST]:
            g.record("Site/log", k, 42)
        g.add("Site/log", 1, 0, 41)
        g.adds(*PULSES[5], "site/LOG")
        g.shown(len(g.kept) - 1)
    return [g]


def over_the_ends(version):
    """The first record begins 1 to 7 bytes before the end of a sector or of a mini sector, the others and the trailer lie behind it."""
    g = Kept(base(version, text(7, 8300)), "Site/log")
    for line in [128, 4608, 8192]:
        for before in range(1, 8):
            g.holds(line - before, PULSES[:3])
            g.shown(0, 1, 2)
            g.adds(*PULSES[3])
            g.shown(3)
    # and the trailer
    for before in range(1, 16, 2):
        g.holds(4608 - before - 16, PULSES[:2])
        g.shown(0, 1)
    return [g]


def additions(version):
    """Some in a row, from below each line to behind it: 64 and its multiples, 512, the cutoff, and the ends of sectors."""
    g = Kept(base(version), "Site/log")
    for line in [64, 128, 512, 4096, 4608, 8192]:
        for short in [1, 7, 8, 9, 16]:
            count = min((line - short - 16) // 8, 5)
            g.holds(line - short - 16 - 8 * count, PULSES[:count])
            for pulse in PULSES[:3]:
                g.adds(*pulse)
                g.shown(0, len(g.kept) - 1)
            g.record("Site/log", len(g.kept), 42)
    g.shows("whole")
    g.call(VALIDATE, 0)
    return [g]


def room(version):
    """Streams that fill their units, with just enough free ones for one more record, and with one too few: 26 comes last."""
    made = []
    eight = version.need(4096)
    minis = [(64, 0, 1), (128, 0, 1), (57, 0, 1), (4032, 0, 1)]
    sectors = [(8192, 1, 0), (8185, 1, 0), (4088, eight, 0), (4089, version.need(4097), 0), (4095, version.need(4103), 0)]
    for length, free, spare in minis + sectors:
        count = min((length - 16) // 8, 4)
        stream = text(7, length - 16 - 8 * count) + end(PULSES[:count])
        enough = Kept(Plan({"log": stream}, free=free, free_minis=spare, waste=WASTE, g=version), "log", length - 16 - 8 * count, PULSES[:count])
        enough.add("log", 1, 0, 41)
        enough.adds(9, GREATEST)
        enough.shown(count)
        less = Kept(Plan({"log": stream}, free=max(free - 1, 0), free_minis=max(spare - 1, 0), waste=WASTE, g=version), "log", enough.preamble, PULSES[:count])
        for ticks in [1, GREATEST]:
            less.add("log", 9, ticks, 26)
        less.add("log", 9, 0, 41)
        less.shown(*range(count))
        less.overwrite("log", length - 8, b"\0", 0)
        less.wrong()
        made += [enough, less]
    # to the last that there is room for, in the last mini sector and in one more
    g = Kept(Plan({"log": b"12345" + end([])}, free_minis=1, waste=WASTE, g=version), "log", 5)
    for k in range(13):
        g.adds(k, 1 + k)
        g.shown(k)
    for ticks, number in [(1, 26), (0, 41), (1, 26)]:
        g.add("log", 1, ticks, number)
    g.shown(0, 12)
    return made + [g]


def trailers(version):
    """Each of its numbers off by itself, by one, by a record, and by what 32 bits do not show."""
    g = Kept(base(version), "Site/log")
    for length in range(16):
        g.resize("Site/log", length, 0)
        g.overwrite("Site/log", 0, end([])[:length], 0)
        g.wrong()
    for preamble, count in [(0, 0), (0, 3), (5, 3), (4200, 2)]:
        kept = PULSES[:count]
        total, distance, length = sum(t for _, t in kept), 16 + 8 * count, preamble + 8 * count + 16
        off = [(distance + by, count, total) for by in (-16, -8, -1, 1, 8, 16, 2 ** 31)]
        off += [(distance, count + by, total) for by in (-1, 1, 8, 2 ** 29, 2 ** 30, 7 * 2 ** 29)]
        off += [(distance, count, total + by) for by in (-2 ** 32, -1, 1, 8, 2 ** 32, 2 ** 63)]
        # right together, but before the stream's start; and right in 32 bits alone
        off += [(16 + 8 * k, k, total) for k in ((length - 16) // 8 + 1, length)] + [(0, 2 ** 32 - 2, total), (8, 2 ** 32 - 1, total), (0, 0, 0)]
        g.holds(preamble, kept)
        for d, c, t in off:
            if 0 <= d and 0 <= c and 0 <= t:
                g.overwrite("Site/log", length - 16, trailer(c, t, d), 0)
                g.wrong()
        g.overwrite("Site/log", length - 16, trailer(count, total), 0)
        g.shown(*range(count))
    # a record less, which goes to the preamble then
    g.holds(3, PULSES[:3])
    g.overwrite("Site/log", 27, trailer(2, sum(t for _, t in PULSES[1:3])), 0)
    g.preamble, g.kept = 11, PULSES[1:3]
    g.shown(0, 1)
    return [g]


def records(version):
    """Of the first, one in the middle and the last: either byte of the zero field, and no ticks, with the total that goes with it."""
    g = Kept(base(version), "Site/log")
    for preamble in [0, 5, 4090]:
        g.holds(preamble, PULSES[:5])
        for k in [0, 2, 4]:
            valve, ticks = PULSES[k]
            for zero in [1, 0x80, 0x100, 0x8000]:
                g.overwrite("Site/log", preamble + 8 * k, record(valve, ticks, zero), 0)
                g.wrong()
            g.overwrite("Site/log", preamble + 8 * k, record(valve, 0), 0)
            g.wrong()
            g.overwrite("Site/log", preamble + 40, trailer(5, sum(t for _, t in PULSES[:5]) - ticks), 0)
            g.wrong()
            g.overwrite("Site/log", preamble + 8 * k, record(valve, ticks), 0)
            g.overwrite("Site/log", preamble + 40, trailer(5, sum(t for _, t in PULSES[:5])), 0)
            g.shown(k)
    return [g]


def totals(version):
    """Of 32 bits and one more, and cut to 32 bits."""
    g = Kept(base(version), "Site/log")
    for kept in [[(2, GREATEST), (2, 1)], [(2, 1), (2, GREATEST)], [(2, GREATEST)] * 4, [(2, 2 ** 31)] * 2]:
        g.holds(9, kept)
        g.shown(0, 1)
        g.adds(0, 1)
        g.adds(65535, GREATEST)
        g.shown(2)
        g.overwrite("Site/log", len(g.rows["Site/log"]) - 4, bytes(4), 0)
        g.wrong()
    return [g]


def paths(version):
    """What every call is refused for comes before 40, 41 and 42: the path and the work buffer."""
    g = Kept(base(version, end(PULSES[:2])), "Site/log", 0, PULSES[:2])
    need = 13 * (len(g.image) // 512)
    refused = [("", 23), ("Site", 23), ("Void", 23), ("gone", 21), ("Site/gone", 21), ("gone/log", 21), ("Site/log/x", 22), ("empty/x", 22), ("/", 20), ("Site//log", 20), ("gone/a:b", 20), ("empty/x!", 20)]
    for path, number in refused + [("empty", 40), ("whole", 40), ("Site/Jets", 40)]:
        g.summary(path, number)
        g.record(path, 0, number)
        g.record(path, GREATEST, number)
        g.add(path, 1, 0, number)
        g.add(path, 1, 1, number)
        g.summary(path, number, work=need)
        for work in [need - 1, 0]:
            g.summary(path, 2, work=work)
            g.record(path, 9, 2, work=work)
            g.add(path, 1, 0, 2, work=work)
    g.add("Site/log", 1, 0, 41, work=need)
    g.record("Site/log", 2, 42, work=need)
    g.add("SITE/log", 4, 4, 0, "Site/log", work=need)
    g.kept.append((4, 4))
    g.shown(0, 1, 2)
    return [g]


def between(version):
    """Additions with everything else between them that does not edit the stream: no pulse fades."""
    g = Kept(base(version, text(3, 11) + end(PULSES[:1])), "Site/log", 11, PULSES[:1])
    steps = [
        lambda: g.resize("Site/Jets", 4096, 0),
        lambda: g.overwrite("Site/Jets", 4000, text(9, 96), 0),
        lambda: g.add("Site/Jets", 1, 1, 40),
        lambda: g.create(CREATE_STREAM, "Site/new", 0),
        lambda: g.resize("Site/new", 16, 0),
        lambda: g.overwrite("Site/new", 0, end([]), 0),
        lambda: g.add("Site/new", 8, 88, 0),
        lambda: g.add("Site/new", 8, 0, 41),
        lambda: g.create(CREATE_STORAGE, "site/LOG", 29),
        lambda: g.remove("Site", 28),
        lambda: g.repair(0),
        lambda: g.overwrite("Site/log", 10 ** 6, b"x", 24),
        lambda: g.resize("Site/log", 10 ** 6, 26),
        lambda: g.remove("Site/new", 0),
        lambda: g.add("Site/new", 8, 88, 21),
        lambda: g.resize("Site/Jets", 0, 0),
        lambda: g.format(1, version.major, 1),
        lambda: g.add("Site/log", 5, 0, 41),
        lambda: g.resize("whole", 0, 0),
    ]
    for i, step in enumerate(steps):
        step()
        for valve, ticks in PULSES[i % 4:i % 4 + 3]:
            g.adds(valve, ticks)
        g.shown(0, len(g.kept) // 2, len(g.kept) - 1)
    g.reads("Site/log", 0, 8192)
    g.call(VALIDATE, 0)
    return [g]


def groups():
    parts = preambles, over_the_ends, additions, room, trailers, records, totals, paths, between
    return [g for version in (V3, V4) for part in parts for g in part(version)]
