"""Calls on one image, each with the line that the program `calls_run` must print of it.

What the program reads, all numbers little-endian: groups of an image's length and its number of calls (4 bytes each), the image, the calls. A
call is its kind, the units of its path, the numbers of its work buffer, the bytes of its buffer, how many of those are given (4 bytes each), an offset,
a length, a position or a valve (8 bytes), and an entry number, a record's number or ticks (4 bytes); then the path's units and the given bytes. Kinds:
0 validate, 1 find, 2 read, 3 list, 4 overwrite, 5 set length, 6 create stream, 7 create storage, 8 remove, 9 format, 10 repair, 11 read at an entry and a
position, 12 summary of a pulse stream, 13 its record of a number, 14 add a valve and ticks to it. 4 writes all bytes of its buffer, all given, and 5 to 8
and 12 to 14 have none. The buffer of 9 has the plan, all given: the version (4 bytes), N, the sectors of directory and mini FAT, and K
(8 bytes each); with fewer bytes it is no call. It leaves buffer and work buffer as they are. The buffer of 10 is the spare buffer. The other bytes of a
buffer are 90, and a work buffer is all 7. What a kind does not look at is 0.

What it prints for each call: number, entry, type, size, count (of a repair how many cells and colours differ), how many numbers of the work buffer are 0, and digests of the buffer and of the image.
A summary's total stands with the sizes, a record's valve with the entries and its ticks with the sizes.
Of what is no call it prints `unknown`, and ends."""
import functools
import itertools
import operator
import struct
import fresh
import pulses
from edits import Edited
from letters import order
from plain import Reader
from plans import printed
from repairs import repaired

VALIDATE, FIND, READ, LIST, OVERWRITE, SET_LENGTH, CREATE_STREAM, CREATE_STORAGE, REMOVE, FORMAT, REPAIR, READ_AT, PULSE_SUMMARY, PULSE_RECORD, PULSE_ADD = range(15)
STORAGE, STREAM, ROOT = 1, 2, 5


# of 16777619, modulo 2 ** 32
POWERS = list(itertools.accumulate(itertools.repeat(16777619, 65536), lambda h, base: h * base % 2 ** 32, initial=1))


@functools.lru_cache(maxsize=64)
def digest(b):
    """From 1 on, each byte is added to 16777619 times what there is; all modulo 2 ** 32."""
    return (POWERS[len(b)] + sum(map(operator.mul, reversed(b), POWERS))) % 2 ** 32


def units(path):
    return path.encode("utf-16-le")


def folded(path):
    """What a path is compared by, and listed."""
    return [order(name) for name in path.split("/")]


class Group:
    """Calls on one image, with their lines. By the calls so far, `rows` has each stream's bytes, `entries` each path's entry number, `storages` the paths of
    storages, and `image` the image's bytes. An image may be given with the plan that a repair brings it back to."""

    def __init__(self, plan=None, img=None):
        self.plan = plan
        self.first = self.image = plan.image if img is None else img
        self.rows = dict(plan.streams) if plan else {}
        self.entries = dict(plan.entries) if plan else {}
        self.storages = set(plan.storages) if plan else set()
        self.edited = Edited(plan.image) if plan and img is None else None
        self.root_size = plan.g.size(plan.root) if plan else 0
        self.calls, self.lines = [], []

    def call(self, kind, number, path="", place=0, at=0, room=0, given=b"", work=None, entry=0, type=0, size=0, count=0, left=b""):
        """One call, at an entry where it is one of those, its answer and values, and the bytes at the front of its buffer after it (else they stay)."""
        need = 13 * (len(self.image) // 512)
        work = need + 3 if work is None else work
        text = units(path)
        assert len(self.image) <= 65536 and work <= 2048 and len(text) // 2 <= 256 and len(given) <= room <= 65536
        self.calls.append(struct.pack("<IIIIIQI", kind, len(text) // 2, work, room, len(given), place, at) + text + given)
        before = given + bytes([90]) * (room - len(given))
        after = left + before[len(left):]
        zeros = 0 if number in (1, 2) or kind == FORMAT else need
        self.lines.append("%d %d %d %d %d %d %d %d\n" % (number, entry, type, size, count, zeros, digest(after), digest(self.image)))

    # ---- a path that leads to an object of the plan, as the plan spells it

    def finds(self, path, spelled=None):
        spelled = path if spelled is None else spelled
        kind = ROOT if spelled == "" else STORAGE if spelled in self.storages else STREAM
        size = self.root_size if kind == ROOT else len(self.rows.get(spelled, b""))
        self.call(FIND, 0, path, entry=self.entries[spelled], type=kind, size=size)

    def reads(self, path, place, room, spelled=None):
        got = self.rows[spelled or path][place:place + room]
        self.call(READ, 0, path, place=place, room=room, count=len(got), left=got)

    def reads_at(self, path, place, room):
        """The stream at this path, by its entry number."""
        got = self.rows[path][place:place + room]
        self.call(READ_AT, 0, at=self.entries[path], place=place, room=room, count=len(got), left=got)
        return len(got)

    def pages(self, path, rooms):
        """The same from its start to its end, in pieces of these lengths over and over, and one piece more, which has no bytes."""
        place = 0
        for room in itertools.cycle(rooms):
            count = self.reads_at(path, place, room)
            if count == 0:
                break
            place += count
        assert place == len(self.rows[path])

    def lists(self, room):
        listing = self.listed()
        assert len(listing) <= room
        self.call(LIST, 0, room=room, count=len(listing), left=listing)

    def listed(self):
        """The listing: paths in order, a storage before all that is below it."""
        paths = sorted((p for p in self.entries if p), key=folded)
        kinds = ["D 0" if p in self.storages else "F %d" % len(self.rows[p]) for p in paths]
        shown = ["/".join(printed(n) for n in p.split("/")) for p in paths]
        return ("objects %d\n" % len(paths) + "".join("%s %s\n" % line for line in zip(kinds, shown))).encode()

    # ---- refusals

    def find(self, path, number, **more):
        self.call(FIND, number, path, **more)

    def read(self, path, place, number, room=16, **more):
        self.call(READ, number, path, place=place, room=room, **more)

    def read_at(self, entry, place, number, room=16, **more):
        self.call(READ_AT, number, at=entry, place=place, room=room, **more)

    def list(self, room, number, **more):
        self.call(LIST, number, room=room, **more)

    # ---- pulse streams: values that are not given are those of a refusal

    def summary(self, path, number, count=0, total=0, **more):
        self.call(PULSE_SUMMARY, number, path, count=count, size=total, **more)

    def record(self, path, k, number, valve=0, ticks=0, **more):
        self.call(PULSE_RECORD, number, path, at=k, entry=valve, size=ticks, **more)

    # ---- edits: the number is what 01 gives for the case, and what the rules for 24 and 26 give must be the same

    def overwrite(self, path, place, given, number, spelled=None, **more):
        spelled = spelled or path
        if number in (0, 24):
            assert number == self.edited.overwrite(self.entries[spelled], place, given), (path, place)
        if number == 0:
            row = self.rows[spelled]
            self.became(spelled, row[:place] + given + row[place + len(given):])
        self.call(OVERWRITE, number, path, place=place, room=len(given), given=given, **more)

    def resize(self, path, length, number, spelled=None, **more):
        spelled = spelled or path
        if number in (0, 26):
            assert number == self.edited.set_length(self.entries[spelled], length), (path, length)
        if number == 0:
            row = self.rows[spelled]
            self.became(spelled, row[:length] + bytes(max(0, length - len(row))))
        self.call(SET_LENGTH, number, path, place=length, **more)

    def add(self, path, valve, ticks, number, spelled=None, **more):
        """A change of length and an overwrite of the last 24 bytes."""
        spelled = spelled or path
        if number in (0, 26):
            row = self.rows[spelled]
            assert number == self.edited.set_length(self.entries[spelled], len(row) + 8), path
        if number == 0:
            tail = pulses.added(row, valve, ticks)
            assert 0 == self.edited.overwrite(self.entries[spelled], len(row) - 16, tail)
            self.became(spelled, row[:-16] + tail)
        self.call(PULSE_ADD, number, path, place=valve, at=ticks, **more)

    def create(self, kind, path, number, **more):
        """A stream or a storage of this path; the names before the last may be spelled otherwise. Their spelling is kept, and that of the last."""
        if number in (0, 29, 30) and path:
            before, _, name = path.rpartition("/")
            above = self.spelled(before)
            assert number == self.edited.create(self.entries[above], name, STREAM if kind == CREATE_STREAM else STORAGE), path
        if number == 0:
            made = (above + "/" if above else "") + name
            self.entries[made] = min(set(range(1, len(self.entries) + 1)) - set(self.entries.values()))
            if kind == CREATE_STREAM:
                self.rows[made] = b""
            else:
                self.storages.add(made)
            self.rearranged()
        self.call(kind, number, path, **more)

    def remove(self, path, number, **more):
        if number in (0, 28, 31):
            spelled = self.spelled(path)
            above = spelled.rpartition("/")[0]
            assert number == self.edited.remove(self.entries[above], self.entries[spelled]), path
        if number == 0:
            del self.entries[spelled]
            self.rows.pop(spelled, None)
            self.storages.discard(spelled)
            self.rearranged()
        self.call(REMOVE, number, path, **more)

    def format(self, number, version, sectors, directory=1, mini_fat=0, minis=0):
        """A fresh image in the place of what is there, of which the length alone counts."""
        plan = version, sectors, directory, mini_fat, minis
        assert number == fresh.answer(len(self.image), *plan), plan
        if number == 0:
            self.begins(fresh.image(*plan), 64 * minis)
        given = struct.pack("<IQQQQ", *plan)
        self.call(FORMAT, number, room=len(given), given=given)

    def repair(self, number, spare=None, **more):
        """With a spare buffer of so many bytes. Where nothing is refused, the image has the objects of the plan, and of the edits so far."""
        spare, count = len(self.image) + 5 if spare is None else spare, 0
        left = b"" if number in (1, 2) else bytes(len(self.image))
        if number == 0:
            image, count = repaired(self.image)
            self.edited = Edited(image)
            self.rearranged()
        self.call(REPAIR, number, room=spare, count=count, left=left, **more)

    def begins(self, image, root_size):
        """A new first image, with nothing but a root."""
        assert len(image) == len(self.image)
        self.edited, self.root_size = Edited(image), root_size
        self.rows, self.entries, self.storages = {}, {"": 0}, set()
        self.rearranged()

    def spelled(self, path):
        """The path as the objects on it are spelled."""
        return next(p for p in self.entries if folded(p) == folded(path))

    def became(self, spelled, row):
        self.rows[spelled] = row
        self.edit_done()

    def edit_done(self):
        """After an edit the image holds every row."""
        self.image = bytes(self.edited.bytes)
        for path, row in self.rows.items():
            assert row == self.edited.contents(self.entries[path]), path

    def rearranged(self):
        """After a creation or a removal too. The image lists what is there, and all other entries are blank."""
        self.edit_done()
        assert self.listed() == Reader(self.image).listing()
        assert sorted(self.edited.blanks() + list(self.entries.values())) == list(range(self.edited.g.entries * len(self.edited.directory)))

    def shows(self, path):
        """The size and bytes of a stream as find and read give them."""
        self.finds(path)
        self.reads(path, 0, 8192)
