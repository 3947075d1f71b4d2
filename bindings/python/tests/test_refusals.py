"""Each answer on its occasion, and that a refused call changes no byte."""

from __future__ import annotations

import errno
import io
import pickle
import re
import tempfile
from ctypes import c_uint8, c_uint32
from pathlib import Path
from typing import Any, Callable, List, Tuple
from unittest import mock

import gyomrelas
from gyomrelas import NO_RECORDS, CompoundFile, Plan, library, opened
from gyomrelas.refusals import SENTENCES, answered, refusal

from .samples import BREAKS, ROOT, SITES, Case, broken, reddened, sample, site

Call = Callable[[CompoundFile], Any]

#: Calls that are refused on a sample as it is, with the number.
REFUSED: List[Tuple[int, Call]] = [
    (20, lambda file: file.find("Site/")),
    (20, lambda file: file.read_bytes("Site//log")),
    (20, lambda file: file.openstream("a:b")),
    (20, lambda file: file.overwrite("gone/!", 0, b"")),
    (20, lambda file: file.set_len("Site\\log", 0)),
    (20, lambda file: file.create_stream("x" * 32)),
    (20, lambda file: file.create_storage("a/b\0")),
    (20, lambda file: file.remove("/Site")),
    (20, lambda file: file.write_bytes("Site/log!", b"x")),
    (20, lambda file: file.pulses("!").summary()),
    (20, lambda file: file.find(["Site/log"])),
    (20, lambda file: file.find([""])),
    (21, lambda file: file.find("log")),
    (21, lambda file: file.read_bytes("Site/logs")),
    (21, lambda file: file.openstream(["Sites", "log"])),
    (21, lambda file: file.overwrite("Site/lo", 0, b"")),
    (21, lambda file: file.set_len("Site/Log ", 1)),
    (21, lambda file: file.create_stream("gone/x")),
    (21, lambda file: file.create_storage("gone/x")),
    (21, lambda file: file.remove("Site/x")),
    (21, lambda file: file.write_bytes("gone/x", b"x")),
    (21, lambda file: file.pulses("Site/x").add(1, 1)),
    (22, lambda file: file.find("Site/log/x")),
    (22, lambda file: file.get_size("Site/Jets/x/y")),
    (22, lambda file: file.create_stream("Site/log/x")),
    (22, lambda file: file.create_storage("Site/log/x")),
    (22, lambda file: file.remove("Site/log/x")),
    (22, lambda file: file.write_bytes("Site/log/x", b"")),
    (23, lambda file: file.read_bytes("Site")),
    (23, lambda file: file.openstream("")),
    (23, lambda file: file.get_size([])),
    (23, lambda file: file.overwrite("Site", 0, b"")),
    (23, lambda file: file.set_len("", 0)),
    (23, lambda file: file.write_bytes("Site", b"")),
    (23, lambda file: file.pulses("Site").record(0)),
    (24, lambda file: file.read_bytes("Site/log", 5001)),
    (24, lambda file: file.read_bytes("Site/log", 2**64 + 5)),
    (24, lambda file: file.read_at(2, 5001, 1)),
    (24, lambda file: file.overwrite("Site/log", 4998, b"abc")),
    (24, lambda file: file.overwrite("Site/log", 2**64 + 5, b"abc")),
    (26, lambda file: file.set_len("Site/log", 2**64 + 5000)),
    (26, lambda file: file.write_bytes("Site/log", bytes(100_000))),
    (26, lambda file: file.openstream("Site/Jets").write(bytes(100_000))),
    (26, lambda file: file.openstream("Site/Jets").truncate(2**70)),
    (28, lambda file: file.remove("Site")),
    (29, lambda file: file.create_stream("Site/log")),
    (29, lambda file: file.create_stream("SITE/jets")),
    (29, lambda file: file.create_storage("site")),
    (29, lambda file: file.create_storage("")),
    (31, lambda file: file.remove("")),
    (33, lambda file: file.read_at(0, 0, 1)),
    (33, lambda file: file.read_at(1, 9999, 1)),
    (33, lambda file: file.read_at(4096, 0, 1)),
    (33, lambda file: file.read_at(2**32 + 2, 0, 1)),
    (40, lambda file: file.pulses("Site/log").summary()),
    (40, lambda file: file.pulses("Site/Jets").record(0)),
    (40, lambda file: file.pulses("Site/log").add(1, 0)),
    (40, lambda file: list(file.pulses("Site/log"))),
]


class OnTheirOccasion(Case):
    def test_calls_that_are_refused_change_no_byte(self) -> None:
        for name in SITES:
            file, before = site(name), sample(name)
            for number, call in REFUSED:
                self.refused(number, call, file)
                self.assertTrue(file.tobytes() == before, (name, number))

    def test_lengths_that_are_not_allowed(self) -> None:
        image = sample()
        for length in (0, 1, 1024, 1535, 1537, len(image) - 1):
            self.refused(1, CompoundFile, image[:length])
            self.refused(1, gyomrelas.validate, image[:length])
            self.refused(1, gyomrelas.repair, image[:length])
        self.refused(1, CompoundFile, sample("site4.cfb")[:-512])
        for call in (CompoundFile, gyomrelas.validate, gyomrelas.repair):
            self.refused(1, call, bytes(gyomrelas.GREATEST_IMAGE + 512))

    def test_a_long_file_is_refused_unread(self) -> None:
        class Source(io.RawIOBase):
            """Has bytes without end, and counts those that are read."""

            count = 0

            def read(self, size: int = -1) -> bytes:
                piece = bytes(min(size, 1 << 24))
                self.count += len(piece)
                return piece

        source = Source()
        self.refused(1, CompoundFile, source)
        self.assertEqual(source.count, gyomrelas.GREATEST_IMAGE + 1)
        with tempfile.TemporaryDirectory() as folder:
            path = Path(folder, "long.cfb")
            with open(path, "wb") as file:
                file.truncate(1 << 40)
            self.assertEqual(self.refused(1, gyomrelas.open, path).filename, str(path))

    def test_images_that_break_a_rule(self) -> None:
        for number in BREAKS:
            self.refused(number, CompoundFile, broken(number))
            self.refused(number, CompoundFile, broken(number), "r")
            self.refused(number, gyomrelas.validate, broken(number))

    def test_too_little_room(self) -> None:
        for length in (5121, 4095, 1):
            file = site()
            self.refused(26, file.set_len, "Site/log", length)
            self.assertTrue(file.tobytes() == sample())

    def test_a_listing_that_is_too_long(self) -> None:
        file = gyomrelas.new(1 << 20, objects=300)
        for number in range(300):
            file.create_stream(f"a name of some length {number}")
        with mock.patch.object(opened, "LONGEST_LISTING", 8192):
            self.refused(27, file.listdir)
            self.refused(27, file.walk)
        with mock.patch.object(opened, "LONGEST_LISTING", 16_384):
            self.assertEqual(len(file.listdir()), 300)

    def test_a_work_buffer_that_is_too_short(self) -> None:
        """No call of the package lends one: the answer is the library's own."""
        image = sample()
        need = library.work_need(len(image))
        buffer, work = (c_uint8 * len(image)).from_buffer_copy(image), (c_uint32 * need)()
        answered(library.validate(buffer, len(image), work, need))
        self.refused(2, answered, library.validate(buffer, len(image), work, need - 1))

    def test_no_blank_entry(self) -> None:
        # the directory of site.cfb has four entries
        for call in ("create_stream", "create_storage"):
            file = site()
            self.refused(30, getattr(file, call), "Site/new")
            self.assertTrue(file.tobytes() == sample())
        self.refused(30, site().write_bytes, "new", b"x")

    def test_plans_that_do_not_fit(self) -> None:
        self.refused(32, gyomrelas.new, 65_536, objects=1000)
        self.refused(1, gyomrelas.new, 65_535)
        self.refused(1, gyomrelas.new, 1 << 27)
        good = Plan.for_size(3, 65_536, 10, 2_000)
        self.refused(32, good._replace(version=5).image)
        self.refused(32, good._replace(version=2**32 + 3).image)
        self.refused(32, good._replace(directory_sectors=0).image)
        self.refused(32, good._replace(mini_fat_sectors=0).image)
        self.refused(32, good._replace(directory_sectors=2**64 + 1).image)
        self.refused(1, good._replace(sectors=2**64 + 127).image)
        self.refused(1, good._replace(sectors=1).image)

    def test_pulses(self) -> None:
        file = site()
        file.overwrite("Site/log", 5000 - 16, NO_RECORDS)
        pulses = file.pulses("Site/log")
        pulses.add(1, 1)
        before = file.tobytes()
        self.refused(41, pulses.add, 1, 0)
        self.refused(42, pulses.record, 1)
        self.refused(42, pulses.record, 2**32)
        self.assertTrue(file.tobytes() == before)
        for _ in range(14):
            pulses.add(1, 1)
        before = file.tobytes()
        # 5,120 bytes are full
        self.refused(26, pulses.add, 1, 1)
        self.refused(41, pulses.add, 1, 0)
        self.assertTrue(file.tobytes() == before)

    def test_a_new_stream_without_room_is_not_there(self) -> None:
        file = gyomrelas.new(65_536)
        file.write_bytes("a", b"a" * 100)
        before = file.tobytes()
        self.refused(26, file.write_bytes, "b", bytes(65_536))
        self.assertTrue(file.tobytes() == before)
        # where an entry of the storage is red, it is black then, and nothing else differs
        file = CompoundFile(reddened(sample("site4.cfb")))
        self.refused(26, file.write_bytes, "Site/b", bytes(65_536))
        self.assertTrue(file.tobytes() == sample("site4.cfb"))


class AsExceptions(Case):
    def test_they_are_what_python_has_for_their_case(self) -> None:
        classes = {21: FileNotFoundError, 22: NotADirectoryError, 23: IsADirectoryError, 29: FileExistsError}
        for number in SENTENCES:
            error = refusal(number)
            self.assertIsInstance(error, OSError)
            for own, kind in classes.items():
                self.assertEqual(isinstance(error, kind), own == number)
        numbers = {26: errno.ENOSPC, 30: errno.ENOSPC, 28: errno.ENOTEMPTY, 21: errno.ENOENT, 10: errno.EINVAL}
        for number, system in numbers.items():
            self.assertEqual(refusal(number).errno, system)
        with self.assertRaises(FileNotFoundError):
            site().read_bytes("gone")
        with self.assertRaises(FileExistsError):
            site().create_stream("Site/log")
        with self.assertRaises(IsADirectoryError):
            site().openstream("Site")
        with self.assertRaises(NotADirectoryError):
            site().openstream("Site/log/x")

    def test_what_they_say(self) -> None:
        self.assertEqual(str(refusal(26)), "refused 26: there are too few free sectors or mini sectors")
        error = self.refused(21, site().find, ["Site", "x"])
        self.assertEqual(str(error), "refused 21: a storage on the way has no child of that name: 'Site/x'")
        self.assertEqual((error.filename, error.sentence), ("Site/x", SENTENCES[21]))

    def test_they_can_be_pickled(self) -> None:
        for number in SENTENCES:
            error = refusal(number, "Site/x")
            copy = pickle.loads(pickle.dumps(error))
            self.assertIs(type(copy), type(error))
            self.assertEqual((copy.number, copy.filename, str(copy)), (number, "Site/x", str(error)))

    def test_the_sentences_are_those_of_the_rust_crate(self) -> None:
        source = ROOT / "bindings" / "rust" / "src"
        text = (source / "refusal.rs").read_text(encoding="utf-8")
        lines = re.findall(r'^    (\d+) \w+ "(.*)"$', text, re.MULTILINE)
        theirs = {int(number): sentence.replace("\\\\", "\\") for number, sentence in lines}
        text = (source / "pulse" / "refusal.rs").read_text(encoding="utf-8")
        numbers = dict(re.findall(r"PulseRefusal::(\w+) => (\d+),", text))
        lines = re.findall(r'PulseRefusal::(\w+) => "(.*)",', text)
        theirs.update({int(numbers[name]): sentence for name, sentence in lines})
        self.assertEqual(SENTENCES, theirs)

    def test_an_answer_that_is_none(self) -> None:
        answered(0)
        for number in (3, 25, 34, 43):
            self.assertRaises(RuntimeError, answered, number)
