"""Edits against plain expectations, in both versions."""

from __future__ import annotations

import io

import gyomrelas
from gyomrelas import CompoundFile

from .samples import FOLDER, JETS, LOG, SITES, Case, sample, site


class Lengths(Case):
    def test_growth_gives_zero_bytes(self) -> None:
        for name in SITES:
            file = site(name)
            file.set_len("Site/log", 5120)
            file.set_len("Site/Jets", 128)
            self.assertEqual(file.read_bytes("Site/log"), LOG + bytes(120))
            self.assertEqual(file.read_bytes("Site/Jets"), JETS + bytes(58))
            file.validate()

    def test_bytes_that_were_cut_off_do_not_come_back(self) -> None:
        file = site()
        file.set_len("Site/log", 4100)
        file.set_len("Site/log", 5000)
        self.assertEqual(file.read_bytes("Site/log"), LOG[:4100] + bytes(900))
        self.assertEqual(file.read_bytes("Site/Jets"), JETS)

    def test_over_the_cutoff_and_back(self) -> None:
        file = site()
        file.set_len("Site/log", 0)
        file.set_len("Site/Jets", 4096)
        self.assertEqual(file.read_bytes("Site/Jets"), JETS + bytes(4026))
        file.set_len("Site/Jets", 64)
        self.assertEqual(file.read_bytes("Site/Jets"), JETS[:64])
        file.validate()


class Bytes(Case):
    def test_an_overwrite_changes_only_its_bytes(self) -> None:
        for name in SITES:
            file, before = site(name), sample(name)
            file.overwrite("Site/log", 510, b"1234")
            self.assertEqual(sum(old != new for old, new in zip(before, file.tobytes())), 4)
            self.assertEqual(file.read_bytes("Site/log"), LOG[:510] + b"1234" + LOG[514:])
            file.overwrite("Site/log", 5000, b"")

    def test_what_is_written(self) -> None:
        file = site()
        for data in (b"bytes", bytearray(b"array"), memoryview(b"x-v-i-e-w")[::2], memoryview(b"abcd").cast("H")):
            self.assertEqual(file.write_bytes("Site/Jets", data), memoryview(data).nbytes)
            self.assertEqual(file.read_bytes("Site/Jets"), memoryview(data).tobytes())
            file.overwrite("Site/log", 0, data)
            self.assertEqual(file.read_bytes("Site/log"), memoryview(data).tobytes() + LOG[memoryview(data).nbytes :])
            file.overwrite("Site/log", 0, LOG)
        for data in ("text", 5, None, [1]):
            self.assertRaises(TypeError, file.write_bytes, "Site/Jets", data)
            self.assertRaises(TypeError, file.overwrite, "Site/Jets", 0, data)
        self.assertRaises(ValueError, file.overwrite, "Site/Jets", -1, b"")
        self.assertRaises(ValueError, file.set_len, "Site/Jets", -1)
        self.assertRaises(TypeError, file.set_len, "Site/Jets", 1.0)

    def test_write_bytes_gives_all(self) -> None:
        for name in SITES:
            file = site(name)
            for data in (LOG[:4500], b"", LOG, b"short", b"a" * 120):
                if len(data) < 4096 and file.get_size("Site/log") >= 4096:
                    # the mini sectors are those of Jets
                    file.set_len("Site/Jets", 0)
                file.write_bytes("Site/log", data)
                self.assertEqual(file.read_bytes("Site/log"), data)
                file.validate()


class Objects(Case):
    def test_created_and_removed(self) -> None:
        for version in (3, 4):
            file = gyomrelas.new(1 << 17, version=version, objects=6, small_bytes=2000)
            file.create_storage("Site")
            file.create_storage("Site/old")
            file.create_stream("Site/old/log")
            file.write_bytes("Site/note", b"hello")
            file.write_bytes("big", LOG)
            self.assertEqual(file.listdir(), [["big"], ["Site", "old", "log"], ["Site", "note"]])
            self.refused(28, file.remove, "Site/old")
            file.remove("site/OLD/log")
            file.remove("Site/old")
            self.assertEqual([object.path for object in file], ["big", "Site", "Site/note"])
            file.create_stream("BIG2")
            self.assertEqual(file.listdir()[0], ["big"])
            self.assertEqual(file.read_bytes("BIG"), LOG)
            self.assertEqual(file.read_bytes("big2"), b"")
            self.assertTrue(["BIG2"] in file.listdir())
            gyomrelas.validate(file.tobytes())

    def test_lowest_blank_entry(self) -> None:
        file = site()
        file.remove("Site/log")
        file.create_storage("log")
        self.assertEqual(file.find("log").number, 2)
        self.assertEqual(file.read_bytes("Site/Jets"), JETS)


class Modes(Case):
    def test_a_file_for_reading_is_not_edited(self) -> None:
        image = sample()
        for file in (CompoundFile(image, "r"), gyomrelas.open(FOLDER / "site.cfb")):
            calls = [
                lambda: file.create_stream("x"),
                lambda: file.create_storage("x"),
                lambda: file.remove("Site/log"),
                lambda: file.set_len("Site/log", 4999),
                lambda: file.overwrite("Site/log", 0, b"x"),
                lambda: file.write_bytes("Site/log", b""),
                lambda: file.repair(),
                lambda: file.pulses("Site/log").add(1, 1),
                lambda: file.openstream("Site/log").write(b"x"),
                lambda: file.openstream("Site/log").write(b""),
                lambda: file.openstream("Site/log").truncate(0),
                lambda: file.openstream("Site/log", "r+"),
                lambda: file.save(),
            ]
            for call in calls:
                self.assertRaises(io.UnsupportedOperation, call)
            self.assertFalse(file.openstream("Site/log").writable())
            self.assertTrue(file.tobytes() == image)

    def test_a_stream_for_reading_in_a_file_for_edits(self) -> None:
        file = site()
        stream = file.openstream("Site/log", "r")
        self.assertRaises(io.UnsupportedOperation, stream.write, b"x")
        self.assertEqual((stream.mode, file.openstream("Site/log").mode), ("rb", "rb+"))
        self.assertRaises(ValueError, file.openstream, "Site/log", "w")
