"""What is found, listed and read, and how paths are given."""

from __future__ import annotations

import io
import random
from typing import List

import gyomrelas
from gyomrelas import CompoundFile, Entry, Kind, Object
from gyomrelas.paths import path_of, text_of

from .samples import FOLDER, JETS, LOG, SITES, Case, sample, site


class Finding(Case):
    def test_entries(self) -> None:
        for name in SITES:
            with gyomrelas.open(FOLDER / name) as file:
                self.assertEqual(file.find("Site/log"), Entry(2, Kind.STREAM, 5000))
                self.assertEqual(file.find(["Site", "Jets"]), Entry(3, Kind.STREAM, 70))
                self.assertEqual(file.find("Site"), Entry(1, Kind.STORAGE, 0))
                root = file.find("")
                self.assertEqual((root.number, root.kind), (0, Kind.ROOT))
                self.assertEqual(file.find([]), root)
                self.assertEqual(file.find(("Site", "log")), file.find("sITE/LOG"))

    def test_what_there_is_not(self) -> None:
        file = site()
        for path in ("log", "Site/logs", "Site/log/x", "Site/", "!", ["Site/log"], [""], "a" * 32):
            self.assertFalse(file.exists(path))
            self.assertIs(file.get_type(path), False)
            self.assertFalse(file.isstream(path))
            self.assertFalse(file.isstorage(path))

    def test_types_are_the_numbers_of_the_file(self) -> None:
        file = site()
        self.assertEqual([file.get_type(path) for path in ("Site", "Site/log", "")], [1, 2, 5])
        self.assertTrue(file.exists("Site/log") and file.exists("Site") and file.exists(""))
        self.assertTrue(file.isstream("Site/log") and not file.isstorage("Site/log"))
        self.assertTrue(file.isstorage("Site") and not file.isstream("Site"))
        self.assertTrue(file.isstorage("") and not file.isstream(""))
        self.assertEqual(file.get_size("Site/Jets"), 70)


class Listing(Case):
    def test_listdir(self) -> None:
        with gyomrelas.open(FOLDER / "nested.cfb") as file:
            streams = [["note"], ["Pumps", "Nord", "gauge"], ["Pumps", "Nord", "valve"], ["Timing"]]
            storages = [["Pumps"], ["Pumps", "Süd"], ["Pumps", "Nord"]]
            self.assertEqual(file.listdir(), streams)
            self.assertEqual(file.listdir(streams=False, storages=True), storages)
            self.assertEqual(file.listdir(False, False), [])
            both = file.listdir(storages=True)
            self.assertEqual((sorted(both), both[:2]), (sorted(streams + storages), [["note"], ["Pumps"]]))

    def test_walk(self) -> None:
        for name in ("site.cfb", "site4.cfb", "nested.cfb"):
            with gyomrelas.open(FOLDER / name) as file:
                objects = list(file.walk())
                self.assertEqual(list(file), objects)
                self.assertEqual([object.names for object in objects], file.listdir(storages=True))
                for object in objects:
                    self.assertEqual(file.find(object.path), Entry(object.entry, object.kind, object.size))
        self.assertEqual(list(site())[1], Object("Site/log", Kind.STREAM, 5000, 2))

    def test_walk_is_of_the_moment(self) -> None:
        file = site()
        walk = file.walk()
        file.remove("Site/Jets")
        self.assertEqual(len(list(walk)), 3)
        self.assertEqual(len(list(file.walk())), 2)

    def test_any_name_is_found_again(self) -> None:
        draw = random.Random(7)
        file = gyomrelas.new(1 << 18, objects=400)
        made: List[str] = []
        while len(made) < 300:
            halves = (0xD800, 0xDBFF, 0xDC00, 0xDFFF, 0x20, 0x5B)
            units = [draw.choice((*halves, draw.randrange(1, 0x10000))) for _ in range(5)]
            encoded = b"".join(unit.to_bytes(2, "little") for unit in units)
            name = encoded.decode("utf-16-le", "surrogatepass")
            if file.exists(name) or not set(name).isdisjoint("/\\:!"):
                continue
            file.create_stream(name)
            made.append(name)
        self.assertEqual(sorted(object.path for object in file), sorted(made))
        self.assertTrue(all(file.isstream([name]) for name in made))

    def test_listed_units(self) -> None:
        self.assertEqual(text_of("Pumps/S\\00FCd"), "Pumps/Süd")
        self.assertEqual(text_of("\\D83D\\DE00x\\D83D"), "\U0001F600x\ud83d")
        self.assertEqual(list(path_of("\U0001F600x\ud83d").units), [0xD83D, 0xDE00, 0x78, 0xD83D])

    def test_a_path_of_another_type(self) -> None:
        for path in (b"Site", 5, None, [b"Site"], ["Site", 5]):
            self.assertRaises(TypeError, site().find, path)


class Reading(Case):
    def test_bytes(self) -> None:
        for name in SITES:
            file = site(name)
            self.assertEqual(file.read_bytes("Site/log"), LOG)
            self.assertEqual(file.read_bytes("Site/Jets"), JETS)
            for offset, length in ((0, 0), (1, 5), (510, 600), (4999, 1), (4990, 100), (5000, 1), (0, 2**70)):
                self.assertEqual(file.read_bytes("Site/log", offset, length), LOG[offset : offset + length])
                self.assertEqual(file.read_at(2, offset, length), LOG[offset : offset + length])
            self.assertEqual(file.read_bytes("Site/Jets", 60), JETS[60:])
            for bad in (-1, 1.5, "1"):
                self.assertRaises((TypeError, ValueError), file.read_bytes, "Site/log", bad)
                self.assertRaises((TypeError, ValueError), file.read_at, bad, 0, 1)
                self.assertRaises((TypeError, ValueError), file.read_at, 2, 0, bad)

    def test_sources(self) -> None:
        image = sample()
        for source in (image, bytearray(image), memoryview(image), io.BytesIO(image)):
            self.assertTrue(CompoundFile(source, "r").tobytes() == image)
        behind = io.BytesIO(b"junk" + image)
        behind.seek(4)
        self.assertEqual(CompoundFile(behind).read_bytes("Site/log"), LOG)
        for source in ("samples/site.cfb", FOLDER / "site.cfb", 5, None, io.StringIO("text")):
            self.assertRaises(TypeError, CompoundFile, source)
        for mode in ("w", "rb", "", None):
            self.assertRaises(ValueError, CompoundFile, image, mode)
            self.assertRaises(ValueError, gyomrelas.open, FOLDER / "site.cfb", mode)

    def test_validate(self) -> None:
        file = site()
        file.validate()
        self.assertEqual(file.read_bytes("Site/log"), LOG)
        gyomrelas.validate(sample())
        gyomrelas.validate(bytearray(sample("nested.cfb")))

    def test_is_ole_file(self) -> None:
        image = sample()
        stream = io.BytesIO(b"12" + image)
        stream.seek(2)
        for source in (FOLDER / "site.cfb", str(FOLDER / "nested.cfb"), image, bytearray(image), stream):
            self.assertTrue(gyomrelas.isOleFile(source))
        self.assertEqual(stream.tell(), 2)
        for source in (FOLDER / "README.md", b"", image[1:], image[:7], io.BytesIO(b"PK")):
            self.assertFalse(gyomrelas.isOleFile(source))
