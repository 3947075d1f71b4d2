"""Streams as file objects: against io.BytesIO, when they are removed, and when they are closed."""

from __future__ import annotations

import array
import ctypes
import io
import random
import shutil

import gyomrelas
from gyomrelas import CompoundFile, Stream

from .samples import JETS, LOG, SITES, Case, read_plainly, sample, site


def truncated(model: io.BytesIO, size: int) -> None:
    """Gives a BytesIO a length; its own truncate never lengthens."""
    model.truncate(size)
    position = model.seek(0, io.SEEK_CUR)
    end = model.seek(0, io.SEEK_END)
    model.write(bytes(size - end))
    model.seek(position)


class AgainstBytesIO(Case):
    def step(self, draw: random.Random, stream: Stream, model: io.BytesIO) -> str:
        """One call on both, with the same outcome."""
        size = len(model.getvalue())
        call = draw.choice(["seek", "seek", "read", "readline", "readinto", "write", "truncate", "lines", "readall"])
        if call == "seek":
            whence = draw.choice([0, 1, 2])
            base = (0, model.tell(), size)[whence]
            offset = draw.randrange(size + 200) - base
            self.assertEqual(stream.seek(offset, whence), model.seek(base + offset))
        elif call in ("read", "readline"):
            count = draw.choice([-1, None, 0, 1, 25, 64, draw.randrange(6000)])
            self.assertEqual(getattr(stream, call)(count), getattr(model, call)(count))
        elif call == "readinto":
            mine, theirs = bytearray(b"x" * draw.randrange(300)), bytearray()
            theirs[:] = mine
            self.assertEqual(stream.readinto(mine), model.readinto(theirs))
            self.assertEqual(mine, theirs)
        elif call == "write":
            data = draw.choice([b"", b"\n", b"some bytes\n" * draw.randrange(1, 60)])
            self.assertEqual(stream.write(data), model.write(data))
        elif call == "truncate":
            length = draw.choice([None, 0, 64, 4095, 4096, draw.randrange(8000)])
            self.assertEqual(stream.truncate(length), model.tell() if length is None else length)
            truncated(model, model.tell() if length is None else length)
        elif call == "lines":
            self.assertEqual(stream.readlines(50), model.readlines(50))
        else:
            self.assertEqual(stream.readall(), model.read())
        self.assertEqual(stream.tell(), model.tell())
        return call

    def test_random_calls(self) -> None:
        for version in (3, 4):
            for seed in range(6):
                draw = random.Random(seed)
                file = gyomrelas.new(1 << 17, version=version, small_bytes=8192, objects=4)
                other = file.write_bytes("other", JETS)
                file.create_stream("log")
                stream, model = file.openstream("log"), io.BytesIO()
                for number in range(300):
                    if len(model.getvalue()) > 12_000:
                        stream.truncate(0)
                        model.truncate(0)
                    call = self.step(draw, stream, model)
                    self.assertTrue(file.read_bytes("log") == model.getvalue(), (version, seed, number, call))
                    self.assertEqual(stream.size, len(model.getvalue()))
                self.assertEqual((other, file.read_bytes("other")), (70, JETS))
                self.assertEqual(read_plainly(file.tobytes()), {"log": model.getvalue(), "other": JETS})
                file.validate()


class AsFileObjects(Case):
    def test_what_they_can(self) -> None:
        stream = site().openstream("Site/log")
        self.assertIsInstance(stream, io.RawIOBase)
        self.assertTrue(stream.readable() and stream.writable() and stream.seekable() and not stream.closed)
        self.assertEqual((stream.name, stream.mode, stream.size, stream.tell()), ("Site/log", "rb+", 5000, 0))
        self.assertEqual(list(stream), [b"line 7 of the site's log\n"] * 200)
        self.assertIn("Site/log", repr(stream))

    def test_wrapped(self) -> None:
        for name in SITES:
            file = site(name)
            self.assertEqual(io.BufferedReader(file.openstream("Site/log")).read(), LOG)
            text = io.TextIOWrapper(io.BufferedReader(file.openstream("Site/log")), encoding="ascii")
            self.assertEqual(text.readlines(), ["line 7 of the site's log\n"] * 200)
            with io.BufferedRandom(file.openstream("Site/log")) as buffered:
                buffered.seek(0, 2)
                buffered.write(b"end\n")
            self.assertEqual(file.read_bytes("Site/log"), LOG + b"end\n")
            out = io.BytesIO()
            shutil.copyfileobj(file.openstream("Site/Jets"), out)
            self.assertEqual(out.getvalue(), JETS)

    def test_buffers_to_read_into(self) -> None:
        class Fields(ctypes.Structure):
            _fields_ = [("word", ctypes.c_char * 4), ("blank", ctypes.c_uint8)]

        stream = site().openstream("Site/log")
        for buffer in (Fields(), array.array("H", [0, 0, 0]), memoryview(bytearray(9))[2:7], bytearray()):
            stream.seek(0)
            length = memoryview(buffer).nbytes
            self.assertEqual(stream.readinto(buffer), length)
            self.assertEqual(memoryview(buffer).tobytes(), LOG[:length])
        stream.seek(4990)
        buffer = bytearray(b"x" * 12)
        self.assertEqual((stream.readinto(buffer), buffer), (10, LOG[4990:] + b"xx"))
        stream.seek(0)
        for bad in (bytes(5), memoryview(bytearray(9))[::2], "text", 5):
            self.assertRaises(TypeError, stream.readinto, bad)
            self.assertEqual(stream.tell(), 0)

    def test_a_write_without_room_writes_nothing(self) -> None:
        file = site()
        stream = file.openstream("Site/log")
        stream.seek(4990)
        self.refused(26, stream.write, bytes(131))
        self.assertEqual(stream.tell(), 4990)
        self.assertTrue(file.tobytes() == sample())
        self.assertEqual(stream.write(bytes(130)), 130)
        self.assertEqual(file.read_bytes("Site/log"), LOG[:4990] + bytes(130))

    def test_positions(self) -> None:
        stream = site().openstream("Site/Jets")
        stream.seek(69)
        for offset, whence in ((-1, 0), (-70, 1), (-71, 2), (0, 3), (0, 5)):
            self.assertRaises(ValueError, stream.seek, offset, whence)
            self.assertEqual(stream.tell(), 69)
        self.assertRaises((TypeError, AttributeError), stream.seek, 1.5)
        self.assertEqual(stream.seek(2**70), 2**70)
        self.assertEqual((stream.read(), stream.read(5), stream.readline()), (b"", b"", b""))
        self.refused(26, stream.write, b"x")
        self.assertEqual(stream.write(b""), 0)
        self.assertRaises(ValueError, stream.truncate, -1)

    def test_great_counts_take_no_memory(self) -> None:
        stream = site().openstream("Site/log")
        self.assertEqual(stream.read(2**62), LOG)

    def test_what_others_write_is_read(self) -> None:
        file = site()
        first, second = file.openstream("Site/log"), file.openstream("site/LOG")
        first.write(b"changed")
        self.assertEqual(second.read(7), b"changed")
        file.set_len("Site/log", 4100)
        self.assertEqual((first.seek(0, 2), second.size), (4100, 4100))
        file.overwrite("Site/log", 4099, b"!")
        first.seek(-1, 2)
        self.assertEqual(first.read(), b"!")


class Removed(Case):
    def gone(self, stream: Stream) -> None:
        for call in (stream.read, stream.readall, stream.readline, lambda: stream.size, stream.truncate):
            self.refused(33, call)
        self.refused(33, stream.write, b"x")
        self.refused(33, stream.readinto, bytearray(5))
        self.refused(33, stream.seek, 0, 2)
        self.refused(33, list, stream)

    def test_a_removed_stream_is_gone(self) -> None:
        file = site()
        stream, other = file.openstream("Site/log"), file.openstream("Site/Jets")
        file.remove("Site/log")
        self.gone(stream)
        self.assertEqual(other.read(), JETS)

    def test_its_entry_is_of_another_stream(self) -> None:
        file = site()
        stream = file.openstream("Site/log")
        file.remove("SITE/LOG")
        file.write_bytes("secret", b"other bytes" * 400)
        self.assertEqual(file.find("secret").number, 2)
        before = file.tobytes()
        self.gone(stream)
        self.assertTrue(file.tobytes() == before)

    def test_its_path_and_entry_are_of_another_stream(self) -> None:
        file = site()
        stream = file.openstream("Site/log")
        for _ in range(3):
            file.remove("Site/log")
            file.write_bytes("Site/log", b"other bytes" * 400)
            self.assertEqual(file.find("Site/log").number, 2)
            before = file.tobytes()
            self.gone(stream)
            self.assertTrue(file.tobytes() == before)
            stream = file.openstream("Site/log")
            self.assertEqual(stream.read(5), b"other")

    def test_other_edits_leave_it(self) -> None:
        file = site("site4.cfb")
        stream = file.openstream("Site/log")
        file.create_storage("Site/new")
        self.refused(28, file.remove, "Site")
        file.remove("Site/new")
        file.remove("Site/Jets")
        file.repair()
        self.assertEqual(stream.read(), LOG)


class Closed(Case):
    def test_a_closed_file(self) -> None:
        file = site()
        stream, pulses, walk = file.openstream("Site/log"), file.pulses("Site/log"), file.walk()
        self.assertFalse(file.closed)
        file.close()
        file.close()
        self.assertTrue(file.closed)
        calls = [
            lambda: file.find(""),
            lambda: file.exists("Site"),
            lambda: file.get_type("Site"),
            lambda: file.get_size("Site/log"),
            lambda: file.listdir(),
            lambda: file.walk(),
            lambda: list(file),
            lambda: file.read_bytes("Site/log"),
            lambda: file.read_at(2, 0, 1),
            lambda: file.tobytes(),
            lambda: file.validate(),
            lambda: file.repair(),
            lambda: file.openstream("Site/log"),
            lambda: file.create_stream("x"),
            lambda: file.create_storage("x"),
            lambda: file.remove("x"),
            lambda: file.set_len("Site/log", 0),
            lambda: file.overwrite("Site/log", 0, b""),
            lambda: file.write_bytes("Site/log", b""),
            lambda: file.save(),
            lambda: file.save("x"),
            lambda: file.__enter__(),
            lambda: pulses.summary(),
            lambda: pulses.record(0),
            lambda: pulses.add(1, 1),
            lambda: list(pulses),
            lambda: stream.read(),
            lambda: stream.readinto(bytearray(1)),
            lambda: stream.readline(),
            lambda: stream.write(b"x"),
            lambda: stream.truncate(),
            lambda: stream.seek(0, 2),
            lambda: stream.size,
        ]
        for number, call in enumerate(calls):
            with self.assertRaises(ValueError, msg=str(number)):
                call()
        self.assertEqual(len(list(walk)), 3)
        self.assertIn("closed", repr(file))

    def test_a_closed_stream(self) -> None:
        file = site()
        stream = file.openstream("Site/log")
        with stream:
            self.assertEqual(stream.read(4), b"line")
        self.assertTrue(stream.closed)
        calls = [
            stream.read,
            stream.readall,
            stream.readline,
            stream.tell,
            stream.readable,
            stream.writable,
            stream.seekable,
            stream.truncate,
            stream.__enter__,
            lambda: stream.seek(0),
            lambda: stream.write(b"x"),
            lambda: stream.readinto(bytearray(1)),
            lambda: stream.size,
        ]
        for number, call in enumerate(calls):
            with self.assertRaises(ValueError, msg=str(number)):
                call()
        self.assertEqual(file.read_bytes("Site/log"), LOG)

    def test_a_stream_keeps_its_file(self) -> None:
        stream = CompoundFile(sample()).openstream("Site/log")
        self.assertEqual(stream.read(), LOG)
