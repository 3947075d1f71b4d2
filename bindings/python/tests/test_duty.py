"""What nobody may do to an opened image: write to its buffers, copy it, or use it twice at a time or after a fork."""

from __future__ import annotations

import copy
import os
import pickle
import random
import signal
import tempfile
import threading
import traceback
from typing import Any, Callable, List

import gyomrelas
from gyomrelas import CompoundFile, library

from .samples import JETS, LOG, Case, sample, site


class Copies(Case):
    def test_nothing_is_copied_or_pickled(self) -> None:
        file = site()
        stream = file.openstream("Site/log")
        with file._volume.held() as opened:
            for thing in (file, stream, file._volume, opened):
                self.assertRaises(TypeError, copy.copy, thing)
                self.assertRaises(TypeError, copy.deepcopy, thing)
                for protocol in range(pickle.HIGHEST_PROTOCOL + 1):
                    self.assertRaises(TypeError, pickle.dumps, thing, protocol)

    def test_the_source_may_change(self) -> None:
        image = bytearray(sample())
        file = CompoundFile(image)
        image[:] = bytes(len(image))
        self.assertEqual(file.read_bytes("Site/log"), LOG)
        file.validate()

    def test_what_is_given_is_a_copy(self) -> None:
        file = site()
        image = file.tobytes()
        self.assertIs(type(image), bytes)
        file.overwrite("Site/log", 0, b"LINE")
        self.assertTrue(image == sample())
        data = bytearray(b"1234")
        file.overwrite("Site/log", 0, data)
        data[:] = b"5678"
        self.assertEqual(file.read_bytes("Site/log", 0, 4), b"1234")

    def test_no_call_gives_a_buffer(self) -> None:
        file = site()
        file.overwrite("Site/log", 4984, gyomrelas.NO_RECORDS)
        stream, pulses = file.openstream("Site/log"), file.pulses("Site/log")
        pulses.add(1, 1)
        given: List[Any] = [file.tobytes(), file.find("Site"), list(file), file.listdir(), file.read_bytes("Site/log")]
        given += [file.read_at(2, 0, 5), stream.read(5), stream.readline(), stream.readall(), list(stream), stream.size]
        sums = pulses.summary()
        given += [sums.count, sums.total, pulses.record(0), list(pulses), file.get_type("Site"), file.repair()]
        while given:
            part = given.pop()
            if isinstance(part, (list, tuple)):
                given += part
            else:
                self.assertIsInstance(part, (bytes, str, int))


class PlainCalls(Case):
    def test_after_a_plain_call_the_image_is_opened_again(self) -> None:
        """A plain call leaves the work buffer zero, so an opened call on what was found before would be wrong."""
        file = site("site4.cfb")
        file.overwrite("Site/log", 4984, gyomrelas.NO_RECORDS)
        plain: List[Callable[[], Any]] = [
            file.validate,
            file.repair,
            file.pulses("Site/log").summary,
            lambda: file.pulses("Site/log").add(1, 1),
            lambda: file.pulses("Site/log").record(0),
            lambda: self.refused(42, file.pulses("Site/log").record, 99),
            lambda: self.refused(21, file.pulses("gone").summary),
        ]
        for number, call in enumerate(plain):
            call()
            with file._volume.held() as opened:
                self.assertIsNone(opened._found, number)
            file.write_bytes("Site/Jets", JETS[:number])
            file.create_stream("new")
            file.remove("new")
            with file._volume.held() as opened:
                self.assertIsNotNone(opened._found)
            self.assertEqual(file.read_bytes("Site/Jets"), JETS[:number])
            gyomrelas.validate(file.tobytes())


class Threads(Case):
    def test_threads_wait_for_each_other(self) -> None:
        file = gyomrelas.new(1 << 20, objects=40)
        errors: List[str] = []

        def work(number: int) -> None:
            draw = random.Random(number)
            name = f"stream {number}"
            try:
                file.create_stream(name)
                stream, due = file.openstream(name), b""
                for _ in range(150):
                    length = draw.choice([10, 70, 4096, 9000])
                    due = bytes([number]) * length
                    stream.truncate(0)
                    stream.seek(0)
                    stream.write(due)
                    stream.seek(0)
                    if stream.read() != due or file.read_bytes(name) != due:
                        errors.append(f"{name} has other bytes")
                    if draw.random() < 0.2:
                        file.remove(name)
                        file.write_bytes(name, due)
                        stream = file.openstream(name)
                    if draw.random() < 0.1:
                        file.validate()
                    list(file)
            except BaseException:
                errors.append(traceback.format_exc())

        threads = [threading.Thread(target=work, args=(number,)) for number in range(6)]
        for thread in threads:
            thread.start()
        for thread in threads:
            thread.join()
        self.assertEqual(errors, [])
        gyomrelas.validate(file.tobytes())
        self.assertEqual(len(file.listdir()), 6)

    def test_one_call_at_a_time(self) -> None:
        file = site()
        inside, done = threading.Event(), threading.Event()

        def other() -> None:
            inside.wait()
            file.find("Site")
            done.set()

        thread = threading.Thread(target=other)
        thread.start()
        with file._volume.held():
            inside.set()
            self.assertFalse(done.wait(0.1))
        thread.join()
        self.assertTrue(done.is_set())

    def test_closed_by_another_thread(self) -> None:
        for _ in range(20):
            file = gyomrelas.new(1 << 20)
            file.write_bytes("log", LOG)
            ended: List[BaseException] = []

            def work() -> None:
                try:
                    while True:
                        file.write_bytes("log", LOG)
                        assert file.read_bytes("log") == LOG
                except BaseException as error:
                    ended.append(error)

            threads = [threading.Thread(target=work) for _ in range(3)]
            for thread in threads:
                thread.start()
            file.close()
            for thread in threads:
                thread.join()
            self.assertEqual([str(error) for error in ended], ["the file is closed"] * 3)


class Interrupted(Case):
    def test_a_signal_in_the_middle_of_a_call(self) -> None:
        """A handler runs between two calls of one write; what it calls is refused, and the write ends as it would."""
        file = site()
        stream = file.openstream("Site/log")
        seen: List[str] = []

        def handler(number: int, frame: Any) -> None:
            for call in (lambda: file.remove("Site/log"), lambda: stream.read(1), lambda: file.tobytes()):
                try:
                    call()
                except RuntimeError as error:
                    seen.append(str(error))

        real = library.set_len

        def set_len(*arguments: Any) -> int:
            os.kill(os.getpid(), signal.SIGUSR1)
            return real(*arguments)

        before = signal.signal(signal.SIGUSR1, handler)
        try:
            library.set_len = set_len
            stream.seek(0, 2)
            stream.write(b"end\n")
        finally:
            library.set_len = real
            signal.signal(signal.SIGUSR1, before)
        self.assertEqual(len(seen), 3)
        self.assertEqual(file.read_bytes("Site/log"), LOG + b"end\n")

    def test_an_exception_in_the_middle_of_a_call(self) -> None:
        file = site()
        file.overwrite("Site/log", 4984, gyomrelas.NO_RECORDS)
        for name in ("find", "read_at", "open_volume", "pulse_add", "listing"):
            real = getattr(library, name)

            def interrupted(*arguments: Any) -> int:
                real(*arguments)
                raise KeyboardInterrupt

            setattr(library, name, interrupted)
            try:
                with self.assertRaises(KeyboardInterrupt):
                    file.pulses("Site/log").add(1, 1)
                    list(file)
                    file.read_bytes("Site/log")
            finally:
                setattr(library, name, real)
            # the lock is free, and the image is accepted
            thread = threading.Thread(target=file.validate)
            thread.start()
            thread.join(10)
            self.assertFalse(thread.is_alive())
            self.assertEqual(file.pulses("Site/log").summary().count, len(list(file.pulses("Site/log"))))
            self.assertEqual(file.read_bytes("Site/Jets"), JETS)


class Forked(Case):
    def child(self, work: Callable[[], bool]) -> None:
        """That a forked process gives True."""
        process = os.fork()
        if process == 0:
            try:
                os._exit(0 if work() else 1)
            except BaseException:
                traceback.print_exc()
            os._exit(2)
        self.assertEqual(os.waitpid(process, 0)[1], 0)

    def test_a_child_cannot_use_the_copy(self) -> None:
        file = site()
        stream = file.openstream("Site/log")

        def refused() -> bool:
            for call in (file.tobytes, stream.read, file.validate, lambda: file.remove("Site/log"), lambda: list(file)):
                try:
                    call()
                    return False
                except ValueError as error:
                    if "another process" not in str(error):
                        return False
            file.close()
            return file.closed and CompoundFile(sample()).read_bytes("Site/log") == LOG

        self.child(refused)
        # also where a call is under way: nobody would ever free the lock
        with file._volume.held():
            self.child(refused)
        self.assertEqual(stream.read(), LOG)

    def test_a_child_that_leaves_the_block_saves_nothing(self) -> None:
        with tempfile.TemporaryDirectory() as folder:
            path = os.path.join(folder, "site.cfb")
            with open(path, "wb") as out:
                out.write(sample())

            def leave() -> bool:
                file.__exit__(None, None, None)
                with open(path, "rb") as now:
                    return file.closed and now.read() == sample()

            with gyomrelas.open(path, "r+") as file:
                file.overwrite("Site/log", 0, b"LINE")
                self.child(leave)
            with open(path, "rb") as saved:
                self.assertFalse(saved.read() == sample())
