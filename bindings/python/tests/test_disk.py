"""Files of the disk: they are replaced whole, or stay as they were."""

from __future__ import annotations

import errno
import fcntl
import io
import os
import shutil
import stat
import tempfile
import threading
import time
import unittest
from pathlib import Path
from unittest import mock

import gyomrelas
from gyomrelas import disk, pending

from .samples import FOLDER, LOG, SITES, Case, broken, reddened, sample


class OnDisk(Case):
    def setUp(self) -> None:
        folder = tempfile.TemporaryDirectory()
        self.addCleanup(folder.cleanup)
        self.folder = Path(folder.name)
        self.path = self.folder / "site.cfb"
        shutil.copy(FOLDER / "site.cfb", self.path)

    def only(self, *names: str) -> None:
        """That the folder has these files, and none was left behind."""
        self.assertEqual(sorted(os.listdir(self.folder)), sorted(names))


class Blocks(OnDisk):
    def test_the_end_of_a_block_saves(self) -> None:
        for name in SITES:
            shutil.copy(FOLDER / name, self.path)
            with gyomrelas.open(self.path, "r+") as file:
                file.overwrite("Site/log", 0, b"LINE")
                self.assertTrue(self.path.read_bytes() == sample(name))
                due = file.tobytes()
            self.assertTrue(file.closed)
            self.assertTrue(self.path.read_bytes() == due != sample(name))
            self.only("site.cfb")

    def test_an_exception_leaves_the_file_as_it_was(self) -> None:
        before = os.stat(self.path)
        for error in (KeyError, KeyboardInterrupt, GeneratorExit):
            with self.assertRaises(error):
                with gyomrelas.open(self.path, "r+") as file:
                    file.remove("Site/log")
                    raise error
            self.assertTrue(file.closed)
        with self.assertRaises(FileNotFoundError):
            with gyomrelas.open(self.path, "r+") as file:
                file.write_bytes("Site/log", b"")
                file.read_bytes("Site/gone")
        self.assertTrue(self.path.read_bytes() == sample())
        self.assertEqual(os.stat(self.path).st_ino, before.st_ino)
        self.only("site.cfb")

    def test_a_block_without_edits_writes_nothing(self) -> None:
        before = os.stat(self.path)
        with gyomrelas.open(self.path, "r+") as file:
            self.assertEqual(file.read_bytes("Site/log"), LOG)
            self.refused(26, file.set_len, "Site/log", 9999)
            self.refused(40, file.pulses("Site/log").add, 1, 1)
            self.assertEqual(file.repair(), 0)
        self.assertEqual(os.stat(self.path).st_ino, before.st_ino)

    def test_every_kind_of_edit_is_saved(self) -> None:
        edits = [
            lambda file: file.overwrite("Site/log", 0, b"x"),
            lambda file: file.set_len("Site/log", 5001),
            lambda file: file.remove("Site/Jets"),
            lambda file: file.openstream("Site/log").write(b"x"),
            lambda file: file.openstream("Site/log").truncate(4096),
            lambda file: file.write_bytes("Site/Jets", b"x"),
            lambda file: file.create_stream("new"),
            lambda file: file.create_storage("new"),
            lambda file: file.pulses("Site/log").add(1, 1),
            lambda file: file.repair(),
        ]
        with gyomrelas.open(FOLDER / "site4.cfb", "r+") as source:
            source.overwrite("Site/log", 4984, gyomrelas.NO_RECORDS)
            start = reddened(source.tobytes())
            source.close()
        for number, edit in enumerate(edits):
            self.path.write_bytes(start)
            with gyomrelas.open(self.path, "r+") as file:
                edit(file)
                due = file.tobytes()
            self.assertTrue(self.path.read_bytes() == due != start, number)

    def test_a_file_that_is_closed_in_its_block_is_not_saved(self) -> None:
        with gyomrelas.open(self.path, "r+") as file:
            file.overwrite("Site/log", 0, b"LINE")
            file.close()
        self.assertTrue(self.path.read_bytes() == sample())

    def test_without_a_block_only_save_writes(self) -> None:
        file = gyomrelas.open(self.path, "r+")
        file.overwrite("Site/log", 0, b"LINE")
        file.close()
        self.assertTrue(self.path.read_bytes() == sample())

    @unittest.skipIf(os.geteuid() == 0, "root may write to every file")
    def test_who_may_not_write_may_not_replace(self) -> None:
        os.chmod(self.path, 0o444)
        self.assertRaises(PermissionError, gyomrelas.open, self.path, "r+")
        self.assertRaises(PermissionError, gyomrelas.CompoundFile(sample()).save, self.path)

    def test_for_reading(self) -> None:
        os.chmod(self.path, 0o444)
        with gyomrelas.open(str(self.path)) as file:
            self.assertEqual(file.read_bytes("Site/log"), LOG)
            file.save(self.folder / "copy.cfb")
        self.assertTrue((self.folder / "copy.cfb").read_bytes() == sample())
        self.only("site.cfb", "copy.cfb")


class Saving(OnDisk):
    def test_save_again_and_again(self) -> None:
        with gyomrelas.open(self.path, "r+") as file:
            for text in (b"1111", b"2222", b"3333"):
                file.overwrite("Site/log", 0, text)
                file.save()
                with gyomrelas.open(self.path) as saved:
                    self.assertEqual(saved.read_bytes("Site/log", 0, 4), text)
            inode = os.stat(self.path).st_ino
        self.assertEqual(os.stat(self.path).st_ino, inode)

    def test_the_old_file_is_there_whole_until_it_is_replaced(self) -> None:
        steps = []

        def rename(old: str, new: str) -> None:
            steps.append((self.path.read_bytes() == sample(), Path(old).read_bytes() == due, os.path.dirname(old)))
            os_rename(old, new)

        def fsync(descriptor: int) -> None:
            steps.append("synced")
            os_fsync(descriptor)

        os_rename, os_fsync = os.rename, os.fsync
        with gyomrelas.open(self.path, "r+") as file:
            file.overwrite("Site/log", 0, b"LINE")
            due = file.tobytes()
            with mock.patch("os.rename", rename), mock.patch("os.fsync", fsync):
                file.save()
        folder = os.path.realpath(self.folder)
        self.assertEqual(steps, ["synced", (True, True, folder), "synced"])

    def test_a_failure_leaves_the_old_file(self) -> None:
        for name in ("os.rename", "os.fsync", "os.fchmod"):
            with self.assertRaises(OSError):
                with gyomrelas.open(self.path, "r+") as file:
                    file.overwrite("Site/log", 0, b"LINE")
                    with mock.patch(name, side_effect=OSError(errno.EIO, "broken")):
                        file.save()
            self.assertTrue(self.path.read_bytes() == sample())
            self.only("site.cfb")

    def test_a_file_that_has_changed_is_not_replaced(self) -> None:
        def rewritten() -> None:
            self.path.write_bytes(sample("nested.cfb"))

        def replaced() -> None:
            shutil.copy(FOLDER / "nested.cfb", self.folder / "other")
            os.rename(self.folder / "other", self.path)

        for change in (rewritten, replaced, lambda: os.unlink(self.path)):
            shutil.copy(FOLDER / "site.cfb", self.path)
            with self.assertRaises(OSError) as caught:
                with gyomrelas.open(self.path, "r+") as file:
                    file.overwrite("Site/log", 0, b"LINE")
                    change()
            self.assertEqual(caught.exception.errno, errno.ESTALE)
            if self.path.exists():
                self.assertTrue(self.path.read_bytes() == sample("nested.cfb"))
        self.only()

    def test_save_to_its_own_path_by_name(self) -> None:
        link = self.folder / "link"
        link.symlink_to("site.cfb")
        with gyomrelas.open(self.path, "r+") as file:
            for path, text in ((self.path, b"1111"), (link, b"2222"), (None, b"3333")):
                file.overwrite("Site/log", 0, text)
                file.save(path)
                self.assertTrue(self.path.read_bytes() == file.tobytes())
        self.only("site.cfb", "link")

    def test_permissions_stay(self) -> None:
        os.chmod(self.path, 0o640)
        with gyomrelas.open(self.path, "r+") as file:
            file.overwrite("Site/log", 0, b"LINE")
        self.assertEqual(stat.S_IMODE(os.stat(self.path).st_mode), 0o640)

    def test_a_link_stays_a_link(self) -> None:
        link = self.folder / "link"
        link.symlink_to("site.cfb")
        with gyomrelas.open(link, "r+") as file:
            file.overwrite("Site/log", 0, b"LINE")
        self.assertTrue(link.is_symlink())
        self.assertTrue(self.path.read_bytes() == link.read_bytes() != sample())

    def test_the_working_folder_may_change(self) -> None:
        here = os.getcwd()
        self.addCleanup(os.chdir, here)
        os.chdir(self.folder)
        with gyomrelas.open("site.cfb", "r+") as file, gyomrelas.create("new.cfb") as fresh:
            os.chdir("/")
            file.overwrite("Site/log", 0, b"LINE")
            self.assertEqual(list(fresh), [])
        self.only("site.cfb", "new.cfb")
        self.assertFalse(self.path.read_bytes() == sample())

    def test_save_to_another_path(self) -> None:
        file = gyomrelas.CompoundFile(sample())
        self.assertRaises(ValueError, file.save)
        file.overwrite("Site/log", 0, b"LINE")
        other = self.folder / "other.cfb"
        file.save(other)
        self.assertTrue(other.read_bytes() == file.tobytes())
        file.overwrite("Site/log", 0, b"line")
        file.save(str(other))
        self.assertTrue(other.read_bytes() == sample())
        umask = os.umask(0)
        os.umask(umask)
        self.assertEqual(stat.S_IMODE(os.stat(other).st_mode), 0o666 & ~umask)
        self.assertRaises(IsADirectoryError, file.save, self.folder)
        self.assertRaises(FileNotFoundError, file.save, self.folder / "gone" / "x")
        self.only("site.cfb", "other.cfb")


class Waiting(OnDisk):
    def test_another_edit_is_waited_for(self) -> None:
        beside = pending._beside(os.path.realpath(self.path))
        self.assertEqual(os.path.basename(beside), ".site.cfb.cfb-new")
        with open(beside, "wb") as other:
            fcntl.flock(other, fcntl.LOCK_EX)
            with gyomrelas.open(self.path, "r+") as file:
                file.overwrite("Site/log", 0, b"LINE")
                with mock.patch.object(pending, "PATIENCE", 0.05):
                    self.assertRaises(BlockingIOError, file.save)
                self.assertTrue(os.path.exists(beside))
                timer = threading.Timer(0.2, lambda: os.unlink(beside))
                timer.start()
                start = time.monotonic()
                file.save()
                self.assertGreater(time.monotonic() - start, 0.1)
                timer.join()
        self.assertFalse(self.path.read_bytes() == sample())
        self.only("site.cfb")

    def test_what_a_killed_edit_left_is_removed(self) -> None:
        (self.folder / ".site.cfb.cfb-new").write_bytes(b"left")
        with gyomrelas.open(self.path, "r+") as file:
            file.overwrite("Site/log", 0, b"LINE")
        gyomrelas.validate(self.path.read_bytes())
        self.only("site.cfb")

    def test_threads_that_save(self) -> None:
        file = gyomrelas.open(self.path, "r+")
        errors = []

        def work(number: int) -> None:
            try:
                for _ in range(10):
                    file.overwrite("Site/log", 25 * number, b"%d" % number)
                    file.save()
            except BaseException as error:
                errors.append(error)

        threads = [threading.Thread(target=work, args=(number,)) for number in range(4)]
        for thread in threads:
            thread.start()
        for thread in threads:
            thread.join()
        self.assertEqual(errors, [])
        file.save()
        self.assertTrue(self.path.read_bytes() == file.tobytes())
        self.only("site.cfb")


class Sources(OnDisk):
    def test_what_is_no_file(self) -> None:
        self.assertRaises(FileNotFoundError, gyomrelas.open, self.folder / "gone")
        self.assertRaises(IsADirectoryError, gyomrelas.open, self.folder)
        pipe = self.folder / "pipe"
        os.mkfifo(pipe)
        for mode in ("r", "r+"):
            with self.assertRaises(OSError) as caught:
                gyomrelas.open(pipe, mode)
            self.assertEqual(caught.exception.errno, errno.EINVAL)
        self.path.write_bytes(broken(15))
        self.refused(15, gyomrelas.open, self.path, "r+")

    def test_a_source_in_pieces(self) -> None:
        class Pieces(io.BytesIO):
            def read(self, size: "int | None" = -1) -> bytes:
                return super().read(1000 if size is None or size < 0 else min(size, 1000))

        self.assertTrue(disk.read_source(Pieces(sample())) == sample())


class Created(OnDisk):
    def test_create(self) -> None:
        path = self.folder / "new.cfb"
        with gyomrelas.create(path, 65_536, version=4, objects=3, small_bytes=100) as file:
            self.assertFalse(path.exists())
            file.write_bytes("note", b"hello\n")
        with gyomrelas.open(path) as file:
            self.assertEqual((file.read_bytes("note"), len(file.tobytes())), (b"hello\n", 65_536))
        self.only("site.cfb", "new.cfb")

    def test_a_fresh_file_is_saved_without_edits_too(self) -> None:
        with gyomrelas.create(self.folder / "new.cfb") as file:
            pass
        self.assertTrue(file.closed)
        self.only("site.cfb", "new.cfb")

    def test_saved_twice(self) -> None:
        with gyomrelas.create(self.folder / "new.cfb") as file:
            file.save()
            file.write_bytes("note", b"more")
        with gyomrelas.open(self.folder / "new.cfb") as file:
            self.assertEqual(file.read_bytes("note"), b"more")
        self.only("site.cfb", "new.cfb")

    def test_an_exception_leaves_nothing(self) -> None:
        with self.assertRaises(KeyError):
            with gyomrelas.create(self.folder / "new.cfb"):
                raise KeyError
        self.only("site.cfb")

    def test_nothing_is_replaced(self) -> None:
        self.assertRaises(FileExistsError, gyomrelas.create, self.path)
        path = self.folder / "new.cfb"
        with self.assertRaises(FileExistsError):
            with gyomrelas.create(path):
                path.write_bytes(b"of another")
        self.assertEqual(path.read_bytes(), b"of another")
        os.unlink(path)
        with mock.patch("os.link", side_effect=OSError(errno.EPERM, "no links here")):
            with self.assertRaises(FileExistsError):
                with gyomrelas.create(path):
                    path.write_bytes(b"of another")
            self.assertEqual(path.read_bytes(), b"of another")
            os.unlink(path)
            with gyomrelas.create(path):
                pass
        gyomrelas.validate(path.read_bytes())
        self.only("site.cfb", "new.cfb")
