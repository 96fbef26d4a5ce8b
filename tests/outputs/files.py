"""The functions that write files, each made to fail where the system would."""
from __future__ import annotations

import errno
import fcntl
import os
import signal
import tempfile
import unittest
from contextlib import nullcontext
from pathlib import Path
from typing import ContextManager, List
from unittest import mock

from cif_timetable.errors import Failed
from cif_timetable._files import UnfinishedFolder, new_files, output_path, scratch_file_with_path
from cif_timetable._files import start_of_name
from cif_timetable._running import INTERRUPTS, catch_interrupts


class InFolder(unittest.TestCase):
    """Tests in a folder of their own."""

    def setUp(self) -> None:
        work = tempfile.TemporaryDirectory(prefix="cif-outputs-")
        self.addCleanup(work.cleanup)
        self.folder = Path(work.name).resolve()

    def texts(self) -> List[str]:
        """The name and the text of each file, and the name of each folder."""
        texts = []
        for path in sorted(self.folder.iterdir()):
            text = path.read_text(encoding="utf-8") if path.is_file() else ""
            texts.append(f"{path.name} {text}")
        return texts


class Links(InFolder):
    """A link that the system doesn't follow."""

    def test_link_that_may_not_be_followed(self) -> None:
        """As stat answers in /tmp where links of others are protected; where they lead is no matter."""
        link = self.folder / "link"
        for name in "target", "missing":
            with self.subTest(name):
                link.unlink(missing_ok=True)
                link.symlink_to(name)
                with mock.patch("os.stat", side_effect=PermissionError(errno.EACCES, "No")):
                    with self.assertRaises(Failed) as caught:
                        output_path(str(link))
                self.assertEqual((f"{link}: No",), caught.exception.lines)

    def test_link_to_what_is_not_there(self) -> None:
        (self.folder / "link").symlink_to("missing")
        self.assertEqual(self.folder / "missing", output_path(str(self.folder / "link")))


class Replacing(InFolder):
    """Two outputs, of which both take their places, or none."""

    def write(self) -> None:
        with new_files() as files:
            for name in "a", "b":
                files.create(self.folder / name).write(b"new")

    def check_refused(self, told: str) -> None:
        with self.assertRaises(Failed) as caught:
            self.write()
        self.assertEqual((f"{self.folder / 'b'}: {told}",), caught.exception.lines)

    def test_both(self) -> None:
        (self.folder / "a").write_text("older", encoding="utf-8")
        self.write()
        self.assertEqual(["a new", "b new"], self.texts())

    def test_second_is_refused(self) -> None:
        (self.folder / "a").write_text("older", encoding="utf-8")
        (self.folder / "b").mkdir()
        self.check_refused("Is a directory")
        self.assertEqual(["a older", "b "], self.texts())
        (self.folder / "a").unlink()
        self.check_refused("Is a directory")
        self.assertEqual(["b "], self.texts())

    def test_second_is_refused_without_links(self) -> None:
        (self.folder / "a").write_text("older", encoding="utf-8")
        (self.folder / "b").mkdir()
        with mock.patch("os.link", side_effect=PermissionError(errno.EPERM, "No")):
            self.check_refused("Is a directory")
            self.assertEqual(["a older", "b "], self.texts())
            (self.folder / "b").rmdir()
            self.write()
        self.assertEqual(["a new", "b new"], self.texts())

    def test_second_can_not_be_replaced(self) -> None:
        """The older files are put back, whether they are linked meanwhile or moved."""
        real, second = os.replace, self.folder / "b"

        def replace(path: Path, place: Path) -> None:
            if place == second and path.name != "older":
                raise PermissionError(errno.EPERM, "No")
            real(path, place)

        no_links = mock.patch("os.link", side_effect=PermissionError(errno.EPERM, "No"))
        kinds: List[ContextManager[object]] = [no_links, nullcontext()]
        for links in kinds:
            for name in "a", "b":
                (self.folder / name).write_text("older", encoding="utf-8")
            with links, mock.patch("os.replace", replace):
                self.check_refused("No")
            self.assertEqual(["a older", "b older"], self.texts())

    def test_disk_fails(self) -> None:
        """What can't be written to the disk is named as the user has it."""
        (self.folder / "a").write_text("older", encoding="utf-8")
        with mock.patch("os.fsync", side_effect=[None, OSError(errno.EIO, "No disk")]):
            self.check_refused("No disk")
        self.assertEqual(["a older"], self.texts())

    def test_file_that_may_not_be_written(self) -> None:
        """The mode of the older file is that of the new one, which is written before it has it."""
        (self.folder / "a").write_text("older", encoding="utf-8")
        (self.folder / "a").chmod(0o444)
        opened: List[int] = []
        real = os.open

        def note_mode(path: Path, flags: int, mode: int = 0o777) -> int:
            if flags & os.O_RDWR and os.path.exists(path):
                opened.append(os.stat(path).st_mode & 0o777)
            return real(path, flags, mode)

        with mock.patch("os.open", note_mode):
            self.write()
        self.assertEqual([0o600, 0o600], opened)
        self.assertEqual(0o444, (self.folder / "a").stat().st_mode & 0o777)


class Interrupts(InFolder):
    """Signals while files take their places."""

    def setUp(self) -> None:
        super().setUp()
        for number in INTERRUPTS:
            self.addCleanup(signal.signal, number, signal.getsignal(number))
        catch_interrupts()

    def write(self, at: str) -> None:
        """Writes a file, with a signal after a call of this function."""
        real = getattr(os, at)

        def interrupted(*words: Path) -> None:
            real(*words)
            os.kill(os.getpid(), signal.SIGTERM)

        with mock.patch(f"os.{at}", interrupted), new_files() as files:
            files.create(self.folder / "a").write(b"new")

    def test_signal_before_the_rename(self) -> None:
        with self.assertRaises(Failed):
            self.write("fsync")
        self.assertEqual([], self.texts())

    def test_signal_after_the_rename(self) -> None:
        self.write("replace")
        self.assertEqual(["a new"], self.texts())


class LeftOver(InFolder):
    """What a run that was killed has left."""

    def left_over(self, place: Path) -> Path:
        """A folder as a run leaves it that was killed."""
        folder = UnfinishedFolder(place)
        folder.new_file(place).write_text("half", encoding="utf-8")
        os.close(folder.descriptor)
        return folder.path

    def test_it_is_removed(self) -> None:
        place, other = self.folder / "a", self.folder / "b"
        left, others = self.left_over(place), self.left_over(other)
        with new_files() as files:
            files.create(place).write(b"new")
            self.assertFalse(left.exists())
        self.assertEqual([f"{others.name} ", "a new"], self.texts())

    def test_a_living_run_is_left_alone(self) -> None:
        place = self.folder / "a"
        with new_files() as files:
            first = files.create(place)
            with new_files() as others:
                others.create(place).write(b"second")
            first.write(b"first")
        self.assertEqual(["a first"], self.texts())

    def test_files_of_the_user_stay(self) -> None:
        place = self.folder / "a"
        names = [".a.original", f"{start_of_name(place)}file", ".a.cif-new", ".b.cif-new.abcdefgh"]
        for name in names:
            (self.folder / name).write_text("mine", encoding="utf-8")
        with new_files() as files:
            files.create(place).write(b"new")
        self.assertEqual(sorted([f"{name} mine" for name in names] + ["a new"]), self.texts())

    def test_folder_of_somebody_else_stays(self) -> None:
        place = self.folder / "a"
        left = self.left_over(place)
        with mock.patch("os.geteuid", return_value=os.geteuid() + 1), new_files() as files:
            files.create(place).write(b"new")
        self.assertTrue(left.exists())

    def write_with_folder_removed(self, by_lock: bool) -> int:
        """How many folders a run makes of which the first is removed: when it is to be locked, or at
        once."""
        make, lock = tempfile.mkdtemp, fcntl.flock
        made: List[str] = []

        def new_folder(dir: Path, prefix: str) -> str:  # pylint: disable=redefined-builtin
            made.append(make(dir=dir, prefix=prefix))
            if len(made) == 1 and not by_lock:
                os.rmdir(made[0])
            return made[-1]

        def take(descriptor: int, operation: int) -> None:
            if len(made) == 1 and by_lock:
                os.rmdir(made[0])
            lock(descriptor, operation)

        with mock.patch("tempfile.mkdtemp", new_folder), mock.patch("fcntl.flock", take):
            with new_files() as files:
                files.create(self.folder / "a").write(b"new")
        return len(made)

    def test_folder_that_another_run_removes(self) -> None:
        """Before a new folder is locked another run may take it for one that is left over."""
        for by_lock in False, True:
            with self.subTest(by_lock=by_lock):
                self.assertEqual(2, self.write_with_folder_removed(by_lock))
                self.assertEqual(["a new"], self.texts())

    def test_temporary_file_has_no_name(self) -> None:
        with mock.patch("tempfile.tempdir", str(self.folder)):
            with mock.patch.dict(os.environ, {"TMPDIR": str(self.folder)}):
                with scratch_file_with_path() as (file, path):
                    file.write(b"text")
                    file.flush()
                    self.assertEqual(([], "text"), (self.texts(), path.read_text(encoding="utf-8")))
