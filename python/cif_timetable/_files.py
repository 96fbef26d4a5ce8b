"""Files that a run writes: temporary ones, and those that take their places once all is well."""
from __future__ import annotations

import errno
import fcntl
import io
import os
import shutil
import signal
import stat
import sys
import tempfile
from collections.abc import Iterable, Iterator
from contextlib import ExitStack, contextmanager, suppress
from pathlib import Path
from typing import IO, Any

from ._running import INTERRUPTS, ends_by_interrupts, ignore_interrupts
from .errors import Failed, Misused

BLOCK = 1 << 20


class ReportingFile(io.FileIO):
    """A file whose faults name a path, which those of reading and writing otherwise don't."""

    def __init__(self, descriptor: int, path: str) -> None:
        super().__init__(descriptor, "r+")
        self.path = path

    def write(self, data: Any) -> int:
        try:
            return super().write(data) or 0
        except OSError as problem:
            raise Failed(f"{self.path}: {problem.strerror}") from None


def reporting(descriptor: int, path: str) -> IO[bytes]:
    return io.BufferedRandom(ReportingFile(descriptor, path), BLOCK)


def temporary_folder() -> str:
    """The folder for temporary files. That of TMPDIR is taken, or the run ends."""
    folder, asked = tempfile.gettempdir(), os.environ.get("TMPDIR")
    if asked and os.path.abspath(asked) != os.path.abspath(folder):
        raise Failed(f"TMPDIR: no temporary file can be written in {asked}")
    return folder


@contextmanager
def scratch_file() -> Iterator[IO[bytes]]:
    """A temporary file. Its faults name its folder."""
    folder = temporary_folder()
    with tempfile.TemporaryFile(buffering=0, dir=folder) as file:
        with reporting(os.dup(file.fileno()), folder) as scratch:
            yield scratch


@contextmanager
def scratch_file_with_path() -> Iterator[tuple[IO[bytes], Path]]:
    """Likewise, with a path by which this process and those that it starts can open it. The file has
    no name, so that a run that is killed leaves nothing; only a system without /proc needs one."""
    descriptors = Path(f"/proc/{os.getpid()}/fd")
    if descriptors.is_dir():
        with scratch_file() as scratch:
            yield scratch, descriptors / str(scratch.fileno())
    else:
        folder = temporary_folder()
        with tempfile.NamedTemporaryFile(dir=folder) as file:
            with reporting(os.dup(file.fileno()), folder) as scratch:
                yield scratch, Path(file.name)


# ---- the places of outputs


def kind_of(text: str) -> str | None:
    """What stands in the place of an output, if it isn't a regular file and can't be replaced. Where
    it can't be told what there is, nothing is written: the system may refuse to follow a link."""
    try:
        mode = os.stat(text).st_mode
    except FileNotFoundError:
        return None
    except OSError as problem:
        if problem.errno == errno.ELOOP:
            return "a link in a circle"
        raise Failed(f"{text}: {problem.strerror}") from None
    if stat.S_ISDIR(mode):
        return "a folder"
    return None if stat.S_ISREG(mode) else "a device or a pipe"


def output_path(text: str) -> Path:
    """The place of an output: that of a regular file, or where there is nothing yet. A link is
    followed."""
    if text in ("", "-"):
        raise Misused(f"the output `{text}` has to be a file")
    # first what it is, since the path of a pipe leads nowhere
    kind = "a folder" if text.endswith(os.sep) else kind_of(text)
    if kind:
        raise Misused(f"the output {text} has to be a file, and isn't: it is {kind}")
    return Path(os.path.realpath(text))


def stat_of(name: str) -> os.stat_result | None:
    try:
        return os.stat(name)
    except OSError:
        return None


def stat_of_extract(name: str) -> os.stat_result | None:
    """Likewise, where `-` is standard input."""
    return os.fstat(sys.stdin.fileno()) if name == "-" else stat_of(name)


def check_inputs_stay(
    outputs: Iterable[Path], extracts: Iterable[str], others: Iterable[str | None]
) -> None:
    """Refuses an output in the place of an input. An extract may be standard input."""
    stats = [stat_of_extract(name) for name in extracts]
    stats += [stat_of(name) for name in others if name]
    for output in outputs:
        there = stat_of(str(output))
        if there and any(each and os.path.samestat(there, each) for each in stats):
            raise Misused(f"{output} would take the place of an input: rename one of them")


def mode_for(path: Path) -> int:
    """The mode of a new file: that of the file in its place, or what the umask leaves."""
    if path.exists():
        return stat.S_IMODE(path.stat().st_mode)
    mask = os.umask(0)
    os.umask(mask)
    return 0o666 & ~mask


# ---- unfinished files

# A file's name has 255 bytes at most, of which so many leave room for what is added.
ROOM = 200
# What the name of a folder with unfinished files has after that of the output.
UNFINISHED = ".cif-new."


def start_of_name(place: Path) -> str:
    """How the names of folders with unfinished files for a place begin."""
    start = os.fsencode(place.name)[:ROOM].decode(sys.getfilesystemencoding(), "ignore")
    return f".{start}{UNFINISHED}"


def is_locked(descriptor: int) -> bool:
    """Locks a folder, unless another run holds the lock. A system without locks has none that is
    held."""
    try:
        fcntl.flock(descriptor, fcntl.LOCK_EX | fcntl.LOCK_NB)
    except BlockingIOError:
        return True
    except OSError:
        pass
    return False


class UnfinishedFolder:
    """A folder beside the place of an output, for files that aren't complete. The run holds a lock
    on it as long as it lives, so that a later run can tell what one that was killed has left."""

    def __init__(self, place: Path) -> None:
        remove_left_over(place)
        self.path = place
        self.descriptor = -1
        while self.descriptor < 0:
            try:
                name = tempfile.mkdtemp(dir=place.parent, prefix=start_of_name(place))
            except OSError as problem:
                raise Failed(f"{place}: {problem.strerror}") from None
            self.path = Path(name)
            self.descriptor = self.lock()

    def lock(self) -> int:
        """A descriptor that holds the lock, or -1 if another run has just taken the folder for one
        that is left over."""
        try:
            descriptor = os.open(self.path, os.O_RDONLY | os.O_DIRECTORY)
            if not is_locked(descriptor) and self.path.exists():
                return descriptor
            os.close(descriptor)
        except FileNotFoundError:
            pass
        return -1

    def new_file(self, place: Path) -> Path:
        """The path of a file that is empty."""
        try:
            descriptor, name = tempfile.mkstemp(dir=self.path)
        except OSError as problem:
            raise Failed(f"{place}: {problem.strerror}") from None
        os.close(descriptor)
        return Path(name)

    def keep(self, place: Path) -> Path | None:
        """Keeps the file that is in a place, if there is one, so that it can be put back."""
        if not place.is_file():
            return None
        older = self.path / "older"
        try:
            os.link(place, older)
        except OSError:
            # the file system has no links, or the file is somebody else's
            os.replace(place, older)
        return older

    def remove(self) -> None:
        shutil.rmtree(self.path, ignore_errors=True)
        os.close(self.descriptor)


def remove_left_over(place: Path) -> None:
    """Removes the folders of runs for the same place that were killed: those of this user on which
    no run holds a lock."""
    start = start_of_name(place)
    with suppress(OSError):
        for name in os.listdir(place.parent):
            if name.startswith(start):
                with suppress(OSError):
                    remove_unlocked(place.parent / name)


def remove_unlocked(folder: Path) -> None:
    descriptor = os.open(folder, os.O_RDONLY | os.O_DIRECTORY | os.O_NOFOLLOW)
    try:
        if os.fstat(descriptor).st_uid == os.geteuid():
            fcntl.flock(descriptor, fcntl.LOCK_EX | fcntl.LOCK_NB)
            shutil.rmtree(folder, ignore_errors=True)
    finally:
        os.close(descriptor)


class NewFiles:
    """New files, each written beside its place."""

    def __init__(self) -> None:
        self.folders: dict[Path, UnfinishedFolder] = {}
        # the path of each new file, its place and its mode there
        self.written: list[tuple[Path, Path, int]] = []
        self.opened: list[IO[bytes]] = []

    def beside(self, place: Path) -> Path:
        """The path of a file that is empty, for whoever opens it by its name. It is removed at the
        end."""
        with interrupts_waiting():
            if place not in self.folders:
                self.folders[place] = UnfinishedFolder(place)
        return self.folders[place].new_file(place)

    def reserve(self, place: Path) -> Path:
        """Likewise, of the new file for a place."""
        path = self.beside(place)
        self.written.append((path, place, mode_for(place)))
        return path

    def create(self, place: Path) -> IO[bytes]:
        """A new file to write into."""
        file = reporting(os.open(self.reserve(place), os.O_RDWR), str(place))
        self.opened.append(file)
        return file

    def finish(self) -> None:
        """Puts all into their places. After that an interrupt is too late to end the run."""
        for file in self.opened:
            file.close()
        for path, place, mode in self.written:
            with faults_of(place):
                synchronise(path)
                path.chmod(mode)
        with interrupts_waiting():
            self.replace_all()
            if ends_by_interrupts():
                ignore_interrupts()
            self.discard()

    def replace_all(self) -> None:
        """Puts all files into their places, or none."""
        with ExitStack() as undo:
            for path, place, _ in self.written:
                with faults_of(place):
                    # one file alone takes its place or doesn't
                    several = len(self.written) > 1
                    older = self.folders[place].keep(place) if several else None
                    if older:
                        undo.callback(os.replace, older, place)
                    os.replace(path, place)
                    if not older:
                        undo.callback(os.unlink, place)
            undo.pop_all()

    def discard(self) -> None:
        """Leaves nothing of what isn't in its place."""
        with interrupts_waiting():
            for folder in self.folders.values():
                folder.remove()
            self.folders.clear()


@contextmanager
def faults_of(place: Path) -> Iterator[None]:
    """Reports a fault of a file that isn't in its place as one of the place."""
    try:
        yield
    except OSError as problem:
        raise Failed(f"{place}: {problem.strerror}") from None


@contextmanager
def interrupts_waiting() -> Iterator[None]:
    """Lets interrupts wait for what mustn't be left halfway."""
    blocked = signal.pthread_sigmask(signal.SIG_BLOCK, INTERRUPTS)
    try:
        yield
    finally:
        signal.pthread_sigmask(signal.SIG_SETMASK, blocked)


def synchronise(path: Path) -> None:
    """Waits until a file is on its disk, so that a machine that stops has the older file or this."""
    descriptor = os.open(path, os.O_RDONLY)
    try:
        os.fsync(descriptor)
    finally:
        os.close(descriptor)


@contextmanager
def new_files() -> Iterator[NewFiles]:
    """Files that take their places together at the end. If anything fails, nothing is left."""
    files = NewFiles()
    try:
        yield files
        files.finish()
    except BaseException:
        files.discard()
        raise
