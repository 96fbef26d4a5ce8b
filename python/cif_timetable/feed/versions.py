"""The versions of a folder: complete sets of outputs, of which FOLDER/current is one."""
from __future__ import annotations

import fcntl
import json
import os
import re
import shutil
import time
from collections.abc import Iterator
from contextlib import contextmanager, suppress
from dataclasses import asdict, dataclass, field
from datetime import date, datetime, timedelta
from pathlib import Path

from .._files import synchronise
from ..errors import CifError, Failed, Misused, Refused
from .header import Header, header_of
from .settings import FACTS, STATE
from .whole import write_whole

# How long a run waits for another one, and how often it looks.
LOCK_WAIT = 60.0
LOCK_PAUSE = 0.2

NAME_FORMAT = "%Y%m%dT%H%M%SZ"
NAME = re.compile(r"\d{8}T\d{6}Z")


@contextmanager
def only_run(folder: Path) -> Iterator[None]:
    """Holds the lock of a folder, which goes with this process, however that ends."""
    path = folder / "lock"
    descriptor = os.open(path, os.O_RDWR | os.O_CREAT, 0o666)
    try:
        end = time.monotonic() + LOCK_WAIT
        while True:
            try:
                fcntl.flock(descriptor, fcntl.LOCK_EX | fcntl.LOCK_NB)
                break
            except BlockingIOError:
                if time.monotonic() > end:
                    raise Failed(
                        f"another run is at work in {folder}: it holds {path}, and the next one goes on"
                    ) from None
                time.sleep(LOCK_PAUSE)
        yield
    finally:
        os.close(descriptor)


@dataclass
class Facts:
    """What a run notes of its version, in feed.json."""

    # the file, or the extract of the version before, with which the run began, and the updates
    base: str = ""
    updates: list[str] = field(default_factory=list)
    # whether the extract is anything else than a full one as it was fetched
    is_updated: bool = True
    fetched_at: str = ""
    waived: int = 0
    dropped: int = 0
    # files that aren't read, and how many schedules they have
    not_read: dict[str, int] = field(default_factory=dict)
    # what `cif` and the programs say beside their answers
    said: list[str] = field(default_factory=list)
    # tells the settings, and the files that they name, from others
    settings: str = ""
    outputs: list[str] = field(default_factory=list)

    @classmethod
    def read(cls, path: Path) -> Facts:
        """Those in a file, as far as they can be read."""
        with suppress(OSError, ValueError, TypeError):
            return cls(**json.loads(path.read_text(encoding="utf-8")))
        return cls()

    def write(self, path: Path) -> None:
        write_whole(path, json.dumps(asdict(self), indent=1) + "\n")


@dataclass(frozen=True)
class Version:
    """A complete version: where it is, what its extract is, and what was noted of it."""

    path: Path
    header: Header
    facts: Facts

    @property
    def extract(self) -> Path:
        return self.path / STATE


def version_at(path: Path) -> Version:
    return Version(path, header_of(path / STATE, str(path / STATE)), Facts.read(path / FACTS))


class Versions:
    """FOLDER/versions and FOLDER/current."""

    def __init__(self, folder: Path) -> None:
        self.link = folder / "current"
        self.folder = folder / "versions"

    def names(self) -> list[str]:
        """The names of all versions, the oldest first."""
        with suppress(FileNotFoundError):
            return sorted(filter(NAME.fullmatch, os.listdir(self.folder)))
        return []

    def current_name(self) -> str | None:
        """The name of the version that `current` is, if there is one."""
        try:
            target = os.readlink(self.link)
        except FileNotFoundError:
            return None
        except OSError:
            raise Refused(f"{self.link} isn't a link of cif-feed: rename it") from None
        folder, _, name = target.rpartition("/")
        if folder != self.folder.name or not NAME.fullmatch(name):
            raise Refused(f"{self.link} isn't a link of cif-feed: rename it")
        return name if (self.folder / name).is_dir() else None

    def current(self) -> Version | None:
        name = self.current_name()
        return version_at(self.folder / name) if name else None

    def before(self, header: Header) -> Version | None:
        """The newest version of an extract that is older than this one."""
        for name in reversed(self.names()):
            with suppress(CifError, OSError):
                found = version_at(self.folder / name)
                if found.header.made < header.made:
                    return found
        return None

    def new(self, now: datetime) -> Path:
        """An empty folder for a version, whose name comes after those of all others."""
        self.folder.mkdir(exist_ok=True)
        name = now.strftime(NAME_FORMAT)
        if names := self.names():
            after = datetime.strptime(names[-1], NAME_FORMAT) + timedelta(seconds=1)
            name = max(name, after.strftime(NAME_FORMAT))
        path = self.folder / name
        path.mkdir()
        return path

    def synchronise(self, path: Path) -> None:
        """Waits until all of a version is on the disk."""
        for parent, _, names in os.walk(path):
            for name in names:
                synchronise(Path(parent, name))
            synchronise(Path(parent))
        synchronise(self.folder)

    def commit(self, path: Path) -> None:
        """Makes a version the current one, once it is on the disk."""
        new = self.link.with_name(".current.new")
        new.unlink(missing_ok=True)
        new.symlink_to(f"{self.folder.name}/{path.name}")
        os.replace(new, self.link)
        synchronise(self.link.parent)

    def clean(self, work: Path) -> None:
        """Removes what runs have left that were killed: versions that never became current. Programs
        that such a run has started may still write into them, so they are moved away first."""
        self.link.with_name(".current.new").unlink(missing_ok=True)
        current = self.current_name() or ""
        for name in self.names():
            if name > current:
                os.replace(self.folder / name, work / name)

    def prune(self, before: date) -> None:
        """Removes versions that were made before a date, but the current one."""
        current = self.current_name()
        for name in self.names():
            if datetime.strptime(name, NAME_FORMAT).date() < before and name != current:
                shutil.rmtree(self.folder / name)


def check_folder(folder: Path) -> None:
    if not folder.is_dir():
        raise Misused(f"{folder} isn't a folder")
