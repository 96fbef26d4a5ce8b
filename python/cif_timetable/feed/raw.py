"""The files that were fetched, in FOLDER/raw, as they came."""
from __future__ import annotations

import json
import os
import re
import shutil
import zipfile
import zlib
from collections.abc import Callable, Iterator
from contextlib import contextmanager, suppress
from dataclasses import asdict, dataclass
from datetime import date, timedelta
from gzip import BadGzipFile
from pathlib import Path
from typing import IO

from .._files import BLOCK, synchronise
from .._unpack import GZIP, ZIP, opened_gzip, opened_zip, unpack
from ..errors import CifError, Damaged, Refused
from .header import LONGEST, Header, header_of, read_header
from .net import Known
from .whole import new_file, write_whole

NAME = re.compile(r"\d{8}-\d{4}-[A-Za-z0-9_]+-(full|update)\.(cif|cif\.gz|zip)")
DAMAGES = (BadGzipFile, zipfile.BadZipFile, zlib.error, EOFError)


@contextmanager
def opened(path: Path) -> Iterator[IO[bytes]]:
    """What a file has, unpacked if need be."""
    with open(path, "rb") as file:
        start = file.read(len(ZIP))
        file.seek(0)
        if start == ZIP:
            with opened_zip(file, str(path)) as source:
                yield source
        elif start.startswith(GZIP):
            with opened_gzip(file, str(path)) as source:
                yield source
        else:
            yield file


@contextmanager
def opened_zip_of(path: Path, name: str) -> Iterator[zipfile.ZipFile]:
    """All of a zip."""
    try:
        with zipfile.ZipFile(path) as archive:
            yield archive
    except DAMAGES as problem:
        raise Damaged(f"{name} is damaged: {problem}") from None
    except (NotImplementedError, RuntimeError) as problem:
        raise Refused(f"{name} can't be unpacked: {problem}") from None


def suffix_of(path: Path) -> str:
    """The ending of a file, by what it has."""
    with open(path, "rb") as file:
        start = file.read(len(ZIP))
    return ".zip" if start == ZIP else ".cif.gz" if start.startswith(GZIP) else ".cif"


def packed_header(path: Path, name: str) -> Header:
    """The header of a file, which may be compressed."""
    try:
        with opened(path) as source:
            return read_header(iter(lambda: source.readline(LONGEST), b""), name)
    except DAMAGES:
        raise Damaged(f"{name} is damaged") from None
    except (NotImplementedError, RuntimeError):
        raise Refused(f"{name} can't be unpacked") from None


@dataclass(frozen=True)
class Raw:
    """A file that was fetched. What it is says its header."""

    path: Path
    header: Header

    def __str__(self) -> str:
        return f"{self.path.parent.name}/{self.path.name} ({self.header})"


class RawFiles:
    """The files of FOLDER/raw."""

    def __init__(self, folder: Path, work: Path) -> None:
        self.folder = folder
        self.work = work
        self.index_path = folder / "fetched.json"
        self.all: dict[str, Raw] = {}
        self.index: dict[str, dict[str, str | None]] = {}
        self.read()

    def read(self) -> None:
        with suppress(FileNotFoundError):
            for path in sorted(self.folder.iterdir()):
                if NAME.fullmatch(path.name):
                    # one that can't be read any more is fetched again
                    with suppress(CifError, OSError):
                        self.all[path.name] = Raw(path, packed_header(path, path.name))
        with suppress(OSError, ValueError):
            found = json.loads(self.index_path.read_text(encoding="utf-8"))
            if isinstance(found, dict):
                self.index = {key: value for key, value in found.items() if isinstance(value, dict)}

    def fulls(self) -> list[Raw]:
        return [raw for raw in self.all.values() if raw.header.is_full]

    def updates(self) -> list[Raw]:
        return [raw for raw in self.all.values() if not raw.header.is_full]

    def has(self, header: Header) -> bool:
        return any(raw.header == header for raw in self.all.values())

    # ---- unpacking

    def unpacked_path(self, header: Header) -> Path:
        return self.work / f"{header.name}.cif"

    def unpacked(self, raw: Raw) -> Path:
        """A copy that isn't compressed, in the folder for the work of this run."""
        path = self.unpacked_path(raw.header)
        if not path.exists():
            self.check(raw.path, str(raw))
        return path

    def remove(self, raw: Raw) -> None:
        """Removes a file, which may then be fetched again."""
        raw.path.unlink()
        del self.all[raw.path.name]

    def unpack(self, source: Path, target: Path, name: str) -> None:
        with open(source, "rb") as file, new_file(target) as copy:
            if suffix_of(source) == ".cif":
                shutil.copyfileobj(file, copy, BLOCK)
            else:
                unpack(file, name, copy)

    def check(self, path: Path, name: str) -> Header:
        """Reads all of a file, which leaves an unpacked copy."""
        target = self.work / "unpacked"
        try:
            self.unpack(path, target, name)
            header = header_of(target, name)
            os.replace(target, self.unpacked_path(header))
            return header
        finally:
            target.unlink(missing_ok=True)

    # ---- adding

    def known(self, key: str) -> Known:
        """What a server called the file that it last gave, if it is still here."""
        found = self.index.get(key, {})
        if not (self.folder / (found.get("file") or "")).is_file():
            return Known()
        return Known(found.get("etag"), found.get("modified"))

    def add(self, path: Path, header: Header, copy: Callable[[Path, Path], object]) -> Raw:
        """Puts a file that has been read whole into its place, by moving or copying it."""
        self.folder.mkdir(exist_ok=True)
        place = self.folder / f"{header.name}{suffix_of(path)}"
        copy(path, place)
        synchronise(self.folder)
        raw = Raw(place, header)
        self.all[place.name] = raw
        return raw

    def remember(self, key: str, name: str, known: Known) -> None:
        """Keeps what the server calls the file, for the next run to ask whether it is the same."""
        self.index[key] = {"file": name, **asdict(known)}
        self.folder.mkdir(exist_ok=True)
        write_whole(self.index_path, json.dumps(self.index, indent=1, sort_keys=True) + "\n")

    # ---- removing

    def prune(self, before: date) -> None:
        """Removes what was made before a date, but for the newest full extract and what came after
        it: a broken chain is healed by these."""
        fulls = self.fulls()
        newest = max((raw.header.made for raw in fulls), default=None)
        for raw in list(self.all.values()):
            needed = newest is not None and raw.header.made >= newest
            if raw.header.made.date() < before and not needed:
                self.remove(raw)

    def keep_since(self, today: date, days: int) -> None:
        self.prune(today - timedelta(days=days))
