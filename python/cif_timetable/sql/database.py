"""From an extract to a database in a file."""
from __future__ import annotations

import hashlib
import os
from collections.abc import Callable, Iterator, Sequence
from concurrent.futures import ThreadPoolExecutor
from contextlib import contextmanager
from datetime import datetime, timezone
from functools import partial
from pathlib import Path

from .._extract import Extract
from .._files import BLOCK, new_files
from .._process import Cif
from .._progress import Progress
from ..operators import read_operators
from ..places import read_places
from ..user_csv import CONTROL
from .background import in_background
from .loading import Loaded, Source, UserFiles, load
from .sqlite_file import Parts, check_age, check_place, join_parts, new_part


def user_files(places: Sequence[str], operators: str | None) -> UserFiles:
    """What the files of the user have, as far as there are any."""
    return UserFiles(read_places(places), read_operators(operators))


def version_of(cif: Cif) -> str:
    """The version of `cif`."""
    with cif.output(["--version"]) as lines:
        return lines.read().decode().strip().rpartition(" ")[2]


def digest_of(path: Path) -> str:
    digest = hashlib.sha256()
    with open(path, "rb") as file:
        for block in iter(lambda: file.read(BLOCK), b""):
            digest.update(block)
    return digest.hexdigest()


@contextmanager
def reading_source(extract: Extract) -> Iterator[Callable[[], Source]]:
    """What tells the source of an extract, whose digest is made meanwhile by a thread."""
    now = datetime.now(timezone.utc).isoformat(timespec="seconds")
    shown = CONTROL.sub("?", os.fsencode(extract.request.name).decode(errors="replace"))
    version = version_of(extract.cif)
    with ThreadPoolExecutor(1) as threads:
        digest = threads.submit(digest_of, extract.source)
        yield lambda: Source(shown, digest.result(), version, now)
        extract.check_state()


def make_database(
    extract: Extract, place: Path, given: UserFiles, force: bool, progress: Progress
) -> Loaded:
    """Writes the SQLite file. It takes its place once it is complete, unless there is a later one,
    which is replaced by force only."""
    if not force:
        check_age(place, extract.header())
    with new_files() as files:
        path = files.reserve(place)
        longest, second, others = (files.beside(place) for _ in range(3))
        opened = [partial(new_part, part, place) for part in (longest, second, others)]
        # no thread is there yet when the processes start
        with in_background(opened) as databases:
            with reading_source(extract) as source:
                loaded = load(extract, source, given, Parts(*databases), progress)
            progress.show("building indexes")
        join_parts(longest, second, others, path, place)
        # it may have become another one meanwhile
        check_place(place)
        if not force:
            check_age(place, extract.header())
    return loaded
