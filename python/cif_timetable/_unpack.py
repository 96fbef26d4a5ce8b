"""Extracts as they are published: compressed by gzip, or in a zip."""
from __future__ import annotations

import gzip
import shutil
import zipfile
import zlib
from collections.abc import Iterator
from contextlib import contextmanager
from typing import IO, cast

from ._files import BLOCK
from .errors import Damaged, Refused

GZIP = b"\x1f\x8b"
ZIP = b"PK\x03\x04"
# The suffixes of extracts in a zip.
SUFFIXES = (".cif", ".mca")
# How an extract begins, and a comment before it.
STARTS = (b"HD", b"/")
# An extract has lines of 80 columns.
LONGEST = 100


def is_packed(start: bytes) -> bool:
    """Whether a file is compressed, by its first bytes."""
    return start.startswith((GZIP, ZIP))


def copy_extract(source: IO[bytes], target: IO[bytes]) -> None:
    """Copies all that a source gives, which may have no end. What doesn't begin as an extract does,
    or as a packed one, is refused at its first line, so no more is copied."""
    first = source.readline(LONGEST)
    target.write(first)
    if is_packed(first) or (first.startswith(STARTS) and first.endswith(b"\n")):
        shutil.copyfileobj(source, target, BLOCK)


def unpack(packed: IO[bytes], name: str, target: IO[bytes]) -> None:
    """Copies the extract that a packed file has. `name` is that of the file."""
    start = packed.read(len(ZIP))
    packed.seek(0)
    try:
        opened = opened_zip if start == ZIP else opened_gzip
        with opened(packed, name) as source:
            copy_extract(source, target)
    except (gzip.BadGzipFile, zipfile.BadZipFile, zlib.error, EOFError) as problem:
        raise Damaged(f"{name} is damaged: {problem}") from None
    except (NotImplementedError, RuntimeError) as problem:
        # a password, or a way to compress that Python doesn't know
        raise Refused(f"{name} can't be unpacked: {problem}") from None


@contextmanager
def opened_gzip(packed: IO[bytes], _name: str) -> Iterator[IO[bytes]]:
    """What a file has that is compressed by gzip."""
    with gzip.open(packed) as source:
        yield cast(IO[bytes], source)


@contextmanager
def opened_zip(packed: IO[bytes], name: str) -> Iterator[IO[bytes]]:
    """The one extract of a zip."""
    with zipfile.ZipFile(packed) as archive:
        names = [each for each in archive.namelist() if each.lower().endswith(SUFFIXES)]
        if len(names) != 1:
            found = f"{name} has {len(names)} files whose names end in .CIF or .MCA"
            raise Refused(f"{found}: unpack the one that is wanted")
        with archive.open(names[0]) as source:
            yield source
