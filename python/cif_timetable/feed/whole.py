"""Files that are written in one piece."""
from __future__ import annotations

import os
import shutil
from pathlib import Path
from typing import IO

from .._files import BLOCK, reporting, synchronise


def new_file(path: Path) -> IO[bytes]:
    """A file to write into, whose faults name it."""
    return reporting(os.open(path, os.O_RDWR | os.O_CREAT | os.O_TRUNC, 0o666), str(path))


def write_whole(path: Path, text: str) -> None:
    """Replaces a small file: it has the old text or the new one, whole."""
    new = path.with_name(f".{path.name}.new")
    with new_file(new) as file:
        file.write(text.encode())
    synchronise(new)
    os.replace(new, path)
    synchronise(path.parent)


def copy_to(source: IO[bytes], path: Path) -> None:
    """Writes all that a source gives."""
    with new_file(path) as target:
        shutil.copyfileobj(source, target, BLOCK)


def link_or_copy(source: Path, target: Path) -> None:
    """A second name of a file that nobody changes, or a copy of it."""
    try:
        os.link(source, target)
    except OSError:
        with open(source, "rb") as file:
            copy_to(file, target)
