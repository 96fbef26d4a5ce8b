"""Pages on which people look at a timetable, made of the database of cif-sql: docs/BOARD.md describes
them.

    from cif_timetable.board import create_app
    app = create_app("timetable.db")

`app` is a WSGI application, for any server. It needs Flask, which `pip install '.[board]'` brings.
"""
from __future__ import annotations

from collections.abc import Iterable
from pathlib import Path
from typing import TYPE_CHECKING

if TYPE_CHECKING:
    from flask import Flask

# The hosts of this machine, to which a page answers unless others are named.
LOOPBACK = ("127.0.0.1", "localhost", "[::1]")


def create_app(path: str | Path, hosts: Iterable[str] = LOOPBACK) -> Flask:
    """The application that shows the database of this path, which can be replaced at any time.

    `hosts` are the names by which browsers may ask for it, without ports. Raises `CifError` if the
    file isn't a database of this release of cif-sql, and `ImportError` without Flask.
    """
    from .application import application  # pylint: disable=import-outside-toplevel

    return application(Path(path), frozenset(host.lower() for host in hosts))
