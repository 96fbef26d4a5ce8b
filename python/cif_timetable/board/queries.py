"""The questions to the database, which are files of SQL beside this one."""
from __future__ import annotations

import json
import sqlite3
from collections.abc import Iterator
from contextlib import closing, contextmanager
from functools import cached_property, lru_cache
from pathlib import Path
from typing import Any
from urllib.parse import quote

from ..errors import Failed, Refused

HERE = Path(__file__).resolve().parent / "sql"
# SQLite's number for the program that a file is of: as cif-sql writes it.
APPLICATION = 0x63696631
# What is read of a database at first: one that lacks any of it is of another release.
LAYOUT = (
    "SELECT station_crs, train_date, as_required, seconds FROM departures LIMIT 0",
    "SELECT from_crs, portion FROM rides LIMIT 0",
    "SELECT train_date, portion, before_call FROM portions_on LIMIT 0",
    "SELECT operator, operator_name FROM operators LIMIT 0",
    "SELECT get_on, get_off FROM public_calls LIMIT 0",
    "SELECT stp_indicator, wins_from FROM published LIMIT 0",
    "SELECT station_crs, search FROM station_names LIMIT 0",
)

# A row by the names of its columns, with texts, numbers and None.
Row = dict[str, Any]
# What tells a file from the one that takes its place.
Identity = tuple[int, int, int, int]


@lru_cache(maxsize=None)
def statement(name: str) -> str:
    return (HERE / f"{name}.sql").read_text(encoding="utf-8")


def identity_of(path: Path) -> Identity:
    found = path.stat()
    return (found.st_dev, found.st_ino, found.st_mtime_ns, found.st_size)


class Timetable:
    """A database that is open. It stays the same one, also while its file is replaced."""

    def __init__(self, connection: sqlite3.Connection) -> None:
        self.connection = connection
        connection.row_factory = sqlite3.Row

    def rows(self, name: str, **values: object) -> list[Row]:
        """The answer to a question, whose parameters have these values."""
        return [dict(row) for row in self.connection.execute(statement(name), values)]

    def row(self, name: str, **values: object) -> Row | None:
        """The first row of an answer, or None where it has none."""
        return next(iter(self.rows(name, **values)), None)

    def board(self, view: str, place: str, code: str, **values: object) -> list[Row]:
        """Rows of one of the views `departures` and `arrivals`, in which `place`, `station_crs` or
        `location`, is this code."""
        query = statement("board").replace("@BOARD@", view).replace("@PLACE@", place)
        query = query.replace("@TIME@", "time" if view == "departures" else "seconds")
        parameters: Row = {"place": code, **values}
        found = self.connection.execute(query, parameters)
        return [dict(row) for row in found]

    def portions(self, rows: list[Row], is_boarded: bool) -> list[Row]:
        """The portions that riders of these trains reach, or those that they have come from."""
        query = statement("portions").replace(
            "@JOURNEY@", "journey" if is_boarded else "portion_journey"
        )
        query = query.replace("@DATE@", "train_date" if is_boarded else "portion_date")
        journeys = json.dumps(sorted({row["journey"] for row in rows}))
        dates = json.dumps(sorted({row["train_date"] for row in rows}))
        found = self.connection.execute(query, {"journeys": journeys, "dates": dates})
        return [dict(row) for row in found]

    @cached_property
    def window(self) -> tuple[str, str]:
        """The first and the last date."""
        [found] = self.rows("window")
        return found["first_date"], found["last_date"]


@contextmanager
def open_timetable(path: Path) -> Iterator[Timetable]:
    """The database of cif-sql at this path, to be read only."""
    if not path.is_file():
        raise Failed(f"{path}: there is no such file")
    address = f"file:{quote(str(path.resolve()))}?mode=ro"
    try:
        with closing(sqlite3.connect(address, uri=True, isolation_level=None)) as connection:
            yield Timetable(connection)
    except sqlite3.OperationalError as problem:
        raise Failed(f"{path}: {problem}") from None
    except sqlite3.DatabaseError as problem:
        raise Refused(f"{path} isn't a database, or is damaged: {problem}") from None


def check_layout(path: Path) -> None:
    """Refuses what isn't a database of this release of cif-sql."""
    with open_timetable(path) as timetable:
        check_tables(timetable.connection, path)


def check_tables(connection: sqlite3.Connection, path: Path) -> None:
    [[application]] = connection.execute("PRAGMA application_id").fetchall()
    if application != APPLICATION:
        raise Refused(f"{path} isn't a database of cif-sql")
    try:
        for query in LAYOUT:
            connection.execute(query)
    except sqlite3.OperationalError as problem:
        if "no such" not in str(problem):
            raise
        raise Refused(
            f"{path} is of another release of cif-sql: make it again with this one"
        ) from None
