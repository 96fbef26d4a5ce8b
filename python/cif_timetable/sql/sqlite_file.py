"""The SQLite file: whether it may be replaced, and the new one."""
from __future__ import annotations

import sqlite3
from collections.abc import Iterator, Sequence
from contextlib import closing, contextmanager
from pathlib import Path
from urllib.parse import quote

from ..errors import Failed, Refused
from ..model import Header
from .schema import Database, moment_of, sql

# SQLite's number for the program that a file is of: "cif1", the 1 for the layout of its tables.
APPLICATION = 0x63696631
# Where the number stands, behind the name of the format.
MAGIC = b"SQLite format 3\0"
PLACE = slice(68, 72)

# An empty cell. SQLite keeps NULL for what is not a number, and Python hands it on faster than None, for which it looks for an adapter.
EMPTY = float("nan")
# Several rows are added by one statement, since each statement costs as much as some rows. Older releases of SQLite take 999 values.
MOST_ROWS = 32
MOST_CELLS = 999

# The tables that take as long as all others.
LONGEST = "calls"
SECOND = "public_calls"
# How many pages of 4 kB a reader keeps by default. A board looks at some thousand, of which many are met again.
CACHE_PAGES = 16384

# The moment of an extract, then its window. One without a moment is older than all others.
Age = tuple[str, str, str]


def age_of(moment: str | None, first: str, last: str) -> Age:
    return (moment or "", first, last)


def is_ours(path: Path) -> bool:
    with open(path, "rb") as file:
        start = file.read(100)
    return start.startswith(MAGIC) and start[PLACE] == APPLICATION.to_bytes(4, "big")


@contextmanager
def reading(path: Path) -> Iterator[sqlite3.Connection]:
    """A connection to a database that is there. Nothing can be read of one that is locked."""
    address = f"file:{quote(str(path))}?mode=ro"
    try:
        with closing(sqlite3.connect(address, uri=True)) as connection:
            yield connection
    except sqlite3.OperationalError as problem:
        if "locked" in str(problem):
            raise Failed(f"{path} is locked by another program") from None
        raise


def age_in(path: Path) -> Age:
    """The age of the extract in a database of cif-sql, whose table has one row. Only a table is read,
    as a view can have any number of rows; only a table has a page of its own."""
    with reading(path) as connection:
        tables = "SELECT 1 FROM sqlite_master WHERE name = 'extract' AND rootpage > 0"
        [_] = connection.execute(tables).fetchall()
        query = "SELECT extracted_at, first_date, last_date FROM extract LIMIT 2"
        [(moment, first, last)] = connection.execute(query).fetchall()
    if not (isinstance(moment or "", str) and isinstance(first, str) and isinstance(last, str)):
        raise ValueError("these are no texts")
    return age_of(moment, first, last)


def check_place(path: Path) -> None:
    """Refuses to replace what isn't a database of cif-sql, or one into which somebody writes. What
    has not been written yet into a database that is gone would get into the new one."""
    for suffix in "-wal", "-journal":
        beside = path.with_name(path.name + suffix)
        if beside.exists() and beside.stat().st_size:
            of_whom = "a program that writes, or that has ended early"
            raise Failed(f"{beside} is there, of {of_whom}: remove it if no program uses {path}")
    if not path.exists():
        return
    if not is_ours(path):
        raise Refused(f"{path} isn't a database of cif-sql, so it isn't replaced")
    try:
        with reading(path) as connection:
            connection.execute("PRAGMA schema_version").fetchall()
    except sqlite3.Error:
        # it is damaged, which is no matter by force
        pass


def check_age(path: Path, header: Header) -> None:
    """Refuses to replace a database of a later extract."""
    if not path.exists():
        return
    try:
        there = age_in(path)
    except (sqlite3.Error, ValueError):
        raise Refused(f"{path} is damaged; --force replaces it") from None
    if there > age_of(moment_of(header), str(header.first_date), str(header.last_date)):
        moment, first, last = there
        has = f"{path} has a later extract, of {moment or 'no time'}, from {first} to {last}"
        raise Refused(f"{has}; --force replaces it")


class SqliteFile(Database):
    """A new SQLite file."""

    def __init__(self, connection: sqlite3.Connection) -> None:
        self.connection = connection

    def fill(self, table: str, names: Sequence[str], rows: bytes) -> None:
        cells = [cell or EMPTY for cell in rows.decode().replace("\n", "\t").split("\t")]
        cells.pop()
        width = len(names)
        row = f"({', '.join('?' * width)})"
        start = f"INSERT INTO {table} ({', '.join(names)}) VALUES "
        most = min(MOST_ROWS, MOST_CELLS // width)
        rest = len(cells) - len(cells) % (width * most)
        for first, last, count in (0, rest, most), (rest, len(cells), 1):
            size = width * count
            groups = (cells[at : at + size] for at in range(first, last, size))
            self.connection.executemany(start + ", ".join([row] * count), groups)


@contextmanager
def opened(path: Path, place: Path) -> Iterator[sqlite3.Connection]:
    """A connection to a new file, which is for a place. Nobody reads it before it is complete, and
    if the run fails it is removed, so it needs no journal."""
    try:
        with closing(sqlite3.connect(str(path), isolation_level=None)) as connection:
            connection.execute("PRAGMA journal_mode = OFF")
            connection.execute("PRAGMA synchronous = OFF")
            yield connection
    except sqlite3.DatabaseError as problem:
        raise Failed(f"{place}: {problem}") from None


class Parts(Database):
    """A database in three parts, of which two have a long table each, and the last one the others."""

    def __init__(self, longest: Database, second: Database, others: Database) -> None:
        self.of_table = {LONGEST: longest, SECOND: second}
        self.others = others

    def fill(self, table: str, names: Sequence[str], rows: bytes) -> None:
        self.of_table.get(table, self.others).fill(table, names, rows)


@contextmanager
def new_part(part: Path, place: Path) -> Iterator[SqliteFile]:
    """A part of a database, in an empty file. Its indexes are made once it is filled."""
    with opened(part, place) as connection:
        connection.executescript(sql("tables"))
        connection.execute("BEGIN")
        yield SqliteFile(connection)
        connection.execute("COMMIT")
        connection.executescript(sql("indexes") + sql("blanks"))


def join_parts(longest: Path, second: Path, others: Path, path: Path, place: Path) -> None:
    """Makes a database of its parts, in an empty file. SQLite copies what is defined alike as it is,
    and fills all pages."""
    with opened(longest, place) as connection:
        connection.execute("VACUUM INTO ?", (str(path),))
    with opened(path, place) as connection:
        connection.execute(f"PRAGMA application_id = {APPLICATION}")
        connection.execute(f"PRAGMA default_cache_size = {CACHE_PAGES}")
        tables = "SELECT name FROM main.sqlite_master WHERE type = 'table'"
        names = {name for (name,) in connection.execute(tables)} - {LONGEST, SECOND}
        connection.execute("ATTACH ? AS second", (str(second),))
        connection.execute("ATTACH ? AS others", (str(others),))
        connection.execute("BEGIN")
        connection.execute(f"INSERT INTO main.{SECOND} SELECT * FROM second.{SECOND}")
        for name in sorted(names):
            connection.execute(f"INSERT INTO main.{name} SELECT * FROM others.{name}")
        connection.execute("COMMIT")
        connection.executescript(sql("seconds") + sql("views"))
        # so many rows of each index say how many are alike; older releases of SQLite read all
        connection.execute("PRAGMA analysis_limit = 10000")
        connection.execute("ANALYZE main")
