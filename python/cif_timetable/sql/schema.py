"""The definitions of tables, indexes and views, which are in SQL files, and where rows go."""
from __future__ import annotations

from collections.abc import Iterable, Sequence
from datetime import date
from pathlib import Path

from ..model import Header

HERE = Path(__file__).resolve().parent

Value = None | str | int | float | date
Row = Sequence[Value]


def sql(name: str) -> str:
    """The text of an SQL file."""
    return (HERE / f"{name}.sql").read_text(encoding="ascii")


def moment_of(header: Header) -> str | None:
    """When an extract was made, as a database has it."""
    return header.extracted_at.isoformat(timespec="minutes") if header.extracted_at else None


class Database:
    """A database that is filled. Rows are a text, one a line, whose cells are between tabs, as `cif`
    writes them. An empty cell has no value."""

    def fill(self, table: str, names: Sequence[str], rows: bytes) -> None:
        """Adds rows to a table, with values for the columns of these names."""
        raise NotImplementedError


class Filler:
    """Collects rows of a table, and adds many at once."""

    MOST_BYTES = 1 << 20

    def __init__(self, database: Database, table: str, names: Sequence[str]) -> None:
        self.database = database
        self.table = table
        self.names = names
        self.texts: list[bytes] = []
        self.size = 0

    def add(self, rows: bytes) -> None:
        self.texts.append(rows)
        self.size += len(rows)
        if self.size >= self.MOST_BYTES:
            self.flush()

    def flush(self) -> None:
        if self.size:
            self.database.fill(self.table, self.names, b"".join(self.texts))
        self.texts.clear()
        self.size = 0


def rows_of(values: Iterable[Row]) -> bytes:
    """The text of rows with these values, none of which has a tab or a line break."""
    lines = ("\t".join("" if value is None else str(value) for value in row) for row in values)
    return "".join(line + "\n" for line in lines).encode()
