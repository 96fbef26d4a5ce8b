"""A database of cif-sql, which is read by SELECT alone."""
from __future__ import annotations

import sqlite3
import subprocess
from collections.abc import Iterator, Sequence
from contextlib import closing, contextmanager
from urllib.parse import quote

from .._files import scratch_file
from ..errors import Failed, Refused

OURS = "a database of this release of cif-sql"
# The status of psql if it can't connect.
NO_CONNECTION = 2


class Database:
    """Gives the rows of a query as `cif table` writes rows: a tab between two cells, and an empty one
    where nothing is."""

    def rows(self, columns: Sequence[str], rest: str) -> Iterator[str]:
        """The rows of SELECT with these columns."""
        raise NotImplementedError


class SqliteDatabase(Database):
    """An SQLite file."""

    def __init__(self, name: str, connection: sqlite3.Connection) -> None:
        self.name = name
        self.connection = connection

    def rows(self, columns: Sequence[str], rest: str) -> Iterator[str]:
        row = " || char(9) || ".join(f"coalesce({column}, '')" for column in columns)
        try:
            for (text,) in self.connection.execute(f"SELECT {row} || char(10) {rest}"):
                yield text
        except sqlite3.OperationalError as problem:
            if "locked" in str(problem):
                raise Failed(f"{self.name} is locked by another program") from None
            raise Refused(f"{self.name} isn't {OURS}: {problem}") from None
        except sqlite3.DatabaseError as problem:
            raise Refused(f"{self.name} isn't {OURS}: {problem}") from None


@contextmanager
def sqlite_database(name: str) -> Iterator[Database]:
    with open(name, "rb"):
        # what isn't there, or can't be read, is reported as other files are
        pass
    address = f"file:{quote(name if name.startswith('/') else './' + name)}?mode=ro"
    try:
        opened = sqlite3.connect(address, uri=True)
    except sqlite3.Error as problem:
        raise Failed(f"{name}: {problem}") from None
    with closing(opened) as connection:
        # all queries see one state of the database
        connection.isolation_level = None
        try:
            connection.execute("BEGIN")
        except sqlite3.Error as problem:
            raise Failed(f"{name}: {problem}") from None
        yield SqliteDatabase(name, connection)


class PostgresDatabase(Database):
    """A schema of PostgreSQL, which psql reads."""

    def __init__(self, name: str, schema: str) -> None:
        self.name = name
        self.schema = schema

    def rows(self, columns: Sequence[str], rest: str) -> Iterator[str]:
        settings = f"search_path = {self.schema}", "datestyle = iso", "client_encoding = utf8"
        call = ["psql", "-X", "-q", "-v", "ON_ERROR_STOP=1", "-d", self.name]
        for setting in settings:
            call += ["-c", f"SET {setting}"]
        call += ["-c", f"COPY (SELECT {', '.join(columns)} {rest}) TO STDOUT (NULL '')"]
        with scratch_file() as report:
            try:
                process = subprocess.Popen(
                    call, stdin=subprocess.DEVNULL, stdout=subprocess.PIPE, stderr=report
                )
            except OSError as problem:
                raise Failed(f"psql can't be run: {problem.strerror}") from None
            with process:
                assert process.stdout is not None
                try:
                    for line in process.stdout:
                        # no field has a tab or a line break
                        yield line.decode().replace("\\\\", "\\")
                except BaseException:
                    process.kill()
                    raise
            if process.returncode:
                report.seek(0)
                said = " ".join(report.read().decode(errors="replace").split())
                if process.returncode == NO_CONNECTION:
                    raise Failed(f"psql can't read {self.name}: {said}")
                raise Refused(f"{self.name} has no schema {self.schema} of cif-sql: {said}")
