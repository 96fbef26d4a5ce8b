"""The script that loads a database of PostgreSQL, for psql."""
from __future__ import annotations

import re
import shutil
from collections.abc import Sequence
from contextlib import ExitStack
from typing import IO, NamedTuple

from .._files import BLOCK, scratch_file
from ..errors import Misused
from ..model import Header
from ..user_csv import CONTROL
from .schema import Database, moment_of, sql

# Names that are the same in double quotes and without, and with `_new` have at most 63 letters.
SCHEMA = re.compile("[a-z_][a-z0-9_]{0,58}")
# What the name of a schema that is being filled ends in.
NEW = "_new"


def check_schema(name: str) -> None:
    if not SCHEMA.fullmatch(name):
        shown = CONTROL.sub("?", name)
        raise Misused(f"the schema `{shown}` has to be of small letters, digits and `_`")
    if name.endswith(NEW):
        filled = name[: -len(NEW)]
        raise Misused(f"the schema `{name}` would be dropped by a run for `{filled}`: name another")


TABLE = re.compile(r"CREATE TABLE (\w+) \(\n.*?\n\)", re.DOTALL)
FOREIGN_KEY = re.compile(r",\n    (FOREIGN KEY .*\))")


def without_foreign_keys(tables: str) -> tuple[str, str]:
    """The text that creates tables without foreign keys, and the one that adds these. To check all
    rows at once takes far less time than to look at each that comes."""
    added = [
        f"ALTER TABLE {table[1]} ADD {key};\n"
        for table in TABLE.finditer(tables)
        for key in FOREIGN_KEY.findall(table[0])
    ]
    return FOREIGN_KEY.sub("", tables), "".join(added)


class Copied(NamedTuple):
    """The columns of a table that are filled, and its rows in a temporary file."""

    names: Sequence[str]
    file: IO[bytes]


class PostgresScript(Database):
    """Keeps the rows of all tables until the script is written, so that a run that fails writes
    nothing."""

    def __init__(self, stack: ExitStack) -> None:
        self.stack = stack
        self.tables: dict[str, Copied] = {}

    def fill(self, table: str, names: Sequence[str], rows: bytes) -> None:
        if table not in self.tables:
            self.tables[table] = Copied(names, self.stack.enter_context(scratch_file()))
        self.tables[table].file.write(rows.replace(b"\\", b"\\\\"))

    def write(self, output: IO[bytes], schema: str, header: Header, force: bool) -> None:
        """Writes the script."""
        words = {"SCHEMA": schema, "FORCE": str(force).lower()}
        words["MOMENT"] = moment_of(header) or ""
        words["FIRST"], words["LAST"] = str(header.first_date), str(header.last_date)

        def add(text: str) -> None:
            output.write(re.sub("@([A-Z]+)@", lambda found: words[found[1]], text).encode())

        add(sql("begin") + sql("check") + sql("create"))
        tables, foreign_keys = without_foreign_keys(sql("tables"))
        # only SQLite has tables without numbers of rows, and makes columns of others as they are read
        add(tables.replace(" WITHOUT ROWID", ""))
        add(sql("seconds").replace(" VIRTUAL", " STORED"))
        for table, copied in self.tables.items():
            add(f"COPY {table} ({', '.join(copied.names)}) FROM STDIN (NULL '');\n")
            copied.file.seek(0)
            shutil.copyfileobj(copied.file, output, BLOCK)
            add("\\.\n")
        add(sql("indexes") + sql("blanks") + sql("statistics") + foreign_keys + sql("views"))
        # what an index has is read there alone only of rows that VACUUM has seen
        add("".join(f"VACUUM ANALYZE {table};\n" for table in self.tables))
        add("BEGIN;\nSET LOCAL search_path = pg_catalog;\n" + sql("check") + sql("finish"))
