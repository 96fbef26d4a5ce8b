"""The seven tables of an extract, made again from a database, against `cif table`, byte by byte.

Canonical extracts with equal tables are equal, which is proved. So a database with these tables says
what the extract says.
"""
from __future__ import annotations

from typing import NamedTuple

from .._extract import Extract
from .database import Database
from .difference import compare_rows
from .schedules import table_of, text_lines


class Loaded(NamedTuple):
    """What was loaded: the dates and the form; and what tells this database from another one that has
    taken its place."""

    first: str
    last: str
    form: str
    loaded_at: str
    sha256: str


def loaded_in(database: Database) -> Loaded | None:
    """What a database says of itself in its one row."""
    columns = [
        "first_date",
        "last_date",
        "form",
        "loaded_at",
        "sha256",
    ]
    rows = list(database.rows(columns, "FROM extract"))
    return Loaded(*rows[0].rstrip("\n").split("\t")) if len(rows) == 1 else None


class Printed(NamedTuple):
    """How a table of `cif` is made again: from which table of the database, what else this takes, and
    the columns with other names than the fields."""

    table: str
    rest: str
    renamed: dict[str, str]


def of_schedules(table: str, order: str) -> Printed:
    """A table of which a journey has its rows once, for all schedules that have the journey."""
    joined = f"FROM schedules JOIN {table} ON {table}.journey = schedules.journey"
    ordered = f"ORDER BY schedules.id, {table}.{order}"
    renamed = {"schedule": "schedules.id", "call": f"{table}.number"}
    return Printed(table, f"{joined} {ordered}", renamed)


def by_id(table: str, **renamed: str) -> Printed:
    return Printed(table, f"FROM {table} ORDER BY id", renamed)


TABLES = {
    "header": Printed("extract", "FROM extract", {}),
    "tiplocs": by_id("tiplocs"),
    "associations": by_id("associations"),
    "schedules": by_id("schedules", schedule="id", operator_code="operator"),
    "calls": of_schedules("calls", "number"),
    "changes": of_schedules("changes", "sequence"),
    "public": of_schedules("public_calls", "number"),
}


def compare_tables(database: Database, extract: Extract, form: str) -> dict[str, int]:
    """How many rows each table has, if all of them are those of the extract."""
    counts = {}
    for name, printed in TABLES.items():
        with table_of(extract, name, form) as table:
            columns = [
                printed.renamed.get(field, f"{printed.table}.{field}") for field in table.names
            ]
            rows = database.rows(columns, printed.rest)
            counts[name] = compare_rows(f"table {name}", table.names, rows, text_lines(table))
    return counts
