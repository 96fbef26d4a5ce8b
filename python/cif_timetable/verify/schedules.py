"""Schedules and public calls as `cif table` has them."""
from __future__ import annotations

from collections.abc import Iterable, Iterator
from contextlib import contextmanager
from itertools import groupby
from operator import itemgetter
from typing import NamedTuple

from .._extract import Extract
from .._tables import Table, heading_of
from .riders import NEVER, off_and_on


class Schedule(NamedTuple):
    """A schedule: when it runs, what it is, and the categories that it gets from calls on."""

    number: str
    uid: str
    first: str
    last: str
    days_run: str
    status: str
    category: str
    characteristics: str
    operator: str
    identity: str
    sleepers: str
    reservations: str
    changes: list[tuple[int, str]]


FIELDS = (
    "schedule uid first_date last_date days_run status category characteristics operator_code"
    " identity sleepers reservations".split()
)


class Public(NamedTuple):
    """A row of `public`."""

    call: int
    location: str
    platform: str
    arrival: str
    departure: str
    set_down: str
    pick_up: str


@contextmanager
def table_of(extract: Extract, name: str, form: str) -> Iterator[Table]:
    """A table as `cif` writes it of the dates that are asked for, in a form."""
    with extract.answer(["table", "--form", form, *extract.words], [name]) as lines:
        yield heading_of(lines)


def text_lines(table: Table) -> Iterator[str]:
    """The rows of a table as texts."""
    return (line.decode() for line in table.lines)


def cells_of(table: Table, fields: Iterable[str]) -> Iterator[tuple[str, ...]]:
    """These fields of the rows of a table."""
    cells_at = table.cells_at(tuple(fields))
    return (cells_at(line[:-1].split("\t")) for line in text_lines(table))


def read_schedules(extract: Extract, form: str) -> dict[str, Schedule]:
    """The schedules of an extract by their numbers, in order."""
    changes: dict[str, list[tuple[int, str]]] = {}
    with table_of(extract, "changes", form) as table:
        for schedule, call, category in cells_of(table, ("schedule", "call", "category")):
            changes.setdefault(schedule, []).append((int(call), category))
    with table_of(extract, "schedules", form) as table:
        return {
            row[0]: Schedule._make((*row, changes.get(row[0], [])))
            for row in cells_of(table, FIELDS)
        }


def rows_by_schedule(lines: Iterable[str]) -> Iterator[tuple[str, list[str]]]:
    """The rows of each schedule without its number."""
    rows = (line.split("\t", 1) for line in lines)
    for number, group in groupby(rows, key=itemgetter(0)):
        yield number, [rest for _, rest in group]


def public_of(row: str) -> Public:
    """A row of `public` without the number of its schedule."""
    call, *cells = row[:-1].split("\t")
    return Public(int(call), *cells)


def public_rows(lines: Iterable[str]) -> Iterator[tuple[str, list[Public]]]:
    """The rows of `public` of each schedule that has some, by its number."""
    for number, rows in rows_by_schedule(lines):
        yield number, list(map(public_of, rows))


def flags_of(schedule: Schedule, call: Public) -> tuple[bool, bool]:
    """Whether riders may get off at a call, and whether they may get on."""
    off, on = off_and_on(schedule.status, schedule.category, schedule.changes, call.call)
    return off and call.set_down != NEVER, on and call.pick_up != NEVER


def is_for_passengers(schedule: Schedule, calls: Iterable[Public]) -> bool:
    """Whether riders may get on or off at two calls or more."""
    return sum(any(flags_of(schedule, call)) for call in calls) >= 2
