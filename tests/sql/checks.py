"""A database against what `cif` says, field by field and date by date."""
from __future__ import annotations

import sqlite3
import subprocess
from collections import Counter
from contextlib import closing
from pathlib import Path
from typing import Callable, Iterable, List, Optional, TypeVar, Union

from gtfs.checks import PROGRAMS, Counts, Word, first_difference
from gtfs.definition import seconds_of

from .definition import RENAMED, Expected, SqlRow

BOARD = (
    "station_crs, crs, date, time, train_date, uid, identity, operator, category, status, as_required,"
    " platform, origin, destination, pick_up, set_down, location, number"
)

# What gives the rows of a query.
Query = Callable[[str], List[SqlRow]]
Item = TypeVar("Item")


class Maker:
    """Runs cif-sql in a folder."""

    def __init__(self, cif: Path, folder: Path) -> None:
        self.cif, self.folder = cif, folder

    def run(
        self,
        *words: Word,
        stdin: Optional[str] = None,
        preexec_fn: Optional[Callable[[], None]] = None,
    ) -> subprocess.CompletedProcess[str]:
        """How a run ends that has this text as its standard input, and calls a function first."""
        return subprocess.run(
            [PROGRAMS / "cif-sql", "--cif", self.cif, *words],
            cwd=self.folder,
            input=stdin,
            capture_output=True,
            check=False,
            text=True,
            preexec_fn=preexec_fn,
        )

    def run_bytes(self, stdin: bytes, *words: Word) -> subprocess.CompletedProcess[bytes]:
        """The same in bytes."""
        return subprocess.run(
            [PROGRAMS / "cif-sql", "--cif", self.cif, *words],
            cwd=self.folder,
            input=stdin,
            capture_output=True,
            check=False,
        )

    def database(self, *words: Word) -> Path:
        """The path of a database that is made."""
        path = self.folder / "made.db"
        path.unlink(missing_ok=True)
        done = self.run("-o", path.name, *words)
        if done.returncode:
            raise RuntimeError(f"cif-sql {words} ends with {done.returncode}: {done.stderr}")
        return path


def text_of(value: Optional[Union[int, str]]) -> Optional[str]:
    return None if value is None else str(value)


def sqlite_rows(path: Path, query: str) -> List[SqlRow]:
    """The rows of a query, each value as a text or None."""
    with closing(sqlite3.connect(path)) as connection:
        return [tuple(map(text_of, row)) for row in connection.execute(query)]


def same_rows(counts: Counts, name: str, want: Counter[Item], got: Iterable[Item]) -> None:
    found = Counter(got)
    unequal = "" if want == found else first_difference(want.items(), found.items())
    counts.test(name, want == found, unequal)


def columns_of(names: List[str], table: str) -> str:
    return ", ".join(f"{table}.{RENAMED.get(name, name)}" for name in names)


def check_fields(counts: Counts, name: str, expected: Expected, rows: Query) -> None:
    """Every field of schedules, calls, changes and public calls comes back."""
    for table, place in (
        ("calls", "calls"),
        ("changes", "changes"),
        ("public", "public_calls"),
    ):
        columns = columns_of(expected.names[table][1:], place)
        query = f"SELECT schedules.uid, schedules.first_date, {columns} FROM schedules "
        query += f"JOIN {place} ON {place}.journey = schedules.journey"
        same_rows(counts, f"{name}, {place}", expected.fields(table), rows(query))
    names = expected.names["schedules"][1:]
    columns = columns_of(names, "schedules")
    query = f"SELECT uid, first_date, {columns} FROM schedules"
    same_rows(counts, f"{name}, schedules", expected.fields("schedules"), rows(query))
    count = len(expected.journeys())
    counts.same(
        f"{name}, journeys",
        [(str(count), str(count))],
        rows("SELECT count(*), max(id) FROM journeys"),
    )
    wrong = rows(
        "SELECT schedules.uid FROM schedules JOIN journeys ON journeys.id = schedules.journey "
        "WHERE journeys.uid <> schedules.uid"
    )
    counts.same(f"{name}, journeys of another train", [], wrong)
    operators: Counter[SqlRow] = Counter(
        {(row["operator_code"],): 1 for row in expected.tables["schedules"] if row["operator_code"]}
    )
    same_rows(counts, f"{name}, operators", operators, rows("SELECT operator FROM operators"))
    query = "SELECT uid, first_date, passenger, as_required FROM schedules"
    same_rows(counts, f"{name}, sorts of schedules", expected.sorts_of_schedules(), rows(query))
    query = "SELECT schedules.uid, schedules.first_date, number, get_off, get_on, public_calls.passenger FROM schedules "
    query += "JOIN public_calls ON public_calls.journey = schedules.journey"
    same_rows(counts, f"{name}, calls for riders", expected.riders_calls(), rows(query))
    query = "SELECT arrival_seconds, departure_seconds, pass_seconds FROM calls"
    same_rows(counts, f"{name}, working times", expected.working_seconds(), rows(query))
    times = rows("SELECT arrival, departure, arrival_seconds, departure_seconds FROM public_calls")
    wrong = [
        row for row in times if tuple(str(seconds_of(time or "")) for time in row[:2]) != row[2:]
    ]
    counts.same(f"{name}, public times", [], wrong)


def check_places(counts: Counts, name: str, expected: Expected, rows: Query) -> None:
    places: Counter[SqlRow] = Counter(
        (
            row["tiploc"],
            row["crs_code"] or None,
            row["tps_description"] or None,
            row["nalco"],
            row["stanox"],
        )
        for row in expected.tables["tiplocs"]
    )
    got = rows("SELECT tiploc, crs, description, nlc, stanox FROM locations")
    same_rows(counts, f"{name}, locations", places, got)
    codes: Counter[Optional[str]] = Counter(
        {row["crs_code"]: 1 for row in expected.tables["tiplocs"] if row["crs_code"]}
    )
    stations = [crs for crs, in rows("SELECT crs FROM stations")]
    same_rows(counts, f"{name}, stations", codes, stations)


def check_dates(counts: Counts, name: str, expected: Expected, rows: Query) -> None:
    trains, associations = expected.days
    counts.test(f"{name} has trains and associations", trains and associations)
    query = "SELECT date, uid, identity, origin, departure, destination, arrival FROM runs"
    same_rows(counts, f"{name}, runs", trains, rows(query))
    columns = "date, base_uid, associated_uid, category, date_indicator, location, base_suffix, "
    columns += "associated_suffix, association_type"
    got = rows(f"SELECT {columns} FROM associations_on")
    same_rows(counts, f"{name}, associations_on", associations, got)
    days = [(day.isoformat(), str(day.isoweekday())) for day in expected.dates]
    counts.same(f"{name}, days", days, rows("SELECT date, weekday FROM days ORDER BY date"))
    got = rows("SELECT date, operator, passenger, as_required, trains FROM trains_per_day")
    same_rows(counts, f"{name}, trains_per_day", expected.trains_per_day(), got)
    got = rows("SELECT date, uid, number, location FROM calls_on")
    same_rows(counts, f"{name}, calls_on", expected.calls_on, got)


def check_boards(counts: Counts, name: str, expected: Expected, rows: Query) -> None:
    for view, want in ("departures", expected.departures), ("arrivals", expected.arrivals):
        got = rows(f"SELECT {BOARD} FROM {view}")
        same_rows(counts, f"{name}, {view}", want, got)
        later = sum(str(row[2]) > str(row[4]) for row in want)
        counts.test(f"{name}, {view} after midnight", later > 0)


def check_database(counts: Counts, expected: Expected, rows: Query, kind: str = "SQLite") -> None:
    """All of a database. `rows` gives those of a query."""
    name = f"{expected.source.path.name} in {kind}"
    check_fields(counts, name, expected, rows)
    check_places(counts, name, expected, rows)
    check_dates(counts, name, expected, rows)
    check_boards(counts, name, expected, rows)
