"""Views of a database on dates, against `cif day`, `cif departures` and `cif arrivals`."""
from __future__ import annotations

import json
from collections.abc import Iterator, Sequence
from datetime import date, timedelta
from typing import NamedTuple

from .._extract import Extract, yymmdd
from .._tables import heading_of
from ..errors import Misused
from .database import Database
from .difference import Different, compare_rows
from .riders import off_and_on
from .schedules import (
    Public,
    Schedule,
    flags_of,
    is_for_passengers,
    public_rows,
    read_schedules,
    table_of,
    text_lines,
)

RUNS = "uid identity origin departure destination arrival".split()
RUNS_IN_CIF = "uid identity origin departure terminus arrival".split()
ASSOCIATIONS = (
    "base_uid associated_uid category date_indicator location base_suffix associated_suffix"
    " diagram_type association_type".split()
)
ASSOCIATIONS_IN_CIF = (
    "base_uid associated_uid association_category date_indicator association_location base_suffix"
    " associated_suffix diagram_type association_type".split()
)


CALLS_ON = (
    "uid number record location suffix arrival departure pass public_arrival public_departure platform"
    " path line activities".split()
)
STOPS_OF = (
    "uid number location platform arrival_date arrival departure_date departure set_down pick_up"
    " get_off get_on".split()
)


def compare_calls(database: Database, extract: Extract, day: date) -> None:
    """Compares all calls of the trains of a date."""
    with extract.answer(["day", "--stops", "--format", "json"], [yymmdd(day)]) as lines:
        trains = [row for row in map(json.loads, lines) if row["kind"] == "BS"]
    wanted = sorted(
        "\t".join((row["uid"], str(number), *(call[name] or "" for name in CALLS_ON[2:]))) + "\n"
        for row in trains
        for number, call in enumerate(row["calls"], 1)
    )
    found = sorted(database.rows(CALLS_ON, f"FROM calls_on WHERE date = '{day}'"))
    compare_rows(f"calls_on on {day}, in order", CALLS_ON, found, wanted)


def by_clock(day: date, moment: str) -> tuple[str, str]:
    """The date and the time by the clock of a moment, whose hours may go on past 24."""
    hours, rest = moment.split(":", 1)
    later = timedelta(days=int(hours) // 24)
    return (day + later).isoformat(), f"{int(hours) % 24:02}:{rest}"


def compare_stops(database: Database, extract: Extract, form: str, days: Sequence[date]) -> None:
    """Compares the calls for riders of the trains of dates."""
    schedules = read_schedules(extract, form)
    on_days = [f"{day}" for day in days]
    running: dict[str, list[date]] = {}
    for number, schedule in schedules.items():
        running[number] = [
            day
            for day, text in zip(days, on_days)
            if schedule.first <= text <= schedule.last and schedule.days_run[day.weekday()] == "1"
        ]
    wanted: dict[date, list[str]] = {day: [] for day in days}
    with table_of(extract, "public", form) as table:
        lines = (line for line in text_lines(table) if running[line.split("\t", 1)[0]])
        for number, calls in public_rows(lines):
            schedule = schedules[number]
            if is_for_passengers(schedule, calls):
                for day in running[number]:
                    wanted[day] += stop_rows(schedule, calls, day)
    for day, rows in wanted.items():
        found = sorted(database.rows(STOPS_OF, f"FROM stops_of WHERE train_date = '{day}'"))
        compare_rows(f"stops_of on {day}, in order", STOPS_OF, found, sorted(rows))


def stop_rows(schedule: Schedule, calls: Sequence[Public], day: date) -> Iterator[str]:
    """The rows of `stops_of` of a train on a date."""
    for call in calls:
        off, on = flags_of(schedule, call)
        if off or on:
            moments = (*by_clock(day, call.arrival), *by_clock(day, call.departure))
            flags = (call.set_down, call.pick_up, f"{off:d}", f"{on:d}")
            place = (schedule.uid, str(call.call), call.location, call.platform)
            yield "\t".join((*place, *moments, *flags)) + "\n"


def compare_day(database: Database, extract: Extract, day: date) -> None:
    """Compares the trains, their calls and the associations of a date."""
    with extract.answer(["day", "--format", "tsv"], [yymmdd(day)]) as lines:
        table = heading_of(lines)
        kind = table.names.index("kind")
        rows = [line[:-1].split("\t") for line in text_lines(table)]
    for view, columns, fields, record in (
        ("runs", RUNS, RUNS_IN_CIF, "BS"),
        ("associations_on", ASSOCIATIONS, ASSOCIATIONS_IN_CIF, "AA"),
    ):
        cells_at = table.cells_at(fields)
        wanted = sorted("\t".join(cells_at(row)) + "\n" for row in rows if row[kind] == record)
        found = sorted(database.rows(columns, f"FROM {view} WHERE date = '{day}'"))
        compare_rows(f"{view} on {day}, in order", columns, found, wanted)
    compare_calls(database, extract, day)


class Sides(NamedTuple):
    """A command of `cif`, which is the name of a view, too, and which side of a call it shows."""

    name: str
    is_departure: bool


SIDES = Sides("departures", True), Sides("arrivals", False)
CALL = "date time train_date uid location platform number".split()
CALL_IN_CIF = "date time train_date uid location platform call".split()


def check_commands(extract: Extract) -> None:
    """Refuses to compare places by a `cif` that doesn't list departures."""
    with extract.cif.output(["--help"]) as lines:
        known = lines.read().decode()
    if not all(f"\n  {side.name} " in known for side in SIDES):
        raise Misused("this cif has no `departures` and `arrivals`, with which --place compares")


class ForRiders:
    """Says of calls whether a train is for riders there."""

    def __init__(self, extract: Extract, form: str) -> None:
        self.extract = extract
        self.form = form
        self.of_uid: dict[str, list[Schedule]] = {}
        for schedule in read_schedules(extract, form).values():
            self.of_uid.setdefault(schedule.uid, []).append(schedule)
        # the public calls of schedules by their numbers
        self.calls: dict[str, list[Public]] = {}

    def read_calls(self, uids: set[str]) -> None:
        """Reads the public calls of some trains."""
        wanted = {each.number for uid in uids for each in self.of_uid.get(uid, ())}
        with table_of(self.extract, "public", self.form) as table:
            lines = (line for line in text_lines(table) if line.split("\t", 1)[0] in wanted)
            self.calls = dict(public_rows(lines))

    def schedule(self, uid: str, day: str) -> Schedule:
        """The schedule of a train that runs on a date."""
        weekday = date.fromisoformat(day).weekday()
        for each in self.of_uid.get(uid, ()):
            if each.first <= day <= each.last and each.days_run[weekday] == "1":
                return each
        raise Different(f"{uid} doesn't run on {day}")

    def includes(self, uid: str, day: str, call: int, is_departure: bool) -> bool:
        """Whether riders may use a side of a call, if `cif` says that it is public."""
        schedule = self.schedule(uid, day)
        off, on = off_and_on(schedule.status, schedule.category, schedule.changes, call)
        calls = self.calls.get(schedule.number, [])
        return (on if is_departure else off) and is_for_passengers(schedule, calls)


def compare_places(
    database: Database, extract: Extract, form: str, days: Sequence[date], places: Sequence[str]
) -> None:
    """Compares the calls for riders at places on dates, in each direction."""
    for_riders = ForRiders(extract, form)
    for side in SIDES:
        for day in days:
            for place in places:
                compare_place(database, extract, for_riders, side, day, place)


def compare_place(
    database: Database,
    extract: Extract,
    for_riders: ForRiders,
    side: Sides,
    day: date,
    place: str,
) -> None:
    with extract.answer([side.name, "--format", "json"], [place, yymmdd(day)]) as lines:
        rows = [json.loads(line) for line in lines]
    for_riders.read_calls({row["uid"] for row in rows})
    wanted = sorted(
        "\t".join("" if row[name] is None else str(row[name]) for name in CALL_IN_CIF) + "\n"
        for row in rows
        if for_riders.includes(row["uid"], row["train_date"], row["call"], side.is_departure)
    )
    name = place.upper().replace("'", "''")
    at = f"(location = '{name}' OR crs = '{name}')"
    found = sorted(database.rows(CALL, f"FROM {side.name} WHERE date = '{day}' AND {at}"))
    compare_rows(f"{side.name} at {place} on {day}, in order", CALL, found, wanted)
