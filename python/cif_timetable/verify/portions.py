"""Which trains riders reach without a change, worked out again from `cif table`: of each association and
each two schedules that it has on a date."""
from __future__ import annotations

from collections import defaultdict
from collections.abc import Collection, Iterator, Mapping
from datetime import date, timedelta
from functools import lru_cache
from typing import NamedTuple

from .._extract import Extract
from .database import Database
from .difference import compare_rows
from .schedules import Schedule, cells_of, table_of

FOR_PASSENGERS = ("", "P")
# How many days after the base train the associated one runs, by the date indicator.
DAYS_LATER = {"": 0, "S": 0, "N": 1, "P": -1}
INDICATORS = {0: "S", 1: "N", -1: "P"}
COLUMNS = (
    "association schedule before_call portion_schedule after_call portions.first_date"
    " portions.last_date portions.days_run date_indicator".split()
)
ROWS = (
    "FROM portions"
    " JOIN schedules ON schedules.id = schedule AND schedules.journey = portions.journey"
    " JOIN schedules AS others ON others.id = portion_schedule"
    " AND others.journey = portions.portion_journey"
    " ORDER BY association, schedule, portion_schedule"
)


class Association(NamedTuple):
    """A row of `associations`."""

    base_uid: str
    associated_uid: str
    first_date: str
    last_date: str
    days_run: str
    category: str
    date_indicator: str
    location: str
    base_suffix: str
    association_type: str


class Call(NamedTuple):
    """A row of `calls`."""

    schedule: str
    call: str
    location: str
    suffix: str
    arrival: str
    departure: str


@lru_cache(maxsize=None)
def dates_of(first: str, last: str, days_run: str) -> frozenset[date]:
    """The dates of a range that are of these weekdays."""
    start, end = date.fromisoformat(first), date.fromisoformat(last)
    days = (start + timedelta(days=number) for number in range((end - start).days + 1))
    return frozenset(day for day in days if days_run[day.weekday()] == "1")


def associations_of(extract: Extract, form: str) -> list[Association]:
    with table_of(extract, "associations", form) as table:
        return [Association._make(row) for row in cells_of(table, Association._fields)]


def calls_of(extract: Extract, form: str, schedules: Collection[str]) -> dict[str, list[Call]]:
    """The calls of some schedules."""
    found: dict[str, list[Call]] = defaultdict(list)
    if schedules:
        with table_of(extract, "calls", form) as table:
            for row in cells_of(table, Call._fields):
                if row[0] in schedules:
                    found[row[0]].append(Call._make(row))
    return found


def wanted_rows(
    associations: list[Association],
    of_uid: Mapping[str, list[Schedule]],
    calls: Mapping[str, list[Call]],
    passengers: Collection[str],
) -> Iterator[tuple[int | str, ...]]:
    """The rows of `portions`. `passengers` are the schedules that are for riders."""
    for number, each in enumerate(associations, 1):
        later = DAYS_LATER.get(each.date_indicator)
        if later is None or each.association_type not in FOR_PASSENGERS or not each.location:
            continue
        held = dates_of(each.first_date, each.last_date, each.days_run)
        for base in of_uid.get(each.base_uid, ()):
            base_dates = held & dates_of(base.first, base.last, base.days_run)
            stops = [
                int(call.call)
                for call in calls[base.number]
                if (call.location, call.suffix) == (each.location, each.base_suffix)
                and (call.arrival or call.departure)
            ]
            for other in of_uid.get(each.associated_uid, ()) if base_dates and stops else ():
                other_dates = dates_of(other.first, other.last, other.days_run)
                dates = [day for day in base_dates if day + timedelta(days=later) in other_dates]
                first, last = calls[other.number][0], calls[other.number][-1]
                ends = calls[base.number][-1].location == each.location
                leaves = each.category == "VV" or (each.category == "NP" and ends)
                if not dates:
                    continue
                if leaves and base.number in passengers and first.location == each.location:
                    trains = (int(base.number), stops[0], int(other.number), 1)
                    yield (number, *trains, *days_of(dates), INDICATORS[later])
                joins = each.category == "JJ" and last.location == each.location
                if joins and other.number in passengers:
                    trains = (int(other.number), int(last.call), int(base.number), stops[0])
                    of_other = [day + timedelta(days=later) for day in dates]
                    yield (number, *trains, *days_of(of_other), INDICATORS[-later])


def days_of(dates: list[date]) -> tuple[str, str, str]:
    """The first date, the last one, and the weekdays."""
    weekdays = {day.weekday() for day in dates}
    days_run = "".join(str(int(weekday in weekdays)) for weekday in range(7))
    return min(dates).isoformat(), max(dates).isoformat(), days_run


def compare_portions(
    database: Database,
    extract: Extract,
    form: str,
    schedules: Mapping[str, Schedule],
    passengers: Collection[str],
) -> None:
    """Compares the table `portions`. `passengers` are the schedules that are for riders."""
    associations = associations_of(extract, form)
    uids = {uid for each in associations for uid in (each.base_uid, each.associated_uid)}
    of_uid: dict[str, list[Schedule]] = defaultdict(list)
    for schedule in schedules.values():
        if schedule.uid in uids:
            of_uid[schedule.uid].append(schedule)
    linked = {schedule.number for of_train in of_uid.values() for schedule in of_train}
    calls = calls_of(extract, form, linked)
    wanted = sorted(wanted_rows(associations, of_uid, calls, passengers))
    rows = ("\t".join(map(str, row)) + "\n" for row in wanted)
    compare_rows("table portions, in order", COLUMNS, database.rows(COLUMNS, ROWS), rows)
