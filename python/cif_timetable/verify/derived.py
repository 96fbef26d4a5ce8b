"""What a database has besides the seven tables, worked out again from `cif table`: for whom trains are,
dates, and how many trains run."""
from __future__ import annotations

from collections import Counter, defaultdict
from collections.abc import Iterable, Iterator
from datetime import date, timedelta
from typing import NamedTuple

from .._extract import Extract
from ..model import Header
from .database import Database
from .difference import compare_rows
from .portions import compare_portions
from .riders import NEVER
from .schedules import (
    Public,
    Schedule,
    cells_of,
    flags_of,
    is_for_passengers,
    public_rows,
    read_schedules,
    table_of,
    text_lines,
)

AS_REQUIRED = set("QY")
# How many days after the base train the associated one runs, by the date indicator.
DAYS_LATER = {"S": 0, "N": 1, "P": -1}


class Counted(NamedTuple):
    """What trains are counted by."""

    operator: str
    passenger: int
    as_required: int


class Days(NamedTuple):
    """When a schedule runs."""

    first: str
    last: str
    days_run: str


# How many schedules have the same dates, and are counted together.
Trains = Counter[tuple[Days, Counted]]


def by_clock(moment: str) -> str:
    """A moment HH:MM:SS, whose hours may go on past 24, by the clock."""
    hours, rest = moment.split(":", 1)
    return f"{int(hours) % 24:02}:{rest}"


def riders_ends(calls: list[Public]) -> tuple[str, str]:
    """The first call that isn't for setting down alone, and the last that isn't for picking up alone."""
    if not calls:
        return "", ""
    first = next((call for call in calls if call.pick_up != NEVER), calls[0])
    last = next((call for call in reversed(calls) if call.set_down != NEVER), calls[-1])
    return first.location, last.location


def for_passengers(
    extract: Extract, form: str, schedules: dict[str, Schedule]
) -> Iterator[tuple[Schedule, list[Public]]]:
    """Each schedule with its public calls."""
    with table_of(extract, "public", form) as table:
        groups = public_rows(text_lines(table))
        none: tuple[str, list[Public]] = ("", [])
        number, calls = next(groups, none)
        for schedule in schedules.values():
            if schedule.number == number:
                yield schedule, calls
                number, calls = next(groups, none)
            else:
                yield schedule, []


def compare_derived(database: Database, extract: Extract, form: str, header: Header) -> None:
    """Compares what the database has of schedules and public calls besides their fields, then which
    portions riders reach, dates, and how many trains run."""
    schedules = read_schedules(extract, form)
    passengers: set[str] = set()
    trains: Trains = Counter()
    midnights = 0
    calls_wanted: list[str] = []

    def schedules_wanted() -> Iterator[str]:
        nonlocal midnights
        for schedule, calls in for_passengers(extract, form, schedules):
            passenger = int(is_for_passengers(schedule, calls))
            if passenger:
                passengers.add(schedule.number)
            as_required = int(bool(AS_REQUIRED & set(schedule.characteristics)))
            days = Days(schedule.first, schedule.last, schedule.days_run)
            trains[days, Counted(schedule.operator, passenger, as_required)] += 1
            for call in calls:
                midnights = max(midnights, int(call.departure.split(":")[0]) // 24)
                off, on = flags_of(schedule, call)
                clock = by_clock(call.departure)
                calls_wanted.append(f"{schedule.number}\t{call.call}\t{clock}\t{off:d}\t{on:d}\n")
            cells = (passenger, as_required, *riders_ends(calls))
            yield "\t".join(map(str, (schedule.number, *cells))) + "\n"

    names = "id passenger as_required riders_origin riders_destination".split()
    rows = database.rows(names, "FROM schedules ORDER BY id")
    compare_rows("what is told of schedules", names, rows, schedules_wanted())
    names = "schedules.id number departure_time get_off get_on".split()
    joined = "FROM schedules JOIN public_calls ON public_calls.journey = schedules.journey"
    rows = database.rows(names, f"{joined} ORDER BY schedules.id, number")
    compare_rows("riders at public calls", names, rows, calls_wanted)
    compare_portions(database, extract, form, schedules, passengers)
    days_run = {schedule.days_run for schedule in schedules.values()}
    with table_of(extract, "associations", form) as table:
        days_run |= {mask for _, mask in cells_of(table, ("base_uid", "days_run"))}
    compare_dates(database, header, midnights, days_run)
    compare_trains_per_day(database, trains)


def compare_all(
    database: Database, table: str, columns: str, wanted: Iterable[tuple[object, ...]]
) -> None:
    """Compares a table whose rows have no order."""
    names = columns.split()
    rows = sorted(database.rows(names, f"FROM {table}"))
    expected = sorted("\t".join(map(str, row)) + "\n" for row in wanted)
    compare_rows(f"table {table}, in order", names, rows, expected)


def days_of(header: Header) -> list[date]:
    count = (header.last_date - header.first_date).days + 1
    return [header.first_date + timedelta(days=number) for number in range(count)]


def compare_dates(database: Database, header: Header, midnights: int, days_run: set[str]) -> None:
    """Compares the tables of dates, from which views make the dates of trains."""
    days = days_of(header)
    compare_all(database, "days", "date weekday", ((day, day.isoweekday()) for day in days))
    compare_all(
        database,
        "weekdays",
        "days_run weekday",
        ((mask, weekday) for mask in days_run for weekday, bit in enumerate(mask, 1) if bit == "1"),
    )
    others = [
        (day, day.isoweekday(), indicator, day + timedelta(days=later))
        for day in days
        for indicator, later in DAYS_LATER.items()
    ]
    compare_all(
        database,
        "associated_days",
        "date weekday date_indicator associated_date associated_weekday",
        ((*row, row[-1].isoweekday()) for row in others),
    )
    compare_all(
        database,
        "clock_days",
        "date midnights train_date weekday",
        (
            (day + timedelta(days=later), later, day, day.isoweekday())
            for day in days
            for later in range(midnights + 1)
        ),
    )


def compare_trains_per_day(database: Database, trains: Trains) -> None:
    """Compares how many trains run on each date."""
    counts: defaultdict[Counted, Counter[int]] = defaultdict(Counter)
    for (days, counted), number in trains.items():
        first, last = (date.fromisoformat(day).toordinal() for day in (days.first, days.last))
        of_counted = counts[counted]
        for day in range(first, min(first + 7, last + 1)):
            if days.days_run[date.fromordinal(day).weekday()] == "1":
                for same_weekday in range(day, last + 1, 7):
                    of_counted[same_weekday] += number
    wanted = (
        (date.fromordinal(day), *counted, number)
        for counted, of_counted in counts.items()
        for day, number in of_counted.items()
    )
    columns = "date operator passenger as_required trains"
    compare_all(database, "trains_per_day", columns, wanted)
