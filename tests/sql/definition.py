"""What a database has to have, worked out of what `cif day` and `cif table` say, date by date."""
from __future__ import annotations

from collections import Counter, defaultdict
from datetime import date, timedelta
from functools import cached_property
from typing import DefaultDict, Dict, List, Optional, Tuple

from gtfs.checks import Source
from gtfs.definition import Row, is_for_riders, seconds_of, table_rows

DAY = 86400
# The form with the fewest rows of schedules.
FORM = "3"
TABLES = ("header", "tiplocs", "associations", "schedules", "calls", "changes", "public")
# The fields of `cif table` that have another name in the database.
RENAMED = {"operator_code": "operator", "call": "number"}
ASSOCIATION = {
    "category": "association_category",
    "location": "association_location",
}

# A row of a query, each value as a text or None; and what makes a journey another one: its train, its calls, its changes, and whether
# it is for riders.
SqlRow = Tuple[Optional[str], ...]
Cells = Tuple[Tuple[str, ...], ...]
Journey = Tuple[str, Cells, Cells, Tuple[bool, ...]]


def or_none(text: str) -> Optional[str]:
    return text or None


def clock(seconds: int) -> str:
    return f"{seconds // 3600 % 24:02}:{seconds // 60 % 60:02}:{seconds % 60:02}"


def seconds_by_clock(time: str) -> Optional[str]:
    """A working time as seconds of the day."""
    return str(seconds_of(f"{time[:2]}:{time[2:4]}:{'30' if time[4:] else '00'}")) if time else None


def as_required(row: Row) -> str:
    """Whether a train may run, and needn't: it has the characteristic Q or Y."""
    return str(int("Q" in row["characteristics"] or "Y" in row["characteristics"]))


class Expected:
    """The rows that the queries of checks.py have to give, in no order."""

    def __init__(self, source: Source) -> None:
        self.source = source
        self.tables = {
            name: table_rows(source.lines("table", "--form", FORM, name)) for name in TABLES
        }
        self.names = {
            name: source.lines("table", "--form", FORM, name)[0].split("\t")
            for name in ("schedules", "calls", "changes", "public")
        }
        [self.header] = self.tables["header"]
        first, last = (
            date.fromisoformat(self.header[name]) for name in ("first_date", "last_date")
        )
        self.dates = [first + timedelta(days=number) for number in range((last - first).days + 1)]
        self.schedules = {row["schedule"]: row for row in self.tables["schedules"]}
        self.of_schedule: Dict[str, DefaultDict[str, List[Row]]] = {
            name: defaultdict(list) for name in ("calls", "changes", "public")
        }
        for name, found in self.of_schedule.items():
            for row in self.tables[name]:
                found[row["schedule"]].append(row)

    def key(self, number: str) -> Tuple[str, str]:
        row = self.schedules[number]
        return row["uid"], row["first_date"]

    def fields(self, table: str) -> Counter[SqlRow]:
        """All fields of a table, under the key of the schedule."""
        return Counter(
            (*self.key(row["schedule"]), *(or_none(row[name]) for name in self.names[table][1:]))
            for row in self.tables[table]
        )

    def working_seconds(self) -> Counter[SqlRow]:
        return Counter(
            tuple(seconds_by_clock(row[name]) for name in ("arrival", "departure", "pass"))
            for journey in self.journeys().values()
            for row in journey
        )

    def journeys(self) -> Dict[Journey, List[Row]]:
        """The calls of each journey, by what makes it another one."""
        found = {}
        for number, row in self.schedules.items():
            calls, changes = (
                tuple(tuple(call.values())[1:] for call in self.of_schedule[name][number])
                for name in ("calls", "changes")
            )
            for_riders = tuple(
                is_for_riders({**row, "category": category}) for _, category in self.sorts(number)
            )
            found[row["uid"], calls, changes, for_riders] = self.of_schedule["calls"][number]
        return found

    def sorts(self, number: str) -> List[Tuple[int, str]]:
        """The categories of a schedule, each with the number of the call from which on it counts."""
        changes = [
            (int(row["call"]), row["category"]) for row in self.of_schedule["changes"][number]
        ]
        return [(0, self.schedules[number]["category"]), *changes]

    def riders(self, number: str, call: Row) -> Tuple[bool, bool]:
        """Whether riders may get off at a public call, and whether they may get on: a train arrives
        as what it was before a change, and leaves as what it is after it."""
        at, row = int(call["call"]), self.schedules[number]
        [*_, before] = [category for first, category in self.sorts(number) if first < at]
        [*_, after] = [category for first, category in self.sorts(number) if first <= at]
        off = call["set_down"] != "1" and is_for_riders({**row, "category": before})
        on = call["pick_up"] != "1" and is_for_riders({**row, "category": after})
        return off, on

    def riders_calls(self) -> Counter[SqlRow]:
        """Of each public call whether riders may get off, get on, and do either."""
        found: Counter[SqlRow] = Counter()
        for row in self.tables["public"]:
            off, on = self.riders(row["schedule"], row)
            flags = (str(int(flag)) for flag in (off, on, off or on))
            found[(*self.key(row["schedule"]), row["call"], *flags)] += 1
        return found

    def ends(self, number: str) -> Tuple[Optional[str], Optional[str]]:
        """The ends that riders know."""
        calls = self.of_schedule["public"][number]
        if not calls:
            return None, None
        first = next((call for call in calls if call["pick_up"] != "1"), calls[0])
        last = next((call for call in calls[::-1] if call["set_down"] != "1"), calls[-1])
        return or_none(first["location"]), or_none(last["location"])

    @cached_property
    def calls_on(self) -> Counter[SqlRow]:
        """All calls of each date."""
        found: Counter[SqlRow] = Counter()
        for number, row in self.schedules.items():
            for day in self.dates_of(row):
                for call in self.of_schedule["calls"][number]:
                    found[day.isoformat(), row["uid"], call["call"], call["location"]] += 1
        return found

    @cached_property
    def days(self) -> Tuple[Counter[SqlRow], Counter[SqlRow]]:
        """The trains and the associations of each date, as `cif day` lists them."""
        trains: Counter[SqlRow] = Counter()
        associations: Counter[SqlRow] = Counter()
        for day in self.dates:
            rows = table_rows(self.source.lines("day", "--format", "tsv", f"{day:%y%m%d}"))
            for row in rows:
                if row["kind"] == "BS":
                    names = "date uid identity origin departure terminus arrival"
                    trains[tuple(or_none(row[name]) for name in names.split())] += 1
                else:
                    names = "date base_uid associated_uid association_category date_indicator"
                    names += " association_location base_suffix associated_suffix association_type"
                    associations[tuple(or_none(row[name]) for name in names.split())] += 1
        return trains, associations

    def dates_of(self, row: Row) -> List[date]:
        return [
            day
            for day in self.dates
            if row["first_date"] <= day.isoformat() <= row["last_date"]
            and row["days_run"][day.weekday()] == "1"
        ]

    def is_passenger(self, number: str) -> bool:
        calls = self.of_schedule["public"][number]
        return sum(any(self.riders(number, call)) for call in calls) > 1

    def sorts_of_schedules(self) -> Counter[SqlRow]:
        """Of each schedule whether it is for passengers, and whether it runs as required."""
        return Counter(
            (*self.key(number), str(int(self.is_passenger(number))), as_required(row))
            for number, row in self.schedules.items()
        )

    def trains_per_day(self) -> Counter[SqlRow]:
        found: Counter[Tuple[str, Optional[str], str, str]] = Counter()
        for number, row in self.schedules.items():
            for day in self.dates_of(row):
                passenger = str(int(self.is_passenger(number)))
                operator = or_none(row["operator_code"])
                found[day.isoformat(), operator, passenger, as_required(row)] += 1
        return Counter((*key, str(count)) for key, count in found.items())

    @cached_property
    def running(self) -> Dict[Tuple[str, date], str]:
        """The schedule of each train on each date."""
        return {
            (row["uid"], day): number
            for number, row in self.schedules.items()
            for day in self.dates_of(row)
        }

    @cached_property
    def crs(self) -> Dict[str, Optional[str]]:
        return {row["tiploc"]: or_none(row["crs_code"]) for row in self.tables["tiplocs"]}

    @cached_property
    def departures(self) -> Counter[SqlRow]:
        return self.board("departure")

    @cached_property
    def arrivals(self) -> Counter[SqlRow]:
        return self.board("arrival")

    def board(self, time: str) -> Counter[SqlRow]:
        """All departures, or arrivals, by the clock."""
        crs = self.crs
        found: Counter[SqlRow] = Counter()
        for number, row in self.schedules.items():
            if not self.is_passenger(number):
                continue
            for call in self.of_schedule["public"][number]:
                off, on = self.riders(number, call)
                if not (on if time == "departure" else off):
                    continue
                seconds = seconds_of(call[time])
                for day in self.dates_of(row):
                    found[
                        crs.get(call["location"]),
                        crs.get(call["location"]),
                        (day + timedelta(days=seconds // DAY)).isoformat(),
                        clock(seconds),
                        day.isoformat(),
                        row["uid"],
                        or_none(row["identity"]),
                        or_none(row["operator_code"]),
                        or_none(row["category"]),
                        or_none(row["status"]),
                        as_required(row),
                        or_none(call["platform"]),
                        *self.ends(number),
                        call["pick_up"],
                        call["set_down"],
                        call["location"],
                        call["call"],
                    ] += 1
        return found
