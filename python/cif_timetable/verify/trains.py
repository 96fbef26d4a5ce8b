"""What a feed has to have: the public trains of an extract on their dates, and its stops.

A public train has two public calls or more where it is for riders.
"""
from __future__ import annotations

import re
from collections.abc import Mapping
from datetime import date
from typing import NamedTuple

from .._extract import FORM, Extract
from ..model import Location
from ..places import PlaceRow, Places
from ..user_csv import Key
from .riders import NEVER, is_for_riders, off_and_on
from .schedules import (
    Public,
    Schedule,
    public_of,
    read_schedules,
    rows_by_schedule,
    table_of,
    text_lines,
)
from .zipped import About, Window

# The kinds of trains: the first line that fits says what a train is, or else it is by rail.
KINDS = (
    ("replacement", "category", ("BR",)),
    ("bus", "category", ("BS",)),
    ("bus", "status", ("B", "5")),
    ("ship", "category", ("SS",)),
    ("ship", "status", ("S", "4")),
    ("metro", "category", ("OL",)),
    ("sleeper", "category", ("XZ",)),
    ("sleeper", "sleepers", ("B", "F", "S")),
)
TYPES = {"rail": "2", "sleeper": "2", "metro": "1", "bus": "3", "replacement": "3", "ship": "4"}
EXTENDED_TYPES = {**TYPES, "sleeper": "105", "replacement": "714"}
# Reservations of a train that takes bicycles.
BICYCLES = "E"
OTHER = re.compile(r"[^A-Za-z0-9 ]")


def coded(text: str) -> str:
    """A text in an id: letters and digits, `_` for a space, and `%XX` for all else."""
    return OTHER.sub(lambda found: f"%{ord(found[0]):02X}", text).replace(" ", "_")


class Stops:
    """The ids and names of stops: a TIPLOC of a station has one for each platform."""

    def __init__(self, extract: Extract, given: Mapping[Key, PlaceRow]) -> None:
        self.places = Places(extract.rows("tiplocs", Location), given)
        # those that were asked for
        self.used: dict[tuple[str, str], str] = {}

    def id_of(self, location: str, platform: str) -> str:
        found = self.used.get((location, platform))
        if found is None:
            found = coded(location) or "_"
            if platform and self.places.tiploc(location).station_crs:
                found += f"/{coded(platform)}"
            self.used[location, platform] = found
        return found

    def station_name(self, location: str) -> str:
        return self.places.station_name(location)


# The calls of a train as a feed has them, one a line: stop, arrival, departure, drop_off_type and
# pickup_type between tabs.
Text = str
# The dates on which a train is so.
OnDates = dict[tuple[About, Text], int]


class PublicTrain(NamedTuple):
    """A public train with associations: its schedule, its dates, what it shows, and its calls."""

    schedule: str
    dates: int
    about: About
    calls: list[Public]


class Trains(NamedTuple):
    """The public trains by their UIDs, those with associations one by one, and on how many dates trains
    with public calls aren't for riders, and one of these."""

    plain: dict[str, OnDates]
    linked: dict[str, list[PublicTrain]]
    not_for_riders: int
    one_of_them: str


def kind_of(schedule: Schedule, category: str) -> str:
    values = {
        "category": category,
        "status": schedule.status,
        "sleepers": schedule.sleepers,
    }
    return next((kind for kind, field, them in KINDS if values[field] in them), "rail")


def category_shown(schedule: Schedule) -> str | None:
    """The first category of a train that is for riders, or None."""
    categories = [schedule.category, *(category for _, category in schedule.changes)]
    return next((each for each in categories if is_for_riders(schedule.status, each)), None)


def for_riders(schedule: Schedule, calls: list[Public]) -> list[Public]:
    """The public calls where a train is for riders, with what they may do there."""
    if not schedule.changes:
        return calls if is_for_riders(schedule.status, schedule.category) else []
    found = []
    for call in calls:
        off, on = off_and_on(schedule.status, schedule.category, schedule.changes, call.call)
        flags = call.set_down if off else NEVER, call.pick_up if on else NEVER
        if flags != (NEVER, NEVER):
            found.append(call._replace(set_down=flags[0], pick_up=flags[1]))
    return found


def text_of(calls: list[Public], stops: Stops) -> Text:
    return "\n".join(
        f"{stops.id_of(call.location, call.platform)}\t{call.arrival}\t{call.departure}"
        f"\t{call.set_down}\t{call.pick_up}"
        for call in calls
    )


class Reader:
    """Reads the public trains of an extract."""

    def __init__(self, window: Window, stops: Stops, types: Mapping[str, str]) -> None:
        self.window = window
        self.stops = stops
        self.types = types
        self.dates: dict[tuple[str, str, str], int] = {}

    def dates_of(self, schedule: Schedule) -> int:
        key = schedule.first, schedule.last, schedule.days_run
        if key not in self.dates:
            first, last = date.fromisoformat(schedule.first), date.fromisoformat(schedule.last)
            self.dates[key] = self.window.masked(first, last, schedule.days_run)
        return self.dates[key]

    def about(self, schedule: Schedule, last: Public) -> About:
        """What trips show of a train that ends with a call."""
        return About(
            coded(schedule.operator) or "unknown",
            self.types[kind_of(schedule, category_shown(schedule) or "")],
            schedule.identity,
            self.stops.station_name(last.location),
            "1" if schedule.reservations == BICYCLES else "0",
        )

    def read(self, extract: Extract, linked: set[str]) -> Trains:
        """All public trains. The linked ones are those that associations name."""
        plain: dict[str, OnDates] = {}
        singly: dict[str, list[PublicTrain]] = {}
        not_for_riders, one_of_them = 0, ""
        schedules = read_schedules(extract, FORM)
        # what the schedules of a train have in common
        uid = ""
        known: dict[object, tuple[list[Public], About | None, Text]] = {}
        with table_of(extract, "public", FORM) as table:
            for number, rows in rows_by_schedule(text_lines(table)):
                if len(rows) < 2:
                    continue
                schedule = schedules[number]
                dates = self.dates_of(schedule)
                if schedule.uid != uid:
                    uid, known = schedule.uid, {}
                key = (tuple(schedule.changes), *schedule[5:12], *rows)
                if key not in known:
                    calls = for_riders(schedule, list(map(public_of, rows)))
                    about = self.about(schedule, calls[-1]) if len(calls) > 1 else None
                    known[key] = calls, about, text_of(calls, self.stops) if about else ""
                calls, about, text = known[key]
                if about is None:
                    not_for_riders += bin(dates).count("1")
                    one_of_them = one_of_them or f"{uid} on {self.window.first(dates)}"
                elif uid in linked:
                    train = PublicTrain(number, dates, about, calls)
                    singly.setdefault(uid, []).append(train)
                else:
                    on_dates = plain.setdefault(uid, {})
                    on_dates[about, text] = on_dates.get((about, text), 0) | dates
        return Trains(plain, singly, not_for_riders, one_of_them)
