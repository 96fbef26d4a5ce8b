"""The services of GTFS: each is a set of dates."""
from __future__ import annotations

from collections.abc import Iterator
from hashlib import blake2b
from itertools import accumulate
from typing import NamedTuple

from ..days import Dates, Window, between, count_of, numbers_of
from ..errors import Refused

# A hash in an id has twice as many digits.
ID_BYTES = 5


# The dates of a week that begins with the first one.
WEEK: Dates = 0b1111111


class Weekdays(NamedTuple):
    """Some weekdays as calendar.txt has them, and all dates of the window that are of these."""

    text: str
    dates: Dates


class Usual(NamedTuple):
    """The usual dates of a service: the numbers of its first and last date, the weekdays of which
    more than half between these are its, as calendar.txt has them, and all dates of these weekdays
    there."""

    first: int
    last: int
    weekdays: str
    dates: Dates


class ServiceRows(NamedTuple):
    """The row of a service in calendar.txt, if it has one, and its rows in calendar_dates.txt."""

    calendar: str
    exceptions: str


class Services:
    """The services, one for each distinct set of dates."""

    def __init__(self, window: Window) -> None:
        self.window = window
        self.texts = [f"{day:%Y%m%d}" for day in window.days]
        # what stands behind the id of a service for each date
        self.added = [f",{text},1\n" for text in self.texts]
        self.removed = [f",{text},2\n" for text in self.texts]
        self.ids: dict[Dates, bytes] = {}
        self.dates: dict[bytes, Dates] = {}
        # of each weekday, Monday first, its dates, and how many of them are before each number
        numbers = range(len(window.days))
        self.weekdays = [
            (of_weekday, [0, *accumulate(of_weekday >> number & 1 for number in numbers)])
            for of_weekday in window.weekdays
        ]
        # the weekdays of a week by the day with which it begins, and those that are marked
        self.of_week: dict[tuple[int, Dates], Weekdays] = {}
        self.marked: dict[tuple[bool, ...], Weekdays] = {}

    def id_of(self, dates: Dates) -> bytes:
        found = self.ids.get(dates)
        if found is None:
            found = self.new_id(dates)
            self.take(dates, found)
        return found

    def take(self, dates: Dates, name: bytes) -> None:
        """Takes over a service, which another process may have met."""
        self.ids[dates] = name
        if self.dates.setdefault(name, dates) != dates:
            raise Refused(f"two services have the id {name.decode()}")

    def new_id(self, dates: Dates) -> bytes:
        """A short hash of the dates, the same in each window that has them."""
        first = (dates & -dates).bit_length() - 1
        content = f"{self.texts[first]} {dates >> first:x}"
        return blake2b(content.encode(), digest_size=ID_BYTES).hexdigest().encode()

    def weekdays_marked(self, marks: tuple[bool, ...]) -> Weekdays:
        """The weekdays that are marked, Monday first."""
        found = self.marked.get(marks)
        if found is None:
            text = ",".join(str(int(mark)) for mark in marks)
            dates = sum(dates for (dates, _), mark in zip(self.weekdays, marks) if mark)
            found = self.marked[marks] = Weekdays(text, dates)
        return found

    def weekdays_of(self, first: int, week: Dates) -> Weekdays:
        """The weekdays of a week that begins with a date."""
        key = (first % 7, week)
        found = self.of_week.get(key)
        if found is None:
            marks = [bool(week << first & of_weekday) for of_weekday, _ in self.weekdays]
            found = self.of_week[key] = self.weekdays_marked(tuple(marks))
        return found

    def usual(self, dates: Dates) -> Usual:
        first = (dates & -dates).bit_length() - 1
        last = dates.bit_length() - 1
        span = between(first, last)
        # most services have the weekdays of their first week to the end
        weekdays = self.weekdays_of(first, dates >> first & WEEK)
        if span & weekdays.dates != dates:
            marks = [
                2 * count_of(dates & of_weekday) > before[last + 1] - before[first]
                for of_weekday, before in self.weekdays
            ]
            weekdays = self.weekdays_marked(tuple(marks))
        return Usual(first, last, weekdays.text, span & weekdays.dates)

    def rows(self) -> Iterator[ServiceRows]:
        """The rows of each service: exceptions are dates that are added (1) and dates that are
        taken away (2). A service without a usual weekday has only the former. They are texts, as
        there are many."""
        for dates, name in self.ids.items():
            service = name.decode()
            usual = self.usual(dates)
            span = f"{self.texts[usual.first]},{self.texts[usual.last]}"
            calendar = f"{service},{usual.weekdays},{span}\n" if usual.dates else ""
            exceptions = ""
            if usual.dates != dates:
                added = map(self.added.__getitem__, numbers_of(dates & ~usual.dates))
                removed = map(self.removed.__getitem__, numbers_of(usual.dates & ~dates))
                exceptions = service.join(["", *added, *removed])
            yield ServiceRows(calendar, exceptions)
