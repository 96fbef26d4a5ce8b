"""Dates as people write them, and as weeks."""
from __future__ import annotations

import re
from collections.abc import Iterator, Sequence
from datetime import date, timedelta
from typing import NamedTuple

from ..days import Dates, Window, between, count_of, numbers_of

MONTHS = "January February March April May June July August September October November December"
MONTH_NAMES = MONTHS.split()
DAY_NAMES = "Monday Tuesday Wednesday Thursday Friday Saturday Sunday".split()
ALL_DAYS = (1 << 7) - 1
NO_DAYS = "0" * 7
# Weeks that follow one another with the same days.
ALIKE_WEEKS = re.compile(r"([01]{7})\1*")
# So many dates are listed.
MOST_LISTED = 4
# So many exceptions are, if there are that many dates for each.
MOST_EXCEPTIONS = 3
DATES_FOR_EXCEPTION = 4


def listed(words: Sequence[str], last: str = "and") -> str:
    """Words with commas, and `and` before the last."""
    if len(words) < 2:
        return "".join(words)
    return f"{', '.join(words[:-1])} {last} {words[-1]}"


def signs_of(dates: Dates) -> str:
    """A sign for each date, `1` for those of the set, up to the last of these."""
    return f"{dates:b}"[::-1] if dates else ""


def short_weekday(day: date) -> str:
    return DAY_NAMES[day.weekday()][:3]


class Span(NamedTuple):
    """Weeks that follow one another with the same days: the first and the last date, and of each
    week the days, Monday first."""

    first: date
    last: date
    days: str


class Calendar:
    """The window, in words. Years are written where it has several."""

    def __init__(self, window: Window) -> None:
        self.window = window
        self.several_years = window.days[0].year != window.days[-1].year

    def year(self, day: date) -> str:
        return f" {day.year}" if self.several_years else ""

    def day(self, day: date, with_year: bool = False) -> str:
        """Such as `Sat 6 June`."""
        year = f" {day.year}" if with_year else self.year(day)
        return f"{short_weekday(day)} {day.day} {MONTH_NAMES[day.month - 1]}{year}"

    def day_month(self, day: date, with_year: bool = False) -> str:
        """Such as `6 June`."""
        year = f" {day.year}" if with_year else self.year(day)
        return f"{day.day} {MONTH_NAMES[day.month - 1]}{year}"

    def period(self, first: date, last: date) -> str:
        """Such as `1 to 12 June`."""
        if first == last:
            return self.day_month(last)
        if (first.year, first.month) == (last.year, last.month):
            return f"{first.day} to {self.day_month(last)}"
        return f"{self.day_month(first)} to {self.day_month(last)}"

    def listed_days(self, days: Sequence[date], weekdays: bool) -> str:
        """Such as `Sat 6, Sun 7 and Sat 13 June`: the month stands behind its last date."""
        words = []
        following_days: list[date | None] = [*days[1:], None]
        for day, following in zip(days, following_days):
            month = following is None or (day.year, day.month) != (following.year, following.month)
            word = f"{short_weekday(day)} " if weekdays else ""
            words.append(word + (self.day_month(day) if month else str(day.day)))
        return listed(words)

    def words(self, dates: Dates) -> str:
        """A set of dates, such as `on Mondays to Fridays from 1 to 12 June`."""
        count = count_of(dates)
        start, end = (dates & -dates).bit_length() - 1, dates.bit_length() - 1
        first, last = self.window.days[start], self.window.days[end]
        if 2 < count < 7 and (last - first).days == count - 1:
            since = f"{short_weekday(first)} {first.day}{self.month_unlike(first, last)}"
            return f"from {since} to {self.day(last)}"
        if count <= MOST_LISTED:
            days = [self.window.days[number] for number in numbers_of(dates)]
            return f"on {self.listed_days(days, True)}"
        weekdays = sum(1 << day for day in range(7) if dates & self.window.weekdays[day])
        possible = self.of_weekdays(weekdays)
        lacking = possible & between(start, end) & ~dates
        exceptions = count_of(lacking)
        if exceptions > MOST_EXCEPTIONS or count < exceptions * DATES_FOR_EXCEPTION:
            return f"on {count} dates from {self.period(first, last)}"
        text = weekday_words(weekdays) + self.bounds(possible, dates, first, last)
        if exceptions:
            left_out = [self.window.days[number] for number in numbers_of(lacking)]
            text += f", but not on {self.listed_days(left_out, False)}"
        return text

    def month_unlike(self, first: date, last: date) -> str:
        """The month of the first date, where the last has another."""
        same = (first.year, first.month) == (last.year, last.month)
        return "" if same else f" {MONTH_NAMES[first.month - 1]}"

    def of_weekdays(self, weekdays: int) -> Dates:
        return sum(self.window.weekdays[day] for day in range(7) if weekdays >> day & 1)

    def bounds(self, possible: Dates, dates: Dates, first: date, last: date) -> str:
        """From when to when, as far as it isn't from the first to the last of the window."""
        begins = possible & -possible == dates & -dates
        ends = possible.bit_length() == dates.bit_length()
        if begins and ends:
            return ""
        if ends:
            return f" from {self.day_month(first)} on"
        if begins:
            return f" until {self.day_month(last)}"
        return f" from {self.period(first, last)}"

    def spans(self, dates: Dates) -> list[Span]:
        """The dates as weeks that follow one another with the same days."""
        return list(self.joined(dates))

    def joined(self, dates: Dates) -> Iterator[Span]:
        offset = self.window.days[0].weekday()
        monday = self.window.days[0] - timedelta(days=offset)
        text = signs_of(dates << offset)
        for weeks in ALIKE_WEEKS.finditer(text + "0" * (-len(text) % 7)):
            days = weeks[1]
            if days != NO_DAYS:
                first = monday + timedelta(days=weeks.start() + days.index("1"))
                last = monday + timedelta(days=weeks.end() - 7 + days.rindex("1"))
                yield Span(first, last, days)


def weekday_words(weekdays: int) -> str:
    """Weekdays, such as `on Mondays to Fridays`, or `every day`."""
    if weekdays == ALL_DAYS:
        return "every day"
    days = [day for day in range(7) if weekdays >> day & 1]
    names = [f"{DAY_NAMES[day]}s" for day in days]
    if len(days) > 2 and days[-1] - days[0] == len(days) - 1:
        return f"on {names[0]} to {names[-1]}"
    return f"on {listed(names)}"


class DateCounts:
    """How many sets have each date: the numbers in binary, a set of dates for each digit."""

    def __init__(self) -> None:
        self.digits: list[Dates] = []

    def add(self, dates: Dates) -> None:
        for at, digit in enumerate(self.digits):
            if not dates:
                return
            self.digits[at] = digit ^ dates
            dates &= digit
        if dates:
            self.digits.append(dates)

    def counts(self, length: int) -> list[int]:
        found = [0] * length
        for at, digit in enumerate(self.digits):
            for number, sign in enumerate(signs_of(digit)):
                if sign == "1":
                    found[number] += 1 << at
        return found
