"""Sets of dates of a window.

A set of dates is a number: bit 0 is the first date of the window, bit 1 the next one, and so on.
"""
from __future__ import annotations

from array import array
from collections.abc import Callable, Iterator, Sequence
from datetime import date, timedelta
from itertools import accumulate
from typing import Generic, TypeVar

Dates = int

WEEKDAYS = ("monday", "tuesday", "wednesday", "thursday", "friday", "saturday", "sunday")


def ones_of(number: int) -> int:
    return bin(number).count("1")


# Python has it built in from 3.10 on.
count_of: Callable[[Dates], int] = getattr(int, "bit_count", ones_of)


# Each date alone, which takes longer to make each time.
SINGLE: list[Dates] = []


def numbers_of(dates: Dates) -> list[int]:
    """The numbers of the dates in a set, rising. The last ones are taken first, which makes the
    number that is left smaller."""
    while len(SINGLE) < dates.bit_length():
        SINGLE.append(1 << len(SINGLE))
    found: list[int] = []
    while dates:
        number = dates.bit_length() - 1
        found.append(number)
        dates ^= SINGLE[number]
    found.reverse()
    return found


def moved(dates: Dates, days: int) -> Dates:
    """The dates so many days later. Those before the window are left out."""
    return dates << days if days >= 0 else dates >> -days


def between(first: int, last: int) -> Dates:
    """The dates from one number to another, both included."""
    return (2 << last) - (1 << first)


Item = TypeVar("Item")


class Dated(Generic[Item]):
    """Items with their dates. Those on some dates are found without looking at all others."""

    def __init__(self, items: Sequence[tuple[Dates, Item]]) -> None:
        self.items = [item for _, item in items]
        # the dates of each item, then of each two beside each other, of each four, and so on
        self.levels: list[list[Dates]] = [[dates for dates, _ in items]]
        while len(self.levels[-1]) > 1:
            below = self.levels[-1]
            pairs = [one | other for one, other in zip(below[::2], below[1::2])]
            self.levels.append(pairs + below[2 * len(pairs) :])

    def dates(self) -> Dates:
        """The dates of all items."""
        return self.levels[-1][0] if self.items else 0

    def on(self, dates: Dates) -> Iterator[tuple[Dates, Item]]:
        """Each item on some of these dates, and which of them are its dates, in order."""
        pending = [(len(self.levels) - 1, 0)] if self.items else []
        while pending:
            level, at = pending.pop()
            common = self.levels[level][at] & dates
            if common and not level:
                yield common, self.items[at]
            elif common:
                last = min(2 * at + 1, len(self.levels[level - 1]) - 1)
                pending += [(level - 1, below) for below in range(last, 2 * at - 1, -1)]


class Window:
    """The dates from the first to the last."""

    def __init__(self, first: date, last: date) -> None:
        count = (last - first).days + 1
        self.days: list[date] = [first + timedelta(days=number) for number in range(count)]
        self.numbers = {day.isoformat().encode(): number for number, day in enumerate(self.days)}
        # of each weekday, Monday first, its dates
        self.weekdays: list[Dates] = [0] * 7
        for number, day in enumerate(self.days):
            self.weekdays[day.weekday()] |= 1 << number
        # all dates up to the one of a text, and all before it
        self.up_to = {text: (2 << number) - 1 for text, number in self.numbers.items()}
        self.before = {text: (1 << number) - 1 for text, number in self.numbers.items()}
        self.of_days_run: dict[bytes, Dates] = {}

    def dates(self, first: bytes, last: bytes, days_run: bytes) -> Dates:
        """The dates from the first to the last that are of these weekdays, as a table has them."""
        runs = self.of_days_run.get(days_run)
        if runs is None:
            weekdays = zip(self.weekdays, days_run.decode())
            runs = self.of_days_run[days_run] = sum(dates for dates, bit in weekdays if bit == "1")
        return (self.up_to[last] - self.before[first]) & runs


Key = TypeVar("Key")


class TrainsPerDay(Generic[Key]):
    """How many trains run on each date of a window, by what is said of them. Those with the same days
    run are counted together, by the dates from which on there is one more or less."""

    def __init__(self, window: Window) -> None:
        self.window = window
        self.changes: dict[Key, dict[bytes, "array[int]"]] = {}

    def add(self, key: Key, first: bytes, last: bytes, days_run: bytes) -> None:
        """Adds a train from the first to the last date, as a table has them."""
        by_days_run = self.changes.setdefault(key, {})
        changes = by_days_run.get(days_run)
        if changes is None:
            changes = by_days_run[days_run] = array("l", [0]) * (len(self.window.days) + 1)
        changes[self.window.numbers[first]] += 1
        changes[self.window.numbers[last] + 1] -= 1

    def counts(self) -> Iterator[tuple[Key, list[int]]]:
        """What is said of trains, each with the number of trains on each date."""
        for key, by_days_run in self.changes.items():
            counts = [0] * len(self.window.days)
            for days_run, changes in by_days_run.items():
                for number, (day, trains) in enumerate(zip(self.window.days, accumulate(changes))):
                    if days_run[day.weekday()] == ord("1"):
                        counts[number] += trains
            yield key, counts
