"""Sets of dates, against a look at each date."""
from __future__ import annotations

import random
import unittest
from collections import Counter
from datetime import date, timedelta

from cif_timetable.days import Dated, TrainsPerDay, Window, between, moved, numbers_of

FIRST, LAST = date(2025, 12, 27), date(2026, 3, 8)
ALL_DATES = [FIRST + timedelta(days=number) for number in range((LAST - FIRST).days + 1)]
WINDOW = Window(FIRST, LAST)


def some_terms(rng: random.Random) -> tuple[date, date, str]:
    """First and last date, and days run."""
    first, last = sorted(rng.choices(ALL_DATES, k=2))
    return first, last, f"{rng.randrange(1, 128):07b}"


def runs(day: date, first: date, last: date, days_run: str) -> bool:
    return first <= day <= last and days_run[day.weekday()] == "1"


class Dates(unittest.TestCase):
    """Sets of dates of a window."""

    def test_dates_of_a_record(self) -> None:
        rng = random.Random(1)
        for _ in range(200):
            first, last, days_run = some_terms(rng)
            found = WINDOW.dates(str(first).encode(), str(last).encode(), days_run.encode())
            wanted = [
                number for number, day in enumerate(ALL_DATES) if runs(day, first, last, days_run)
            ]
            self.assertEqual(wanted, numbers_of(found), (first, last, days_run))

    def test_ends_are_included(self) -> None:
        self.assertEqual([2, 3, 4], numbers_of(between(2, 4)))
        self.assertEqual([5], numbers_of(between(5, 5)))

    def test_moved(self) -> None:
        self.assertEqual([1, 4], numbers_of(moved(0b1001, 1)))
        # what is before the window is left out
        self.assertEqual([2], numbers_of(moved(0b1001, -1)))

    def test_items_on_dates(self) -> None:
        items = Dated([(0b0011, "a"), (0b0100, "b"), (0b0110, "c")])
        self.assertEqual([(0b0100, "b"), (0b0100, "c")], list(items.on(0b1100)))
        self.assertEqual(0b0111, items.dates())


class Trains(unittest.TestCase):
    """How many trains run on each date."""

    def test_trains_per_day(self) -> None:
        rng = random.Random(2)
        counter: TrainsPerDay[str] = TrainsPerDay(WINDOW)
        wanted: dict[str, Counter[date]] = {}
        for _ in range(300):
            key, (first, last, days_run) = rng.choice("xyz"), some_terms(rng)
            counter.add(key, str(first).encode(), str(last).encode(), days_run.encode())
            found = wanted.setdefault(key, Counter())
            found.update(day for day in ALL_DATES if runs(day, first, last, days_run))
        self.assertEqual(
            {key: [found[day] for day in ALL_DATES] for key, found in wanted.items()},
            dict(counter.counts()),
        )
