"""Windows, dates and weekdays by chance: often at the ends of weeks, years, Februaries and of the calendar."""
from __future__ import annotations

from datetime import date
from random import Random
from typing import List, Mapping

from reference.dates import DAY, FIRST_OF_ALL, LAST_OF_ALL, WEEK, Window, monday_of

from .fields import of_width

# How likely each fault is, by its name.
Odds = Mapping[str, float]

MASKS = (
    "1111111",
    "1111111",
    "1111100",
    "1111100",
    "0000011",
    "1111110",
    "0000001",
    "1000000",
    "1010100",
    "0011111",
)
LENGTHS = {(1, 1): 6, (2, 7): 17, (8, 21): 33, (22, 61): 26, (62, 200): 14, (201, 1200): 4}


def bounded(day: date) -> date:
    return min(max(day, FIRST_OF_ALL), LAST_OF_ALL)


def some_start(rng: Random) -> date:
    """A first date: often of no note, or near an end of the calendar, of a year or of February."""
    chance = rng.random()
    any_date = FIRST_OF_ALL + rng.randrange((LAST_OF_ALL - FIRST_OF_ALL).days) * DAY
    if chance < 0.45:
        return date(2026, 1, 1) + rng.randrange(400) * DAY
    if chance < 0.55:
        return FIRST_OF_ALL + rng.choice([0, 0, 1, 2, 3, 4, 9]) * DAY
    if chance < 0.65:
        return bounded(date(any_date.year, 12, 20) + rng.randrange(15) * DAY)
    if chance < 0.75:
        return date(any_date.year // 4 * 4, 2, 10) + rng.randrange(20) * DAY
    return any_date


def some_window(rng: Random) -> Window:
    """First and last date; rarely all dates that there are."""
    if rng.random() < 0.005:
        return FIRST_OF_ALL, LAST_OF_ALL
    length = rng.randint(*rng.choices(list(LENGTHS), list(LENGTHS.values()))[0]) * DAY
    first, chance = some_start(rng), rng.random()
    if chance < 0.1:
        last = LAST_OF_ALL - rng.choice([0, 0, 1, 2, 5]) * DAY
        return bounded(last - length + DAY), last
    if chance < 0.25:
        first = bounded(monday_of(first))
        length = (length.days + 6) // 7 * WEEK
    return first, bounded(first + length - DAY)


def with_one_end_moved(rng: Random, window: Window) -> Window:
    """The window with one of its ends a few days earlier or later."""
    first, last = window
    days = rng.choice([-7, -2, -1, 1, 2, 7]) * DAY
    return (
        (min(bounded(first + days), last), last)
        if rng.random() < 0.5
        else (first, max(bounded(last + days), first))
    )


def some_day(rng: Random, window: Window) -> date:
    first, last = window
    return first + rng.randint(0, (last - first).days) * DAY


def some_part(rng: Random, window: Window) -> List[date]:
    """First and last date of a part of a window."""
    return sorted([some_day(rng, window), some_day(rng, window)])


def some_span(rng: Random, window: Window) -> Window:
    """First and last date of a record: over the whole window, over one of its ends, inside it or outside."""
    first, last = window
    day = some_day(rng, window)
    beyond = rng.choice([0, 0, 1, 2, 5, 30, 400]) * DAY
    spans = [
        (first - beyond, last + rng.choice([0, 0, 1, 3, 40]) * DAY),
        some_part(rng, window),
        (day, day + rng.randint(0, 20) * DAY),
        (day, day),
        (monday_of(day), monday_of(day) + rng.randint(1, 8) * WEEK - DAY),
        (first - beyond, first + rng.randint(0, 15) * DAY),
        (last - rng.randint(0, 15) * DAY, last + beyond),
        (first - DAY - beyond, first - DAY),
        (last + DAY, last + DAY + beyond),
    ]
    start, end = rng.choices(spans, [30, 20, 15, 8, 12, 6, 6, 2, 2])[0]
    return bounded(start), bounded(end)


def some_mask(rng: Random, masks: List[str]) -> str:
    """Days run, now and then those that one of these masks lacks."""
    chance = rng.random()
    if chance < 0.55:
        return rng.choice(MASKS)
    if chance < 0.7 and masks:
        return "".join("10"[int(bit)] for bit in rng.choice(masks))
    if chance < 0.85:
        one = rng.randrange(7)
        return "".join("01"[weekday == one] for weekday in range(7))
    return of_width(rng, 7, "01") if chance < 0.98 else "0000000"
