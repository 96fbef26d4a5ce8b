"""All rides of an extract without a change, worked out date by date."""
from __future__ import annotations

from collections import Counter
from datetime import date, timedelta
from typing import Iterator, Tuple

from gtfs.definition import Row, seconds_of

from .definition import DAY, Expected, SqlRow, clock

# How many days after its base train an associated train runs, by the date indicator; of other ones riders are told nothing.
DAYS_LATER = {"": 0, "S": 0, "N": 1, "P": -1}


def rides(expected: Expected) -> Counter[SqlRow]:
    """All rides without a change, date by date: by one train, and by an association from one to another."""
    found: Counter[SqlRow] = Counter()
    for (_, day), number in expected.running.items():
        found.update(rides_between(expected, (number, day, 999), (number, day, 0)))
    for row in expected.tables["associations"]:
        later = DAYS_LATER.get(row["date_indicator"])
        if later is None or row["association_type"] not in ("", "P") or not row["location"]:
            continue
        for day in expected.dates_of(row):
            other_day = day + timedelta(days=later)
            base = expected.running.get((row["base_uid"], day))
            other = expected.running.get((row["associated_uid"], other_day))
            if base and other:
                found.update(rides_by(expected, row, (base, day), (other, other_day)))
    return found


def rides_by(
    expected: Expected, row: Row, base: Tuple[str, date], other: Tuple[str, date]
) -> Iterator[SqlRow]:
    """The rides from one train to another by an association, on their dates."""
    place = row["location"], row["base_suffix"]
    calls, others = (expected.of_schedule["calls"][number] for number, _ in (base, other))
    stops = [
        int(call["call"])
        for call in calls
        if (call["location"], call["suffix"]) == place and (call["arrival"] or call["departure"])
    ]
    if not stops:
        return
    if row["category"] == "JJ" and others[-1]["location"] == place[0]:
        yield from rides_between(expected, (*other, 999), (*base, stops[0]))
    divides = row["category"] == "VV"
    goes_on = row["category"] == "NP" and calls[-1]["location"] == place[0]
    if (divides or goes_on) and others[0]["location"] == place[0]:
        yield from rides_between(expected, (*base, stops[0]), (*other, 1))


def rides_between(
    expected: Expected, start: Tuple[str, date, int], end: Tuple[str, date, int]
) -> Iterator[SqlRow]:
    """The rides on a train before a call and on another one, or the same, after one of its calls."""
    (number, day, before), (other, other_day, after) = start, end
    if not expected.is_passenger(number):
        return
    for call in expected.of_schedule["public"][number]:
        if int(call["call"]) >= before or not expected.riders(number, call)[1]:
            continue
        for reached in expected.of_schedule["public"][other]:
            later = int(call["call"]) if number == other and day == other_day else after
            if int(reached["call"]) <= later or not expected.riders(other, reached)[0]:
                continue
            leaves, arrives = seconds_of(call["departure"]), seconds_of(reached["arrival"])
            yield (
                expected.crs.get(call["location"]),
                expected.crs.get(reached["location"]),
                (day + timedelta(days=leaves // DAY)).isoformat(),
                clock(leaves),
                (other_day + timedelta(days=arrives // DAY)).isoformat(),
                clock(arrives),
                day.isoformat(),
                expected.schedules[number]["uid"],
                expected.schedules[other]["uid"] if other != number else None,
                call["call"],
            )
