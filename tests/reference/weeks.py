"""Records of one key in each form: joined over weeks, or the fewest; from the dates on which a body runs."""
from __future__ import annotations

from datetime import date
from typing import Dict, List, NamedTuple, Optional, Sequence, Set

from .dates import DAY, WEEK, Window, monday_of
from .extracts import Body

# Of so few dates all ways to cut them are tried.
FEW = 12


class Joined(NamedTuple):
    """A record of letter P, without its key."""

    first: date
    last: date
    days: str
    body: Body


def alike_in_form_1(days: Set[date], window: Window, monday: date) -> bool:
    """Whether the body, which runs on these days, runs on the same weekdays in this week as in the week after."""
    return all((day in days) == (day + WEEK in days) for day in week_of(monday))


def alike_in_form_2(days: Set[date], window: Window, monday: date) -> bool:
    """The same, of the weekdays whose dates in both weeks lie in the window."""
    first, last = window
    both = [day for day in week_of(monday) if first <= day and day + WEEK <= last]
    return all((day in days) == (day + WEEK in days) for day in both)


ALIKE = {"1": alike_in_form_1, "2": alike_in_form_2}


def week_of(monday: date) -> List[date]:
    return [monday + number * DAY for number in range(7)]


def rows_by_weeks(days: Set[date], window: Window, form: str) -> List[List[date]]:
    """The longest rows of joined weeks, each as its dates."""
    rows: List[List[date]] = []
    before: Optional[date] = None
    for monday in sorted({monday_of(day) for day in days}):
        of_week = [day for day in week_of(monday) if day in days]
        if before is not None and before == monday - WEEK and ALIKE[form](days, window, before):
            rows[-1] += of_week
        else:
            rows.append(of_week)
        before = monday
    return rows


def are_exact(row: Sequence[date]) -> bool:
    """Whether a record from the first of these dates to the last, with their weekdays, shows no date but these."""
    weekdays = {day.weekday() for day in row}
    length = (row[-1] - row[0]).days + 1
    return len(row) == sum(
        (row[0] + number * DAY).weekday() in weekdays for number in range(length)
    )


def longest(days: Sequence[date]) -> int:
    """How many of these dates, from the first on, one record can show. A part of an exact row is exact."""
    upto, beyond = 1, 2
    while beyond <= len(days) and are_exact(days[:beyond]):
        upto, beyond = beyond, 2 * beyond
    beyond = min(beyond, len(days) + 1)
    while upto + 1 < beyond:
        middle = (upto + beyond) // 2
        upto, beyond = (middle, beyond) if are_exact(days[:middle]) else (upto, middle)
    return upto


def fewest(days: Sequence[date]) -> int:
    """The least number of exact rows that these dates can be cut into, of all ways to cut them."""
    if not days:
        return 0
    return 1 + min(
        fewest(days[count:]) for count in range(1, len(days) + 1) if are_exact(days[:count])
    )


def fewest_rows(days: Sequence[date]) -> List[List[date]]:
    """The dates cut into rows, each as long as can be."""
    rows: List[List[date]] = []
    left = list(days)
    while left:
        count = longest(left)
        rows.append(left[:count])
        left = left[count:]
    if len(days) <= FEW and len(rows) != fewest(days):
        raise ValueError("rows as long as can be aren't the fewest")
    return rows


def joined(bodies: Dict[date, Body], window: Window, form: str) -> List[Joined]:
    """The records of one key, rising by first date; bodies has the body of each date on which one runs."""
    found = []
    for body in set(bodies.values()):
        days = {day for day in bodies if bodies[day] == body}
        rows = fewest_rows(sorted(days)) if form == "3" else rows_by_weeks(days, window, form)
        for row in rows:
            mask = {day.weekday() for day in row}
            found.append(
                Joined(
                    row[0], row[-1], "".join("01"[weekday in mask] for weekday in range(7)), body
                )
            )
    return sorted(found, key=lambda record: record.first)
