"""How many trains of an operator run on each date, as a chart: paths of SVG, without styles."""
from __future__ import annotations

from collections import Counter
from collections.abc import Iterable, Sequence
from dataclasses import dataclass
from datetime import date
from statistics import median

from .queries import Row
from .words import MONTHS

# The chart in its own units, with room for the numbers above it and the months below.
WIDTH, HEIGHT, ABOVE, BELOW = 320, 80, 16, 18
# Where the name of a month would reach beyond the chart.
NEAR_END = 292
# So many names of months have room.
MOST_MONTHS = 9


@dataclass
class Chart:
    """A chart, and the numbers that it is of."""

    code: str
    name: str
    total: int
    most: int
    path: str
    as_required: str
    months: list[tuple[float, str]]
    # the number of trains on a usual date: Mondays to Fridays, Saturdays, Sundays
    usual: tuple[int | None, int | None, int | None]
    least_date: str
    least: int
    most_date: str
    for_riders: int
    required: int


def steps(values: Sequence[int], most: int) -> str:
    """The area below a line of steps, with one for each date."""
    wide = WIDTH / len(values)
    parts = [f"M0,{HEIGHT + ABOVE}"]
    for number, value in enumerate(values):
        top = ABOVE + HEIGHT - round(HEIGHT * value / max(most, 1), 1)
        parts.append(f"V{top:g}H{round((number + 1) * wide, 2):g}")
    return "".join(parts) + f"V{HEIGHT + ABOVE}Z"


def months_of(days: Sequence[str]) -> list[tuple[float, str]]:
    """Where a month begins, or the window, and its name."""
    found = [
        (round(number * WIDTH / len(days), 1), MONTHS[int(day[5:7]) - 1][:3])
        for number, day in enumerate(days)
        if day.endswith("-01") or (number == 0 and int(day[8:]) < 20)
    ]
    every = len(found) // MOST_MONTHS + 1
    return [each for each in found[::every] if each[0] < NEAR_END]


def usual(days: Sequence[str], values: Sequence[int], weekdays: range) -> int | None:
    """The median on these weekdays."""
    found = [
        value for day, value in zip(days, values) if date.fromisoformat(day).weekday() in weekdays
    ]
    return round(median(found)) if found else None


def counted(days: Sequence[str], rows: Iterable[Row]) -> list[int]:
    """How many trains these rows have on each date."""
    found: Counter[str] = Counter()
    for row in rows:
        found[row["date"]] += row["trains"]
    return [found[day] for day in days]


def chart_of(code: str, name: str, days: Sequence[str], rows: Sequence[Row]) -> Chart:
    values = counted(days, rows)
    required = counted(days, (row for row in rows if row["as_required"]))
    most, least = max(values), min(values)
    return Chart(
        code,
        name,
        sum(values),
        most,
        steps(values, most),
        steps(required, most) if any(required) else "",
        months_of(days),
        (
            usual(days, values, range(5)),
            usual(days, values, range(5, 6)),
            usual(days, values, range(6, 7)),
        ),
        days[values.index(least)],
        least,
        days[values.index(most)],
        sum(row["trains"] for row in rows if row["passenger"]),
        sum(required),
    )
