"""The numbers of trains before and after as a chart: paths of SVG, and labels beside them, which
stay legible on a narrow screen."""
from __future__ import annotations

from collections.abc import Iterable, Iterator, Mapping, Sequence
from datetime import date
from itertools import groupby
from typing import NamedTuple

from .days import MONTH_NAMES, Calendar
from .report import signed
from .templates import Markup, fill, joined

# Charts are so high in their own unit.
HEIGHT = 1000
# So many dates have bars with space between them.
MOST_WITH_GAPS = 62
# Where labels keep off the edges, in per cent of a large or a small chart.
NEAR_EDGE = 10
NEAR_EDGE_OF_SMALL = 35
NEAR_EDGE_OF_WEEKS = 35
# Marks as near as this, in per cent, stand above one another.
NEAR_MARK = 8
# So many ticks an axis has at most, and so many where the screen is narrow.
MOST_TICKS = 14
FEW_TICKS = 5


class Series(NamedTuple):
    """How many trains run on each date, before and after."""

    before: Sequence[int]
    after: Sequence[int]

    @property
    def differences(self) -> list[int]:
        return [after - before for before, after in zip(self.before, self.after)]


class Reach(NamedTuple):
    """How many trains more, and how many fewer, there are at most: charts with the same reach have
    the same scale of differences."""

    more: int
    fewer: int

    @property
    def scale(self) -> float:
        return HEIGHT / max(self.more + self.fewer, 1)

    @property
    def zero(self) -> int:
        """The height of the line of zero, from the top."""
        return round(self.more * self.scale) if self.more + self.fewer else HEIGHT // 2


def reach_of(all_series: Iterable[Series]) -> Reach:
    differences = [0, *(each for series in all_series for each in series.differences)]
    return Reach(max(differences), -min(differences))


# ---- paths


def runs(values: Iterable[int]) -> Iterator[tuple[int, int, int]]:
    """Equal values one after another: the first number, the one behind the last, and the value."""
    at = 0
    for value, group in groupby(values):
        end = at + len(list(group))
        yield at, end, value
        at = end


def height(value: int, most: int) -> int:
    return HEIGHT - round(HEIGHT * value / max(most, 1))


def step_line(values: Sequence[int], most: int) -> str:
    """A line of steps, with one for each date."""
    parts = [f"V{height(value, most)}H{end}" for _, end, value in runs(values)]
    return f"M0,{height(values[0], most)}{''.join(parts)}"


def area(values: Sequence[int], most: int) -> str:
    """What is below such a line."""
    return f"{step_line(values, most)}V{HEIGHT}H0Z"


def bars(differences: Sequence[int], sign: int, reach: Reach) -> str:
    """The differences of one sign, as bars from the line of zero."""
    gap = 0.2 if len(differences) <= MOST_WITH_GAPS else 0
    parts = []
    for number, difference in enumerate(differences):
        if difference * sign > 0:
            top = reach.zero - round(difference * reach.scale)
            parts.append(f"M{number + gap / 2:g},{reach.zero}V{top}h{1 - gap:g}V{reach.zero}z")
    return "".join(parts)


# ---- labels


def place_of(number: float, count: int) -> float:
    return round(100 * number / count, 2)


def label(text: str, left: float, above: bool, near_edge: int) -> Markup:
    where = "up" if above else "down"
    side = "start" if left < near_edge else "end" if left > 100 - near_edge else "middle"
    return Markup(f'<span class="label {where} {side}" style="left:{left:g}%">{text}</span>')


def nice_step(most: int) -> int:
    """A round number, of which two or three lines fit below the most."""
    step = 1
    while True:
        for factor in (1, 2, 5):
            if most < 4 * step * factor:
                return step * factor
        step *= 10


def grid(most: int, small: bool) -> Markup:
    """Lines at round numbers, each with its number; a small chart has one."""
    step = nice_step(most)
    values = range(step, most + 1, step)
    found = []
    for value in values[-1:] if small else values:
        top = round(height(value, most) / HEIGHT * 100, 2)
        found.append(f'<span class="grid" style="top:{top:g}%"><i>{value:,}</i></span>')
    return Markup("".join(found))


def tick_days(days: Sequence[date]) -> list[tuple[int, str]]:
    """Where the axis has ticks, with their texts: at Mondays, months or years."""
    mondays = [
        (number, f"{day.day} {MONTH_NAMES[day.month - 1][:3]}")
        for number, day in enumerate(days)
        if day.weekday() == 0
    ]
    months = [
        (number, MONTH_NAMES[day.month - 1][:3] + (f" {day.year}" if day.month == 1 else ""))
        for number, day in enumerate(days)
        if day.day == 1
    ]
    years = [
        (number, str(day.year)) for number, day in enumerate(days) if (day.month, day.day) == (1, 1)
    ]
    if len(days) < 7:
        return [
            (number, f"{day.day} {MONTH_NAMES[day.month - 1][:3]}")
            for number, day in enumerate(days)
        ]
    for ticks in mondays, months, years:
        if 0 < len(ticks) <= MOST_TICKS:
            return ticks
    return years[:: len(years) // MOST_TICKS + 1]


def axis(days: Sequence[date], near_edge: float) -> Markup:
    ticks = tick_days(days)
    every = -(-len(ticks) // FEW_TICKS)
    parts = []
    for at, (number, text) in enumerate(ticks):
        minor = " minor" if at % every else ""
        left = place_of(number, len(days))
        side = " end" if left > 100 - near_edge / 3 else ""
        parts.append(f'<span class="tick{minor}{side}" style="left:{left:g}%">{text}</span>')
    return Markup("".join(parts))


def marks_at(marks: Mapping[int, str], count: int) -> tuple[Markup, int]:
    """Marks at dates, by their numbers, and how many stand above one another: one near another stands
    above it."""
    parts: list[Markup] = []
    level, highest, before = 0, 0, -100.0
    for number, text in sorted(marks.items()):
        left = place_of(number + 0.5, count)
        level = level + 1 if left - before < NEAR_MARK else 0
        highest, before = max(highest, level + 1), left
        parts.append(
            Markup(f'<span class="at level-of-{level}" style="left:{left:g}%"><b>{text}</b></span>')
        )
    return joined(parts), highest


def extremes(series: Series, calendar: Calendar) -> list[tuple[int, str]]:
    """The first date with the most trains more, and the first with the most fewer, each with its
    label."""
    most, least = max(series.differences), min(series.differences)
    found: list[tuple[int, str]] = []
    for difference in (most if most > 0 else 0, least if least < 0 else 0):
        if difference:
            number = series.differences.index(difference)
            day = calendar.day(calendar.window.days[number])
            found.append((number, f"{signed(difference)} on {day}"))
    return found


def percent(before: int, after: int) -> str:
    """By how much there are more or fewer, such as `3.1%`."""
    part = 100 * abs(after - before) / before
    if part < 0.05:
        return "<0.1%"
    return f"{part:,.{1 if part < 9.95 else 0}f}%"


def share(before: int, after: int) -> str:
    """How many trains more or fewer there are, such as `3.1% fewer trains`."""
    if before == after:
        return "as many trains"
    if not before or not after:
        return "no trains any more" if before else "no trains before"
    return f"{percent(before, after)} {'more' if after > before else 'fewer'} trains"


def summary(series: Series) -> str:
    """The difference in words."""
    before, after = sum(series.before), sum(series.after)
    if before == after:
        on_dates = "every date" if not any(series.differences) else "all dates together"
        return f"as many trains on {on_dates}"
    return share(before, after)


def chart(
    code: str,
    name: str,
    series: Series,
    calendar: Calendar,
    reach: Reach,
    small: bool,
    **more: Markup,
) -> Markup:
    """A chart of the trains of an operator, or of all. Those with one reach have one scale."""
    count = len(series.before)
    most = max(*series.before, *series.after, 1)
    near_edge = NEAR_EDGE_OF_SMALL if small else NEAR_EDGE
    labels = [
        label(text, place_of(number + 0.5, count), text.startswith("+"), near_edge)
        for number, text in extremes(series, calendar)
    ]
    return fill(
        "chart",
        size="small" if small else "large",
        operator=code,
        name=name,
        summary=summary(series),
        lines=grid(most, small),
        width=count,
        before=area(series.before, most),
        after=step_line(series.after, most),
        zero=reach.zero,
        more=bars(series.differences, 1, reach),
        less=bars(series.differences, -1, reach),
        labels=joined(labels),
        ticks=axis(calendar.window.days, near_edge),
        **{"marks": Markup(), "levels": Markup(0), "weeks": Markup(), **more},
    )


def small_chart(code: str, name: str, series: Series, calendar: Calendar, reach: Reach) -> Markup:
    """One of an operator."""
    return chart(code, name, series, calendar, reach, small=True)


def large_chart(series: Series, calendar: Calendar, marks: Mapping[int, str]) -> Markup:
    """The one of all trains, with marks at dates, and the weeks below."""
    found, levels = marks_at(marks, len(series.before))
    return chart(
        "all",
        "All trains",
        series,
        calendar,
        reach_of([series]),
        small=False,
        marks=found,
        levels=Markup(levels),
        weeks=weekly(weeks_of(series, calendar.window.days), calendar),
    )


# ---- weeks


class Week(NamedTuple):
    """The trains of a week's dates together, before and after: from the first date to the last, by
    their numbers."""

    first: int
    last: int
    before: int
    after: int


def weeks_of(series: Series, days: Sequence[date]) -> list[Week]:
    """The weeks from Monday to Sunday. The first and the last may lack dates."""
    starts = [number for number, day in enumerate(days) if not number or not day.weekday()]
    ends = [*starts[1:], len(days)]
    return [
        Week(start, end - 1, sum(series.before[start:end]), sum(series.after[start:end]))
        for start, end in zip(starts, ends)
    ]


def bars_of_weeks(weeks: Sequence[Week], sign: int, reach: Reach) -> str:
    """As `bars`, each as wide as its week."""
    parts = []
    for week in weeks:
        difference = week.after - week.before
        if difference * sign > 0:
            top = reach.zero - round(difference * reach.scale)
            left, width = week.first + 0.2, week.last - week.first + 0.6
            parts.append(f"M{left:g},{reach.zero}V{top}h{width:g}V{reach.zero}z")
    return "".join(parts)


def weekly(weeks: Sequence[Week], calendar: Calendar) -> Markup:
    """The differences week by week, which weekdays don't hide. Nothing of a single week."""
    if len(weeks) < 2:
        return Markup()
    series = Series([week.before for week in weeks], [week.after for week in weeks])
    reach, days = reach_of([series]), calendar.window.days
    labels = []
    for wanted, difference in (1, max(series.differences)), (-1, min(series.differences)):
        if difference * wanted > 0:
            week = weeks[series.differences.index(difference)]
            when = calendar.period(days[week.first], days[week.last])
            sign = "+" if difference > 0 else "−"
            by = f"{sign}{percent(week.before, week.after)}" if week.before else signed(difference)
            text = f"{by}, {when}"
            left = place_of((week.first + week.last + 1) / 2, len(days))
            labels.append(label(text, left, difference > 0, NEAR_EDGE_OF_WEEKS))
    return fill(
        "weeks_of_chart",
        width=len(days),
        zero=reach.zero,
        more=bars_of_weeks(weeks, 1, reach),
        less=bars_of_weeks(weeks, -1, reach),
        labels=joined(labels),
    )
