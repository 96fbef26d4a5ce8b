"""The parts of the page that go by date: trains a day, and a calendar of the changes."""
from __future__ import annotations

from collections.abc import Iterator, Sequence
from datetime import date, timedelta

from .charts import Series, large_chart, reach_of, share, small_chart, weeks_of
from .days import MONTH_NAMES
from .report import Report, day_counts, number_word, signed
from .templates import Markup, fill, joined, lines

# The charts of operators have at most so many bytes.
MOST_BYTES = 1_000_000
# The table behind the charts has so many dates, and the calendar so many months.
MOST_DATES = 4000
MOST_MONTHS = 36
LEVELS = 4
NO_CELL = Markup("<td></td>")


# ---- trains a day


def series_of(report: Report) -> dict[str, Series]:
    """Those of each operator that has trains."""
    none = [0] * len(report.comparison.window.days)
    old, new = report.comparison.old.trains_per_day, report.comparison.new.trains_per_day
    return {code: Series(old.get(code, none), new.get(code, none)) for code in sorted({*old, *new})}


def total_of(report: Report) -> Series:
    count = len(report.comparison.window.days)
    found = report.comparison
    return Series(
        day_counts(found.old.trains_per_day, count), day_counts(found.new.trains_per_day, count)
    )


def amount_of(series: Series) -> int:
    return sum(abs(difference) for difference in series.differences)


def operator_charts(report: Report) -> Markup:
    """A small chart of each operator whose numbers differ, and the names of the others."""
    all_series = series_of(report)
    if len(all_series) < 2:
        return Markup()
    shown: list[Markup] = []
    same: list[str] = []
    left_out: list[str] = []
    size = 0
    amounts = {code: amount_of(series) for code, series in all_series.items()}
    reach = reach_of(all_series.values())
    for code in sorted(all_series, key=lambda code: -amounts[code]):
        name = report.names.operator(code)
        if not amounts[code]:
            same.append(name)
            continue
        made = small_chart(code, name, all_series[code], report.calendar, reach)
        size += len(made)
        if size > MOST_BYTES:
            left_out.append(name)
        else:
            shown.append(made)
    notes = ["The differences of all operators have the same scale."] if len(shown) > 1 else []
    if left_out:
        notes.append(f"Without a chart here: {', '.join(left_out)}.")
    if same:
        notes.append(f"As many trains on every date: {', '.join(sorted(same))}.")
    return fill("operators", charts=lines(shown), others=" ".join(notes))


def number_row(report: Report, number: int, total: Series) -> Markup:
    day = report.comparison.window.days[number]
    difference = total.after[number] - total.before[number]
    return fill(
        "number",
        day=report.calendar.day(day),
        date=day.isoformat(),
        before=f"{total.before[number]:,}",
        after=f"{total.after[number]:,}",
        difference=signed(difference) if difference else "0",
        trains=f"{report.numbers.of_date[number]:,}",
    )


def week_rows(report: Report, total: Series) -> Markup:
    days = report.comparison.window.days
    return lines(
        fill(
            "week",
            week=report.calendar.period(days[week.first], days[week.last]),
            before=f"{week.before:,}",
            after=f"{week.after:,}",
            share=share(week.before, week.after),
        )
        for week in weeks_of(total, days[:MOST_DATES])
    )


def chart_section(report: Report) -> Markup:
    """The chart of all trains, on which what stands out is marked."""
    marks = {peak.highest: str(at) for at, peak in enumerate(report.peaks, start=1)}
    note = "How many trains run before and after, and below the difference by date and by week."
    if marks:
        note += " Numbers mark what stands out."
    return fill("days", note=note, whole=large_chart(total_of(report), report.calendar, marks))


def operators_section(report: Report) -> Markup:
    """The charts of operators, and the numbers behind all charts."""
    total, count = total_of(report), len(report.comparison.window.days)
    rows = [number_row(report, number, total) for number in range(min(count, MOST_DATES))]
    note = f"The tables have the first {MOST_DATES:,} dates." if count > MOST_DATES else ""
    return fill(
        "numbers",
        operators=operator_charts(report),
        note=note,
        rows=lines(rows),
        weeks=week_rows(report, total),
    )


# ---- the calendar


def level_of(count: int, most: int) -> int:
    """From 1 for few trains to LEVELS for the most."""
    return -(-count * LEVELS // most)


def months_of(days: Sequence[date]) -> Iterator[tuple[int, int]]:
    yield from dict.fromkeys((day.year, day.month) for day in days)


def cell_of(report: Report, day: date, most: int) -> Markup:
    """The cell of a date, where so many trains differ at most on one."""
    number = report.comparison.window.numbers.get(day.isoformat().encode())
    if number is None:
        return NO_CELL
    count = report.numbers.of_date[number]
    if not count:
        return fill("quiet_date", day=day.day)
    return fill(
        "date",
        level=level_of(count, most),
        day=day.day,
        date=day.isoformat(),
        count=f"{count:,}",
        words=f"{report.calendar.day(day)}: {number_word(count, 'train')}",
    )


def month_of(report: Report, year: int, month: int, most: int) -> Markup:
    first = date(year, month, 1)
    day = first - timedelta(days=first.weekday())
    weeks = []
    while (day.year, day.month) <= (year, month):
        week = [day + timedelta(days=number) for number in range(7)]
        cells = [cell_of(report, each, most) if each.month == month else NO_CELL for each in week]
        if any(cell != NO_CELL for cell in cells):
            weeks.append(Markup(f"<tr>{joined(cells)}</tr>"))
        day += timedelta(days=7)
    return fill(
        "month",
        weekdays=fill("weekdays"),
        name=f"{MONTH_NAMES[month - 1]} {year}",
        weeks=lines(weeks),
    )


def calendar_section(report: Report) -> Markup:
    """The months with dates on which trains differ."""
    days = report.comparison.window.days
    differing = [day for day, count in zip(days, report.numbers.of_date) if count]
    if not differing:
        return Markup()
    months = list(months_of(days if len(days) <= 31 * 12 else differing))
    most = max(report.numbers.of_date)
    dates = sum(1 << number for number, count in enumerate(report.numbers.of_date) if count == most)
    when = report.calendar.words(dates)
    note = f"How many trains differ on each date: at most {most:,}, {when}."
    if len(days) > 31 * 12:
        note += " Months without a difference are left out."
    if len(months) > MOST_MONTHS:
        note += f" These are the first {MOST_MONTHS} months."
    made = [month_of(report, year, month, most) for year, month in months[:MOST_MONTHS]]
    return fill("calendar", note=note, months=lines(made))
