"""The head of the page: which files, and the numbers of changes."""
from __future__ import annotations

import os
from datetime import date, datetime

from .days import MONTH_NAMES
from .highlights import first_sentence
from .pair import Side
from .report import Report, number_word, than_before
from .schedules import Schedules
from .templates import Markup, fill, joined, lines
from .words import CANCELLED, DATA, NUMBERS, PLACES, PLATFORMS, RUNS, TIMES


def period(report: Report, first: date, last: date) -> str:
    """Such as `17 May to 13 June 2026`."""
    calendar = report.calendar
    if first == last:
        return calendar.day_month(first, with_year=True)
    if first.year != last.year:
        return f"{calendar.day_month(first, True)} to {calendar.day_month(last, True)}"
    start = str(first.day)
    if first.month != last.month:
        start = f"{first.day} {MONTH_NAMES[first.month - 1]}"
    return f"{start} to {calendar.day_month(last, with_year=True)}"


def compared(report: Report) -> str:
    days = report.comparison.window.days
    return period(report, days[0], days[-1])


def title_of(report: Report) -> str:
    return f"Timetable changes, {compared(report)}"


def is_same(report: Report) -> bool:
    found = report.comparison
    return not (found.trains or found.associations or found.locations)


def lead(report: Report) -> str:
    """What has changed, in a few sentences. The first says what stands out most."""
    found = report.comparison
    count = len(found.window.days)
    dates = f"the {count:,} dates compared" if count > 1 else "the one date compared"
    if is_same(report):
        return f"The timetables are the same: nothing differs on {dates}."
    if not found.trains:
        return f"No train differs on {dates}, but other things do."
    differing = sum(1 for trains in report.numbers.of_date if trains)
    verb = "is" if len(found.trains) == 1 else "are"
    trains = number_word(len(found.trains), "train")
    first = first_sentence(report)
    on = f"on {differing:,} of {dates}"
    if differing == count:
        on = f"on all {count:,} dates compared" if count > 1 else f"on {dates}"
    all_trains = in_all(found.old.trains, found.new.trains)
    return f"{first} {trains} {verb} different, {on}. {all_trains}".lstrip()


def in_all(before: int, after: int) -> str:
    """How many trains there are."""
    verb = "is" if after == 1 else "are"
    return f"There {verb} {number_word(after, 'train')} in all, {than_before(before, after)}."


def warning(report: Report) -> Markup:
    """Says so if the second file is the older one."""
    before, after = (side.header.extracted_at for side in (report.pair.old, report.pair.new))
    if before and after and after < before:
        text = "The second file was extracted before the first one, so the changes are those back to it."
        return fill("warning", text=text)
    return Markup()


# ---- the files


def moment(at: datetime) -> str:
    return f"{at.day} {MONTH_NAMES[at.month - 1]} {at.year}, {at:%H:%M}"


def file_row(report: Report, name: str, side: Side, schedules: Schedules) -> Markup:
    header = side.header
    return fill(
        "file",
        side=name,
        name="standard input" if side.name == "-" else os.path.basename(shown_name(side.name)),
        extracted=moment(header.extracted_at) if header.extracted_at else "no date",
        reference=(header.current_reference or "").strip() or "none",
        window=period(report, header.first_date, header.last_date),
        trains=f"{schedules.trains:,}",
    )


def shown_name(name: str) -> str:
    """The name of a file, with a sign for each byte that is no text."""
    return os.fsencode(name).decode(errors="replace")


def files(report: Report) -> Markup:
    found = report.comparison
    return lines(
        (
            file_row(report, "Before", report.pair.old, found.old),
            file_row(report, "After", report.pair.new, found.new),
        )
    )


# ---- the numbers


def figures(report: Report) -> Markup:
    numbers = report.numbers
    new = f", {numbers.new:,} of them new" if numbers.new else ""
    gone = f", {numbers.gone:,} of them for good" if numbers.gone else ""
    of_trains = [
        (RUNS, f"on dates when they didn’t run{new}"),
        (CANCELLED, f"cancelled on some dates{gone}"),
        (TIMES, "with other times"),
        (PLACES, "with other calls or places"),
        (PLATFORMS, "with other platforms"),
        (NUMBERS, "renumbered"),
        (DATA, "with other data alone"),
    ]
    rows = [(kind, numbers.of_kind[kind], label) for kind, label in of_trains]
    others: list[tuple[str, int, str]] = [
        (
            "associations",
            len(report.comparison.associations),
            "changes where trains divide or join",
        ),
        ("tiplocs", len(report.comparison.locations), "changes of places"),
    ]
    return fill("figures", trains=joined(map(figure, rows)), others=joined(map(figure, others)))


def figure(row: tuple[str, int, str]) -> Markup:
    kind, number, label = row
    state = "some" if number else "none"
    return fill("figure", kind=kind, label=label, number=f"{number:,}", state=state)
