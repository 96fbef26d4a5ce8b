"""The part of the page that says what stands out, in words."""
from __future__ import annotations

from collections import Counter
from collections.abc import Sequence
from typing import NamedTuple

from ..days import Dates, count_of
from .comparison import Train, counted_kinds
from .daily import total_of
from .days import DAY_NAMES, listed
from .peaks import WEIGHTS, Peak, usual_counts
from .report import Report, number_word, than_before
from .templates import Markup, fill, lines
from .trains import KIND_NAMES, change_text
from .words import CANCELLED, DATA, GONE_FOR_GOOD, KINDS, NUMBERS, PLACES, PLATFORMS, RUNS, TIMES

# So many operators and so many journeys are listed of what stands out, and so many other changes.
MOST_OPERATORS = 3
MOST_JOURNEYS = 6
MOST_CHANGES = 5

# What one train does, and what several do.
VERBS = {
    RUNS: ("runs that didn’t before", "run that didn’t before"),
    CANCELLED: ("is cancelled", "are cancelled"),
    TIMES: ("has other times", "have other times"),
    PLACES: ("has other calls or places", "have other calls or places"),
    PLATFORMS: ("has other platforms", "have other platforms"),
    NUMBERS: ("is renumbered", "are renumbered"),
    DATA: ("has other data", "have other data"),
}


# ---- the trains of some dates


def by_kind(trains: Sequence[Train], dates: Dates) -> dict[str, list[Train]]:
    """The trains that differ on some of these dates, by the kinds of their changes there."""
    found: dict[str, list[Train]] = {kind: [] for kind in KINDS}
    for train in trains:
        for kind, of_kind in counted_kinds(train).items():
            if of_kind & dates:
                found[kind].append(train)
    return {kind: of_kind for kind, of_kind in found.items() if of_kind}


def operators_of(report: Report, trains: Sequence[Train]) -> list[tuple[str, int]]:
    """The operators, each with its number of trains, those with the most first. One without an operator
    has no name."""
    counts = Counter(train.face.operator for train in trains)
    by_count = sorted(counts.items(), key=lambda item: (-item[1], item[0]))
    return [(report.names.operator(code) if code else "", count) for code, count in by_count]


def operators_listed(report: Report, trains: Sequence[Train]) -> str:
    """Such as `Southern 236, ScotRail 8 and 2 others`."""
    found = operators_of(report, trains)
    words = [f"{name or 'no operator'} {count:,}" for name, count in found[:MOST_OPERATORS]]
    if len(found) > MOST_OPERATORS:
        words.append(number_word(len(found) - MOST_OPERATORS, "other"))
    return listed(words)


def journey_rows(report: Report, trains: Sequence[Train]) -> Markup:
    """From where to where the trains go, the most first."""
    journeys: dict[tuple[str, str], list[str]] = {}
    for train in trains:
        ends = report.names.place(train.face.origin), report.names.place(train.face.destination)
        journeys.setdefault(ends, []).append(train.face.departure)
    found = sorted(journeys.items(), key=lambda item: (-len(item[1]), item[0]))
    rows = [
        fill(
            "journey",
            origin=origin,
            destination=destination,
            count=f"{len(leave):,}",
            times=min(leave) if len(leave) == 1 else f"{min(leave)} to {max(leave)}",
        )
        for (origin, destination), leave in found[:MOST_JOURNEYS]
    ]
    others = found[MOST_JOURNEYS:]
    if others:
        count = sum(len(leave) for _, leave in others)
        text = f"{number_word(len(others), 'other journey')}"
        rows.append(fill("other_journeys", text=text, count=f"{count:,}"))
    return lines(rows)


# ---- what stands out


def sentence(report: Report, peak: Peak) -> str:
    """Such as `On Sat 13 June 264 trains are cancelled, 236 of them run by Southern.`, or `On Fri 12
    June 12 Southern trains are cancelled.`"""
    trains = by_kind(report.comparison.trains, peak.dates)[peak.kind]
    when = report.calendar.words(peak.dates)
    operator, of_one = operators_of(report, trains)[0]
    whose = f"{operator} " if operator and of_one == len(trains) else ""
    verb = VERBS[peak.kind][len(trains) != 1]
    text = f"{when[:1].upper()}{when[1:]} {number_word(len(trains), f'{whose}train')} {verb}"
    if operator and len(trains) < 2 * of_one < 2 * len(trains):
        text += f", {of_one:,} of them run by {operator}"
    return f"{text}."


def in_numbers(report: Report, peak: Peak) -> str:
    """How many trains run on a date, or on which of several dates the most differ."""
    day = report.comparison.window.days[peak.highest]
    if count_of(peak.dates) > 1:
        most = report.numbers.of_kind_on_date[peak.kind][peak.highest]
        return f"The most on one date are {most:,}, on {report.calendar.day(day)}."
    total = total_of(report)
    before, after = total.before[peak.highest], total.after[peak.highest]
    runs = "train runs" if after == 1 else "trains run"
    return f"In all {after:,} {runs} on that date, {than_before(before, after)}."


def kind_row(report: Report, peak: Peak, kind: str, trains: Sequence[Train]) -> Markup:
    usual = ""
    if count_of(peak.dates) == 1:
        counts = report.numbers.of_kind_on_date[kind]
        usual = f"{usual_counts(counts, report.comparison.window)[peak.highest]:,}"
    return fill(
        "kind_on_dates",
        kind=kind,
        name=KIND_NAMES[kind],
        count=f"{len(trains):,}",
        usual=fill("usual", usual=usual) if usual else "",
        operators=operators_listed(report, trains),
    )


def usual_heading(report: Report, peak: Peak) -> Markup:
    """The head of the column of what is usual: on three quarters of the dates there aren't more."""
    if count_of(peak.dates) > 1:
        return Markup()
    weekday = DAY_NAMES[report.comparison.window.days[peak.highest].weekday()]
    return fill("usual_heading", text=f"Usual {weekday}")


def peak_part(report: Report, number: int, peak: Peak) -> Markup:
    found = by_kind(report.comparison.trains, peak.dates)
    days = report.comparison.window.days
    most = sorted(found, key=lambda kind: (kind != peak.kind, -len(found[kind])))
    return fill(
        "peak",
        number=number,
        kind=peak.kind,
        date=days[peak.highest].isoformat(),
        sentence=sentence(report, peak),
        numbers=in_numbers(report, peak),
        usual=usual_heading(report, peak),
        rows=lines(kind_row(report, peak, kind, found[kind]) for kind in most),
        journeys_of=KIND_NAMES[peak.kind],
        journeys=journey_rows(report, found[peak.kind]),
        day=report.calendar.day(days[peak.highest]),
    )


class Large(NamedTuple):
    """A change in words, the trains that have it on whatever dates, and the dates of each."""

    text: str
    dates: list[Dates]
    rank: int


def largest_changes(report: Report) -> list[Large]:
    """The changes in words, those of the most train and dates first, where there are more groups of
    trains than can be seen at once."""
    if len(report.groups) <= MOST_CHANGES:
        return []
    dates: dict[str, list[Dates]] = {}
    weights: dict[str, int] = {}
    for train in report.comparison.trains:
        for change in train.changes:
            text = change_text(change)
            dates.setdefault(text, []).append(change.dates)
            weights[text] = max(WEIGHTS[phrase.kind] for phrase in change.phrases)
    found = [
        Large(text, of_text, weights[text] * sum(map(count_of, of_text)))
        for text, of_text in dates.items()
    ]
    return sorted(found, key=lambda large: -large.rank)[:MOST_CHANGES]


def when_of(report: Report, large: Large) -> str:
    when = dates_of(report, large)
    if large.text.lower() == GONE_FOR_GOOD:
        return f"({'it' if len(large.dates) == 1 else 'they'} ran {when})"
    return when


def dates_of(report: Report, large: Large) -> str:
    """The dates of all trains, if they are the same, or from when to when they are."""
    if len(set(large.dates)) == 1:
        return report.calendar.words(large.dates[0])
    all_dates = 0
    for dates in large.dates:
        all_dates |= dates
    days = report.comparison.window.days
    first = days[(all_dates & -all_dates).bit_length() - 1]
    return f"on dates from {report.calendar.period(first, days[all_dates.bit_length() - 1])}"


def largest_part(report: Report) -> Markup:
    """Which changes are the largest."""
    rows = [
        fill(
            "largest",
            count=number_word(len(large.dates), "train"),
            what=large.text,
            when=when_of(report, large),
        )
        for large in largest_changes(report)
    ]
    return fill("largest_changes", rows=lines(rows)) if rows else Markup()


def first_sentence(report: Report) -> str:
    """What stands out most, or else the largest change."""
    if report.peaks:
        return sentence(report, report.peaks[0])
    large = next(iter(largest_changes(report)), None)
    if large is None:
        return ""
    return f"The largest change is “{large.text}”, of {number_word(len(large.dates), 'train')}."


def highlights_section(report: Report) -> Markup:
    """What stands out, and what changes most."""
    parts = [peak_part(report, at, peak) for at, peak in enumerate(report.peaks, start=1)]
    largest = largest_part(report)
    if not parts and not largest:
        return Markup()
    return fill("highlights", peaks=lines(parts), largest=largest)
