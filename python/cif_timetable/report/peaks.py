"""The dates that stand out, because on them many more trains differ than usual."""
from __future__ import annotations

from collections.abc import Iterator, Mapping, Sequence
from typing import NamedTuple

from ..days import Dates, Window, count_of, numbers_of
from .words import CANCELLED, DATA, NUMBERS, PLACES, PLATFORMS, RUNS, TIMES

# How much a kind of change counts: it ranks the trains on the page, and the dates that stand out.
WEIGHTS = {CANCELLED: 16, RUNS: 16, PLACES: 8, TIMES: 8, PLATFORMS: 4, NUMBERS: 2, DATA: 1}
# So many are shown. Less than this part of the first one doesn't stand out beside it.
MOST_PEAKS = 3
LEAST_PART = 4
# So many trains more than usual stand out; of few changed trains, this part of them.
LEAST_TRAINS = 10
LEAST_SHARE = 10
# A window with fewer dates isn't compared weekday by weekday.
LEAST_DATES = 21
# So many dates may lie between two that belong together, which is a weekend.
MOST_BETWEEN = 2


class Peak(NamedTuple):
    """Dates that stand out, the kind of change for which they do, and on which of them it is that
    of the most trains."""

    dates: Dates
    kind: str
    highest: int


class Excess(NamedTuple):
    """How far a date stands out, by the weight of its trains, and the kind that does most."""

    weight: int
    kind: str


def usual_of(counts: Sequence[int]) -> int:
    """The least number that three quarters of these, rounded down, don't exceed."""
    return sorted(counts)[max(3 * len(counts) // 4 - 1, 0)]


def usual_counts(counts: Sequence[int], window: Window) -> list[int]:
    """What is usual on each date, by the dates of its weekday, or by all where these are few."""
    if len(counts) < 2:
        return [0] * len(counts)
    if len(counts) < LEAST_DATES:
        return [usual_of(counts)] * len(counts)
    of_weekday = [usual_of([counts[at] for at in numbers_of(day)]) for day in window.weekdays]
    return [of_weekday[day.weekday()] for day in window.days]


def least_excess(changed: int) -> int:
    """So many trains more than usual at least, where so many have changed."""
    return min(LEAST_TRAINS, -(-changed // LEAST_SHARE))


def excesses(
    of_kind: Mapping[str, Sequence[int]], window: Window, changed: int
) -> dict[int, Excess]:
    """The dates on which of some kind half as many trains again differ as usual, or more."""
    least = max(least_excess(changed), 1)
    found: dict[int, list[Excess]] = {}
    for kind, counts in of_kind.items():
        for number, (count, usual) in enumerate(zip(counts, usual_counts(counts, window))):
            more = count - usual
            if 2 * more >= usual and more >= least:
                found.setdefault(number, []).append(Excess(WEIGHTS[kind] * more, kind))
    return {
        number: Excess(sum(each.weight for each in of_date), max(of_date).kind)
        for number, of_date in found.items()
    }


def runs_of(standing_out: Mapping[int, Excess]) -> Iterator[list[int]]:
    """The dates that belong together: they follow one another, and stand out by the same kind."""
    run: list[int] = []
    for number in sorted(standing_out):
        if run and not (
            number - run[-1] <= MOST_BETWEEN + 1
            and standing_out[number].kind == standing_out[run[-1]].kind
        ):
            yield run
            run = []
        run.append(number)
    if run:
        yield run


def peaks_of(of_kind: Mapping[str, Sequence[int]], window: Window, changed: int) -> list[Peak]:
    """What stands out, the most first, where so many trains have changed. `of_kind` has for each
    kind how many trains have changes of it on each date."""
    found = excesses(of_kind, window, changed)
    if not found:
        return []
    most = max(each.weight for each in found.values())
    high = {number: each for number, each in found.items() if each.weight * LEAST_PART >= most}
    ranked = sorted(runs_of(high), key=lambda run: -max(high[number].weight for number in run))
    return [peak_of_run(run, high[run[0]].kind, of_kind) for run in ranked[:MOST_PEAKS]]


def peak_of_run(run: Sequence[int], kind: str, of_kind: Mapping[str, Sequence[int]]) -> Peak:
    counts = of_kind[kind]
    return Peak(
        sum(1 << number for number in run), kind, max(run, key=lambda number: counts[number])
    )


def belongs(dates: Dates, peak: Peak) -> bool:
    """Whether at least half of the dates of a train's change of this kind are those of the peak."""
    return bool(dates) and 2 * count_of(dates & peak.dates) >= count_of(dates)
