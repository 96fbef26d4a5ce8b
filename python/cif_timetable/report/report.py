"""What the parts of the page are made of."""
from __future__ import annotations

from dataclasses import dataclass
from functools import cached_property

from .comparison import Comparison, Numbers, Train
from .days import Calendar
from .differences import Bodies
from .groups import all_groups
from .pair import Pair
from .peaks import Peak, peaks_of
from .words import Names


@dataclass(frozen=True)
class Report:
    """Two extracts, their changes, and the names of places and operators."""

    pair: Pair
    comparison: Comparison
    numbers: Numbers
    calendar: Calendar
    names: Names
    bodies: Bodies
    csv_name: str

    @cached_property
    def peaks(self) -> list[Peak]:
        """The dates that stand out."""
        found = self.comparison
        return peaks_of(self.numbers.of_kind_on_date, found.window, len(found.trains))

    @cached_property
    def groups(self) -> list[list[Train]]:
        """The trains with the same changes, those that have changed most first."""
        return all_groups(self.comparison.trains)


def number_word(count: int, one: str, more: str = "") -> str:
    """Such as `1 train`, or `1,200 trains`."""
    return f"{count:,} {one if count == 1 else more or one + 's'}"


def than_before(before: int, after: int) -> str:
    """Such as `259 fewer than before`."""
    if before == after:
        return "as many as before"
    return f"{abs(after - before):,} {'more' if after > before else 'fewer'} than before"


def signed(number: int) -> str:
    """Such as `+3`, or `−3`."""
    return f"+{number:,}" if number > 0 else f"{number:,}".replace("-", "−")


def day_counts(trains_per_day: dict[str, list[int]], count: int) -> list[int]:
    """The trains of all operators on each date."""
    return [sum(counts) for counts in zip([0] * count, *trains_per_day.values())]
