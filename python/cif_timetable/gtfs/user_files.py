"""The files of the user that are about changing trains."""
from __future__ import annotations

from collections.abc import Iterable
from datetime import date
from typing import NamedTuple

from ..user_csv import Field, Layout, crs_code, iso_date, minutes, time_of_day, weekdays

EVERY_DAY = "1111111"
# A link that is there from the one to the other, each day, is there for most.
DAY_BEGINS = "0700"
DAY_ENDS = "2200"


class InterchangeRow(NamedTuple):
    """The minimum time of change at a station."""

    crs: str
    minutes: int


class LinkRow(NamedTuple):
    """A link from one station to another, and when it is there, if that isn't always."""

    origin: str
    destination: str
    minutes: int
    first_date: date | None = None
    last_date: date | None = None
    days_run: str | None = None
    first_time: str | None = None
    last_time: str | None = None

    def is_in(self, first: date, last: date) -> bool:
        """Whether it is there on a date from the first to the last."""
        return (self.first_date or first) <= last and (self.last_date or last) >= first

    def holds(self, first: date, last: date) -> bool:
        """Whether it is there all day on each of these dates."""
        return (
            (self.first_date or first) <= first
            and (self.last_date or last) >= last
            and (self.days_run or EVERY_DAY) == EVERY_DAY
            and (self.first_time or DAY_BEGINS) <= DAY_BEGINS
            and (self.last_time or DAY_ENDS) >= DAY_ENDS
        )


def minutes_of(links: Iterable[LinkRow], first: date, last: date) -> int:
    """The minutes of links from one station to another on these dates: of those that hold the
    shortest, or else the longest."""
    all_minutes = [link.minutes for link in links]
    held = [link.minutes for link in links if link.holds(first, last)]
    return min(held) if held else max(all_minutes)


def new_link(**values: object) -> LinkRow:
    """A link of the fields of its file, of which one has a name that is a word of Python."""
    names = {"from": "origin", "to": "destination"}
    return LinkRow(**{names.get(name, name): value for name, value in values.items()})  # type: ignore[arg-type]


INTERCHANGE = Layout(
    InterchangeRow,
    (Field("crs", crs_code, needed=True), Field("minutes", minutes, needed=True)),
    ("crs",),
)
WHEN = (
    Field("first_date", iso_date, optional=True),
    Field("last_date", iso_date, optional=True),
    Field("days_run", weekdays, optional=True),
    Field("first_time", time_of_day, optional=True),
    Field("last_time", time_of_day, optional=True),
)
LINKS = Layout(
    new_link,
    (
        Field("from", crs_code, needed=True),
        Field("to", crs_code, needed=True),
        Field("minutes", minutes, needed=True),
        *WHEN,
    ),
    ("from", "to", *(field.name for field in WHEN)),
    apart=("from", "to"),
)
