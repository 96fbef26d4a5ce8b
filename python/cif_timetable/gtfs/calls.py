"""The calls of a train with associations: its public calls, and its stops where associations are.

A call is a row of `public` from the location on, as bytes, since most rows are only handed on:
location, platform, arrival, departure, set down, pick up.
"""
from __future__ import annotations

from bisect import bisect
from collections.abc import Iterable, Sequence
from functools import lru_cache
from typing import NamedTuple

from ..days import Dated, Dates
from .trains import About, Record

HOUR = 3600
DAY = 86400
NEVER = b"1"


class Spot(NamedTuple):
    """Where a train has to stop for an association: the location, its suffix, and the record of the
    call, LO or LT, or nothing where any will do."""

    location: str
    suffix: str
    record: str


class Stop(NamedTuple):
    """A row of `calls`: the call by its number in the schedule, with its working times."""

    call: str
    record: str
    location: str
    suffix: str
    platform: str
    arrival: str
    departure: str


class Times(NamedTuple):
    """When a call begins and ends, in seconds from the midnight with which the date begins."""

    arrival: int
    departure: int


@lru_cache(maxsize=None)
def seconds_of(text: bytes) -> int:
    hours, minutes, seconds = text.split(b":")
    return int(hours) * HOUR + int(minutes) * 60 + int(seconds)


def written(moment: int) -> bytes:
    return b"%02d:%02d:%02d" % (moment // HOUR, moment // 60 % 60, moment % 60)


def location_of(row: bytes) -> bytes:
    return row.partition(b"\t")[0]


def times_of(row: bytes) -> Times:
    _, _, arrival, departure, _ = row.split(b"\t", 4)
    return Times(seconds_of(arrival), seconds_of(departure))


def days_later(row: bytes, days: int) -> bytes:
    """The row of a call so many days later."""
    if not days:
        return row
    location, platform, arrival, departure, rest = row.split(b"\t", 4)
    times = (written(seconds_of(time) + days * DAY) for time in (arrival, departure))
    return b"\t".join((location, platform, *times, rest))


def arriving(row: bytes) -> bytes:
    """The last call of a part that ends here: nobody gets on."""
    location, platform, arrival, _, set_down, _ = row.split(b"\t")
    return b"\t".join((location, platform, arrival, arrival, set_down, NEVER)) + b"\n"


def leaving(row: bytes) -> bytes:
    """The first call of a part that begins here: nobody gets off."""
    location, platform, _, departure, _, pick_up = row.split(b"\t")
    return b"\t".join((location, platform, departure, departure, NEVER, pick_up))


@lru_cache(maxsize=None)
def met(arriving_row: bytes, leaving_row: bytes) -> bytes:
    """The call of a train that arrives as in one row, and leaves from there as in another."""
    location, platform, arrival, _, set_down, _ = arriving_row.split(b"\t")
    _, _, _, departure, _, pick_up = leaving_row.split(b"\t")
    return b"\t".join((location, platform, arrival, departure, set_down, pick_up))


def is_for_nobody(row: bytes) -> bool:
    return row.endswith(b"\t1\t1\n")


# ---- stops that aren't public


def rounded_up(time: str) -> int:
    """The seconds of a working time, rounded up to the minute."""
    return int(time[:2]) * HOUR + int(time[2:4]) * 60 + 60 * time.endswith("H")


def at_or_after(earliest: int, seconds: int) -> int:
    """The first moment at this time of day that isn't before the earliest."""
    return earliest + (seconds - earliest) % DAY


def at_or_before(latest: int, seconds: int) -> int:
    return latest - (latest - seconds) % DAY


def row_at(stop: Stop, before: bytes | None, after: bytes | None) -> bytes:
    """A call for a stop that isn't public, between the calls beside it, of which one may lack:
    nobody gets on or off.

    `cif` tells the days of public calls alone. So the day of this one is the one on which it is
    nearest after the call before it, or else nearest before the call after it; as in `cif`, a time
    that falls by an hour or less is no new day.
    """
    arrival = rounded_up(stop.arrival or stop.departure)
    departure = rounded_up(stop.departure or stop.arrival)
    least = 0
    if before is not None:
        least = times_of(before).departure
        arrival = at_or_after(least - HOUR, arrival)
        departure = at_or_after(arrival - HOUR, departure)
    elif after is not None:
        departure = at_or_before(times_of(after).arrival + HOUR, departure)
        arrival = at_or_before(departure + HOUR, arrival)
    arrival = max(arrival, least)
    departure = max(arrival, departure)
    if after is not None:
        latest = times_of(after).arrival
        arrival = min(arrival, latest)
        departure = min(departure, latest)
    place = (stop.location.encode(), stop.platform.encode())
    return b"\t".join((*place, written(arrival), written(departure), NEVER, NEVER)) + b"\n"


# ---- trains


class Variant:
    """A public train on the dates on which it is the same. Its calls are the public ones, and all
    stops where its associations may be, `hidden` ones of which aren't public."""

    __slots__ = tuple(
        "about dates records dated_records first_public last_public numbers rows place hidden public"
        " first last ends".split()
    )

    def __init__(
        self, about: About, numbers: Sequence[int], rows: Sequence[bytes], stops: dict[Spot, Stop]
    ) -> None:
        self.about = about
        self.dates: Dates = 0
        self.records: list[RunsAs] = []
        self.dated_records: Dated[Record] | None = None
        self.first_public = numbers[0]
        self.last_public = numbers[-1]
        self.numbers = list(numbers)
        self.rows = list(rows)
        self.insert({int(stop.call): stop for stop in stops.values()})
        places = {number: at for at, number in enumerate(self.numbers)}
        self.place = {spot: places[int(stop.call)] for spot, stop in stops.items()}
        self.hidden: set[int] = set()
        if len(self.numbers) > len(numbers):
            public = set(numbers)
            self.hidden = {at for at, number in enumerate(self.numbers) if number not in public}
        # the places of the public calls, and of the first and the last of them
        self.public = [at for at in range(len(self.rows)) if at not in self.hidden]
        self.first = places[self.first_public]
        self.last = places[self.last_public]
        self.ends = (location_of(self.rows[self.first]), location_of(self.rows[self.last]))

    def insert(self, stops: dict[int, Stop]) -> None:
        """Adds the stops that aren't public: first those after the first public call, in order, and
        then those before it, each beside one whose day is known."""
        others = sorted(stops.keys() - set(self.numbers))
        later = [number for number in others if number > self.first_public]
        earlier = [number for number in others if number < self.first_public]
        for number in later + earlier[::-1]:
            at = bisect(self.numbers, number)
            before = self.rows[at - 1] if at else None
            after = self.rows[at] if at < len(self.rows) else None
            self.numbers.insert(at, number)
            self.rows.insert(at, row_at(stops[number], before, after))

    def public_rows(self) -> list[bytes]:
        return [self.rows[at] for at in self.public]

    def records_on(self, dates: Dates) -> list[Record]:
        """The schedules that it is on some dates, once it has all."""
        if self.dated_records is None:
            self.dated_records = Dated(self.records)
        return [record for _, record in self.dated_records.on(dates)]

    def number(self, spot: Spot) -> int | None:
        """The number of the call at a spot, if the train stops there."""
        place = self.place.get(spot)
        return None if place is None else self.numbers[place]

    def times(self, spot: Spot) -> Times:
        return times_of(self.rows[self.place[spot]])


class RunsAs(NamedTuple):
    """The dates of a variant that are those of a schedule, and this as it stands."""

    dates: Dates
    record: Record


def stops_at(
    spots: Iterable[Spot], stops: Iterable[Stop], public: Iterable[int]
) -> dict[Spot, Stop]:
    """The first stop of a train at each spot, of the sort that it has to be. It stops where its call
    has a working arrival or departure, or is public."""
    public_numbers = set(public)
    real = [
        stop for stop in stops if stop.arrival or stop.departure or int(stop.call) in public_numbers
    ]
    first: dict[Spot, Stop] = {}
    for stop in real:
        for record in "", stop.record:
            first.setdefault(Spot(stop.location, stop.suffix, record), stop)
    return {spot: first[spot] for spot in spots if spot in first}
