"""Which trains riders reach in their seats: a portion that leaves their train, the train that theirs
joins, or the one as which it goes on."""
from __future__ import annotations

from collections import defaultdict
from collections.abc import Iterable, Iterator, Mapping
from operator import itemgetter
from typing import NamedTuple

from ..days import Dated, Dates, Window, moved
from ..model import Association
from .schema import Row

# The types of associations that riders are told of.
FOR_PASSENGERS = (None, "P")
# How many days after the base train the associated one runs, by the date indicator.
DAYS_LATER = {"S": 0, "N": 1, "P": -1}
INDICATORS = {later: indicator for indicator, later in DAYS_LATER.items()}
DIVIDES, JOINS, GOES_ON = "VV", "JJ", "NP"
CATEGORIES = (DIVIDES, JOINS, GOES_ON)

COLUMNS = (
    "association schedule journey before_call portion_schedule portion_journey after_call"
    " first_date last_date days_run date_indicator".split()
)

# A location and its suffix.
Location = tuple[str, str]


class Train(NamedTuple):
    """A schedule. `stops` has the numbers of its calls that aren't passes, at the places where it is
    the base train of an association, and `last_call` that of its last one."""

    schedule: int
    journey: int
    passenger: bool
    origin: str
    destination: str
    stops: Mapping[Location, int]
    last_call: int


class Part(NamedTuple):
    """Before which call riders board, or after which they get off."""

    train: Train
    call: int


class Portions:
    """Collects the trains of associations, and gives the rows of the table `portions`."""

    STOP = ("call", "location", "suffix", "arrival", "departure")

    def __init__(
        self, window: Window, associations: Iterable[Association], calls: list[str]
    ) -> None:
        """`calls` are the fields of a call, from its number on."""
        self.window = window
        self.associations = [
            (number, association)
            for number, association in enumerate(associations, 1)
            if association.association_type in FOR_PASSENGERS
            and association.category in CATEGORIES
            and (association.date_indicator or "S") in DAYS_LATER
        ]
        self.places: dict[str, set[Location]] = defaultdict(set)
        for _, association in self.associations:
            place = (association.location, association.base_suffix or "")
            self.places[association.base_uid].add(place)
            self.places.setdefault(association.associated_uid, set())
        self.trains: dict[str, list[tuple[Dates, Train]]] = defaultdict(list)
        self.stop = itemgetter(*(calls.index(name) for name in self.STOP))

    def add(self, schedule: list[str], journey: int, passenger: bool, calls: bytes) -> None:
        """Adds a schedule, if an association has its UID."""
        number, uid, first, last, days_run = schedule[:5]
        places = self.places.get(uid)
        if places is None:
            return
        rows = [self.stop(line.split("\t")) for line in calls.decode().splitlines()]
        stops: dict[Location, int] = {}
        for call, location, suffix, arrival, departure in rows:
            if (location, suffix) in places and (arrival or departure):
                stops.setdefault((location, suffix), int(call))
        ends = rows[0][1], rows[-1][1]
        train = Train(int(number), journey, passenger, *ends, stops, len(rows))
        dates = self.window.dates(first.encode(), last.encode(), days_run.encode())
        self.trains[uid].append((dates, train))

    def rows(self) -> Iterator[Row]:
        """A row for each two schedules that an association has on the same date."""
        trains = {uid: Dated(of_uid) for uid, of_uid in self.trains.items()}
        none: Dated[Train] = Dated([])
        for number, association in self.associations:
            later = DAYS_LATER[association.date_indicator or "S"]
            ends = (association.first_date.isoformat(), association.last_date.isoformat())
            words = (word.encode() for word in (*ends, association.days_run))
            others = trains.get(association.associated_uid, none)
            for held, base in trains.get(association.base_uid, none).on(self.window.dates(*words)):
                for dates, other in others.on(moved(held, later)):
                    parts = parts_of(association, base, other)
                    if parts and association.category == JOINS:
                        yield self.row(number, *parts, dates, -later)
                    elif parts:
                        yield self.row(number, *parts, moved(dates, -later), later)

    def row(self, association: int, boarded: Part, reached: Part, dates: Dates, later: int) -> Row:
        """`dates` are those of the train that is boarded; the other one runs so many days later."""
        days = self.window.days
        ends = days[(dates & -dates).bit_length() - 1], days[dates.bit_length() - 1]
        days_run = "".join("1" if dates & each else "0" for each in self.window.weekdays)
        trains = (
            cell
            for train, call in (boarded, reached)
            for cell in (train.schedule, train.journey, call)
        )
        return (association, *trains, *ends, days_run, INDICATORS[later])


def parts_of(association: Association, base: Train, other: Train) -> tuple[Part, Part] | None:
    """The part that riders board, and the one that they reach, if they needn't change."""
    place = association.location
    call = base.stops.get((place, association.base_suffix or ""))
    if not place or call is None:
        return None
    if association.category == JOINS:
        joins = other.passenger and other.destination == place
        return (Part(other, other.last_call), Part(base, call)) if joins else None
    leaves = association.category == DIVIDES or base.destination == place
    if base.passenger and leaves and other.origin == place:
        return Part(base, call), Part(other, 1)
    return None
