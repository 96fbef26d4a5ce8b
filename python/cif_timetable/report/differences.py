"""On which dates two extracts say something else, and what that means for a train or an association on
each date."""
from __future__ import annotations

import os
from collections.abc import Hashable, Iterator, Sequence
from hashlib import blake2b
from typing import IO, Generic, NamedTuple, Protocol, TypeVar

from .._tables import Table
from ..days import Dates, Window
from ..errors import Unexpected

OLD = b"<"
NEW = b">"
# Two records with the same dates, which have a row for each field that differs.
BOTH = b"<>"
SIDES = {OLD: (OLD,), NEW: (NEW,), BOTH: (OLD, NEW)}
LOCATION = b"TI"
SCHEDULE = b"BS"
# The first fields of the table of differences, which tell one record from another.
FIELDS = "change kind tiploc uid associated_uid location base_suffix associated_suffix".split()
FIELDS += "first_date last_date days_run".split()
NO_PAIR = b"\n"

# What tells an association from others: both UIDs, the location, and both suffixes.
AssociationKey = tuple[bytes, ...]


class OwnDates:
    """The dates on which each of the extracts alone says something."""

    __slots__ = ("old", "new")

    def __init__(self) -> None:
        self.old: Dates = 0
        self.new: Dates = 0

    def add(self, change: bytes, dates: Dates) -> None:
        if change != NEW:
            self.old |= dates
        if change != OLD:
            self.new |= dates


class Differences:
    """Which trains and associations differ, each with its dates, and which places."""

    def __init__(self) -> None:
        self.trains: dict[bytes, OwnDates] = {}
        self.associations: dict[AssociationKey, OwnDates] = {}
        self.tiplocs: list[bytes] = []

    def read(self, table: Table, window: Window) -> None:
        """Reads what `cif diff` writes. The rows of one pair of records follow one another."""
        if table.names[: len(FIELDS)] != FIELDS:
            raise Unexpected("cif writes another table of differences: is it another release?")
        pair = NO_PAIR
        for line in table.lines:
            if line.startswith(pair):
                continue
            change, kind, tiploc, *key, first, last, days_run, _ = line.split(b"\t", len(FIELDS))
            pair = NO_PAIR
            if change == BOTH:
                pair = b"\t".join((change, kind, tiploc, *key, first, last, days_run, b""))
            if kind == LOCATION:
                self.tiplocs.append(tiploc)
            elif kind == SCHEDULE:
                dates = window.dates(first, last, days_run)
                self.trains.setdefault(key[0], OwnDates()).add(change, dates)
            else:
                dates = window.dates(first, last, days_run)
                self.associations.setdefault(tuple(key), OwnDates()).add(change, dates)


class Place(NamedTuple):
    """Where a body stands in the file of all."""

    at: int
    length: int


class Bodies:
    """The bodies of trains, in a temporary file."""

    def __init__(self, file: IO[bytes]) -> None:
        self.file = file
        self.size = 0

    def add(self, text: bytes) -> Place:
        place = Place(self.size, len(text))
        self.file.write(text)
        self.size += len(text)
        return place

    def text(self, place: Place) -> bytes:
        self.file.flush()
        return os.pread(self.file.fileno(), place.length, place.at)


# What is said of a train or an association.
Body = TypeVar("Body", bound=Hashable)


class Said(NamedTuple, Generic[Body]):
    """A body that one of the extracts alone says, where it stands, and the dates."""

    body: Body
    place: Place
    dates: Dates


class Part(NamedTuple, Generic[Body]):
    """The bodies that each of the extracts alone says on these dates, or none."""

    old: tuple[Said[Body], ...]
    new: tuple[Said[Body], ...]
    dates: Dates


class Dated(Protocol):
    """What applies on some dates."""

    @property
    def dates(self) -> Dates:
        ...


Item = TypeVar("Item", bound=Dated)


class ByDates(Generic[Item]):
    """Items in a binary tree, of which each half has the dates of all its items. So those on some
    dates are found without a look at each of the others."""

    def __init__(self, items: Sequence[Item]) -> None:
        self.items = items
        middle = len(items) // 2
        self.halves = [ByDates(items[:middle]), ByDates(items[middle:])] if middle else []
        self.dates: Dates = items[0].dates if len(items) == 1 else 0
        for half in self.halves:
            self.dates |= half.dates

    def on_any(self, dates: Dates) -> Iterator[Item]:
        """The items with one of these dates, in their order."""
        if dates & self.dates:
            if not self.halves:
                yield self.items[0]
            for half in self.halves:
                yield from half.on_any(dates)


class Sides(Generic[Body]):
    """What each of the extracts alone says of a train or an association."""

    def __init__(self) -> None:
        self.said: dict[bytes, dict[Body, Said[Body]]] = {OLD: {}, NEW: {}}

    def add(self, side: bytes, body: Body, place: Place, dates: Dates) -> None:
        known = self.said[side].get(body)
        if known:
            place, dates = known.place, known.dates | dates
        self.said[side][body] = Said(body, place, dates)

    def by_first_date(self, side: bytes) -> ByDates[Said[Body]]:
        """The bodies of a side, by the first of their dates."""
        return ByDates(sorted(self.said[side].values(), key=lambda said: said.dates & -said.dates))

    def parts(self) -> list[Part[Body]]:
        """Each date is in one part: the one with the bodies that run on it."""
        old, new = self.by_first_date(OLD), self.by_first_date(NEW)
        found = [Part((was,), (), was.dates & ~new.dates) for was in old.items]
        found += [
            Part((was,), (now,), was.dates & now.dates)
            for was in old.items
            for now in new.on_any(was.dates)
        ]
        found += [Part((), (now,), now.dates & ~old.dates) for now in new.items]
        return [part for part in found if part.dates]


def digest_of_journey(body: bytes) -> bytes:
    """What tells the journey from others: all but the line with what is said of the train."""
    return blake2b(body[body.index(b"\n") :], digest_size=16).digest()
