"""The public trains of an extract: schedules with two public calls or more where they are for riders."""
from __future__ import annotations

from collections.abc import Iterable, Iterator, Mapping
from enum import Enum
from operator import itemgetter
from types import MappingProxyType
from typing import NamedTuple

from .._schedules import calls_by_schedule
from .._tables import Table
from ..days import Dates, Window, count_of
from ..errors import Unexpected
from ..riders import Sort, is_ever, is_for_riders, sort_of


class Kind(Enum):
    """The kinds of train."""

    RAIL = "rail"
    SLEEPER = "sleeper"
    METRO = "metro"
    BUS = "bus"
    REPLACEMENT = "replacement"
    SHIP = "ship"


# The route types of GTFS.
TYPES: dict[Kind, int] = {
    Kind.RAIL: 2,
    Kind.SLEEPER: 2,
    Kind.METRO: 1,
    Kind.BUS: 3,
    Kind.REPLACEMENT: 3,
    Kind.SHIP: 4,
}
EXTENDED_TYPES: dict[Kind, int] = {**TYPES, Kind.SLEEPER: 105, Kind.REPLACEMENT: 714}


class Fields(NamedTuple):
    """The fields of a schedule that say what its train is."""

    status: str
    category: str
    sleepers: str
    reservations: str


# What a trip shows of its train besides the calls, as ids are made of it: the identity, the operator,
# the route type, and BIKES if it takes them, with tabs between them and a line feed after them.
About = bytes
# What stands at the end of a train that takes bicycles, for which reservations are essential.
BIKES = b"\tE\n"


def kind_of(sort: Fields) -> Kind:
    """The kind of a train. From memory, as CIF has them: category BR is a bus that replaces trains,
    BS another bus, SS a ship, OL an underground or metro train, XZ a sleeper; status B or 5 is a
    bus, S or 4 a ship; a train with sleeping cars says which."""
    if sort.category == "BR":
        return Kind.REPLACEMENT
    if sort.category == "BS" or sort.status in ("B", "5"):
        return Kind.BUS
    if sort.category == "SS" or sort.status in ("S", "4"):
        return Kind.SHIP
    if sort.category == "OL":
        return Kind.METRO
    sleeps = sort.category == "XZ" or sort.sleepers in ("B", "F", "S")
    return Kind.SLEEPER if sleeps else Kind.RAIL


# First and last date, days run, and the retail service id of a schedule, as they stand.
Record = tuple[bytes, bytes, bytes, bytes]
# A schedule for riders with two public calls or more: when it runs, what its train is, its record, its
# number, and its rows of `public`.
PublicTrain = tuple[Dates, About, Record, bytes, bytes]

# The first fields of `schedules`, and of the others those that are read here.
FIRST = "schedule uid first_date last_date days_run".split()
SHOWN = "reserved_a identity operator_code".split()
SORT = Fields._fields
CHANGED = ("schedule", "call", "category")
NO_CALLS = (b"", b"")
NEVER = b"1"
FOR_NOBODY = b"\t1\t1\n"


# The category that a schedule gets from a call with this number on.
Change = tuple[int, str]


def read_changes(table: Table) -> dict[bytes, tuple[Change, ...]]:
    """The categories that schedules get en route, by their numbers."""
    cells_at, last = table.cells_at(CHANGED), max(map(table.names.index, CHANGED)) + 1
    found: dict[bytes, tuple[Change, ...]] = {}
    # most changes are equal to others
    known: dict[tuple[bytes, bytes], tuple[Change, ...]] = {}
    for line in table.lines:
        schedule, *change = cells_at(line.rstrip(b"\n").split(b"\t", last))
        key = (change[0], change[1])
        one = known.get(key)
        if one is None:
            one = known[key] = ((int(key[0]), key[1].decode()),)
        before = found.get(schedule)
        found[schedule] = before + one if before else one
    return found


def calls_for_riders(text: bytes, sort: Sort) -> bytes:
    """The rows of `public` of a schedule where it is for riders, of which nobody gets off where it
    becomes so, and nobody gets on where it becomes something else."""
    rows = []
    arrives, *changes = sort
    for_riders = arrives.is_for_riders
    changes.reverse()
    for line in text.splitlines(keepends=True):
        before = for_riders
        if changes:
            call = int(line.split(b"\t", 2)[1])
            while changes and changes[-1].number < call:
                before = for_riders = changes.pop().is_for_riders
            while changes and changes[-1].number == call:
                for_riders = changes.pop().is_for_riders
        if before != for_riders:
            *others, set_down, pick_up = line.rstrip(b"\n").split(b"\t")
            flags = (set_down if before else NEVER, pick_up if for_riders else NEVER)
            line = b"\t".join((*others, *flags)) + b"\n"
        if (before or for_riders) and not line.endswith(FOR_NOBODY):
            rows.append(line)
    return b"".join(rows)


class Changing(NamedTuple):
    """Where a train that changes its category is for riders, and the end of what is shown of it, or
    None if it never is."""

    sort: Sort
    ending: bytes | None


class ScheduleReader:
    """Reads rows of `schedules`. Those of some of these change their category en route."""

    def __init__(
        self,
        names: list[str],
        window: Window,
        types: Mapping[Kind, int],
        changes: Mapping[bytes, tuple[Change, ...]] = MappingProxyType({}),
    ) -> None:
        if names[: len(FIRST)] != FIRST:
            raise Unexpected("cif writes another table of schedules: is it another release?")
        others = names[len(FIRST) :]
        self.shown_at = itemgetter(*map(others.index, SHOWN))
        self.sort_at = itemgetter(*map(others.index, SORT))
        self.window = window
        self.types = types
        self.changes = changes
        # on how many dates a train isn't for riders
        self.not_for_riders = 0
        # the end of what is shown of each sort, or None if it isn't for riders
        self.known: dict[tuple[bytes, ...], bytes | None] = {}
        self.known_changing: dict[tuple[tuple[bytes, ...], tuple[Change, ...]], Changing] = {}

    def ending(self, fields: Fields) -> bytes | None:
        """The route type and whether it takes bicycles, or None if it isn't for riders."""
        if not is_for_riders(fields.status, fields.category):
            return None
        end = BIKES if fields.reservations == "E" else b"\n"
        return b"%d" % self.types[kind_of(fields)] + end

    def ending_of(self, cells: tuple[bytes, ...]) -> bytes | None:
        """The same of these fields as they stand. Those of most schedules are alike."""
        if cells not in self.known:
            self.known[cells] = self.ending(Fields(*(cell.decode() for cell in cells)))
        return self.known[cells]

    def read_others(self, text: bytes) -> tuple[bytes, About | None]:
        """The retail service id, and what the train is, of the fields after the first ones."""
        cells = text.rstrip(b"\n").split(b"\t")
        retail, identity, operator = self.shown_at(cells)
        ending = self.ending_of(self.sort_at(cells))
        if ending is None:
            return retail, None
        return retail, b"\t".join((identity, operator, ending))

    def changing(self, cells: tuple[bytes, ...], changes: tuple[Change, ...]) -> Changing:
        """Where a train that changes its category en route is for riders, and the end of what is shown
        of it, as of the first category that is."""
        status, category, *others = cells
        sort = sort_of(status.decode(), category.decode(), changes)
        categories = (category, *(each.encode() for _, each in changes)) if is_ever(sort) else ()
        endings = (self.ending_of((status, each, *others)) for each in categories)
        return Changing(sort, next(filter(None, endings), None))

    def changed(
        self, number: bytes, others: bytes, text: bytes
    ) -> tuple[bytes, About | None, bytes]:
        """The retail service id, what the train is, and the rows of `public`, of a schedule that
        changes its category en route."""
        cells = others.rstrip(b"\n").split(b"\t")
        retail, identity, operator = self.shown_at(cells)
        key = self.sort_at(cells), self.changes[number]
        found = self.known_changing.get(key)
        if found is None:
            found = self.known_changing[key] = self.changing(*key)
        if found.ending is None:
            return retail, None, text
        about = b"\t".join((identity, operator, found.ending))
        return retail, about, calls_for_riders(text, found.sort) if found.sort[1:] else text

    def public_trains(
        self, schedules: Iterable[bytes], table: Table
    ) -> Iterator[tuple[bytes, list[PublicTrain]]]:
        """The public trains of each UID that has one, in the order of the extract. The lines are those
        of `schedules`."""
        dates_of = self.window.dates
        changes = self.changes
        calls = calls_by_schedule(table)
        number, text = next(calls, NO_CALLS)
        known = retail = of_uid = b""
        about: About | None = None
        trains: list[PublicTrain] = []
        for line in schedules:
            schedule, uid, first, last, days_run, others = line.split(b"\t", 5)
            if schedule != number:
                continue
            if text.find(b"\n") < len(text) - 1:
                # the schedules of a train often differ in nothing but dates
                if number in changes:
                    known = b""
                    retail, about, text = self.changed(number, others, text)
                elif others != known:
                    known = others
                    retail, about = self.read_others(others)
                dates = dates_of(first, last, days_run)
                if about is None or text.find(b"\n") >= len(text) - 1:
                    self.not_for_riders += count_of(dates)
                else:
                    if uid != of_uid:
                        if trains:
                            yield of_uid, trains
                        of_uid, trains = uid, []
                    trains.append((dates, about, (first, last, days_run, retail), number, text))
            number, text = next(calls, NO_CALLS)
        if trains:
            yield of_uid, trains
