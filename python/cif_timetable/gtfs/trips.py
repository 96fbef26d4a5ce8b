"""Trips: the calls of a train, or of a part of it, on all dates on which they are the same."""
from __future__ import annotations

from bisect import bisect, bisect_left
from collections.abc import Iterable, Iterator, Mapping, Sequence
from hashlib import blake2b
from typing import NamedTuple

from .._schedules import rows_of
from ..days import Dates, moved
from ..errors import Refused
from .associations import DIVIDE, JOIN, ROLES, Role
from .calls import Variant, arriving, days_later, is_for_nobody, leaving, location_of, met
from .compositions import Composition, Edge, Node
from .routes import Ends
from .stops import coded
from .trains import About, PublicTrain, Record

# A hash in an id has twice as many digits.
ID_BYTES = 5


class Trip:
    """A trip of GTFS: what it shows, the dates of its service, and the schedules that it is made
    of. Its rows are those of `public` from the location on."""

    __slots__ = tuple("id about rows mark ends dates block days_later records".split())

    def __init__(
        self, trip_id: bytes, about: About, rows: Sequence[bytes], mark: bytes, ends: Ends
    ) -> None:
        self.id = trip_id
        self.about = about
        self.rows = rows
        self.mark = mark
        self.ends = ends
        self.dates: Dates = 0
        # the id of the first part of its train, if that is cut, and how many days later than the
        # service the train runs
        self.block = b""
        self.days_later = 0
        # in order, each once
        self.records: dict[Record, None] = {}


def ends_of(rows: Sequence[bytes]) -> Ends:
    """The locations of the first and of the last call."""
    return location_of(rows[0]), location_of(rows[-1])


def id_of(name: str, content: bytes) -> bytes:
    """The UID as a part of an id, and a short hash, the same in each window."""
    digest = blake2b(content, digest_size=ID_BYTES).hexdigest()
    return f"{name}-{digest}".encode()


def refused(uid: str, trip_id: bytes) -> Refused:
    return Refused(f"two trips of the train {uid} have the id {trip_id.decode()}")


class TripsOfUid:
    """The trips of one UID by their ids, so that those with equal contents are one."""

    def __init__(self, uid: str) -> None:
        self.uid = uid
        self.name = coded(uid)
        self.trips: dict[bytes, Trip] = {}

    def add(
        self, about: About, rows: Sequence[bytes], ends: Ends | None = None, mark: bytes = b""
    ) -> Trip:
        """The trip of a train that has these rows, and other ends if it is a part of a train. A mark
        tells those of compositions from others."""
        trip_id = id_of(self.name, b"".join((about, *rows, mark)))
        trip = self.trips.get(trip_id)
        if trip is None:
            trip = self.trips[trip_id] = Trip(trip_id, about, rows, mark, ends or ends_of(rows))
        elif (trip.about, trip.mark) != (about, mark) or trip.rows != rows:
            raise refused(self.uid, trip_id)
        return trip

    def in_order(self) -> TripsOfUid:
        """The same with the trips rising by their ids, in whatever order they were added."""
        self.trips = dict(sorted(self.trips.items()))
        return self


def add_records(trip: Trip, variant: Variant, dates: Dates) -> None:
    """Adds the schedules that a train is on some dates."""
    trip.records.update(dict.fromkeys(variant.records_on(dates)))


# ---- trains without associations


class PlainTrip:
    """A trip of a train without associations. Most trips are such, and are written at once."""

    __slots__ = ("about", "rows", "dates", "records")

    def __init__(self, about: About, rows: Sequence[bytes]) -> None:
        self.about = about
        self.rows = rows
        self.dates: Dates = 0
        self.records: list[Record] = []


def plain_trips(uid: str, trains: Iterable[PublicTrain]) -> dict[bytes, PlainTrip]:
    """The trips of one UID by their ids. Schedules that differ in nothing but dates are one."""
    name = coded(uid)
    trips: dict[bytes, PlainTrip] = {}
    known: dict[bytes, PlainTrip] = {}
    for dates, about, record, _, text in trains:
        rows = rows_of(text)
        content = about + b"".join(rows)
        trip = known.get(content)
        if trip is None:
            trip = known[content] = PlainTrip(about, rows)
            trip_id = id_of(name, content)
            if trip_id in trips:
                raise refused(uid, trip_id)
            trips[trip_id] = trip
        trip.dates |= dates
        trip.records.append(record)
    return trips


# ---- trains that are linked


class Held(NamedTuple):
    """An association of a train, its role, and the place of its call."""

    edge: Edge
    role: Role
    place: int


class Part(NamedTuple):
    """A part of a train: its rows, and the associations that link its end and its beginning."""

    rows: list[bytes]
    ends: list[Edge]
    begins: list[Edge]


class LinkedTrain(NamedTuple):
    """A train of a composition: its variant, how many days earlier it counts, and its parts."""

    variant: Variant
    days: int
    parts: list[Part]

    def text(self) -> bytes:
        """What tells it from other trains."""
        rows = b"|\n".join(b"".join(part.rows) for part in self.parts)
        return self.variant.about + b"%d\n" % self.days + rows

    def section(self, start: int, stop: int) -> list[bytes]:
        """The rows from one place to another, and of those that aren't public only these two."""
        public = self.variant.public
        between = public[bisect(public, start) : bisect_left(public, stop)]
        places = (start, *between, stop)
        return [days_later(self.variant.rows[at], self.days) for at in places]


def held_by(composition: Composition) -> dict[Node, list[Held]]:
    """The associations of each train."""
    found: dict[Node, list[Held]] = {node: [] for node in composition.variants}
    for edge in composition.edges:
        for role in ROLES:
            node = edge.node(role)
            place = composition.variants[node].place[edge.association.spots[role]]
            found[node].append(Held(edge, role, place))
    return found


def is_cut(held: Held) -> bool:
    return held.role is Role.BASE and held.edge.association.terms.category in (DIVIDE, JOIN)


def parts_of(variant: Variant, all_held: Sequence[Held], days: int) -> list[Part]:
    """The parts of a train that counts so many days earlier. It is cut where it divides or is
    joined: one part only arrives there, and the next only leaves. A stop that isn't public is among
    the calls only if it is the place of one of the associations."""
    places = [held.place for held in all_held]
    hidden = variant.hidden.difference(places)
    first, last = variant.first, variant.last
    if variant.hidden:
        first = min(first, *places)
        last = max(last, *places)
    cut = {held.place for held in all_held if is_cut(held)} - {first, last}
    cuts = sorted(cut)
    starts = [first, *cuts]
    stops = [*cuts, last]
    parts = []
    for start, stop in zip(starts, stops):
        rows = variant.rows[start : stop + 1]
        if hidden:
            rows = [row for at, row in enumerate(rows, start) if at not in hidden]
        if start in cut:
            rows[0] = leaving(rows[0])
        if stop in cut:
            rows[-1] = arriving(rows[-1])
        if days:
            rows = [days_later(row, days) for row in rows]
        parts.append(Part(rows, [], []))
    ending = dict(zip(stops, parts))
    beginning = dict(zip(starts, parts))
    for held in all_held:
        if held.edge.association.ends_at(held.role):
            ending[held.place].ends.append(held.edge)
        else:
            beginning[held.place].begins.append(held.edge)
    return parts


def mark_of(composition: Composition, trains: Mapping[Node, LinkedTrain]) -> bytes:
    """What tells a composition from others: its trains, and the associations that link them."""
    texts = [node.uid.encode() + b"\n" + train.text() for node, train in trains.items()]
    for edge in composition.edges:
        days = trains[edge.node(Role.BASE)].days
        texts.append("\t".join((str(days), *edge.association.terms)).encode())
    return blake2b(b"\n\n".join(sorted(texts))).digest()


Link = tuple[Trip, Trip]


class Assembly:
    """The trips of all linked trains, and the links between them."""

    def __init__(self, whole_trains: bool) -> None:
        self.whole_trains = whole_trains
        self.of_uid: dict[str, TripsOfUid] = {}
        self.links: dict[tuple[bytes, bytes], Link] = {}

    def trips(self, uid: str) -> TripsOfUid:
        if uid not in self.of_uid:
            self.of_uid[uid] = TripsOfUid(uid)
        return self.of_uid[uid]

    def add(self, composition: Composition) -> None:
        """Adds the trips of a composition, which all have its dates, and the links between them."""
        first = min(node.offset for node in composition.variants)
        trains: dict[Node, LinkedTrain] = {}
        for node, all_held in held_by(composition).items():
            variant = composition.variants[node]
            days = node.offset - first
            trains[node] = LinkedTrain(variant, days, parts_of(variant, all_held, days))
        mark = mark_of(composition, trains)
        dates = moved(composition.dates, first)
        if self.whole_trains:
            whole = WholeTrains(composition, trains)
            for node, train in trains.items():
                self.add_trip(node, train, whole.rows(node), None, mark, dates)
        else:
            self.add_parts(trains, mark, dates)

    def add_trip(
        self,
        node: Node,
        train: LinkedTrain,
        rows: list[bytes],
        ends: Ends | None,
        mark: bytes,
        dates: Dates,
    ) -> Trip:
        mark = b"%d\n%s" % (train.days, mark)
        trip = self.trips(node.uid).add(train.variant.about, rows, ends, mark)
        trip.dates |= dates
        trip.days_later = train.days
        add_records(trip, train.variant, moved(dates, train.days))
        return trip

    def add_parts(self, trains: Mapping[Node, LinkedTrain], mark: bytes, dates: Dates) -> None:
        """Adds the trips of the parts of trains, and the links between them."""
        ends: dict[Edge, Trip] = {}
        begins: dict[Edge, Trip] = {}
        for node, train in trains.items():
            trips: list[Trip] = []
            for number, part in enumerate(train.parts):
                own_mark = b"%d\n%s" % (number, mark)
                trip = self.add_trip(node, train, part.rows, train.variant.ends, own_mark, dates)
                ends.update((edge, trip) for edge in part.ends)
                begins.update((edge, trip) for edge in part.begins)
                trips.append(trip)
            for trip in trips if len(trips) > 1 else ():
                trip.block = trips[0].id
            self.add_links(zip(trips, trips[1:]))
        self.add_links((end, begins[edge]) for edge, end in ends.items())

    def add_links(self, links: Iterable[Link]) -> None:
        for one, other in links:
            self.links[one.id, other.id] = (one, other)


class Joint(NamedTuple):
    """An association by which a train leaves another or joins it, and this other train."""

    edge: Edge
    base: Node


class WholeTrains:
    """Trains of a composition that aren't cut: one that leaves another train has the calls of this
    before, and one that joins another train has the calls of this after, as calls of its own."""

    def __init__(self, composition: Composition, trains: Mapping[Node, LinkedTrain]) -> None:
        self.trains = trains
        # where each train leaves another, and where it joins one: the first of several
        self.leaves: dict[Node, Joint] = {}
        self.joins: dict[Node, Joint] = {}
        for edge in sorted(composition.edges, key=lambda edge: edge.association.terms):
            is_join = edge.association.terms.category == JOIN
            found = self.joins if is_join else self.leaves
            found.setdefault(edge.node(Role.ASSOCIATED), Joint(edge, edge.node(Role.BASE)))
        # the calls of the other train that are shared so
        self.shared: dict[Joint, list[bytes]] = {}

    def place(self, edge: Edge, role: Role) -> int:
        variant = self.trains[edge.node(role)].variant
        return variant.place[edge.association.spots[role]]

    def start(self, node: Node) -> int:
        """Where a train begins that has the calls of the one that it leaves before."""
        if node in self.leaves:
            return self.place(self.leaves[node].edge, Role.ASSOCIATED)
        return self.trains[node].variant.first

    def stop(self, node: Node) -> int:
        if node in self.joins:
            return self.place(self.joins[node].edge, Role.ASSOCIATED)
        return self.trains[node].variant.last

    def shared_at(self, joint: Joint) -> list[bytes]:
        """The calls of the other train up to where it is left, or from where it is joined on."""
        edge, base = joint
        place = self.place(edge, Role.BASE)
        is_join = edge.association.terms.category == JOIN
        ends = (place, self.stop(base)) if is_join else (self.start(base), place)
        return self.trains[base].section(*ends)

    def others(self, node: Node, joints: Mapping[Node, Joint]) -> Iterator[list[bytes]]:
        """The calls of the train that a train leaves or joins, of the one that this does, and so on,
        each train once."""
        seen = {node}
        joint = joints.get(node)
        while joint is not None and joint.base not in seen:
            if joint not in self.shared:
                self.shared[joint] = self.shared_at(joint)
            yield self.shared[joint]
            seen.add(joint.base)
            joint = joints.get(joint.base)

    def rows(self, node: Node) -> list[bytes]:
        """All calls of a train."""
        before = list(self.others(node, self.leaves))
        own = self.trains[node].section(self.start(node), self.stop(node))
        rows: list[bytes] = []
        for section in (*reversed(before), own, *self.others(node, self.joins)):
            add_section(rows, section)
        return rows


def add_section(rows: list[bytes], section: Sequence[bytes]) -> None:
    """Adds the calls of the next train, of which the first is at the place of the last so far. If
    nobody gets on or off there, the train doesn't call there."""
    if not rows:
        rows += section
        return
    call = met(rows.pop(), section[0])
    if not is_for_nobody(call):
        rows.append(call)
    rows += section[1:]
