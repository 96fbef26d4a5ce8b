"""From an extract to a feed."""
from __future__ import annotations

import io
from collections.abc import Callable, Collection, Iterable, Iterator, Mapping, Sequence
from contextlib import closing, contextmanager
from dataclasses import dataclass
from functools import lru_cache
from itertools import chain, islice
from pathlib import Path
from typing import IO, NamedTuple

from .._extract import Extract
from .._files import new_files, scratch_file
from .._progress import Progress
from .._schedules import numbered, numbers_of, rows_of
from .._tables import Table, rows_with
from .._workers import in_processes
from ..days import Dated, Dates, Window
from ..errors import Refused
from ..model import Association as AssociationRow, Header, Location
from ..operators import OperatorRow, read_operators
from ..places import PlaceRow, Places, read_places
from ..user_csv import Key, read_file
from . import feed
from .associations import (
    CATEGORIES,
    ROLES,
    Association,
    LeftOut,
    Reason,
    associations_of,
    by_uid,
    decide_all,
)
from .calls import RunsAs, Spot, Stop, Variant, stops_at
from .compositions import compositions_of, groups_of, linked_dates
from .parts import Index, Part, Schedules, in_thread, parts_of, processes_for
from .routes import Route, Routes
from .services import Services
from .stops import Stops
from .trains import Change, Kind, PublicTrain, Record, ScheduleReader, read_changes
from .trips import Assembly, Link, TripsOfUid, add_records, plain_trips
from .user_files import INTERCHANGE, LINKS, InterchangeRow, LinkRow
from .wanted import ListPlace, wanted_of, write_wanted


class UserFiles(NamedTuple):
    """What the files of the user have, by their keys."""

    places: Mapping[Key, PlaceRow]
    operators: Mapping[Key, OperatorRow]
    interchange: Mapping[Key, InterchangeRow]
    links: Mapping[Key, LinkRow]


def user_files(
    places: Sequence[str],
    operators: str | None,
    interchange: str | None,
    links: str | None,
) -> UserFiles:
    """What the files of the user have, as far as there are any."""
    return UserFiles(
        read_places(places),
        read_operators(operators),
        read_file(INTERCHANGE, interchange),
        read_file(LINKS, links),
    )


class Outputs(NamedTuple):
    """The places of the files that are written: the zip, and if they are asked for the list of places
    without coordinates, and the schedules of trips."""

    feed: Path
    wanted: ListPlace | None
    trips: Path | None


class Wishes(NamedTuple):
    """How a feed is to be made."""

    types: Mapping[Kind, int]
    whole_trains: bool
    publisher: feed.Publisher
    attributions: Sequence[feed.Attribution] = ()
    # how many processes cut the calls, unless that follows from how many there are
    processes: int | None = None


@dataclass
class Timetable:
    """What is read of an extract before its public calls."""

    header: Header
    window: Window
    places: Places
    associations: list[Association]
    schedules: Schedules
    # the categories that schedules get en route
    changes: dict[bytes, tuple[Change, ...]]
    # of each train with associations, where it has to stop for these
    spots: dict[str, set[Spot]]


def spots_of(associations: list[Association]) -> dict[str, set[Spot]]:
    found: dict[str, set[Spot]] = {}
    for association in associations:
        if association.terms.category in CATEGORIES:
            for role in ROLES:
                found.setdefault(association.uid(role), set()).add(association.spots[role])
    return found


@contextmanager
def read_timetable(extract: Extract, given: Mapping[Key, PlaceRow]) -> Iterator[Timetable]:
    header = extract.header()
    window = Window(header.first_date, header.last_date)
    places = Places(extract.rows("tiplocs", Location), given)
    associations = associations_of(extract.rows("associations", AssociationRow), window)
    with scratch_file() as file:
        with extract.table("schedules") as table:
            schedules = Schedules(table.names, file)
            schedules.fill(table)
        with extract.table("changes") as table:
            changes = read_changes(table)
        spots = spots_of(associations)
        yield Timetable(header, window, places, associations, schedules, changes, spots)


# Which of the schedules of an extract one is: its UID, first and last date and days run, as they stand
# in its row. On each date at most one of a UID runs.
ScheduleKey = bytes


def keys_of(lines: Iterable[bytes], uids: Collection[bytes]) -> Iterator[tuple[bytes, ScheduleKey]]:
    """The number of each schedule of some UIDs, and which one it is. The lines are those of `schedules`."""
    for line in lines:
        number, uid, others = line.split(b"\t", 2)
        if uid in uids:
            yield number, b"\t".join((uid, *others.split(b"\t", 3)[:3]))


class StopRows(NamedTuple):
    """Of each schedule with associations the calls at their locations, as rows of `calls` without
    the number of the schedule, and what reads these."""

    rows: dict[ScheduleKey, list[bytes]]
    read: Callable[[bytes], Stop]

    def take(self, schedule: ScheduleKey) -> list[bytes]:
        return self.rows.pop(schedule, [])


# The schedules of a train often call at the same times.
KNOWN = 64


def read_stops(extract: Extract, timetable: Timetable) -> StopRows | None:
    """The calls where associations may be. There are none if no schedule has associations."""
    locations = {
        uid.encode(): {spot.location.encode() for spot in spots}
        for uid, spots in timetable.spots.items()
    }
    if not locations:
        return None
    keys = dict(keys_of(timetable.schedules.lines(), locations))
    if not keys:
        return None
    found: dict[ScheduleKey, list[bytes]] = {}
    wanted = {number: locations[key[: key.index(b"\t")]] for number, key in keys.items()}
    with extract.table("calls") as table:
        for row in rows_with(table.lines, table.names.index("location"), wanted):
            number, _, call = row.partition(b"\t")
            found.setdefault(keys[number], []).append(call)
    read = table.reader(Stop)
    return StopRows(found, lru_cache(maxsize=KNOWN)(lambda call: read(b"\t" + call)))


def variants_of(
    uid: bytes,
    trains: Iterable[PublicTrain],
    spots: set[Spot],
    stops: StopRows,
    with_records: bool,
) -> list[Variant]:
    """The public trains of one UID, those that differ in nothing but dates as one."""
    found: dict[object, Variant] = {}
    for dates, about, record, schedule, text in trains:
        at_spots = [stops.read(row) for row in stops.take(b"\t".join((uid, *record[:3])))]
        key = (about, numbered(schedule, text), *at_spots)
        variant = found.get(key)
        if variant is None:
            numbers = numbers_of(text)
            places = stops_at(spots, at_spots, numbers)
            variant = found[key] = Variant(about, numbers, rows_of(text), places)
        variant.dates |= dates
        if with_records:
            variant.records.append(RunsAs(dates, record))
    return list(found.values())


class LeftOutCounts(NamedTuple):
    """How many dates are left out: of trains that aren't for riders, and of associations; and how many
    links between stations."""

    trains: int
    associations: LeftOut
    links: int

    def lines(self) -> list[str]:
        lines = [
            f"associations left out: {reason.value}: {self.associations[reason]}"
            for reason in Reason
            if self.associations[reason]
        ]
        if self.trains:
            lines.insert(0, f"trains left out: they aren't for riders: {self.trains}")
        if self.links:
            lines.append(f"links left out: they are there on no date of the window: {self.links}")
        return lines


class Written(NamedTuple):
    """What a process has written, what it has met before or in this part, and the trains with
    associations."""

    variants: dict[str, list[Variant]]
    not_for_riders: int
    places: dict[bytes, list[bytes]]
    routes: list[Route]
    operators: set[str]
    services: list[tuple[Dates, bytes]]
    trips: bytes
    stop_times: bytes
    records: bytes


class Conversion:
    """Writes the trips of a timetable."""

    def __init__(
        self,
        timetable: Timetable,
        wishes: Wishes,
        files: feed.TripFiles,
        records: IO[bytes] | None,
        winners: Mapping[str, Sequence[feed.Winner]],
    ) -> None:
        self.winners = winners
        self.timetable = timetable
        self.wishes = wishes
        self.files = files
        self.records = records
        self.reader = ScheduleReader(
            timetable.schedules.names, timetable.window, wishes.types, timetable.changes
        )

    def write(self, trips: TripsOfUid) -> None:
        self.files.write(trips.trips.values())
        if self.records is not None:
            for trip in trips.trips.values():
                self.write_records(trip.id, trips.uid, trip.days_later, trip.records)

    def write_plain(self, uid: str, trains: Iterable[PublicTrain]) -> None:
        """Writes the trips of a train without associations."""
        trips = plain_trips(uid, trains)
        self.files.write_plain(trips)
        if self.records is not None:
            for trip_id, trip in trips.items():
                self.write_records(trip_id, uid, 0, trip.records)

    def write_records(
        self, trip_id: bytes, uid: str, days_later: int, records: Iterable[Record]
    ) -> None:
        assert self.records is not None
        winners = self.winners.get(uid, ())
        rows = feed.trip_record_rows(trip_id, uid, days_later, records, winners)
        self.records.write(feed.csv_of(rows))

    def read_trains(
        self, extract: Extract, processes: int, progress: Progress
    ) -> dict[str, list[Variant]]:
        """Writes the trips of all trains without associations. Returns the others."""
        stops = read_stops(extract, self.timetable)
        schedules = self.timetable.schedules
        if processes == 1:
            with extract.table("public") as table:
                return self.read_part(schedules.lines(), table, stops, progress)
        variants: dict[str, list[Variant]] = {}
        parts = self.parts(extract, progress)
        written = in_processes(lambda part: self.write_part(part, stops), parts, processes)
        with closing(written):
            # no thread is there yet when the processes start
            first = next(written, None)
            with in_thread(self.write_rows) as hand_on:
                for part in chain([first] if first else [], written):
                    self.take(part)
                    variants.update(part.variants)
                    hand_on(part)
        return variants

    def parts(self, extract: Extract, progress: Progress) -> Iterator[Part]:
        schedules = self.timetable.schedules
        with extract.table("public") as table:
            for part in parts_of(Index(schedules), table):
                progress.show_share("reading calls", part.number, schedules.count)
                yield part

    def read_part(
        self,
        lines: Iterable[bytes],
        table: Table,
        stops: StopRows | None,
        progress: Progress | None = None,
    ) -> dict[str, list[Variant]]:
        """Likewise of some trains."""
        variants: dict[str, list[Variant]] = {}
        count = self.timetable.schedules.count
        for cell, trains in self.reader.public_trains(lines, table):
            uid = cell.decode()
            if progress and progress.visible:
                progress.show_share("reading calls", int(trains[-1][3]), count)
            if stops and uid in self.timetable.spots:
                with_records = self.records is not None
                spots = self.timetable.spots[uid]
                variants[uid] = variants_of(cell, trains, spots, stops, with_records)
            else:
                self.write_plain(uid, trains)
        return variants

    def write_part(self, part: Part, stops: StopRows | None) -> Written:
        """What becomes of a part, in a process of its own."""
        files = self.files
        files.trips, files.stop_times = trips, stop_times = io.BytesIO(), io.BytesIO()
        records = io.BytesIO()
        if self.records is not None:
            self.records = records
        self.reader.not_for_riders = 0
        known = len(files.routes.routes), len(files.services.ids)
        lines = self.timetable.schedules.lines_in(part.first, part.last)
        variants = self.read_part(lines, Table([], io.BytesIO(part.text)), stops)
        places = {location: list(platforms) for location, platforms in files.stops.ids.items()}
        return Written(
            variants,
            self.reader.not_for_riders,
            places,
            list(islice(files.routes.routes, known[0], None)),
            files.routes.operators,
            list(islice(files.services.ids.items(), known[1], None)),
            trips.getvalue(),
            stop_times.getvalue(),
            records.getvalue(),
        )

    def take(self, part: Written) -> None:
        """Takes over what a process has met: ids follow from what they are of, and services stand in
        the order in which they are met."""
        self.reader.not_for_riders += part.not_for_riders
        for location, platforms in part.places.items():
            known = self.files.stops.ids.get(location, {})
            for platform in platforms:
                if platform not in known:
                    self.files.stops.new_id(location, platform)
        self.files.routes.take(part.routes, part.operators)
        for dates, name in part.services:
            self.files.services.take(dates, name)

    def write_rows(self, part: Written) -> None:
        self.files.trips.write(part.trips)
        self.files.stop_times.write(part.stop_times)
        if self.records is not None:
            self.records.write(part.records)

    def write_linked(self, variants: Mapping[str, Sequence[Variant]]) -> tuple[list[Link], LeftOut]:
        """Writes the trips of trains with associations. Returns the links, and how many dates of
        associations are left out by reason."""
        associations = self.timetable.associations
        on_dates = {
            uid: Dated([(variant.dates, variant) for variant in of_train])
            for uid, of_train in variants.items()
        }
        left_out = decide_all(associations, on_dates)
        assembly = Assembly(self.wishes.whole_trains)
        for group in groups_of(associations, left_out):
            for composition in compositions_of(group, on_dates):
                assembly.add(composition)
        held = by_uid(associations)
        for uid, of_train in variants.items():
            trips = assembly.trips(uid)
            linked = linked_dates(held.get(uid, ()))
            for variant in of_train:
                add_unlinked(trips, variant, variant.dates & ~linked)
            self.write(trips.in_order())
        return list(assembly.links.values()), left_out


def add_unlinked(trips: TripsOfUid, variant: Variant, dates: Dates) -> None:
    """Adds the trip of a train on dates on which it isn't linked."""
    if dates:
        trip = trips.add(variant.about, variant.public_rows())
        trip.dates |= dates
        add_records(trip, variant, dates)


class Outcome(NamedTuple):
    """How many stations have no coordinates, and what is left out."""

    wanted: int
    left_out: LeftOutCounts


def convert(
    extract: Extract, given: UserFiles, wishes: Wishes, outputs: Outputs, progress: Progress
) -> Outcome:
    """Writes the zip, and what belongs beside it."""
    progress.show("reading trains and associations")
    with read_timetable(extract, given.places) as timetable, new_files() as files:
        stops = Stops(timetable.places)
        routes = Routes(stops)
        services = Services(timetable.window)
        records = None
        published: Mapping[str, Sequence[feed.Winner]] = {}
        if outputs.trips:
            records = files.create(outputs.trips)
            records.write(feed.csv_of([feed.TRIP_RECORDS]))
            with extract.winners() as winners:
                published = feed.read_winners(winners) if winners else {}
        with feed.new_zip(files.create(outputs.feed)) as archive, scratch_file() as trips:
            with feed.entry(archive, "stop_times") as stop_times:
                trip_files = feed.TripFiles(stops, routes, services, (trips, stop_times))
                conversion = Conversion(timetable, wishes, trip_files, records, published)
                processes = processes_for(wishes.processes, timetable.schedules.count)
                variants = conversion.read_trains(extract, processes, progress)
                links, left_out = conversion.write_linked(variants)
            if not routes.routes:
                raise Refused(f"{extract.name} has no public train in its window")
            progress.show("writing the other files")
            feed.copy_file(archive, "trips", trips)
            feed.write_services(archive, services)
            agencies = routes.agencies(given.operators, feed.WEB, feed.TIMEZONE, feed.LANGUAGE)
            feed.write_file(archive, "agency", agencies)
            feed.write_file(archive, "stops", stops.rows())
            feed.write_file(archive, "routes", routes.rows())
            fixed_links, expired = feed.links_in(given.links.values(), timetable.header)
            transfers = feed.transfer_rows(links, stops, given.interchange, fixed_links)
            feed.write_file(archive, "transfers", transfers)
            about = feed.feed_info_row(timetable.header, wishes.publisher)
            feed.write_file(archive, "feed_info", [about])
            if wishes.attributions:
                rows = feed.attribution_rows(wishes.attributions)
                feed.write_file(archive, "attributions", rows)
        wanted = wanted_of(stops)
        write_wanted(wanted, outputs.wanted, files)
    left_out_counts = LeftOutCounts(conversion.reader.not_for_riders, left_out, expired)
    return Outcome(wanted.stations, left_out_counts)
