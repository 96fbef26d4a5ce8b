"""A GTFS zip as any program may have written it: rows and columns in any order, with or without quotes."""
from __future__ import annotations

import csv
import io
import zipfile
from collections import defaultdict
from collections.abc import Iterator, Sequence
from contextlib import contextmanager
from datetime import date
from operator import itemgetter
from typing import NamedTuple
from urllib.parse import unquote

from ..errors import Refused
from .difference import Different

WEEKDAYS = "monday tuesday wednesday thursday friday saturday sunday".split()
STAY_SEATED = "4"
ADDED, REMOVED = "1", "2"
# Dates are numbered from so many days before the window. None is so far before or after it.
MARGIN = 4000


class Window:
    """The dates of an extract. A set of dates is a number with a bit for each."""

    def __init__(self, first: date, last: date) -> None:
        self.origin = first.toordinal() - MARGIN
        self.count = last.toordinal() - self.origin + MARGIN
        self.dates = self.span(first, last)
        week = [date.fromordinal(self.origin + number).weekday() for number in range(7)]
        self.weekdays = [
            sum(1 << number for number in range(week.index(weekday), self.count, 7))
            for weekday in range(7)
        ]

    def number(self, day: date) -> int:
        number = day.toordinal() - self.origin
        if not 0 <= number < self.count:
            raise Different(f"{day} is years from the dates of the extract")
        return number

    def day(self, number: int) -> date:
        return date.fromordinal(self.origin + number)

    def first(self, dates: int) -> date:
        """The first one of some dates."""
        return self.day((dates & -dates).bit_length() - 1)

    def span(self, first: date, last: date) -> int:
        return (2 << self.number(last)) - (1 << self.number(first)) if first <= last else 0

    def masked(self, first: date, last: date, days_run: str) -> int:
        """The dates from one to another on these weekdays, Monday first."""
        marked = sum(of for of, bit in zip(self.weekdays, days_run) if bit == "1")
        return self.span(first, last) & marked

    def each(self, dates: int) -> Iterator[int]:
        """The numbers of dates."""
        while dates:
            lowest = dates & -dates
            yield lowest.bit_length() - 1
            dates ^= lowest


class Stop(NamedTuple):
    """A row of stops.txt."""

    code: str
    name: str
    latitude: str
    longitude: str
    type: str
    station: str
    platform: str


class About(NamedTuple):
    """What a trip shows of its train."""

    agency: str
    route_type: str
    identity: str
    headsign: str
    bicycles: str


class Trip(NamedTuple):
    """A trip: whose it is, what it shows, its dates, its block, and its calls in order, each with stop,
    arrival, departure, drop_off_type and pickup_type between tabs."""

    uid: str
    about: About
    dates: int
    block: str
    calls: list[str]


class Link(NamedTuple):
    """A row of transfers.txt by which riders stay seated."""

    from_stop: str
    to_stop: str
    from_trip: str
    to_trip: str


class Feed(NamedTuple):
    """What is read of a zip."""

    stops: dict[str, Stop]
    agencies: set[str]
    trips: dict[str, Trip]
    links: set[Link]
    # the first and the last date of each row of feed_info
    spans: list[tuple[str, ...]]


@contextmanager
def opened(path: str) -> Iterator[zipfile.ZipFile]:
    try:
        with zipfile.ZipFile(path) as archive:
            yield archive
    except (zipfile.BadZipFile, EOFError, NotImplementedError) as problem:
        raise Refused(f"{path} isn't a zip that can be read: {problem}") from None


def rows_of(
    archive: zipfile.ZipFile, name: str, fields: Sequence[str], needed: bool = True
) -> Iterator[tuple[str, ...]]:
    """These fields of the rows of a file. One that the file doesn't have is empty."""
    file = f"{name}.txt"
    if file not in archive.namelist():
        if needed:
            raise Refused(f"{archive.filename} has no {file}")
        return
    with archive.open(file) as data:
        with io.TextIOWrapper(data, encoding="utf-8-sig", newline="") as text:
            try:
                rows = csv.reader(text, strict=True)
                heading = [field.strip() for field in next(rows, [])]
                width = len(heading)
                places = [heading.index(field) if field in heading else width for field in fields]
                # two cells at least, as it gives a tuple of several alone
                cells_at = itemgetter(*places, width)
                for row in rows:
                    if row:
                        row += [""] * (width + 1 - len(row))
                        yield cells_at(row)[:-1]
            except (csv.Error, UnicodeDecodeError) as problem:
                raise Refused(f"{archive.filename}: {file} can't be read: {problem}") from None


def day_of(text: str, where: str) -> date:
    try:
        return date(int(text[:4]), int(text[4:6]), int(text[6:8]))
    except ValueError:
        raise Different(f"{where}: `{text}` isn't a date") from None


def services_of(archive: zipfile.ZipFile, window: Window) -> dict[str, int]:
    """The dates of each service, by calendar.txt, and then by its exceptions."""
    services: dict[str, int] = {}
    fields = ("service_id", "start_date", "end_date", *WEEKDAYS)
    for service, start, end, *marks in rows_of(archive, "calendar", fields, needed=False):
        where = f"calendar.txt, service {service}"
        if service in services:
            raise Different(f"{where} has two rows")
        first, last = day_of(start, where), day_of(end, where)
        services[service] = window.masked(first, last, "".join(marks))
    fields = ("service_id", "date", "exception_type")
    known: dict[str, int] = {}
    seen: defaultdict[str, int] = defaultdict(int)
    for service, text, kind in rows_of(archive, "calendar_dates", fields, needed=False):
        if text not in known:
            known[text] = 1 << window.number(day_of(text, f"calendar_dates.txt, service {service}"))
        day = known[text]
        if seen[service] & day or kind not in (ADDED, REMOVED):
            problem = "two rows" if seen[service] & day else f"the exception_type `{kind}`"
            raise Different(f"calendar_dates.txt, service {service}, {text} has {problem}")
        seen[service] |= day
        others = services.get(service, 0) & ~day
        services[service] = others | day if kind == ADDED else others
    for service, dates in services.items():
        outside = dates & ~window.dates
        if outside:
            raise Different(
                f"service {service} is active on {window.first(outside)}, outside of the window"
            )
    return services


def time_of(text: str) -> str:
    """A time with two digits of hours or more."""
    if text[2:3] == ":":
        return text
    text = text.strip()
    return f"0{text}" if text[1:2] == ":" else text


def calls_of(archive: zipfile.ZipFile) -> dict[str, list[str]]:
    """The calls of each trip, in order."""
    fields = "trip_id stop_sequence stop_id arrival_time departure_time drop_off_type pickup_type".split()
    found: dict[str, list[str]] = {}
    current, calls = None, [""]
    for trip, sequence, stop, arrival, departure, off, on in rows_of(archive, "stop_times", fields):
        if trip != current:
            current, calls = trip, found.setdefault(trip, [])
        number = sequence.strip().zfill(9)
        times = f"{time_of(arrival)}\t{time_of(departure)}"
        calls.append(f"{number}\t{stop}\t{times}\t{off or '0'}\t{on or '0'}")
    return found


def in_order(trip: str, calls: list[str]) -> list[str]:
    """The calls of a trip without their numbers, by which they are put in order."""
    calls.sort()
    rows = [call.split("\t", 1) for call in calls]
    for (one, row), (other, _) in zip(rows, rows[1:]):
        if one == other:
            stop = row.split("\t", 1)[0]
            raise Different(
                f"stop_times.txt, trip {trip}: two rows have stop_sequence {int(one)}, at {stop}"
            )
    return [row for _, row in rows]


def uid_of(trip: str) -> str:
    """The UID in the id of a trip, before a hash."""
    return unquote(trip.rpartition("-")[0].replace("_", " "))


def stops_of(archive: zipfile.ZipFile) -> dict[str, Stop]:
    fields = (
        "stop_id stop_code stop_name stop_lat stop_lon location_type parent_station"
        " platform_code".split()
    )
    stops: dict[str, Stop] = {}
    for stop, *about in rows_of(archive, "stops", fields):
        if stop in stops:
            raise Different(f"stops.txt: {stop} has two rows")
        stops[stop] = Stop(*about)
    return stops


def trips_of(archive: zipfile.ZipFile, window: Window) -> dict[str, Trip]:
    services = services_of(archive, window)
    routes: dict[str, tuple[str, str]] = {}
    for route, agency, kind in rows_of(archive, "routes", ("route_id", "agency_id", "route_type")):
        if route in routes:
            raise Different(f"routes.txt: {route} has two rows")
        routes[route] = (agency, kind)
    calls = calls_of(archive)
    fields = (
        "trip_id route_id service_id trip_short_name trip_headsign bikes_allowed block_id".split()
    )
    trips: dict[str, Trip] = {}
    for trip, route, service, *shown, bicycles, block in rows_of(archive, "trips", fields):
        where = f"trips.txt, trip {trip}"
        if trip in trips:
            raise Different(f"{where} has two rows")
        if route not in routes:
            raise Different(f"{where}: routes.txt has no route {route}")
        if not services.get(service):
            raise Different(f"{where}: its service {service} has no dates")
        if trip not in calls:
            raise Different(f"{where}: stop_times.txt has no calls of it")
        agency, kind = routes[route]
        identity, headsign = shown
        about = About(agency, kind, identity, headsign, bicycles or "0")
        trips[trip] = Trip(
            uid_of(trip), about, services[service], block, in_order(trip, calls.pop(trip))
        )
    for trip in calls:
        raise Different(f"stop_times.txt, trip {trip}: trips.txt has no such trip")
    return trips


def links_of(archive: zipfile.ZipFile) -> set[Link]:
    fields = "transfer_type from_stop_id to_stop_id from_trip_id to_trip_id".split()
    links: set[Link] = set()
    for kind, *cells in rows_of(archive, "transfers", fields, needed=False):
        link = Link(*cells)
        if kind == STAY_SEATED:
            if link in links:
                raise Different(f"transfers.txt: two rows from {link.from_trip} to {link.to_trip}")
            links.add(link)
    return links


def read_feed(path: str, window: Window) -> Feed:
    with opened(path) as archive:
        agencies = {agency for (agency,) in rows_of(archive, "agency", ("agency_id",))}
        trips, links = trips_of(archive, window), links_of(archive)
        ends = ("feed_start_date", "feed_end_date")
        spans = list(rows_of(archive, "feed_info", ends, needed=False))
        return Feed(stops_of(archive), agencies, trips, links, spans)
