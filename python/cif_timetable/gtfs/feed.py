"""The files of a feed, and the zip that has them."""
from __future__ import annotations

import csv
import io
import shutil
import zipfile
from collections.abc import Iterable, Iterator, Mapping, Sequence
from contextlib import contextmanager
from datetime import date
from itertools import islice
from typing import IO, NamedTuple

from .._files import BLOCK, scratch_file
from .._tables import Table
from ..days import WEEKDAYS, Dates
from ..model import Header
from ..user_csv import Key, csv_cell
from .routes import Ends, Routes
from .services import Services
from .stops import Stops
from .trains import BIKES, About, Record
from .trips import Link, PlainTrip, Trip, ends_of
from .user_files import InterchangeRow, LinkRow, minutes_of

# The address of an operator whose own isn't known.
WEB = "https://www.nationalrail.co.uk/"
TIMEZONE = "Europe/London"
LANGUAGE = "en"
HEADINGS: dict[str, str] = {
    "agency": "agency_id agency_name agency_url agency_timezone agency_lang agency_phone"
    " agency_email",
    "stops": "stop_id stop_code stop_name stop_lat stop_lon location_type parent_station"
    " platform_code",
    "routes": "route_id agency_id route_long_name route_type",
    "trips": "route_id service_id trip_id trip_headsign trip_short_name direction_id block_id"
    " bikes_allowed",
    "stop_times": "trip_id stop_sequence stop_id arrival_time departure_time drop_off_type"
    " pickup_type",
    "calendar": f"service_id {' '.join(WEEKDAYS)} start_date end_date",
    "calendar_dates": "service_id date exception_type",
    "transfers": "from_stop_id to_stop_id from_trip_id to_trip_id transfer_type min_transfer_time",
    "feed_info": "feed_publisher_name feed_publisher_url feed_lang default_lang feed_start_date"
    " feed_end_date feed_version feed_contact_email",
    "attributions": "attribution_id organization_name is_producer is_authority attribution_url",
}
# What trips.txt has of a train that takes bicycles.
ALLOWED = b"1"
CHANGE_IN_TIME = 2
STAY_SEATED = 4
ROWS = 10_000
# It takes half the time of the usual level, and makes a zip that is a tenth larger.
LEVEL = 4

Cell = str | int | float | None
Row = Sequence[Cell]


def new_zip(file: IO[bytes]) -> zipfile.ZipFile:
    return zipfile.ZipFile(file, "w", zipfile.ZIP_DEFLATED, compresslevel=LEVEL)


def csv_of(rows: Iterable[Row]) -> bytes:
    """The bytes of rows."""
    text = io.StringIO(newline="")
    csv.writer(text, lineterminator="\n").writerows(rows)
    return text.getvalue().encode()


@contextmanager
def entry(archive: zipfile.ZipFile, name: str) -> Iterator[IO[bytes]]:
    """A file of the zip, with its heading. Its time stamp is the earliest that a zip has, so equal
    feeds are equal zips."""
    with archive.open(f"{name}.txt", "w", force_zip64=True) as data:
        with io.BufferedWriter(data, BLOCK) as blocks:  # type: ignore[arg-type]
            blocks.write(csv_of([HEADINGS[name].split()]))
            yield blocks
    archive.getinfo(f"{name}.txt").external_attr = 0o644 << 16


def write_file(archive: zipfile.ZipFile, name: str, rows: Iterable[Row]) -> None:
    with entry(archive, name) as data:
        data.write(csv_of(rows))


def copy_file(archive: zipfile.ZipFile, name: str, rows: IO[bytes]) -> None:
    """Writes the rows of a temporary file."""
    rows.seek(0)
    with entry(archive, name) as data:
        shutil.copyfileobj(rows, data, BLOCK)


def write_services(archive: zipfile.ZipFile, services: Services) -> None:
    """Writes the dates of services, some thousand services at a time, since there may be a million
    exceptions."""
    rows = services.rows()
    with scratch_file() as calendar:
        with entry(archive, "calendar_dates") as exceptions:
            for some in iter(lambda: list(islice(rows, ROWS)), []):
                calendar.write("".join(row.calendar for row in some).encode())
                exceptions.write("".join(row.exceptions for row in some).encode())
        copy_file(archive, "calendar", calendar)


# What stands behind the trip in its rows.
SEQUENCE = [b",%d" % number for number in range(1, 1000)]


class TripFiles:
    """Writes the rows of trips and of their stop times as they come."""

    def __init__(
        self, stops: Stops, routes: Routes, services: Services, files: tuple[IO[bytes], IO[bytes]]
    ) -> None:
        self.stops = stops
        self.routes = routes
        self.services = services
        self.trips, self.stop_times = files

    def write(self, trips: Iterable[Trip]) -> None:
        for trip in trips:
            self.write_stop_times(trip.id, trip.rows)
            self.write_row(trip.id, trip.about, trip.ends, trip.dates, trip.block)

    def write_plain(self, trips: Mapping[bytes, PlainTrip]) -> None:
        for trip_id, trip in trips.items():
            self.write_stop_times(trip_id, trip.rows)
            self.write_row(trip_id, trip.about, ends_of(trip.rows), trip.dates)

    def write_row(
        self, trip_id: bytes, about: About, ends: Ends, dates: Dates, block: bytes = b""
    ) -> None:
        identity, _, operator_and_type = about.partition(b"\t")
        plain = operator_and_type.removesuffix(BIKES)
        bikes = ALLOWED if len(plain) < len(operator_and_type) else b""
        route, headsign, direction = self.routes.shown(plain, ends)
        service = self.services.id_of(dates)
        cells = (route, service, trip_id, headsign, csv_cell(identity), direction, block, bikes)
        self.trips.write(b",".join(cells) + b"\n")

    def write_stop_times(self, trip_id: bytes, rows: Sequence[bytes]) -> None:
        ids = self.stops.ids
        while len(SEQUENCE) < len(rows):
            SEQUENCE.append(b",%d" % (len(SEQUENCE) + 1))
        # the trip stands before each piece
        pieces = [b""]
        for sequence, row in zip(SEQUENCE, rows):
            location, platform, times = row.split(b"\t", 2)
            try:
                stop = ids[location][platform]
            except KeyError:
                stop = self.stops.new_id(location, platform)
            pieces.append(b",".join((sequence, stop, times)))
        # times, set down and pick up stand in the order of the heading
        self.stop_times.write(trip_id.join(pieces).replace(b"\t", b","))


# The stations from which and to which a time is.
Way = tuple[str, str]


def links_in(rows: Iterable[LinkRow], header: Header) -> tuple[dict[Way, int], int]:
    """The minutes of the links between two stations in the window, and how many links are there on
    no date of it."""
    dates = (header.first_date, header.last_date)
    found: dict[Way, list[LinkRow]] = {}
    left_out = 0
    for row in rows:
        if row.is_in(*dates):
            found.setdefault((row.origin, row.destination), []).append(row)
        else:
            left_out += 1
    return {way: minutes_of(links, *dates) for way, links in found.items()}, left_out


class TransferRow(NamedTuple):
    """A row of transfers.txt."""

    from_stop: str
    to_stop: str
    from_trip: str
    to_trip: str
    type: int
    seconds: Cell


def transfer_rows(
    links: Iterable[Link],
    stops: Stops,
    interchange: Mapping[Key, InterchangeRow],
    fixed_links: Mapping[Way, int],
) -> list[TransferRow]:
    """The rows of linked trips, of the times of change, and of the links between stations."""
    rows = []
    for one, other in links:
        ends = (one.rows[-1].split(b"\t", 2), other.rows[0].split(b"\t", 2))
        end, begin = (stops.ids[location][platform].decode() for location, platform, _ in ends)
        rows.append(TransferRow(end, begin, one.id.decode(), other.id.decode(), STAY_SEATED, None))
    rows.sort(key=lambda row: (row.from_stop, row.from_trip, row.to_stop, row.to_trip))
    stations = {station.code: station.id for station in stops.stations()}
    changes = {(row.crs, row.crs): row.minutes for row in interchange.values()}
    changes.update(fixed_links)
    for (origin, destination), minutes in of_stations(changes, stops).items():
        if origin in stations and destination in stations:
            way = (stations[origin], stations[destination])
            rows.append(TransferRow(*way, "", "", CHANGE_IN_TIME, minutes * 60))
    return rows


def of_stations(changes: Mapping[Way, int], stops: Stops) -> dict[Way, int]:
    """Times of change and links by the codes of stations, where they have others that TIPLOCs of
    these have. What is said of the stations themselves counts first, and then the longest."""
    found: dict[Way, int] = {}
    for way, minutes in changes.items():
        origin, destination = (stops.places.station_of(crs) for crs in way)
        is_link = way[0] != way[1]
        if way != (origin, destination) and not (is_link and origin == destination):
            found[origin, destination] = max(minutes, found.get((origin, destination), 0))
    found.update({way: minutes for way, minutes in changes.items() if is_plain(way, stops)})
    return found


def is_plain(way: Way, stops: Stops) -> bool:
    return all(stops.places.station_of(crs) == crs for crs in way)


class Publisher(NamedTuple):
    """Who answers for a feed."""

    name: str
    url: str
    email: str


class Attribution(NamedTuple):
    """Whose data a feed is made of, and the address of their licence, or nothing."""

    name: str
    url: str


def attribution_rows(attributions: Iterable[Attribution]) -> list[Row]:
    """The rows of attributions.txt. Who is named has the data, and isn't who makes the feed of them."""
    return [(f"{number}", name, 0, 1, url) for number, (name, url) in enumerate(attributions, 1)]


def feed_info_row(header: Header, publisher: Publisher) -> Row:
    """The row of feed_info.txt. Versions of extracts of one sort rise with their time."""
    dates = [f"{day:%Y%m%d}" for day in (header.first_date, header.last_date)]
    version = (header.current_reference, header.extract_date, header.extract_time)
    if header.extracted_at:
        version = (f"{header.extracted_at:%Y-%m-%d %H:%M}", header.current_reference, None)
    words = " ".join(filter(None, (word.strip() for word in version if word)))
    about = (publisher.name, publisher.url, LANGUAGE, LANGUAGE)
    return (*about, *dates, words, publisher.email)


TRIP_RECORDS = (
    "trip_id uid first_date last_date days_run days_later retail_service_id published_first_date"
    " stp_indicator".split()
)


class Winner(NamedTuple):
    """A published schedule that decides on dates, by its first date and letter."""

    first_date: str
    stp_indicator: str
    wins_from: str
    wins_to: str
    days_run: str

    def shared(self, first: str, last: str, days_run: str) -> tuple[str, str, str] | None:
        """The dates, of those from the first to the last on these weekdays, on which it decides."""
        start, end = max(first, self.wins_from), min(last, self.wins_to)
        if start > end:
            return None
        both = "".join(str(int(one == other == "1")) for one, other in zip(days_run, self.days_run))
        days = (date.fromisoformat(end) - date.fromisoformat(start)).days + 1
        weekday = date.fromisoformat(start).weekday()
        found = any(both[(weekday + later) % 7] == "1" for later in range(min(days, 7)))
        return (start, end, both) if found else None


def read_winners(table: Table) -> dict[str, list[Winner]]:
    """The published schedules that decide what runs, by their UIDs."""
    cells_at = table.cells_at(("uid", *Winner._fields))
    found: dict[str, list[Winner]] = {}
    for line in table.lines:
        uid, *cells = cells_at(line.decode().rstrip("\n").split("\t"))
        found.setdefault(uid, []).append(Winner(*cells))
    return found


def trip_record_rows(
    trip_id: bytes,
    uid: str,
    days_later: int,
    records: Iterable[Record],
    winners: Sequence[Winner],
) -> Iterator[Row]:
    """The schedules that a trip is made of, for whoever matches trains of real time, and the published
    ones behind these, which such messages name."""
    for record in records:
        first, last, days_run, retail = (cell.decode() for cell in record)
        if not winners:
            yield (trip_id.decode(), uid, first, last, days_run, days_later, retail, "", "")
        for winner in winners:
            dates = winner.shared(first, last, days_run)
            if dates:
                published = (winner.first_date, winner.stp_indicator)
                yield (trip_id.decode(), uid, *dates, days_later, retail, *published)
