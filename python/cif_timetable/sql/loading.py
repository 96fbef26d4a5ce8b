"""From an extract to the rows of a database."""
from __future__ import annotations

import re
from collections import Counter
from collections.abc import Callable, Iterable, Iterator, Mapping
from contextlib import ExitStack
from dataclasses import astuple
from datetime import timedelta
from operator import itemgetter
from typing import IO, Any, NamedTuple

from .._extract import FORM, Extract
from .._files import BLOCK, scratch_file
from .._progress import Progress
from .._schedules import calls_by_schedule, numbered
from .._tables import Table, fields_of
from ..days import TrainsPerDay, Window
from ..errors import Refused, Unexpected
from ..model import Association, Header, Location
from ..operators import OperatorRow, operator_name
from ..places import PlaceRow, Places, search_text
from ..riders import Sort, at_arrival, at_departure, sort_of
from ..user_csv import Key
from .portions import COLUMNS, DAYS_LATER, Portions
from .schema import Database, Filler, Row, moment_of, rows_of

# How `cif` says that nobody gets on or off at a call.
NEVER = b"1"
# A train has calls after at most so many midnights: each date of the window has a row for each of them. Real trains have two.
MOST_MIDNIGHTS = 31
# So many locations without a TI are named.
MOST_PLACES = 10


class Source(NamedTuple):
    """What the row of `extract` says besides the header."""

    file_name: str
    sha256: str
    cif_version: str
    loaded_at: str


class UserFiles(NamedTuple):
    """What the files of the user have, by their keys."""

    places: Mapping[Key, PlaceRow]
    operators: Mapping[Key, OperatorRow]


# ---- places, associations, dates


def load_places(database: Database, rows: list[Location], places: Places) -> None:
    locations: dict[str, Row] = {}
    stations: dict[str, Row] = {}
    for row in rows:
        name = row.tiploc.strip()
        tiploc, station = places.tiploc(name), places.station_name(name)
        codes = (row.tiploc, tiploc.crs, tiploc.station_crs)
        about = (station, row.tps_description or row.description, row.nalco, row.stanox)
        locations.setdefault(row.tiploc, (*codes, *about, *places.coordinates(name)))
        crs = tiploc.station_crs
        if crs and crs not in stations:
            first = places.siblings(tiploc)[0].name
            stations[crs] = (crs, station, *places.coordinates(first))
    names = "tiploc crs station_crs name description nlc stanox latitude longitude".split()
    database.fill("stations", "crs name latitude longitude".split(), rows_of(stations.values()))
    database.fill("locations", names, rows_of(locations.values()))
    found = {
        (crs, search_text(name)): (crs, name, search_text(name))
        for crs in stations
        for name in reversed(places.names_of_station(crs))
    }
    database.fill("station_names", "station_crs name search".split(), rows_of(found.values()))


def load_dates(database: Database, window: Window, midnights: int) -> None:
    """Fills the tables of dates. A train has calls after at most so many midnights."""
    days = [(day.isoformat(), day.isoweekday()) for day in window.days]
    database.fill("days", ("date", "weekday"), rows_of(days))
    rows: list[Row] = []
    for day in window.days:
        for indicator, later in DAYS_LATER.items():
            other = day + timedelta(days=later)
            others = (indicator, other.isoformat(), other.isoweekday())
            rows.append((day.isoformat(), day.isoweekday(), *others))
    names = "date weekday date_indicator associated_date associated_weekday".split()
    database.fill("associated_days", names, rows_of(rows))
    by_clock = Filler(database, "clock_days", "date midnights train_date weekday".split())
    for day in window.days:
        dates = [(day + timedelta(days=later)).isoformat() for later in range(midnights + 1)]
        train_day = (day.isoformat(), day.isoweekday())
        by_clock.add(rows_of((date, later, *train_day) for later, date in enumerate(dates)))
    by_clock.flush()


def load_weekdays(database: Database, all_days_run: Iterable[str]) -> None:
    """Fills the table of the weekdays of each days run."""
    rows = [
        (days_run, weekday)
        for days_run in sorted(set(all_days_run))
        for weekday, bit in enumerate(days_run, 1)
        if bit == "1"
    ]
    database.fill("weekdays", ("days_run", "weekday"), rows_of(rows))


# What trains are counted by: the operator, whether they are for passengers, and whether they run as required.
Counted = tuple[str, int, int]


def trains_per_day(counter: TrainsPerDay[Counted]) -> Iterator[Row]:
    """The rows of dates with trains, by what they are counted by."""
    for counted, counts in counter.counts():
        for day, count in zip(counter.window.days, counts):
            if count:
                yield (day, *counted, count)


# ---- journeys


class Spooled(NamedTuple):
    """A table that was read before the calls: the names of its fields, and its rows in a file."""

    names: list[str]
    file: IO[bytes]

    def table(self) -> Table:
        self.file.seek(0)
        return Table(self.names, self.file)


def spooled(extract: Extract, name: str, stack: ExitStack) -> Spooled:
    """A table in a temporary file, so that `cif` runs for one table at a time."""
    file = stack.enter_context(scratch_file())
    with extract.table(name) as table:
        for block in iter(lambda: table.lines.read(BLOCK), b""):
            file.write(block)
        return Spooled(table.names, file)


class Follower:
    """The rows of a table that not every schedule has, one schedule after the other."""

    def __init__(self, table: Table) -> None:
        self.groups = calls_by_schedule(table)
        self.next = next(self.groups, None)

    def take(self, schedule: bytes) -> bytes:
        """The rows of a schedule without its number, or nothing."""
        if self.next is None or self.next[0] != schedule:
            return b""
        text = numbered(*self.next)
        self.next = next(self.groups, None)
        return text


def with_number(number: int, text: bytes) -> bytes:
    """Rows with the number of their journey."""
    start = b"%d\t" % number
    return start + text[:-1].replace(b"\n", b"\n" + start) + b"\n" if text else b""


def in_sequence(number: int, text: bytes) -> bytes:
    """Rows with the number of their journey, and their own from 1."""
    rows = enumerate(text.splitlines(keepends=True), 1)
    return b"".join(b"%d\t%d\t%s" % (number, place, row) for place, row in rows)


class Moment(NamedTuple):
    """A moment HH:MM:SS in seconds, and by the clock. Hours may go on past 24."""

    seconds: bytes
    clock: bytes


class Moments(dict[bytes, Moment]):
    """Each moment that is met. `midnights` is how many are before the last one."""

    def __init__(self) -> None:
        super().__init__()
        self.midnights = 0

    def __missing__(self, text: bytes) -> Moment:
        hours, minutes, seconds = (int(part) for part in text.split(b":"))
        self.midnights = max(self.midnights, hours // 24)
        clock = b"%02d:%02d:%02d" % (hours % 24, minutes, seconds)
        moment = self[text] = Moment(b"%d" % (hours * 3600 + minutes * 60 + seconds), clock)
        return moment


class Journey(NamedTuple):
    """What schedules with one journey share: its number, whether it is for passengers, and then its
    origin, its departure, its destination and its arrival as they stand, and its ends for riders.
    """

    number: int
    passenger: int
    ends: str


# The fields of a row of `public` from the number of the call on, and those of `public_calls`.
PUBLIC = "call location platform arrival departure set_down pick_up".split()
PUBLIC_CALLS = (
    "journey number station_crs location platform arrival_seconds departure_seconds departure_time"
    " set_down pick_up get_off get_on".split()
)


class PublicCalls:
    """Turns rows of `public` into those of `public_calls`."""

    def __init__(self, places: Places) -> None:
        self.places = places
        self.stations: dict[bytes, bytes] = {}
        self.moments = Moments()

    def station(self, location: bytes) -> bytes:
        """The code of the station of a location, or nothing."""
        found = self.stations.get(location)
        if found is None:
            found = self.places.tiploc(location.decode()).station_crs.encode()
            self.stations[location] = found
        return found

    def rows(self, number: int, public: bytes, sort: Sort) -> tuple[bytes, int, str]:
        """The rows of a journey, how many of its calls are for riders, and their ends."""
        rows: list[bytes] = []
        calls = 0
        journey = b"%d" % number
        for line in public.splitlines():
            call, location, platform, arrival, departure, set_down, pick_up = line.split(b"\t")
            off = set_down != NEVER and (at_arrival(sort, int(call)) if sort[1:] else sort[0][1])
            on = pick_up != NEVER and (at_departure(sort, int(call)) if sort[1:] else sort[0][1])
            calls += off or on
            times = (self.moments[arrival].seconds, *self.moments[departure])
            cells = (journey, call, self.station(location), location, platform, *times)
            flags = b"1\n" if on else b"0\n"
            rows.append(b"\t".join((*cells, set_down, pick_up, b"1" if off else b"0", flags)))
        return b"".join(rows), calls, riders_ends(public)


def riders_ends(public: bytes) -> str:
    """The first location where riders get on, and the last one where they get off, as they stand,
    whatever the train is. Where there is none, the first and the last one count."""
    cells = [line.split(b"\t") for line in public.splitlines()]
    if not cells:
        return "\t"
    first = next((row for row in cells if row[6] != NEVER), cells[0])
    last = next((row for row in reversed(cells) if row[5] != NEVER), cells[-1])
    return f"{first[1].decode()}\t{last[1].decode()}"


class Journeys:
    """Fills the tables of journeys, each journey of a UID once."""

    def __init__(
        self,
        database: Database,
        places: Places,
        calls: list[str],
        public: list[str],
        changes: list[str],
    ) -> None:
        if public[1:] != PUBLIC:
            raise Unexpected("cif writes another table of public calls: is it another release?")
        self.journeys = Filler(database, "journeys", ("id", "uid"))
        self.calls = Filler(database, "calls", in_database(calls))
        journey, *others = in_database(changes)
        self.changes = Filler(database, "changes", [journey, "sequence", *others])
        self.public_calls = Filler(database, "public_calls", PUBLIC_CALLS)
        self.public = PublicCalls(places)
        self.origin = itemgetter(*(calls.index(name) - 1 for name in ("location", "departure")))
        self.destination = itemgetter(*(calls.index(name) - 1 for name in ("location", "arrival")))
        self.change = itemgetter(changes.index("call") - 1, changes.index("category") - 1)
        # the location stands after so many cells
        before = calls.index("location") - 1
        self.location = re.compile(rb"^(?:[^\t\n]*\t){%d}([^\t\n]*)" % before, re.MULTILINE)
        self.locations: Counter[bytes] = Counter()
        self.places = places
        self.uid = ""
        self.of_uid: dict[tuple[bytes, bytes, Sort], Journey] = {}
        self.count = 0

    def journey(
        self, uid: str, sort: tuple[str, str], calls: bytes, public: bytes, changes: bytes
    ) -> Journey:
        """The journey with these rows of a train with this status and category, which is added if it
        is new. Schedules come UID by UID."""
        if uid != self.uid:
            self.uid = uid
            self.of_uid.clear()
        for_riders = sort_of(*sort, self.categories(changes) if changes else ())
        found = self.of_uid.get((calls, changes, for_riders))
        if found is None:
            found = self.of_uid[calls, changes, for_riders] = self.add(
                calls, public, changes, for_riders
            )
        return found

    def categories(self, changes: bytes) -> Iterator[tuple[int, str]]:
        """The categories that a train gets en route, each with the number of the next call."""
        for line in changes.decode().splitlines():
            number, category = self.change(line.split("\t"))
            yield int(number), category

    def add(self, calls: bytes, public: bytes, changes: bytes, sort: Sort) -> Journey:
        self.count += 1
        self.journeys.add(f"{self.count}\t{self.uid}\n".encode())
        self.calls.add(with_number(self.count, calls))
        self.locations.update(self.location.findall(calls))
        rows, for_riders, ends = self.public.rows(self.count, public, sort)
        self.public_calls.add(rows)
        if self.midnights > MOST_MIDNIGHTS:
            most = f"a database has at most {MOST_MIDNIGHTS} in a train"
            raise Refused(f"{self.uid} has calls after {self.midnights} midnights: {most}")
        self.changes.add(in_sequence(self.count, changes))
        return Journey(self.count, int(for_riders >= 2), f"{self.ends_of(calls)}\t{ends}")

    def unknown(self) -> dict[str, int]:
        """How many calls are at each location that has no TI."""
        names = ((name.decode(), count) for name, count in self.locations.items())
        return {name: count for name, count in names if name not in self.places.listed}

    @property
    def midnights(self) -> int:
        """How many midnights there are within a train at most."""
        return self.public.moments.midnights

    def ends_of(self, calls: bytes) -> str:
        first = calls[: calls.index(b"\n")].decode().split("\t")
        last = calls[calls.rfind(b"\n", 0, -1) + 1 : -1].decode().split("\t")
        return "\t".join((*self.origin(first), *self.destination(last)))

    def flush(self) -> None:
        for filler in self.journeys, self.calls, self.public_calls, self.changes:
            filler.flush()


NAMES = {"operator_code": "operator", "schedule": "journey", "call": "number"}
# What `schedules` has besides the fields of the table.
FURTHER = (
    "operator_name passenger as_required journey origin departure destination arrival riders_origin"
    " riders_destination".split()
)
# The characteristics of a train that may run and needn't: as required, or as required to terminals.
AS_REQUIRED = set("QY")


def in_database(names: list[str]) -> list[str]:
    """The names that the fields of a table of `cif` have in the database."""
    return [NAMES.get(name, name) for name in names]


# ---- schedules


class Schedules:
    """Fills the table of schedules, and counts trains."""

    KEY = ("operator_code", "characteristics", "first_date", "last_date", "days_run")

    def __init__(
        self,
        database: Database,
        window: Window,
        given: UserFiles,
        names: list[str],
    ) -> None:
        self.given = given
        self.per_day: TrainsPerDay[Counted] = TrainsPerDay(window)
        self.days_run: set[str] = set()
        self.names_of: dict[str, str] = {"": ""}
        self.schedules = Filler(database, "schedules", ["id", *in_database(names[1:]), *FURTHER])
        self.key = itemgetter(*(names.index(name) for name in self.KEY))

    def operator_name(self, code: str) -> str:
        if code not in self.names_of:
            self.names_of[code] = operator_name(code, self.given.operators)
        return self.names_of[code]

    def add(self, line: str, cells: list[str], journey: Journey) -> None:
        operator, characteristics, first, last, days_run = self.key(cells)
        as_required = int(bool(AS_REQUIRED & set(characteristics)))
        counted = (operator, journey.passenger, as_required)
        further = (self.operator_name(operator), *counted[1:], journey.number, journey.ends)
        row = "\t".join((line, *map(str, further)))
        self.schedules.add(f"{row}\n".encode())
        self.days_run.add(days_run)
        self.per_day.add(counted, first.encode(), last.encode(), days_run.encode())


class Loaded(NamedTuple):
    """How many calls are at each location that has no TI."""

    unknown: Mapping[str, int]

    def text(self) -> str:
        """How many calls these are, and where most of them are."""
        most = sorted(self.unknown, key=lambda place: (-self.unknown[place], place))[:MOST_PLACES]
        count = sum(self.unknown.values())
        return f"{count} ({', '.join(most)})" if count else "0"


class LoadedTrains(NamedTuple):
    """How many midnights there are within a train at most, each days run of a schedule, and how many
    calls are at each location that has no TI."""

    midnights: int
    days_run: set[str]
    unknown: Mapping[str, int]


def load_trains(
    database: Database,
    window: Window,
    extract: Extract,
    given: UserFiles,
    places: Places,
    associations: list[Association],
    progress: Progress,
) -> LoadedTrains:
    """Loads the schedules of an extract, their journeys, and which portions riders reach."""
    with ExitStack() as stack:
        spooled_schedules = spooled(extract, "schedules", stack)
        changes = spooled(extract, "changes", stack)
        public = spooled(extract, "public", stack)
        count = sum(1 for _ in spooled_schedules.table().lines)
        names = spooled_schedules.names
        schedules = Schedules(database, window, given, names)
        sort_at = itemgetter(names.index("status"), names.index("category"))
        with extract.table("calls") as calls:
            journeys = Journeys(database, places, calls.names, public.names, changes.names)
            portions = Portions(window, associations, calls.names[1:])
            riders, en_route = Follower(public.table()), Follower(changes.table())
            rows = spooled_schedules.table().lines
            for row, (number, text) in zip(rows, calls_by_schedule(calls)):
                if not row.startswith(number + b"\t"):
                    raise Unexpected("cif writes a schedule without calls: is it another release?")
                line = row.decode().rstrip("\n")
                cells = line.split("\t")
                parts = numbered(number, text), riders.take(number), en_route.take(number)
                journey = journeys.journey(cells[1], sort_at(cells), *parts)
                schedules.add(line, cells, journey)
                portions.add(cells, journey.number, bool(journey.passenger), parts[0])
                progress.show_share("loading trains", int(number), count)
    journeys.flush()
    schedules.schedules.flush()
    operators = sorted(row for row in schedules.names_of.items() if row[0])
    database.fill("operators", ("operator", "operator_name"), rows_of(operators))
    database.fill("portions", COLUMNS, rows_of(portions.rows()))
    names = "date operator passenger as_required trains".split()
    database.fill("trains_per_day", names, rows_of(trains_per_day(schedules.per_day)))
    return LoadedTrains(journeys.midnights, schedules.days_run, journeys.unknown())


def load_published(database: Database, extract: Extract) -> None:
    """Fills the table of the published schedules that decide, if the extract was prepared of such."""
    with extract.winners() as winners:
        if winners:
            filler = Filler(database, "published", winners.names)
            lines = winners.lines
            for block in iter(lambda: lines.read(BLOCK), b""):
                filler.add(block + lines.readline())
            filler.flush()


def fill_in_order(
    database: Database, table: str, kind: type[object], records: Iterable[Any]
) -> None:
    """Fills a table with records of a kind, numbered in their order."""
    rows = ((number, *astuple(record)) for number, record in enumerate(records, 1))
    database.fill(table, ["id", *fields_of(kind)], rows_of(rows))


def load(
    extract: Extract,
    source: Callable[[], Source],
    given: UserFiles,
    database: Database,
    progress: Progress,
) -> Loaded:
    """Fills all tables of a database. The source is asked for at the end."""
    progress.show("reading trains and associations")
    header = extract.header()
    window = Window(header.first_date, header.last_date)
    tiplocs = extract.rows("tiplocs", Location)
    places = Places(tiplocs, given.places)
    fill_in_order(database, "tiplocs", Location, tiplocs)
    load_places(database, tiplocs, places)
    associations = extract.rows("associations", Association)
    fill_in_order(database, "associations", Association, associations)
    trains = load_trains(database, window, extract, given, places, associations, progress)
    load_published(database, extract)
    load_dates(database, window, trains.midnights)
    of_associations = {association.days_run for association in associations}
    load_weekdays(database, trains.days_run | of_associations)
    about = [*astuple(header), FORM, moment_of(header), *source()]
    names = (*fields_of(Header), "form", "extracted_at", *Source._fields)
    database.fill("extract", names, rows_of([about]))
    return Loaded(trains.unknown)
