"""What the tests share: counting, running the programs, and looking at a whole feed."""
from __future__ import annotations

import csv
import signal
import subprocess
import zipfile
from collections import Counter, defaultdict
from datetime import date, timedelta
from pathlib import Path
from typing import (
    AbstractSet,
    AnyStr,
    Dict,
    FrozenSet,
    Iterable,
    List,
    Mapping,
    Sequence,
    Tuple,
    TypeVar,
    Union,
)

from . import network
from .definition import Content, Days, Expected, Row, days_of, expected, table_rows
from .feeds import EXTENDED_TYPES, TYPES, Feed, Names, Shown, active_services, coded, rows_of, shown
from .journeys import by_definition, by_feed, transfers_of
from .validator import ERROR, notices

TOP = Path(__file__).resolve().parents[2]
PACKAGES = TOP / "python"
PROGRAMS = PACKAGES / "bin"
FILES = (
    "stop_times",
    "trips",
    "calendar_dates",
    "calendar",
    "agency",
    "stops",
    "routes",
    "transfers",
    "feed_info",
)
# The warnings that are known: nobody is named who answers for a feed.
KNOWN_WARNINGS = {"missing_feed_contact_email_and_url"}

Item = TypeVar("Item")
# A word of a command.
Word = Union[Path, str]


class Counts:
    """The tests that passed and failed. A failure is printed with what is wrong."""

    def __init__(self) -> None:
        self.passed = self.failed = 0

    def test(self, name: str, right: object, found: object = "") -> None:
        self.passed, self.failed = self.passed + bool(right), self.failed + (not right)
        if not right:
            print(f"{name}: {str(found)[:1500]}")

    def same(self, name: str, want: object, got: object) -> None:
        self.test(name, want == got, f"wanted {want!r}, got {got!r}")


class Source:
    """What cif says of an extract."""

    def __init__(self, cif: Path, path: Path) -> None:
        self.cif, self.path = cif, path

    def lines(self, *words: str) -> List[str]:
        done = subprocess.run(
            [self.cif, *words, self.path], capture_output=True, check=True, text=True
        )
        return done.stdout.splitlines()


def interrupted(process: subprocess.Popen[AnyStr], *numbers: signal.Signals) -> AnyStr:
    """What a process prints that gets these signals. It gets them again if it goes on: Python misses a
    signal that comes between two reads of a pipe, until there is more to read."""
    for _ in range(6):
        for number in numbers:
            process.send_signal(number)
        try:
            return process.communicate(timeout=10)[1]
        except subprocess.TimeoutExpired:
            pass
    process.kill()
    return process.communicate()[1]


class Maker:
    """Runs cif-gtfs in a folder."""

    def __init__(self, cif: Path, folder: Path) -> None:
        self.cif, self.folder = cif, folder

    def run(self, *words: Word, program: str = "cif-gtfs") -> subprocess.CompletedProcess[str]:
        named: List[Word] = ["--cif", self.cif] if program == "cif-gtfs" else []
        call = [PROGRAMS / program, *named, *words]
        return subprocess.run(call, cwd=self.folder, capture_output=True, text=True, check=False)

    def feed(self, *words: Word) -> Tuple[subprocess.CompletedProcess[str], Dict[str, str]]:
        """The answer, and the files of the zip it has made, as texts by their names."""
        made = self.folder / "feed.zip"
        made.unlink(missing_ok=True)
        done = self.run("-o", made.name, *words)
        if not made.exists():
            raise RuntimeError(f"cif-gtfs {words} ends with {done.returncode}: {done.stderr}")
        with zipfile.ZipFile(made) as archive:
            return done, {
                name.removesuffix(".txt"): archive.read(name).decode()
                for name in archive.namelist()
            }


def made_places(names: Iterable[str]) -> List[Row]:
    """A row of places.csv for each place, with a name and coordinates of its own, near to the others."""
    return [
        {
            "tiploc": name,
            "name": f"The place {number}",
            "latitude": f"{51 + number / 100000:.5f}",
            "longitude": "-0.5",
        }
        for number, name in enumerate(sorted(names))
    ]


def write_csv(path: Path, rows: Sequence[Mapping[str, object]]) -> None:
    with path.open("w", newline="", encoding="utf-8") as file:
        writer = csv.DictWriter(file, rows[0])
        writer.writeheader()
        writer.writerows(rows)


def first_difference(want: AbstractSet[Item], got: AbstractSet[Item]) -> str:
    """What one of two has and the other lacks, for the first few."""
    return f"lacks {list(want - got)[:2]}, has {list(got - want)[:2]}"


def same_counts(counts: Counts, name: str, want: Counter[Item], got: Counter[Item]) -> None:
    counts.test(name, want == got, first_difference(want.items(), got.items()))


def left_out_of(text: str, what: str) -> int:
    """How many dates of associations, or of trains, are reported to be left out."""
    return sum(
        int(line.rpartition(": ")[2]) for line in text.splitlines() if f"{what} left out" in line
    )


def check_feed(counts: Counts, maker: Maker, source: Source) -> None:
    """A feed is valid; on each date it has the trips and the links that the definition has; and it has no trip twice."""
    name, days = source.path.name, days_of(source)
    locations = {
        stop.cells["location"]
        for day in days.values()
        for train in day.trains.values()
        for stop in train.stops
    }
    places, tiplocs = made_places(locations), table_rows(source.lines("table", "tiplocs"))
    write_csv(maker.folder / "places.csv", places)
    names = Names(tiplocs, places)
    for options, types in ((), TYPES), (("--extended-types",), EXTENDED_TYPES):
        done, files = maker.feed(
            "--places", "places.csv", "--trips", "trips.csv", *options, source.path
        )
        counts.same(f"{name}, status", 0, done.returncode)
        counts.same(f"{name}, the files", FILES, tuple(files))
        found = notices(files)
        counts.test(
            f"{name}, errors",
            not [notice for notice in found if notice.severity == ERROR],
            found[:3],
        )
        others = [notice for notice in found if notice.rule not in KNOWN_WARNINGS]
        counts.test(f"{name}, warnings", not others, others[:3])
        uids = {coded(uid): uid for day in days.values() for uid in day.trains}
        want = expected(days, types)
        feed = Feed(files, uids)
        compare(counts, name, days, feed, names, want)
        check_records(counts, name, days, feed, rows_of((maker.folder / "trips.csv").read_text()))
        counts.same(
            f"{name}, associations left out",
            want.left_out,
            left_out_of(done.stderr, "associations"),
        )
        not_for_riders = sum(day.not_for_riders for day in days.values())
        counts.same(f"{name}, trains left out", not_for_riders, left_out_of(done.stderr, "trains"))


def compare(
    counts: Counts, name: str, days: Days, feed: Feed, names: Names, want: Expected
) -> None:
    """Date by date what a feed has and what it has to have."""

    def as_shown(contents: Iterable[Content]) -> Tuple[Shown, ...]:
        return tuple(shown(content, names) for content in contents)

    for day in days:
        got = feed.on(day)
        trips = Counter(as_shown(want.trips[day].elements()))
        same_counts(counts, f"{name}, trips on {day}", trips, got.trips)
        links = Counter(map(as_shown, want.links[day]))
        same_counts(counts, f"{name}, links on {day}", links, Counter(got.links))
        blocks = Counter(map(as_shown, want.blocks[day].elements()))
        same_counts(counts, f"{name}, blocks on {day}", blocks, got.blocks)
    counts.test(f"{name}, links on no date", not feed.idle_links(days), feed.idle_links(days)[:2])
    counts.same(f"{name}, the number of distinct trips", want.distinct, len(feed.trips))
    dates: Counter[FrozenSet[date]] = Counter()
    for service in feed.of_service:
        dates[frozenset(day for day in days if service in active_services(feed.rows, day))] += 1
    counts.test(
        f"{name}, services",
        frozenset() not in dates and set(dates.values()) <= {1},
        dates.most_common(1),
    )


def check_records(counts: Counts, name: str, days: Days, feed: Feed, rows: List[Row]) -> None:
    """On each date each trip is of one schedule, which applies on the date of its train."""
    of_trip, idle = defaultdict(list), {tuple(row.values()) for row in rows}
    for row in rows:
        of_trip[row["trip_id"]].append(row)
    for day in days:
        wrong = []
        for trip in feed.running(day):
            found = [
                row
                for row in of_trip[trip]
                if applies(row, day + timedelta(days=int(row["days_later"])))
            ]
            idle -= {tuple(row.values()) for row in found}
            if len(found) != 1 or not is_of_train(found[0], days, day):
                wrong.append((trip, found))
        counts.test(f"{name}, schedules of trips on {day}", not wrong, wrong[:2])
    counts.test(f"{name}, schedules of trips on no date", not idle, list(idle)[:2])


def is_of_train(row: Row, days: Days, day: date) -> bool:
    """Whether a row has what the schedule of its train has."""
    train = days[day + timedelta(days=int(row["days_later"]))].public[row["uid"]].row
    names = ("first_date", "last_date", "days_run")
    return [train[field] for field in (*names, "reserved_a")] == [
        row[field] for field in (*names, "retail_service_id")
    ]


def applies(row: Row, day: date) -> bool:
    return (
        row["first_date"] <= day.isoformat() <= row["last_date"]
        and row["days_run"][day.weekday()] == "1"
    )


# ---- earliest arrivals

CHANGE, WALK = 5, 12


def check_journeys(
    counts: Counts, maker: Maker, source: Source, queries: List[Tuple[str, int]]
) -> None:
    """Who searches a feed arrives when the definition says, whether the planner knows linked trips, or blocks alone, or none."""
    days = days_of(source)
    places = made_places(network.STATIONS)
    write_csv(maker.folder / "places.csv", places)
    write_csv(
        maker.folder / "interchange.csv",
        [{"crs": crs, "minutes": CHANGE} for crs in network.CRS.values()],
    )
    walk = {"from": network.CRS["MAIN0"], "to": network.CRS["WEST2"], "minutes": WALK}
    write_csv(maker.folder / "links.csv", [walk])
    names = Names(table_rows(source.lines("table", "tiplocs")), places)
    options = ("--places", "places.csv", "--interchange", "interchange.csv", "--links", "links.csv")
    uids = {coded(uid): uid for day in days.values() for uid in day.trains}
    cut, whole = (
        Feed(maker.feed(*options, *more, source.path)[1], uids)
        for more in ((), ("--whole-trains",))
    )
    counts.same(
        "whole trains, links and blocks", ([], {""}), (whole.links, set(whole.block.values()))
    )
    change = {names.station(place): CHANGE * 60 for place in network.STATIONS}
    walks = {names.station("MAIN0"): {names.station("WEST2"): WALK * 60}}
    counts.same("times of change and links", (change, walks), transfers_of(cut))
    linked, alone = by_definition(days, names), by_definition(days, names, linked=False)
    planners = (
        ("linked trips", linked, by_feed(cut, days), False),
        ("blocks", alone, by_feed(cut, days, links=False, blocks=True), False),
        ("whole trains", linked, by_feed(whole, days), True),
    )
    later = 0
    for query in queries:
        for name, truth, planner, pairs in planners:
            want = truth.earliest(names.station(query[0]), query[1], change, walks, pairs)
            got = planner.earliest(names.station(query[0]), query[1], change, walks)
            unequal = {
                place: (want.get(place), got.get(place))
                for place in {*want, *got}
                if want.get(place) != got.get(place)
            }
            counts.test(f"arrivals from {query} by {name}", want and not unequal, unequal)
        without = alone.earliest(names.station(query[0]), query[1], change, walks)
        later += sum(without.get(place) != arrival for place, arrival in want.items())
    counts.test("arrivals that linked trips bring forward", later > 0, later)
