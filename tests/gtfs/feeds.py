"""What a feed says: the trips of each date by GTFS's own rule, and the links between them, as the definition has them."""
from __future__ import annotations

import csv
import io
from collections import Counter, defaultdict
from datetime import date
from typing import DefaultDict, Dict, List, NamedTuple, Set, Tuple

from .definition import Content, Days, Row, seconds_of
from .validator import WEEKDAYS

TYPES = {"rail": "2", "sleeper": "2", "metro": "1", "bus": "3", "replacement": "3", "ship": "4"}
EXTENDED_TYPES = {**TYPES, "sleeper": "105", "replacement": "714"}


class Shown(NamedTuple):
    """What a trip shows. Calls have stop, arrival and departure in seconds, set down and pick up."""

    uid: str
    identity: str
    agency: str
    type: str
    ends: Tuple[str, ...]
    direction: str
    headsign: str
    calls: Tuple[Tuple[str, int, int, str, str], ...]


def rows_of(text: str) -> List[Row]:
    return list(csv.DictReader(io.StringIO(text, newline="")))


def coded(text: str) -> str:
    """How an id has a text: letters and digits, _ for a space, and % with two digits for all else."""
    return "".join(
        sign if sign.isalnum() and sign.isascii() else "_" if sign == " " else f"%{ord(sign):02X}"
        for sign in text
    )


# ---- from the definition


class Names:
    """The ids and names of places, of the rows of `tiplocs` and of places.csv."""

    def __init__(self, tiplocs: List[Row], places: List[Row]) -> None:
        self.crs: Dict[str, str] = {}
        self.given = {row["tiploc"].strip(): row["name"].strip() for row in places}
        for row in tiplocs:
            self.crs.setdefault(row["tiploc"].strip(), row["crs_code"].strip())

    def station(self, tiploc: str) -> str:
        return f"station:{coded(self.crs[tiploc])}" if self.crs.get(tiploc) else coded(tiploc)

    def stop(self, tiploc: str, platform: str) -> str:
        return (
            f"{coded(tiploc)}/{coded(platform)}"
            if platform and self.crs.get(tiploc)
            else coded(tiploc)
        )

    def name(self, tiploc: str) -> str:
        """The name of a station is that of its first TIPLOC to which the user gives one."""
        same = [
            other for other, crs in self.crs.items() if crs and crs == self.crs.get(tiploc)
        ] or [tiploc]
        return next(self.given[other] for other in same if self.given.get(other))


def shown(content: Content, names: Names) -> Shown:
    """What the trip of a content shows."""
    ends = [names.station(content.first), names.station(content.last)]
    calls = tuple(
        (names.stop(location, platform), arrival, departure, set_down, pick_up)
        for location, platform, arrival, departure, set_down, pick_up in content.calls
    )
    return Shown(
        content.uid,
        content.identity,
        coded(content.operator) or "unknown",
        content.type,
        tuple(sorted(ends)),
        str(int(ends[0] != min(ends))),
        names.name(content.last),
        calls,
    )


# ---- from the files


def active_services(feed: Dict[str, List[Row]], day: date) -> Set[str]:
    """The services that are active on a date."""
    word, weekday = f"{day:%Y%m%d}", WEEKDAYS[day.weekday()]
    active = {
        row["service_id"]
        for row in feed["calendar"]
        if row[weekday] == "1" and row["start_date"] <= word <= row["end_date"]
    }
    for row in feed["calendar_dates"]:
        if row["date"] == word:
            (active.add if row["exception_type"] == "1" else active.discard)(row["service_id"])
    return active


class OnDate(NamedTuple):
    """What a feed has on a date."""

    trips: Counter[Shown]
    links: Set[Tuple[Shown, ...]]
    blocks: Counter[Tuple[Shown, ...]]


class Feed:
    """A feed by its rows, with the UIDs of its trains by the texts that ids have of them."""

    def __init__(self, files: Dict[str, str], uids: Dict[str, str]) -> None:
        self.rows = {name: rows_of(text) for name, text in files.items()}
        calls: DefaultDict[str, List[Tuple[int, str, int, int, str, str]]] = defaultdict(list)
        for row in self.rows["stop_times"]:
            call = (
                int(row["stop_sequence"]),
                row["stop_id"],
                seconds_of(row["arrival_time"]),
                seconds_of(row["departure_time"]),
                row["drop_off_type"],
                row["pickup_type"],
            )
            calls[row["trip_id"]].append(call)
        routes = {row["route_id"]: row for row in self.rows["routes"]}
        self.trips: Dict[str, Shown] = {}
        self.of_service: DefaultDict[str, List[str]] = defaultdict(list)
        self.block: Dict[str, str] = {}
        for row in self.rows["trips"]:
            route = routes[row["route_id"]]
            ends = tuple(row["route_id"].split("-")[-2:])
            about = (
                route["agency_id"],
                route["route_type"],
                ends,
                row["direction_id"],
                row["trip_headsign"],
            )
            of_trip = tuple(call[1:] for call in sorted(calls[row["trip_id"]]))
            name = row["trip_id"]
            self.block[name] = row.get("block_id", "")
            self.trips[name] = Shown(
                uids[name.rpartition("-")[0]], row["trip_short_name"], *about, of_trip
            )
            self.of_service[row["service_id"]].append(name)
        self.links = [
            (row["from_trip_id"], row["to_trip_id"])
            for row in self.rows["transfers"]
            if row["transfer_type"] == "4"
        ]

    def idle_links(self, days: Days) -> List[Tuple[str, str]]:
        """The links whose trips never run on one date."""
        running = [self.running(day) for day in days]
        return [link for link in self.links if not any(set(link) <= names for names in running)]

    def running(self, day: date) -> Set[str]:
        """The ids of the trips of a date."""
        return {
            name for service in active_services(self.rows, day) for name in self.of_service[service]
        }

    def span(self, name: str) -> Tuple[int, int]:
        """When a trip leaves its first stop and arrives at its last."""
        calls = self.trips[name].calls
        return calls[0][2], calls[-1][1]

    def on(self, day: date) -> OnDate:
        """What is there on a date: the trips, the links whose trips both run on it, and the trips of each block in order."""
        names = self.running(day)
        links: Set[Tuple[Shown, ...]] = {
            (self.trips[one], self.trips[other])
            for one, other in self.links
            if {one, other} <= names
        }
        blocks = defaultdict(list)
        for name in sorted(names, key=self.span):
            if self.block[name]:
                blocks[self.block[name]].append(self.trips[name])
        return OnDate(
            Counter(self.trips[name] for name in names),
            links,
            Counter(tuple(block) for block in blocks.values()),
        )
