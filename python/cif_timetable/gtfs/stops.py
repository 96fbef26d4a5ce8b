"""Stations and stops: their ids and rows.

A station is made of the TIPLOCs with one CRS code of a station. Below it are these, and their
platforms. A TIPLOC without such a code is a stop by itself, whatever its platforms.
"""
from __future__ import annotations

import re
from typing import NamedTuple

from ..places import NO_COORDINATES, Places, Tiploc

# What stands for a place without a TIPLOC in ids.
NO_TIPLOC = "_"
STOP = 0
STATION = 1
OTHER = re.compile(r"[^A-Za-z0-9 ]")


def coded(text: str) -> str:
    """The text as a part of an id: letters, digits, `_` for a space, and `%XX` for all else."""
    if text.isascii() and text.isalnum():
        return text
    return OTHER.sub(lambda other: f"%{ord(other[0]):02X}", text).replace(" ", "_")


def stop_id(name: str) -> str:
    return coded(name) or NO_TIPLOC


def station_id(crs: str) -> str:
    return f"station:{coded(crs)}"


class StopRow(NamedTuple):
    """A station or a stop as stops.txt has it."""

    id: str
    code: str
    name: str
    latitude: float | None
    longitude: float | None
    location_type: int
    parent: str
    platform: str


class Stops:
    """The stops of a feed. `ids` has those that were asked for, by location and platform."""

    def __init__(self, places: Places) -> None:
        self.places = places
        # plain ones, as Python looks into a subclass of `dict` far slower
        self.ids: dict[bytes, dict[bytes, bytes]] = {}

    def new_id(self, location: bytes, platform: bytes) -> bytes:
        """The id of a stop that `ids` hasn't got."""
        name = location.decode()
        found = stop_id(name)
        if self.places.tiploc(name).station_crs and platform:
            found = f"{found}/{coded(platform.decode())}"
        return self.ids.setdefault(location, {}).setdefault(platform, found.encode())

    def end_of(self, name: str) -> str:
        """The id of the station of a TIPLOC, or of the stop that it is by itself."""
        crs = self.places.tiploc(name).station_crs
        return station_id(crs) if crs else stop_id(name)

    def used(self) -> list[Tiploc]:
        """The TIPLOCs that have a stop, rising."""
        return [self.places.tiploc(name) for name in sorted({name.decode() for name in self.ids})]

    def without_coordinates(self) -> list[Tiploc]:
        """The TIPLOCs in use that have no coordinates, nor their stations."""
        return [
            tiploc
            for tiploc in self.used()
            if self.places.coordinates(tiploc.name) == NO_COORDINATES
        ]

    def station(self, crs: str) -> StopRow:
        first = self.places.of_station[crs][0].name
        latitude, longitude = self.places.coordinates(first)
        name = self.places.station_name(first)
        return StopRow(station_id(crs), crs, name, latitude, longitude, STATION, "", "")

    def stations(self) -> list[StopRow]:
        """The stations in use, rising by CRS code."""
        codes = {tiploc.station_crs for tiploc in self.used()} - {""}
        return [self.station(crs) for crs in sorted(codes)]

    def stop(self, location: str, platform: str, stop: bytes) -> StopRow:
        tiploc = self.places.tiploc(location)
        latitude, longitude = self.places.coordinates(location)
        name = tiploc.given_name or self.places.station_name(location)
        parent = station_id(tiploc.station_crs) if tiploc.station_crs else ""
        below = platform if parent else ""
        return StopRow(stop.decode(), tiploc.crs, name, latitude, longitude, STOP, parent, below)

    def rows(self) -> list[StopRow]:
        """The rows of stops.txt: stations, and then the stops that calls have."""
        # a TIPLOC without a CRS code has one stop for all its platforms
        stops = {
            self.stop(location.decode(), platform.decode(), stop)
            for location, of_platforms in self.ids.items()
            for platform, stop in of_platforms.items()
        }
        return self.stations() + sorted(stops, key=lambda stop: stop.id)
