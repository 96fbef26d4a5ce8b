"""Places: the names and coordinates of TIPLOCs, and of the stations that they belong to."""
from __future__ import annotations

import re
from collections.abc import Iterable, Iterator, Mapping, Sequence
from dataclasses import dataclass
from functools import reduce
from typing import NamedTuple

from .model import Location
from .user_csv import Field, Key, Layout, crs_code, degrees, plain_text, read_file

# Words that have small letters, unless a name or a bracket begins with one, and words that stay in
# capitals.
SMALL = set("and at by en for in le next of on the under upon with".split())
CAPITAL = set("C.S. DBS DMU EMD EWS GBRF HST LT LUL NR SDG T.C. TMD US II III".split())
WORD = re.compile(r'[^\s()/&"-]+')
# What stands for the name of a place without a TIPLOC, which CIF can write.
NO_NAME = "Unnamed place"


class PlaceRow(NamedTuple):
    """What the user says of a TIPLOC. `station_crs` is the CRS code of the station that it is a part
    of, which may be another one than its own."""

    tiploc: str
    name: str | None
    latitude: float | None
    longitude: float | None
    station_crs: str | None = None


Coordinates = tuple[float | None, float | None]
NO_COORDINATES: Coordinates = (None, None)


def mistakes_of_place(row: PlaceRow) -> Iterator[str]:
    """What planners refuse of coordinates."""
    if row.latitude is None or row.longitude is None:
        for name, value in ("latitude", row.latitude), ("longitude", row.longitude):
            if value is None and (row.latitude, row.longitude) != NO_COORDINATES:
                yield f"{name} is missing"
    elif abs(row.latitude) >= 89:
        yield f"latitude `{row.latitude:g}` is at a pole"
    elif abs(row.latitude) <= 1 and abs(row.longitude) <= 1:
        yield f"`{row.latitude:g}`, `{row.longitude:g}` is near 0, 0, where no railway is"


PLACES = Layout(
    PlaceRow,
    (
        Field("tiploc", plain_text, needed=True),
        Field("name", plain_text),
        Field("latitude", degrees(90)),
        Field("longitude", degrees(180)),
        Field("station_crs", crs_code, optional=True),
    ),
    ("tiploc",),
    mistakes_of_place,
)


def both(one: PlaceRow, other: PlaceRow) -> PlaceRow:
    """What two files say of a TIPLOC. The first filled cell counts, and of coordinates the first two."""
    located = one if one.latitude is not None else other
    name, station_crs = one.name or other.name, one.station_crs or other.station_crs
    return PlaceRow(one.tiploc, name, located.latitude, located.longitude, station_crs)


def read_places(paths: Sequence[str]) -> dict[Key, PlaceRow]:
    """What the files of the user say of TIPLOCs. Those that come first count first."""

    def joined(known: dict[Key, PlaceRow], further: dict[Key, PlaceRow]) -> dict[Key, PlaceRow]:
        shared = {key: both(known[key], further[key]) for key in known.keys() & further.keys()}
        return {**known, **further, **shared}

    return reduce(joined, (read_file(PLACES, path) for path in paths), {})


def in_small_letters(name: str) -> str:
    """A name that stands in capitals, as it is written otherwise."""

    def written(found: re.Match[str]) -> str:
        word = found[0]
        if word in CAPITAL:
            return word
        if word.lower() in SMALL and found.start() and name[found.start() - 1] != "(":
            return word.lower()
        return re.sub(r"(^|\.)([a-z])", lambda start: start[1] + start[2].upper(), word.lower())

    return WORD.sub(written, name)


# What a TPS name has behind the name of its town, such as (CENTRAL).
BEHIND_TOWN = re.compile(r" *\(.*")


def better_name(tps_name: str, short: str) -> str:
    """The name of a TIPLOC: that of TPS, unless the short one has a word before the town of it, as
    LONDON VICTORIA has of VICTORIA (CENTRAL)."""
    town = BEHIND_TOWN.sub("", tps_name)
    if town and short.endswith(f" {town}") and short.removesuffix(town).strip():
        return short
    return tps_name or short


def search_text(name: str) -> str:
    """A name as it is searched: words of small letters, with a space between two."""
    plain = (
        name.lower().replace("&", " and ").replace("'", "").replace("\u2019", "").replace(".", "")
    )
    return " ".join(re.findall(r"\w+", plain))


@dataclass
class Tiploc:
    """What is known of a TIPLOC: its CRS code and that of its station, or none, its description, all
    names that CIF has for it, and what the user says."""

    name: str
    crs: str
    station_crs: str
    description: str
    names: Sequence[str]
    given_name: str | None
    coordinates: Coordinates


class Station(NamedTuple):
    """The name and the coordinates of a station."""

    name: str
    coordinates: Coordinates


class Places:
    """All TIPLOCs by their names. A station is made of those with one CRS code of a station, which is
    their own unless the user gives another one."""

    def __init__(self, rows: Iterable[Location], given: Mapping[Key, PlaceRow]) -> None:
        self.given = given
        self.tiplocs: dict[str, Tiploc] = {}
        self.of_station: dict[str, list[Tiploc]] = {}
        # those that were asked for, by their CRS codes
        self.stations: dict[str, Station] = {}
        # the station of each code that a TIPLOC has, if it isn't that of a station itself
        self.minor: dict[str, str] = {}
        for row in rows:
            name = row.tiploc.strip()
            if name not in self.tiplocs:
                names = ((row.tps_description or "").strip(), (row.description or "").strip())
                self.add(name, (row.crs_code or "").strip(), *names)
        # those that have a TI
        self.listed = frozenset(self.tiplocs)

    def add(self, name: str, crs: str, tps_name: str = "", short: str = "") -> Tiploc:
        given = self.given.get((name,), PlaceRow(name, None, None, None))
        description = in_small_letters(better_name(tps_name, short) or name or NO_NAME)
        names = [in_small_letters(each) for each in (tps_name, short) if each]
        coordinates = (given.latitude, given.longitude)
        station_crs = given.station_crs or crs
        tiploc = Tiploc(name, crs, station_crs, description, names, given.name, coordinates)
        self.tiplocs[name] = tiploc
        if station_crs:
            self.of_station.setdefault(station_crs, []).append(tiploc)
        if crs and crs != station_crs:
            self.minor.setdefault(crs, station_crs)
        return tiploc

    def tiploc(self, name: str) -> Tiploc:
        """The TIPLOC of this name. Of one that the extract doesn't list no more is known."""
        return self.tiplocs.get(name) or self.add(name, "")

    def station_of(self, crs: str) -> str:
        """The CRS code of the station that a code is of."""
        return crs if crs in self.of_station else self.minor.get(crs, crs)

    def siblings(self, tiploc: Tiploc) -> list[Tiploc]:
        """The TIPLOCs of its station, in the order of the extract, but first those whose own code is
        that of the station."""
        found = self.of_station.get(tiploc.station_crs) or [tiploc]
        return sorted(found, key=lambda each: each.crs != each.station_crs)

    def station_name(self, name: str) -> str:
        """The name of the station of a TIPLOC: the first that the user gives one of its TIPLOCs, or
        else the description of the first one."""
        return self.shown(self.tiploc(name)).name

    def names_of_station(self, crs: str) -> list[str]:
        """All names of a station: its own, and then those of its TIPLOCs."""
        found = [self.station_name(self.of_station[crs][0].name)]
        for tiploc in self.of_station[crs]:
            found += [tiploc.given_name] if tiploc.given_name else []
            found += tiploc.names
        return list(dict.fromkeys(found))

    def coordinates(self, name: str) -> Coordinates:
        """Those of a TIPLOC, or else of the first one of its station that has some."""
        tiploc = self.tiploc(name)
        if tiploc.coordinates != NO_COORDINATES:
            return tiploc.coordinates
        return self.shown(tiploc).coordinates

    def shown(self, tiploc: Tiploc) -> Station:
        """The station of a TIPLOC, which is looked for among all of its TIPLOCs once."""
        found = self.stations.get(tiploc.station_crs)
        if found is None:
            siblings = self.siblings(tiploc)
            names = (each.given_name for each in siblings if each.given_name)
            known = (each.coordinates for each in siblings if each.coordinates != NO_COORDINATES)
            name = next(names, siblings[0].description)
            found = Station(name, next(known, NO_COORDINATES))
            if tiploc.station_crs:
                self.stations[tiploc.station_crs] = found
        return found
