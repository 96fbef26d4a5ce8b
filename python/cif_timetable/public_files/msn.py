"""RSP's MSN, of stations: records of fixed columns, of which the first record A is a heading.

What can't be read of a line is left out: the end of the file has lines that are no records, and a
place abroad has a place on no grid.
"""
from __future__ import annotations

import re
from collections.abc import Iterator
from typing import NamedTuple

from ..errors import Refused
from ..places import in_small_letters
from .grid import latitude_and_longitude
from .public_file import PLACES, Notes, Odd, Row, checked_text, lines_of

CRS = re.compile(r"[A-Z0-9]{3}")
RECORD = "A    "
# Records of other letters, comments and blank lines, which say nothing of places.
OTHER_LINE = re.compile(r"[B-Z ]|/!!|$")
# The grid counts in hundreds of metres from here.
EASTING = 10000
NORTHING = 60000
# It ends so many hundreds of metres on.
EAST = 7000
NORTH = 13000
UNKNOWN = ("", "00000")


class Station(NamedTuple):
    """The fields of a record A, and the number of its line. `station_crs` is the code of the station
    that the TIPLOC is a part of."""

    line: int
    name: str
    tiploc: str
    station_crs: str
    easting: str
    northing: str
    minutes: str


# The first and the last column of each field, counted from 1.
COLUMNS = ((6, 35), (37, 43), (50, 52), (53, 57), (59, 63), (64, 65))


def stations(path: str, notes: Notes) -> Iterator[Station]:
    heading = True
    for number, line in lines_of(path):
        if line.startswith(RECORD):
            if not heading:
                fields = (line[first - 1 : last].strip() for first, last in COLUMNS)
                yield Station(number, *fields)
            heading = False
        elif not OTHER_LINE.match(line):
            notes.left_out.append(number)
    if heading:
        raise Refused(f"{path}: this is no MSN: it has no record A")


def hundreds(value: str, start: int, most: int) -> int:
    """How many hundreds of metres a coordinate is from the beginning of the grid."""
    found = int(value) - start if re.fullmatch("[0-9]{5}", value) else -1
    if not 0 < found < most:
        raise Odd("not on the grid")
    return found


def coordinates(station: Station, notes: Notes) -> tuple[str, str]:
    """Latitude and longitude, or nothing where the grid is unknown or can't be read."""
    if station.easting in UNKNOWN and station.northing in UNKNOWN:
        return "", ""
    try:
        easting = hundreds(station.easting, EASTING, EAST)
        northing = hundreds(station.northing, NORTHING, NORTH)
    except Odd:
        notes.without_coordinates.append(station.line)
        return "", ""
    latitude, longitude = latitude_and_longitude(easting * 100, northing * 100)
    return f"{latitude:.4f}", f"{longitude:.4f}"


def places(path: str, notes: Notes) -> list[Row]:
    """The places of the TIPLOCs, with the codes of their stations."""
    found: dict[str, Row] = {}
    for station in stations(path, notes):
        try:
            tiploc = checked_text(station.tiploc)
            name = in_small_letters(checked_text(station.name))
        except Odd:
            tiploc = name = ""
        if not tiploc:
            notes.left_out.append(station.line)
        elif tiploc not in found:
            crs = station.station_crs if CRS.fullmatch(station.station_crs) else ""
            found[tiploc] = (tiploc, name, *coordinates(station, notes), crs)
    return [(*PLACES, "station_crs"), *(found[tiploc] for tiploc in sorted(found))]


def interchange(path: str, notes: Notes) -> list[Row]:
    """The minimum times of change of stations; where two records of one differ, the longer one."""
    found: dict[str, int] = {}
    for station in stations(path, notes):
        if CRS.fullmatch(station.station_crs) and re.fullmatch("[0-9]{1,2}", station.minutes):
            minutes = int(station.minutes)
            found[station.station_crs] = max(minutes, found.get(station.station_crs, 0))
        else:
            notes.left_out.append(station.line)
    return [("crs", "minutes"), *sorted(found.items())]
