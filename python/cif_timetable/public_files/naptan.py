"""NaPTAN's stops: a CSV file. The ATCO code of a railway station is 9100 and its TIPLOC. A row may
have its place on the Ordnance Survey's grid alone. A row that can't be read is left out, and one whose
place can't be read has none."""
from __future__ import annotations

import csv
import re
from collections.abc import Iterator
from typing import NamedTuple

from ..places import PlaceRow, mistakes_of_place
from ..user_csv import Lines, Mistake, Unreadable, degrees
from .grid import latitude_and_longitude
from .public_file import MOST_BYTES, PLACES, Notes, Odd, Row, checked_text, refusal

NEEDED = ("ATCOCode", "CommonName", "Longitude", "Latitude")
FURTHER = ("Easting", "Northing", "GridType")
RAILWAY = "9100"
END_OF_NAME = " Rail Station"
# Grids of other islands begin so.
OTHER_GRID = "I"
# The ends of the grid, in metres.
EAST = 700_000
NORTH = 1_300_000


class Station(NamedTuple):
    """The fields of a railway station."""

    code: str
    name: str
    longitude: str
    latitude: str
    easting: str
    northing: str
    grid: str


def rows_of(path: str) -> Iterator[tuple[int, list[str]]]:
    """The rows, each with the number of its first line."""
    first_line = 1
    with open(path, "rb") as file:
        lines = Lines(file, "replace", MOST_BYTES)
        try:
            for cells in csv.reader(lines, strict=True):
                yield first_line, cells
                first_line = lines.number + 1
        except Unreadable as problem:
            raise refusal(path, lines.number, str(problem)) from None
        except csv.Error as problem:
            raise refusal(path, first_line, f"this is no CSV: {problem}") from None


def places(path: str, notes: Notes) -> list[Row]:
    """The places of the railway stations."""
    rows = rows_of(path)
    names: list[str] = next((cells for _, cells in rows), [])
    for name in NEEDED:
        if names.count(name) != 1:
            raise refusal(path, 1, f"the field {name} is missing or a duplicate")
    code_at = names.index(NEEDED[0])
    found: dict[str, Row] = {}
    for line, cells in rows:
        if len(cells) <= code_at or not cells[code_at].startswith(RAILWAY):
            continue
        given = dict(zip(names, cells))
        station = Station(*(given.get(name, "").strip() for name in (*NEEDED, *FURTHER)))
        if station.code in found:
            continue
        try:
            if len(cells) != len(names):
                raise Odd("more or fewer fields than the first line has")
            found[station.code] = place_of(line, station, notes)
        except Odd:
            notes.left_out.append(line)
    return [PLACES, *(found[code] for code in sorted(found))]


def place_of(line: int, station: Station, notes: Notes) -> Row:
    """The row of a station."""
    tiploc = checked_text(station.code)[len(RAILWAY) :]
    if not tiploc:
        raise Odd("the TIPLOC is missing")
    name = checked_text(station.name)
    if name.endswith(END_OF_NAME):
        name = name[: -len(END_OF_NAME)]
    try:
        return (tiploc, name, *coordinates_of(station))
    except (Mistake, Odd):
        notes.without_coordinates.append(line)
        return (tiploc, name, "", "")


def coordinates_of(station: Station) -> tuple[str, str]:
    """Latitude and longitude, as they stand or of the grid, or nothing. Two zeros are nothing."""
    if bool(station.latitude) != bool(station.longitude):
        raise Odd("one of Longitude and Latitude is missing")
    latitude = degrees(90)(station.latitude) if station.latitude else 0
    longitude = degrees(180)(station.longitude) if station.longitude else 0
    if not latitude and not longitude:
        return coordinates_on_grid(station)
    for text in mistakes_of_place(PlaceRow("", None, latitude, longitude)):
        raise Odd(text)
    return station.latitude, station.longitude


def coordinates_on_grid(station: Station) -> tuple[str, str]:
    """Latitude and longitude of easting and northing, or nothing, likewise."""
    if not station.easting or not station.northing or station.grid.startswith(OTHER_GRID):
        return "", ""
    values = (station.easting, station.northing)
    if not all(re.fullmatch(r"[0-9]{1,7}(\.[0-9]+)?", value) for value in values):
        raise Odd("no metres")
    easting, northing = map(float, values)
    if not easting and not northing:
        return "", ""
    if not (0 < easting < EAST and 0 < northing < NORTH):
        raise Odd("not on the grid")
    latitude, longitude = latitude_and_longitude(easting, northing)
    return f"{latitude:.5f}", f"{longitude:.5f}"
