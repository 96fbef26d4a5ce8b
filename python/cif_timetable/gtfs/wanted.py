"""The list of places without coordinates: a file of places to fill in."""
from __future__ import annotations

import csv
from pathlib import Path
from typing import NamedTuple

from .._files import NewFiles
from ..errors import Misused
from ..user_csv import Lines, Unreadable
from .feed import Row, csv_of
from .stops import Stops

COORDINATES = ("latitude", "longitude")
HEADING = ["tiploc", "name", *COORDINATES]
# What spreadsheets write between cells.
SEPARATORS = ",;\t"


class Wanted(NamedTuple):
    """What of a feed has no coordinates: how many stations, and a row for each of their TIPLOCs."""

    stations: int
    rows: list[Row]


def wanted_of(stops: Stops) -> Wanted:
    """A TIPLOC without a CRS code counts as a station."""
    places = stops.without_coordinates()
    names = stops.places.station_name
    rows: list[Row] = [(place.name, names(place.name), "", "") for place in places]
    return Wanted(len({stops.end_of(place.name) for place in places}), rows)


def has_coordinates(path: Path) -> bool:
    """Whether a row of a file has a coordinate. A spreadsheet may have written other bytes than it
    has read."""
    with open(path, "rb") as file:
        lines = Lines(file, "replace")
        heading = next(lines, "")
        separator = max(SEPARATORS, key=heading.count)
        names = [name.strip().lower() for name in next(csv.reader([heading], delimiter=separator))]
        at = [names.index(name) for name in COORDINATES if name in names]
        rows = csv.reader(lines, delimiter=separator, strict=True)
        return any(row[place].strip() for row in rows for place in at if place < len(row))


class ListPlace(NamedTuple):
    """The place of a list, and its name as the user has it."""

    place: Path
    name: str

    def check(self) -> None:
        """Refuses to replace a list that somebody has filled in, or what can't be read as one."""
        if not self.place.exists():
            return
        try:
            if has_coordinates(self.place):
                raise Misused(f"{self.name} has been filled in: rename it, and give it by --places")
        except (Unreadable, csv.Error):
            raise Misused(f"{self.name} isn't a list of places, so it isn't replaced") from None


def write_wanted(wanted: Wanted, place: ListPlace | None, files: NewFiles) -> None:
    """Writes the list, if it is asked for, unless it has been filled in meanwhile."""
    if place:
        place.check()
        files.create(place.place).write(csv_of([HEADING, *wanted.rows]))
