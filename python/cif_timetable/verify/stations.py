"""The stations of a database: their names and coordinates, made again of the TIPLOCs and the files of
the user."""
from __future__ import annotations

from collections.abc import Mapping

from .._extract import Extract
from ..model import Location
from ..operators import OperatorRow, operator_name
from ..places import Coordinates, PlaceRow, Places, search_text
from ..user_csv import Key
from .database import Database
from .difference import Different, compare_rows


def with_coordinates(row: str) -> tuple[str, Coordinates]:
    """A row, and the coordinates that are its last two cells."""
    *cells, latitude, longitude = row.rstrip("\n").split("\t")
    both = [float(cell) if cell else None for cell in (latitude, longitude)]
    return "\t".join(cells) + "\n", (both[0], both[1])


def compare_located(
    database: Database, table: str, columns: str, wanted: dict[str, Coordinates]
) -> None:
    """Compares a table whose last two columns are coordinates, which are compared as numbers."""
    names = [*columns.split(), "latitude", "longitude"]
    rows = sorted(with_coordinates(row) for row in database.rows(names, f"FROM {table}"))
    compare_rows(f"table {table}, in order", names, (row for row, _ in rows), sorted(wanted))
    for row, coordinates in rows:
        if coordinates != wanted[row]:
            raise Different(f"table {table}: coordinates of {row.strip()} aren't {wanted[row]}")


def compare_stations(database: Database, extract: Extract, given: Mapping[Key, PlaceRow]) -> None:
    """Compares all stations, their names, and the locations."""
    tiplocs = extract.rows("tiplocs", Location)
    places = Places(tiplocs, given)
    locations: dict[str, Coordinates] = {}
    stations: dict[str, Coordinates] = {}
    names: set[str] = set()
    seen: set[str] = set()
    for row in tiplocs:
        name = row.tiploc.strip()
        tiploc, station = places.tiploc(name), places.station_name(name)
        crs = tiploc.station_crs
        if row.tiploc not in seen:
            seen.add(row.tiploc)
            described = row.tps_description or row.description
            cells = row.tiploc, tiploc.crs, crs, station, described, row.nalco, row.stanox
            text = "\t".join("" if cell is None else cell for cell in cells) + "\n"
            locations[text] = places.coordinates(name)
        if crs:
            first = places.siblings(tiploc)[0].name
            stations[f"{crs}\t{station}\n"] = places.coordinates(first)
            names |= {f"{crs}\t{search_text(each)}\n" for each in places.names_of_station(crs)}
    compare_located(database, "stations", "crs name", stations)
    about = "tiploc crs station_crs name description nlc stanox"
    compare_located(database, "locations", about, locations)
    columns = "station_crs", "search"
    found = sorted(database.rows(columns, "FROM station_names"))
    compare_rows("table station_names, in order", columns, found, sorted(names))
    for line in database.rows(("name", "search"), "FROM station_names"):
        name, search = line.rstrip("\n").split("\t")
        if search_text(name) != search:
            raise Different(f"table station_names: `{search}` isn't how `{name}` is searched")


def compare_operators(database: Database, given: Mapping[Key, OperatorRow]) -> None:
    """Compares the names of operators."""
    columns = "operator", "operator_name"
    wanted = []
    for row in database.rows(columns, "FROM schedules GROUP BY operator, operator_name"):
        code, name = row.rstrip("\n").split("\t")
        known = operator_name(code, given) if code else ""
        if name != known:
            raise Different(f"table schedules: the operator `{code}` is `{name}` and not `{known}`")
        wanted += [row] if code else []
    found = sorted(database.rows(columns, "FROM operators"))
    compare_rows("table operators, in order", columns, found, sorted(wanted))
