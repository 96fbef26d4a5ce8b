"""Routes: the trains of one operator and type between two stations, in both directions."""
from __future__ import annotations

from collections import defaultdict
from collections.abc import Iterable, Mapping
from typing import NamedTuple

from ..operators import OperatorRow, operator_name
from ..user_csv import Key, csv_cell
from .stops import Stops, coded, stop_id

NO_OPERATOR = "unknown"


class RouteRow(NamedTuple):
    """A route as routes.txt has it."""

    id: str
    agency: str
    name: str
    type: int


class End(NamedTuple):
    """A station or a stop where trains end: its id, its name, and its code: a CRS code, or else a
    TIPLOC."""

    id: str
    name: str
    code: str


class Route(NamedTuple):
    """A route between two ends, of which that with the lower id is the first."""

    agency: str
    type: int
    low: End
    high: End

    @property
    def id(self) -> str:
        return f"{self.agency}-{self.type}-{self.low.id}-{self.high.id}"

    @property
    def name(self) -> str:
        return f"{self.low.name} - {self.high.name}"

    def row(self, name: str) -> RouteRow:
        return RouteRow(self.id, self.agency, name, self.type)


def rows_of_namesakes(routes: list[Route]) -> list[RouteRow]:
    """The rows of routes that have the same agency, type and name. An end has its code if not all of
    them have it."""

    def shown(end: End, ends: set[End]) -> str:
        return end.name if len(ends) == 1 else f"{end.name} ({end.code})"

    low, high = {route.low for route in routes}, {route.high for route in routes}
    return [route.row(f"{shown(route.low, low)} - {shown(route.high, high)}") for route in routes]


class AgencyRow(NamedTuple):
    """An operator as agency.txt has it."""

    id: str
    name: str
    url: str
    timezone: str
    language: str
    phone: str
    email: str


class Shown(NamedTuple):
    """How a trip is shown: its route, where to and which way it goes, as trips.txt has them."""

    route: bytes
    headsign: bytes
    direction: bytes


# The locations between which a train goes.
Ends = tuple[bytes, bytes]
# The operator and the route type of a train as they stand in what trips show, and its ends.
RouteKey = tuple[bytes, Ends]


class Routes:
    """The routes that were asked for."""

    def __init__(self, stops: Stops) -> None:
        self.stops = stops
        self.known: dict[RouteKey, Shown] = {}
        self.ends: dict[bytes, End] = {}
        self.routes: dict[Route, None] = {}
        self.operators: set[str] = set()

    def shown(self, operator_and_type: bytes, ends: Ends) -> Shown:
        """How a trip is shown whose train goes from one location to another."""
        key = (operator_and_type, ends)
        found = self.known.get(key)
        if found is None:
            operator, _, route_type = operator_and_type.partition(b"\t")
            found = self.known[key] = self.new(operator.decode(), int(route_type), ends)
        return found

    def new(self, operator: str, route_type: int, ends: Ends) -> Shown:
        """Direction 0 is from the end whose id comes first."""
        first, last = (self.end(location) for location in ends)
        low, high = sorted((first, last))
        route = Route(coded(operator) or NO_OPERATOR, route_type, low, high)
        self.operators.add(operator)
        self.routes[route] = None
        direction = first.id != low.id
        return Shown(route.id.encode(), csv_cell(last.name.encode()), b"%d" % direction)

    def take(self, routes: Iterable[Route], operators: Iterable[str]) -> None:
        """Takes over what another process has been asked for."""
        self.routes.update(dict.fromkeys(routes))
        self.operators.update(operators)

    def end(self, location: bytes) -> End:
        """The station or stop where a train ends."""
        if location not in self.ends:
            name = location.decode()
            code = self.stops.places.tiploc(name).station_crs or stop_id(name)
            station = self.stops.places.station_name(name)
            self.ends[location] = End(self.stops.end_of(name), station, code)
        return self.ends[location]

    def rows(self) -> list[RouteRow]:
        """The rows of routes.txt, rising by their ids."""
        namesakes: defaultdict[tuple[str, int, str], list[Route]] = defaultdict(list)
        for route in self.routes:
            namesakes[route.agency, route.type, route.name].append(route)
        rows = [row for routes in namesakes.values() for row in rows_of_namesakes(routes)]
        return sorted(rows, key=lambda row: row.id)

    def agencies(
        self, given: Mapping[Key, OperatorRow], web: str, timezone: str, language: str
    ) -> list[AgencyRow]:
        """The rows of agency.txt, with the names, addresses and numbers that the user gives."""
        rows = []
        for operator in sorted(self.operators):
            known = given.get((operator,))
            agency = coded(operator) or NO_OPERATOR
            url = known.url if known and known.url else web
            name = operator_name(operator, given)
            calls = (known.phone or "", known.email or "") if known else ("", "")
            rows.append(AgencyRow(agency, name, url, timezone, language, *calls))
        return rows
