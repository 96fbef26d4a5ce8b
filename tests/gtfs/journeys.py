"""Earliest arrivals: what riders can do by the definition, and what a planner finds in a feed.

Both are lists of rides from call to call, and of seats: where the riders of one train stay seated in another one. A search looks at
the rides in the order in which they leave, again and again until nothing comes earlier.
"""
from __future__ import annotations

from collections import defaultdict
from datetime import date, timedelta
from typing import DefaultDict, Dict, List, NamedTuple, Set, Tuple

from .definition import DAY, Days, ends_of, shown_and_moved
from .feeds import Feed, Names

# A train on a date, or a trip on one; and riders at a call of a run, who have come there by a train that has joined it or not.
Run = Tuple[str, date]
Aboard = Tuple[Run, int, bool]


class Ride(NamedTuple):
    """A ride of a run from a call to the next: the run, the number of the first call, times, stations, and whether riders may get
    on at the first and off at the second."""

    leaves: int
    arrives: int
    run: Run
    number: int
    origin: str
    destination: str
    on: bool
    off: bool


class Seat(NamedTuple):
    """Riders who have come to a call of a run are at a call of another one too. A train that joins another has `joins`."""

    run: Run
    number: int
    joins: bool


class Journeys:
    """Rides, and seats by the call to which they belong."""

    def __init__(self) -> None:
        self.rides: List[Ride] = []
        self.seats: DefaultDict[Tuple[Run, int], List[Seat]] = defaultdict(list)
        # of each run the number of the next call by that of a call
        self.next: Dict[Run, Dict[int, int]] = {}

    def add_run(self, run: Run, calls: List[Tuple[int, str, int, int, str, str]]) -> None:
        """Adds a run by its calls: number, station, arrival, departure, set down, pick up."""
        for one, other in zip(calls, calls[1:]):
            self.rides.append(
                Ride(
                    one[3], other[2], run, one[0], one[1], other[1], one[5] == "0", other[4] == "0"
                )
            )
        self.next[run] = {one[0]: other[0] for one, other in zip(calls, calls[1:])}

    def earliest(
        self,
        origin: str,
        start: int,
        change: Dict[str, int],
        walks: Dict[str, Dict[str, int]],
        pairs: bool = False,
    ) -> Dict[str, int]:
        """The earliest arrival at each station. With `pairs` nobody stays seated in a train that leaves another one after the
        own train has joined that."""
        rides = sorted(
            self.rides, key=lambda ride: (ride.leaves, ride.arrives, str(ride.run), ride.number)
        )
        rides = [ride for ride in rides if start <= ride.leaves < start + 30 * 3600]
        ready = {origin: start}
        found: Dict[str, int] = {}
        aboard: Set[Aboard] = set()
        known = None
        while known != (len(aboard), dict(found)):
            known = len(aboard), dict(found)
            for ride in rides:
                if ride.on and ready.get(ride.origin, ride.leaves + 1) <= ride.leaves:
                    aboard.add((ride.run, ride.number, False))
                for joined in False, True:
                    if (ride.run, ride.number, joined) in aboard:
                        self.move(ride, joined, aboard, pairs)
                        if ride.off and ride.arrives < found.get(
                            ride.destination, ride.arrives + 1
                        ):
                            arrive(ride, ready, found, change, walks)
        return found

    def move(self, ride: Ride, joined: bool, aboard: Set[Aboard], pairs: bool) -> None:
        """Riders come to the next call, and are in all trains there that theirs goes on as."""
        number = self.next[ride.run][ride.number]
        aboard.add((ride.run, number, joined))
        for seat in self.seats[ride.run, number]:
            if seat.joins or not (pairs and joined):
                aboard.add((seat.run, seat.number, joined or seat.joins))


def arrive(
    ride: Ride,
    ready: Dict[str, int],
    found: Dict[str, int],
    change: Dict[str, int],
    walks: Dict[str, Dict[str, int]],
) -> None:
    found[ride.destination] = ride.arrives
    station = ride.destination
    ready[station] = min(
        ready.get(station, ride.arrives + DAY), ride.arrives + change.get(station, 0)
    )
    for other, seconds in walks.get(station, {}).items():
        ready[other] = min(ready.get(other, ride.arrives + DAY), ride.arrives + seconds)


# ---- by the definition


def by_definition(days: Days, names: Names, linked: bool = True) -> Journeys:
    """What riders can do, with or without the seats in other trains."""
    journeys, first = Journeys(), min(days)
    for day in days:
        start = (day - first).days * DAY
        for uid, train in days[day].public.items():
            public = {call.number for call in train.calls}
            calls = []
            for number in sorted(train.way):
                call = train.way[number]
                times = start + call.arrival, start + call.departure
                types = (call.set_down, call.pick_up) if number in public else ("1", "1")
                calls.append((number, names.station(call.location), *times, *types))
            journeys.add_run((uid, day), calls)
    for held in shown_and_moved(days)[0] if linked else ():
        base, associated = ends_of(held)
        at_base, at_associated = (
            days[day].public[uid].known_stop(held, role).number
            for (uid, day), role in ((base, "base"), (associated, "associated"))
        )
        if held.category == "JJ":
            journeys.seats[associated, at_associated].append(Seat(base, at_base, True))
        else:
            journeys.seats[base, at_base].append(Seat(associated, at_associated, False))
    return journeys


# ---- by a feed


def by_feed(feed: Feed, days: Days, links: bool = True, blocks: bool = False) -> Journeys:
    """What a planner finds that knows linked trips, or blocks, or none of both."""
    journeys, first = Journeys(), min(days)
    stations = {
        row["stop_id"]: row["parent_station"] or row["stop_id"] for row in feed.rows["stops"]
    }
    for day in [first - timedelta(days=1), *days]:
        start, running = (day - first).days * DAY, feed.running(day)
        numbers = {}
        for name in running:
            calls = [
                (number, stations[stop], start + arrival, start + departure, set_down, pick_up)
                for number, (stop, arrival, departure, set_down, pick_up) in enumerate(
                    feed.trips[name].calls
                )
            ]
            journeys.add_run((name, day), calls)
            numbers[name] = len(calls) - 1
        seats = [link for link in feed.links if set(link) <= running] if links else []
        if blocks:
            seats += blocks_of(feed, running)
        for one, other in seats:
            journeys.seats[(one, day), numbers[one]].append(Seat((other, day), 0, False))
    return journeys


def blocks_of(feed: Feed, running: Set[str]) -> List[Tuple[str, str]]:
    """Each trip of a block, and the next one."""
    blocks = defaultdict(list)
    for name in sorted(running, key=feed.span):
        if feed.block[name]:
            blocks[feed.block[name]].append(name)
    return [pair for names in blocks.values() for pair in zip(names, names[1:])]


def transfers_of(feed: Feed) -> Tuple[Dict[str, int], DefaultDict[str, Dict[str, int]]]:
    """The times of change, and the links between stations, in seconds."""
    change: Dict[str, int] = {}
    walks: DefaultDict[str, Dict[str, int]] = defaultdict(dict)
    for row in feed.rows["transfers"]:
        if row["transfer_type"] == "2":
            seconds = int(row["min_transfer_time"])
            if row["from_stop_id"] == row["to_stop_id"]:
                change[row["from_stop_id"]] = seconds
            else:
                walks[row["from_stop_id"]][row["to_stop_id"]] = seconds
    return change, walks
