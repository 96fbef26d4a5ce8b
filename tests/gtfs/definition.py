"""What GTFS has to have on each date, worked out date by date from the rules of docs/GTFS.md and of what `cif` says.

A day of `cif day` gives trains with all their calls, and associations. The reference of tests/fuzz says which calls are public.
The table `schedules` of `cif` gives what `day` doesn't show: operator, category, status and sleepers.
"""
from __future__ import annotations

import re
from collections import Counter, defaultdict
from datetime import date, timedelta
from typing import (
    TYPE_CHECKING,
    DefaultDict,
    Dict,
    FrozenSet,
    Iterator,
    List,
    NamedTuple,
    Optional,
    Set,
    Tuple,
)

from reference.public import Call as ReferenceCall, public_calls

if TYPE_CHECKING:
    from .checks import Source

DAY, HOUR = 86400, 3600
LONGEST_WAIT = 6 * HOUR
DAYS_LATER = {"": 0, "S": 0, "N": 1, "P": -1}
SHOWN_BY = {"VV", "JJ", "NP"}

# A row of a table by its fields; a train on a date; where an association needs a stop: its location and suffix, and the record if
# that matters; and an end of one: the role of a train, and the fields of the association.
Row = Dict[str, str]
End = Tuple[str, date]
Spot = Tuple[str, str, Optional[str]]
Mark = Tuple[str, Tuple[str, ...]]


class Call(NamedTuple):
    """A call of a train, with its number in the schedule and its times in seconds."""

    number: int
    location: str
    platform: str
    arrival: int
    departure: int
    set_down: str
    pick_up: str


class Stop(NamedTuple):
    """A call of any sort as a row of `day` has it: its number among them, its kind of record, and its cells."""

    number: int
    record: str
    cells: Row


class Content(NamedTuple):
    """What a trip shows: all of its train, and its calls without their numbers."""

    uid: str
    identity: str
    operator: str
    type: str
    first: str
    last: str
    calls: Tuple[Tuple[str, str, int, int, str, str], ...]


def table_rows(lines: List[str]) -> List[Row]:
    heading, *rows = (line.split("\t") for line in lines)
    return [dict(zip(heading, row)) for row in rows]


def seconds_of(time: str) -> int:
    hours, minutes, seconds = map(int, time.split(":"))
    return hours * HOUR + minutes * 60 + seconds


# The kinds of train, as docs/GTFS.md lists them: the first line that fits says what a train is.
KINDS = (
    ("replacement", "category", ("BR",)),
    ("bus", "category", ("BS",)),
    ("bus", "status", ("B", "5")),
    ("ship", "category", ("SS",)),
    ("ship", "status", ("S", "4")),
    ("metro", "category", ("OL",)),
    ("sleeper", "category", ("XZ",)),
    ("sleeper", "sleepers", ("B", "F", "S")),
)
# What isn't for riders: by the category empty stock, staff, unadvertised trains, post, departmental trains, light locomotives, and
# freight with its digits; by the status freight.
NO_RIDERS = re.compile(r"E[ELS]|O[SU]|XU|JJ|P[MPV]|D[DHIQTY]|Z[BZ]|.*[0-9].*")


def kind_of(row: Row) -> str:
    """The kind of a train by its row of `schedules`."""
    return next((kind for kind, field, values in KINDS if row[field] in values), "rail")


def is_for_riders(row: Row) -> bool:
    return not NO_RIDERS.fullmatch(row["category"]) and row["status"] not in ("F", "T", "2", "3")


class Train:
    """A train on a date: its row of `schedules`, the categories that it has from calls on, and its calls as the rows of `day` have
    them. The row has the first category that is for riders, if there is one."""

    def __init__(self, row: Row, changes: List[Tuple[int, str]]) -> None:
        self.sorts = [
            (number, is_for_riders({**row, "category": category}))
            for number, category in [(0, row["category"]), *changes]
        ]
        categories = [row["category"], *(category for _, category in changes)]
        for_riders = (each for each in categories if is_for_riders({**row, "category": each}))
        self.row = {**row, "category": next(for_riders, row["category"])}
        self.stops: List[Stop] = []
        # its public calls, and by their numbers these and its stops where it has associations on any date
        self.calls: List[Call] = []
        self.way: Dict[int, Call] = {}

    def add(self, row: Row) -> None:
        names = ["location", "suffix", "arrival", "departure", "pass"]
        names += ["public_arrival", "public_departure", "platform", "activities"]
        cells = {name: row[f"call_{name}"] for name in names}
        self.stops.append(Stop(len(self.stops) + 1, row["call"], cells))

    def public(self) -> List[Call]:
        rows = public_calls([ReferenceCall(str(stop.number), stop.cells) for stop in self.stops])
        return [
            Call(
                int(number),
                location,
                platform,
                seconds_of(arrival),
                seconds_of(departure),
                set_down,
                pick_up,
            )
            for number, location, platform, arrival, departure, set_down, pick_up in rows
        ]

    def for_riders(self) -> List[Call]:
        """Its public calls where it is for riders when it arrives, so they get off, or when it leaves, so they get on."""
        if len({flag for _, flag in self.sorts}) == 1:
            return self.public() if self.sorts[0][1] else []
        found = []
        for call in self.public():
            [*_, before] = [flag for number, flag in self.sorts if number < call.number]
            [*_, after] = [flag for number, flag in self.sorts if number <= call.number]
            set_down, pick_up = call.set_down if before else "1", call.pick_up if after else "1"
            if (set_down, pick_up) != ("1", "1"):
                found.append(call._replace(set_down=set_down, pick_up=pick_up))
        return found

    def stop(self, location: str, suffix: str, record: Optional[str]) -> Optional[Stop]:
        """Its first stop there, of a sort or of any: a call with a working arrival or departure, or a public one."""
        public = {call.number for call in self.calls}
        for stop in self.stops:
            stops_there = stop.cells["arrival"] or stop.cells["departure"] or stop.number in public
            if (
                stops_there
                and (stop.cells["location"], stop.cells["suffix"]) == (location, suffix)
                and record in (None, stop.record)
            ):
                return stop
        return None

    def known_stop(self, held: Held, role: str) -> Stop:
        """Its stop for an association that can be shown."""
        stop = self.stop(*spot_of(held, role))
        assert stop is not None
        return stop

    def set_way(self, spots: Set[Spot]) -> None:
        stops = [stop for stop in (self.stop(*spot) for spot in spots) if stop]
        self.way = {call.number: call for call in with_stops(self.calls, stops)}


class Day:
    """The public trains and the associations of a date."""

    def __init__(
        self,
        source: Source,
        day: date,
        schedules: DefaultDict[str, List[Row]],
        changes: DefaultDict[str, List[Tuple[int, str]]],
    ) -> None:
        self.trains: Dict[str, Train] = {}
        self.associations: List[Row] = []
        for row in table_rows(source.lines("day", "--stops", "--format", "tsv", f"{day:%y%m%d}")):
            if row["kind"] == "AA":
                self.associations.append(row)
            else:
                if row["uid"] not in self.trains:
                    schedule = applying(schedules[row["uid"]], day)
                    self.trains[row["uid"]] = Train(schedule, changes[schedule["schedule"]])
                self.trains[row["uid"]].add(row)
        with_calls = [train for train in self.trains.values() if len(train.public()) > 1]
        for train in self.trains.values():
            train.calls = train.for_riders()
        self.public = {uid: train for uid, train in self.trains.items() if len(train.calls) > 1}
        self.not_for_riders = len(with_calls) - len(self.public)


Days = Dict[date, Day]


def applying(rows: List[Row], day: date) -> Row:
    """The row that applies on a date."""
    weekday = day.weekday()
    [row] = [
        row
        for row in rows
        if row["first_date"] <= day.isoformat() <= row["last_date"]
        and row["days_run"][weekday] == "1"
    ]
    return row


def days_of(source: Source) -> Days:
    """All days of the window."""
    [header] = table_rows(source.lines("table", "header"))
    schedules, changes = defaultdict(list), defaultdict(list)
    for row in table_rows(source.lines("table", "--form", "3", "schedules")):
        schedules[row["uid"]].append(row)
    for row in table_rows(source.lines("table", "--form", "3", "changes")):
        changes[row["schedule"]].append((int(row["call"]), row["category"]))
    first, last = (date.fromisoformat(header[name]) for name in ("first_date", "last_date"))
    dates = [first + timedelta(days=number) for number in range((last - first).days + 1)]
    days = {day: Day(source, day, schedules, changes) for day in dates}
    spots = defaultdict(set)
    for day in days:
        for held in held_on(days, day):
            if held.category in SHOWN_BY:
                for role, uid in ("base", held.base), ("associated", held.associated):
                    spots[uid].add(spot_of(held, role))
    for of_date in days.values():
        for uid, train in of_date.public.items():
            train.set_way(spots[uid])
    return days


# ---- associations


class Held(NamedTuple):
    """An association that holds: its fields, and its trains with their dates."""

    category: str
    indicator: str
    base: str
    associated: str
    location: str
    base_suffix: str
    associated_suffix: str
    base_day: date
    associated_day: Optional[date]


def held_on(days: Days, day: date) -> Iterator[Held]:
    """The associations for passengers of a date; those of another category or date indicator have no associated date."""
    for row in days[day].associations:
        if row["association_type"] in ("", "P"):
            days_later = DAYS_LATER.get(row["date_indicator"])
            other = None
            if row["association_category"] in SHOWN_BY and days_later is not None:
                other = day + timedelta(days=days_later)
            yield Held(
                row["association_category"],
                row["date_indicator"],
                row["base_uid"],
                row["associated_uid"],
                row["association_location"],
                row["base_suffix"],
                row["associated_suffix"],
                day,
                other,
            )


def spot_of(held: Held, role: str) -> Spot:
    """Where a train of this role has to stop, and with which record if that matters."""
    if role == "base":
        return held.location, held.base_suffix, "LT" if held.category == "NP" else None
    return held.location, held.associated_suffix, "LT" if held.category == "JJ" else "LO"


def can_be_shown(held: Held, days: Days) -> bool:
    """Whether the trains are public, the association is where one begins or ends and the other stops, with a ride to link, and
    the next train leaves when the first one has arrived, and not long after."""
    if held.associated_day not in days:
        return False
    base = days[held.base_day].public.get(held.base)
    associated = days[held.associated_day].public.get(held.associated)
    if not base or not associated:
        return False
    here, there = base.stop(*spot_of(held, "base")), associated.stop(*spot_of(held, "associated"))
    if not here or not there:
        return False
    at_base, at_associated = base.way[here.number], associated.way[there.number]
    if held.category == "VV" and not any(call.number < at_base.number for call in base.calls):
        return False
    if held.category == "JJ" and not any(call.number > at_base.number for call in base.calls):
        return False
    later = (held.associated_day - held.base_day).days * DAY
    if held.category == "JJ":
        return 0 <= at_base.departure - (at_associated.arrival + later) <= LONGEST_WAIT
    return 0 <= at_associated.departure + later - at_base.arrival <= LONGEST_WAIT


def ends_of(held: Held) -> Tuple[End, End]:
    """Both trains of an association that can be shown."""
    assert held.associated_day is not None
    return (held.base, held.base_day), (held.associated, held.associated_day)


def groups_of(shown: List[Held]) -> Dict[End, Set[End]]:
    """The trains on dates that associations link, each as a set."""
    group: Dict[End, Set[End]] = {}
    for held in shown:
        joined: Set[End] = set().union(*(group.get(end, {end}) for end in ends_of(held)))
        for end in joined:
            group[end] = joined
    return group


def shown_and_moved(days: Days) -> Tuple[List[Held], int, Set[End]]:
    """The associations that are shown, how many aren't, and the trains on dates that count to the day before."""
    every = [held for day in days for held in held_on(days, day)]
    possible = [held for held in every if can_be_shown(held, days)]
    groups = groups_of(possible)

    def dates(end: End) -> Set[date]:
        return {day for _, day in groups[end]}

    def too_long(held: Held) -> bool:
        found = dates(ends_of(held)[0])
        return held.base_day != held.associated_day and max(found) - min(found) > timedelta(days=1)

    shown = [held for held in possible if not too_long(held)]
    overnight = [held for held in shown if held.base_day != held.associated_day]
    moved = {
        end for held in overnight for end in groups[ends_of(held)[0]] if end[1] == max(dates(end))
    }
    return shown, len(every) - len(shown), moved


# ---- parts of trains


def of_day(time: str) -> int:
    """The seconds of a working time, rounded up to the minute."""
    return int(time[:2]) * HOUR + int(time[2:4]) * 60 + (60 if time.endswith("H") else 0)


def moments(seconds: int) -> List[int]:
    """All moments at a time of day that a train may have."""
    return [seconds + number * DAY for number in range(-3, 400)]


def call_that_isnt_public(stop: Stop, before: Optional[Call], after: Optional[Call]) -> Call:
    """The call at a stop that isn't public: nobody gets on or off."""
    arrives, leaves = of_day(stop.cells["arrival"] or stop.cells["departure"]), of_day(
        stop.cells["departure"] or stop.cells["arrival"]
    )
    if before:
        arrival = min(moment for moment in moments(arrives) if moment >= before.departure - HOUR)
        departure = min(moment for moment in moments(leaves) if moment >= arrival - HOUR)
        arrival = max(arrival, before.departure)
    else:
        assert after is not None
        departure = max(moment for moment in moments(leaves) if moment <= after.arrival + HOUR)
        arrival = max(0, max(moment for moment in moments(arrives) if moment <= departure + HOUR))
    departure = max(arrival, departure)
    if after:
        arrival, departure = min(arrival, after.arrival), min(departure, after.arrival)
    return Call(
        stop.number, stop.cells["location"], stop.cells["platform"], arrival, departure, "1", "1"
    )


def with_stops(calls: List[Call], stops: List[Stop]) -> List[Call]:
    """The public calls with those at these stops, first those behind the first public call in order, then those before it."""
    calls = list(calls)
    first = calls[0].number
    behind = sorted((stop for stop in stops if stop.number > first), key=lambda stop: stop.number)
    front = sorted((stop for stop in stops if stop.number < first), key=lambda stop: -stop.number)
    for stop in behind + front:
        if all(call.number != stop.number for call in calls):
            before = max(
                (call for call in calls if call.number < stop.number),
                key=lambda call: call.number,
                default=None,
            )
            after = min(
                (call for call in calls if call.number > stop.number),
                key=lambda call: call.number,
                default=None,
            )
            calls.append(call_that_isnt_public(stop, before, after))
            calls.sort(key=lambda call: call.number)
    return calls


class Part(NamedTuple):
    """A part of a train on a date: what it shows, the numbers of its first and last call, and the associations at its ends."""

    content: Content
    first: int
    last: int
    marks: List[Mark]


def parts_of(
    uid: str, train: Train, held: List[Tuple[Held, str]], days_later: int, types: Dict[str, str]
) -> List[Part]:
    """The parts of a train with these associations, each with its role."""
    stops = {(association, role): train.known_stop(association, role) for association, role in held}
    known = {call.number for call in train.calls} | {stop.number for stop in stops.values()}
    calls = [train.way[number] for number in sorted(known)]
    numbers = [call.number for call in calls]
    ways = {stops[each].number for each in held if each[1] == "base" and each[0].category != "NP"}
    cuts = sorted(ways - {numbers[0], numbers[-1]})
    parts = []
    for first, last in zip([numbers[0], *cuts], [*cuts, numbers[-1]]):
        of_part = [call for call in calls if first <= call.number <= last]
        if first in cuts:
            of_part[0] = of_part[0]._replace(arrival=of_part[0].departure, set_down="1")
        if last in cuts:
            of_part[-1] = of_part[-1]._replace(departure=of_part[-1].arrival, pick_up="1")
        later = days_later * DAY
        shown = tuple(
            call._replace(arrival=call.arrival + later, departure=call.departure + later)[1:]
            for call in of_part
        )
        about = (train.row["identity"], train.row["operator_code"], types[kind_of(train.row)])
        content = Content(uid, *about, train.calls[0].location, train.calls[-1].location, shown)
        parts.append(Part(content, first, last, []))
    for association, role in held:
        number, ends = stops[association, role].number, (association.category == "JJ") != (
            role == "base"
        )
        part = next(part for part in parts if (part.last if ends else part.first) == number)
        part.marks.append((role, association[:7]))
    return parts


class Expected(NamedTuple):
    """What has to be there: for each date the contents of trips, the links between them, and the parts of each train that is cut;
    the number of dates on which an association isn't shown, and the number of distinct trips."""

    trips: Dict[date, Counter[Content]]
    links: Dict[date, Set[Tuple[Content, Content]]]
    blocks: Dict[date, Counter[Tuple[Content, ...]]]
    left_out: int
    distinct: int


def expected(days: Days, types: Dict[str, str]) -> Expected:
    shown, left_out, moved = shown_and_moved(days)
    held = defaultdict(list)
    for association in shown:
        base, associated = ends_of(association)
        held[base].append((association, "base"))
        held[associated].append((association, "associated"))
    parts = {}
    for day in days:
        for uid, train in days[day].public.items():
            parts[uid, day] = parts_of(uid, train, held[uid, day], int((uid, day) in moved), types)
    trips: Dict[date, Counter[Content]] = {day: Counter() for day in days}
    links: Dict[date, Set[Tuple[Content, Content]]] = {day: set() for day in days}
    blocks: Dict[date, Counter[Tuple[Content, ...]]] = {day: Counter() for day in days}
    distinct = set()
    groups = groups_of(shown)
    for (uid, day), of_train in parts.items():
        counts_to = day - timedelta(days=(uid, day) in moved)
        trips[counts_to].update(part.content for part in of_train)
        for part, following in zip(of_train, of_train[1:]):
            links[counts_to].add((part.content, following.content))
        if len(of_train) > 1:
            blocks[counts_to][tuple(part.content for part in of_train)] += 1
        group = group_text(groups[uid, day], parts, held) if (uid, day) in groups else None
        distinct |= {
            (part.content, group, number, day != counts_to) for number, part in enumerate(of_train)
        }
    for association in shown:
        base, associated = ends_of(association)
        one, other = (associated, base) if association.category == "JJ" else (base, associated)
        ending = part_at(parts[one], association, "associated" if one is associated else "base")
        beginning = part_at(
            parts[other], association, "associated" if other is associated else "base"
        )
        links[base[1] - timedelta(days=base in moved)].add((ending.content, beginning.content))
    return Expected(trips, links, blocks, left_out, len(distinct))


def group_text(
    group: Set[End],
    parts: Dict[End, List[Part]],
    held: DefaultDict[End, List[Tuple[Held, str]]],
) -> Tuple[
    FrozenSet[Tuple[str, timedelta, Tuple[Content, ...]]],
    FrozenSet[Tuple[Tuple[str, ...], timedelta]],
]:
    """What trains that are linked have alike on all dates on which they are linked so: all their calls, and what links them."""
    first = min(day for _, day in group)
    trains = frozenset(
        (uid, day - first, tuple(part.content for part in parts[uid, day])) for uid, day in group
    )
    return trains, frozenset(
        (association[:7], association.base_day - first)
        for end in group
        for association, _ in held[end]
    )


def part_at(parts: List[Part], association: Held, role: str) -> Part:
    """The part of a train that an association links."""
    return next(part for part in parts if (role, association[:7]) in part.marks)
