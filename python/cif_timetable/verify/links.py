"""How associations link trains on their dates: what docs/GTFS.md says of trains that divide, join and go
on.

A date of an association is that of its base train. The associated train's may be the day after (N) or
before (P).
"""
from __future__ import annotations

from collections import Counter, defaultdict
from collections.abc import Iterable, Mapping, Sequence
from datetime import date
from typing import NamedTuple

from .._extract import FORM, Extract
from .riders import NEVER
from .schedules import Public, cells_of, table_of
from .trains import PublicTrain, Stops
from .zipped import Window

HOUR, DAY = 3600, 86400
LONGEST_WAIT = 6 * HOUR
CATEGORIES = ("VV", "JJ", "NP")
DAYS_LATER = {"": 0, "S": 0, "N": 1, "P": -1}
FOR_PASSENGERS = ("", "P")


class Terms(NamedTuple):
    """What an association says besides its dates."""

    category: str
    indicator: str
    base: str
    associated: str
    location: str
    base_suffix: str
    associated_suffix: str

    @property
    def later(self) -> int:
        """How many days after the base train the associated one runs."""
        return DAYS_LATER[self.indicator]

    def base_spot(self) -> Spot:
        return Spot(self.location, self.base_suffix, "LT" if self.category == "NP" else "")

    def associated_spot(self) -> Spot:
        return Spot(self.location, self.associated_suffix, "LT" if self.category == "JJ" else "LO")

    def text(self) -> str:
        return f"{self.category} of {self.base} and {self.associated} at {self.location}"


class Spot(NamedTuple):
    """Where a train has to stop: the location, its suffix, and the record of the call, or nothing where
    any will do."""

    location: str
    suffix: str
    record: str


class Stop(NamedTuple):
    """A row of `calls`, with its working times."""

    call: int
    record: str
    location: str
    suffix: str
    platform: str
    arrival: str
    departure: str


class Call(NamedTuple):
    """A call of a train, in seconds from the midnight with which its date begins."""

    location: str
    platform: str
    arrival: int
    departure: int
    set_down: str
    pick_up: str


def seconds_of(moment: str) -> int:
    hours, minutes, seconds = moment.split(":")
    return int(hours) * HOUR + int(minutes) * 60 + int(seconds)


def rounded_up(time: str) -> int:
    """The seconds of a working time, rounded up to the minute."""
    return int(time[:2]) * HOUR + int(time[2:4]) * 60 + 60 * time.endswith("H")


def first_from(least: int, time: int) -> int:
    """The first moment at a time of day that isn't before another moment."""
    return least + (time - least) % DAY


def last_until(most: int, time: int) -> int:
    return most - (most - time) % DAY


def hidden_call(stop: Stop, before: Call | None, after: Call | None) -> Call:
    """The call at a stop that isn't public, between the calls beside it. A time that falls by an hour or
    less is no new day."""
    arrives = rounded_up(stop.arrival or stop.departure)
    leaves = rounded_up(stop.departure or stop.arrival)
    if before:
        arrival = first_from(before.departure - HOUR, arrives)
        departure = first_from(arrival - HOUR, leaves)
        arrival = max(arrival, before.departure)
    else:
        assert after is not None
        departure = last_until(after.arrival + HOUR, leaves)
        arrival = max(last_until(departure + HOUR, arrives), 0)
    departure = max(arrival, departure)
    if after:
        arrival, departure = min(arrival, after.arrival), min(departure, after.arrival)
    return Call(stop.location, stop.platform, arrival, departure, NEVER, NEVER)


class Train:
    """A public train with associations: its calls by their numbers, those that are public, and those
    at which associations may be."""

    def __init__(self, train: PublicTrain, stops: Sequence[Stop], spots: Iterable[Spot]) -> None:
        self.dates = train.dates
        numbers = [call.call for call in train.calls]
        self.public = numbers
        self.first, self.last = numbers[0], numbers[-1]
        self.calls = {call.call: call_of(call) for call in train.calls}
        self.at: dict[Spot, int] = {}
        public = set(numbers)
        stopping = [stop for stop in stops if stop.arrival or stop.departure or stop.call in public]
        hidden: dict[int, Stop] = {}
        for spot in spots:
            for stop in stopping:
                if is_at(stop, spot):
                    self.at[spot] = stop.call
                    if stop.call not in public:
                        hidden[stop.call] = stop
                    break
        # those after the first public call first, as their dates follow from it
        later = sorted(number for number in hidden if number > self.first)
        earlier = sorted((number for number in hidden if number < self.first), reverse=True)
        for number in later + earlier:
            before = max((known for known in self.calls if known < number), default=None)
            after = min((known for known in self.calls if known > number), default=None)
            self.calls[number] = hidden_call(
                hidden[number],
                None if before is None else self.calls[before],
                None if after is None else self.calls[after],
            )


def call_of(call: Public) -> Call:
    times = seconds_of(call.arrival), seconds_of(call.departure)
    return Call(call.location, call.platform, *times, call.set_down, call.pick_up)


def is_at(stop: Stop, spot: Spot) -> bool:
    """Whether a stop is at a spot."""
    there = (stop.location, stop.suffix) == (spot.location, spot.suffix)
    return there and spot.record in ("", stop.record)


class Shown(NamedTuple):
    """An association of two trains, on the dates of the base train on which both are linked."""

    terms: Terms
    base: Train
    associated: Train
    dates: int


class Linked(NamedTuple):
    """What a link links: the trains, the last call of the one with its arrival, the first call of the
    other with its departure, and how many days later the other one runs."""

    from_uid: str
    from_stop: str
    arrival: int
    to_uid: str
    to_stop: str
    departure: int
    days_later: int


class Links(NamedTuple):
    """The associations that are shown, the dates of all links, each by the date of its first train, how
    many dates of associations are left out by reason, and one of them."""

    shown: list[Shown]
    dates: dict[Linked, int]
    left_out: Counter[str]
    one_of_them: dict[str, str]


def read_associations(extract: Extract, window: Window) -> dict[Terms, int]:
    """The associations for passengers and their dates."""
    fields = (
        "first_date last_date days_run association_type category date_indicator base_uid"
        " associated_uid location base_suffix associated_suffix".split()
    )
    found: dict[Terms, int] = {}
    with table_of(extract, "associations", FORM) as table:
        for first, last, days_run, kind, *cells in cells_of(table, fields):
            if kind in FOR_PASSENGERS:
                terms = Terms(*cells)
                span = date.fromisoformat(first), date.fromisoformat(last)
                found[terms] = found.get(terms, 0) | window.masked(*span, days_run)
    return found


def read_stops(extract: Extract, schedules: set[str]) -> dict[str, list[Stop]]:
    """The calls of some schedules."""
    found: dict[str, list[Stop]] = {}
    if not schedules:
        return found
    fields = "call record location suffix platform arrival departure".split()
    with table_of(extract, "calls", FORM) as table:
        cells_at = table.cells_at(fields)
        wanted = {number.encode() for number in schedules}
        for line in table.lines:
            number = line[: line.index(b"\t")]
            if number in wanted:
                call, *cells = cells_at(line.decode()[:-1].split("\t"))
                found.setdefault(number.decode(), []).append(Stop(int(call), *cells))
    return found


def trains_of(
    extract: Extract, linked: Mapping[str, list[PublicTrain]], associations: Iterable[Terms]
) -> dict[str, list[Train]]:
    """The public trains with associations, by their UIDs."""
    spots: defaultdict[str, set[Spot]] = defaultdict(set)
    for terms in associations:
        if terms.category in CATEGORIES:
            spots[terms.base].add(terms.base_spot())
            spots[terms.associated].add(terms.associated_spot())
    stops = read_stops(extract, {each.schedule for uid in linked for each in linked[uid]})
    return {
        uid: [Train(each, stops.get(each.schedule, ()), spots[uid]) for each in trains]
        for uid, trains in linked.items()
    }


def obstacle(terms: Terms, base: Train, associated: Train) -> str | None:
    """Why an association of two public trains can't be shown, or None."""
    here = base.at.get(terms.base_spot())
    there = associated.at.get(terms.associated_spot())
    if here is None:
        return f"the base train doesn't {'end' if terms.category == 'NP' else 'stop'} there"
    if there is None:
        return f"the associated train doesn't {'end' if terms.category == 'JJ' else 'begin'} there"
    if terms.category == "VV" and base.first >= here:
        return "the base train has no public call before it"
    if terms.category == "JJ" and base.last <= here:
        return "the base train has no public call after it"
    at_base, at_associated, later = base.calls[here], associated.calls[there], terms.later * DAY
    wait = at_associated.departure + later - at_base.arrival
    if terms.category == "JJ":
        wait = at_base.departure - at_associated.arrival - later
    if wait < 0:
        return "the next train leaves before the first one arrives"
    if wait > LONGEST_WAIT:
        return "the next train leaves more than six hours after the first one arrives"
    return None


class LeftOut:
    """Counts the dates of associations that are left out, by their reasons."""

    def __init__(self, window: Window) -> None:
        self.window = window
        self.counts: Counter[str] = Counter()
        self.one_of_them: dict[str, str] = {}

    def add(self, reason: str, terms: Terms, dates: int) -> None:
        if dates:
            self.counts[reason] += bin(dates).count("1")
            self.one_of_them.setdefault(reason, f"{terms.text()} on {self.window.first(dates)}")


def possible(
    associations: Mapping[Terms, int], trains: Mapping[str, list[Train]], left_out: LeftOut
) -> list[Shown]:
    """The associations that can be shown, each by itself."""
    found = []
    for terms, dates in associations.items():
        if terms.category not in CATEGORIES:
            left_out.add("the category is none of VV, JJ, NP", terms, dates)
            continue
        if terms.indicator not in DAYS_LATER:
            left_out.add("the date indicator is none of S, N, P", terms, dates)
            continue
        for base in trains.get(terms.base, ()):
            for associated in trains.get(terms.associated, ()):
                both = dates & base.dates & moved(associated.dates, -terms.later)
                if not both:
                    continue
                reason = obstacle(terms, base, associated)
                if reason is None:
                    found.append(Shown(terms, base, associated, both))
                else:
                    left_out.add(reason, terms, both)
                dates &= ~both
        left_out.add("its trains aren't both public on their dates", terms, dates)
    return found


def moved(dates: int, days: int) -> int:
    """Dates so many days later."""
    return dates << days if days >= 0 else dates >> -days


# A train by its UID and the number of its date.
Node = tuple[str, int]


class Groups:
    """Trains that associations link with one another."""

    def __init__(self, shown: Sequence[Shown]) -> None:
        self.of_uid: defaultdict[str, list[Shown]] = defaultdict(list)
        for each in shown:
            self.of_uid[each.terms.base].append(each)
            if each.terms.associated != each.terms.base:
                self.of_uid[each.terms.associated].append(each)
        # how many days there are from the first train of a group to the last one
        self.spans: dict[Node, int] = {}

    def neighbours(self, node: Node) -> Iterable[Node]:
        uid, number = node
        for each in self.of_uid[uid]:
            later = each.terms.later
            if each.terms.base == uid and each.dates >> number & 1:
                yield each.terms.associated, number + later
            if each.terms.associated == uid and each.dates >> (number - later) & 1:
                yield each.terms.base, number - later

    def span(self, node: Node) -> int:
        if node not in self.spans:
            group, pending = {node}, [node]
            while pending:
                for other in self.neighbours(pending.pop()):
                    if other not in group:
                        group.add(other)
                        pending.append(other)
            numbers = [number for _, number in group]
            self.spans.update(dict.fromkeys(group, max(numbers) - min(numbers)))
        return self.spans[node]


def within_a_midnight(shown: Sequence[Shown], left_out: LeftOut, window: Window) -> list[Shown]:
    """Those that are shown: of trains that are linked over two midnights none that are overnight."""
    groups = Groups(shown)
    found = []
    for each in shown:
        dates = each.dates
        if each.terms.later:
            for number in window.each(each.dates):
                if groups.span((each.terms.base, number)) > 1:
                    dates &= ~(1 << number)
            dropped = each.dates & ~dates
            left_out.add("its trains are linked over two midnights", each.terms, dropped)
        if dates:
            found.append(each._replace(dates=dates))
    return found


class Held(NamedTuple):
    """An association of a train: the dates of the train, the number of the call, and whether the train
    is cut there."""

    dates: int
    call: int
    is_cut: bool


class Linker:
    """Makes the links of associations that are shown."""

    def __init__(self, stops: Stops) -> None:
        self.stops = stops
        self.dates: dict[Linked, int] = {}

    def add(self, one: Call, uid: str, other: Call, other_uid: str, later: int, dates: int) -> None:
        stops = [self.stops.id_of(call.location, call.platform) for call in (one, other)]
        key = Linked(uid, stops[0], one.arrival, other_uid, stops[1], other.departure, later)
        self.dates[key] = self.dates.get(key, 0) | dates

    def add_association(self, shown: Shown) -> None:
        terms = shown.terms
        base = shown.base.calls[shown.base.at[terms.base_spot()]]
        associated = shown.associated.calls[shown.associated.at[terms.associated_spot()]]
        if terms.category == "JJ":
            own_dates = moved(shown.dates, terms.later)
            ends = (associated, terms.associated, base, terms.base)
            self.add(*ends, -terms.later, own_dates)
        else:
            ends = (base, terms.base, associated, terms.associated)
            self.add(*ends, terms.later, shown.dates)

    def add_cuts(self, uid: str, train: Train, held: Sequence[Held], window: Window) -> None:
        """Links the parts of a train, which is cut where it divides or is joined, unless it begins or
        ends there."""
        all_dates = 0
        for each in held:
            all_dates |= each.dates
        for number in window.each(all_dates):
            there = [each for each in held if each.dates >> number & 1]
            places = {each.call for each in there} | {train.first, train.last}
            cuts = {each.call for each in there if each.is_cut} - {min(places), max(places)}
            for cut in cuts:
                call = train.calls[cut]
                self.add(call, uid, call, uid, 0, 1 << number)


def expected_links(
    extract: Extract,
    associations: Mapping[Terms, int],
    linked: Mapping[str, list[PublicTrain]],
    stops: Stops,
    window: Window,
    whole_trains: bool,
) -> Links:
    """The links that a feed has to have."""
    left_out = LeftOut(window)
    trains = trains_of(extract, linked, associations)
    shown = within_a_midnight(possible(associations, trains, left_out), left_out, window)
    if whole_trains:
        return Links(shown, {}, left_out.counts, left_out.one_of_them)
    linker = Linker(stops)
    held: dict[tuple[str, int], list[Held]] = defaultdict(list)
    of_key: dict[tuple[str, int], Train] = {}
    for each in shown:
        linker.add_association(each)
        terms = each.terms
        is_cut = terms.category in ("VV", "JJ")
        base, associated = (terms.base, id(each.base)), (terms.associated, id(each.associated))
        of_key[base], of_key[associated] = each.base, each.associated
        held[base].append(Held(each.dates, each.base.at[terms.base_spot()], is_cut))
        own_dates = moved(each.dates, terms.later)
        call = each.associated.at[terms.associated_spot()]
        held[associated].append(Held(own_dates, call, False))
    for key, of_train in held.items():
        linker.add_cuts(key[0], of_key[key], of_train, window)
    return Links(shown, linker.dates, left_out.counts, left_out.one_of_them)
