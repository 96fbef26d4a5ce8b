"""A GTFS feed against an extract: on each date the trips that are active and their calls, and the links
between them."""
from __future__ import annotations

from collections import defaultdict
from collections.abc import Collection, Iterator, Mapping, Sequence
from typing import NamedTuple

from .._extract import Extract
from .._progress import Progress
from ..model import Header
from ..places import PlaceRow
from ..user_csv import Key
from .difference import Different
from .links import DAY, Linked, Links, expected_links, read_associations, seconds_of
from .riders import NEVER
from .trains import EXTENDED_TYPES, TYPES, OnDates, Reader, Stops, Trains, coded, text_of
from .whole import whole_on_dates
from .zipped import About, Feed, Link, Stop, Window, read_feed

STOP, STATION = "0", "1"


class Wishes(NamedTuple):
    """How the feed was made."""

    extended_types: bool
    whole_trains: bool


def later_text(text: str, days: int) -> str:
    """Calls so many days later."""
    rows = []
    for row in text.split("\n"):
        stop, arrival, departure, rest = row.split("\t", 3)
        times = (seconds_of(time) + days * DAY for time in (arrival, departure))
        moments = (f"{t // 3600:02}:{t // 60 % 60:02}:{t % 60:02}" for t in times)
        rows.append("\t".join((stop, *moments, rest)))
    return "\n".join(rows)


# ---- the trains of a feed


class Whole(NamedTuple):
    """A train as the trips of a feed have it, of which each is a part."""

    trips: list[str]
    uid: str
    about: About
    dates: int
    text: str


def parts_in_order(block: str, trips: list[str], following: Mapping[str, list[str]]) -> list[str]:
    """The trips of a block as links between them lead from one to the next."""
    inside = {
        trip: [other for other in following.get(trip, ()) if other in trips] for trip in trips
    }
    after = {other for others in inside.values() for other in others}
    starts = [trip for trip in trips if trip not in after]
    found = list(starts)
    while len(found) < len(trips) and len(starts) == 1 and len(inside[found[-1]]) == 1:
        found += inside[found[-1]]
    if len(starts) != 1 or set(found) != set(trips) or len(found) != len(trips):
        raise Different(
            f"the trips {', '.join(sorted(trips))} of the block {block} aren't linked one to the next"
        )
    return found


def joined(name: str, rows: list[str], following: list[str]) -> list[str]:
    """The calls of two parts of a train, which meet in one."""
    stop, arrival, departure, off, on = rows[-1].split("\t")
    next_stop, next_arrival, next_departure, next_off, next_on = following[0].split("\t")
    if stop != next_stop:
        raise Different(f"{name} ends at {stop}, and its next part begins at {next_stop}")
    if (departure, on) != (arrival, NEVER):
        raise Different(f"{name}: riders get on at its last stop {stop}")
    if (next_arrival, next_off) != (next_departure, NEVER):
        raise Different(f"riders get off at {stop}, where the next part of {name} begins")
    return rows[:-1] + ["\t".join((stop, arrival, next_departure, off, next_on))] + following[1:]


def whole_trains(feed: Feed, following: Mapping[str, list[str]]) -> Iterator[Whole]:
    """The trains of a feed. Calls where nobody gets on or off belong to links."""
    blocks: defaultdict[str, list[str]] = defaultdict(list)
    for name, trip in feed.trips.items():
        blocks[trip.block or f"\t{name}"].append(name)
    for block, names in blocks.items():
        first = feed.trips[names[0]]
        if len(names) > 1:
            names = parts_in_order(block, names, following)
            first = feed.trips[names[0]]
            for name in names[1:]:
                trip = feed.trips[name]
                if (trip.uid, trip.about, trip.dates) != (first.uid, first.about, first.dates):
                    raise Different(
                        f"trips {names[0]} and {name} have one block, and aren't parts of one train"
                    )
        rows = first.calls
        for before, name in zip(names, names[1:]):
            rows = joined(f"trip {before}", rows, feed.trips[name].calls)
        if len(names) > 1 or names[0] in following or block in feed.trips or is_hidden(rows):
            rows = [row for row in rows if not row.endswith(f"\t{NEVER}\t{NEVER}")]
        yield Whole(names, first.uid, first.about, first.dates, "\n".join(rows))


def is_hidden(rows: Sequence[str]) -> bool:
    """Whether nobody gets on or off at an end."""
    return any(row.endswith(f"\t{NEVER}\t{NEVER}") for row in (rows[0], rows[-1]))


class Found:
    """The trains and links of a feed, each train on its own dates."""

    def __init__(
        self,
        feed: Feed,
        wanted: Mapping[str, OnDates],
        window: Window,
        linked_uids: Collection[str],
    ) -> None:
        self.linked_uids = linked_uids
        self.feed = feed
        self.wanted = wanted
        self.window = window
        self.trains: defaultdict[str, OnDates] = defaultdict(dict)
        self.on_dates: defaultdict[str, int] = defaultdict(int)
        # how many days later than its service a trip runs
        self.later: dict[str, int] = {}
        self.linked = {trip for link in feed.links for trip in (link.from_trip, link.to_trip)}

    def days_later(self, whole: Whole) -> int:
        """How many days later than its service a train runs: one that is linked with a train of the
        evening before may count to that date, with its own times from 24:00:00 on."""
        known = self.wanted.get(whole.uid, {})
        if known.get((whole.about, whole.text), 0) & whole.dates == whole.dates:
            return 0
        is_linked = whole.uid in self.linked_uids or any(map(self.linked.__contains__, whole.trips))
        if not is_linked:
            return 0
        if whole.text and any(row.split("\t")[2] >= "24" for row in whole.text.split("\n")):
            earlier = later_text(whole.text, -1)
            own_dates = whole.dates << 1
            if known.get((whole.about, earlier), 0) & own_dates == own_dates:
                return 1
        return 0

    def add(self, whole: Whole) -> None:
        later = self.days_later(whole)
        text = later_text(whole.text, -later) if later else whole.text
        own_dates = whole.dates << later
        twice = self.on_dates[whole.uid] & own_dates
        if twice:
            day = self.window.first(twice)
            raise Different(f"{whole.uid} on {day}: two trips, of which one is {whole.trips[0]}")
        self.on_dates[whole.uid] |= own_dates
        on_dates = self.trains[whole.uid]
        key = whole.about, text
        on_dates[key] = on_dates.get(key, 0) | own_dates
        for trip in whole.trips:
            self.later[trip] = later

    def links(self) -> dict[Linked, int]:
        """The links, each with the dates of its first train."""
        found: dict[Linked, int] = {}
        for link in self.feed.links:
            key, dates = self.linked_by(link)
            if found.get(key, 0) & dates:
                raise Different(f"{link_text(link)}: two links of the same trains on a date")
            found[key] = found.get(key, 0) | dates
        return found

    def linked_by(self, link: Link) -> tuple[Linked, int]:
        for trip in link.from_trip, link.to_trip:
            if trip not in self.feed.trips:
                raise Different(f"{link_text(link)}: trips.txt has no trip {trip}")
        one, other = self.feed.trips[link.from_trip], self.feed.trips[link.to_trip]
        last, first = one.calls[-1].split("\t"), other.calls[0].split("\t")
        if (link.from_stop, link.to_stop) != (last[0], first[0]):
            raise Different(
                f"{link_text(link)}: the trips end at {last[0]} and begin at {first[0]}"
            )
        if one.dates != other.dates:
            raise Different(f"{link_text(link)}: the trips have other dates")
        here, there = self.later[link.from_trip], self.later[link.to_trip]
        arrival, departure = seconds_of(last[1]) - here * DAY, seconds_of(first[2]) - there * DAY
        key = Linked(one.uid, last[0], arrival, other.uid, first[0], departure, there - here)
        return key, one.dates << here


def link_text(link: Link) -> str:
    return f"transfers.txt, from {link.from_trip} to {link.to_trip}"


def following_in(feed: Feed) -> dict[str, list[str]]:
    """The trips to which links lead from each trip."""
    found: defaultdict[str, list[str]] = defaultdict(list)
    for link in feed.links:
        found[link.from_trip].append(link.to_trip)
    return found


# ---- comparing


def on_date(trains: OnDates, day: int) -> tuple[About, str] | None:
    """The train on a date."""
    return next((key for key, dates in trains.items() if dates >> day & 1), None)


def difference_of(found: tuple[About, str] | None, wanted: tuple[About, str] | None) -> str:
    """How a train in the feed differs from that of the extract."""
    if found is None:
        return "the feed has no such train, which the extract has"
    if wanted is None:
        return "the feed has this train, which the extract hasn't, or not for riders"
    for name, one, other in zip(About._fields, found[0], wanted[0]):
        if one != other:
            return f"{name} is `{one}` and not `{other}`"
    names = ("stop_id", "arrival_time", "departure_time", "drop_off_type", "pickup_type")
    rows, others = found[1].split("\n"), wanted[1].split("\n")
    for number, (row, other_row) in enumerate(zip(rows, others), 1):
        cells = list(zip(names, row.split("\t"), other_row.split("\t")))
        differing = [
            f"{name} is `{one}` and not `{other}`" for name, one, other in cells if one != other
        ]
        if differing:
            stop = other_row.split("\t")[0]
            return f"call {number}, at {stop}: {', '.join(differing)}"
    return f"it has {len(rows)} calls and not {len(others)}"


def compare_trains(
    found: Mapping[str, OnDates], wanted: Mapping[str, OnDates], window: Window
) -> None:
    for uid in sorted(found.keys() | wanted.keys()):
        one, other = found.get(uid, {}), wanted.get(uid, {})
        if one == other:
            continue
        differing = 0
        for key in one.keys() | other.keys():
            differing |= one.get(key, 0) ^ other.get(key, 0)
        day = (differing & -differing).bit_length() - 1
        difference = difference_of(on_date(one, day), on_date(other, day))
        raise Different(f"{uid} on {window.day(day)}: {difference}")


def compare_links(
    found: Mapping[Linked, int], wanted: Mapping[Linked, int], window: Window
) -> None:
    for key in sorted(found.keys() | wanted.keys()):
        one, other = found.get(key, 0), wanted.get(key, 0)
        if one != other:
            day = window.first(one ^ other)
            link = f"{key.from_uid}, which arrives at {key.from_stop}, to {key.to_uid} from {key.to_stop}"
            lacks = one.bit_count() < other.bit_count()
            raise Different(
                f"on {day}: the feed {'lacks a link' if lacks else 'has a link that is wrong'}: {link}"
            )


def number_of(text: str) -> float | None:
    try:
        return float(text) if text.strip() else None
    except ValueError:
        return float("nan")


def compare_stops(feed: Feed, stops: Stops) -> None:
    """Compares the stops that calls have, and their stations."""
    places = stops.places
    wanted: dict[str, Stop] = {}
    located = {}
    called = {row.split("\t", 1)[0] for trip in feed.trips.values() for row in trip.calls}
    for (location, platform), stop in stops.used.items():
        if stop not in called:
            continue
        tiploc = places.tiploc(location)
        station = f"station:{coded(tiploc.station_crs)}" if tiploc.station_crs else ""
        name = tiploc.given_name or places.station_name(location)
        below = platform if station else ""
        wanted[stop] = Stop(tiploc.crs, name, "", "", STOP, station, below)
        located[stop] = places.coordinates(location)
        if station:
            crs = tiploc.station_crs
            name = places.station_name(location)
            wanted[station] = Stop(crs, name, "", "", STATION, "", "")
            located[station] = places.coordinates(places.siblings(tiploc)[0].name)
    for stop in sorted(wanted.keys() | feed.stops.keys()):
        if stop not in feed.stops:
            raise Different(f"stops.txt has no {stop}")
        if stop not in wanted:
            raise Different(f"stops.txt has {stop}, where no train calls")
        found = feed.stops[stop]
        coordinates = number_of(found.latitude), number_of(found.longitude)
        if coordinates != located[stop]:
            raise Different(f"stops.txt, {stop}: it is at {coordinates} and not {located[stop]}")
        plain = found._replace(latitude="", longitude="", type=found.type or STOP)
        for name, one, other in zip(Stop._fields, plain, wanted[stop]):
            if one != other:
                raise Different(f"stops.txt, {stop}: its {name} is `{one}` and not `{other}`")


def compare_spans(feed: Feed, header: Header) -> None:
    """Compares the dates that the feed says it is for, if it says so."""
    names = ("feed_start_date", "feed_end_date")
    wanted = [f"{day:%Y%m%d}" for day in (header.first_date, header.last_date)]
    for span in feed.spans:
        for name, one, other in zip(names, span, wanted):
            if one.strip() not in ("", other):
                raise Different(f"feed_info.txt: {name} is `{one}` and not `{other}`")


def left_out_lines(trains: Trains, links: Links) -> list[str]:
    """What the feed leaves out, counted, with one of each."""
    lines = []
    if trains.not_for_riders:
        reason = "trains left out: they aren't for riders"
        lines.append(f"{reason}: {trains.not_for_riders}, such as {trains.one_of_them}")
    for reason, count in sorted(links.left_out.items()):
        one = links.one_of_them[reason]
        lines.append(f"associations left out: {reason}: {count}, such as {one}")
    return lines


class Same(NamedTuple):
    """What was compared, in words, and what the feed leaves out."""

    text: str
    left_out: list[str]


def verify_feed(
    path: str,
    extract: Extract,
    given: Mapping[Key, PlaceRow],
    wishes: Wishes,
    progress: Progress,
) -> Same:
    """What was compared, if the feed says what the extract says."""
    header = extract.header()
    window = Window(header.first_date, header.last_date)
    progress.show("reading the feed")
    feed = read_feed(path, window)
    progress.show("reading the extract")
    stops = Stops(extract, given)
    types = EXTENDED_TYPES if wishes.extended_types else TYPES
    associations = read_associations(extract, window)
    uids = {uid for terms in associations for uid in (terms.base, terms.associated)}
    trains = Reader(window, stops, types).read(extract, uids)
    links = expected_links(extract, associations, trains.linked, stops, window, wishes.whole_trains)
    linked: dict[str, OnDates] = {}
    for uid, of_uid in trains.linked.items():
        on_dates = linked[uid] = {}
        for train in of_uid:
            key = train.about, text_of(train.calls, stops)
            on_dates[key] = on_dates.get(key, 0) | train.dates
    if wishes.whole_trains:
        linked = whole_on_dates(linked, links.shown, stops, window)
    wanted = {**trains.plain, **linked}
    progress.show("comparing")
    found = Found(feed, wanted, window, linked if wishes.whole_trains else ())
    for whole in whole_trains(feed, following_in(feed)):
        found.add(whole)
    compare_trains(found.trains, wanted, window)
    compare_links(found.links(), links.dates, window)
    compare_stops(feed, stops)
    compare_spans(feed, header)
    agencies = {trip.about.agency for trip in feed.trips.values()}
    for agency in sorted(agencies - feed.agencies):
        raise Different(f"agency.txt has no {agency}")
    dates = sum(mask.bit_count() for of_uid in wanted.values() for mask in of_uid.values())
    text = f"the same: {len(wanted)} trains on {dates} dates, {len(links.dates)} links, {len(feed.stops)} stops"
    return Same(text, left_out_lines(trains, links))
