"""What the GTFS reference requires of a feed, and what MobilityData's validator notes as an error or a warning.

Both are from memory, and the rules have the validator's names where it has them. Of its rules those are left out that are about
files and fields that these feeds never have, such as shapes, fares and frequencies, and those that depend on today's date.
"""
from __future__ import annotations

import csv
import io
import re
from collections import Counter, defaultdict
from math import asin, cos, radians, sin, sqrt
from typing import DefaultDict, Dict, List, NamedTuple, Optional, Set, Tuple


class Notice(NamedTuple):
    """A fault of a feed: whether it is an ERROR or a WARNING, the rule, and where."""

    severity: str
    rule: str
    place: str


ERROR, WARNING = "ERROR", "WARNING"

WEEKDAYS = ("monday", "tuesday", "wednesday", "thursday", "friday", "saturday", "sunday")
DATE, TIME = r"(19|20)\d\d(0[1-9]|1[0-2])(0[1-9]|[12]\d|3[01])", r"\d{2,3}:[0-5]\d:[0-5]\d"
ANY, WEB, WHOLE, DEGREES = r"(?s).+", r"https?://[^\s/]+\.\S+", r"\d+", r"-?\d+(\.\d+)?"
MAIL = r"[^\s@]+@[^\s@]+\.[^\s@]+"
TYPES = "0|1|2|3|4|5|6|7|11|12|1\\d\\d|714"

# Of each file the fields that have to have a value, and those that may, with their forms; and its key.
REQUIRED: Dict[str, Dict[str, str]] = {
    "agency": {
        "agency_id": ANY,
        "agency_name": ANY,
        "agency_url": WEB,
        "agency_timezone": r"[A-Z]\w+/[A-Z]\w+",
    },
    "stops": {"stop_id": ANY, "stop_name": ANY},
    "routes": {"route_id": ANY, "agency_id": ANY, "route_type": TYPES},
    "trips": {"route_id": ANY, "service_id": ANY, "trip_id": ANY},
    "stop_times": {"trip_id": ANY, "stop_id": ANY, "stop_sequence": WHOLE},
    "calendar": {
        "service_id": ANY,
        **dict.fromkeys(WEEKDAYS, "0|1"),
        "start_date": DATE,
        "end_date": DATE,
    },
    "calendar_dates": {"service_id": ANY, "date": DATE, "exception_type": "1|2"},
    "transfers": {"transfer_type": "[0-5]"},
    "feed_info": {"feed_publisher_name": ANY, "feed_publisher_url": WEB, "feed_lang": "[a-z]{2}"},
    "attributions": {"organization_name": ANY},
}
OPTIONAL: Dict[str, Dict[str, str]] = {
    "agency": {"agency_lang": "[a-z]{2}", "agency_phone": ANY, "agency_email": MAIL},
    "stops": {
        **{"stop_code": ANY, "stop_lat": DEGREES, "stop_lon": DEGREES, "location_type": "[0-4]"},
        **{"parent_station": ANY, "platform_code": ANY},
    },
    "routes": {"route_short_name": ANY, "route_long_name": ANY},
    "trips": {
        **{"trip_headsign": ANY, "trip_short_name": ANY, "direction_id": "0|1", "block_id": ANY},
        "bikes_allowed": "[0-2]",
    },
    "stop_times": {
        "arrival_time": TIME,
        "departure_time": TIME,
        "pickup_type": "[0-3]",
        "drop_off_type": "[0-3]",
    },
    "calendar": {},
    "calendar_dates": {},
    "transfers": {
        **{"from_stop_id": ANY, "to_stop_id": ANY, "from_trip_id": ANY, "to_trip_id": ANY},
        "min_transfer_time": WHOLE,
    },
    "attributions": {
        **{"attribution_id": ANY, "attribution_url": WEB},
        **dict.fromkeys(("is_producer", "is_operator", "is_authority"), "0|1"),
    },
    "feed_info": {
        **{
            "feed_start_date": DATE,
            "feed_end_date": DATE,
            "feed_version": ANY,
            "default_lang": "[a-z]{2}",
        },
        **{"feed_contact_email": ANY, "feed_contact_url": WEB},
    },
}
KEYS: Dict[str, Tuple[str, ...]] = {
    **{
        "agency": ("agency_id",),
        "stops": ("stop_id",),
        "routes": ("route_id",),
        "trips": ("trip_id",),
    },
    **{
        "stop_times": ("trip_id", "stop_sequence"),
        "calendar": ("service_id",),
        "calendar_dates": ("service_id", "date"),
    },
    **{"transfers": ("from_stop_id", "to_stop_id", "from_trip_id", "to_trip_id"), "feed_info": ()},
    "attributions": ("attribution_id",),
}
REFERENCES = (
    ("routes", "agency_id", "agency", "agency_id"),
    ("trips", "route_id", "routes", "route_id"),
    ("stop_times", "trip_id", "trips", "trip_id"),
    ("stop_times", "stop_id", "stops", "stop_id"),
    ("stops", "parent_station", "stops", "stop_id"),
    ("transfers", "from_stop_id", "stops", "stop_id"),
    ("transfers", "to_stop_id", "stops", "stop_id"),
    ("transfers", "from_trip_id", "trips", "trip_id"),
    ("transfers", "to_trip_id", "trips", "trip_id"),
)
MIXED_CASE = {
    "agency": "agency_name",
    "stops": "stop_name",
    "routes": "route_long_name",
    "trips": "trip_headsign",
}
OUTSIDE_RANGE = {"stop_lat": 90, "stop_lon": 180}
STOP, STATION = ("", "0"), "1"
OPTIONAL_FILES = {"calendar_dates", "transfers", "attributions"}
IN_SEAT = ("4", "5")
# The fastest that the validator takes for possible, in km/h, and the greatest distance of a transfer, in km.
FASTEST = {"1": 150, "2": 500, "3": 150, "4": 80}
FARTHEST = 10

# A row of a file by its fields.
Row = Dict[str, str]


def rows_of(text: str) -> List[Row]:
    """The rows of a file; what is behind its fields has the name None."""
    return list(csv.DictReader(io.StringIO(text, newline="")))


def seconds_of(time: str) -> int:
    hours, minutes, seconds = map(int, time.split(":"))
    return hours * 3600 + minutes * 60 + seconds


class Feed:
    """The files of a feed, and the notices on them."""

    def __init__(self, files: Dict[str, str]) -> None:
        self.texts = files
        self.rows = {name: rows_of(text) for name, text in files.items()}
        self.notices: List[Notice] = []
        self.stops = {row.get("stop_id"): row for row in self.rows.get("stops", ())}
        self.calls = defaultdict(list)
        for row in self.rows.get("stop_times", ()):
            self.calls[row.get("trip_id")].append(row)

    def note(self, severity: str, rule: str, *places: object) -> None:
        self.notices += [Notice(severity, rule, str(place)) for place in places]

    def all(self, name: str) -> List[Row]:
        return self.rows.get(name, [])


def check_files(feed: Feed) -> None:
    for name in REQUIRED.keys() - feed.rows.keys() - OPTIONAL_FILES:
        feed.note(ERROR, "missing_required_file", name)
    for name in feed.rows.keys() - REQUIRED.keys():
        feed.note(WARNING, "unknown_file", name)
    for name in ("agency", "stops", "routes", "trips", "stop_times", "feed_info"):
        if not feed.all(name):
            feed.note(ERROR, "empty_file", name)


def check_fields(feed: Feed) -> None:
    for name, rows in feed.rows.items():
        forms = {**REQUIRED.get(name, {}), **OPTIONAL.get(name, {})}
        heading = next(csv.reader(io.StringIO(feed.texts[name], newline="")))
        missing = [f"{name}, {field}" for field in REQUIRED.get(name, {}) if field not in heading]
        feed.note(ERROR, "missing_required_column", *missing)
        feed.note(
            WARNING,
            "unknown_column",
            *(f"{name}, {field}" for field in heading if field not in forms),
        )
        feed.note(
            ERROR,
            "duplicated_column",
            *(field for field, count in Counter(heading).items() if count > 1),
        )
        for row in rows:
            roles = [row.get(role) for role in ("is_producer", "is_operator", "is_authority")]
            if name == "attributions" and "1" not in roles:
                feed.note(WARNING, "attribution_without_role", row)
            if None in row or None in row.values():
                feed.note(ERROR, "invalid_row_length", f"{name}: {row}")
                continue
            for field in heading:
                check_value(feed, name, row, field, forms.get(field, ANY))


def check_value(feed: Feed, name: str, row: Row, field: str, form: str) -> None:
    value = row[field]
    if not value:
        if field in REQUIRED[name]:
            feed.note(ERROR, "missing_required_field", f"{name}, {field}: {row}")
        return
    if not re.fullmatch(form, value):
        feed.note(ERROR, "invalid_value", f"{name}, {field}: {value}")
    elif abs(float(value)) > OUTSIDE_RANGE[field] if field in OUTSIDE_RANGE else False:
        feed.note(ERROR, "number_out_of_range", f"{name}, {field}: {value}")
    if value != value.strip():
        feed.note(WARNING, "leading_or_trailing_whitespaces", f"{name}, {field}: {value!r}")
    if field.endswith("_id") and not re.fullmatch("[!-~]+", value):
        feed.note(WARNING, "non_ascii_or_non_printable_char", f"{name}, {field}: {value!r}")
    if (
        field == MIXED_CASE.get(name)
        and re.search("[A-Z]{2}", value)
        and not re.search("[a-z]", value)
    ):
        feed.note(WARNING, "mixed_case_recommended_field", f"{name}, {field}: {value}")


def check_keys(feed: Feed) -> None:
    for name, key in KEYS.items():
        counts = Counter(tuple(row.get(field, "") for field in key) for row in feed.all(name))
        feed.note(
            ERROR,
            "duplicate_key",
            *(f"{name}: {values}" for values, count in counts.items() if count > 1),
        )


def values(feed: Feed, name: str, field: str) -> Set[str]:
    return {row.get(field, "") for row in feed.all(name)}


def check_references(feed: Feed) -> None:
    for name, field, other, key in REFERENCES:
        unknown = values(feed, name, field) - values(feed, other, key) - {""}
        feed.note(
            ERROR, "foreign_key_violation", *(f"{name}, {field}: {value}" for value in unknown)
        )
    services = values(feed, "calendar", "service_id") | values(feed, "calendar_dates", "service_id")
    unknown = values(feed, "trips", "service_id") - services
    feed.note(ERROR, "foreign_key_violation", *(f"trips, service_id: {value}" for value in unknown))
    # what is there and never used
    for name, field, other in (
        ("agency", "agency_id", "routes"),
        ("routes", "route_id", "trips"),
        ("trips", "trip_id", "stop_times"),
    ):
        feed.note(
            WARNING, f"unused_{name}", *(values(feed, name, field) - values(feed, other, field))
        )
    feed.note(WARNING, "unused_service", *(services - values(feed, "trips", "service_id")))


def check_stops(feed: Feed) -> None:
    used, parents = values(feed, "stop_times", "stop_id"), values(feed, "stops", "parent_station")
    for name, row in feed.stops.items():
        kind, parent = row["location_type"], row["parent_station"]
        if not row["stop_lat"] or not row["stop_lon"]:
            feed.note(ERROR, "stop_without_location", name)
        elif abs(float(row["stop_lat"])) < 1 and abs(float(row["stop_lon"])) < 1:
            feed.note(ERROR, "point_near_origin", name)
        if kind == STATION and parent:
            feed.note(ERROR, "station_with_parent_station", name)
        if parent and feed.stops.get(parent, row)["location_type"] != STATION:
            feed.note(ERROR, "wrong_parent_location_type", name)
        if row["platform_code"] and not parent:
            feed.note(WARNING, "platform_without_parent_station", name)
        if kind in STOP and name not in used:
            feed.note(WARNING, "stop_without_stop_time", name)
        if kind not in STOP and name in used:
            feed.note(ERROR, "location_with_unexpected_stop_time", name)
        if kind == STATION and name not in parents:
            feed.note(WARNING, "unused_station", name)


def check_routes(feed: Feed) -> None:
    names: Counter[Tuple[str, ...]] = Counter()
    languages = values(feed, "agency", "agency_lang") | values(feed, "feed_info", "feed_lang")
    for row in feed.all("routes"):
        short, long = row.get("route_short_name", ""), row.get("route_long_name", "")
        names[short, long, row["route_type"], row["agency_id"]] += 1
        if not short and not long:
            feed.note(ERROR, "route_both_short_and_long_name_missing", row["route_id"])
    feed.note(
        WARNING, "duplicate_route_name", *(name for name, count in names.items() if count > 1)
    )
    if len(values(feed, "agency", "agency_timezone")) > 1:
        feed.note(ERROR, "inconsistent_agency_timezone", "")
    if len(languages) > 1:
        feed.note(WARNING, "feed_info_lang_and_agency_lang_mismatch", languages)


def kilometres(one: Row, other: Row) -> float:
    """The distance of two stops, or 0 where one has no coordinates."""
    if not all(stop["stop_lat"] and stop["stop_lon"] for stop in (one, other)):
        return 0
    here, there = (
        [radians(float(stop[field])) for field in ("stop_lat", "stop_lon")] for stop in (one, other)
    )
    half = (
        sin((there[0] - here[0]) / 2) ** 2
        + cos(here[0]) * cos(there[0]) * sin((there[1] - here[1]) / 2) ** 2
    )
    return 2 * 6371 * asin(sqrt(half))


def check_trips(feed: Feed) -> None:
    types = {row["route_id"]: row["route_type"] for row in feed.all("routes")}
    for trip in feed.all("trips"):
        calls = sorted(feed.calls[trip["trip_id"]], key=lambda row: int(row["stop_sequence"]))
        if len(calls) < 2:
            feed.note(WARNING, "unusable_trip", trip["trip_id"])
        if any(not row["arrival_time"] or not row["departure_time"] for row in calls):
            feed.note(ERROR, "missing_trip_edge", trip["trip_id"])
            continue
        times = [
            seconds_of(row[field]) for row in calls for field in ("arrival_time", "departure_time")
        ]
        if times != sorted(times):
            feed.note(
                ERROR, "stop_time_with_arrival_before_previous_departure_time", trip["trip_id"]
            )
        fastest = FASTEST.get(types.get(trip["route_id"], ""), 500)
        for before, after in zip(calls, calls[1:]):
            one, other = (feed.stops.get(row["stop_id"]) for row in (before, after))
            hours = (
                max(seconds_of(after["arrival_time"]) - seconds_of(before["departure_time"]), 60)
                / 3600
            )
            if one and other and kilometres(one, other) / hours > fastest:
                feed.note(
                    WARNING,
                    "fast_travel_between_consecutive_stops",
                    f"{trip['trip_id']}: {after['stop_sequence']}",
                )


def check_services(feed: Feed) -> None:
    for name, first, last in ("calendar", "start_date", "end_date"), (
        "feed_info",
        "feed_start_date",
        "feed_end_date",
    ):
        wrong = [row for row in feed.all(name) if row[first] > row[last]]
        feed.note(ERROR, "start_and_end_range_out_of_order", *wrong)
    added = {
        row["service_id"] for row in feed.all("calendar_dates") if row["exception_type"] == "1"
    }
    regular = {
        row["service_id"]
        for row in feed.all("calendar")
        if any(row[day] == "1" for day in WEEKDAYS)
    }
    every = values(feed, "calendar", "service_id") | values(feed, "calendar_dates", "service_id")
    feed.note(WARNING, "service_never_active", *(every - added - regular))


def check_transfers(feed: Feed) -> None:
    for row in feed.all("transfers"):
        stops = [feed.stops.get(row[field]) for field in ("from_stop_id", "to_stop_id")]
        trips = [feed.calls.get(row[field], []) for field in ("from_trip_id", "to_trip_id")]
        in_seat = row["transfer_type"] in IN_SEAT
        if not in_seat and None in stops:
            feed.note(ERROR, "missing_required_field", row)
        if any(stop and stop["location_type"] not in (*STOP, STATION) for stop in stops):
            feed.note(ERROR, "transfer_with_invalid_stop_location_type", row)
        if row["transfer_type"] == "2" and not row["min_transfer_time"]:
            feed.note(ERROR, "missing_min_transfer_time", row)
        if in_seat and (not row["from_trip_id"] or not row["to_trip_id"]):
            feed.note(ERROR, "missing_required_field", row)
        if in_seat and all(trips):
            ends = max(trips[0], key=number_of), min(trips[1], key=number_of)
            if any(stop and stop["stop_id"] != end["stop_id"] for stop, end in zip(stops, ends)):
                feed.note(WARNING, "transfer_with_suspicious_mid_trip_in_seat", row)
            if len({place_of(feed, end["stop_id"]) for end in ends}) > 1:
                feed.note(ERROR, "linked_trips_at_different_places", row)
            if seconds_of(ends[0]["arrival_time"]) > seconds_of(ends[1]["departure_time"]):
                feed.note(ERROR, "link_back_in_time", row)
        if stops[0] and stops[1] and kilometres(stops[0], stops[1]) > FARTHEST:
            feed.note(WARNING, "transfer_distance_too_large", row)


def check_continuations(feed: Feed) -> None:
    """Where a trip goes on as several, or several as one, all these have one service."""
    service = {row["trip_id"]: row["service_id"] for row in feed.all("trips")}
    for field, other in ("from_trip_id", "to_trip_id"), ("to_trip_id", "from_trip_id"):
        services: DefaultDict[str, Set[Optional[str]]] = defaultdict(set)
        for row in feed.all("transfers"):
            if row["transfer_type"] == "4":
                services[row[field]] |= {service.get(row[other]), service.get(row[field])}
        several = [name for name, found in services.items() if len(found) > 1]
        feed.note(ERROR, "linked_trips_of_other_services", *several)


def check_blocks(feed: Feed) -> None:
    """Trips of a block that run on one date don't overlap. Here they have one service."""
    blocks = defaultdict(list)
    for row in feed.all("trips"):
        if row.get("block_id"):
            calls = sorted(feed.calls[row["trip_id"]], key=number_of)
            span = seconds_of(calls[0]["departure_time"]), seconds_of(calls[-1]["arrival_time"])
            blocks[row["block_id"]].append((*span, row["service_id"], row["route_id"]))
    for name, trips in blocks.items():
        trips.sort()
        if any(one[1] > other[0] for one, other in zip(trips, trips[1:])):
            feed.note(ERROR, "block_trips_with_overlapping_stop_times", name)
        if len({(service, route) for _, _, service, route in trips}) > 1 or len(trips) < 2:
            feed.note(ERROR, "block_of_other_services_or_of_one_trip", name)


def number_of(row: Row) -> int:
    return int(row["stop_sequence"])


def place_of(feed: Feed, stop: str) -> str:
    """The station of a stop, or the stop."""
    return feed.stops.get(stop, {}).get("parent_station") or stop


def check_about(feed: Feed) -> None:
    for row in feed.all("feed_info"):
        if not row.get("feed_contact_email") and not row.get("feed_contact_url"):
            feed.note(WARNING, "missing_feed_contact_email_and_url", "")
        for field in "feed_start_date", "feed_end_date", "feed_version", "default_lang":
            if not row.get(field):
                feed.note(WARNING, "missing_recommended_field", field)
    if len(feed.all("feed_info")) != 1:
        feed.note(ERROR, "more_than_one_entity", "feed_info")


CHECKS = (
    *(check_keys, check_references, check_stops, check_routes, check_trips, check_services),
    *(check_transfers, check_continuations, check_blocks, check_about),
)


def notices(files: Dict[str, str]) -> List[Notice]:
    """All notices on a feed, given as the texts of its files by their names without .txt."""
    feed = Feed(files)
    check_files(feed)
    check_fields(feed)
    # the other rules are about values that have their forms
    if not any(notice.severity == ERROR for notice in feed.notices):
        for check in CHECKS:
            check(feed)
    return feed.notices
