"""The pages: for each the values of its template, and the same as data. Whoever asks for what isn't
there is told what is wanted."""
from __future__ import annotations

import re
from collections import defaultdict
from collections.abc import Callable, Mapping
from dataclasses import dataclass
from datetime import date, timedelta
from itertools import groupby
from typing import Any

from ..operators import operator_name, read_operators
from ..places import search_text
from . import words
from .charts import Chart, chart_of
from .queries import Row, Timetable
from .trains import train_values

# A board from a time on has so many hours, and a list of what is found so many rows.
HOURS = 2
MOST_FOUND = 30
# A page of a board has about so many rows at most: the busiest stations have more departures on a day.
MOST_ROWS = 500
# From so many on, a line divides hours.
MANY_ROWS = 20
# Names have at most 26 letters in CIF, and more in the user's lists.
LONGEST = 100
SHOWN = ("departures", "arrivals", "all")
CODE = re.compile("[!-~]{1,7}")
TIME = re.compile("([01][0-9]|2[0-3]):([0-5][0-9])")
DATE = re.compile("[0-9]{4}-[0-9]{2}-[0-9]{2}")
UID = re.compile("[ -~]{6}")

Arguments = Mapping[str, str]


@dataclass
class Asked:
    """A request: what is asked of, the words after the address, and whether a program asks."""

    timetable: Timetable
    arguments: Arguments
    by_program: bool


@dataclass
class Page:
    """A page: its template, what that is filled with, and the same as data."""

    template: str
    values: dict[str, Any]
    data: dict[str, Any]
    # the page that a search means: browsers are sent there
    meant: Elsewhere | None = None


class Wrong(Exception):
    """A request that can't be answered, and why."""

    def __init__(self, status: int, text: str) -> None:
        super().__init__(text)
        self.status = status


class Elsewhere(Exception):
    """What is asked for has another address."""

    def __init__(self, endpoint: str, **values: str) -> None:
        super().__init__(endpoint)
        self.endpoint = endpoint
        self.values = values


@dataclass
class Place:
    """A station, with all of its TIPLOCs, or one TIPLOC. One of the two codes is None."""

    station_crs: str | None
    location: str | None
    name: str
    # the station that a TIPLOC is a part of
    part_of: str | None = None

    @property
    def code(self) -> str:
        return self.station_crs or self.location or ""


# ---- what is asked for


def day_in(timetable: Timetable, text: str) -> str:
    """A date of the window."""
    try:
        if not DATE.fullmatch(text):
            raise ValueError
        date.fromisoformat(text)
    except ValueError:
        raise Wrong(400, f"{text} isn't a date. A date is written 2026-06-05.") from None
    first, last = timetable.window
    if not first <= text <= last:
        window = f"from {words.day(first)} to {words.day(last)}"
        raise Wrong(404, f"{words.day(text)} isn't in this timetable, which is {window}.")
    return text


def usual_day(timetable: Timetable) -> str:
    """The date that is shown where none is asked for: today, or the date of the window next to it."""
    first, last = timetable.window
    return min(max(date.today().isoformat(), first), last)


def given_day(timetable: Timetable, arguments: Arguments) -> str:
    """The date of a form, which may be empty."""
    text = arguments.get("date", "")
    return day_in(timetable, text) if text else usual_day(timetable)


def moved(timetable: Timetable, day: str, days: int) -> str | None:
    """The date some days later, if it is in the window."""
    found = (date.fromisoformat(day) + timedelta(days=days)).isoformat()
    first, last = timetable.window
    return found if first <= found <= last else None


def words_in(arguments: Arguments, name: str) -> str:
    """What is searched."""
    text = arguments.get(name, "").strip()
    if len(text) > LONGEST:
        raise Wrong(400, f"A search has at most {LONGEST} letters.")
    return text


def find_place(timetable: Timetable, code: str) -> Place | None:
    """The place with this code, in capitals."""
    if len(code) == 3:
        found = timetable.row("station", place=code)
        if found:
            return Place(found["station_crs"], None, found["name"])
    found = timetable.row("location", place=code)
    if found:
        return Place(None, found["tiploc"], found["name"], found["station_crs"])
    return None


def place_in(timetable: Timetable, text: str) -> Place:
    wanted = "A station is given by its CRS code, such as HHE, or by a TIPLOC, such as HYWRDSH"
    if not CODE.fullmatch(text):
        raise Wrong(400, f"{wanted}: {text} is neither.")
    place = find_place(timetable, text.upper())
    if place is None:
        raise Wrong(404, f"{wanted}. This timetable has no {text}; the search finds names.")
    return place


def station_in(timetable: Timetable, text: str) -> Place:
    """A station, also by one of its TIPLOCs."""
    place = place_in(timetable, text)
    if place.station_crs is None and place.part_of is not None:
        place = find_place(timetable, place.part_of) or place
    if place.station_crs is None:
        raise Wrong(404, f"{place.name} has no CRS code, so no trains for riders are known there.")
    return place


# ---- a board


@dataclass
class Hours:
    """The part of a day that a board shows, from a time on, or all of it."""

    start: int | None

    @property
    def first(self) -> int:
        return self.start or 0

    @property
    def last(self) -> int:
        """The minute that is shown no more."""
        return 24 * 60 if self.start is None else min(self.start + HOURS * 60, 24 * 60)

    def parameters(self) -> dict[str, object]:
        return {
            "first_time": f"{clock_of(self.first)}:00",
            "last_time": f"{clock_of(self.last)}:00",
            "first_seconds": self.first * 60,
            "last_seconds": self.last * 60,
            "first_working": working_of(self.first),
            "last_working": working_of(self.last),
        }


def clock_of(minute: int) -> str:
    return f"{minute // 60:02}:{minute % 60:02}"


def working_of(minute: int) -> str:
    """A minute as a working time."""
    return f"{minute // 60:02}{minute % 60:02}"


def hours_in(arguments: Arguments) -> Hours:
    text = arguments.get("from", "")
    if not text:
        return Hours(None)
    found = TIME.fullmatch(text)
    if not found:
        raise Wrong(400, f"{text} isn't a time. A time is written 09:00.")
    return Hours(int(found[1]) * 60 + int(found[2]))


def shown_in(arguments: Arguments) -> str:
    text = arguments.get("show", "") or SHOWN[0]
    if text not in SHOWN:
        raise Wrong(400, f"A board shows {words.either(SHOWN)}, and not {text}.")
    return text


def neighbours(timetable: Timetable, day: str, hours: Hours) -> tuple[Row | None, Row | None]:
    """The date and the time of the hours before and after."""
    if hours.start is None:
        days = (moved(timetable, day, by) for by in (-1, 1))
        before, after = ({"date": each, "from": None} if each else None for each in days)
        return before, after

    def at(minute: int) -> Row | None:
        other = moved(timetable, day, minute // (24 * 60))
        return {"date": other, "from": clock_of(minute % (24 * 60))} if other else None

    return at(hours.start - HOURS * 60), at(hours.last)


def station(asked: Asked, place: str, day: str) -> Page:
    """A board."""
    timetable, arguments = asked.timetable, asked.arguments
    found = place_in(timetable, place)
    day = day_in(timetable, day)
    show, hours = shown_in(arguments), hours_in(arguments)
    if found.code != place:
        raise Elsewhere("station", place=found.code, day=day, **of_board(arguments))
    kind = "calls" if show == "all" else show
    rows, until = calls_of(
        timetable, kind, found, day, hours, None if asked.by_program else MOST_ROWS
    )
    if kind != "calls":
        add_portions(timetable, rows, is_boarded=kind == "departures")
    before, after = neighbours(timetable, day, hours)
    if until:
        after = {"date": day, "from": until}
    values = {
        "place": found,
        "date": day,
        "show": show,
        "kind": kind,
        "start": arguments.get("from") or None,
        "hours": hours,
        "every": [clock_of(hour * 60) for hour in range(0, 24, HOURS)],
        "until": until or clock_of(hours.last),
        "cut": until,
        "before": before,
        "after": after,
        "rows": rows,
        "parts": parts_of(rows),
        "window": timetable.window,
    }
    data = {
        "station_crs": found.station_crs,
        "location": found.location,
        "station": found.name,
        "date": day,
        "from": values["start"],
        kind: rows,
    }
    return Page("station", values, data)


def found_in(
    timetable: Timetable, kind: str, place: Place, day: str, hours: Hours, most: int | None
) -> list[Row]:
    """The rows of a board in these hours; of more than so many, the first ones."""
    values: Row = {"date": day, **hours.parameters()}
    if kind != "calls":
        column = "station_crs" if place.station_crs else "location"
        limit = -1 if most is None else most + 1
        return timetable.board(kind, column, place.code, most=limit, **values)
    codes = {"station_crs": place.station_crs, "location": place.location}
    if most is None:
        return timetable.rows("calls", **codes, **values)
    rows: list[Row] = []
    # what isn't shown isn't asked for
    for start in range(hours.first, hours.last, HOURS * 60):
        values.update(Hours(start).parameters() if hours.start is None else {})
        rows += timetable.rows("calls", **codes, **values)
        if len(rows) > most:
            break
    return rows


def calls_of(
    timetable: Timetable, kind: str, place: Place, day: str, hours: Hours, most: int | None
) -> tuple[list[Row], str | None]:
    """The rows of a board, and the time at which it ends before its hours do: then it has about as
    many rows as it may have, and none of the minute after them."""
    rows = found_in(timetable, kind, place, day, hours, most)
    rows.sort(key=lambda row: (row["time"], row["uid"], row["train_date"], row["number"]))
    if most is None or len(rows) <= most:
        return rows, None
    end = rows[most]["time"][:5]
    kept = [row for row in rows if row["time"][:5] < end]
    if kept:
        return kept, end
    # so many leave in one minute that they are shown all the same
    return calls_of(timetable, kind, place, day, hours, None)


def add_portions(timetable: Timetable, rows: list[Row], is_boarded: bool) -> None:
    """Adds to each row of a board the portions that its riders reach, or have come from."""
    found: defaultdict[tuple[int, str], list[Row]] = defaultdict(list)
    for portion in timetable.portions(rows, is_boarded):
        found[portion.pop("of_journey"), portion.pop("of_date")].append(portion)
    for row in rows:
        row["portions"] = [
            portion
            for portion in found.get((row["journey"], row["train_date"]), ())
            if (
                portion["before_call"] > row["number"]
                if is_boarded
                else portion["after_call"] < row["number"]
            )
        ]


def parts_of(rows: list[Row]) -> list[list[Row]]:
    """The rows of a board, hour by hour where they are many."""
    if len(rows) < MANY_ROWS:
        return [rows]
    return [list(group) for _, group in groupby(rows, lambda row: str(row["time"])[:2])]


def station_today(asked: Asked, place: str) -> Page:
    """Where the form of a board leads, and a station without a date."""
    timetable, arguments = asked.timetable, asked.arguments
    found = place_in(timetable, place)
    day = given_day(timetable, arguments)
    raise Elsewhere("station", place=found.code, day=day, **of_board(arguments))


def of_board(arguments: Arguments) -> dict[str, str]:
    """What is asked of a board beside its place and date. Other words stay behind."""
    return {name: arguments[name] for name in ("from", "show") if arguments.get(name)}


# ---- a train


def train(asked: Asked, uid: str, day: str) -> Page:
    timetable = asked.timetable
    uid = uid_in(uid)
    day = day_in(timetable, day)
    values, data = train_values(timetable, uid, day)
    if not values:
        raise Wrong(404, f"This timetable has no train with the UID {uid}.")
    around = {"before": moved(timetable, day, -1), "after": moved(timetable, day, 1)}
    return Page("train", {**values, **around, "window": timetable.window}, data)


def uid_in(text: str) -> str:
    uid = text.upper()
    if not UID.fullmatch(uid):
        raise Wrong(
            400, f"A train is given by its UID of six columns, such as W20347: {text} is none."
        )
    return uid


def train_first(asked: Asked, uid: str) -> Page:
    """Where a train without a date leads: the date asked for, or the next one on which it runs."""
    timetable, arguments = asked.timetable, asked.arguments
    uid = uid_in(uid)
    if arguments.get("date"):
        raise Elsewhere("train", uid=uid, day=day_in(timetable, arguments["date"]))
    dates = [row["date"] for row in timetable.rows("train_dates", uid=uid)]
    if not dates:
        raise Wrong(404, f"This timetable has no train with the UID {uid}.")
    usual = usual_day(timetable)
    raise Elsewhere("train", uid=uid, day=next((each for each in dates if each >= usual), dates[0]))


# ---- from one station to another


def journey(asked: Asked, from_crs: str, to_crs: str, day: str) -> Page:
    timetable = asked.timetable
    start, end = station_in(timetable, from_crs), station_in(timetable, to_crs)
    day = day_in(timetable, day)
    if (start.code, end.code) != (from_crs, to_crs):
        raise Elsewhere("journey", from_crs=start.code, to_crs=end.code, day=day)
    if start.code == end.code:
        raise Wrong(400, f"Both stations are {start.name}.")
    rows = timetable.rows("rides", from_crs=start.code, to_crs=end.code, date=day)
    rides = [{**row, **portion_of(timetable, row)} for row in rows]
    values = {
        "start": start,
        "end": end,
        "date": day,
        "rides": rides,
        "before": moved(timetable, day, -1),
        "after": moved(timetable, day, 1),
        "window": timetable.window,
    }
    data = {"from_crs": start.code, "to_crs": end.code, "date": day, "rides": rows}
    return Page("journey", values, data)


def portion_of(timetable: Timetable, ride: Row) -> Row:
    """How long a ride takes in minutes, and the association by which it ends in another train."""
    reached, left = (
        timedelta(days=date.fromisoformat(day).toordinal())
        + timedelta(hours=int(time[:2]), minutes=int(time[3:5]), seconds=int(time[6:]))
        for day, time in (
            (ride["arrival_date"] or ride["date"], ride["arrival"]),
            (ride["date"], ride["departure"]),
        )
    )
    found: Row = {"minutes": int((reached - left).total_seconds() // 60), "link": None}
    if ride["portion"]:
        links = timetable.rows("associations", uid=ride["uid"], date=ride["train_date"])
        found["link"] = next((row for row in links if row["other_uid"] == ride["portion"]), None)
    return found


def journey_form(asked: Asked) -> Page:
    """Where the form for a journey leads. Its stations are codes or names."""
    timetable, arguments = asked.timetable, asked.arguments
    texts = words_in(arguments, "from"), words_in(arguments, "to")
    day = given_day(timetable, arguments)
    found = [stations_named(timetable, text) for text in texts]
    if all(len(each) == 1 for each in found):
        [[start], [end]] = found
        raise Elsewhere(
            "journey", from_crs=start["station_crs"], to_crs=end["station_crs"], day=day
        )
    choices = [
        {"label": label, "name": name, "text": text, "stations": each}
        for label, name, text, each in zip(("From", "To"), ("from", "to"), texts, found)
    ]
    values = {"choices": choices, "date": day, "window": timetable.window}
    data = {"date": day, "from": found[0], "to": found[1]}
    return Page("choose", values, data)


def stations_named(timetable: Timetable, text: str) -> list[Row]:
    """The stations that a text may mean: the one with this code or with this very name, or else all
    that have it in a name."""
    found = find_stations(timetable, text)
    same = [row for row in found if row["station_crs"] == text.upper()] or [
        row for row in found if search_text(row["name"]) == search_text(text)
    ]
    if not same and CODE.fullmatch(text):
        place = find_place(timetable, text.upper())
        crs = place and (place.station_crs or place.part_of)
        if place and crs:
            return [{"station_crs": crs, "name": place.name}]
    return same if len(same) == 1 else found


# ---- the search


def escaped(text: str) -> str:
    """A text in which LIKE finds no wildcard."""
    return re.sub(r"([%_\\])", r"\\\1", text)


def find_stations(timetable: Timetable, text: str) -> list[Row]:
    searched = search_text(text)
    return timetable.rows(
        "search_stations",
        code=text.upper(),
        text=searched,
        escaped=escaped(searched),
        most=MOST_FOUND,
    )


def home(asked: Asked) -> Page:
    """The search, and what it finds."""
    timetable, arguments = asked.timetable, asked.arguments
    text = words_in(arguments, "q")
    day = given_day(timetable, arguments)
    stations: list[Row] = []
    locations: list[Row] = []
    trains: list[Row] = []
    if text:
        stations = find_stations(timetable, text)
        code = text.upper()
        parts: Row = {"code": code, "text": text.lower(), "escaped": escaped(text.lower())}
        locations = timetable.rows("search_locations", most=MOST_FOUND, **parts)
        trains = timetable.rows(
            "search_trains", uid=code.rjust(6), code=code, date=day, most=MOST_FOUND
        )
    values = {
        "q": text,
        "date": day,
        "stations": stations,
        "locations": locations,
        "trains": trains,
        "found": len(stations) + len(locations) + len(trains),
        "most": MOST_FOUND,
        "window": timetable.window,
    }
    data = {
        "q": text,
        "date": day,
        "stations": stations,
        "locations": locations,
        "trains": trains,
    }
    meant = meant_by(text, day, stations, locations, trains)
    return Page("home", values, data, meant)


def meant_by(
    text: str, day: str, stations: list[Row], locations: list[Row], trains: list[Row]
) -> Elsewhere | None:
    """The page that a search means, if that is clear."""
    same = [row for row in stations if row["station_crs"] == text.upper()] or [
        row for row in stations if search_text(row["name"]) == search_text(text)
    ]
    places = [row for row in locations if row["tiploc"] == text.upper()]
    count = len(stations) + len(locations) + len(trains)
    if not trains and len(same) == 1 and (not places or same[0]["station_crs"] == text.upper()):
        return Elsewhere("station", place=same[0]["station_crs"], day=day)
    if count != 1:
        return None
    if stations:
        return Elsewhere("station", place=stations[0]["station_crs"], day=day)
    if locations:
        return Elsewhere("station", place=locations[0]["tiploc"], day=day)
    if trains[0]["runs"]:
        return Elsewhere("train", uid=trains[0]["uid"], day=day)
    return Elsewhere("train_first", uid=trains[0]["uid"])


# ---- operators, the extract


def operators(asked: Asked) -> Page:
    """Trains a day, of each operator."""
    timetable = asked.timetable
    names = {row["operator"]: row["operator_name"] for row in timetable.rows("operator_names")}
    known = read_operators(None)
    rows = timetable.rows("trains_per_day")
    for row in rows:
        code = row["operator"]
        row["operator_name"] = names.get(code) or operator_name(code or "", known)
    first, last = (date.fromisoformat(each) for each in timetable.window)
    days = [
        (first + timedelta(days=number)).isoformat() for number in range((last - first).days + 1)
    ]
    charts: list[Chart] = []
    if rows:
        charts.append(chart_of("", "All operators", days, rows))
    by_operator = sorted(rows, key=operator_of)
    for code, group in groupby(by_operator, operator_of):
        each = list(group)
        charts.append(chart_of(code, each[0]["operator_name"], days, each))
    charts[1:] = sorted(charts[1:], key=lambda chart: (-chart.total, chart.code))
    values = {"charts": charts, "days": days, "window": timetable.window}
    return Page("operators", values, {"trains_per_day": rows})


def operator_of(row: Row) -> str:
    return row["operator"] or ""


def extract(asked: Asked) -> Page:
    """What is loaded."""
    timetable = asked.timetable
    [row] = timetable.rows("extract")
    return Page("extract", {"extract": row, "window": timetable.window}, row)


pages: list[tuple[str, str, Callable[..., Page]]] = [
    ("/station/<part:place>", "station_today", station_today),
    ("/station/<part:place>/<part:day>", "station", station),
    ("/train/<part:uid>", "train_first", train_first),
    ("/train/<part:uid>/<part:day>", "train", train),
    ("/journey", "journey_form", journey_form),
    ("/journey/<part:from_crs>/<part:to_crs>/<part:day>", "journey", journey),
    ("/operators", "operators", operators),
    ("/extract", "extract", extract),
]
