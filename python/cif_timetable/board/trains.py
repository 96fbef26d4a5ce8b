"""A train: its calls on a date, its other dates, and how its versions differ."""
from __future__ import annotations

from collections.abc import Iterable, Iterator, Sequence
from dataclasses import dataclass, field
from datetime import date, timedelta
from difflib import SequenceMatcher
from itertools import groupby, zip_longest
from typing import Any

from . import words
from .queries import Row, Timetable

# What a version doesn't depend on: the record that it comes of, and what is said of its places.
NOT_OF_VERSION = set("id date first_date last_date days_run journey".split())
# The fields of a schedule by which versions are told apart in words.
FIELDS = {
    "identity": "train identity",
    "operator": "operator",
    "category": "category",
    "status": "status",
    "power": "power type",
    "timing_load": "timing load",
    "speed": "speed",
    "characteristics": "characteristics",
    "class": "seating",
    "sleepers": "sleepers",
    "reservations": "reservations",
    "catering": "catering",
    "service_code": "service code",
    "headcode": "headcode",
    "reserved_a": "retail service id",
}
# Colours of versions; further ones begin again, and their letters tell them apart.
COLOURS = 6
LETTERS = "ABCDEFGHIJKLMNOPQRSTUVWXYZ"


@dataclass
class Difference:
    """A place where two versions differ, and what each does there."""

    name: str
    here: str
    there: str


@dataclass
class Version:
    """What a train is on some of its dates."""

    letter: str
    colour: int
    schedule: Row
    dates: list[str] = field(default_factory=list)
    fields: list[tuple[str, str, str]] = field(default_factory=list)
    calls: list[Difference] = field(default_factory=list)
    same: bool = False


@dataclass
class Day:
    """A date of the calendar. `kind` is `runs`, `cancelled` or `none`."""

    date: str
    number: int
    kind: str
    version: Version | None = None


def letter(number: int) -> str:
    """A, B .. Z, AA, AB .."""
    more, rest = divmod(number, len(LETTERS))
    return (letter(more - 1) if more else "") + LETTERS[rest]


def versions_of(rows: Iterable[Row]) -> list[Version]:
    """The versions of a train, by their first dates. Schedules that differ in their dates alone are
    one version."""
    found: dict[tuple[object, ...], Version] = {}
    for row in rows:
        key = (
            row["journey"],
            *(row[name] for name in row if name not in NOT_OF_VERSION),
        )
        if key not in found:
            found[key] = Version(letter(len(found)), len(found) % COLOURS + 1, row)
        found[key].dates.append(row["date"])
    return list(found.values())


# ---- how versions differ


def call_text(call: Row) -> str:
    """What a train does at a place, in short."""
    if call["pass"]:
        text = f"passes {words.working(call['pass'])}"
    else:
        times = (words.working(call["arrival"]), words.working(call["departure"]))
        text = (
            {"LO": "starts {1}", "LT": "ends {0}"}.get(call["record"], "{0} to {1}").format(*times)
        )
        if call["record"] == "LI" and not all(times):
            text = " ".join(filter(None, times)) or "no time"
    return text + (f", platform {call['platform']}" if call["platform"] else "")


def differences(here: Sequence[Row], there: Sequence[Row]) -> Iterator[Difference]:
    """Where two lists of calls differ. Calls at the same place belong together, as far as both lists
    have their places in one order."""
    places = [[(row["location"], row["suffix"]) for row in calls] for calls in (here, there)]
    for kind, start, end, other, other_end in SequenceMatcher(
        None, places[0], places[1], autojunk=False
    ).get_opcodes():
        if kind == "equal":
            for one, two in zip(here[start:end], there[other:other_end]):
                if call_text(one) != call_text(two):
                    yield Difference(one["name"], call_text(one), call_text(two))
        else:
            for row in here[start:end]:
                yield Difference(row["name"], call_text(row), "—")
            for row in there[other:other_end]:
                yield Difference(row["name"], "—", call_text(row))


def compare(timetable: Timetable, shown: Version, versions: Iterable[Version]) -> None:
    """Says of each other version how it differs from the one that is shown."""
    own = timetable.rows("train_calls", journey=shown.schedule["journey"])
    for version in versions:
        if version is shown:
            version.same = True
            continue
        version.fields = [
            (label, version.schedule[name] or "none", shown.schedule[name] or "none")
            for name, label in FIELDS.items()
            if version.schedule[name] != shown.schedule[name]
        ]
        if version.schedule["journey"] != shown.schedule["journey"]:
            other = timetable.rows("train_calls", journey=version.schedule["journey"])
            version.calls = list(differences(own, other))


# ---- the calendar


def days_in(window: tuple[str, str], versions: Iterable[Version], cancelled: set[str]) -> list[Day]:
    """All dates of the window."""
    by_date = {day: version for version in versions for day in version.dates}
    first, last = (date.fromisoformat(each) for each in window)
    return [
        day_of((first + timedelta(days=number)), by_date, cancelled)
        for number in range((last - first).days + 1)
    ]


def months_of(days: Sequence[Day], shown: str) -> list[tuple[str, list[list[Day | None]]]]:
    """The months from the first with a date to the last, and that of the date shown: each by a date
    of it, and its weeks from Monday to Sunday."""
    wanted = [day.date[:7] for day in days if day.kind != "none" or day.date == shown]
    months = []
    for month, group in groupby(days, lambda day: day.date[:7]):
        if not wanted[0] <= month <= wanted[-1]:
            continue
        found: list[Day | None] = list(group)
        start = date.fromisoformat(found[0].date).weekday() if found[0] else 0
        cells = [None] * start + found
        weeks = [list(week) for week in zip_longest(*[iter(cells)] * 7)]
        months.append((found[0].date if found[0] else "", weeks))
    return months


def day_of(day: date, by_date: dict[str, Version], cancelled: set[str]) -> Day:
    text = day.isoformat()
    version = by_date.get(text)
    kind = "runs" if version else "cancelled" if text in cancelled else "none"
    return Day(text, day.day, kind, version)


# ---- the page


def later(day: str, midnights: int | None) -> str | None:
    """The date by the clock after so many midnights."""
    if midnights is None:
        return None
    return (date.fromisoformat(day) + timedelta(days=midnights)).isoformat()


def train_values(timetable: Timetable, uid: str, day: str) -> tuple[dict[str, Any], dict[str, Any]]:
    """The values of the page of a train on a date, and the same as data; nothing if no schedule has
    the UID. The train needn't run on the date."""
    rows = timetable.rows("train_dates", uid=uid)
    published = {row["date"]: row for row in timetable.rows("published", uid=uid)}
    if not rows and not published:
        return {}, {}
    versions = versions_of(rows)
    shown = next((each for each in versions if day in each.dates), None)
    nearest = shown or next(iter(versions), None)
    if nearest:
        compare(timetable, nearest, versions)
    row = next((each for each in rows if each["date"] == day), None)
    calls = timetable.rows("train_calls", journey=row["journey"]) if row else []
    for call in calls:
        call["date"] = later(day, call["midnights"])
    changes = timetable.rows("train_changes", journey=row["journey"]) if row else []
    links = timetable.rows("associations", uid=uid, date=day) if row else []
    cancelled = {each for each, of in published.items() if of["stp_indicator"] == "C"}
    window = timetable.window
    days = days_in(window, versions, cancelled)
    letters = {each: version.letter for version in versions for each in version.dates}
    values = {
        "uid": uid,
        "date": day,
        "train": row,
        "example": row or (nearest.schedule if nearest else None),
        "published": published.get(day),
        "calls": calls,
        "changes": {change["number"]: change for change in changes},
        "links": links,
        "versions": versions,
        "shown": shown,
        "months": months_of(days, day),
        "dates": sorted(letters),
        "cancelled": sorted(cancelled - letters.keys()),
        "facts": facts_of(row) if row else [],
        "allowances": any(
            call[name] for call in calls for name in ("engineering", "pathing", "performance")
        ),
    }
    data: dict[str, Any] = {
        "uid": uid,
        "date": day,
        "train": {name: row[name] for name in row if name != "date"} if row else None,
        "calls": calls,
        "changes": changes,
        "associations": links,
        "calendar": [
            {
                "date": each.date,
                "runs": int(each.kind == "runs"),
                "version": letters.get(each.date),
                "stp_indicator": published.get(each.date, {}).get("stp_indicator"),
            }
            for each in days
        ],
        "versions": [
            {"version": each.letter, **{name: each.schedule[name] for name in each.schedule}}
            for each in versions
        ],
    }
    for version in data["versions"]:
        for name in ("id", "date", "first_date", "last_date", "days_run"):
            version.pop(name)
    return values, data


def facts_of(row: Row) -> list[tuple[str, str]]:
    """What else a schedule says, in the order of its record, of fields that have a value."""
    shown = {name: label for name, label in FIELDS.items() if name not in ("identity", "operator")}
    return [
        (label[0].upper() + label[1:], words.meaning(name, row[name]))
        for name, label in shown.items()
        if row[name]
    ]
