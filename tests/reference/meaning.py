"""What an extract means: for each key and each date of the window all records are looked at."""
from __future__ import annotations

from datetime import date
from typing import Dict, List, Optional, Tuple

from .dates import dates_of, yymmdd
from .extracts import Body, Entry, Extract, Key, Running, window_of
from .faults import REFUSED, Fault


class Clash(Exception):
    """Two winners have different bodies."""


def applies(entry: Entry, day: date) -> bool:
    return entry.first <= day <= entry.last and entry.days[day.weekday()] == "1"


def winners(entries: List[Entry], day: date) -> List[Entry]:
    """Those of the records of one key that apply on the date with the first letter."""
    applying = [entry for entry in entries if applies(entry, day)]
    least = min((entry.letter for entry in applying), default=None)
    return [entry for entry in applying if entry.letter == least]


def body_on(entries: List[Entry], day: date) -> Optional[Body]:
    """The body that runs on a date, of all records of one key, or None where nothing runs."""
    bodies = {entry.body for entry in winners(entries, day)}
    if len(bodies) > 1:
        raise Clash
    return bodies.pop() if bodies else None


def name_of(key: Key) -> str:
    """How a fault line and a difference name an association or a train."""
    return ("train " if len(key) == 1 else "association ") + "".join(f"[{part}]" for part in key)


def by_key(entries: List[Entry]) -> List[Tuple[Key, List[Entry]]]:
    """The keys, rising, each with its records in their order."""
    return [
        (key, [entry for entry in entries if entry.key == key])
        for key in sorted({entry.key for entry in entries})
    ]


def running(entries: List[Entry], days: List[date]) -> Running:
    """For each key, rising, the body of each date on which one runs."""
    found: Running = {}
    for key, of_key in by_key(entries):
        found[key] = {}
        for day in days:
            try:
                body = body_on(of_key, day)
            except Clash:
                text = f"Ambiguous: {name_of(key)} on {yymmdd(day)}"
                raise Fault(text, REFUSED, "Ambiguous", clash=(of_key, day)) from None
            if body is not None:
                found[key][day] = body
    return found


def clash_dates(extract: Extract) -> Dict[Key, List[date]]:
    """Each key that has a clash, with the dates of its clashes: associations, then trains, each rising by key."""
    found = {}
    for entries in extract.associations, extract.schedules:
        for key, of_key in by_key(entries):
            days = [
                day
                for day in dates_of(window_of(extract))
                if len({entry.body for entry in winners(of_key, day)}) > 1
            ]
            if days:
                found[key] = days
    return found


def all_clashes(extract: Extract) -> Dict[Key, str]:
    """The same, with the name of its first clash."""
    return {
        key: f"{name_of(key)} on {yymmdd(days[0])}" for key, days in clash_dates(extract).items()
    }


class Meaning:
    """What an extract says: its header, its locations, and what holds and runs on each date of its window."""

    def __init__(self, extract: Extract) -> None:
        self.header, self.window = extract.header, window_of(extract)
        self.days = dates_of(self.window)
        self.tiplocs = sorted(set(extract.tiplocs))
        self.associations = running(extract.associations, self.days)
        self.trains = running(extract.schedules, self.days)


def first_difference(left: Meaning, right: Meaning) -> Optional[str]:
    """The name of the first difference of two meanings with one window, or None."""
    of_one = set(left.tiplocs) ^ set(right.tiplocs)
    if of_one:
        return f"tiploc [{min(of_one)}]"
    for ours, theirs in (left.associations, right.associations), (left.trains, right.trains):
        for key in sorted(ours.keys() | theirs.keys()):
            for day in left.days:
                if ours.get(key, {}).get(day) != theirs.get(key, {}).get(day):
                    return f"{name_of(key)} on {yymmdd(day)}"
    return None
