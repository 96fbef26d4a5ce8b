"""The public calls of a journey: which calls are public, on which day each time lies, and what a passenger may do there."""
from __future__ import annotations

from typing import List, Mapping, NamedTuple, Optional, Sequence, Set, Tuple


HALF_DAY, DAY, HOUR = 43200, 86400, 3600
NOT_SHOWN, SETS_DOWN, PICKS_UP, ON_REQUEST = (
    {"N ", "S "},
    {"T ", "D ", "TF"},
    {"T ", "U ", "TB"},
    "R ",
)


class Call(NamedTuple):
    """A call as its cells in the table `calls` have it: its number, and the fields by their names."""

    number: str
    cells: Mapping[str, str]


def seconds_of(cell: str) -> Optional[int]:
    """The seconds from midnight of a working or public time, or None where there is none."""
    return int(cell[:2]) * HOUR + int(cell[2:4]) * 60 + 30 * cell.endswith("H") if cell else None


def public_seconds(cell: str) -> Optional[int]:
    return None if cell == "0000" else seconds_of(cell)


def first_of(*values: Optional[int]) -> Optional[int]:
    return next((value for value in values if value is not None), None)


def moment_from(earliest: int, seconds: int) -> int:
    """The one moment at that time of day that is at or after the earliest and less than a day after it."""
    return earliest + (seconds - earliest) % DAY


def reached_and_left(calls: Sequence[Call]) -> List[Optional[Tuple[int, int]]]:
    """For each timed call the moments at which it is reached and left, by its working times; None for the others."""
    found: List[Optional[Tuple[int, int]]] = []
    before: Optional[int] = None
    for call in calls:
        arrival, departure, passing = (
            seconds_of(call.cells[name]) for name in ("arrival", "departure", "pass")
        )
        reached, left = first_of(arrival, passing, departure), first_of(departure, passing, arrival)
        if reached is None or left is None:
            found.append(None)
            continue
        reached = reached if before is None else moment_from(before - HOUR, reached)
        before = moment_from(reached - HOUR, left)
        found.append((reached, before))
    return found


def set_down_and_pick_up(codes: Set[str], arrives: bool, departs: bool) -> Tuple[str, str]:
    """Both cells: 0 yes, 1 no, 3 on request."""
    sets_down, picks_up = bool(codes & SETS_DOWN), bool(codes & PICKS_UP)
    yes = "3" if ON_REQUEST in codes else "0"
    return (
        yes if sets_down or not picks_up and arrives else "1",
        yes if picks_up or not sets_down and departs else "1",
    )


def written(moment: int) -> str:
    return f"{moment // HOUR:02}:{moment // 60 % 60:02}:{moment % 60:02}"


def public_calls(calls: Sequence[Call]) -> List[List[str]]:
    """The cells of each public call from its number on."""
    rows: List[List[str]] = []
    floor = 0
    for call, moments in zip(calls, reached_and_left(calls)):
        arrives, departs = (
            public_seconds(call.cells[name]) for name in ("public_arrival", "public_departure")
        )
        activities = call.cells["activities"].ljust(12)
        codes = {activities[at : at + 2] for at in range(0, 12, 2)}
        if moments is None or arrives is None and departs is None or codes & NOT_SHOWN:
            continue
        reached, left = moments
        arrival = None if arrives is None else moment_from(reached - HALF_DAY, arrives)
        departure = None if departs is None else moment_from(left - HALF_DAY, departs)
        arrival, departure = first_of(arrival, departure), first_of(departure, arrival)
        assert arrival is not None and departure is not None
        arrival = max(arrival, floor)
        departure = floor = max(departure, arrival)
        allowed = set_down_and_pick_up(codes, arrives is not None, departs is not None)
        place = call.cells["location"], call.cells["platform"]
        rows.append([call.number, *place, written(arrival), written(departure), *allowed])
    return rows
