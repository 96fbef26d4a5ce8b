"""Boards: what leaves from a place on a date, and what arrives there, date by date and call by call."""
from __future__ import annotations

from datetime import date
from typing import Collection, List, NamedTuple, Optional, Sequence, Set, Tuple

from .dates import DAY
from .extracts import Body
from .meaning import Meaning
from .public import Call, public_calls
from .tables import CALL, CALLS, EXTRA, cells, extra_of, lines_of, numbered

NO = "1"

OF_BOARD = ["date", "time", "train_date", "uid", "identity", "operator_code", "category", "status"]
OF_BOARD += ["location", "platform", "call", "origin", "origin_name", "destination"]
OF_BOARD += ["destination_name"]
OF_CALLING_AT = ["calling_at", "calling_at_date", "calling_at_time"]


class PublicCall(NamedTuple):
    """A row of the table `public`, without the number of its schedule."""

    call: str
    location: str
    platform: str
    arrival: str
    departure: str
    set_down: str
    pick_up: str


def locations_of(meaning: Meaning, place: str) -> Set[str]:
    """The locations that a place names, in seven columns."""
    named = {tiploc[:7] for tiploc in meaning.tiplocs if len(place) == 3 and tiploc[51:54] == place}
    return named | {place.ljust(7)}


def name_of(meaning: Meaning, location: str) -> str:
    """The name of a location, or nothing."""
    names = [tiploc[16:42] for tiploc in meaning.tiplocs if tiploc[:7] == location.ljust(7)]
    return names[0].rstrip(" ") if names else ""


def calls_of(body: Body) -> List[PublicCall]:
    names = ("location", *CALL)
    calls = [
        Call(number, dict(zip(names, cells(line, names))))
        for number, line in numbered(body.lines)
        if line[:2] in CALLS
    ]
    return [PublicCall(*row) for row in public_calls(calls)]


def by_the_clock(day: date, written: str) -> Tuple[str, str]:
    """The date and the time of day of a time that is counted from the first midnight of the train's date."""
    hours, minutes, seconds = map(int, written.split(":"))
    midnights, hour = divmod(hours, 24)
    return (day + midnights * DAY).isoformat(), f"{hour:02}:{minutes:02}:{seconds:02}"


def there(calls: Sequence[PublicCall], places: Collection[str]) -> Optional[PublicCall]:
    """The first of these calls at which riders get off at one of the places."""
    return next(
        (call for call in calls if call.location.ljust(7) in places and call.set_down != NO), None
    )


def board_rows(
    meaning: Meaning, arrivals: bool, day: date, place: str, calling_at: Optional[str]
) -> List[List[str]]:
    """The cells of each row."""
    places = locations_of(meaning, place)
    found = []
    for (uid,), bodies in meaning.trains.items():
        for train_date, body in bodies.items():
            calls = calls_of(body)
            for at, call in enumerate(calls):
                allowed, moment = (
                    (call.set_down, call.arrival) if arrivals else (call.pick_up, call.departure)
                )
                on, time = by_the_clock(train_date, moment)
                if call.location.ljust(7) not in places or allowed == NO or on != day.isoformat():
                    continue
                cells_there: List[str] = []
                if calling_at is not None:
                    later = there(calls[at + 1 :], locations_of(meaning, calling_at))
                    if later is None:
                        continue
                    cells_there = [later.location, *by_the_clock(train_date, later.arrival)]
                fields = dict(body.fields)
                origin = next((one for one in calls if one.pick_up != NO), calls[0]).location
                destination = next(
                    (one for one in reversed(calls) if one.set_down != NO), calls[-1]
                ).location
                row = [on, time, train_date.isoformat(), uid, fields["identity"].rstrip(" ")]
                row += [extra_of(list(body.lines))[1 + EXTRA.index("operator_code")]]
                row += [fields[name].rstrip(" ") for name in ("category", "status")]
                row += [call.location, call.platform, call.call]
                row += [origin, name_of(meaning, origin)]
                row += [destination, name_of(meaning, destination), *cells_there]
                found.append(((time, uid, train_date, int(call.call)), row))
    return [row for _, row in sorted(found)]


def board_table(
    meaning: Meaning, arrivals: bool, day: date, place: str, calling_at: Optional[str]
) -> List[str]:
    heading = OF_BOARD + ([] if calling_at is None else OF_CALLING_AT)
    return lines_of(heading, board_rows(meaning, arrivals, day, place, calling_at))


def board(
    meaning: Meaning, arrivals: bool, day: date, place: str, calling_at: Optional[str]
) -> List[str]:
    """A line for each row, for people."""
    lines = []
    for cells_of_row in board_rows(meaning, arrivals, day, place, calling_at):
        row = dict(zip([*OF_BOARD, *OF_CALLING_AT], cells_of_row))
        times = [row["time"][:5]] + ([row["calling_at_time"][:5]] if calling_at else [])
        end = "origin" if arrivals else "destination"
        columns = [row["platform"].ljust(3), row["operator_code"].ljust(2)]
        columns += [row["identity"].ljust(4), row["uid"], row[f"{end}_name"] or row[end]]
        lines.append(" ".join([*times, *columns]))
    return lines
