"""How values are written on the pages."""
from __future__ import annotations

from collections.abc import Callable, Collection, Iterable, Sequence
from datetime import date

from .queries import Row

MONTHS = (
    "January February March April May June July August September October November December".split()
)
WEEKDAYS = "Monday Tuesday Wednesday Thursday Friday Saturday Sunday".split()

ADDRESSES = (
    "There is no such page. The addresses are /, /station/HHE/2026-06-05, /train/W20347/2026-06-05,"
    " /journey/VIC/LIT/2026-06-05, /operators and /extract, each also with .json after it."
)
STATUSES = {
    400: "This can't be asked",
    404: "Not found",
    405: "This can only be read",
    500: "This page has failed",
    503: "Not now",
}
# What the activities of a call mean to people who look, from the specification, from memory.
ACTIVITIES = {
    "-D": "detaches vehicles",
    "-T": "attaches and detaches vehicles",
    "-U": "attaches vehicles",
    "A": "stops for another train to pass",
    "AE": "attaches or detaches an engine",
    "BL": "stops for a banking engine",
    "C": "changes its crew",
    "D": "sets down only",
    "E": "stops for examination",
    "L": "changes its locomotive",
    "N": "not advertised",
    "OP": "stops for operating reasons",
    "R": "on request",
    "RM": "reverses",
    "S": "for staff only",
    "U": "picks up only",
    "W": "stops for watering",
    "X": "passes another train on a single line",
}
# What codes of a train mean, of those that riders meet, from the specification, from memory.
MEANINGS = {
    "category": {
        "BR": "replacement bus",
        "BS": "bus",
        "EE": "empty train",
        "OL": "London Underground or metro",
        "OO": "ordinary passenger",
        "OU": "ordinary passenger, not advertised",
        "SS": "ship",
        "XC": "Channel Tunnel",
        "XI": "international",
        "XR": "motorail",
        "XU": "express, not advertised",
        "XX": "express passenger",
        "XZ": "sleeper",
    },
    "status": {
        "1": "passenger, short term",
        "2": "freight, short term",
        "3": "trip, short term",
        "4": "ship, short term",
        "5": "bus, short term",
        "B": "bus",
        "F": "freight",
        "P": "passenger",
        "S": "ship",
        "T": "trip",
    },
    "class": {"B": "first and standard", "S": "standard only"},
}
# What a status says that isn't a train of passengers.
SORTS = {"B": "bus", "5": "bus", "S": "ship", "4": "ship"}
# What an association of a category means for its base train, and for the other one.
ASSOCIATIONS = {
    ("VV", 1): "Divides: a portion leaves as",
    ("VV", 0): "Divides from",
    ("JJ", 1): "Is joined by",
    ("JJ", 0): "Joins",
    ("NP", 1): "Goes on as",
    ("NP", 0): "Comes from",
}


def status(code: int) -> str:
    return STATUSES.get(code, "This can't be answered")


def either(names: Sequence[str]) -> str:
    """`a`, `a or b`, `a, b or c`."""
    return " or ".join(filter(None, [", ".join(names[:-1]), names[-1]]))


def day(text: str) -> str:
    """`Fri 5 June 2026`."""
    found = date.fromisoformat(text)
    return f"{WEEKDAYS[found.weekday()][:3]} {found.day} {MONTHS[found.month - 1]} {found.year}"


def short_day(text: str) -> str:
    """`Fri 5 June`."""
    return day(text)[:-5]


def month(text: str) -> str:
    """`June 2026`, of a date in it."""
    found = date.fromisoformat(text)
    return f"{MONTHS[found.month - 1]} {found.year}"


def clock(text: str | None) -> str:
    """`09:47` of `09:47:00`, and `09:47½` of `09:47:30`."""
    if not text:
        return ""
    return text[:5] + ("½" if text[6:] == "30" else "")


def working(text: str | None) -> str:
    """`09:47½` of `0947H`."""
    return f"{text[:2]}:{text[2:4]}{'½' * text.endswith('H')}" if text else ""


def public(text: str | None) -> str:
    """`09:47` of `0947`. `0000` is no public time."""
    return working(text) if text != "0000" else ""


def activities(text: str | None) -> list[str]:
    """What the activities of a call mean, of those that say something that its times don't."""
    codes = [(text or "")[at : at + 2].strip() for at in range(0, len(text or ""), 2)]
    return [ACTIVITIES[code] for code in codes if code in ACTIVITIES]


def minutes(allowance: str | None) -> str:
    """`1½` of `1H`."""
    if not allowance:
        return ""
    return allowance.replace("H", "½") if allowance != "H" else "½"


def meaning(name: str, code: str) -> str:
    """`XX, express passenger`, or the code alone where no meaning is known."""
    return ", ".join(filter(None, (code, MEANINGS.get(name, {}).get(code.strip()))))


def weekdays(dates: Iterable[str]) -> str:
    """`Mondays to Fridays`, `Saturdays`, `Mondays, Wednesdays`."""
    found = sorted({date.fromisoformat(each).weekday() for each in dates})
    if len(found) > 2 and found[-1] - found[0] == len(found) - 1:
        return f"{WEEKDAYS[found[0]]}s to {WEEKDAYS[found[-1]]}s"
    return ", ".join(f"{WEEKDAYS[each]}s" for each in found)


def span(dates: Sequence[str]) -> str:
    """On which dates, in words."""
    if len(dates) == 1:
        return f"on {day(dates[0])}"
    if len(dates) == 2:
        return f"on {short_day(dates[0])} and {day(dates[1])}"
    between = f"from {short_day(dates[0])} to {day(dates[-1])}"
    return f"on {len(dates)} dates {between}: {weekdays(dates)}"


def association(link: Row) -> str:
    """What a train does with another one."""
    category = link["category"] or "without a category"
    return ASSOCIATIONS.get((category, link["is_base"]), f"Is associated ({category}) with")


def number(value: int) -> str:
    return f"{value:,}"


def plural(count: int, one: str) -> str:
    return f"{count:,} {one}{'s' * (count != 1)}"


def ends(row: Row, show: str) -> str:
    """Where a train of a board goes, or comes from: of one that divides both ends, and of one that two
    have joined."""
    end, category = ("destination_name", "VV") if show == "departures" else ("origin_name", "JJ")
    others = (each[end] for each in row["portions"] if each["category"] == category)
    return joined_by_and(list(dict.fromkeys(filter(None, (row[end], *others)))))


def joined_by_and(names: Sequence[str]) -> str:
    """`a`, `a and b`, `a, b and c`."""
    return " and ".join(filter(None, [", ".join(names[:-1]), *names[-1:]]))


def portion_marks(row: Row, show: str) -> list[str]:
    """What a train does on the way, or has done, with others: each once."""
    found = []
    for each in row["portions"]:
        place, category = each["location_name"], each["category"]
        if show == "departures" and category == "VV":
            found.append(f"divides at {place}")
        elif show == "departures" and each["destination_name"]:
            found.append(f"goes on to {each['destination_name']}")
        elif show == "arrivals" and category == "JJ":
            found.append(f"joined at {place}")
        elif show == "arrivals":
            found.append(f"has come from {each['origin_name']}")
    return list(dict.fromkeys(found))


def marks(row: Row, show: str) -> list[str]:
    """What is odd about a call of a board."""
    found = portion_marks(row, show) if "portions" in row else []
    if row["train_date"] != row["date"]:
        found.append(f"train of {short_day(row['train_date'])}")
    if row["as_required"]:
        found.append("runs as required")
    if row["status"] in SORTS:
        found.append(SORTS[row["status"]])
    if show == "calls":
        if row["pass"]:
            found.append("passes")
        elif not row["for_riders"]:
            found.append("not for riders")
        return found + activities(row["activities"])
    if row["pick_up" if show == "departures" else "set_down"] == 3:
        found.append("on request")
    return found


FILTERS: dict[str, Callable[..., str | Collection[str]]] = {
    "activities": activities,
    "association": association,
    "clock": clock,
    "day": day,
    "ends": ends,
    "marks": marks,
    "minutes": minutes,
    "month": month,
    "number": number,
    "plural": plural,
    "public": public,
    "short_day": short_day,
    "span": span,
    "working": working,
}
