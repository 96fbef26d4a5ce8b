"""An extract of many schedules: half of its trains have journeys like those of a timetable, and half any journey. Some divide,
join or go on, over a midnight or two, and some associations make no sense."""
from __future__ import annotations

from dataclasses import replace
from random import Random
from typing import Dict, List

from generator.fields import Body, Line, Lines, made, some_body
from generator.timetables import Record, Timetable, as_it_may_stand, beside, some_header
from generator.windows import some_mask, some_span
from reference.dates import Window, day_of
from reference.layouts import TRAIN_BODY

WINDOW = day_of("260318"), day_of("260419")
PLACES = [
    name.ljust(7)
    for name in (
        "ALPHA",
        "BETA",
        "GAMMA",
        "DELTA",
        "EPSILON",
        "ZETA",
        "ETA",
        "THETA",
        "IOTA",
        '"PI",1',
    )
]
CATEGORIES = ("XX", "OO", "OL", "BR", "BS", "SS", "EE", "H2", "  ")
OPERATORS = ("SN", "SR", "GX", "ZZ", "  ")
ENDS = {"LO": "TB", "LT": "TF"}
STOPPING = (
    "T ",
    "T ",
    "T ",
    "T -D",
    "D ",
    "U ",
    "R ",
    "R D ",
    "T RM",
    "N ",
    "-U",
    "S ",
    "  ",
    "T OPKCRM-U",
)


def working_time(now: int) -> str:
    """The working time of a number of half minutes."""
    return public_time(now) + " H"[now % 2]


def public_time(now: int) -> str:
    return f"{now // 120 % 24:02}{now // 2 % 60:02}"


def near(rng: Random, now: int, advertised: bool) -> str:
    """A public time near the working one; or noughts or nothing."""
    if advertised and rng.random() < 0.95:
        return public_time(max(now + rng.choice([0, 0, 0, 1, 2, -2, 6]), 0))
    return rng.choice(["0000", "0000", "    "])


def likely_call(rng: Random, kind: str, arrives: int, leaves: int, advertised: bool) -> Line:
    """A call that begins and ends with these half minutes, or on the way a pass."""
    codes, passes = ENDS.get(kind) or rng.choice(STOPPING), kind == "LI" and rng.random() < 0.3
    blank, none = " " * 5, "0000"
    fields = {"location": rng.choice(PLACES), "activities": ("" if passes else codes).ljust(12)}
    fields |= {
        "arrival": blank if passes else working_time(arrives),
        "departure": blank if passes else working_time(leaves),
    }
    fields |= {"pass": working_time(arrives) if passes else blank}
    fields |= {"public_arrival": none if passes else near(rng, arrives, advertised)}
    fields |= {"public_departure": none if passes else near(rng, leaves, advertised)}
    return kind, tuple((name, fields.get(name, text)) for name, text in made(rng, kind))


def likely_journey(rng: Random, advertised: bool) -> Lines:
    """Calls whose times rise, now and then over a midnight or two, of a train that is advertised or isn't."""
    now = rng.choice([rng.randrange(2880), rng.randrange(2700, 2880)])
    lines = []
    for kind in ["LO", *["LI"] * rng.choice([0, 1, 2, 2, 4, 8, 25]), "LT"]:
        arrives = now + rng.choice([1, 2, 7, 20, 60, 240, rng.choice([5, 1500])])
        now = arrives + (
            rng.choice([1, 2, 2, 3, 10, rng.choice([20, 2000])]) if kind == "LI" else 0
        )
        lines.append(likely_call(rng, kind, arrives, now, advertised))
    return tuple(lines)


def likely_body(rng: Random, advertised: bool) -> Body:
    train = dict(made(rng, "BS", TRAIN_BODY)) | {
        "category": rng.choice(CATEGORIES),
        "status": rng.choice("PPPP12BS45F"),
    }
    extra = dict(made(rng, "BX")) | {"operator_code": rng.choice(OPERATORS)}
    before = () if rng.random() < 0.1 else (("BX", tuple(extra.items())),)
    return Body(tuple(train.items()), before + likely_journey(rng, advertised))


def any_body(rng: Random) -> Body:
    """Any body whose calls have places."""
    body = some_body(rng, "BS")
    lines = []
    for line in body.lines:
        has_none = dict(line[1]).get("location", PLACES[0]).isspace()
        lines.append(at_place(line, {"location": rng.choice(PLACES)}) if has_none else line)
    return replace(body, lines=tuple(lines))


def schedules_of(rng: Random, uid: str) -> List[Record]:
    """A few records of a train, which don't clash."""
    likely = rng.random() < 0.5
    count = rng.choice([1, 2, 2, 3])
    bodies = [
        likely_body(rng, rng.random() < 0.75) if likely else any_body(rng) for _ in range(count)
    ]
    records: List[Record] = []
    for _ in range(rng.choice([1, 1, 2, 3, 4])):
        letter = rng.choices("PONC", [60, 20, 5, 15])[0]
        days = some_mask(rng, [record.days for record in records])
        record = Record(
            "BS", (("uid", uid),), *some_span(rng, WINDOW), days, letter, rng.choice(bodies)
        )
        records += beside(rng, record, records, WINDOW, 0)
    return [as_it_may_stand(rng, record) for record in records]


# ---- associations

OF_ASSOCIATED = {"VV": "LO", "JJ": "LT", "NP": "LO"}
INDICATORS = ("S",) * 9 + (" ", " ", "N", "N", "P", "X")


def at_place(line: Line, place: Dict[str, str]) -> Line:
    """The call at another place, with its suffix."""
    kind, fields = line
    return kind, tuple((name, place.get(name, text)) for name, text in fields)


def place_of(rng: Random, record: Record, category: str) -> Dict[str, str]:
    """Where a train may divide or be joined, or where it ends; now and then at another of its calls."""
    calls = [dict(fields) for kind, fields in record.body.lines if kind in ("LI", "LT", "LO")]
    call = calls[-1] if category == "NP" and rng.random() < 0.9 else rng.choice(calls)
    return {"location": call["location"], "suffix": call["suffix"]}


def long_span(rng: Random) -> Window:
    """Mostly the whole window, so that what belongs together is there on the same dates."""
    return WINDOW if rng.random() < 0.6 else some_span(rng, WINDOW)


def linked_train(rng: Random, uid: str, body: Body) -> List[Record]:
    """The records of a train that has associations."""
    records: List[Record] = []
    for _ in range(rng.choice([1, 1, 2])):
        letter = rng.choices("PNO", [80, 5, 15])[0]
        days = rng.choice(
            ["1111111", "1111111", some_mask(rng, [record.days for record in records])]
        )
        record = Record("BS", (("uid", uid),), *long_span(rng), days, letter, body)
        records += beside(rng, record, records, WINDOW, 0)
    return records


def associated_body(rng: Random, category: str, place: Dict[str, str]) -> Body:
    """The body of a train that begins or ends at a place, but now and then doesn't."""
    body = likely_body(rng, rng.random() < 0.9)
    kind = rng.choice(("LO", "LI", "LT")) if rng.random() < 0.1 else OF_ASSOCIATED[category]
    return replace(
        body, lines=tuple(at_place(line, place) if line[0] == kind else line for line in body.lines)
    )


def association(
    rng: Random, base: str, associated: str, place: Dict[str, str], category: str
) -> List[Record]:
    """The records of an association, of which some cancel it on some dates."""
    key = {"base": base, "associated": associated, "location": place["location"]}
    key |= {"base_suffix": place["suffix"], "associated_suffix": place["suffix"]}
    body = {
        "category": category,
        "date_indicator": rng.choice(INDICATORS),
        "diagram": "T",
        "type": rng.choice("PPPPPP O"),
    }
    records: List[Record] = []
    for letter in ["P", *rng.choice([(), (), ("C",), ("O",)])]:
        if letter == "O":
            body |= {"date_indicator": rng.choice(INDICATORS)}
        days = rng.choice(["1111111", some_mask(rng, [record.days for record in records])])
        record = Record(
            "AA", tuple(key.items()), *long_span(rng), days, letter, Body(tuple(body.items()))
        )
        records += beside(rng, record, records, WINDOW, 0)
    return records


def add_associations(rng: Random, timetable: Timetable, trains: List[Record], count: int) -> None:
    """Adds so many associations, most of them with trains of their own, which may be base trains of others then."""
    keys = set()
    linked: List[List[Record]] = []
    for number in range(count):
        if rng.random() < 0.3 or not linked:
            linked.append(linked_train(rng, f"B{number:05}", likely_body(rng, True)))
            timetable.schedules += linked[-1]
        record = rng.choice(rng.choice(linked[-20:]) if rng.random() < 0.9 else trains)
        category = rng.choice(("VV", "VV", "JJ", "JJ", "NP", "NP", "XX"))
        place, base, associated = (
            place_of(rng, record, category),
            dict(record.key)["uid"],
            f"A{number:05}",
        )
        if rng.random() < 0.1:
            associated = dict(rng.choice(trains).key)["uid"]
        elif category in OF_ASSOCIATED:
            linked.append(linked_train(rng, associated, associated_body(rng, category, place)))
            timetable.schedules += linked[-1]
        key = base, associated, place["location"], place["suffix"]
        if key not in keys:
            keys.add(key)
            timetable.associations += association(rng, base, associated, place, category)


# ---- the extract


def extract(rng: Random, count: int) -> bytes:
    """The bytes of an extract with that many schedules, or a few more."""
    timetable = Timetable(some_header(rng), WINDOW)
    codes = iter(("XYZ", "XYZ", "ABC", "   ", "DEF", "G,H"))
    timetable.tiplocs = [
        f"{place}00890500A{place.title():26}032010000{next(codes, 'JKL')}{'':16}"
        for place in PLACES
    ]
    numbers = iter(range(count))
    while len(timetable.schedules) < count * 3 // 4:
        timetable.schedules += schedules_of(rng, f"{rng.choice('CWGL ')}{next(numbers):05}")
    trains = [
        record for record in timetable.schedules if record.letter != "C" and record.body.lines
    ]
    add_associations(rng, timetable, trains, count // 5)
    while len(timetable.schedules) < count:
        timetable.schedules += schedules_of(rng, f"{rng.choice('CWGL ')}{next(numbers):05}")
    rng.shuffle(timetable.schedules)
    rng.shuffle(timetable.associations)
    return "".join(line + "\n" for line in timetable.lines()).encode()
