"""The texts that the program prints of what an extract means."""
from __future__ import annotations

from datetime import date
from typing import Dict, List, Tuple, Union

from .dates import Window, yymmdd
from .extracts import Body, Key, Running
from .layouts import ASSOCIATION_KEY, TRAIN_KEY, plain
from .meaning import Meaning
from .weeks import Joined, joined


def record_lines(kind: str, names: Tuple[str, ...], key: Key, record: Joined) -> List[str]:
    """The plain lines of one joined record."""
    fields = {**dict(zip(names, key)), **dict(record.body.fields)}
    fields |= {"transaction": "N", "bank_holiday": " ", "letter": "P"}
    fields |= {"first": yymmdd(record.first), "last": yymmdd(record.last), "days": record.days}
    return [plain(kind, fields), *record.body.lines]


def lines_of(
    kind: str,
    names: Tuple[str, ...],
    running: Running,
    window: Window,
    form: str,
) -> Tuple[List[str], int]:
    """The plain lines of the joined records of all keys, and how many records they are."""
    lines, count = [], 0
    for key, bodies in running.items():
        for record in joined(bodies, window, form):
            lines += record_lines(kind, names, key, record)
            count += 1
    return lines, count


def canonical(meaning: Meaning, form: str) -> Tuple[List[str], Tuple[int, int, int]]:
    """The canonical extract, and the numbers of its locations, associations and schedules."""
    associations, held = lines_of("AA", ASSOCIATION_KEY, meaning.associations, meaning.window, form)
    schedules, run = lines_of("BS", TRAIN_KEY, meaning.trains, meaning.window, form)
    tiplocs = [plain("TI", {"tiploc": tiploc}) for tiploc in meaning.tiplocs]
    lines = [plain("HD", meaning.header), *tiplocs, *associations, *schedules, plain("ZZ", {})]
    return lines, (len(tiplocs), held, run)


def alone_said(ours: Running, theirs: Running) -> Running:
    """For each key the body of each date on which only one of the two says it."""
    return {
        key: {day: body for day, body in bodies.items() if theirs.get(key, {}).get(day) != body}
        for key, bodies in ours.items()
    }


def of_one_side(
    left: Running,
    right: Running,
    window: Window,
) -> List[Tuple[Tuple[str, ...], str, Joined]]:
    """The records that only one of the two says: each with its key and mark, rising by key, then by first date, left first."""
    sides = ("<", alone_said(left, right)), (">", alone_said(right, left))
    found = []
    for key in sorted(left.keys() | right.keys()):
        records = [
            (record.first, mark, record)
            for mark, said in sides
            for record in joined(said.get(key, {}), window, "2")
        ]
        found += [
            (key, mark, record) for _, mark, record in sorted(records, key=lambda place: place[:2])
        ]
    return found


def differing(
    kind: str,
    names: Tuple[str, ...],
    left: Running,
    right: Running,
    window: Window,
) -> List[str]:
    """The lines of these records."""
    return [
        f"{mark} {line}"
        for key, mark, record in of_one_side(left, right, window)
        for line in record_lines(kind, names, key, record)
    ]


def differences(left: Meaning, right: Meaning) -> List[str]:
    """Everything in which two meanings with one window differ."""
    of_one = sorted(set(left.tiplocs) ^ set(right.tiplocs))
    lines = [
        ("< " if tiploc in left.tiplocs else "> ") + plain("TI", {"tiploc": tiploc})
        for tiploc in of_one
    ]
    lines += differing("AA", ASSOCIATION_KEY, left.associations, right.associations, left.window)
    return lines + differing("BS", TRAIN_KEY, left.trains, right.trains, left.window)


def counted(numbers: Tuple[int, int, int]) -> str:
    return "accepted: {} tiplocs, {} associations, {} schedules".format(*numbers)


def journey(body: Body) -> str:
    """The train identity, where and when the journey begins and ends, and the platforms."""
    origin, terminus = (
        next(line for line in body.lines if line.startswith(kind)) for kind in ("LO", "LT")
    )
    ends = [
        columns for line in (origin, terminus) for columns in (line[2:10], line[10:15], line[19:22])
    ]
    return " ".join([dict(body.fields)["identity"], *ends])


def association_fields(key: Key, body: Body) -> str:
    fields = dict(zip(ASSOCIATION_KEY, key)) | dict(body.fields)
    shown: Tuple[str, ...] = ("base", "associated", "category", "date_indicator", "location")
    shown += ("base_suffix", "associated_suffix", "diagram", "type")
    return " ".join(fields[name] for name in shown)


def train_fields(key: Key, body: Body) -> str:
    return f"{key[0]} {journey(body)}"


def call_line(line: str) -> str:
    """The line of a call by its fields, each with its columns in LO, LI and LT; one that a record lacks is spaces."""
    kinds: Dict[str, Tuple[Union[int, Tuple[int, int]], ...]] = {
        "LO": ((3, 9), (10, 10), 5, (11, 15), 5, 4, (16, 19), (20, 22), 3, (23, 25), (30, 41)),
        "LI": (
            (3, 9),
            (10, 10),
            (11, 15),
            (16, 20),
            (21, 25),
            (26, 29),
            (30, 33),
            (34, 36),
            (40, 42),
            (37, 39),
            (43, 54),
        ),
        "LT": ((3, 9), (10, 10), (11, 15), 5, 5, (16, 19), 4, (20, 22), (23, 25), 3, (26, 37)),
    }
    places = kinds[line[:2]]
    return " ".join(
        [
            line[:2],
            *(
                " " * place if isinstance(place, int) else line[place[0] - 1 : place[1]]
                for place in places
            ),
        ]
    )


def call_lines(body: Body, stops: bool) -> List[str]:
    """The lines of a train's calls, if they are asked for."""
    return (
        [call_line(line) for line in body.lines if line[:2] in ("LO", "LI", "LT")] if stops else []
    )


def day_view(meaning: Meaning, day: date, stops: bool) -> List[str]:
    """A line for each association that holds on the date, and for each train that runs, with its calls if they are asked for."""
    associations = [
        f"AA {association_fields(key, bodies[day])}"
        for key, bodies in meaning.associations.items()
        if day in bodies
    ]
    trains = [(key, bodies[day]) for key, bodies in meaning.trains.items() if day in bodies]
    return associations + [
        line
        for key, body in trains
        for line in (f"BS {train_fields(key, body)}", *call_lines(body, stops))
    ]


def train_view(meaning: Meaning, uid: str, form: str, stops: bool) -> List[str]:
    """A line for each record that the train has in the canonical extract, with its calls if they are asked for."""
    records = joined(meaning.trains.get((uid,), {}), meaning.window, form)
    lines = []
    for record in records:
        lines.append(
            f"{yymmdd(record.first)} {yymmdd(record.last)} {record.days} {journey(record.body)}"
        )
        lines += call_lines(record.body, stops)
    return lines
