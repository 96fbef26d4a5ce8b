"""Extracts by chance: a window, a few keys, and for each of them records that overlap in all ways."""
from __future__ import annotations

from dataclasses import dataclass, field, replace
from datetime import date
from random import Random
from typing import Dict, List, Optional

from reference.dates import DAY, Window, ddmmyy, yymmdd
from reference.layouts import plain

from .fields import (
    COMMON,
    PRINTABLE,
    Body,
    Pairs,
    changed,
    full_body,
    lines_behind,
    of_width,
    some_body,
    text,
)
from .windows import bounded, some_mask, some_span, some_window

UIDS = (
    "C00123",
    " 00123",
    "C00124",
    "C0012 ",
    "c00123",
    "  A  B",
    "~~~~~~",
    "ZZZZZZ",
    "      ",
    "C00456",
    "!#[]{}",
)
LOCATIONS = ("DUNDEE ", "ABRDEEN", "EDINBUR", "A      ", "A B    ")
SUFFIXES = (" ", " ", "2", "T", "~")


@dataclass(frozen=True)
class Record:
    """A record about an association or a train; that of a cancellation has a body without meaning."""

    kind: str
    key: Pairs
    first: date
    last: date
    days: str
    letter: str
    body: Body

    def lines(self) -> List[str]:
        fields = {**dict(self.key), **dict(self.body.fields)}
        fields |= {"transaction": "N", "bank_holiday": " ", "letter": self.letter}
        fields |= {"first": yymmdd(self.first), "last": yymmdd(self.last), "days": self.days}
        return [plain(self.kind, fields), *lines_behind(self.body)]

    def applies(self, day: date) -> bool:
        return self.first <= day <= self.last and self.days[day.weekday()] == "1"


@dataclass
class Timetable:
    """An extract before it is spelled."""

    header: Dict[str, str]
    window: Window
    tiplocs: List[str] = field(default_factory=list)
    associations: List[Record] = field(default_factory=list)
    schedules: List[Record] = field(default_factory=list)

    def copy(self) -> Timetable:
        return Timetable(
            self.header,
            self.window,
            list(self.tiplocs),
            list(self.associations),
            list(self.schedules),
        )

    def lines(self) -> List[str]:
        """The plain lines."""
        first, last = self.window
        header = plain("HD", self.header | {"first": ddmmyy(first), "last": ddmmyy(last)})
        tiplocs = [plain("TI", {"tiploc": tiploc}) for tiploc in self.tiplocs]
        records = [line for record in self.associations + self.schedules for line in record.lines()]
        return [header, *tiplocs, *records, plain("ZZ", {})]


# ---- records of a key


def clash(record: Record, other: Record, window: Window) -> Optional[date]:
    """The first date on which two records of one letter apply with different bodies, or None."""
    if record.letter != other.letter or record.letter == "C" or record.body == other.body:
        return None
    start, end = max(record.first, other.first, window[0]), min(record.last, other.last, window[1])
    week = (start + number * DAY for number in range(7))
    return next(
        (day for day in week if day <= end and record.applies(day) and other.applies(day)), None
    )


def beside(
    rng: Random, record: Record, before: List[Record], window: Window, clashes: float
) -> List[Record]:
    """The records that stand for this one behind those before; clashes says how likely it is that a clash is left."""
    for _ in range(4):
        clashing = [other for other in before if clash(record, other, window)]
        if not clashing or rng.random() < clashes:
            return [record]
        chance = rng.random()
        if chance < 0.08:
            return [record, replace(record, letter="C")]
        if chance < 0.5:
            record = replace(record, body=clashing[0].body)
        elif chance < 0.75:
            free = ("0" if bit == "1" else mine for bit, mine in zip(clashing[0].days, record.days))
            record = replace(record, days="".join(free))
        else:
            record = replace(record, letter=rng.choice("NOC"))
    return []


def as_it_may_stand(rng: Random, record: Record) -> Record:
    """The record; of a cancellation what may stand in it: nothing, or a BX, a journey or both."""
    if record.letter != "C" or record.kind == "AA" or rng.random() < 0.2:
        return record
    lines = tuple(line for line in record.body.lines if line[0] == "BX" and rng.random() < 0.5)
    return replace(
        record,
        body=Body(tuple((name, " " * len(text)) for name, text in record.body.fields), lines),
    )


def records_of_key(
    rng: Random,
    kind: str,
    key: Pairs,
    window: Window,
    clashes: float,
) -> List[Record]:
    bodies = [some_body(rng, kind)]
    for _ in range(rng.choice([0, 1, 1, 1, 2, 3])):
        bodies.append(
            changed(rng, kind, rng.choice(bodies)) if rng.random() < 0.8 else some_body(rng, kind)
        )
    records: List[Record] = []
    for _ in range(rng.choice([1, 2, 3, 3, 4, 4, 5, 6, 8, 12])):
        letter = rng.choices("PONC", [50, 22, 10, 18])[0]
        days = some_mask(rng, [record.days for record in records])
        record = Record(kind, key, *some_span(rng, window), days, letter, rng.choice(bodies))
        records += beside(rng, record, records, window, clashes)
    return [as_it_may_stand(rng, record) for record in records]


# ---- whole extracts


def some_uid(rng: Random) -> str:
    return rng.choice(UIDS) if rng.random() < 0.7 else "A" + of_width(rng, 5, COMMON + " ")


def association_key(rng: Random, before: List[Pairs]) -> Pairs:
    """A key, often one that differs in one part from a key before, has its first parts alone, or its trains the other way."""
    parts = {
        "base": some_uid(rng),
        "associated": some_uid(rng),
        "location": rng.choice(LOCATIONS) if rng.random() < 0.8 else text(rng, 7),
        "base_suffix": rng.choice(SUFFIXES),
        "associated_suffix": rng.choice(SUFFIXES),
    }
    if before and rng.random() < 0.6:
        names = list(parts)
        others = [rng.choice(names)] if rng.random() < 0.5 else names[rng.randint(1, 3) :]
        parts = dict(rng.choice(before)) | {name: parts[name] for name in others}
        if rng.random() < 0.2:
            parts |= {"base": parts["associated"], "associated": parts["base"]}
    return tuple(parts.items())


def some_keys(rng: Random, kind: str) -> List[Pairs]:
    """A few keys; now and then a dozen, and rarely a hundred."""
    keys: List[Pairs] = []
    for _ in range(rng.choices([0, 1, 2, 3, 12, 100], [160, 475, 160, 155, 45, 5])[0]):
        key = association_key(rng, keys) if kind == "AA" else (("uid", some_uid(rng)),)
        if key not in keys:
            keys.append(key)
    return keys


def some_header(rng: Random) -> Dict[str, str]:
    widths = {
        "mainframe": 20,
        "date_of_extract": 6,
        "time_of_extract": 4,
        "current_file": 7,
        "last_file": 7,
        "version": 1,
    }
    signs = COMMON if rng.random() < 0.8 else PRINTABLE
    header = {name: of_width(rng, width, signs) for name, width in widths.items()} | {"update": "F"}
    return (
        header if rng.random() < 0.8 else header | {"current_file": of_width(rng, 6, COMMON) + " "}
    )


def some_tiplocs(rng: Random) -> List[str]:
    """Columns 3-72 of TI records; some stand twice, some differ in one column, and rarely there are many."""
    if rng.random() < 0.01:
        return [of_width(rng, 70, COMMON) for _ in range(rng.randint(500, 3000))]
    found: List[str] = []
    for _ in range(rng.choice([0, 0, 1, 2, 3, 6])):
        chance = rng.random()
        if found and chance < 0.3:
            found.append(rng.choice(found))
        elif found and chance < 0.6:
            at, other = rng.randrange(70), rng.choice(found)
            found.append(other[:at] + rng.choice(PRINTABLE) + other[at + 1 :])
        else:
            found.append(rng.choice(LOCATIONS) + of_width(rng, 63, COMMON + " " * 30))
    return found


def some_timetable(rng: Random, clashes: Optional[float] = None) -> Timetable:
    """An extract that is well formed; clashes says how likely they are, and where it isn't given, most have none."""
    timetable = Timetable(some_header(rng), some_window(rng), some_tiplocs(rng))
    clashes = rng.choice([0, 0, 0, 0, 0.1, 0.3]) if clashes is None else clashes
    for kind, records in ("AA", timetable.associations), ("BS", timetable.schedules):
        for key in some_keys(rng, kind):
            records += records_of_key(rng, kind, key, timetable.window, clashes)
        if rng.random() < 0.6:
            rng.shuffle(records)
    return timetable


def each_sort(rng: Random) -> Timetable:
    """A small extract with a line of each sort: of what runs, and of cancellations with all lines that may stand in them."""
    first, _ = some_window(rng)
    window = first, bounded(first + 6 * DAY)
    timetable = Timetable(
        some_header(rng), window, [rng.choice(LOCATIONS) + of_width(rng, 63, COMMON)]
    )

    def record(kind: str, key: Pairs, letter: str) -> Record:
        return Record(kind, key, *window, "1111111", letter, full_body(rng, kind))

    key = association_key(rng, [])
    keys = dict.fromkeys([key, association_key(rng, [key])])
    timetable.associations = [
        *(record("AA", key, "P") for key in keys),
        record("AA", association_key(rng, []), "C"),
    ]
    timetable.schedules = [
        record("BS", (("uid", "C00123"),), "P"),
        record("BS", (("uid", "C00124"),), "C"),
    ]
    return timetable
