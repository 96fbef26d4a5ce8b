"""Updates: lines that change what is there, or that can't."""
from __future__ import annotations

from dataclasses import replace
from datetime import date
from random import Random
from typing import Dict, List, Tuple

from reference.dates import DAY, Window, ddmmyy
from reference.layouts import plain

from .fields import COMMON, Pairs, changed, of_width, some_body
from .published import with_field
from .spelling import Habits, respelled
from .timetables import LOCATIONS, Record, Timetable, as_it_may_stand, some_header, some_uid
from .windows import Odds, bounded, some_mask, some_span, some_window, with_one_end_moved

RUBBISH = Habits(0, 1, 0, True)

# How many lines of an update are about records of one kind.
STEPS = (0, 1, 2, 3, 6)


def place_of(record: Record) -> Tuple[Pairs, date, str]:
    return record.key, record.first, record.letter


def with_same_key(rng: Random, timetable: Timetable, record: Record) -> Record:
    """A record that an update knows by the same key, with another last date, other days and often another body."""
    body = record.body
    if record.letter != "C":
        body = rng.choice([body, some_body(rng, record.kind), changed(rng, record.kind, body)])
    last = bounded(max(record.first, timetable.window[1]) + rng.choice([0, 0, 1, 40]) * DAY)
    return replace(record, last=last, days=some_mask(rng, [record.days]), body=body)


def with_another_key(rng: Random, record: Record) -> Record:
    """A record that differs from this one in its key, in one part of it."""
    part = rng.choice(["first", "letter", "key"])
    if part == "first":
        first = bounded(record.first + rng.choice([-7, -1, 1, 7]) * DAY)
        return replace(record, first=first, last=max(first, record.last))
    if part == "key":
        names = dict(record.key)
        name = rng.choice(list(names))
        others = {
            6: (some_uid(rng), names[name].strip(" ").rjust(6)),
            7: LOCATIONS,
            1: (" ", "2", "T"),
        }
        names[name] = rng.choice(others[len(names[name])])
        return replace(record, key=tuple(names.items()))
    if record.letter != "C":
        return as_it_may_stand(rng, replace(record, letter=rng.choice("PONC")))
    return replace(record, letter=rng.choice("PON"), body=some_body(rng, record.kind))


def some_record(rng: Random, timetable: Timetable, kind: str) -> Record:
    key: Pairs = (("uid", some_uid(rng)),)
    if kind == "AA":
        key = tuple(
            zip(
                ("base", "associated", "location"),
                (some_uid(rng), some_uid(rng), rng.choice(LOCATIONS)),
            )
        )
        key += (("base_suffix", " "), ("associated_suffix", rng.choice(" 2")))
    body = some_body(rng, kind)
    return Record(
        kind, key, *some_span(rng, timetable.window), some_mask(rng, []), rng.choice("PPONC"), body
    )


def one_to_change(
    rng: Random,
    timetable: Timetable,
    kind: str,
    records: List[Record],
    gone: List[Record],
    there: bool,
) -> Record:
    """A record whose key is there, or isn't, as far as that can be had; gone has some that were there."""
    if there and records:
        return with_same_key(rng, timetable, rng.choice(records))
    if gone and rng.random() < 0.5:
        record = rng.choice(gone)
    else:
        record = (
            rng.choice(records)
            if records and rng.random() < 0.8
            else some_record(rng, timetable, kind)
        )
    for _ in range(4):
        if place_of(record) in map(place_of, records):
            record = with_another_key(rng, record)
    return as_it_may_stand(rng, record)


def lines_of_deletion(rng: Random, record: Record) -> List[str]:
    """A deleted record, with anything in the columns that aren't read; behind a BS there may be a BX and a journey."""
    first, *behind = record.lines()
    first = with_field(first, "transaction", "D")
    first = respelled(rng, first, RUBBISH) if rng.random() < 0.6 else first
    extra, journey = (
        [line for line in behind if (line[:2] == "BX") == is_extra] for is_extra in (True, False)
    )
    further: List[List[str]] = [[], [], [], extra, journey, behind]
    return [first, *rng.choice(further)]


def update_of_records(
    rng: Random, timetable: Timetable, kind: str, records: List[Record], astray: float
) -> Tuple[List[str], List[Record]]:
    """The lines of an update about the records of one kind, and the records after it.

    Astray says how likely a line can't do what it says.
    """
    lines: List[str] = []
    gone: List[Record] = []
    for _ in range(rng.choice(STEPS)):
        transaction = rng.choice("NNRRD" if records else "N")
        there = (transaction != "N") != (rng.random() < astray)
        record = one_to_change(rng, timetable, kind, records, gone, there)
        first, *behind = record.lines()
        put = transaction != "D"
        lines += (
            [with_field(first, "transaction", transaction), *behind]
            if put
            else lines_of_deletion(rng, record)
        )
        gone += [other for other in records if place_of(other) == place_of(record)]
        records = [other for other in records if place_of(other) != place_of(record)] + [
            record
        ] * put
    return lines, records


def some_tiploc(rng: Random, tiplocs: List[str], there: bool) -> str:
    """Columns 3-9 of a TIPLOC that is there, or of one that isn't."""
    names = {tiploc[:7] for tiploc in tiplocs}
    if there and names:
        return rng.choice(sorted(names))
    others = sorted({*LOCATIONS, " " * 7, of_width(rng, 7, COMMON)} - names)
    return rng.choice(others)


def update_of_tiplocs(
    rng: Random, tiplocs: List[str], astray: float
) -> Tuple[List[str], List[str]]:
    """The same of TIPLOCs."""
    lines = []
    for _ in range(rng.choice(STEPS)):
        kind = rng.choice(["TI", "TA", "TA", "TD"] if tiplocs else ["TI"])
        name = some_tiploc(rng, tiplocs, (kind != "TI") != (rng.random() < astray))
        new = (
            some_tiploc(rng, tiplocs, rng.random() < 2 * astray)
            if rng.random() < 0.6
            else rng.choice([" " * 7, name])
        )
        value = name + of_width(rng, 63, COMMON + " ")
        fields = {"identity": kind, "tiploc": name if kind == "TD" else value, "new_tiploc": new}
        lines.append(plain(kind, fields))
        after = new if kind == "TA" and new.strip(" ") else name
        tiplocs = [tiploc for tiploc in tiplocs if tiploc[:7] not in (name, after)]
        tiplocs += [] if kind == "TD" else [after + value[7:]]
    return lines, tiplocs


def last_reference(rng: Random, header: Dict[str, str], astray: float) -> str:
    """The last reference of an update to an extract with this header."""
    current = header["current_file"]
    if rng.random() >= astray:
        return current if rng.random() < 0.85 else " " * 7
    at = rng.randrange(7)
    others = [
        current[:at] + rng.choice(COMMON + " ") + current[at + 1 :],
        current.swapcase(),
        current.strip(" ").rjust(7),
    ]
    return rng.choice([header["last_file"], of_width(rng, 7, COMMON), *others])


def header_of_update(rng: Random, before: Dict[str, str], astray: float) -> Dict[str, str]:
    """The header of an update to a timetable that has that one before."""
    header = some_header(rng) | {"update": "U", "last_file": last_reference(rng, before, astray)}
    return (
        header
        if rng.random() < 0.9
        else header | {"current_file": rng.choice([" " * 7, before["current_file"]])}
    )


def header_line(header: Dict[str, str], window: Window) -> str:
    first, last = window
    return plain("HD", {**header, "first": ddmmyy(first), "last": ddmmyy(last)})


def some_update(
    rng: Random, timetable: Timetable, odds: Odds, astray: float
) -> Tuple[List[str], Timetable]:
    """The lines of an update, and the timetable after it."""
    after = timetable.copy()
    after.window = rng.choice(
        [after.window, after.window, with_one_end_moved(rng, after.window), some_window(rng)]
    )
    tiplocs, after.tiplocs = update_of_tiplocs(rng, timetable.tiplocs, astray)
    associations, after.associations = update_of_records(
        rng, after, "AA", timetable.associations, astray
    )
    schedules, after.schedules = update_of_records(rng, after, "BS", timetable.schedules, astray)
    after.header = header_of_update(rng, timetable.header, rng.choice([0, 0.1, astray]))
    wrong = {"update": "F"} if rng.random() < odds["wrong header"] else {}
    header = header_line(after.header | wrong, after.window)
    return [header, *tiplocs, *associations, *schedules, plain("ZZ", {})], after
