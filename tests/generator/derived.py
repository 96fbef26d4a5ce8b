"""Second extracts: one that says the same by other records, and one that is changed in one place."""
from __future__ import annotations

from dataclasses import replace
from random import Random
from typing import List

from reference.dates import DAY, FIRST_OF_ALL, LAST_OF_ALL

from .fields import Body, changed, with_other_fields
from .timetables import Record, Timetable, some_tiplocs, some_uid
from .windows import bounded, some_day, some_part

# ---- the same by other records


def split_by_date(rng: Random, records: List[Record], at: int) -> None:
    """A record becomes two, with a date between them."""
    record = records[at]
    if record.first < record.last:
        last = some_day(rng, (record.first, record.last - DAY))
        records[at : at + 1] = [replace(record, last=last), replace(record, first=last + DAY)]


def split_by_weekday(rng: Random, records: List[Record], at: int) -> None:
    """A record becomes two, each with some of its weekdays, and perhaps both with one of them."""
    record = records[at]
    sides = [rng.choice(["10", "01", "11"]) if bit == "1" else "00" for bit in record.days]
    records[at : at + 1] = [
        replace(record, days="".join(side[number] for side in sides)) for number in (0, 1)
    ]


def part_again(rng: Random, records: List[Record], at: int) -> None:
    """A part of a record stands a second time."""
    record = records[at]
    first, last = some_part(rng, (record.first, record.last))
    days = "".join(bit if rng.random() < 0.7 else "0" for bit in record.days)
    records.append(replace(record, first=first, last=last, days=days))


def overlaid(rng: Random, records: List[Record], at: int) -> None:
    """An overlay with the body of a permanent record stands over it, where no other overlay does."""
    record = records[at]
    if record.letter == "P" and not any(
        other.key == record.key and other.letter == "O" for other in records
    ):
        first, last = some_part(rng, (record.first, record.last))
        records.append(replace(record, letter="O", first=first, last=last))


def idle(rng: Random, records: List[Record], at: int) -> None:
    """A record that applies on no date."""
    records.append(replace(records[at], days="0000000", first=FIRST_OF_ALL, last=LAST_OF_ALL))


WAYS = (split_by_date, split_by_weekday, part_again, overlaid, idle)


def said_otherwise(rng: Random, timetable: Timetable) -> Timetable:
    """A timetable with the same header, which says the same."""
    other = timetable.copy()
    for records in other.associations, other.schedules:
        for _ in range(rng.choice([1, 2, 4]) if records else 0):
            rng.choice(WAYS)(rng, records, rng.randrange(len(records)))
        rng.shuffle(records)
    if other.tiplocs:
        other.tiplocs.append(rng.choice(other.tiplocs))
        rng.shuffle(other.tiplocs)
    return other


# ---- changed in one place


def with_another_date(rng: Random, record: Record) -> Record:
    """One day more or less at one of its ends."""
    if rng.random() < 0.5:
        return replace(
            record, first=min(bounded(record.first + rng.choice([-1, 1]) * DAY), record.last)
        )
    return replace(record, last=max(bounded(record.last + rng.choice([-1, 1]) * DAY), record.first))


def with_another_weekday(rng: Random, record: Record) -> Record:
    at = rng.randrange(7)
    return replace(
        record, days=record.days[:at] + "10"[int(record.days[at])] + record.days[at + 1 :]
    )


def with_another_uid(rng: Random, record: Record) -> Record:
    name = "uid" if record.kind == "BS" else rng.choice(["base", "associated"])
    return replace(record, key=tuple((dict(record.key) | {name: some_uid(rng)}).items()))


def with_another_body(rng: Random, record: Record) -> Record:
    if record.letter == "C":
        return with_another_weekday(rng, record)
    return replace(record, body=changed(rng, record.kind, record.body))


CHANGES = (
    with_another_date,
    with_another_weekday,
    with_another_uid,
    with_another_body,
    with_another_body,
)


def changed_once(rng: Random, timetable: Timetable) -> Timetable:
    """A timetable with the same header that differs in one place; now and then it says the same."""
    other = timetable.copy()
    lists = [records for records in (other.associations, other.schedules) if records]
    if not lists or rng.random() < 0.1:
        other.tiplocs = rng.choice([other.tiplocs[1:], other.tiplocs + some_tiplocs(rng)])
        return other
    records = rng.choice(lists)
    at = rng.randrange(len(records))
    if rng.random() < 0.25:
        del records[at]
    else:
        records[at] = rng.choice(CHANGES)(rng, records[at])
    return other


def with_other_bodies(rng: Random, timetable: Timetable) -> Timetable:
    """A timetable with the same records, of which many have another body; equal bodies stay equal, so that nothing clashes."""
    other, bodies = timetable.copy(), {}
    for records in other.associations, other.schedules:
        for at, record in enumerate(records):
            if record.letter != "C":
                if record.body not in bodies:
                    bodies[record.body] = changed_often(rng, record)
                records[at] = replace(record, body=bodies[record.body])
    return other


def changed_often(rng: Random, record: Record) -> Body:
    """The record's body with a few changes, or none."""
    if record.kind == "BS" and rng.random() < 0.5:
        return with_other_fields(rng, record.body)
    body = record.body
    for _ in range(rng.choice([0, 1, 1, 2, 5])):
        body = changed(rng, record.kind, body)
    return body
