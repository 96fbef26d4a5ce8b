"""Jobs of prepare and update, and their inputs."""
from __future__ import annotations

from dataclasses import replace
from random import Random
from typing import List, NamedTuple, Optional, Tuple

from reference.answers import Inputs, Job, names_of
from reference.dates import DAY
from reference.layouts import plain
from reference.values import OPEN_END

from .damage import damaged
from .fields import changed, some_body
from .published import (
    field_text,
    published,
    some_comment,
    some_holidays,
    some_note,
    spelled_as_published,
    with_field,
)
from .spelling import some_habits, spelled
from .timetables import Timetable, each_sort, some_timetable
from .updates import header_line, header_of_update, some_update, with_same_key
from .windows import Odds, bounded, some_day, some_mask


def some_published(rng: Random) -> Timetable:
    """A timetable, some of whose records begin after its window, and some of which stand a second time with other dates.

    Now and then its associations are all of one of its trains.
    """
    timetable = some_timetable(rng, rng.choice([0, 0.3, 1]))
    if timetable.schedules and rng.random() < 0.3:
        base = ("base", rng.choice(timetable.schedules).key[0][1])
        timetable.associations = [
            replace(record, key=(base, *record.key[1:])) for record in timetable.associations
        ]
    for records in timetable.associations, timetable.schedules:
        for at, record in enumerate(records):
            if rng.random() < 0.05:
                first = bounded(timetable.window[1] + rng.choice([1, 2, 30]) * DAY)
                records[at] = replace(
                    record, first=first, last=bounded(first + rng.choice([0, 9]) * DAY)
                )
        if records and rng.random() < 0.3:
            records.append(with_same_key(rng, timetable, rng.choice(records)))
    return timetable


def with_clashes(rng: Random, timetable: Timetable) -> None:
    """Some keys get short records of one letter, of which many clash with each other or with a record that is there."""
    for records in timetable.associations, timetable.schedules:
        for _ in range(rng.choice([0, 1, 1, 2]) if records else 0):
            record = rng.choice(records)
            first = some_day(rng, rng.choice([(record.first, record.last), timetable.window]))
            body = some_body(rng, record.kind) if record.letter == "C" else record.body
            letter = rng.choice(["P", "O", "N", *record.letter.strip("C") * 3])
            for _ in range(rng.choice([1, 2, 3])):
                last, days = bounded(first + rng.choice([0, 0, 1, 7, 30]) * DAY), some_mask(
                    rng, ["1111111", record.days]
                )
                records.append(
                    replace(record, first=first, last=last, days=days, letter=letter, body=body)
                )
                first = some_day(rng, (first, last))
                body = changed(rng, record.kind, body) if rng.random() < 0.7 else body


def some_prepare(rng: Random, odds: Odds) -> Tuple[Job, List[bytes]]:
    timetable, drop_clashes = some_published(rng), rng.random() < 0.5
    if drop_clashes and rng.random() < 0.7:
        with_clashes(rng, timetable)
    lines = published(rng, timetable.lines(), odds)
    job = Job("prepare", rng.choice([(), ("extract.cif",), ("-",)]), drop_clashes=drop_clashes)
    if rng.random() < 0.4:
        job = job._replace(winners=True, format=rng.choice([None, "tsv", "json"]))
    inputs = [spelled(rng, lines, some_habits(rng))]
    coded = any(line[:2] == "BS" and field_text(line, "bank_holiday") != " " for line in lines)
    if rng.random() < (1 - odds["no code"] if coded else 0.4):
        job = job._replace(
            holidays="-" if job.files == ("extract.cif",) and rng.random() < 0.3 else "holidays.txt"
        )
        inputs.append(some_holidays(rng, lines, odds))
    if rng.random() < odds["mistake"]:
        job = job._replace(files=rng.choice([(), ("-",)]), holidays="-")
        inputs = [inputs[0], inputs[0]]
    return job, inputs


def some_update_job(rng: Random, odds: Odds) -> Tuple[Job, List[bytes]]:
    timetable, lenient = some_published(rng), rng.random() < 0.4
    astray = rng.choice([0, 0.3 if lenient else odds["astray"]])
    inputs = [spelled_as_published(rng, timetable.lines(), odds)]
    for _ in range(rng.choice([1, 1, 1, 2, 2, 3])):
        lines, timetable = some_update(rng, timetable, odds, astray)
        inputs.append(spelled_as_published(rng, lines, odds))
    names = ["full.cif", *(f"update-{number}.cif" for number in range(1, len(inputs)))]
    for _ in range(1 + (rng.random() < odds["mistake"]) if rng.random() < 0.2 else 0):
        names[rng.randrange(len(names))] = "-"
    if rng.random() < odds["mistake"] / 2:
        names, inputs = names[:1], inputs[:1]
    if rng.random() < odds["wrong header"] / 2:
        inputs.reverse()
    return Job("update", tuple(names), lenient=lenient, in_sequence=rng.random() < 0.4), inputs


def some_feed(rng: Random, command: str, odds: Odds) -> Tuple[Job, Inputs]:
    """A job of one of these commands, and its inputs."""
    job, sound = (some_prepare if command == "prepare" else some_update_job)(rng, odds)
    inputs: List[Optional[bytes]] = [*sound]
    for at, name in enumerate(names_of(job)):
        if rng.random() < odds["damage"] / len(inputs):
            inputs[at] = damaged(rng, sound[at])
        if name != "-" and rng.random() < odds["no file"]:
            inputs[at] = None
    if rng.random() < odds["mistake"] / 2:
        job = rng.choice(
            [
                job._replace(form="2"),
                job._replace(first="260105"),
                job._replace(all=True),
                job._replace(stops=True),
            ]
        )
    return job, inputs


# ---- small ones, with a line of each sort


class OfSmall(NamedTuple):
    """A job, and the number of the one of its inputs that is to be damaged."""

    job: Job
    damaged: int


def small_published(rng: Random) -> List[bytes]:
    """An extract in which every sort of line of published extracts stands once, and its holidays."""
    first, *lines = each_sort(rng).lines()
    at = next(at for at, line in enumerate(lines) if line[:2] == "BS")
    coded = with_field(with_field(lines[at], "bank_holiday", "X"), "last", OPEN_END)
    lines = [first, some_comment(rng), *lines[:at], coded, some_note(rng), *lines[at + 1 :]]
    return ["\n".join(lines).encode() + b"\n", b"X\n"]


def small_update(rng: Random) -> List[bytes]:
    """A full extract, and such an update, in which each line finds what it needs."""
    timetable = each_sort(rng)
    [value] = timetable.tiplocs
    tiplocs = [plain("TD", {"identity": "TD", "tiploc": value[:7]}), plain("TI", {"tiploc": value})]
    tiplocs.append(plain("TA", {"identity": "TA", "tiploc": value, "new_tiploc": "NEW    "}))
    lines = [header_line(header_of_update(rng, timetable.header, 0), timetable.window), *tiplocs]
    for records in timetable.associations, timetable.schedules:
        for transaction in "DNR":
            for record in records:
                one, *behind = record.lines()
                lines += [with_field(one, "transaction", transaction), *behind]
    return [
        "\n".join(of_one).encode() + b"\n"
        for of_one in (timetable.lines(), [*lines, plain("ZZ", {})])
    ]


def small_feeds(rng: Random) -> List[Tuple[List[OfSmall], List[bytes]]]:
    """Jobs of prepare, those of update whose FULL is to be damaged, those whose UPDATE is, and those of check, which are about
    an extract or an update behind a comment; each with the inputs.
    """
    prepare = [
        Job("prepare", files, holidays="holidays.txt", verbose=True)
        for files in ((), ("extract.cif",))
    ]
    update = Job("update", lenient=rng.random() < 0.5, verbose=True)
    full = [update._replace(files=(name, "update.cif")) for name in ("full.cif", "-")]
    updates = [update._replace(files=("full.cif", name)) for name in ("update.cif", "-")]
    check = Job("check", all=rng.random() < 0.5, verbose=True)
    checks = [check._replace(files=(name,)) for name in ("extract.cif", "-")]
    of_prepare, full_and_update = small_published(rng), small_update(rng)
    behind = [
        f"{some_comment(rng)}\n".encode() + data for data in (of_prepare[0], full_and_update[1])
    ]
    sorts = [(prepare, 0, of_prepare), (full, 0, full_and_update), (updates, 1, full_and_update)]
    sorts += [(checks, 0, [data]) for data in behind]
    return [([OfSmall(job, at) for job in jobs], inputs) for jobs, at, inputs in sorts]
