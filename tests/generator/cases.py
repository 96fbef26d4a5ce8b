"""Cases: a job, its inputs, and the timetable from which the first of them was made."""
from __future__ import annotations

import re
from dataclasses import replace
from datetime import date
from random import Random
from typing import List, NamedTuple, Optional, Sequence, Tuple

from reference.answers import OF_BOARDS, OF_FEEDS, OF_TWO, OPTIONS, Inputs, Job
from reference.boards import NO, PublicCall, calls_of
from reference.dates import DAY, Window, from_yymmdd, yymmdd
from reference.extracts import Body
from reference.tables import TABLES

from .damage import damaged
from .derived import changed_once, said_otherwise, with_other_bodies
from .feeds import OfSmall, some_feed
from .fields import for_riders
from .published import spelled_as_published
from .spelling import some_habits, spelled
from .timetables import LOCATIONS, UIDS, Record, Timetable, some_header, some_timetable
from .windows import Odds, bounded, some_day, some_window, with_one_end_moved


class Case(NamedTuple):
    """The job; the bytes of each of its inputs, None for a file that isn't there; and the timetable of the first one, or None
    where an input was damaged or isn't there."""

    job: Job
    inputs: Inputs
    timetable: Optional[Timetable]


COMMANDS = {
    "normalise": 32,
    "check": 6,
    "compare": 14,
    "diff": 16,
    "day": 7,
    "train": 10,
    "explain": 9,
    "clashes": 6,
}
COMMANDS |= {command: 13 for command in OF_FEEDS}

# Whether the program has the tables of the reference: those of whole extracts, calendars, and those of the other commands.
HAS_TABLES = True
COMMANDS |= {"table": 14, "calendar": 7, "departures": 16, "arrivals": 8} if HAS_TABLES else {}

# Of more bytes of standard input, whether the first lines are still known at the end depends on the reads.
ALWAYS_KEPT = 32_768

FORMATS, NO_FORMATS = (None, None, "text", "tsv", "tsv", "json", "json"), ("csv", "TSV", "", "tsv ")
TABLE_FORMATS = (None, "tsv", "json", "json")
NO_TABLES = ("stops", "Calls", "call", "", "schedules ")
FORMS = (None, None, "1", "2", "3", "3")
NO_FORMS = ("4", "0", "", "12", "1 ", "one")
BAD_DATE_WORDS: Tuple[str, ...] = (
    "260230",
    "2601141",
    "26014",
    "",
    "26 114",
    "999999",
    "abcdef",
    "260114 ",
    "26\u06611",
    "\u0662\u0666\u0661",
)
BAD_DATE_WORDS += ("2026-02-30", "2060-01-01", "1959-12-31", "26-01-14", "2026-1-14", "20260114")
BAD_DATE_WORDS += (
    "26\n114",
    "26\x01\r\x1f\x80\x9f\xa0",
    "\u2027\u2028\u202e\u202f",
    "\u2065\u2066\u2069\u206a",
)
BAD_UID_WORDS = (
    "C0012",
    "1A94",
    "C001234",
    "",
    "C0012\t",
    "C0012\u00e9",
    "C001\u00e9",
    "C0012\x7f",
    "C0\n\r12",
    "\x1bC0012~\\",
)

BAD_PLACE_WORDS = ("", "TOOLONGX", "A B", "EUS\t", "\u00e9", "EUS\x7f", "E\n")

# How likely a job has dates, and how likely each fault of a job or its inputs is: where most cases are to be accepted, and
# where many are to have several faults, which show the fault that comes first.
FAULTS: Tuple[str, ...] = (
    "dates",
    "mistake",
    "no date",
    "outside",
    "reversed",
    "no UID",
    "no place",
    "no file",
    "damage",
    "another window",
)
FAULTS += ("no code", "no holidays", "stray line", "astray", "wrong header")
SELDOM = dict(
    zip(
        FAULTS,
        (0.4, 0.005, 0.02, 0.04, 0.04, 0.04, 0.04, 0.02, 0.15, 0.08, 0.06, 0.05, 0.04, 0.1, 0.01),
    )
)
OFTEN = dict(
    zip(FAULTS, (0.8, 0.05, 0.2, 0.3, 0.4, 0.4, 0.3, 0.1, 0.3, 0.4, 0.3, 0.3, 0.3, 0.4, 0.2))
)
# Where it isn't there, most extracts have no clash.
OFTEN["clash"] = 1

# The same of clashes, for the commands that accept them.
CLASHES = (0, 0.2, 1, 1)
OF_CLASHES = ("explain", "clashes", "calendar")


def some_bytes(rng: Random, timetable: Timetable) -> bytes:
    return spelled(rng, timetable.lines(), some_habits(rng))


def date_word(rng: Random, window: Window, odds: Odds) -> str:
    """A date in the window, at its ends or beside them; or a word that is no date."""
    first, last = window
    if rng.random() < odds["no date"]:
        return rng.choice(BAD_DATE_WORDS)
    if rng.random() < odds["outside"]:
        return yymmdd(rng.choice([first - DAY, last + DAY, first - 40 * DAY, last + 400 * DAY]))
    if rng.random() < 0.1:
        return yymmdd(rng.choice([first, last]))
    return yymmdd(some_day(rng, window))


def with_long_dates(rng: Random, job: Job) -> Job:
    """The job, some of whose dates are written YYYY-MM-DD."""

    def written(word: Optional[str]) -> Optional[str]:
        day = None if word is None or rng.random() < 0.7 else from_yymmdd(word)
        return word if day is None else day.isoformat()

    return job._replace(day=written(job.day), first=written(job.first), last=written(job.last))


def window_words(rng: Random, window: Window, odds: Odds) -> Sequence[Optional[str]]:
    """The words of --from and --to, or None."""
    if rng.random() > odds["dates"]:
        return None, None
    words = [date_word(rng, window, odds), date_word(rng, window, odds)]
    words.sort(key=lambda word: (word[:1] < "6", word), reverse=rng.random() < odds["reversed"])
    return [word if rng.random() < 0.7 else None for word in words]


def uid_of(rng: Random, record: Record) -> str:
    """The UID of a train, or one of both of an association."""
    return rng.choice(record.key[:2])[1]


def uid_word(rng: Random, records: List[Record], odds: Odds) -> str:
    if rng.random() < odds["no UID"]:
        return rng.choice(BAD_UID_WORDS)
    if records and rng.random() < 0.95:
        return uid_of(rng, rng.choice(records))
    return rng.choice(UIDS)


class Shown(NamedTuple):
    """A call that a board may show: the train's date and its public calls, which of them it is, and its date by the clock."""

    train_date: date
    calls: Sequence[PublicCall]
    at: int
    day: date

    @property
    def place(self) -> str:
        return self.calls[self.at].location


def calls_of_record(record: Record) -> List[PublicCall]:
    """The public calls of a train."""
    return calls_of(Body(record.body.fields, tuple(record.lines()[1:])))


def runs_on(timetable: Timetable, record: Record, day: date) -> bool:
    """Whether no record with a letter before its own stands above the record of a train on the date, on which it applies."""
    return record.applies(day) and not any(
        other.letter < record.letter and other.applies(day)
        for other in timetable.schedules
        if other.key == record.key
    )


def with_riders(rng: Random, timetable: Timetable) -> Timetable:
    """The timetable, most of whose trains call at a few places for riders."""
    places = tuple(location for location in LOCATIONS if is_word(location.rstrip(" ")))
    bodies = {record.body for record in timetable.schedules if record.letter != "C"}
    opened = {
        body: for_riders(rng, body, places) if rng.random() < 0.9 else body
        for body in sorted(bodies, key=lambda body: (body.fields, body.lines))
    }
    found = timetable.copy()
    found.schedules = [
        replace(record, body=opened.get(record.body, record.body)) for record in timetable.schedules
    ]
    return found


def is_word(text: str) -> bool:
    return re.fullmatch("[!-,.-~][!-~]*", text) is not None


def shown_calls(rng: Random, timetable: Timetable, arrivals: bool) -> List[Shown]:
    """Calls that a board shows, of each train on some date of the window."""
    first, last = timetable.window
    found = []
    for record in timetable.schedules:
        days = [max(record.first, first) + number * DAY for number in range(14)]
        days = [day for day in days if day <= last and runs_on(timetable, record, day)]
        if record.letter == "C" or not days:
            continue
        train_date, calls = rng.choice(days), calls_of_record(record)
        for at, call in enumerate(calls):
            allowed, moment = (
                (call.set_down, call.arrival) if arrivals else (call.pick_up, call.departure)
            )
            day = train_date + int(moment.split(":")[0]) // 24 * DAY
            if allowed != NO and day <= last and is_word(call.location):
                found.append(Shown(train_date, calls, at, day))
    return found


def place_word(rng: Random, timetable: Timetable, places: List[str], odds: Odds) -> str:
    """One of these places, or a CRS code of the extract, in capitals or not; or a word that is no place."""
    if rng.random() < odds["no place"]:
        return rng.choice(BAD_PLACE_WORDS)
    codes = [
        tiploc[51:54]
        for tiploc in timetable.tiplocs
        if rng.random() < 0.3 and (tiploc[:7].rstrip(" ") in places or not places)
    ]
    known = [word for word in places + codes if is_word(word)]
    word = rng.choice(known if known and rng.random() < 0.95 else ["NOWHERE", "ABD", "~"])
    return word.lower() if rng.random() < 0.2 else word


def with_board(rng: Random, job: Job, timetable: Timetable, options: bool, odds: Odds) -> Job:
    """The job with a place and a date: mostly those of a call that the board shows, and often one after midnight."""
    found = shown_calls(rng, timetable, job.command == "arrivals")
    late = [one for one in found if one.day > one.train_date]
    going_on = [
        one for one in found if any(call.set_down != NO for call in one.calls[one.at + 1 :])
    ]
    places, day = [one.place for one in found], date_word(rng, timetable.window, odds)
    goals, has_goal = places, options and job.command == "departures" and rng.random() < 0.3
    if found and rng.random() < 0.9:
        likely = (has_goal and going_on) or (rng.random() < 0.4 and late) or found
        one = rng.choice(likely)
        places, day = [one.place], yymmdd(one.day)
        goals = [call.location for call in one.calls[one.at + 1 :] if call.set_down != NO]
    job = job._replace(place=place_word(rng, timetable, places, odds), day=day)
    if has_goal:
        job = job._replace(calling_at=place_word(rng, timetable, goals, odds))
    return job


def uid_and_day(rng: Random, timetable: Timetable, odds: Odds) -> Tuple[str, str]:
    """The words of explain: often a UID and a date on which a record of it applies."""
    records = timetable.associations + timetable.schedules
    first, last = timetable.window
    days = [(record, max(record.first, first) + rng.randrange(14) * DAY) for record in records]
    apply = [(record, day) for record, day in days if day <= last and record.applies(day)]
    if not apply or rng.random() < 0.3:
        return uid_word(rng, records, odds), date_word(rng, timetable.window, odds)
    record, day = rng.choice(apply)
    return uid_of(rng, record), yymmdd(day)


def beside_it(rng: Random, window: Window) -> Window:
    """A window of the next days, which has some dates in common, or now and then none."""
    first, last = window
    days = (
        rng.choice([1, 1, 2, 7, (last - first).days + rng.choice([0, 1])])
        * rng.choice([1, 1, -1])
        * DAY
    )
    return bounded(first + days), bounded(last + days)


def second_timetable(rng: Random, job: Job, timetable: Timetable, odds: Odds) -> Timetable:
    """What another extract is compared with: often it says the same, or differs in a few places."""
    chance = rng.random()
    if job.format == "tsv" and chance < 0.5:
        other = with_other_bodies(rng, timetable)
    elif chance < (0.2 if job.command == "diff" else 0.35):
        other = said_otherwise(rng, timetable)
    elif chance < 0.9:
        other = timetable
        for _ in range(rng.choice([1, 1, 1, 2, 4, 8])):
            other = changed_once(rng, other)
    else:
        other = some_timetable(rng, odds.get("clash"))
        other.window = timetable.window
    if rng.random() < 0.5:
        other.header = some_header(rng)
    if job.common and rng.random() < 0.7:
        other.window = beside_it(rng, other.window)
    elif rng.random() < odds["another window"]:
        other.window = (
            some_window(rng) if rng.random() < 0.5 else with_one_end_moved(rng, other.window)
        )
    return other


def some_files(rng: Random, command: str, odds: Odds) -> Tuple[str, ...]:
    names = (
        ("left.cif", "right.cif")
        if command in OF_TWO
        else ("extract.cif",)
        if rng.random() < 0.3
        else ()
    )
    if rng.random() < 0.1:
        names = rng.choice(
            [("-", *names[1:]), (*names[:-1], "-"), ("-",) * len(names)] if names else [("-",)]
        )
    return (*names, "further.cif") if names and rng.random() < odds["mistake"] else names


def some_inputs(rng: Random, job: Job, timetable: Timetable, odds: Odds) -> Tuple[Inputs, bool]:
    """The bytes of each input, and whether they are as they were spelled."""
    made, sound = [some_bytes(rng, timetable)], True
    if job.all and rng.random() < 0.5:
        made, sound = [spelled_as_published(rng, timetable.lines(), odds)], False
    if job.command in OF_TWO:
        made.append(some_bytes(rng, second_timetable(rng, job, timetable, odds)))
    inputs: List[Optional[bytes]] = [*made]
    for at, data in enumerate(made):
        if rng.random() < odds["damage"] / len(inputs):
            inputs[at], sound = damaged(rng, data), False
        if job.files and job.files[at] != "-" and rng.random() < odds["no file"]:
            inputs[at], sound = None, False
    return inputs, sound


def some_job(rng: Random, command: str, timetable: Timetable, options: bool, odds: Odds) -> Job:
    job = Job(command, some_files(rng, command, odds))
    if command == "day":
        job = job._replace(day=date_word(rng, timetable.window, odds))
    if command == "train":
        job = job._replace(uid=uid_word(rng, timetable.schedules, odds))
    if command == "explain":
        uid, day = uid_and_day(rng, timetable, odds)
        job = job._replace(uid=uid, day=day)
    if command == "table":
        job = job._replace(
            table=rng.choice(NO_TABLES if rng.random() < odds["mistake"] else list(TABLES))
        )
    if command in OF_BOARDS:
        job = with_board(rng, job, timetable, options, odds)
    if command == "calendar":
        job = job._replace(uid=uid_word(rng, timetable.schedules, odds))
    return with_long_dates(rng, with_options(rng, job, timetable, odds) if options else job)


def with_options(rng: Random, job: Job, timetable: Timetable, odds: Odds) -> Job:
    """The job with options that its command takes, and now and then with others."""
    taken = (
        set().union(*OPTIONS.values()) if rng.random() < odds["mistake"] else OPTIONS[job.command]
    )
    if "first" in taken:
        first, last = window_words(rng, timetable.window, odds)
        job = job._replace(first=first, last=last)
    if "common" in taken:
        job = job._replace(common=rng.random() < 0.5)
    if "stops" in taken:
        job = job._replace(stops=rng.random() < 0.5)
    if "form" in taken:
        job = job._replace(form=rng.choice(FORMS if rng.random() > odds["mistake"] else NO_FORMS))
    if "calling_at" in taken and job.command not in OF_BOARDS:
        job = job._replace(calling_at=rng.choice([None, None, "EUS"]))
    if "all" in taken:
        job = job._replace(all=rng.random() < 0.5)
    if "format" in taken and HAS_TABLES:
        formats = TABLE_FORMATS if job.command == "table" else FORMATS
        job = job._replace(
            format=rng.choice(formats if rng.random() > odds["mistake"] else NO_FORMATS)
        )
    return job._replace(verbose=rng.random() < 0.5)


def small_jobs(timetable: Timetable) -> List[OfSmall]:
    """Jobs of each command of extracts, of which one input is to be damaged: a file, or standard input."""
    uid, day = "C00123", yymmdd(timetable.window[0])
    jobs = [
        Job("normalise"),
        Job("check"),
        Job("check", all=True),
        Job("day", day=day),
        Job("train", uid=uid),
    ]
    jobs += [
        Job("explain", uid=uid, day=day),
        Job("clashes"),
        Job("table", table="calls"),
        Job("calendar", uid=uid),
        Job("departures", place="DUNDEE", day=day),
    ]
    found = [
        OfSmall(job._replace(files=files), 0) for job in jobs for files in ((), ("extract.cif",))
    ]
    for command in OF_TWO:
        both = (
            ("left.cif", "right.cif"),
            ("-", "right.cif"),
            ("left.cif", "right.cif"),
            ("left.cif", "-"),
        )
        found += [OfSmall(Job(command, files), at) for files, at in zip(both, (0, 0, 1, 1))]
    return [OfSmall(job._replace(verbose=True), at) for job, at in found]


def small_views(rng: Random, timetable: Timetable) -> List[Tuple[Job, List[bytes]]]:
    """Jobs about small extracts with their inputs: about a UID, and about two windows, which may share one date or none."""
    records = timetable.associations + timetable.schedules
    uid, data = rng.choice([*(uid_of(rng, record) for record in records), "NONE  "]), some_bytes(
        rng, timetable
    )
    day, layout = yymmdd(timetable.window[0]), rng.choice(["text", "tsv", "json"])
    jobs = [
        Job("calendar", uid=uid),
        Job("train", uid=uid, format=layout),
        Job("explain", uid=uid, day=day, format=layout),
    ]
    other = timetable.copy()
    other.window = beside_it(rng, timetable.window)
    two = Job(rng.choice(OF_TWO), ("left.cif", "right.cif"), common=rng.random() < 0.3)
    found = (rng.choice(jobs), [data]), (two, [data, some_bytes(rng, other)])
    return [(job._replace(verbose=True), inputs) for job, inputs in found]


def some_case(rng: Random, commands: List[str], options: bool, odds: Odds) -> Case:
    """A case of one of these commands; options says whether the job may have some."""
    command = rng.choices(commands, [COMMANDS[name] for name in commands])[0]
    if command in OF_FEEDS:
        job, inputs = some_feed(rng, command, odds)
        return Case(job._replace(verbose=options and rng.random() < 0.5), inputs, None)
    clashes = rng.choice(CLASHES) if command in OF_CLASHES else odds.get("clash")
    timetable = some_timetable(rng, clashes)
    if command in OF_BOARDS and rng.random() < 0.9:
        timetable = with_riders(rng, timetable)
    job = some_job(rng, command, timetable, options, odds)
    inputs, sound = some_inputs(rng, job, timetable, odds)
    if (
        job.all
        and job.verbose
        and job.files in ((), ("-",))
        and len(inputs[0] or b"") > ALWAYS_KEPT
    ):
        job = job._replace(files=("extract.cif",))
    return Case(job, inputs, timetable if sound else None)
