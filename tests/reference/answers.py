"""The answer to a job: standard output, standard error and the status."""
from __future__ import annotations

import re
from datetime import date
from typing import List, NamedTuple, Optional, Sequence, Set, Tuple, Union

from . import published, tables, texts, verbose
from .boards import board, board_table
from .calendars import calendar
from .dates import from_word
from .explanation import explanation
from .extracts import Extract, common_of, extract_of, narrowed, read_extract, window_of
from .faults import REFUSED, WORDS, Fault, of_input
from .holidays import read_holidays
from .json_rows import rows_of
from .meaning import Meaning, all_clashes, clash_dates, first_difference
from .places import place_of
from .reasons import all_reasons, listed
from .verbose import Input
from .winners import winner_table

# The bytes of each input, or None where it can't be read.
Inputs = Sequence[Optional[bytes]]


class Job(NamedTuple):
    """What the words of a command ask for. Dates, a UID, places and the name of a table are words as they were given, or
    None where there is none; without a form it is 2, without a format text, and common, all and others say whether such an option is
    there. Files and holidays are names; where there is no file, the command reads standard input, as it does where the name is
    `-`.
    """

    command: str
    files: Tuple[str, ...] = ()
    day: Optional[str] = None
    uid: Optional[str] = None
    place: Optional[str] = None
    calling_at: Optional[str] = None
    first: Optional[str] = None
    last: Optional[str] = None
    form: Optional[str] = None
    common: bool = False
    stops: bool = False
    table: Optional[str] = None
    format: Optional[str] = None
    all: bool = False
    holidays: Optional[str] = None
    drop_clashes: bool = False
    lenient: bool = False
    in_sequence: bool = False
    winners: bool = False
    verbose: bool = False


class Answer(NamedTuple):
    """What a run prints, and its status, or a text where it has none."""

    stdout: bytes
    stderr: bytes
    status: Union[int, str]


UID = re.compile(r"[ -~]{6}")
SOME = 1

# The options that each command takes besides `--verbose`, and the commands that take two files; update takes two or more, the
# others one or none.
OPTIONS = {
    "normalise": {"first", "last", "form"},
    "check": {"first", "last", "form", "all"},
    "compare": {"first", "last", "common"},
    "diff": {"first", "last", "common", "format"},
    "day": {"stops", "format"},
    "train": {"first", "last", "form", "stops", "format"},
    "explain": {"format"},
    "clashes": {"first", "last", "format"},
    "table": {"first", "last", "form", "format"},
    "calendar": {"first", "last", "format"},
    "departures": {"calling_at", "format"},
    "arrivals": {"format"},
    "prepare": {"holidays", "drop_clashes", "winners", "format"},
    "update": {"lenient", "in_sequence"},
}
OF_TWO = ("compare", "diff")
OF_FEEDS = ("prepare", "update")
OF_BOARDS = ("departures", "arrivals")

# How the fault is reported that two inputs are standard input.
TWICE = {
    "prepare": "--holidays and FILE are both standard input",
    "update": "two inputs are standard input",
}
TWICE |= dict.fromkeys(OF_TWO, "LEFT and RIGHT are both standard input")

# Where the command line itself is at fault, standard error begins so, and what follows isn't fixed.
MISTAKE = Answer(b"", b"error:", WORDS)


def date_of(word: Optional[str]) -> Optional[date]:
    """The date of a word; of no word there is none."""
    day = None if word is None else from_word(word)
    if word is not None and day is None:
        raise Fault("bad date", WORDS, word=word)
    return day


def names_of(job: Job) -> List[str]:
    """The names of the inputs: those of the files, and then that of the holidays."""
    return [*(job.files or ("-",)), *(() if job.holidays is None else (job.holidays,))]


def output(job: Job, inputs: Inputs) -> Tuple[List[str], int, List[str], List[str]]:
    """The lines of standard output, the status, the lines of standard error, and those that `--verbose` adds.

    Inputs has the bytes of each input in the order of names_of, or None where it can't be read.
    """
    if job.uid is not None and not UID.fullmatch(job.uid):
        raise Fault("bad UID", WORDS, word=job.uid)
    place_of(job.place)
    day, asked = date_of(job.day), (date_of(job.first), date_of(job.last))
    place_of(job.calling_at)
    if names_of(job).count("-") > 1:
        raise Fault(TWICE[job.command], WORDS)
    if job.command in OF_FEEDS:
        return (of_prepare if job.command == "prepare" else of_update)(job, shown(job, inputs))
    if job.all:
        with of_input(0):
            reasons = all_reasons(inputs[0])
        if reasons:
            return listed(reasons), REFUSED, [], verbose.of_reasons(shown(job, inputs)[0], reasons)
    return of_extracts(job, day, asked, shown(job, inputs))


def shown(job: Job, inputs: Inputs) -> List[Input]:
    """The inputs with their names."""
    return verbose.inputs_of(job, names_of(job), inputs)


def of_prepare(job: Job, inputs: List[Input]) -> Tuple[List[str], int, List[str], List[str]]:
    """
    The lines of the prepared extract, or of the table of its winners, a line for each code whose holidays don't reach the window,
    and one for each key that is dropped.
    """
    with of_input(1):
        holidays = {} if job.holidays is None else read_holidays(inputs[1].data)
    with of_input(0):
        read = published.read_published(inputs[0].data, holidays)
    records = published.prepared(read, holidays)
    clashes = clash_dates(extract_of(records)) if job.drop_clashes else None
    if clashes:
        records = published.prepared(read, holidays, clashes)
    elif job.winners and not job.drop_clashes:
        refuse_clash(extract_of(records))
    told = published.unreached(read, holidays)
    told += [published.told(key, days) for key, days in (clashes or {}).items()]
    if job.winners:
        lines = winner_table(read, holidays, job.drop_clashes)
        lines = rows_of(lines, job.command, False) if job.format == "json" else lines
    else:
        lines = published.written(records)
    return lines, 0, told, verbose.of_prepared(inputs[0], read, holidays, clashes)


def refuse_clash(extract: Extract) -> None:
    """Refuses the first clash, if there is one."""
    for clash in all_clashes(extract).values():
        raise Fault(f"Ambiguous: {clash}", REFUSED)


def waived_by(job: Job) -> Set[str]:
    """The refusals of lines of an update that are waived."""
    if not job.lenient:
        return set()
    return {"NotThere", "AlreadyThere"} | (set() if job.in_sequence else {"OutOfSequence"})


def of_update(job: Job, inputs: List[Input]) -> Tuple[List[str], int, List[str], List[str]]:
    """
    The lines of the full extract after all updates, a line if it looks as if it were prepared, and one for each line that is
    waived.
    """
    full, *updates = inputs
    with of_input(0):
        records = published.read_published(full.data)
    told: List[str] = []
    more: List[str] = []
    of_full, is_marked = verbose.of_feed(full, records, ""), published.has_marks(records)
    for at, update in enumerate(updates, 1):
        with of_input(at):
            read = published.read_update(update.data)
            records, waived = published.updated(records, read, waived_by(job))
        if not is_marked and published.has_marks(read):
            is_marked, told = True, [published.AS_PREPARED, *told]
            of_full.append(verbose.of_prepared_full(full))
        told += [f"{line} (waived)" for line in waived]
        more += verbose.of_update(update, read, waived)
    return published.written(records), 0, told, of_full + more


def of_extracts(
    job: Job, day: Optional[date], asked: Sequence[Optional[date]], inputs: List[Input]
) -> Tuple[List[str], int, List[str], List[str]]:
    """The same of the commands that read extracts of the profile."""
    extracts = []
    for at, one in enumerate(inputs):
        with of_input(at):
            extracts.append(read_extract(one.data))
    if job.common:
        asked = [given or common for given, common in zip(asked, common_of(extracts))]
    extracts = [narrowed(extract, asked) for extract in extracts]
    window, *others = [window_of(extract) for extract in extracts]
    if others not in ([], [window]):
        raise Fault("WindowsDiffer", REFUSED)
    if day is not None and not window[0] <= day <= window[1]:
        raise Fault("OutsideWindow", REFUSED)
    lines, status = said(job, day, extracts)
    return lines, status, [], verbose.of_extracts(job, inputs, extracts, lines)


def said(job: Job, day: Optional[date], extracts: List[Extract]) -> Tuple[List[str], int]:
    """The same of extracts that have the window asked for, in which the day lies if there is one."""
    lines, status = laid_out(job, day, extracts)
    return rows_of(lines, job.command, job.stops) if job.format == "json" else lines, status


def laid_out(job: Job, day: Optional[date], extracts: List[Extract]) -> Tuple[List[str], int]:
    """The same, with the lines of a table for JSON."""
    as_table = job.format in ("tsv", "json")
    if job.command == "explain":
        assert job.uid is not None and day is not None
        return (tables.explanation_table if as_table else explanation)(extracts[0], job.uid, day), 0
    if job.command == "clashes" and as_table:
        heading, *rows = tables.clash_table(extracts[0])
        return [heading, *rows], SOME if rows else 0
    if job.command == "clashes":
        return some_or_none(list(all_clashes(extracts[0]).values()))
    if job.command == "calendar":
        assert job.uid is not None
        return (tables.calendar_table if as_table else calendar)(extracts[0], job.uid), 0
    meanings = []
    for at, extract in enumerate(extracts):
        with of_input(at):
            meanings.append(Meaning(extract))
    meaning, *others = meanings
    if job.command in OF_BOARDS:
        return of_board(job, day, meaning, as_table), 0
    return of_meanings(job, day, [meaning, *others], as_table)


def of_board(job: Job, day: Optional[date], meaning: Meaning, as_table: bool) -> List[str]:
    """What leaves from a place, or arrives there."""
    place, calling_at = place_of(job.place), place_of(job.calling_at)
    assert day is not None and place is not None
    arrivals = job.command == "arrivals"
    return (board_table if as_table else board)(meaning, arrivals, day, place, calling_at)


def of_meanings(
    job: Job, day: Optional[date], meanings: List[Meaning], as_table: bool
) -> Tuple[List[str], int]:
    """The same of the commands that say what extracts mean."""
    meaning, *others = meanings
    form = job.form or "2"
    if job.command == "normalise":
        return texts.canonical(meaning, form)[0], 0
    if job.command == "check":
        return [texts.counted(texts.canonical(meaning, form)[1])], 0
    if job.command == "table":
        assert job.table is not None
        return tables.table(job.table, texts.canonical(meaning, form)[0]), 0
    if job.command == "day":
        assert day is not None
        return (tables.day_table if as_table else texts.day_view)(meaning, day, job.stops), 0
    if job.command == "train":
        assert job.uid is not None
        return (tables.train_table if as_table else texts.train_view)(
            meaning, job.uid, form, job.stops
        ), 0
    if job.command == "diff" and as_table:
        heading, *rows = tables.difference_table(meaning, *others)
        return [heading, *rows], SOME if rows else 0
    if job.command == "diff":
        return some_or_none(texts.differences(meaning, *others))
    difference = first_difference(meaning, *others)
    return ([f"differs: {difference}"], SOME) if difference else (["same"], 0)


def some_or_none(lines: List[str]) -> Tuple[List[str], int]:
    return lines, SOME if lines else 0


def agrees(want: Answer, got: Answer) -> bool:
    """Whether an answer is the wanted one."""
    if want == MISTAKE:
        return got.stderr.startswith(want.stderr) and got._replace(stderr=want.stderr) == want
    return got == want


def is_mistake(job: Job) -> bool:
    """Whether the command doesn't take such options or such a table, or not so many files."""
    names = (
        "first",
        "last",
        "form",
        "common",
        "stops",
        "format",
        "all",
        "holidays",
        "drop_clashes",
        "lenient",
        "in_sequence",
        "winners",
        "calling_at",
    )
    given = {name for name in names if getattr(job, name) not in (None, False)}
    taken = (
        job.form in (None, "1", "2", "3")
        and job.format
        in (None, "tsv", "json", *(["text"] if job.command not in ("table", "prepare") else []))
        and job.table in (None, *tables.TABLES)
        and (job.command != "prepare" or job.format is None or job.winners)
    )
    count = len(job.files)
    fits = (
        count >= 2
        if job.command == "update"
        else count == 2
        if job.command in OF_TWO
        else count <= 1
    )
    return not (given <= OPTIONS[job.command] and taken and fits)


def answer(job: Job, inputs: Inputs) -> Answer:
    """What the program has to print and to end with."""
    if is_mistake(job):
        return MISTAKE
    try:
        lines, status, told, more = output(job, inputs)
    except Fault as fault:
        lines, status, told = [], fault.status, [fault.text]
        more = verbose.of_fault(job, shown(job, inputs), fault)
    errors = [f"cif: {line}" for line in told] + [f"  {line}" for line in more if job.verbose]
    return Answer(text_of(lines), text_of(errors), status)


def text_of(lines: List[str]) -> bytes:
    return "".join(line + "\n" for line in lines).encode()
