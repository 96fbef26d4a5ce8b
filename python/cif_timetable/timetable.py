"""A timetable: what an extract says, as values."""
from __future__ import annotations

import errno
import os
import re
import stat
import warnings
import weakref
from collections import Counter
from collections.abc import Callable, Iterator, Sequence
from contextlib import AbstractContextManager, ExitStack, contextmanager
from dataclasses import fields
from datetime import date, datetime, time, timedelta
from itertools import groupby
from operator import attrgetter
from types import TracebackType
from typing import TYPE_CHECKING, Any, TypeVar
from zoneinfo import ZoneInfo

from ._extract import Extract, Request, difference_of, open_extract, yymmdd
from ._process import find_cif, ignored
from ._tables import Table, heading_of
from .errors import CifEnded, Unexpected
from .model import (
    Arrival,
    Association,
    Call,
    ChangeCounts,
    ChangeEnRoute,
    Changes,
    Counts,
    Departure,
    Difference,
    Header,
    Location,
    PublicCall,
    Schedule,
    Train,
    Winner,
)

if TYPE_CHECKING:
    import pandas

Value = TypeVar("Value")
# A path, as Python's own functions take it.
AnyPath = str | os.PathLike[str]

BRITAIN = ZoneInfo("Europe/London")
UID = re.compile("[ -~]{6}")
PLACE = re.compile("[!-~]{1,7}")
# A line of `cif calendar`: the Monday of a week, and a mark for each of its days.
WEEK = re.compile(r"([0-9]{6}) (.+)")
# The marks of a date on which no record applies, and of one outside of the window.
NO_MARK = ". "
COUNTS = re.compile(r"accepted: ([0-9]+) tiplocs, ([0-9]+) associations, ([0-9]+) schedules\n")


def when(day: date, moment: time | timedelta) -> datetime:
    """A time of a train's date, such as `call.departure`, with the zone of the clocks in Britain. A
    `timedelta` counts from midnight by the clock, and can go on past the next one."""
    if isinstance(moment, time):
        return datetime.combine(day, moment, BRITAIN)
    return (datetime.combine(day, time()) + moment).replace(tzinfo=BRITAIN)


def checked_uid(uid: str) -> str:
    if not UID.fullmatch(uid):
        raise ValueError(f"the UID {uid!r} hasn't six characters of ASCII")
    return uid


def checked_place(place: str) -> str:
    if not PLACE.fullmatch(place):
        raise ValueError(f"the place {place!r} isn't one to seven visible characters of ASCII")
    return place


class Timetable:
    """What an extract says, on all dates of its window or on those that were asked for.

    `open` makes it. Each method reads the extract anew, by a run of `cif` for each table, and what it
    iterates over comes as it is read. An iterator that is dropped ends its run. For many questions
    there is `to_sqlite`.

    A method, or its iterator, raises CifError: OutsideWindow for a date that the timetable hasn't,
    and others if the file has changed since, or can no longer be read.

    It is a context manager, which removes what was unpacked or prepared; so does the end of its
    life. It can be pickled, and then opens its file again.
    """

    header: Header
    "The header, whose dates are those that the timetable has."
    path: str
    "The path of the file."

    def __init__(
        self, request: Request, program: str | None, tell: Callable[[str], None] = ignored
    ) -> None:
        self._arguments = (request, program)
        self.path = request.name
        with ExitStack() as stack:
            extract = stack.enter_context(open_extract(find_cif(program), request, tell))
            if extract.refused:
                raise extract.refused
            self._extract = extract
            self.header = extract.header()
            self._closing = weakref.finalize(self, stack.pop_all().close)

    def __enter__(self) -> Timetable:
        return self

    def __exit__(
        self,
        kind: type[BaseException] | None,
        problem: BaseException | None,
        trace: TracebackType | None,
    ) -> None:
        self.close()

    def close(self) -> None:
        """Removes what was unpacked or prepared. Nothing can be asked for after that."""
        self._closing()

    def __reduce__(self) -> tuple[type[Timetable], tuple[Request, str | None]]:
        return Timetable, self._arguments

    def __repr__(self) -> str:
        dates = f"{self.header.first_date} to {self.header.last_date}"
        return f"<Timetable {self._extract.name}, {dates}>"

    # ---- trains

    def on(self, day: date) -> Iterator[Train]:
        """The trains that run on a date, with their calls. Each is as on this date alone, so its
        `first_date` and `last_date` are the date."""
        text = yymmdd(day)
        return self._trains(["--from", text, "--to", text])

    def train(self, uid: str) -> list[Train]:
        """The schedules of one train, with their calls, by their dates. There is none of a UID that
        never runs. Raises ValueError if the UID hasn't six characters."""
        cell = checked_uid(uid).encode()
        return list(self._trains(self._extract.words, lambda line: line.split(b"\t", 2)[1] == cell))

    def calendar(self, uid: str) -> dict[date, str]:
        """The dates on which a train runs or is cancelled, each with the letter of the record that
        decides: P permanent, O overlay, N new, C cancelled. Raises ValueError if the UID hasn't six
        characters."""
        with self._extract.answer(["calendar", *self._extract.words], [checked_uid(uid)]) as lines:
            weeks = WEEK.findall(lines.read().decode("ascii"))
        return {
            datetime.strptime(monday, "%y%m%d").date() + timedelta(days=number): mark
            for monday, marks in weeks
            for number, mark in enumerate(marks)
            if mark not in NO_MARK
        }

    def departures(
        self, place: str, day: date, *, calling_at: str | None = None
    ) -> Iterator[Departure]:
        """What leaves from a place on a date, by the time of day: the calls at which riders may get on.

        The place is a TIPLOC or a CRS code, in capitals or not. The date and the times are by the
        clock, so a train of the evening before that calls after midnight is there. With `calling_at`,
        a place too, only those trains are there on which riders may get off at that place later. A
        place of which nothing is known has none. Raises ValueError if a place isn't one to seven
        visible characters.
        """
        return values_of(self._at_place("departures", place, day, calling_at), Departure)

    def arrivals(self, place: str, day: date) -> Iterator[Arrival]:
        """What arrives at a place on a date, by the time of day: the calls at which riders may get
        off. For all else see `departures`."""
        return values_of(self._at_place("arrivals", place, day), Arrival)

    def winners(self) -> Iterator[Winner]:
        """Which published schedule decides on which dates what a train does, by UID and by the first of
        these dates. What names schedules by UID, first date and letter, as messages of real time do,
        is found so. They are those of the whole window, also where a part of it was asked for."""
        return values_of(self._extract.deciding(), Winner)

    def _at_place(
        self, command: str, place: str, day: date, calling_at: str | None = None
    ) -> AbstractContextManager[Table]:
        """What leaves or arrives."""
        words = [command, "--format", "tsv"]
        if calling_at is not None:
            words.append(f"--calling-at={checked_place(calling_at)}")
        return self._extract.rows_of(words, [checked_place(place), yymmdd(day)])

    def _trains(
        self, window: Sequence[str], keep: Callable[[bytes], bool] | None = None
    ) -> Iterator[Train]:
        """The trains of a part of the window: all, or those whose rows of `schedules` are to be
        kept."""
        schedules = list(self._values("schedules", Schedule, window, keep))
        if not schedules:
            return
        starts = tuple(b"%d\t" % schedule.schedule for schedule in schedules)
        calls = self._values("calls", Call, window, keep and (lambda line: line.startswith(starts)))
        names = [field.name for field in fields(Schedule)]
        for schedule, (number, group) in zip(schedules, groupby(calls, attrgetter("schedule"))):
            if number != schedule.schedule:
                raise Unexpected(f"cif writes no calls of schedule {schedule.schedule}")
            cells: list[Any] = [*(getattr(schedule, name) for name in names), tuple(group)]
            yield Train(*cells)

    # ---- tables

    def schedules(self) -> Iterator[Schedule]:
        """All schedules, by UID and first date: the fewest that say on which dates what runs."""
        return self._values("schedules", Schedule)

    def calls(self) -> Iterator[Call]:
        """All calls and passes, schedule by schedule."""
        return self._values("calls", Call)

    def public_calls(self) -> Iterator[PublicCall]:
        """The calls that riders can use, schedule by schedule."""
        return self._values("public", PublicCall)

    def changes_en_route(self) -> Iterator[ChangeEnRoute]:
        """The changes of trains on their way, schedule by schedule."""
        return self._values("changes", ChangeEnRoute)

    def associations(self) -> Iterator[Association]:
        """All associations."""
        return iter(self._extract.rows("associations", Association))

    def associations_on(self, day: date) -> Iterator[Association]:
        """The associations of a date, which is that of the base train, and their only date."""
        text = yymmdd(day)
        return self._values("associations", Association, ["--from", text, "--to", text])

    def locations(self) -> Iterator[Location]:
        """All locations."""
        return iter(self._extract.rows("tiplocs", Location))

    def _values(
        self,
        name: str,
        kind: type[Value],
        window: Sequence[str] | None = None,
        keep: Callable[[bytes], bool] | None = None,
    ) -> Iterator[Value]:
        return values_of(self._extract.table(name, window), kind, keep)

    def frame(
        self,
        rows: str,
        place: str | None = None,
        day: date | None = None,
        *,
        calling_at: str | None = None,
    ) -> pandas.DataFrame:
        """A table as a DataFrame of pandas, by the name of the method that iterates over it:
        "schedules", "calls", "public_calls", "changes_en_route", "associations", "locations",
        "winners"; or "departures" or "arrivals", with the arguments of these.

        Dates are datetime64, times of day and moments timedelta64, numbers int64, and texts
        "string". What is None in a value is missing. Raises ValueError for another name, and
        ImportError where pandas isn't installed.
        """
        if rows not in TABLES:
            raise ValueError(f"{rows!r} is none of {', '.join(TABLES)}")
        # pylint: disable-next=import-outside-toplevel,cyclic-import
        from . import _frames

        name, kind = TABLES[rows]
        if kind in (Departure, Arrival):
            if place is None or day is None:
                raise TypeError(f"{rows} need a place and a day")
            table = self._at_place(name, place, day, calling_at)
        else:
            table = self._extract.deciding() if kind is Winner else self._extract.table(name)
        with table as read:
            return _frames.frame_of(read, kind)


def values_of(
    table: AbstractContextManager[Table],
    kind: type[Value],
    keep: Callable[[bytes], bool] | None = None,
) -> Iterator[Value]:
    """The rows of a table as they come, all or those to keep."""
    with table as read:
        yield from read.values(kind, keep)


def extract_of(timetable: Timetable) -> Extract:
    """The extract of a timetable, for this package."""
    return timetable._extract  # pylint: disable=protected-access


# The table of each method, and what its rows become.
TABLES: dict[str, tuple[str, type]] = {
    "schedules": ("schedules", Schedule),
    "calls": ("calls", Call),
    "public_calls": ("public", PublicCall),
    "changes_en_route": ("changes", ChangeEnRoute),
    "associations": ("associations", Association),
    "locations": ("tiplocs", Location),
    "winners": ("winners", Winner),
    "departures": ("departures", Departure),
    "arrivals": ("arrivals", Arrival),
}


def open(  # pylint: disable=redefined-builtin
    path: AnyPath,
    *,
    holidays: AnyPath | None = None,
    drop_clashes: bool = False,
    first: date | None = None,
    last: date | None = None,
    program: AnyPath | None = None,
) -> Timetable:
    """The timetable of an extract: a full one as `cif normalise` reads it, or a published one, which
    is prepared in a temporary file. It may be compressed by gzip, or be the only file of a zip whose
    name ends in .CIF or .MCA.

    `holidays` is a file with the dates of the holiday codes, as `cif prepare` takes it. With
    `drop_clashes` nothing of a train runs on the dates on which its records contradict each other.
    `first` and `last` are the part of the window that is wanted. `program` is the program `cif`; by
    default it is that of the variable CIF, the one that is installed with this package, or one on
    the PATH.

    Raises CifError if the extract is refused (`error.name` says why, such as "BankHoliday" where
    `holidays` is needed, and `error.advice` what helps) or damaged, and OSError, such as
    FileNotFoundError, if it can't be read. Warns of what was left out because of clashes.
    """
    for each in (path, holidays):
        if each is not None and stat.S_ISDIR(os.stat(each).st_mode):
            raise IsADirectoryError(errno.EISDIR, os.strerror(errno.EISDIR), os.fspath(each))
    request = Request(
        os.path.abspath(path),
        yymmdd(first) if first is not None else None,
        yymmdd(last) if last is not None else None,
        os.path.abspath(holidays) if holidays is not None else None,
        drop_clashes,
    )
    told: list[str] = []
    try:
        path_of_program = os.path.abspath(program) if program is not None else None
        timetable = Timetable(request, path_of_program, told.append)
    except CifEnded as refusal:
        raise refusal.for_callers() from None
    for text in told:
        warnings.warn(text.removeprefix("cif: "), stacklevel=2)
    return timetable


@contextmanager
def opened(timetable: Timetable | AnyPath) -> Iterator[Timetable]:
    """A timetable that is open already, or of a file, and then closed at the end."""
    if isinstance(timetable, Timetable):
        yield timetable
    else:
        with open(timetable) as found:
            yield found


# ---- two timetables


def diff(old: Timetable | AnyPath, new: Timetable | AnyPath) -> Iterator[Difference]:
    """The differences of two timetables on the dates that both have: first those of locations, then
    of associations, then of schedules. A file is opened as by `open` without more arguments."""
    with opened(old) as before, opened(new) as after:
        extracts = (extract_of(before), extract_of(after))
        headers = (before.header, after.header)
        words = ["--format", "tsv"]
        if any(extract.words for extract in extracts):
            words += ["--from", yymmdd(max(header.first_date for header in headers))]
            words += ["--to", yymmdd(min(header.last_date for header in headers))]
        with difference_of(*extracts, words) as lines:
            yield from heading_of(lines).values(Difference)


# What tells the record of one difference from others, of which a changed one has several.
RECORD = attrgetter(
    *"change kind tiploc uid associated_uid location base_suffix associated_suffix".split(),
    *"first_date last_date days_run".split(),
)
REMOVED, ADDED, CHANGED = "<", ">", "<>"


def changes(old: Timetable | AnyPath, new: Timetable | AnyPath) -> Changes:
    """In how many records two timetables differ on the dates that both have, by kind. Like `counts`
    it can be handed to other processes, and so can what it returns."""
    found: dict[str, Counter[str]] = {"TI": Counter(), "AA": Counter(), "BS": Counter()}
    tiplocs: dict[str, set[str]] = {REMOVED: set(), ADDED: set()}
    for (change, kind, tiploc, *_), _ in groupby(diff(old, new), RECORD):
        if kind == "TI":
            tiplocs[change].add(tiploc)
        else:
            found[kind][change] += 1
    removed, added = tiplocs.values()
    found["TI"].update({REMOVED: len(removed - added), ADDED: len(added - removed)})
    found["TI"][CHANGED] = len(removed & added)
    locations, associations, schedules = (
        ChangeCounts(of_kind[REMOVED], of_kind[ADDED], of_kind[CHANGED])
        for of_kind in found.values()
    )
    return Changes(locations, associations, schedules)


def counts(timetable: Timetable | AnyPath) -> Counts:
    """How many locations, associations and schedules a timetable has: the fewest that say the
    same."""
    with opened(timetable) as found:
        extract = extract_of(found)
        with extract.answer(["check", *extract.words]) as answer:
            numbers = COUNTS.fullmatch(answer.read().decode())
    if not numbers:
        raise Unexpected("cif check prints no numbers: is cif another release?")
    return Counts(*map(int, numbers.groups()))
