"""Reading: the lines of an input, the order of its records, and the extract that they are, or the first refused line."""
from __future__ import annotations

import re
from datetime import date
from typing import Dict, List, NamedTuple, Optional, Sequence, Tuple

from . import layouts
from .dates import Window, ddmmyy
from .faults import FAILED, REFUSED, Fault, Refusal, of_line
from .layouts import Fields, Readers

# The texts of a key.
Key = Tuple[str, ...]


class Record(NamedTuple):
    """A line but those of BX and a journey: its number, its kind and its fields; and the plain lines of BX and a journey behind
    it."""

    number: int
    kind: str
    fields: Fields
    lines: List[str]


class Sort(NamedTuple):
    """How extracts of one sort are read: the kinds of record that they have, the readers that stand for some of those of the
    layouts, and whether they may have comments."""

    kinds: Tuple[str, ...]
    readers: Readers
    comments: bool


class Body(NamedTuple):
    """The body of an association or a schedule: names and texts of the fields that AA or BS has of it, and the plain lines of
    BX, if there is one, and of the journey."""

    fields: Tuple[Tuple[str, str], ...]
    lines: Tuple[str, ...]


class Entry(NamedTuple):
    """A record about a key: the texts of the key, first and last date, days run, letter and body, which a cancellation lacks."""

    key: Key
    first: date
    last: date
    days: str
    letter: str
    body: Optional[Body]


class Extract(NamedTuple):
    """The fields of HD, the columns 3-72 of each TI, and the records about associations and about schedules."""

    header: Fields
    tiplocs: List[str]
    associations: List[Entry]
    schedules: List[Entry]


# For each key the body of each date on which one runs.
Running = Dict[Key, Dict[date, Body]]


PRINTABLE = re.compile(rb"[\x20-\x7e]*")
KINDS = ("HD", "TI", "TA", "TD", "AA", "BS", "BX", "LO", "LI", "CR", "LT", "ZZ")
OF_PROFILE = Sort(KINDS, {}, False)
NOTES = ("TN", "LN")
COMMENT = re.compile(rb"/!!.{,997}", re.DOTALL)
START = "the start of the input"
OF_SCHEDULE = ("BS", "BX", "LO", "LI", "CR", "LT")

# What stands behind the kind where a journey may lack: of a cancellation, or of a deleted record.
OF_CANCELLATION = " of a cancellation"
MAY_FOLLOW = {
    START: ("HD",),
    "HD": ("TI", "AA", "BS", "ZZ"),
    "TI": ("TI", "AA", "BS", "ZZ"),
    "AA": ("AA", "BS", "ZZ"),
    "BS": ("BX", "LO"),
    "BX": ("LO",),
    "BS" + OF_CANCELLATION: ("BX", "LO", "BS", "ZZ"),
    "BX" + OF_CANCELLATION: ("LO", "BS", "ZZ"),
    "LO": ("LI", "CR", "LT"),
    "LI": ("LI", "CR", "LT"),
    "CR": ("LI", "CR", "LT"),
    "LT": ("BS", "ZZ"),
    "ZZ": (),
}


def contents_of(data: bytes) -> List[bytes]:
    """What stands before each LF, without one CR before it, and behind the last LF if a byte stands there."""
    *ended, last = data.split(b"\n")
    return [part.removesuffix(b"\r") for part in ended] + ([last] if last else [])


def line_of(content: bytes) -> str:
    """The line that a content is."""
    if len(content) != layouts.WIDTH:
        raise Refusal("BadLength")
    printable = PRINTABLE.match(content)
    assert printable is not None
    column = printable.end() + 1
    if column <= layouts.WIDTH:
        raise Refusal("BadByte", column, column)
    return content.decode("ascii")


def kind_of(line: str, kinds: Tuple[str, ...]) -> str:
    if line[:2] not in kinds:
        raise Refusal("UnknownRecord", 1, 2)
    return line[:2]


def may_follow(kind: str, before: str) -> bool:
    """Whether a line of this kind may stand behind the one before."""
    if kind in NOTES:
        return before[:2] in OF_SCHEDULE
    return ("TI" if kind in ("TA", "TD") else kind) in MAY_FOLLOW[before]


def place_behind(kind: str, fields: Fields, before: str) -> str:
    """What MAY_FOLLOW calls the place behind a line."""
    if kind in NOTES:
        return before
    if kind in ("TA", "TD"):
        return "TI"
    alone = (
        (fields["letter"] == "C" or fields["transaction"] == "D")
        if kind == "BS"
        else before.endswith(OF_CANCELLATION)
    )
    return kind + OF_CANCELLATION if alone and kind in ("BS", "BX") else kind


def records_of(data: Optional[bytes], sort: Sort) -> List[Record]:
    """The records of an input, up to ZZ and the end of the input; None is an input that can't be read."""
    if data is None:
        raise Fault("ReadFault", FAILED)
    records: List[Record] = []
    before = START
    contents = contents_of(data)
    for number, content in enumerate(contents, 1):
        if sort.comments and COMMENT.fullmatch(content):
            continue
        try:
            line = line_of(content)
            kind = kind_of(line, sort.kinds)
            if not may_follow(kind, before):
                raise Refusal("OutOfOrder", 1, 2)
            fields = layouts.read(kind, line, sort.readers)
        except Refusal as refusal:
            raise of_line(number, refusal) from None
        if kind in OF_SCHEDULE[1:]:
            records[-1].lines.append(layouts.plain(kind, fields))
        elif kind not in NOTES:
            records.append(Record(number, kind, fields, []))
        before = place_behind(kind, fields, before)
    if before != "ZZ":
        raise of_line(len(contents) + 1, Refusal("Truncated"))
    return records


def of_kind(records: List[Record], kind: str) -> List[Record]:
    return [record for record in records if record.kind == kind]


def key_of(record: Record) -> Tuple[str, ...]:
    """The key of an association or a schedule."""
    return tuple(record.fields[name] for name in layouts.KEYS[record.kind])


def entry(record: Record) -> Entry:
    """What a record says about its key."""
    fields = record.fields
    first, last = layouts.window_of(record.kind, fields)
    named = tuple((name, fields[name]) for name in layouts.BODIES[record.kind])
    body = None if fields["letter"] == "C" else Body(named, tuple(record.lines))
    return Entry(key_of(record), first, last, fields["days"], fields["letter"], body)


def extract_of(records: List[Record]) -> Extract:
    """The extract that these records are."""
    [header] = of_kind(records, "HD")
    tiplocs = [record.fields["tiploc"] for record in of_kind(records, "TI")]
    associations, schedules = (
        [entry(record) for record in of_kind(records, kind)] for kind in ("AA", "BS")
    )
    return Extract(header.fields, tiplocs, associations, schedules)


def read_extract(data: Optional[bytes]) -> Extract:
    return extract_of(records_of(data, OF_PROFILE))


def window_of(extract: Extract) -> Window:
    return layouts.window_of("HD", extract.header)


def common_of(extracts: List[Extract]) -> Window:
    """The first and the last date of the part that the windows of two extracts have in common, if they have one."""
    firsts, lasts = zip(*(window_of(extract) for extract in extracts))
    return max(firsts), min(lasts)


def narrowed(extract: Extract, asked: Sequence[Optional[date]]) -> Extract:
    """The extract with the window that is asked for: a first and a last date, each of them or None."""
    own = window_of(extract)
    for day in asked:
        if day is not None and not own[0] <= day <= own[1]:
            raise Fault("OutsideWindow", REFUSED)
    first, last = (given or day for given, day in zip(asked, own))
    if first > last:
        raise Fault("WindowReversed", REFUSED)
    return extract._replace(header={**extract.header, "first": ddmmyy(first), "last": ddmmyy(last)})
