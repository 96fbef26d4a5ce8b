"""Why a train runs on a date, or doesn't: each record that applies, with its mark."""
from __future__ import annotations

from datetime import date
from typing import List, Tuple

from .dates import yymmdd
from .extracts import Entry, Extract
from .meaning import applies, by_key, winners
from .texts import association_fields, train_fields

WINS, CLASH, HIDDEN = "wins  ", "clash ", "hidden"


def marked(entries: List[Entry], day: date) -> List[Tuple[str, Entry]]:
    """The records of one key that apply on the date, each with its mark."""
    winning = winners(entries, day)
    mark = WINS if len({entry.body for entry in winning}) == 1 else CLASH
    applying = [
        entry
        for letter in "CNOP"
        for entry in entries
        if entry.letter == letter and applies(entry, day)
    ]
    return [(mark if entry in winning else HIDDEN, entry) for entry in applying]


def explained(extract: Extract, uid: str, day: date) -> List[Tuple[str, str, Entry]]:
    """The mark and the kind of each record: those of the associations that have the UID, and then those of the train."""
    found = []
    for key, entries in by_key(extract.associations):
        if uid in key[:2]:
            found += [(mark, "AA", entry) for mark, entry in marked(entries, day)]
    for key, entries in by_key(extract.schedules):
        if key == (uid,):
            found += [(mark, "BS", entry) for mark, entry in marked(entries, day)]
    return found


def line_of(mark: str, kind: str, entry: Entry) -> str:
    fields_of = association_fields if kind == "AA" else train_fields
    said = " ".join(entry.key) if entry.body is None else fields_of(entry.key, entry.body)
    return " ".join(
        [mark, kind, entry.letter, yymmdd(entry.first), yymmdd(entry.last), entry.days, said]
    )


def explanation(extract: Extract, uid: str, day: date) -> List[str]:
    """A line for each of these records."""
    return [line_of(*found) for found in explained(extract, uid, day)]


def clashing(entries: List[Entry], day: date) -> List[str]:
    """The lines of those records of one key that clash on the date."""
    kind = "BS" if len(entries[0].key) == 1 else "AA"
    return [line_of(mark, kind, entry) for mark, entry in marked(entries, day) if mark == CLASH]
