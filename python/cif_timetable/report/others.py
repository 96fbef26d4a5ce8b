"""The parts of the page about associations and places."""
from __future__ import annotations

from .associations import AssociationChange
from .locations import LocationChange
from .report import Report, number_word
from .templates import Markup, fill, lines
from .words import CHANGED, GONE, NEW_ONE

# So many rows of each are on the page.
MOST_ROWS = 500

WORDS = {
    "VV": "{associated} leaves {base}",
    "JJ": "{associated} joins {base}",
    "NP": "{base} goes on as {associated}",
}
KIND_WORDS = {NEW_ONE: "new", GONE: "no longer", CHANGED: "changed"}


def rest_of(report: Report, count: int) -> str:
    if count <= MOST_ROWS:
        return f"{number_word(count, 'change')} in all."
    return f"The first {MOST_ROWS:,} of {count:,} changes. {report.csv_name} has all."


def train_name(report: Report, uid: str) -> str:
    """The identity and the UID of a train, as far as they are known."""
    found = report.comparison
    identity = found.new.found.get(uid.encode()) or found.old.found.get(uid.encode())
    return f"{identity} ({uid.strip()})" if identity else uid.strip()


def association_row(report: Report, change: AssociationChange) -> Markup:
    words = WORDS.get(change.category, "{associated} with {base}")
    trains = words.format(
        base=train_name(report, change.base), associated=train_name(report, change.associated)
    )
    what = KIND_WORDS[change.kind] + (f": {change.text}" if change.text else "")
    return fill(
        "association",
        base=change.base,
        associated=change.associated,
        trains=trains,
        place=report.names.place(change.location),
        what=what,
        when=report.calendar.words(change.dates),
    )


def associations_section(report: Report) -> Markup:
    changes = report.comparison.associations
    if not changes:
        return Markup()
    rows = lines(association_row(report, change) for change in changes[:MOST_ROWS])
    return fill("associations", note=rest_of(report, len(changes)), rows=rows)


def place_row(change: LocationChange) -> Markup:
    what = KIND_WORDS[change.kind] + (f": {change.text}" if change.text else "")
    return fill("place", tiploc=change.tiploc, crs=change.crs, name=change.name, what=what)


def places_section(report: Report) -> Markup:
    changes = report.comparison.locations
    if not changes:
        return Markup()
    rows = lines(place_row(change) for change in changes[:MOST_ROWS])
    return fill("places", note=rest_of(report, len(changes)), rows=rows)
