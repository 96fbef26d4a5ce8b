"""All changes between two extracts."""
from __future__ import annotations

from collections import deque
from collections.abc import Iterator, Mapping, Sequence
from itertools import chain
from typing import NamedTuple

from .._progress import Progress
from ..days import Dates, Window, count_of
from ..model import Association
from .associations import AssociationChange, association_changes
from .days import DateCounts
from .differences import (
    NEW,
    OLD,
    Bodies,
    ByDates,
    Differences,
    OwnDates,
    Part,
    Place,
    Said,
    Sides,
    digest_of_journey,
)
from .journeys import Body, OwnSchedule, bodies_of, body_of, text_of
from .locations import LocationChange, location_changes
from .pair import Pair
from .schedules import Schedules, read_schedules
from .words import CANCELLED, DATA, GONE_FOR_GOOD, KINDS, NUMBERS, RUNS, Names, Phrase, phrases_of


class Face(NamedTuple):
    """What a train is known by."""

    identity: str
    operator: str
    origin: str
    destination: str
    departure: str


class Change(NamedTuple):
    """What is different on some dates, and where the bodies of either extract stand that run on
    them."""

    phrases: tuple[Phrase, ...]
    dates: Dates
    old: tuple[Place, ...]
    new: tuple[Place, ...]


class Train(NamedTuple):
    """A train that has changed."""

    uid: str
    face: Face
    changes: tuple[Change, ...]

    @property
    def dates(self) -> Dates:
        dates = 0
        for change in self.changes:
            dates |= change.dates
        return dates

    def kinds(self) -> dict[str, Dates]:
        """The kinds of its changes, each with its dates."""
        found: dict[str, Dates] = {}
        for change in self.changes:
            for phrase in change.phrases:
                found[phrase.kind] = found.get(phrase.kind, 0) | change.dates
        return found


class Comparison(NamedTuple):
    """What two extracts say on the dates of a window."""

    window: Window
    old: Schedules
    new: Schedules
    trains: Sequence[Train]
    associations: Sequence[AssociationChange]
    locations: Sequence[LocationChange]


# ---- trains


class Alone(NamedTuple):
    """A body on dates on which the other extract has none."""

    dates: Dates
    place: Place


# Bodies by their journeys: those of one journey differ in other data.
Journeys = dict[bytes, list[Alone]]


class Altered:
    """The dates with one difference, and the places of the bodies before and after."""

    __slots__ = ("dates", "old", "new")

    def __init__(self) -> None:
        self.dates: Dates = 0
        self.old: list[Place] = []
        self.new: list[Place] = []


class Draft:
    """A train while it is read."""

    __slots__ = ("face", "altered", "lost", "added")

    def __init__(self, face: Face) -> None:
        self.face = face
        self.altered: dict[tuple[Phrase, ...], Altered] = {}
        self.lost: Journeys = {}
        self.added: Journeys = {}

    def alter(self, phrases: tuple[Phrase, ...], dates: Dates, old: Place, new: Place) -> None:
        """Adds a change. Dates with the same difference are one."""
        altered = self.altered.setdefault(phrases, Altered())
        altered.dates |= dates
        altered.old.append(old)
        altered.new.append(new)


def face_of(body: Body) -> Face:
    origin, destination = body.calls[0], body.calls[-1]
    leaves = text_of(origin.public_departure) if origin.public_departure.strip(b" 0") else ""
    leaves = leaves or text_of(origin.departure)[:4]
    departure = f"{leaves[:2]}:{leaves[2:]}" if leaves else ""
    ends = text_of(origin.location), text_of(destination.location)
    return Face(body.identity, body.operator, *ends, departure)


class Reading:
    """Reads the trains that differ, and then matches those under another UID."""

    def __init__(self, names: Names) -> None:
        self.names = names
        self.drafts: dict[bytes, Draft] = {}
        # equal faces and equal phrases are kept once
        self.faces: dict[Face, Face] = {}
        self.phrases: dict[tuple[Phrase, ...], tuple[Phrase, ...]] = {}

    def add(self, uid: bytes, sides: Sides[bytes]) -> None:
        parts = sides.parts()
        bodies: dict[Place, Body] = {}

        def read(said: Said[bytes]) -> Body:
            if said.place not in bodies:
                bodies[said.place] = body_of(said.body)
            return bodies[said.place]

        shown = [said for part in parts for said in part.new] or list(parts[0].old)
        face = face_of(read(shown[0]))
        draft = self.drafts[uid] = Draft(self.faces.setdefault(face, face))
        for part in parts:
            if part.old and part.new:
                [old], [new] = part.old, part.new
                found = phrases_of(read(old), read(new), self.names)
                phrases = self.phrases.setdefault(found, found)
                draft.alter(phrases, part.dates, old.place, new.place)
            else:
                self.add_alone(draft, part)

    def add_alone(self, draft: Draft, part: Part[bytes]) -> None:
        [said] = part.old or part.new
        journeys = draft.lost if part.old else draft.added
        alone = Alone(part.dates, said.place)
        journeys.setdefault(digest_of_journey(said.body), []).append(alone)

    def match(self, texts: Bodies) -> None:
        """What one train has lost and another got, with the same journey and dates, is one train
        under another UID, whatever other data differ on which of the dates."""
        added: dict[tuple[bytes, Dates], deque[bytes]] = {}
        for uid, draft in self.drafts.items():
            for journey, bodies in draft.added.items():
                added.setdefault((journey, all_dates(bodies)), deque()).append(uid)
        for uid, draft in self.drafts.items():
            for journey, bodies in list(draft.lost.items()):
                found = added.get((journey, all_dates(bodies)))
                if found:
                    other = found.popleft()
                    lost, got = draft.lost.pop(journey), self.drafts[other].added.pop(journey)
                    own = f"UID {other.decode().strip()} for {uid.decode().strip()}"
                    self.renumber(draft, own, lost, got, texts)

    def renumber(
        self, draft: Draft, own: str, lost: list[Alone], got: list[Alone], bodies: Bodies
    ) -> None:
        """Adds what is different under the other UID, by the bodies of each date."""
        after = ByDates(got)
        for was in lost:
            for now in after.on_any(was.dates):
                old, new = (body_of(bodies.text(each.place)) for each in (was, now))
                more = phrases_of(old, new, self.names) if old != new else ()
                phrases = (Phrase(NUMBERS, "renumbered", own), *more)
                draft.alter(phrases, was.dates & now.dates, was.place, now.place)

    def trains(self, old: Schedules, new: Schedules) -> list[Train]:
        return [
            Train(uid.decode(), draft.face, tuple(changes_of(uid, draft, old, new)))
            for uid, draft in self.drafts.items()
            if draft.altered or draft.lost or draft.added
        ]


def changes_of(uid: bytes, draft: Draft, old: Schedules, new: Schedules) -> Iterator[Change]:
    """The changes of a train: first the dates on which it no longer runs, or runs also."""
    lost, added = (list(chain(*side.values())) for side in (draft.lost, draft.added))
    if lost:
        text = "cancelled" if uid in new.found else GONE_FOR_GOOD
        places = tuple(alone.place for alone in lost)
        yield Change((Phrase(CANCELLED, text),), all_dates(lost), places, ())
    if added:
        text = "runs also" if uid in old.found else "new train"
        places = tuple(alone.place for alone in added)
        yield Change((Phrase(RUNS, text),), all_dates(added), (), places)
    changes = [
        Change(phrases, altered.dates, tuple(altered.old), tuple(altered.new))
        for phrases, altered in draft.altered.items()
    ]
    yield from sorted(changes, key=lambda change: -count_of(change.dates))


def all_dates(parts: Sequence[Alone]) -> Dates:
    dates = 0
    for part in parts:
        dates |= part.dates
    return dates


# ---- both extracts

# Schedules, each with the text of its body.
Bodied = Iterator[tuple[OwnSchedule, bytes]]


def read_trains(
    trains: Mapping[bytes, OwnDates], sides: Mapping[bytes, Bodied], bodies: Bodies
) -> Iterator[tuple[bytes, Sides[bytes]]]:
    """The trains that differ, each with the bodies on these dates. Either extract has them in the
    order of `trains`."""
    awaited = {side: next(found, None) for side, found in sides.items()}
    for uid in trains:
        said: Sides[bytes] = Sides()
        for side, found in sides.items():
            following = awaited[side]
            while following is not None and following[0].uid == uid:
                schedule, text = following
                said.add(side, text, bodies.add(text), schedule.dates)
                following = next(found, None)
            awaited[side] = following
        yield uid, said


def compare(pair: Pair, names: Names, bodies: Bodies, progress: Progress) -> Comparison:
    """All changes on the dates of the common window."""
    found = Differences()
    progress.show("comparing")
    with pair.difference() as table:
        found.read(table, pair.window)
    associations: list[AssociationChange] = []
    if found.associations:
        before, after = (
            side.extract.rows("associations", Association) for side in (pair.old, pair.new)
        )
        associations = association_changes(found.associations, before, after, pair.window)
    progress.show("counting trains")
    linked = (uid for each in associations for uid in (each.base, each.associated))
    wanted = {*found.trains, *(uid.encode() for uid in linked)}
    old_dates = {uid: own.old for uid, own in found.trains.items()}
    new_dates = {uid: own.new for uid, own in found.trains.items()}
    old = read_schedules(pair.old.extract, pair.window, wanted, old_dates)
    new = read_schedules(pair.new.extract, pair.window, wanted, new_dates)
    progress.show("reading what differs")
    reading = Reading(names)
    sides = {OLD: bodies_of(pair.old.extract, old.own), NEW: bodies_of(pair.new.extract, new.own)}
    for uid, said in read_trains(found.trains, sides, bodies):
        reading.add(uid, said)
    reading.match(bodies)
    trains = reading.trains(old, new)
    locations = location_changes(found.tiplocs, pair.old.tiplocs, pair.new.tiplocs)
    return Comparison(pair.window, old, new, trains, associations, locations)


# ---- numbers


class Numbers(NamedTuple):
    """How many trains have changes: of each kind, on each date, and of each kind on each date; and
    of the trains that run on dates when they didn't, or no longer, how many are new or gone."""

    of_kind: dict[str, int]
    of_date: list[int]
    of_kind_on_date: dict[str, list[int]]
    new: int
    gone: int


def counted_kinds(train: Train) -> dict[str, Dates]:
    """The kinds under which a train is counted, each with its dates: other data only if there is
    nothing else."""
    kinds = train.kinds()
    return {kind: dates for kind, dates in kinds.items() if kind != DATA or len(kinds) == 1}


def numbers_of(comparison: Comparison) -> Numbers:
    of_kind = dict.fromkeys(KINDS, 0)
    of_date = DateCounts()
    of_kind_on_date = {kind: DateCounts() for kind in KINDS}
    new = gone = 0
    for train in comparison.trains:
        of_date.add(train.dates)
        kinds = counted_kinds(train)
        for kind, dates in kinds.items():
            of_kind[kind] += 1
            of_kind_on_date[kind].add(dates)
        uid = train.uid.encode()
        new += RUNS in kinds and uid not in comparison.old.found
        gone += CANCELLED in kinds and uid not in comparison.new.found
    count = len(comparison.window.days)
    by_kind = {kind: found.counts(count) for kind, found in of_kind_on_date.items()}
    return Numbers(of_kind, of_date.counts(count), by_kind, new, gone)
