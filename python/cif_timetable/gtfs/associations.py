"""The associations for passengers: on which dates each can be shown as linked trips, or why not.

A train divides (VV), two join (JJ), or one goes on as another (NP). A date of an association is
that of its base train; the associated train's may be the day after or before.
"""
from __future__ import annotations

from collections import Counter
from collections.abc import Iterable, Mapping
from enum import Enum
from typing import NamedTuple

from ..days import Dated, Dates, Window, count_of, moved
from ..model import Association as AssociationRow
from .calls import DAY, HOUR, Spot, Variant

DIVIDE = "VV"
JOIN = "JJ"
NEXT = "NP"
CATEGORIES = (DIVIDE, JOIN, NEXT)
DAYS_LATER = {"": 0, "S": 0, "N": 1, "P": -1}
PASSENGER = (None, "P")
# Nobody stays seated for longer than this.
LONGEST_WAIT = 6 * HOUR


class Role(str, Enum):
    """Which of the two trains of an association."""

    BASE = "base"
    ASSOCIATED = "associated"


ROLES = tuple(Role)


class Reason(Enum):
    """Why an association isn't shown on a date, in the order in which the reasons are reported."""

    CATEGORY = "the category is none of VV, JJ, NP"
    INDICATOR = "the date indicator is none of S, N, P"
    NOT_PUBLIC = "its trains aren't both public on their dates"
    BASE_ELSEWHERE = "the base train doesn't stop there"
    BASE_GOES_ON = "the base train doesn't end there"
    NOT_BEGUN = "the associated train doesn't begin there"
    NOT_ENDED = "the associated train doesn't end there"
    NONE_BEFORE = "the base train has no public call before it"
    NONE_AFTER = "the base train has no public call after it"
    TOO_EARLY = "the next train leaves before the first one arrives"
    TOO_LATE = "the next train leaves more than six hours after the first one arrives"
    MIDNIGHTS = "its trains are linked over two midnights"


LeftOut = dict[Reason, int]


class Terms(NamedTuple):
    """What an association says besides its dates."""

    category: str
    indicator: str
    base: str
    associated: str
    location: str
    base_suffix: str
    associated_suffix: str


class Association:
    """An association, the dates on which it holds, and those on which it is shown."""

    def __init__(self, terms: Terms) -> None:
        self.terms = terms
        self.dates: Dates = 0
        self.shown: Dates = 0
        self.days_later = DAYS_LATER.get(terms.indicator, 0)
        self.spots = {role: self.spot(role) for role in ROLES}

    def spot(self, role: Role) -> Spot:
        """Where a train of this role has to stop, and which call that has to be."""
        terms = self.terms
        if role is Role.BASE:
            kind = "LT" if terms.category == NEXT else ""
            return Spot(terms.location, terms.base_suffix, kind)
        kind = "LT" if terms.category == JOIN else "LO"
        return Spot(terms.location, terms.associated_suffix, kind)

    def uid(self, role: Role) -> str:
        return self.terms.base if role is Role.BASE else self.terms.associated

    def own_dates(self, role: Role) -> Dates:
        """The dates on which it is shown, as dates of the train of this role."""
        return self.shown if role is Role.BASE else moved(self.shown, self.days_later)

    def ends_at(self, role: Role) -> bool:
        """Whether it is where a trip of the train of this role ends, and not where one begins."""
        return (self.terms.category == JOIN) != (role is Role.BASE)


# An association of a train, and the role of the train.
Held = tuple[Association, Role]


def associations_of(rows: Iterable[AssociationRow], window: Window) -> list[Association]:
    """The associations for passengers, those that differ in nothing but dates and diagram as one."""
    found: dict[Terms, Association] = {}
    for row in rows:
        if row.association_type in PASSENGER:
            terms = Terms(
                row.category or "",
                row.date_indicator or "",
                row.base_uid,
                row.associated_uid,
                row.location,
                row.base_suffix or "",
                row.associated_suffix or "",
            )
            span = (str(row.first_date), str(row.last_date), row.days_run)
            dates = window.dates(*(text.encode() for text in span))
            found.setdefault(terms, Association(terms)).dates |= dates
    return list(found.values())


def by_uid(associations: Iterable[Association]) -> dict[str, list[Held]]:
    """The associations of each train that are shown on some date, with its role."""
    found: dict[str, list[Held]] = {}
    for association in associations:
        if association.shown:
            for role in ROLES:
                found.setdefault(association.uid(role), []).append((association, role))
    return found


# ---- which are shown


def wait_of(association: Association, base: Variant, associated: Variant) -> int:
    """How long riders stay seated between the two trains, in seconds."""
    at_base = base.times(association.spots[Role.BASE])
    at_associated = associated.times(association.spots[Role.ASSOCIATED])
    later = association.days_later * DAY
    if association.terms.category == JOIN:
        return at_base.departure - at_associated.arrival - later
    return at_associated.departure + later - at_base.arrival


def obstacle(association: Association, base: Variant, associated: Variant) -> Reason | None:
    """Why the association of two trains can't be shown, or None."""
    category = association.terms.category
    number = base.number(association.spots[Role.BASE])
    if number is None:
        return Reason.BASE_GOES_ON if category == NEXT else Reason.BASE_ELSEWHERE
    if associated.number(association.spots[Role.ASSOCIATED]) is None:
        return Reason.NOT_ENDED if category == JOIN else Reason.NOT_BEGUN
    if category == DIVIDE and base.first_public >= number:
        return Reason.NONE_BEFORE
    if category == JOIN and base.last_public <= number:
        return Reason.NONE_AFTER
    wait = wait_of(association, base, associated)
    if wait < 0:
        return Reason.TOO_EARLY
    return Reason.TOO_LATE if wait > LONGEST_WAIT else None


# The public trains of each UID on their dates.
Variants = Mapping[str, Dated[Variant]]
NONE: Dated[Variant] = Dated(())


def decide(association: Association, variants: Variants, left_out: LeftOut) -> None:
    """Sets the dates on which an association is shown, and counts the others by their reasons."""
    terms = association.terms
    possible = association.dates
    if terms.category not in CATEGORIES:
        left_out[Reason.CATEGORY] += count_of(possible)
        return
    if terms.indicator not in DAYS_LATER:
        left_out[Reason.INDICATOR] += count_of(possible)
        return
    later = association.days_later
    of_associated = variants.get(terms.associated, NONE)
    for of_base, base in variants.get(terms.base, NONE).on(possible):
        for own_dates, associated in of_associated.on(moved(of_base, later)):
            both = moved(own_dates, -later)
            reason = obstacle(association, base, associated)
            if reason is None:
                association.shown |= both
            else:
                left_out[reason] += count_of(both)
            possible &= ~both
    left_out[Reason.NOT_PUBLIC] += count_of(possible)


def decide_all(associations: Iterable[Association], variants: Variants) -> LeftOut:
    """Decides of all associations. Returns how many dates are left out by reason."""
    left_out: LeftOut = Counter()
    for association in associations:
        decide(association, variants, left_out)
    return left_out
