"""Which associations differ, and on which dates."""
from __future__ import annotations

from collections.abc import Iterator, Mapping, Sequence
from typing import NamedTuple

from ..days import Dates, Window
from ..model import Association
from .differences import NEW, OLD, AssociationKey, OwnDates, Part, Place, Sides
from .words import CHANGED, GONE, NEW_ONE, new_for_old

BODY_FIELDS = {
    "category": "category",
    "date_indicator": "date indicator",
    "diagram_type": "diagram type",
    "association_type": "association type",
}
# Nothing else of an association is shown.
NOWHERE = Place(0, 0)

# The values of these fields.
Body = tuple[str, ...]


class AssociationChange(NamedTuple):
    """An association that is new, gone or another one on some dates."""

    base: str
    associated: str
    location: str
    category: str
    kind: str
    text: str
    dates: Dates


def key_of(association: Association) -> AssociationKey:
    suffixes = association.base_suffix or "", association.associated_suffix or ""
    texts = (association.base_uid, association.associated_uid, association.location, *suffixes)
    return tuple(text.encode() for text in texts)


def body_of(association: Association) -> Body:
    return tuple((getattr(association, field) or "").strip() for field in BODY_FIELDS)


def association_changes(
    differing: Mapping[AssociationKey, OwnDates],
    old: Sequence[Association],
    new: Sequence[Association],
    window: Window,
) -> list[AssociationChange]:
    """The changes key by key."""
    found: dict[AssociationKey, Sides[Body]] = {key: Sides() for key in differing}
    for side, associations in (OLD, old), (NEW, new):
        for association in associations:
            key = key_of(association)
            if key in found:
                own = differing[key].old if side == OLD else differing[key].new
                terms = (str(association.first_date), str(association.last_date))
                dates = window.dates(*(text.encode() for text in (*terms, association.days_run)))
                if dates & own:
                    found[key].add(side, body_of(association), NOWHERE, dates & own)
    return [change for key, sides in found.items() for change in changes_of(key, sides)]


def changes_of(key: AssociationKey, sides: Sides[Body]) -> Iterator[AssociationChange]:
    """Dates with the same difference are one change."""
    dates: dict[tuple[str, str, str], Dates] = {}
    for part in sides.parts():
        terms = terms_of(part)
        dates[terms] = dates.get(terms, 0) | part.dates
    base, associated, location = (cell.decode() for cell in key[:3])
    for (category, kind, text), of_change in dates.items():
        place = location.strip()
        yield AssociationChange(base, associated, place, category, kind, text, of_change)


def terms_of(part: Part[Body]) -> tuple[str, str, str]:
    """The category, the kind of change, and its words."""
    [category, *_] = (part.new or part.old)[0].body
    if not part.old:
        return category, NEW_ONE, ""
    if not part.new:
        return category, GONE, ""
    return category, CHANGED, "; ".join(differences(part.old[0].body, part.new[0].body))


def differences(old: Body, new: Body) -> Iterator[str]:
    for name, was, now in zip(BODY_FIELDS.values(), old, new):
        if was != now:
            yield new_for_old(name, now, was)
