"""Which places differ: the TI records that only one extract has."""
from __future__ import annotations

from collections.abc import Iterable, Iterator, Sequence
from typing import NamedTuple

from ..model import Location
from .words import CHANGED, GONE, NEW_ONE, new_for_old

NAMES = {
    "capitals": "capitals",
    "nalco": "NLC",
    "nlc_check": "check of the NLC",
    "tps_description": "name",
    "stanox": "STANOX",
    "po_mcp_code": "post office code",
    "crs_code": "CRS code",
    "description": "short name",
}


class LocationChange(NamedTuple):
    """A TIPLOC that is new or gone, or whose record has changed."""

    tiploc: str
    name: str
    crs: str
    kind: str
    text: str


def text_in(location: Location, field: str) -> str:
    value: str | None = getattr(location, field)
    return (value or "").strip()


def location_changes(
    tiplocs: Iterable[bytes], old: Sequence[Location], new: Sequence[Location]
) -> list[LocationChange]:
    """The changes of some TIPLOCs, of which each extract may have several records."""
    wanted = dict.fromkeys(tiploc.decode() for tiploc in tiplocs)
    before, after = set(old), set(new)
    sides: dict[str, tuple[list[Location], list[Location]]] = {name: ([], []) for name in wanted}
    for locations, others, side in (old, after, 0), (new, before, 1):
        for location in locations:
            if location.tiploc in sides and location not in others:
                sides[location.tiploc][side].append(location)
    return [change for of_tiploc in sides.values() for change in changes_of(*of_tiploc)]


def changes_of(old: list[Location], new: list[Location]) -> Iterator[LocationChange]:
    if len(old) == len(new) == 1:
        yield change_of(new[0], CHANGED, "; ".join(differences(old[0], new[0])))
        return
    for each in old:
        yield change_of(each, GONE, "")
    for each in new:
        yield change_of(each, NEW_ONE, "")


def change_of(location: Location, kind: str, text: str) -> LocationChange:
    name = text_in(location, "tps_description") or text_in(location, "description")
    crs = text_in(location, "crs_code")
    return LocationChange(text_in(location, "tiploc"), name, crs, kind, text)


def differences(old: Location, new: Location) -> Iterator[str]:
    for field, name in NAMES.items():
        was, now = text_in(old, field), text_in(new, field)
        if was != now:
            yield new_for_old(name, now, was)
