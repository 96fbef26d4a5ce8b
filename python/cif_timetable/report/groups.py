"""Trains with the same changes on the same dates, which stand together."""
from __future__ import annotations

from collections.abc import Iterator, Sequence
from typing import NamedTuple

from ..days import count_of
from .comparison import Train
from .peaks import WEIGHTS, Peak, belongs

# So many trains of a group are shown, unless all are.
MOST_IN_GROUP = 12


class Group(NamedTuple):
    """Trains with the same changes, those that are shown, and how many aren't; and the number of the
    peak that they belong to, if any."""

    trains: Sequence[Train]
    others: int
    peak: int | None = None


def likeness(train: Train) -> tuple[object, ...]:
    """What is the same of all trains of a group."""
    return tuple(
        (change.dates, *((phrase.kind, phrase.text) for phrase in change.phrases))
        for change in train.changes
    )


def rank_of(group: Sequence[Train]) -> int:
    """How much the trains of a group have changed: their dates, by the kinds of their changes."""
    of_train = sum(
        count_of(change.dates) * max(WEIGHTS[phrase.kind] for phrase in change.phrases)
        for change in group[0].changes
    )
    return of_train * len(group)


def all_groups(trains: Sequence[Train]) -> list[list[Train]]:
    """Those that have changed most first."""
    found: dict[tuple[object, ...], list[Train]] = {}
    for train in trains:
        found.setdefault(likeness(train), []).append(train)
    return sorted(found.values(), key=lambda group: -rank_of(group))


def peak_of(group: Sequence[Train], peaks: Sequence[Peak]) -> int | None:
    """The number of the first peak that a group belongs to."""
    kinds = group[0].kinds()
    found = (at for at, peak in enumerate(peaks) if belongs(kinds.get(peak.kind, 0), peak))
    return next(found, None)


def groups_of(groups: Sequence[list[Train]], peaks: Sequence[Peak], most: int) -> Iterator[Group]:
    """The groups of each peak and then the others, with so many trains at most. Where there are
    more, the peaks share half of these and what the others leave, and a group of the others has
    only a few."""
    of_peaks: dict[int | None, list[list[Train]]] = {at: [] for at in (*range(len(peaks)), None)}
    for group in groups:
        of_peaks[peak_of(group, peaks)].append(group)
    others = sum(map(len, of_peaks[None]))
    all_shown = sum(map(len, groups)) <= most
    left, of_all_peaks = most, max(-(-most // 2), most - others)
    for at, of_peak in of_peaks.items():
        room = left if at is None or all_shown else -(-of_all_peaks // (len(peaks) - at))
        in_group = MOST_IN_GROUP if at is None and not all_shown else most
        for group in of_peak:
            if not room:
                break
            group.sort(key=lambda train: (train.face.operator, train.face.departure, train.uid))
            shown = group[: min(in_group, room)]
            room -= len(shown)
            left -= len(shown)
            of_all_peaks -= len(shown)
            yield Group(shown, len(group) - len(shown), at)
