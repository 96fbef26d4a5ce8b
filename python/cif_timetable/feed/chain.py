"""Which extract to begin with, and which updates follow it."""
from __future__ import annotations

from collections.abc import Callable, Collection, Sequence
from dataclasses import dataclass
from datetime import timedelta

from .header import Header
from .raw import Raw


# An update of the next night is made so long after a full extract at most.
NEXT_NIGHT = timedelta(hours=36)


def chain_from(base: Header, updates: Collection[Raw]) -> list[Raw]:
    """The updates that follow an extract one after the other, as far as they go."""
    known: dict[Header, list[Raw]] = {}

    def longest(header: Header) -> list[Raw]:
        if header not in known:
            chains = [[u, *longest(u.header)] for u in updates if u.header.follows(header)]
            known[header] = max(chains, key=lambda c: (c[-1].header.made, len(c)), default=[])
        return known[header]

    return longest(base)


def chain_by_date(base: Header, updates: Collection[Raw]) -> list[Raw]:
    """The updates after a full extract whose reference is of another chain than theirs: the first is
    that of the next night, and the others follow it."""
    after = [raw for raw in updates if base.made < raw.header.made <= base.made + NEXT_NIGHT]
    if not after:
        return []
    first = min(after, key=lambda raw: raw.header.made)
    return [first, *chain_from(first.header, updates)]


@dataclass(frozen=True)
class Plan:
    """An extract to begin with: that of the current version, or a full one; the updates of it; and
    what it comes to."""

    base: Header
    full: Raw | None
    updates: Sequence[Raw]

    @property
    def end(self) -> Header:
        return self.updates[-1].header if self.updates else self.base

    @property
    def begins_by_date(self) -> bool:
        """Whether the first update doesn't name the extract that it follows."""
        return bool(self.updates) and not self.updates[0].header.follows(self.base)

    @property
    def is_new(self) -> bool:
        """Whether it says anything that the current version doesn't."""
        return self.full is not None or bool(self.updates)

    def next_unreached(self, updates: Collection[Raw]) -> Raw | None:
        """The first update that is newer than all this, and doesn't follow it."""
        newer = [raw for raw in updates if raw.header.made > self.end.made]
        return min(newer, key=lambda raw: raw.header.made) if newer else None


@dataclass(frozen=True)
class State:
    """The extract of the current version, and whether it is a full one as it was fetched."""

    header: Header
    is_plain: bool = False


def best_plan(
    state: State | None,
    fulls: Collection[Raw],
    updates: Collection[Raw],
    is_good: Callable[[Raw], bool] = lambda raw: True,
    one_chain: bool = True,
) -> Plan | None:
    """The plan that comes to the newest extract, with the current version as its base if that will
    do. Unless full extracts and updates share one chain of references, the first update after a full
    one is found by its date."""
    good = [raw for raw in updates if is_good(raw)]

    def chain(base: Header, is_plain: bool) -> list[Raw]:
        found = chain_from(base, good)
        return found if found or one_chain or not is_plain else chain_by_date(base, good)

    plans = []
    if state:
        plans.append(Plan(state.header, None, chain(state.header, state.is_plain)))
    for raw in sorted(filter(is_good, fulls), key=lambda raw: raw.header.made, reverse=True):
        plans.append(Plan(raw.header, raw, chain(raw.header, True)))
    # of equals the first one
    return max(plans, key=lambda plan: plan.end.made) if plans else None
