"""Compositions: the trains that associations link with one another, on the dates on which they are
the same.

Within a composition the dates are those of one of its trains, and each other train has an offset:
how many days later than that one it runs. So a composition holds for many dates at once.
"""
from __future__ import annotations

from collections.abc import Collection, Iterator, Mapping, Sequence
from typing import NamedTuple

from ..days import Dated, Dates, count_of, moved
from .associations import ROLES, Association, Held, LeftOut, Reason, Role, Variants, by_uid
from .calls import Variant


class Node(NamedTuple):
    """A train by its UID, and how many days later it runs."""

    uid: str
    offset: int


class Edge(NamedTuple):
    """An association, and how many days later its base train runs."""

    association: Association
    offset: int

    def node(self, role: Role) -> Node:
        later = self.association.days_later if role is Role.ASSOCIATED else 0
        return Node(self.association.uid(role), self.offset + later)


class Group(NamedTuple):
    """Trains that the same associations link on some dates."""

    dates: Dates
    nodes: Collection[Node]
    edges: Collection[Edge]

    def offsets(self) -> list[int]:
        return sorted({node.offset for node in self.nodes})


class Composition(NamedTuple):
    """A group in which each train is the same on all dates."""

    dates: Dates
    variants: Mapping[Node, Variant]
    edges: Collection[Edge]


# The associations of each train on the dates on which they are shown, as dates of the train.
OfUid = Mapping[str, Dated[Held]]

# Dates, and the edges that are there on all of them.
EdgesOnDates = tuple[Dates, list[Edge]]


def told_apart(edges: Sequence[tuple[Dates, Edge]]) -> list[EdgesOnDates]:
    """The dates of edges, told apart by which of these are there: those of each half of the edges,
    and then those of both."""
    if len(edges) == 1:
        [(dates, edge)] = edges
        return [(dates, [edge])]
    middle = len(edges) // 2
    one, other = (Dated(told_apart(half)) for half in (edges[:middle], edges[middle:]))
    found: list[EdgesOnDates] = []
    for dates, of_one in zip(one.levels[0], one.items):
        found += [(both, of_one + of_other) for both, of_other in other.on(dates)]
        found.append((dates & ~other.dates(), of_one))
    for dates, of_other in zip(other.levels[0], other.items):
        found.append((dates & ~one.dates(), of_other))
    return [each for each in found if each[0]]


class Growth:
    """A group that grows, and those of its trains whose associations haven't been looked at."""

    def __init__(self, dates: Dates, nodes: Sequence[Node], edges: Sequence[Edge] = ()) -> None:
        self.dates = dates
        # in order, each once
        self.nodes = dict.fromkeys(nodes)
        self.edges = dict.fromkeys(edges)
        self.pending = list(nodes)

    def copy(self, dates: Dates) -> Growth:
        copy = Growth(dates, (), list(self.edges))
        copy.nodes = self.nodes.copy()
        copy.pending = self.pending.copy()
        return copy

    def add(self, edges: Sequence[Edge]) -> None:
        for edge in edges:
            self.edges[edge] = None
            for node in map(edge.node, ROLES):
                if node not in self.nodes:
                    self.nodes[node] = None
                    self.pending.append(node)

    def edges_at(self, node: Node, of_uid: OfUid) -> list[tuple[Dates, Edge]]:
        """The further edges of a train on some of its dates, which are those of the group."""
        found = []
        held = of_uid[node.uid].on(moved(self.dates, node.offset)) if node.uid in of_uid else ()
        for dates, (association, role) in held:
            later = association.days_later if role is Role.ASSOCIATED else 0
            edge = Edge(association, node.offset - later)
            if edge not in self.edges:
                found.append((moved(dates, -node.offset), edge))
        return found

    def grown(self, node: Node, of_uid: OfUid) -> Iterator[Growth]:
        """The groups that it becomes with the associations of one of its trains. It is changed, and
        copied only where there are several."""
        edges = self.edges_at(node, of_uid)
        rest = self.dates
        for dates, added in told_apart(edges) if edges else ():
            rest &= ~dates
            group = self if dates == self.dates else self.copy(dates)
            group.add(added)
            yield group
        if rest:
            self.dates = rest
            yield self


def groups_around(uid: str, dates: Dates, of_uid: OfUid) -> Iterator[Group]:
    """The groups that a train is in on its dates. One in which it runs on several is given once, by
    the first of these."""
    growing = [Growth(dates, [Node(uid, 0)])]
    while growing:
        group = growing.pop()
        if group.pending:
            growing += group.grown(group.pending.pop(), of_uid)
        elif all(node.offset >= 0 for node in group.nodes if node.uid == uid):
            yield Group(group.dates, group.nodes, group.edges)


def dated(held: Mapping[str, Sequence[Held]]) -> OfUid:
    return {
        uid: Dated([(each[0].own_dates(each[1]), each) for each in of_train])
        for uid, of_train in held.items()
    }


def linked_dates(held: Sequence[Held]) -> Dates:
    """The dates on which a train is linked."""
    found = 0
    for association, role in held:
        found |= association.own_dates(role)
    return found


def all_groups(dates_of: Mapping[str, Dates], of_uid: OfUid) -> Iterator[Group]:
    """All groups of these trains on these dates, and those with which they are linked, each once."""
    covered: dict[str, Dates] = {}
    for uid, dates in dates_of.items():
        left = dates & of_uid[uid].dates() & ~covered.get(uid, 0)
        for group in groups_around(uid, left, of_uid) if left else ():
            for node in group.nodes:
                known = covered.get(node.uid, 0)
                covered[node.uid] = known | moved(group.dates, node.offset)
            yield group


def drop_overnight(group: Group, left_out: LeftOut) -> None:
    """Shows none of the overnight associations of a group."""
    for edge in group.edges:
        if edge.association.days_later:
            edge.association.shown &= ~moved(group.dates, edge.offset)
            left_out[Reason.MIDNIGHTS] += count_of(group.dates)


def groups_of(associations: Sequence[Association], left_out: LeftOut) -> list[Group]:
    """All groups. Where trains of one would have to count to the date two days before theirs, its
    overnight associations aren't shown."""
    held = by_uid(associations)
    of_uid = dated(held)
    found: list[Group] = []
    dates_left: dict[str, Dates] = {}
    for group in list(all_groups({uid: -1 for uid in of_uid}, of_uid)):
        offsets = group.offsets()
        if offsets[-1] - offsets[0] < 2:
            found.append(group)
            continue
        drop_overnight(group, left_out)
        for node in group.nodes:
            dates_left[node.uid] = dates_left.get(node.uid, 0) | moved(group.dates, node.offset)
    return found + list(all_groups(dates_left, dated(held)))


def compositions_of(group: Group, variants: Variants) -> Iterator[Composition]:
    """A group on the dates on which all its trains are the same."""
    found: list[tuple[Dates, dict[Node, Variant]]] = [(group.dates, {})]
    for node in group.nodes:
        known, found = found, []
        for dates, chosen in known:
            on_dates = list(variants[node.uid].on(moved(dates, node.offset)))
            for own, variant in on_dates:
                # it is copied only where there are several
                each = chosen.copy() if len(on_dates) > 1 else chosen
                each[node] = variant
                found.append((moved(own, -node.offset), each))
    for dates, chosen in found:
        yield Composition(dates, chosen, group.edges)
