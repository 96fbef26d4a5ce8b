"""Trains of a feed without links (`--whole-trains`): one that leaves another train has the calls of this
before its own, and one that joins another train has the calls of this after its own."""
from __future__ import annotations

from collections.abc import Iterator, Mapping, Sequence
from typing import NamedTuple

from .links import DAY, Call, Node, Shown, Train
from .riders import NEVER
from .trains import OnDates, Stops
from .zipped import About, Window


class Joint(NamedTuple):
    """An association of two trains on a date, and its base train."""

    shown: Shown
    base: Node


def moment_of(seconds: int) -> str:
    return f"{seconds // 3600:02}:{seconds // 60 % 60:02}:{seconds % 60:02}"


class WholeTrains:
    """The calls of linked trains on their dates."""

    def __init__(self, shown: Sequence[Shown], window: Window) -> None:
        self.trains: dict[Node, Train] = {}
        # of each train the one that it leaves, and the one that it joins: the first of several
        self.leaves: dict[Node, Joint] = {}
        self.joins: dict[Node, Joint] = {}
        for each in sorted(shown, key=lambda each: each.terms):
            terms = each.terms
            found = self.joins if terms.category == "JJ" else self.leaves
            for number in window.each(each.dates):
                base, associated = (terms.base, number), (terms.associated, number + terms.later)
                self.trains[base], self.trains[associated] = each.base, each.associated
                found.setdefault(associated, Joint(each, base))

    def start(self, node: Node) -> int:
        """The call with which a train's own calls begin."""
        train = self.trains[node]
        if node in self.leaves:
            return train.at[self.leaves[node].shown.terms.associated_spot()]
        return train.first

    def stop(self, node: Node) -> int:
        train = self.trains[node]
        if node in self.joins:
            return train.at[self.joins[node].shown.terms.associated_spot()]
        return train.last

    def section(self, node: Node, start: int, stop: int, origin: int) -> list[Call]:
        """The calls of a train from one to another, as times of another date."""
        train = self.trains[node]
        later = (node[1] - origin) * DAY
        between = (number for number in train.public if start < number < stop)
        numbers = (start, *between, stop)
        calls = [train.calls[number] for number in numbers]
        return [
            call._replace(arrival=call.arrival + later, departure=call.departure + later)
            for call in calls
        ]

    def others(self, node: Node, joints: Mapping[Node, Joint]) -> Iterator[list[Call]]:
        """The calls of the train that a train leaves or joins, of the one that this does, and so on."""
        seen, joint = {node}, joints.get(node)
        while joint is not None and joint.base not in seen:
            place = self.trains[joint.base].at[joint.shown.terms.base_spot()]
            if joints is self.joins:
                yield self.section(joint.base, place, self.stop(joint.base), node[1])
            else:
                yield self.section(joint.base, self.start(joint.base), place, node[1])
            seen.add(joint.base)
            joint = joints.get(joint.base)

    def calls(self, node: Node) -> list[Call]:
        """All calls of a train, which meets the others in one call each."""
        sections = list(self.others(node, self.leaves))[::-1]
        sections.append(self.section(node, self.start(node), self.stop(node), node[1]))
        sections += self.others(node, self.joins)
        calls: list[Call] = []
        for section in sections:
            if calls:
                first = calls.pop()
                met = section[0]._replace(
                    location=first.location,
                    platform=first.platform,
                    arrival=first.arrival,
                    set_down=first.set_down,
                )
                section = [met, *section[1:]]
            calls += section
        return [call for call in calls if (call.set_down, call.pick_up) != (NEVER, NEVER)]


def whole_on_dates(
    wanted: Mapping[str, OnDates], shown: Sequence[Shown], stops: Stops, window: Window
) -> dict[str, OnDates]:
    """The trains with associations on their dates, those that are linked with the calls of others."""
    whole = WholeTrains(shown, window)
    found: dict[str, OnDates] = {uid: dict(on_dates) for uid, on_dates in wanted.items()}
    known: dict[tuple[Call, ...], str] = {}
    for node in whole.trains:
        uid, number = node
        day = 1 << number
        on_dates = found[uid]
        [(about, _)] = [key for key, dates in on_dates.items() if dates & day]
        calls = tuple(whole.calls(node))
        if calls not in known:
            known[calls] = "\n".join(text_of_call(call, stops) for call in calls)
        shown_as: About = about._replace(headsign=stops.station_name(calls[-1].location))
        for key in list(on_dates):
            on_dates[key] &= ~day
            if not on_dates[key]:
                del on_dates[key]
        key = shown_as, known[calls]
        on_dates[key] = on_dates.get(key, 0) | day
    return found


def text_of_call(call: Call, stops: Stops) -> str:
    times = f"{moment_of(call.arrival)}\t{moment_of(call.departure)}"
    stop = stops.id_of(call.location, call.platform)
    return f"{stop}\t{times}\t{call.set_down}\t{call.pick_up}"
