"""What is different between two bodies of a train, in words. docs/REPORT.md lists the rules."""
from __future__ import annotations

from collections import Counter
from collections.abc import Callable, Iterator, Sequence
from typing import NamedTuple

from .days import listed
from .journeys import (
    BASIC_FIELDS,
    EXTRA_FIELDS,
    Body,
    Call,
    Pair,
    Row,
    rows_of,
    text_of,
    unlike_pairs,
)

RUNS = "runs"
CANCELLED = "cancelled"
PLACES = "places"
TIMES = "times"
PLATFORMS = "platforms"
NUMBERS = "numbers"
DATA = "data"
# The kinds of changes of trains, and those of associations and places.
KINDS = (RUNS, CANCELLED, PLACES, TIMES, PLATFORMS, NUMBERS, DATA)
# What a train does that has lost all its dates.
GONE_FOR_GOOD = "no longer runs"
NEW_ONE = "new"
GONE = "gone"
CHANGED = "changed"

DAY = 2880
# So many names are listed.
MOST_NAMES = 3
# From here on minutes are also written as hours.
MOST_MINUTES = 120

# The fields whose names in tables aren't words for people.
FIELD_NAMES = {
    "course": "course indicator",
    "sector": "business sector",
    "power": "power type",
    "timing_load": "timing load",
    "characteristics": "operating characteristics",
    "service_code": "service code",
    "connection": "connection indicator",
    "traction": "traction class",
    "uic": "UIC code",
    "timetable_code": "timetable code",
    "reserved_a": "RSID",
    "reserved_b": "reserved column",
    "engineering": "engineering allowance",
    "pathing": "pathing allowance",
    "performance": "performance allowance",
}
# The columns of calls that are no places, times or platforms.
CALL_DATA = "suffix line path activities engineering pathing performance".split()


class Phrase(NamedTuple):
    """What is different: its kind, its words, and what these leave to each train."""

    kind: str
    text: str
    own: str = ""

    def whole(self) -> str:
        return f"{self.text}: {self.own}" if self.own else self.text


class Names(NamedTuple):
    """How places and operators are called."""

    place: Callable[[str], str]
    crs: Callable[[str], str]
    operator: Callable[[str], str]

    def at(self, call: Call) -> str:
        return self.place(text_of(call.location))


def some(names: Sequence[str], thing: str) -> str:
    """The names, each once, or how many there are."""
    unlike = list(dict.fromkeys(names))
    return listed(unlike) if len(unlike) <= MOST_NAMES else f"{len(unlike)} {thing}"


# ---- times


def minutes(halves: int) -> str:
    """Half minutes as a number of minutes, such as `2½`."""
    whole, half = divmod(halves, 2)
    sign = "½" if half else ""
    return f"{whole or '' if half else whole}{sign}"


def amount(halves: int) -> str:
    """Such as `12 min`, or `2 h 10 min`."""
    if halves <= 2 * MOST_MINUTES:
        return f"{minutes(halves)} min"
    hours, rest = divmod(halves, 120)
    return f"{hours} h {minutes(rest)} min" if rest else f"{hours} h"


def way(shift: int) -> str:
    return "later" if shift > 0 else "earlier"


def near(shift: int, before: int) -> int:
    """The difference of two times by the clock that is nearest to the one before."""
    return (shift - before + DAY // 2) % DAY - DAY // 2 + before


class Step(NamedTuple):
    """How many half minutes later a call is reached or left."""

    call: Call
    shift: int


def steps_of(rows: Sequence[Row]) -> list[Step]:
    """The steps of all places where both call, or both pass. The first call of both is on the date
    of the train; at the others a midnight may lie between."""
    steps: list[Step] = []
    shift = 0
    for number, (old, new) in enumerate(rows):
        if old is None or new is None or old.passes != new.passes:
            continue
        if old == new:
            shift = near(0, shift)
            steps.append(Step(new, shift))
            continue
        for before, after in zip(old.times, new.times):
            if before is not None and after is not None:
                shift = after - before if number == 0 else near(after - before, shift)
                steps.append(Step(new, shift))
    return steps


def time_words(steps: Sequence[Step], names: Names) -> str:
    """Such as `12 min later from Haywards Heath`; nothing if all is as before."""
    changed = [at for at, step in enumerate(steps) if step.shift]
    if not changed:
        return ""
    first, last = changed[0], changed[-1]
    shifts = [step.shift for step in steps[first : last + 1]]
    return f"{shift_words(shifts)}{where(steps, first, last, names)}"


def shift_words(shifts: Sequence[int]) -> str:
    least, most = min(shifts), max(shifts)
    if least == most:
        return f"{amount(abs(least))} {way(least)}"
    if least < 0 < most:
        return f"up to {amount(-least)} earlier and {amount(most)} later"
    low, high = sorted((abs(least), abs(most)))
    if low == 0:
        return f"up to {amount(high)} {way(least + most)}"
    if high <= 2 * MOST_MINUTES:
        return f"{minutes(low)} to {amount(high)} {way(least)}"
    return f"{amount(low)} to {amount(high)} {way(least)}"


def where(steps: Sequence[Step], first: int, last: int, names: Names) -> str:
    """Between which places of the journey."""
    start, end = names.at(steps[first].call), names.at(steps[last].call)
    if first == 0 and last == len(steps) - 1:
        return ""
    if start == end:
        return f" at {start}"
    if last == len(steps) - 1:
        return f" from {start}"
    return f" as far as {end}" if first == 0 else f" from {start} to {end}"


def public_times(call: Call) -> tuple[bytes, ...]:
    """The public times, of which noughts and blanks are none."""
    there = call.public_arrival, call.public_departure
    return tuple(time if time.strip(b" 0") else b"" for time in there)


def times(rows: Sequence[Row], pairs: Sequence[Pair], names: Names) -> Iterator[Phrase]:
    if any(old.times != new.times for old, new in pairs):
        text = time_words(steps_of(rows), names)
        if text:
            yield Phrase(TIMES, text)
            return
    unlike = [
        names.at(new)
        for old, new in pairs
        if old.kind == new.kind and public_times(old) != public_times(new)
    ]
    if unlike:
        yield Phrase(TIMES, f"other public times at {some(unlike, 'places')}")


# ---- places


def is_kept(row: Row) -> bool:
    return row[0] is not None and row[1] is not None


def places(old: Body, new: Body, rows: Sequence[Row], names: Names) -> Iterator[Phrase]:
    kept = [at for at, row in enumerate(rows) if is_kept(row)]
    starts, was_start = names.at(new.calls[0]), names.at(old.calls[0])
    ends, was_end = names.at(new.calls[-1]), names.at(old.calls[-1])
    if not kept:
        text = f"another journey, from {starts} to {ends}, not from {was_start} to {was_end}"
        yield Phrase(PLACES, text)
        return
    if new.calls[0].location != old.calls[0].location:
        yield Phrase(PLACES, f"starts at {starts}, not {was_start}")
    if new.calls[-1].location != old.calls[-1].location:
        yield Phrase(PLACES, f"ends at {ends}, not {was_end}")
    yield from stops_between(old, new, rows[kept[0] : kept[-1] + 1], names)
    unlike = [
        at
        for at in range(kept[0], kept[-1])
        if not is_kept(rows[at]) and not any(call and stops(call) for call in rows[at])
    ]
    if unlike:
        before = max(at for at in kept if at < unlike[0])
        after = min(at for at in kept if at > unlike[-1])
        around = [names.at(call) for call in (rows[before][1], rows[after][1]) if call]
        yield Phrase(PLACES, f"another way between {listed(around)}")


def stops_between(old: Body, new: Body, between: Sequence[Row], names: Names) -> Iterator[Phrase]:
    """Where only one of the journeys calls. It may call at the place another time, as a train does
    that goes back the way it has come: then the numbers of its calls there say what is different.
    """
    before, after = (
        Counter(names.at(call) for call in body.calls if stops(call)) for body in (old, new)
    )
    rows = [(now or was, stops(now) != stops(was)) for was, now in between]
    unlike = [names.at(call) for call, is_unlike in rows if call and is_unlike]
    more = [name for name in unlike if after[name] > before[name]]
    fewer = [name for name in unlike if after[name] < before[name]]
    if len(more) + len(fewer) < len(unlike):
        yield Phrase(PLACES, "calls in another order")
    for text, found in (
        ("calls also at", [name for name in more if not before[name]]),
        ("calls more often at", [name for name in more if before[name]]),
        ("no longer calls at", [name for name in fewer if not after[name]]),
        ("calls less often at", [name for name in fewer if after[name]]),
    ):
        if found:
            yield Phrase(PLACES, f"{text} {some(found, 'places')}")


def stops(call: Call | None) -> bool:
    return call is not None and not call.passes


def same_places(old: Body, new: Body) -> bool:
    """Whether both journeys call and pass at the same places."""
    return [(call.location, call.passes) for call in old.calls] == [
        (call.location, call.passes) for call in new.calls
    ]


# ---- platforms, and other data


def new_for_old(name: str, new: str, old: str, at: str = "") -> str:
    """Such as `platform 4 for 5 at Brighton`."""
    if not old:
        return f"{name} {new}{at}, none before"
    return f"{name} {new} for {old}{at}" if new else f"no {name}{at}, {old} before"


def platforms(pairs: Sequence[Pair], names: Names) -> Iterator[Phrase]:
    unlike = [
        (names.at(new), text_of(new.platform), text_of(old.platform))
        for old, new in pairs
        if old.platform != new.platform
    ]
    if len(unlike) > MOST_NAMES:
        yield Phrase(PLATFORMS, f"other platforms at {some([row[0] for row in unlike], 'places')}")
        return
    for place, new_platform, old_platform in unlike:
        text = new_for_old("platform", new_platform, old_platform, f" at {place}")
        yield Phrase(PLATFORMS, text)


def field_name(field: str) -> str:
    return FIELD_NAMES.get(field, field)


def data(old: Body, new: Body, pairs: Sequence[Pair], names: Names) -> Iterator[Phrase]:
    if old.identity != new.identity:
        was, now = (body.identity or "no identity" for body in (old, new))
        yield Phrase(NUMBERS, "renumbered", f"{now} for {was}")
    if old.operator != new.operator:
        was, now = (body.operator and names.operator(body.operator) for body in (old, new))
        yield Phrase(DATA, new_for_old("operator", now, was))
    same = old.basic == new.basic and old.extra == new.extra
    unlike = [
        (field_name(field), after, before)
        for field, before, after in ([] if same else fields_of(old, new))
        if before != after and field not in ("identity", "operator")
    ]
    if len(unlike) <= MOST_NAMES:
        for field, after, before in unlike:
            yield Phrase(DATA, new_for_old(field, after, before))
    else:
        yield Phrase(DATA, f"other data: {listed([field for field, _, _ in unlike])}")
    alike = [(was, now) for was, now in pairs if was.kind == now.kind]
    of_calls = [
        field_name(field)
        for field in CALL_DATA
        if any(getattr(was, field) != getattr(now, field) for was, now in alike)
    ]
    if old.changes != new.changes:
        of_calls.append("changes en route")
    if of_calls:
        yield Phrase(DATA, f"other data of calls: {listed(of_calls)}")
    if (old.extra is None) != (new.extra is None) and not any((old.operator, new.operator, unlike)):
        yield Phrase(DATA, "other data")


def fields_of(old: Body, new: Body) -> Iterator[tuple[str, str, str]]:
    none = (b"",) * len(EXTRA_FIELDS)
    before, after = ((*body.basic, *(body.extra or none)) for body in (old, new))
    yield from zip((*BASIC_FIELDS, *EXTRA_FIELDS), map(text_of, before), map(text_of, after))


def phrases_of(old: Body, new: Body, names: Names) -> tuple[Phrase, ...]:
    """All that is different."""
    rows = rows_of(old.calls, new.calls)
    found: list[Phrase] = []
    if not same_places(old, new):
        found += places(old, new, rows, names)
        found = found or [Phrase(PLACES, "other calls")]
    pairs = unlike_pairs(rows)
    found += times(rows, pairs, names)
    found += platforms(pairs, names)
    found += data(old, new, pairs, names)
    return tuple(found) or (Phrase(DATA, "other data"),)
