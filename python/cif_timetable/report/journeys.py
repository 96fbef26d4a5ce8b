"""The journey of a train, as the tables of `cif` have it, and which calls of two journeys belong
together."""
from __future__ import annotations

from collections import Counter
from collections.abc import Iterable, Iterator, Sequence
from functools import lru_cache
from itertools import takewhile
from typing import NamedTuple

from .._extract import Extract
from .._schedules import calls_by_schedule, numbered
from .._tables import calls_of
from ..days import Dates
from ..errors import Unexpected

# The fields of `schedules`: those that say which it is, those of BS, and those of BX.
TERMS_FIELDS = "schedule uid first_date last_date days_run".split()
BASIC = "status category identity headcode course service_code sector power timing_load speed"
BASIC += " characteristics class sleepers reservations connection catering branding"
BASIC_FIELDS = BASIC.split()
EXTRA_FIELDS = "traction uic operator timetable_code reserved_a reserved_b".split()
# Whether there is a BX.
HAS_EXTRA = b"BX"
# After the calls of a body, before its changes en route.
END_OF_CALLS = b"\0"


class Call(NamedTuple):
    """A call, or a pass, with its cells in `calls`."""

    kind: bytes
    location: bytes
    suffix: bytes
    arrival: bytes
    departure: bytes
    passing: bytes
    public_arrival: bytes
    public_departure: bytes
    platform: bytes
    line: bytes
    path: bytes
    activities: bytes
    engineering: bytes
    pathing: bytes
    performance: bytes

    @property
    def passes(self) -> bool:
        return bool(self.passing.strip())

    @property
    def times(self) -> tuple[int | None, ...]:
        """The arrival, the pass and the departure in half minutes, as far as it has them."""
        return tuple(map(half_minutes, (self.arrival, self.passing, self.departure)))


# Their names there, of which Python can't take one.
TABLE_FIELDS = tuple({"kind": "record", "passing": "pass"}.get(name, name) for name in Call._fields)


@lru_cache(maxsize=None)
def half_minutes(time: bytes) -> int | None:
    """A working time as half minutes of the day by the clock."""
    if not time.strip():
        return None
    return int(time[:2]) * 120 + int(time[2:4]) * 2 + (time[4:5] == b"H")


class Body(NamedTuple):
    """What runs: the fields of BS and BX, the calls, and the changes en route, each with the number
    of calls before it."""

    basic: tuple[bytes, ...]
    extra: tuple[bytes, ...] | None
    calls: list[Call]
    changes: list[tuple[int, bytes]]

    @property
    def identity(self) -> str:
        return text_of(self.basic[2])

    @property
    def operator(self) -> str:
        return text_of(self.extra[2]) if self.extra else ""


@lru_cache(maxsize=100_000)
def text_of(cell: bytes) -> str:
    return cell.decode("ascii", "replace").strip()


def body_of(text: bytes) -> Body:
    """The body of a text: a line of what is said of the train, its calls, and its changes."""
    about, _, rows = text.partition(b"\n")
    calls, _, changes = rows.partition(END_OF_CALLS)
    cells = about.split(b"\t")
    count = len(BASIC_FIELDS)
    return Body(
        tuple(cells[:count]),
        tuple(cells[count + 1 :]) if cells[count] == HAS_EXTRA else None,
        [Call._make(row.split(b"\t")[1:]) for row in calls.splitlines()],
        [(int(number) - 1, row) for number, _, row in map(parted, changes.splitlines())],
    )


def parted(row: bytes) -> tuple[bytes, bytes, bytes]:
    return row.partition(b"\t")


class OwnSchedule(NamedTuple):
    """A schedule that runs on dates on which the other extract says something else: its number, its
    train, these dates, and the rest of its row."""

    number: bytes
    uid: bytes
    dates: Dates
    about: bytes


def bodies_of(
    extract: Extract, schedules: Sequence[OwnSchedule]
) -> Iterator[tuple[OwnSchedule, bytes]]:
    """Some schedules of an extract, in its order, each with the text of its body."""
    if not schedules:
        return
    numbers = dict.fromkeys(schedule.number for schedule in schedules)
    with extract.table("changes") as table:
        changes = {
            number: numbered(number, text)
            for number, text in calls_by_schedule(table)
            if number in numbers
        }
    with extract.table("calls") as table:
        if tuple(table.names[2:]) != TABLE_FIELDS:
            raise Unexpected("cif writes another table of calls: is it another release?")
        for schedule, (number, text) in zip(schedules, calls_of(table.lines, numbers)):
            if schedule.number != number:
                raise Unexpected("cif writes a schedule without calls: is it another release?")
            calls = numbered(number, text)
            parts = (schedule.about, b"\n", calls, END_OF_CALLS, changes.get(number, b""))
            yield schedule, b"".join(parts)


# ---- two journeys

Row = tuple[Call | None, Call | None]
Pair = tuple[Call, Call]


def visits(calls: Sequence[Call]) -> Iterator[tuple[bytes, int]]:
    """Each call by its place, and by how often the train has been there before."""
    seen: Counter[bytes] = Counter()
    for call in calls:
        yield call.location, seen[call.location]
        seen[call.location] += 1


def alike(old: Iterable[Call], new: Iterable[Call]) -> int:
    """How many calls of two journeys are at the same places, before the first that aren't."""
    pairs = zip(old, new)
    return sum(1 for _ in takewhile(lambda pair: pair[0].location == pair[1].location, pairs))


def rows_of(old: Sequence[Call], new: Sequence[Call]) -> list[Row]:
    """The calls of both journeys side by side, in their order. Calls belong together if they are at
    one place: from the start and from the end as long as both go the same way, and between these
    the first there with the first, the second with the second."""
    first = alike(old, new)
    last = alike(reversed(old[first:]), reversed(new[first:]))
    ends = len(old) - last, len(new) - last
    return [
        *zip(old[:first], new[:first]),
        *rows_between(old[first : ends[0]], new[first : ends[1]]),
        *zip(old[ends[0] :], new[ends[1] :]),
    ]


def rows_between(old: Sequence[Call], new: Sequence[Call]) -> list[Row]:
    places: dict[tuple[bytes, int], int] = {key: at for at, key in enumerate(visits(old))}
    rows: list[Row] = []
    done = 0
    added: list[Row] = []
    for key, call in zip(visits(new), new):
        at = places.get(key, -1)
        if at < done:
            added.append((None, call))
            continue
        rows += [*((earlier, None) for earlier in old[done:at]), *added, (old[at], call)]
        added = []
        done = at + 1
    rows += [*((later, None) for later in old[done:]), *added]
    return rows


def unlike_pairs(rows: Sequence[Row]) -> list[Pair]:
    """Where both call, or both pass, and it isn't the same."""
    return [
        (old, new) for old, new in rows if old and new and old != new and old.passes == new.passes
    ]
