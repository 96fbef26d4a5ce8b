"""Other lines that spell the same records: texts moved in their columns, activities with gaps, and filled spare columns."""
from __future__ import annotations

from dataclasses import dataclass
from random import Random
from typing import Callable, Dict, List

from reference import values
from reference.faults import Reader
from reference.layouts import BODIES, LAYOUTS, WIDTH, Field, columns_of, read_fields

from .fields import COMMON, PRINTABLE, of_width


@dataclass(frozen=True)
class Habits:
    """How likely it is that a text is moved and that spare columns are filled, and how lines end."""

    moved: float
    filled: float
    carriage_returns: float
    last_ending: bool


PLAIN = Habits(0, 0, 0, True)


def some_habits(rng: Random) -> Habits:
    if rng.random() < 0.3:
        return PLAIN
    odds = (0, 0, 0.1, 0.6)
    return Habits(
        rng.choice(odds), rng.choice(odds), rng.choice((0, 0, 0, 1, 0.5)), rng.random() < 0.8
    )


def moved_text(rng: Random, columns: str) -> str:
    word = columns.strip(" ")
    return word.rjust(rng.randint(len(word), len(columns))).ljust(len(columns))


def with_gaps(rng: Random, columns: str) -> str:
    """Activities in other pairs of columns, in their order."""
    codes = [
        columns[at : at + 2] for at in range(0, len(columns), 2) if columns[at : at + 2] != "  "
    ]
    while 2 * len(codes) < len(columns):
        codes.insert(rng.randint(0, len(codes)), "  ")
    return "".join(codes)


MOVES: Dict[Reader, Callable[[Random, str], str]] = {
    values.text: moved_text,
    values.activities: with_gaps,
}


def meaningful_fields(kind: str, line: str) -> List[Field]:
    """The fields of a line but for those that a cancellation lacks, or a deleted record."""
    return [
        field
        for field in read_fields(kind, line)
        if line[WIDTH - 1] != "C" or field.name not in BODIES.get(kind, ())
    ]


def with_columns(line: str, field: Field, columns: str) -> str:
    return (
        line[: field.first - 1] + columns.ljust(field.last - field.first + 1) + line[field.last :]
    )


def with_one_moved(rng: Random, line: str) -> str:
    """The line with another text in one field, before which spaces stand; often the only one. AA, which has a key, stays."""
    fields = [field for field in meaningful_fields(line[:2], line) if field.read in MOVES]
    places = [
        (field, skipped) for field in fields for skipped in range(1, field.last - field.first + 1)
    ]
    if not places or line.startswith("AA"):
        return line
    for field in fields if rng.random() < 0.5 else ():
        line = with_columns(line, field, "")
    field, skipped = rng.choice(places)
    word = of_width(rng, rng.randint(1, field.last - field.first + 1 - skipped), COMMON)
    return with_columns(line, field, " " * skipped + word)


def respelled(rng: Random, line: str, habits: Habits) -> str:
    """A line that spells what the plain line does; a comment or a note stays."""
    if not LAYOUTS.get(line[:2]) or not habits.moved and not habits.filled:
        return line
    kind = line[:2]
    found = kind + of_width(rng, WIDTH - 2, PRINTABLE) if rng.random() < habits.filled else line
    for field in meaningful_fields(kind, line):
        columns = columns_of(line, field)
        if field.read in MOVES and rng.random() < habits.moved:
            columns = MOVES[field.read](rng, columns)
        found = with_columns(found, field, columns)
    return found


def spelled(rng: Random, lines: List[str], habits: Habits) -> bytes:
    """The bytes of an extract whose plain lines these are."""
    data = b""
    for line in lines:
        ending = b"\r\n" if rng.random() < habits.carriage_returns else b"\n"
        data += respelled(rng, line, habits).encode("ascii") + ending
    return data if habits.last_ending else data.removesuffix(b"\n").removesuffix(b"\r")
