"""A public file, line by line."""
from __future__ import annotations

from collections.abc import Iterator, Sequence
from dataclasses import dataclass, field
from typing import NamedTuple

from ..errors import Refused
from ..user_csv import Lines, Mistake, Unreadable, plain_text

MOST_BYTES = 1 << 30
# So many lines are named, and the others are counted.
MOST_NAMED = 20

Row = Sequence[str | int]
PLACES: Row = ("tiploc", "name", "latitude", "longitude")


class NumberedLine(NamedTuple):
    """A line without its end, and its number."""

    number: int
    text: str


class Odd(Exception):
    """A line, or a field of one, that can't be read."""


@dataclass
class Notes:
    """What can't be read of a file, by the numbers of its lines: those that are left out, and those
    of which only the coordinates are."""

    left_out: list[int] = field(default_factory=list)
    without_coordinates: list[int] = field(default_factory=list)

    def lines(self, path: str) -> list[str]:
        """What is said of them."""
        sorts = (
            ("lines left out, as they can't be read", self.left_out),
            ("places without coordinates, as these can't be read", self.without_coordinates),
        )
        return [f"{path}: {what}: {listed(numbers)}" for what, numbers in sorts if numbers]


def listed(numbers: Sequence[int]) -> str:
    """How many lines, and which."""
    more = f" and {len(numbers) - MOST_NAMED} more" if len(numbers) > MOST_NAMED else ""
    named = ", ".join(map(str, numbers[:MOST_NAMED]))
    return f"{len(numbers)} ({'line' if len(numbers) == 1 else 'lines'} {named}{more})"


def refusal(path: str, line: int, text: str) -> Refused:
    return Refused(f"{path}: line {line}: {text}")


def checked_text(value: str) -> str:
    """A text that cif-gtfs takes."""
    try:
        return plain_text(value)
    except Mistake as mistake:
        raise Odd(str(mistake)) from None


def lines_of(path: str) -> Iterator[NumberedLine]:
    """The lines of a file. What isn't UTF-8 in it isn't read."""
    with open(path, "rb") as file:
        lines = Lines(file, "replace", MOST_BYTES)
        try:
            for line in lines:
                yield NumberedLine(lines.number, line.rstrip("\r\n"))
        except Unreadable as problem:
            raise refusal(path, lines.number, str(problem)) from None
