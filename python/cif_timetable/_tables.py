"""Tables as `cif` writes them, and their rows as values."""
from __future__ import annotations

from collections.abc import Callable, Collection, Iterable, Iterator, Mapping
from dataclasses import MISSING, fields
from datetime import date, time, timedelta
from operator import itemgetter
from typing import IO, Any, NamedTuple, TypeVar

from ._files import BLOCK
from .errors import Unexpected

Row = TypeVar("Row", bound=NamedTuple)
Value = TypeVar("Value")


# ---- cells as values


def working_time(cell: str) -> time | None:
    """A working time, such as `2304H`, or nothing."""
    return time(int(cell[:2]), int(cell[2:4]), 30 * cell.endswith("H")) if cell else None


def public_time(cell: str) -> time | None:
    """A public time, which noughts aren't."""
    return None if cell == "0000" else working_time(cell)


def since_midnight(cell: str) -> timedelta:
    hours, minutes, seconds = cell.split(":")
    return timedelta(hours=int(hours), minutes=int(minutes), seconds=int(seconds))


# What reads the cells of a field, by its type as it is written; an empty cell of an optional one is None.
READERS: dict[str, Callable[[str], object]] = {
    "str": str,
    "int": int,
    "date": date.fromisoformat,
    "time": working_time,
    "timedelta": since_midnight,
    # those of the clock, in fields that are called so themselves
    "Date": date.fromisoformat,
    "Time": time.fromisoformat,
}
OPTIONAL = " | None"


class Known(dict[str, object]):
    """What cells become. Those of a field are often equal, so each is read once."""

    def __init__(self, read: Callable[[str], object]) -> None:
        super().__init__()
        self.read = read

    def __missing__(self, cell: str) -> object:
        value = self[cell] = self.read(cell)
        return value


def reader_of(name: str, type_name: str) -> Callable[[str], object]:
    """What reads the cells of a field with this type."""
    if type_name == "str":
        return str
    read = READERS[type_name.removesuffix(OPTIONAL)]
    if name.startswith("public_"):
        read = public_time
    known = Known(read)
    if type_name.endswith(OPTIONAL):
        known[""] = None
    return known.__getitem__


def name_in_table(name: str, names: Collection[str]) -> str:
    """The name that a field of a value has in a table."""
    plain = name.removesuffix("_")
    return "location" if plain == "tiploc" and plain not in names else plain


def fields_of(kind: type[object], names: Collection[str] | None = None) -> dict[str, str]:
    """The fields of a class of `model`, each with its type as it is written. Those with a default
    aren't in every table: they are left out of one whose names don't have them."""
    return {
        field.name: str(field.type)
        for field in fields(kind)
        if names is None or field.default is MISSING or name_in_table(field.name, names) in names
    }


# ---- tables


class Table(NamedTuple):
    """A table: the names of its fields, and its rows as they come, one a line."""

    names: list[str]
    lines: IO[bytes]

    def cells_at(self, wanted: Collection[str]) -> Callable[[list[Any]], tuple[Any, ...]]:
        """Takes the cells with these names of all cells of a row."""
        missing = [name for name in wanted if name not in self.names]
        if missing:
            what = f"a table without the field {missing[0]}"
            raise Unexpected(f"cif writes {what}: is it another program, or another release?")
        return itemgetter(*(self.names.index(name) for name in wanted))

    def reader(self, kind: type[Row]) -> Callable[[bytes], Row]:
        """Reads a line: those fields that a row of this kind has, as texts."""
        cells_at = self.cells_at(kind._fields)
        return lambda line: kind._make(cells_at(line.decode().rstrip("\n").split("\t")))

    def values(
        self, kind: type[Value], keep: Callable[[bytes], bool] | None = None
    ) -> Iterator[Value]:
        """The rows as they come, as values of a class of `model`: all, or those to keep."""
        lines = self.lines if keep is None else filter(keep, self.lines)
        names = fields_of(kind, self.names)
        cells_at = self.cells_at([name_in_table(name, self.names) for name in names])
        readers = [reader_of(name, type_name) for name, type_name in names.items()]
        for line in lines:
            cells = cells_at(line.decode("ascii")[:-1].split("\t"))
            yield kind(*[read(cell) for read, cell in zip(readers, cells)])


def heading_of(lines: IO[bytes]) -> Table:
    """A table whose heading is read."""
    return Table(lines.readline().decode().rstrip("\n").split("\t"), lines)


# ---- some rows of many


def calls_of(
    stream: IO[bytes], numbers: Iterable[bytes], size: int = BLOCK
) -> Iterator[tuple[bytes, bytes]]:
    """The rows that a table of calls has of some schedules, whose numbers rise in both. It looks for
    them in blocks, since cutting a country's calls into rows takes far longer. Each schedule has
    calls."""
    text = b"\n"
    at = 0
    for number in numbers:
        start = b"\n%s\t" % number
        next_start = b"\n%d\t" % (int(number) + 1)
        first = text.find(start, at)
        end = text.find(next_start, first + 1) if first >= 0 else -1
        while end < 0:
            # what was looked through is left out, but for the beginning of a row
            text = text[first if first >= 0 else text.rfind(b"\n") :]
            block = stream.read(size)
            text += block
            first = text.find(start)
            end = text.find(next_start, first + 1) if first >= 0 else -1
            if not block:
                end = text.rfind(b"\n") if end < 0 else end
                break
        at = end
        if first >= 0:
            yield number, text[first + 1 : end + 1]


def rows_with(
    stream: IO[bytes], place: int, wanted: Mapping[bytes, Collection[bytes]], size: int = BLOCK
) -> Iterator[bytes]:
    """The rows that a table of calls has of some schedules with one of the texts that are wanted of
    the schedule in this place."""
    for number, text in calls_of(stream, wanted, size):
        yield from rows_in(text, place, wanted[number])


# More texts are not looked for one by one.
FEW = 8


def rows_in(text: bytes, place: int, texts: Collection[bytes]) -> Iterator[bytes]:
    """The rows of a text that have one of these texts in a place, in order."""
    if len(texts) > FEW:
        rows = text.rstrip(b"\n").split(b"\n")
        return iter([row for row in rows if row.split(b"\t", place + 1)[place] in texts])
    found = set()
    for each in texts:
        cell = b"\t%s\t" % each
        at = text.find(cell)
        while at >= 0:
            first = text.rfind(b"\n", 0, at) + 1
            row = text[first : text.index(b"\n", at)]
            if row.split(b"\t", place + 1)[place] == each:
                found.add((first, row))
            at = text.find(cell, at + 1)
    return (row for _, row in sorted(found))
