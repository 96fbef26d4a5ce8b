"""The CSV files of the user: fields by their names, in any order. What is wrong is reported with
the file and the line on which its row begins."""
from __future__ import annotations

import csv
import re
from collections.abc import Callable, Iterator, Sequence
from dataclasses import dataclass
from datetime import date
from typing import IO, Generic, NamedTuple, TypeVar

from .errors import Refused

Row = TypeVar("Row", bound=NamedTuple)

# There is at most a row for each place, with names. So what is longer is the wrong file.
MOST_BYTES = 64 << 20
LONGEST_LINE = 1 << 16
# So many mistakes of a file are reported, and the others are counted.
MOST_MISTAKES = 20

# An address of the web or of mail is what MobilityData's validator takes, from memory.
LABEL = r"[A-Za-z0-9](?:[A-Za-z0-9-]{0,61}[A-Za-z0-9])?"
LAST_LABEL = r"[A-Za-z][A-Za-z0-9-]{0,61}[A-Za-z0-9]"
HOST = rf"(?P<host>(?:{LABEL}\.)+{LAST_LABEL})"
MOST_OF_HOST = 253
BYTE = r"(?:25[0-5]|2[0-4][0-9]|1[0-9]{2}|[1-9]?[0-9])"
WEB = re.compile(
    rf"https?://(?:{HOST}|{BYTE}(?:\.{BYTE}){{3}})(?::(?P<port>[0-9]{{1,5}}))?(?:[/?#][!-~]*)?"
)
MOST_OF_PORT = 65535
ATOM = r"[A-Za-z0-9!#$%&'*+/=?^_`{|}~-]+"
MAIL = re.compile(rf"(?P<user>{ATOM}(?:\.{ATOM})*)@{HOST}")
MOST_OF_USER = 64
NUMBER = re.compile(r"[+-]?(?:[0-9]+\.?[0-9]*|\.[0-9]+)")
# What has no place on a line of text. A byte of an argument that isn't text is a surrogate.
CONTROL = re.compile(r"[\x00-\x1f\x7f-\x9f\u2028\u2029\ud800-\udfff]")


class Mistake(Exception):
    """What is wrong with a value."""


# ---- what values have to be


def plain_text(value: str) -> str:
    if CONTROL.search(value):
        raise Mistake("has a line break or another control character")
    return value


def degrees(most: int) -> Callable[[str], float]:
    """Reads an angle in degrees from -most to most."""

    def read(value: str) -> float:
        if not NUMBER.fullmatch(value) or abs(float(value)) > most:
            raise Mistake(f"isn't a number of degrees from -{most} to {most}")
        return float(value)

    return read


def minutes(value: str) -> int:
    if not re.fullmatch(r"[0-9]{1,3}", value):
        raise Mistake("isn't a number of minutes from 0 to 999")
    return int(value)


def crs_code(value: str) -> str:
    if not re.fullmatch(r"[!-~]{3}", value):
        raise Mistake("isn't a CRS code of three characters")
    return value


def iso_date(value: str) -> date:
    try:
        if not re.fullmatch(r"[0-9]{4}-[0-9]{2}-[0-9]{2}", value):
            raise ValueError
        return date.fromisoformat(value)
    except ValueError:
        raise Mistake("isn't a date YYYY-MM-DD") from None


def time_of_day(value: str) -> str:
    if not re.fullmatch(r"([01][0-9]|2[0-3])[0-5][0-9]", value):
        raise Mistake("isn't a time HHMM")
    return value


def weekdays(value: str) -> str:
    if not re.fullmatch(r"[01]{7}", value):
        raise Mistake("isn't seven digits 0 and 1, Monday first")
    return value


def name_of_publisher(value: str) -> str:
    if not value.strip():
        raise Mistake("is empty")
    return plain_text(value)


def web_address(value: str) -> str:
    found = WEB.fullmatch(value)
    if (
        not found
        or len(found["host"] or "") > MOST_OF_HOST
        or int(found["port"] or 0) > MOST_OF_PORT
    ):
        raise Mistake("isn't an address of the web such as https://www.example.com/")
    return value


def mail_address(value: str) -> str:
    found = MAIL.fullmatch(value)
    if not found or len(found["user"]) > MOST_OF_USER or len(found["host"]) > MOST_OF_HOST:
        raise Mistake("isn't an email address such as info@example.com")
    return value


# ---- the layouts of files


class Field(NamedTuple):
    """A field by its name: what reads its values, whether each row has to have one, and whether a
    file may be without the field."""

    name: str
    read: Callable[[str], object]
    needed: bool = False
    optional: bool = False


def nothing_wrong(_row: object) -> Iterator[str]:
    return iter(())


@dataclass(frozen=True)
class Layout(Generic[Row]):
    """A sort of file: what its rows become, their fields, those fields that tell one row from
    another, what may be wrong with a row whose values are right each by itself, and which fields
    have to be different."""

    row: Callable[..., Row]
    fields: Sequence[Field]
    key: Sequence[str]
    mistakes: Callable[[Row], Iterator[str]] = nothing_wrong
    apart: Sequence[str] = ()


Key = tuple[object, ...]


# ---- reading


class Unreadable(Exception):
    """A line can't be read, so what follows can't be either."""


class Lines:
    """The lines of a file in UTF-8. `number` is that of the last one, counted from 1."""

    def __init__(
        self, file: IO[bytes], errors: str = "strict", most_bytes: int = MOST_BYTES
    ) -> None:
        self.file = file
        self.errors = errors
        self.left = most_bytes
        self.number = 0

    def __iter__(self) -> Lines:
        return self

    def __next__(self) -> str:
        line = self.file.readline(LONGEST_LINE + 1)
        if not line:
            raise StopIteration
        self.number += 1
        self.left -= len(line)
        if len(line) > LONGEST_LINE or self.left < 0:
            raise Unreadable("the line or the file is too long: this can't be the right file")
        if b"\0" in line:
            raise Unreadable("this is no text: it has a byte 0")
        try:
            return line.decode("utf-8-sig" if self.number == 1 else "utf-8", self.errors)
        except UnicodeDecodeError as problem:
            raise Unreadable(f"this is no CSV in UTF-8: {problem.reason}") from None


class Reader(Generic[Row]):
    """Reads a file of a layout. Mistakes are kept with the numbers of their lines."""

    def __init__(self, layout: Layout[Row], lines: Lines) -> None:
        self.layout = layout
        self.lines = lines
        self.mistakes: list[tuple[int, str]] = []
        self.found: dict[Key, Row] = {}
        self.line_of: dict[Key, int] = {}

    def read(self) -> None:
        """Reads all rows, up to one that can't be read."""
        rows = csv.reader(self.lines, strict=True)
        first_line = 1
        try:
            names = [name.strip() for name in next(rows, [])]
            if not self.is_heading(names):
                return
            first_line = self.lines.number + 1
            for cells in rows:
                if any(cell.strip() for cell in cells):
                    self.take(first_line, names, cells)
                first_line = self.lines.number + 1
        except Unreadable as problem:
            self.mistakes.append((self.lines.number, str(problem)))
        except csv.Error as problem:
            self.mistakes.append((first_line, f"this is no CSV: {problem}"))

    def is_heading(self, names: Sequence[str]) -> bool:
        fields = [field.name for field in self.layout.fields]
        needed = [field.name for field in self.layout.fields if not field.optional]
        wrong = [f"the field {name} is missing" for name in needed if name not in names]
        wrong += [f"the field {name} is a duplicate" for name in fields if names.count(name) > 1]
        self.mistakes += [(1, mistake) for mistake in wrong]
        return not wrong

    def take(self, line: int, names: Sequence[str], cells: Sequence[str]) -> None:
        """Keeps the row that begins on a line, or what is wrong with it."""
        if len(cells) != len(names):
            mistake = f"{len(cells)} fields, and the first line has {len(names)}"
            self.mistakes.append((line, mistake))
            return
        known = len(self.mistakes)
        given = dict(zip(names, cells))
        values = {
            field.name: self.value(line, field, given.get(field.name, ""))
            for field in self.layout.fields
        }
        key = tuple(values[name] for name in self.layout.key)
        needed = {field.name for field in self.layout.fields if field.needed}
        if all(values[name] is not None for name in needed.intersection(self.layout.key)):
            self.check_key(line, key, [values[name] for name in self.layout.apart])
        if len(self.mistakes) == known:
            row = self.layout.row(**values)
            self.mistakes += [(line, mistake) for mistake in self.layout.mistakes(row)]
            self.found[key] = row

    def value(self, line: int, field: Field, cell: str) -> object:
        """The value of a cell, or None where it is empty or bad."""
        cell = cell.strip()
        if not cell:
            if field.needed:
                self.mistakes.append((line, f"{field.name} is missing"))
            return None
        try:
            return field.read(cell)
        except Mistake as mistake:
            self.mistakes.append((line, f"{field.name} {shown(cell)} {mistake}"))
            return None

    def check_key(self, line: int, key: Key, apart: Sequence[object]) -> None:
        if key in self.line_of:
            names = ", ".join(str(each) for each in key if each is not None)
            self.mistakes.append(
                (line, f"{names} is a duplicate: line {self.line_of[key]} has it too")
            )
        if len(set(apart)) < len(apart):
            self.mistakes.append((line, f"{' and '.join(self.layout.apart)} are the same"))
        self.line_of.setdefault(key, line)


# What a cell is quoted for.
SPECIAL = re.compile(b'[,"\n]')


def csv_cell(text: bytes) -> bytes:
    """A text as a cell of a row."""
    # most are plain, which is seen faster so
    if text.isalnum():
        return text
    return b'"%s"' % text.replace(b'"', b'""') if SPECIAL.search(text) else text


def shown(cell: str) -> str:
    """A cell as it is reported: on one line."""
    return f"`{CONTROL.sub('?', cell)}`"


def refusal(path: str, mistakes: Sequence[tuple[int, str]]) -> Refused:
    """What is wrong with a file, line by line."""
    lines = [f"{path}: line {line}: {mistake}" for line, mistake in mistakes[:MOST_MISTAKES]]
    if len(mistakes) > MOST_MISTAKES:
        lines.append(f"{path}: and {len(mistakes) - MOST_MISTAKES} more")
    return Refused(*lines)


def read_file(layout: Layout[Row], path: str | None) -> dict[Key, Row]:
    """The rows of a file by their keys. Without a file there are none."""
    if path is None:
        return {}
    with open(path, "rb") as file:
        reader = Reader(layout, Lines(file))
        reader.read()
    if reader.mistakes:
        raise refusal(path, reader.mistakes)
    return reader.found
