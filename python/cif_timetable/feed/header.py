"""The header of a published file: which extract it is, and which one it follows."""
from __future__ import annotations

import re
from collections.abc import Iterable
from dataclasses import dataclass
from datetime import date, datetime
from pathlib import Path

from ..errors import Refused

# Date and time, current and last reference, F or U, version, first and last date of the window.
HEADER = re.compile(
    rb"HD.{20}(?P<made>\d{10})(?P<reference>[!-~ ]{7})(?P<last>[!-~ ]{7})(?P<kind>[FU])."
    rb"(?P<from>\d{6})(?P<to>\d{6})"
)
COMMENT = b"/"
# More comments before the header than this are of another file.
MOST_COMMENTS = 1000
# A comment has at most 1,000 bytes.
LONGEST = 1002
# The years 60 to 99 are 1960 to 1999.
FIRST_YEAR = 60


@dataclass(frozen=True, order=True, slots=True)
class Header:
    """What tells one extract from another. Extracts are ordered by when they were made."""

    made: datetime
    reference: str
    last_reference: str
    is_full: bool
    first_date: date
    last_date: date

    def __str__(self) -> str:
        return f"{self.reference or 'an extract without a reference'} of {self.made:%Y-%m-%d %H:%M}"

    @property
    def name(self) -> str:
        """A name for its file, without an ending. Names are ordered as extracts are."""
        reference = re.sub("[^A-Za-z0-9]", "_", self.reference) or "none"
        return f"{self.made:%Y%m%d-%H%M}-{reference}-{'full' if self.is_full else 'update'}"

    def follows(self, other: Header) -> bool:
        """Whether this is an update of the other extract. One that names no other follows any."""
        in_chain = self.last_reference in ("", other.reference)
        return not self.is_full and in_chain and self.made > other.made


def day_of(digits: bytes) -> date:
    """A date, of DDMMYY."""
    day, month, year = (int(digits[at : at + 2]) for at in (0, 2, 4))
    return date(year + (1900 if year >= FIRST_YEAR else 2000), month, day)


def read_header(lines: Iterable[bytes], name: str) -> Header:
    """The header in the first lines of a file of this name."""
    for number, line in enumerate(lines):
        if line.startswith(COMMENT) and number < MOST_COMMENTS:
            continue
        found = HEADER.match(line)
        if found is None:
            break
        try:
            made = found["made"]
            clock = datetime.strptime(made[6:].decode(), "%H%M").time()
            return Header(
                datetime.combine(day_of(made[:6]), clock),
                found["reference"].decode().strip(),
                found["last"].decode().strip(),
                found["kind"] == b"F",
                day_of(found["from"]),
                day_of(found["to"]),
            )
        except ValueError:
            break
    raise Refused(f"{name} isn't an extract: it has no header HD")


def header_of(path: Path, name: str) -> Header:
    """The header of a file that isn't compressed."""
    with open(path, "rb") as file:
        return read_header(iter(lambda: file.readline(LONGEST), b""), name)
