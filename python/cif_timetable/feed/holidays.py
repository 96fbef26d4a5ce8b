"""The dates of the holiday codes: those of the government's list, and those of the settings."""
from __future__ import annotations

import json
import os
from collections.abc import Iterable, Iterator, Sequence
from dataclasses import dataclass
from datetime import date
from pathlib import Path

from ..errors import CifError, Failed, Refused
from .net import Address, Client
from .raw import RawFiles
from .settings import Holidays

# The part of the list for X. Those of E and G are local ones, which it doesn't have.
DIVISION = "england-and-wales"
SUBSTITUTE = "substitute"
MONDAY = 0
# A line of a file of holidays has at most 1,000 bytes.
LONGEST_TITLE = 200


@dataclass(frozen=True)
class Holiday:
    """A date for a code, what it is, and why it isn't taken, if it isn't."""

    code: str
    day: date
    title: str
    left_out: str = ""

    def __str__(self) -> str:
        taken = f"not taken: {self.left_out}" if self.left_out else "taken"
        return f"{self.code} {self.day} {self.day:%A}  {self.title}: {taken}"

    @property
    def line(self) -> str:
        """A line of a file for `cif prepare`."""
        remark = f"{self.day:%A}, {self.title}".encode("ascii", "replace").decode()
        return f"{self.code} {self.day}  # {remark}"


def read_list(path: Path, name: str) -> Iterator[tuple[date, str, bool]]:
    """The date and the title of each holiday of the government's list, and whether it is a
    substitute day."""
    try:
        events = json.loads(path.read_bytes())[DIVISION]["events"]
        for event in events:
            notes = str(event.get("notes") or "")
            title = f"{event['title']}, {notes}" if notes else str(event["title"])
            title = "".join(c if c.isprintable() else "?" for c in title)[:LONGEST_TITLE]
            yield date.fromisoformat(event["date"]), title, SUBSTITUTE in notes.lower()
    except (ValueError, KeyError, TypeError, AttributeError):
        raise Refused(f"{name} isn't the government's list of bank holidays") from None


def left_out(day: date, is_substitute: bool, asked: Holidays) -> str:
    """Why a holiday of the list isn't taken for X, or nothing if it is."""
    if day.weekday() != MONDAY:
        return "no Monday"
    if is_substitute:
        return "" if asked.substitutes else "a substitute day, and substitutes = false"
    return "" if asked.mondays else "mondays = false"


def holidays_of(asked: Holidays, listed: Iterable[tuple[date, str, bool]]) -> list[Holiday]:
    """All that is known, also what isn't taken."""
    found = [
        Holiday("X", day, title, left_out(day, substitute, asked))
        for day, title, substitute in listed
    ]
    for code, days in ("X", asked.further), ("E", asked.edinburgh), ("G", asked.glasgow):
        found += [Holiday(code, day, "of feed.toml") for day in days or ()]
    return sorted(found, key=lambda holiday: ("XEG".index(holiday.code), holiday.day))


def text_of(asked: Holidays, found: Sequence[Holiday]) -> str:
    """The file for `cif prepare`. A code that no setting names isn't named in it, so that an extract
    that has it is refused."""
    lines = [holiday.line for holiday in found if not holiday.left_out]
    named = {holiday.code for holiday in found if not holiday.left_out}
    wanted = {
        "X": asked.mondays or asked.substitutes,
        "E": asked.edinburgh is not None,
        "G": asked.glasgow is not None,
    }
    lines += [code for code, is_wanted in wanted.items() if is_wanted and code not in named]
    return "".join(f"{line}\n" for line in lines)


def listed_holidays(
    asked: Holidays, raw: RawFiles, warnings: list[str]
) -> list[tuple[date, str, bool]]:
    """The holidays of the government's list, which is fetched, or kept from an earlier run."""
    if asked.list:
        return list(read_list(asked.list, str(asked.list)))
    if not asked.address:
        return []
    raw.folder.mkdir(exist_ok=True)
    kept, new = raw.folder / "bank-holidays.json", raw.work / "bank-holidays.json"
    address = Address(asked.address, "the list of bank holidays")
    try:
        known = Client().fetch(address, new, raw.known("bank-holidays"))
        if known:
            found = list(read_list(new, address.label))
            os.replace(new, kept)
            raw.remember("bank-holidays", kept.name, known)
            return found
    except CifError as problem:
        if not kept.exists():
            raise
        warnings.append(f"{problem}: that of an earlier run is taken")
    finally:
        new.unlink(missing_ok=True)
    if not kept.exists():
        raise Failed(f"{address.label}: it isn't there")
    return list(read_list(kept, str(kept)))
