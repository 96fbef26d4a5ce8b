"""The settings of a folder, in its feed.toml. All of them are looked at before anything is fetched."""
from __future__ import annotations

import os
import re
import tomllib
from collections.abc import Mapping
from dataclasses import dataclass, field
from datetime import date
from difflib import get_close_matches
from pathlib import Path
from typing import NoReturn

from ..errors import Misused
from .net import check_address

NAME = "feed.toml"
SOURCES = ("nrod", "rdg", "folder", "url")
WEEKDAY = "{weekday}"
# Files of a version that are no outputs.
STATE, FACTS, HOLIDAYS = "full.cif", "feed.json", "holidays.txt"
STATIONS, LINKS = "stations.msn", "links.alf"
RESERVED = (STATE, FACTS, HOLIDAYS, STATIONS, LINKS)
OUTPUT = re.compile(r"[A-Za-z0-9_][A-Za-z0-9._-]{0,99}")
# What a connection of PostgreSQL mustn't have, since other users see the words of a program.
PASSWORD = re.compile(r"password\s*=|://[^/@]*:[^/@]*@", re.IGNORECASE)
MOST_DAYS = 3660
# After so many days an extract is late: a day where there are updates, else a week.
LATE_WITH_UPDATES, LATE_WITHOUT = 1, 8


@dataclass(frozen=True)
class Outputs:
    """The files of a version that users want, and a database of PostgreSQL."""

    extract: str | None = None
    database: str | None = None
    postgresql: str | None = None
    gtfs: str | None = None
    report: str | None = None

    def have_names(self) -> bool:
        """Whether one of them has the names of places."""
        return any((self.database, self.postgresql, self.gtfs, self.report))

    def names(self) -> list[str]:
        """The names of all files that a version may have for them."""
        named = [self.extract, self.database, self.gtfs, self.report]
        rows = str(Path(self.report).with_suffix(".csv")) if self.report else None
        return [name for name in (*named, rows) if name]


@dataclass(frozen=True)
class UserFiles:
    """The user's own files for the programs of this package, and who publishes the GTFS feed."""

    places: Path | None = None
    operators: Path | None = None
    interchange: Path | None = None
    links: Path | None = None
    publisher: str | None = None
    url: str | None = None
    email: str | None = None

    def paths(self) -> list[Path]:
        named = (self.places, self.operators, self.interchange, self.links)
        return [path for path in named if path]


@dataclass(frozen=True)
class Holidays:
    """Where the dates of the holiday codes come from: a file for `cif prepare`, or dates."""

    file: Path | None = None
    # the government's list: an address, or a file
    address: str | None = None
    list: Path | None = None
    mondays: bool = False
    substitutes: bool = False
    further: tuple[date, ...] = ()
    edinburgh: tuple[date, ...] | None = None
    glasgow: tuple[date, ...] | None = None

    def is_empty(self) -> bool:
        return self == Holidays()


@dataclass(frozen=True)
class Settings:
    """All of feed.toml."""

    folder: Path
    source: str
    address: str
    update: str | None
    holidays: Holidays
    keep_days: int
    past_days: int | None
    late_days: int
    one_chain: bool = True
    outputs: Outputs = field(default_factory=Outputs)
    files: UserFiles = field(default_factory=UserFiles)

    def paths(self) -> list[Path]:
        """All files that the settings name."""
        lists = [path for path in (self.holidays.file, self.holidays.list) if path]
        return [*lists, *self.files.paths()]


class Table:
    """A table of feed.toml, whose keys are taken one by one. What is left at the end is a mistake."""

    def __init__(self, folder: Path, values: Mapping[str, object], name: str = "") -> None:
        self.folder = folder
        self.values = values
        self.name = name
        self.known: list[str] = []

    def wrong(self, key: str, what: str) -> NoReturn:
        raise Misused(f"{self.folder / NAME}: {self.name}{key} {what}")

    def take(self, key: str) -> object:
        self.known.append(key)
        return self.values.get(key)

    def text(self, key: str) -> str | None:
        value = self.take(key)
        if value is not None and not (isinstance(value, str) and value and value.isprintable()):
            self.wrong(key, "has to be a text")
        return value

    def number(self, key: str, least: int) -> int | None:
        value = self.take(key)
        if value is None:
            return None
        if isinstance(value, bool) or not isinstance(value, int) or not least <= value <= MOST_DAYS:
            self.wrong(key, f"has to be a number of days from {least} to {MOST_DAYS}")
        return value

    def flag(self, key: str, default: bool = False) -> bool:
        value = self.take(key)
        if value is None:
            return default
        if not isinstance(value, bool):
            self.wrong(key, "has to be true or false")
        return value

    def dates(self, key: str) -> tuple[date, ...] | None:
        """Dates such as 2026-12-28, perhaps in quotation marks."""
        values = self.take(key)
        if values is None:
            return None
        if not isinstance(values, list):
            self.wrong(key, "has to be a list of dates")
        found = []
        for value in values:
            try:
                found.append(date.fromisoformat(str(value)))
            except ValueError:
                self.wrong(key, f"has `{value}`, which isn't a date such as 2026-12-28")
        return tuple(sorted(set(found)))

    def path(self, key: str) -> Path | None:
        """A file that is there, from the folder on."""
        text = self.text(key)
        return None if text is None else self.file(key, text)

    def file(self, key: str, text: str) -> Path:
        path = self.folder / text
        if not os.access(path, os.R_OK):
            self.wrong(key, f"names {text}, which isn't there or can't be read")
        if not path.is_file():
            self.wrong(key, f"names {text}, which isn't a file")
        return path

    def output(self, key: str) -> str | None:
        """The name of a file in FOLDER/current."""
        text = self.text(key)
        if text is not None and not OUTPUT.fullmatch(text):
            self.wrong(
                key, "has to be a name of letters, digits, `.`, `_` and `-`, without a folder"
            )
        return text

    def table(self, key: str) -> Table:
        value = self.take(key)
        if value is not None and not isinstance(value, dict):
            self.wrong(key, "has to be a table")
        return Table(self.folder, value or {}, f"{self.name}{key}.")

    def end(self) -> None:
        for key in self.values:
            if key not in self.known:
                near = get_close_matches(key, self.known, 1)
                hint = f"; {self.name}{near[0]} is" if near else ""
                self.wrong(key, f"isn't a setting{hint}")


def read_outputs(table: Table) -> Outputs:
    found = Outputs(
        extract=table.output("extract"),
        database=table.output("database"),
        postgresql=table.text("postgresql"),
        gtfs=table.output("gtfs"),
        report=table.output("report"),
    )
    table.end()
    names = found.names()
    for name in names:
        if name in RESERVED or names.count(name) > 1:
            table.wrong("", f"has {name} twice, or it is a file of cif-feed's own")
    if found.postgresql and PASSWORD.search(found.postgresql):
        table.wrong("postgresql", "has a password: it belongs in ~/.pgpass")
    return found


def read_files(table: Table) -> UserFiles:
    found = UserFiles(
        places=table.path("places"),
        operators=table.path("operators"),
        interchange=table.path("interchange"),
        links=table.path("links"),
        publisher=table.text("publisher"),
        url=table.text("url"),
        email=table.text("email"),
    )
    table.end()
    return found


def read_holidays(settings: Table) -> Holidays:
    value = settings.values.get("holidays")
    if isinstance(value, str):
        return Holidays(file=settings.path("holidays"))
    table = settings.table("holidays")
    text = table.text("list")
    address = text if text and "://" in text else None
    if address:
        check_address(address, f"{table.folder / NAME}: holidays.list")
    found = Holidays(
        address=address,
        list=table.file("list", text) if text and not address else None,
        mondays=table.flag("mondays"),
        substitutes=table.flag("substitutes"),
        further=table.dates("further") or (),
        edinburgh=table.dates("edinburgh"),
        glasgow=table.dates("glasgow"),
    )
    table.end()
    if (found.mondays or found.substitutes) and text is None:
        table.wrong("mondays", "is to be taken of holidays.list, which isn't there")
    return found


def read_source(table: Table) -> tuple[str, str, str | None]:
    """The source, its address, and that of its updates."""
    source, address, update = table.text("source"), table.text("address"), table.text("update")
    if source not in SOURCES:
        table.wrong("source", f"has to be one of {', '.join(SOURCES)}")
    if address is None:
        table.wrong("address", "is missing")
    if source == "folder":
        if not os.access(table.folder / address, os.R_OK | os.X_OK):
            table.wrong("address", f"names {address}, which isn't a folder that can be read")
    else:
        check_address(address, f"{table.folder / NAME}: address")
    if update is not None:
        if source != "url":
            table.wrong("update", 'is for source = "url"')
        if WEEKDAY not in update:
            table.wrong("update", f"has no {WEEKDAY}, which stands for mon to sun")
        check_address(update.replace(WEEKDAY, "mon"), f"{table.folder / NAME}: update")
    return source, address, update


def read_settings(folder: Path) -> Settings:
    """The settings of a folder."""
    path = folder / NAME
    try:
        with open(path, "rb") as file:
            values = tomllib.load(file)
    except FileNotFoundError:
        hint = f"cif-feed --example nrod > {path}"
        raise Misused(f"{path} isn't there: `{hint}` makes one to fill in") from None
    except (tomllib.TOMLDecodeError, UnicodeDecodeError) as problem:
        raise Misused(f"{path}: {problem}") from None
    table = Table(folder, values)
    source, address, update = read_source(table)
    with_updates = source == "nrod" or update is not None
    late_days = table.number("late_days", 0)
    keep_days = table.number("keep_days", 1)
    settings = Settings(
        folder,
        source,
        address,
        update,
        read_holidays(table),
        14 if keep_days is None else keep_days,
        table.number("past_days", 0),
        late_days if late_days is not None else LATE_WITH_UPDATES if with_updates else LATE_WITHOUT,
        table.flag("one_chain", True),
        read_outputs(table.table("outputs")),
        read_files(table.table("gtfs")),
    )
    table.end()
    return settings
