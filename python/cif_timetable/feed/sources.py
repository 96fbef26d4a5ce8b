"""Where published files come from."""
from __future__ import annotations

import json
import os
import shutil
from abc import ABC, abstractmethod
from collections.abc import Callable
from dataclasses import replace
from datetime import date, timedelta
from functools import partial
from pathlib import Path
from urllib.parse import urlencode, urlsplit

from .._files import BLOCK, synchronise
from ..errors import CifError, Damaged, Misused, Refused
from .credentials import WHERE, Credentials, credentials_for
from .header import Header
from .net import Address, Client, Denied, FetchFault, NotThere, Unreachable, check_secret, origin_of
from .raw import RawFiles, packed_header
from .settings import NAME, WEEKDAY, Settings
from .whole import new_file

WEEKDAYS = ("mon", "tue", "wed", "thu", "fri", "sat", "sun")
# By a weekday a file can be asked for until the next one takes its place.
WEEK = 7

NROD_FULL = "/ntrod/CifFileAuthenticate?type=CIF_ALL_FULL_DAILY&day=toc-full.CIF.gz"
NROD_UPDATE = (
    f"/ntrod/CifFileAuthenticate?type=CIF_ALL_UPDATE_DAILY&day=toc-update-{WEEKDAY}.CIF.gz"
)
RDG_TOKEN = "/authenticate"
RDG_TIMETABLE = "/api/staticfeeds/3.0/timetable"
TOKEN = "X-Auth-Token"
# A token has far fewer characters.
LONGEST_TOKEN = 1 << 16


class Source(ABC):
    """Fetches files into FOLDER/raw. What goes wrong with one of them is kept in `problems`, and what
    isn't there, which may not matter, in `absent`."""

    has_updates = True
    # whether a full extract is looked for each time
    wants_full = False

    def __init__(self, raw: RawFiles) -> None:
        self.raw = raw
        self.problems: list[CifError] = []
        self.absent: list[str] = []
        self.fetched = 0
        self.is_down = False
        self.asked: set[str] = set()

    @abstractmethod
    def fetch_full(self) -> None:
        """Fetches the newest full extract, unless it is there."""

    @abstractmethod
    def fetch_updates(self, since: date, today: date) -> None:
        """Fetches the updates since a date, unless they are there."""

    def trying(self, key: str, work: Callable[[], object]) -> None:
        """Does a part of the work, unless it was tried before. After a server has failed for good, no
        other part is tried."""
        if self.is_down or key in self.asked:
            return
        self.asked.add(key)
        try:
            work()
        except NotThere as problem:
            self.absent.append(problem.label)
        except (Refused, Damaged, FetchFault) as problem:
            # a fault of this machine ends the run
            self.problems.append(problem)
            self.is_down = isinstance(problem, (Denied, Unreachable))


class Server(Source):
    """A server with a full extract and an update for each day of the week."""

    def __init__(
        self, raw: RawFiles, client: Client, full: Address, update: Callable[[str], Address] | None
    ) -> None:
        super().__init__(raw)
        self.client = client
        self.full = full
        self.update = update
        self.has_updates = update is not None

    def fetch_full(self) -> None:
        self.trying("full", partial(self.fetch, "full", self.full, True))

    def fetch_updates(self, since: date, today: date) -> None:
        """Of which night the file of a weekday is, isn't sure, so that of tomorrow may be there."""
        first = min(max(since, today + timedelta(days=2 - WEEK)), today)
        for number in range((today - first).days + 2):
            weekday = WEEKDAYS[(first + timedelta(days=number)).weekday()]
            key = f"update-{weekday}"
            if self.update:
                self.trying(key, partial(self.fetch, key, self.update(weekday), False))

    def fetch(self, key: str, address: Address, is_full: bool) -> None:
        path = self.raw.work / f"{key}.fetched"
        headers: list[Header] = []

        def check(path: Path) -> None:
            headers.append(self.raw.check(path, address.label))

        known = self.client.fetch(address, path, self.raw.known(key), check)
        if known is None:
            return
        header = headers[-1]
        if header.is_full != is_full:
            kind = "a full extract" if header.is_full else "an update"
            raise Refused(f"{address.label} is {kind}, {header}")
        synchronise(path)
        raw = self.raw.add(path, header, os.replace)
        self.raw.remember(key, raw.path.name, known)
        self.fetched += 1


class Rdg(Source):
    """The server of the Rail Delivery Group: a token first, then a zip with a full extract."""

    has_updates = False
    wants_full = True

    def __init__(self, raw: RawFiles, client: Client, base: str, user: Credentials) -> None:
        super().__init__(raw)
        host = origin_of(base)[1]
        form = urlencode({"username": user.user, "password": user.password}).encode()
        self.server = Server(
            raw, client, Address(base + RDG_TIMETABLE, f"the timetable of {host}"), None
        )
        self.token_address = Address(base + RDG_TOKEN, f"the token of {host}", form=form)

    def fetch_full(self) -> None:
        self.trying("full", self.fetch)
        self.fetched = self.server.fetched

    def fetch_updates(self, since: date, today: date) -> None:
        """There are none."""

    def fetch(self) -> None:
        full = replace(self.server.full, secrets={TOKEN: self.token()})
        self.server.fetch("full", full, True)

    def token(self) -> str:
        path = self.raw.work / "token"
        try:
            self.server.client.fetch(self.token_address, path)
            found = json.loads(path.read_bytes()[:LONGEST_TOKEN])
            token = found["token"]
            if not (isinstance(token, str) and token.isascii() and token.isprintable()):
                raise ValueError
        except (ValueError, KeyError, TypeError):
            # the answer isn't shown, since it may have the token
            raise FetchFault(f"{self.token_address.label}: the answer has none") from None
        finally:
            path.unlink(missing_ok=True)
        return token


class Folder(Source):
    """A folder in which somebody else puts files. Those that are needed are copied."""

    wants_full = True

    def __init__(self, raw: RawFiles, folder: Path, name: str) -> None:
        super().__init__(raw)
        self.folder = folder
        self.name = name
        self.found: list[tuple[Path, Header]] | None = None

    def files(self) -> list[tuple[Path, Header]]:
        """The extracts and updates in the folder. Other files are no matter."""
        if self.found is None:
            self.found = []
            for path in sorted(self.folder.iterdir()):
                if not path.name.startswith(".") and path.is_file():
                    try:
                        self.found.append((path, packed_header(path, self.label(path))))
                    except Damaged as problem:
                        self.problems.append(problem)
                    except Refused:
                        pass
            if not self.found:
                self.absent.append(f"any extract in {self.name}")
        return self.found

    def label(self, path: Path) -> str:
        return f"{self.name}/{path.name}"

    def fetch_full(self) -> None:
        fulls = [(path, header) for path, header in self.files() if header.is_full]
        # one that is damaged isn't there: the one before it is
        for path, header in sorted(fulls, key=lambda found: found[1].made, reverse=True):
            if self.take(path, header):
                return

    def fetch_updates(self, since: date, today: date) -> None:
        for path, header in self.files():
            if not header.is_full and header.made.date() >= since:
                self.take(path, header)

    def take(self, path: Path, header: Header) -> bool:
        """Whether a file is in FOLDER/raw now."""
        if not self.raw.has(header):
            self.trying(path.name, partial(self.copy, path))
        return self.raw.has(header)

    def copy(self, path: Path) -> None:
        """Copies a file. It may be one into which somebody still writes, so the copy is looked at."""
        copy = self.raw.work / "copied"
        with open(path, "rb") as source, new_file(copy) as target:
            shutil.copyfileobj(source, target, BLOCK)
        header = self.raw.check(copy, self.label(path))
        synchronise(copy)
        self.raw.add(copy, header, os.replace)
        self.fetched += 1


def file_of(url: str) -> str:
    """What to call an address: its host and its last part. A question in it isn't shown."""
    _, host, _ = origin_of(url)
    return f"{urlsplit(url).path.rpartition('/')[2] or url} of {host}"


def credentials_of(settings: Settings, environment: Credentials | None) -> Credentials | None:
    """The user and the password, which two of the sources need."""
    if settings.source == "folder":
        return None
    host = origin_of(settings.address)[1]
    found = credentials_for(host, environment)
    if found is None:
        if settings.source in ("nrod", "rdg"):
            raise Misused(f"there is no user and password for {host}: {WHERE}, says them")
        return None
    where = settings.folder / NAME
    check_secret(settings.address, f"{where}: address")
    if settings.update:
        check_secret(settings.update, f"{where}: update")
        if origin_of(settings.update) != origin_of(settings.address):
            raise Misused(
                f"{where}: address and update are of two hosts, and one password is there"
            )
    return found


def source_of(settings: Settings, raw: RawFiles, environment: Credentials | None) -> Source:
    """The source that the settings name."""
    if settings.source == "folder":
        return Folder(raw, settings.folder / settings.address, settings.address)
    client, user = Client(), credentials_of(settings, environment)
    base = settings.address.rstrip("/")
    if settings.source == "rdg":
        assert user is not None
        return Rdg(raw, client, base, user)
    secrets = {"Authorization": user.basic()} if user else {}
    if settings.source == "nrod":
        host = origin_of(base)[1]

        def day(weekday: str) -> Address:
            label = f"toc-update-{weekday}.CIF.gz of {host}"
            return Address(base + NROD_UPDATE.replace(WEEKDAY, weekday), label, secrets)

        full = Address(base + NROD_FULL, f"toc-full.CIF.gz of {host}", secrets)
        return Server(raw, client, full, day)
    update = settings.update

    def named(weekday: str) -> Address:
        assert update is not None
        url = update.replace(WEEKDAY, weekday)
        return Address(url, file_of(url), secrets)

    full = Address(settings.address, file_of(settings.address), secrets)
    server = Server(raw, client, full, named if update else None)
    server.wants_full = update is None
    return server
