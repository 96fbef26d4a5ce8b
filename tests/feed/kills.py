"""Kills cif-feed at each of its steps that change a file or a folder, in turn, and fills its disk."""
from __future__ import annotations

import json
import os
import re
import shutil
import sqlite3
import subprocess
import tempfile
from collections.abc import Callable, Iterator
from contextlib import closing
from datetime import datetime, timedelta, timezone
from pathlib import Path

from . import extracts
from .driver import words_of
from .extracts import FULL, SAT, SUN, packed
from .server import Server

# What changes names, or waits for the disk.
STEPS = (
    "rename",
    "renameat",
    "renameat2",
    "link",
    "linkat",
    "symlink",
    "symlinkat",
    "unlink",
    "unlinkat",
    "mkdir",
    "mkdirat",
    "rmdir",
    "fsync",
    "fdatasync",
)
WRITES = ("write", "pwrite64")
CALL = re.compile(r"^(\w+)\((?:\d+<([^>]*)>)?")
MORNING = datetime(2026, 12, 6, 7, tzinfo=timezone.utc)
KILLED = -9
FAILED = 4
NO_SPACE = "No space left on device"
SETTINGS = """\
source = "url"
address = "{address}/full.gz"
update = "{address}/{{weekday}}.gz"
holidays = "holidays.txt"
keep_days = 1

[outputs]
extract = "timetable.cif"
{database}
"""
Files = dict[str, object]


def rows_of(path: Path) -> list[tuple[object, ...]]:
    """All rows of a database, but for when it was made."""
    with closing(sqlite3.connect(path)) as database:
        names = "SELECT name FROM sqlite_master WHERE type = 'table' AND name NOT LIKE 'sqlite%'"
        tables = sorted(name for (name,) in database.execute(names))
        found: list[tuple[object, ...]] = []
        for table in tables:
            cursor = database.execute(f"SELECT * FROM {table}")
            kept = [
                number
                for number, column in enumerate(cursor.description)
                if table != "extract" or not re.search("loaded|made|created", column[0])
            ]
            found += sorted(
                ((table, *(row[number] for number in kept)) for row in cursor), key=repr
            )
        return found


def content_of(path: Path) -> object:
    """What a file says, times aside."""
    if path.suffix == ".db":
        return rows_of(path)
    if path.name == "feed.json":
        facts = json.loads(path.read_text(encoding="utf-8"))
        del facts["fetched_at"]
        return json.dumps(facts)
    return path.read_bytes()


def files_of(folder: Path) -> Files:
    """All files of a folder, times and the log aside. Versions are named by their order."""
    names = sorted(path.name for path in folder.glob("versions/*"))
    found: Files = {}
    for path in sorted(folder.rglob("*")):
        name = str(path.relative_to(folder))
        for number, version in enumerate(names):
            name = name.replace(version, f"version {number}")
        if path.is_symlink():
            target = os.readlink(path)
            found[name] = [f"version {n}" for n, v in enumerate(names) if target.endswith(v)]
        elif path.is_dir():
            found[name] = "folder"
        elif path.name != "feed.log":
            found[name] = content_of(path)
    return found


def version_of(folder: Path) -> Files | None:
    """What `current` has, if there is one."""
    current = folder / "current"
    if not current.exists():
        return None
    return {path.name: content_of(path) for path in sorted(current.iterdir())}


class Scenario:
    """A folder before a run, and what an undisturbed run makes of it."""

    def __init__(self, base: Path, name: str, server: Server, database: bool) -> None:
        self.base = base
        self.name = name
        self.before = base / f"{name}-before"
        self.before.mkdir()
        # what `current` has before and after the run, and all files after the next one
        self.old: Files | None = None
        self.new: Files | None = None
        self.wanted: Files = {}
        line = 'database = "timetable.db"' if database else ""
        settings = SETTINGS.format(address=server.address, database=line)
        (self.before / "feed.toml").write_text(settings, encoding="utf-8")
        (self.before / "holidays.txt").write_text(extracts.HOLIDAYS, encoding="utf-8")

    def words(self, folder: Path, hours: int = 0) -> list[str]:
        now = MORNING + timedelta(hours=hours)
        return words_of(now, "--cif", str(extracts.CIF), str(folder))

    def run(self, folder: Path, hours: int = 0) -> None:
        subprocess.run(self.words(folder, hours), check=True)

    def copy(self) -> Path:
        """The folder as it is before the run, under the same path each time."""
        folder = self.base / self.name
        shutil.rmtree(folder, ignore_errors=True)
        shutil.copytree(self.before, folder, symlinks=True)
        return folder

    def learn(self) -> list[str]:
        """Runs it undisturbed, and returns each place where to kill it."""
        folder = self.copy()
        self.old = version_of(folder)
        trace = self.base / "trace"
        calls = ",".join((*STEPS, *WRITES))
        # some machines don't have all of these calls
        known = "?" + calls.replace(",", ",?")
        subprocess.run(
            ["strace", "-y", "-o", str(trace), "-e", f"trace={known}", *self.words(folder)],
            check=True,
        )
        self.new = version_of(folder)
        self.run(folder, 1)
        self.wanted = files_of(folder)
        return list(places_in(trace.read_text(errors="replace").splitlines(), folder))

    def kill_at(self, place: str) -> list[str]:
        """What is wrong after a run that is killed at a place."""
        folder = self.copy()
        call = ["strace", "-o", "/dev/null", "-e", f"trace={place.partition(':')[0]}"]
        call += ["-e", f"inject={place}"]
        done = subprocess.run(
            [*call, *self.words(folder)], check=False, capture_output=True, text=True
        )
        wanted = KILLED if "signal=KILL" in place else FAILED
        if done.returncode != wanted:
            return [f"it ends with {done.returncode}, and not with {wanted}: {done.stderr}"]
        wrong = []
        if wanted == FAILED and (done.stderr.count("\n") != 1 or NO_SPACE not in done.stderr):
            wrong.append(f"it says: {done.stderr}")
        if version_of(folder) not in (self.old, self.new):
            wrong.append("current is neither what it was nor what it should be")
        again = subprocess.run(self.words(folder, 1), check=False, capture_output=True, text=True)
        if (again.returncode, again.stderr) != (0, ""):
            wrong.append(f"the next run ends with {again.returncode}: {again.stderr}")
        found = files_of(folder)
        names = sorted(found.keys() | self.wanted.keys())
        other = [name for name in names if found.get(name) != self.wanted.get(name)]
        if other:
            wrong.append(f"the next run leaves other files: {', '.join(other)}")
        return wrong


def places_in(lines: list[str], folder: Path) -> Iterator[str]:
    """Where to kill it: at each step, and at the first and the last write of each file, as strace
    counts them. At the first one the disk is full, too."""
    counts: dict[str, int] = {}
    writes: dict[tuple[str, str], list[int]] = {}
    for line in lines:
        found = CALL.match(line)
        if not found:
            continue
        call, path = found[1], found[2] or ""
        counts[call] = counts.get(call, 0) + 1
        if call in STEPS:
            yield f"{call}:signal=KILL:when={counts[call]}"
        elif path.startswith(str(folder)):
            writes.setdefault((call, path), []).append(counts[call])
    for (call, _), numbers in writes.items():
        for number in sorted({numbers[0], numbers[-1]}):
            yield f"{call}:signal=KILL:when={number}"
        yield f"{call}:error=ENOSPC:when={numbers[0]}"


def scenarios(base: Path, server: Server) -> Iterator[Scenario]:
    """The first run of all; and a run with an update, after which an older version goes."""
    server.put("/full.gz", packed(FULL))
    server.put("/sat.gz", packed(SAT))
    yield Scenario(base, "first", server, database=False)
    later = Scenario(base, "later", server, database=True)
    for hours in -48, -24:
        later.run(later.before, hours)
    server.put("/sun.gz", packed(SUN))
    yield later


def check(server: Server, report: Callable[[str, list[str]], None]) -> None:
    """Tries each place of each scenario."""
    memory = "/dev/shm" if os.access("/dev/shm", os.W_OK) else None
    with tempfile.TemporaryDirectory(prefix="cif-feed-", dir=memory) as name:
        for scenario in scenarios(Path(name).resolve(), server):
            for place in scenario.learn():
                report(f"{scenario.name}, {place}", scenario.kill_at(place))
