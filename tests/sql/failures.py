"""What is refused, that the old database stays whole then, and that readers have the old one or the new one."""
from __future__ import annotations

import hashlib
import os
import re
import resource
import shutil
import signal
import sqlite3
import subprocess
import sys
import threading
import time
from contextlib import closing
from pathlib import Path
from typing import Callable, Dict, List, Optional, Set, Tuple, Union

from gtfs.checks import PACKAGES, PROGRAMS, Counts, Word, interrupted
from gtfs.failures import FAILING

from .checks import Maker, sqlite_rows
from .definition import SqlRow

# Headers of the same extract: an hour earlier, with a later window, and without a moment.
EARLIER = ("0401262130", "0401262030")
LATER_WINDOW = ("FA050126110126", "FA060126110126")
NO_MOMENT = ("0401262130", "9999999999")
# The extract of a database, and how many trains run on all dates.
TRAINS = "SELECT current_reference, count(*) FROM extract, runs GROUP BY 1"
KILLS = 12
# What a terminal acts on.
CONTROL = re.compile(r"[\x00-\x09\x0b-\x1f\x7f-\x9f]")
# The processes that write a database.
WRITERS = 3


def left(maker: Maker) -> List[str]:
    return sorted(path.name for path in maker.folder.iterdir())


def changed(maker: Maker, special: Path, name: str, change: Tuple[str, str]) -> Path:
    path = maker.folder / name
    path.write_text(special.read_text().replace(*change))
    return path


def refused(
    counts: Counts,
    maker: Maker,
    name: str,
    status: int,
    reported: str,
    *words: Word,
    stdin: Optional[str] = None,
    preexec_fn: Optional[Callable[[], None]] = None,
) -> None:
    """Whether a run ends with the status, reports this, and leaves the folder as it was."""
    before = {path: path.read_bytes() for path in maker.folder.iterdir() if path.is_file()}
    done = maker.run(*map(str, words), stdin=stdin, preexec_fn=preexec_fn)
    counts.same(f"{name}, status", status, done.returncode)
    counts.test(f"{name}, reported", reported in done.stderr, done.stderr)
    after = {path: path.read_bytes() for path in maker.folder.iterdir() if path.is_file()}
    counts.same(f"{name}, the folder", sorted(before), sorted(after))
    counts.test(f"{name}, the files stay", before == after)


def check_names(counts: Counts, maker: Maker, special: Path) -> None:
    done = maker.run(special)
    counts.same(
        "the name by default", (0, True), (done.returncode, special.with_suffix(".db").exists())
    )
    special.with_suffix(".db").unlink()
    piped = maker.run_bytes(special.read_bytes(), "-o", "piped.db", "-")
    counts.same(
        "an extract from standard input",
        (0, b"", b""),
        (piped.returncode, piped.stdout, piped.stderr),
    )
    [row] = sqlite_rows(maker.folder / "piped.db", "SELECT file_name, sha256 FROM extract")
    counts.same("its name and digest", ("-", hashlib.sha256(special.read_bytes()).hexdigest()), row)
    refused(counts, maker, "standard input without -o", 2, "-o", "-", stdin="")
    copy = maker.folder / "copy.db"
    copy.write_bytes(special.read_bytes())
    refused(counts, maker, "the extract in its place", 2, "place of an input", copy)
    with open(copy, "rb") as stdin:
        done = subprocess.run(
            [PROGRAMS / "cif-sql", "--cif", maker.cif, "-o", copy, "-"],
            cwd=maker.folder,
            stdin=stdin,
            capture_output=True,
            text=True,
            check=False,
        )
    told = f"cif-sql: {copy} would take the place of an input: rename one of them\n"
    counts.same(
        "standard input in the place of the database", (2, told), (done.returncode, done.stderr)
    )
    copy.unlink()
    part = ("--from", "260107", "--to", "260108", "-o", "piped.db")
    counts.same("a part of the window, status", 0, maker.run(*part, special).returncode)
    rows = sqlite_rows(maker.folder / "piped.db", "SELECT date FROM days ORDER BY date")
    counts.same("a part of the window", [("2026-01-07",), ("2026-01-08",)], rows)
    (maker.folder / "piped.db").unlink()


def check_streams(counts: Counts, maker: Maker, special: Path) -> None:
    """What is read and written where standard streams are closed, or files, or full."""
    copy = maker.folder / "-"
    copy.write_bytes(special.read_bytes())
    call: List[Word] = [PROGRAMS / "cif-sql", "--cif", maker.cif]
    read: Dict[str, List[Word]] = {
        "a file called -": ["-o", "made.db", "./-"],
        "standard input from a file": ["-o", "made.db", "/dev/stdin"],
    }
    for name, words in read.items():
        with open(special, "rb") as stdin:
            done = subprocess.run(
                [*call, *words], cwd=maker.folder, stdin=stdin, capture_output=True, check=False
            )
        counts.same(name, (0, b""), (done.returncode, done.stderr))
        found = sqlite_rows(maker.folder / "made.db", TRAINS)
        counts.same(f"{name}, trains", [("DFTEST1", "20")], found)
        (maker.folder / "made.db").unlink()
    with open(special, "rb") as stdin:
        unnamed = subprocess.run(
            [*call, "/dev/stdin"], cwd=maker.folder, stdin=stdin, capture_output=True, check=False
        )
    counts.same("standard input from a file, without -o", 2, unnamed.returncode)
    copy.unlink()
    closed: Dict[str, Tuple[int, Tuple[int, ...], List[Word]]] = {
        "standard input is closed": (0, (0,), ["-o", "made.db", special]),
        "standard output is closed": (0, (1,), ["-o", "made.db", special]),
        "standard error is closed": (0, (2,), ["-o", "made.db", special]),
        "all is closed": (0, (0, 1, 2), ["-o", "made.db", special]),
        "standard input is closed, and read": (4, (0,), ["-o", "made.db", "-"]),
        "standard output is closed, and written": (4, (1,), ["--postgres", special]),
        "standard error is closed, and written": (4, (2,), ["-o", "made.db", "missing.cif"]),
    }
    for name, (status, numbers, words) in closed.items():

        def close(numbers: Tuple[int, ...] = numbers) -> None:
            for number in numbers:
                os.close(number)

        silent = subprocess.DEVNULL
        done = subprocess.run(
            [*call, *words], cwd=maker.folder, stderr=silent, preexec_fn=close, check=False
        )
        counts.same(name, status, done.returncode)
        made = maker.folder / "made.db"
        counts.same(f"{name}, the database", "made.db" in words and not status, made.exists())
        made.unlink(missing_ok=True)


def check_output(counts: Counts, maker: Maker, special: Path) -> None:
    """Output that can't be written, also where Python is asked to buffer nothing."""
    call: List[Word] = [PROGRAMS / "cif-sql", "--cif", maker.cif]
    whole = len(maker.run("--postgres", special).stdout)

    def little_space() -> None:
        resource.setrlimit(resource.RLIMIT_FSIZE, (whole - 1, whole - 1))

    for unbuffered in "", "1":
        environment = {**os.environ, "PYTHONUNBUFFERED": unbuffered}
        asked: List[List[Word]] = [["--postgres", special], ["--help"], ["--version"]]
        for words in asked:
            with open("/dev/full", "wb") as full:
                done = subprocess.run(
                    [*call, *words],
                    stdout=full,
                    stderr=subprocess.PIPE,
                    env=environment,
                    check=False,
                )
            want = (4, b"cif-sql: No space left on device\n")
            counts.same(
                f"a full device, {words[0]}{unbuffered}", want, (done.returncode, done.stderr)
            )
        cut = maker.folder / "cut.sql"
        with open(cut, "wb") as file:
            done = subprocess.run(
                [*call, "--postgres", special],
                stdout=file,
                stderr=subprocess.PIPE,
                env=environment,
                preexec_fn=little_space,
                check=False,
            )
        want = (4, b"cif-sql: File too large\n")
        counts.same(
            f"space for all but a byte of a script{unbuffered}",
            want,
            (done.returncode, done.stderr),
        )
        cut.unlink()
        with open("/dev/full", "wb") as full:
            done = subprocess.run([*call, "missing.cif"], stderr=full, env=environment, check=False)
        counts.same(f"standard error is full{unbuffered}", 4, done.returncode)


def check_user_files(counts: Counts, maker: Maker, special: Path) -> None:
    places, operators = maker.folder / "places.csv", maker.folder / "operators.csv"
    places.write_text("tiploc,name,latitude,longitude\nBETAE,Beta's End,51.5,-0.25\n")
    operators.write_text("operator_code,name,url\nSR,Our Trains,\n")
    path = maker.database("--places", places, "--operators", operators, special)
    query = "SELECT crs, name, latitude, longitude FROM stations ORDER BY crs"
    want = [("ALP", "Alpha Junction", None, None), ("BET", "Beta's End", "51.5", "-0.25")]
    counts.same("names and coordinates", want, sqlite_rows(path, query))
    query = "SELECT DISTINCT operator_name FROM schedules WHERE operator = 'SR'"
    counts.same("the name of an operator", [("Our Trains",)], sqlite_rows(path, query))
    places.write_text("tiploc,name,latitude,longitude\nBETAE,,91,0\n")
    refused(
        counts, maker, "a bad file of places", 3, "line 2: latitude", "--places", places, special
    )
    for used in places, operators, path:
        used.unlink()


def check_replacement(counts: Counts, maker: Maker, special: Path) -> None:
    """Which databases are replaced."""
    maker.run("-o", "kept.db", special)
    kept = ("-o", "kept.db")
    counts.same("the same extract again", 0, maker.run(*kept, special).returncode)
    later_window = changed(maker, special, "later-window.cif", LATER_WINDOW)
    counts.same("a later window", 0, maker.run(*kept, later_window).returncode)
    refused(counts, maker, "an earlier window", 3, "later extract", *kept, special)
    earlier = changed(maker, special, "earlier.cif", EARLIER)
    refused(counts, maker, "an older extract", 3, "later extract", *kept, earlier)
    no_moment = changed(maker, special, "no-moment.cif", NO_MOMENT)
    refused(counts, maker, "an extract without a moment", 3, "later extract", *kept, no_moment)
    counts.same("an older extract by force", 0, maker.run("--force", *kept, earlier).returncode)
    rows = sqlite_rows(maker.folder / "kept.db", "SELECT extracted_at FROM extract")
    counts.same("its moment", [("2026-01-04T20:30",)], rows)
    with closing(sqlite3.connect(maker.folder / "other.db")) as connection:
        connection.execute("CREATE TABLE extract (first_date text)")
    (maker.folder / "other.txt").write_text("other")
    (maker.folder / "empty").write_text("")
    for other in "other.db", "other.txt", "empty":
        words = ("--force", "-o", other)
        refused(
            counts, maker, f"the file {other} in its place", 3, "isn't a database", *words, special
        )
    refused(counts, maker, "a folder in its place", 2, "folder", "-o", ".", special)
    check_journals(counts, maker, special)
    check_locked(counts, maker, special)
    check_damaged(counts, maker, special)


# Deletes rows of a database, and dies before they are gone from the file itself.
DIES = """
import os, sqlite3, sys
connection = sqlite3.connect(sys.argv[1], isolation_level=None)
connection.execute("PRAGMA journal_mode = WAL")
connection.execute("DELETE FROM public_calls")
os._exit(0)
"""


# Locks a database until its standard input ends.
LOCKS = """
import sqlite3, sys
connection = sqlite3.connect(sys.argv[1], isolation_level=None)
connection.execute("BEGIN EXCLUSIVE")
print(flush=True)
sys.stdin.read()
"""


def check_journals(counts: Counts, maker: Maker, special: Path) -> None:
    """What a program hasn't written yet into a database doesn't get into another one in its place."""
    for suffix in "-wal", "-journal":
        for name in "kept.db", "gone.db":
            beside = maker.folder / f"{name}{suffix}"
            beside.write_text("written by somebody")
            told = f"{beside.name} is there, of a program that writes, or that has ended early: remove it"
            refused(counts, maker, beside.name, 4, told, "--force", "-o", name, special)
            beside.unlink()
    place = maker.folder / "dead.db"
    maker.run("-o", place.name, special)
    subprocess.run([sys.executable, "-c", DIES, place], check=True)
    place.unlink()
    refused(counts, maker, "the log of a dead writer", 4, "dead.db-wal", "-o", "dead.db", special)
    for beside in maker.folder.glob("dead.db-*"):
        beside.unlink()


def check_locked(counts: Counts, maker: Maker, special: Path) -> None:
    """A database that is locked isn't damaged, and not replaced by force."""
    words: List[Word] = [sys.executable, "-c", LOCKS, maker.folder / "kept.db"]
    with subprocess.Popen(words, stdin=subprocess.PIPE, stdout=subprocess.PIPE) as process:
        assert process.stdin is not None and process.stdout is not None
        process.stdout.readline()
        for force in (), ("--force",):
            told = "kept.db is locked by another program"
            refused(counts, maker, f"a lock {force}", 4, told, *force, "-o", "kept.db", special)
        process.stdin.close()


def check_damaged(counts: Counts, maker: Maker, special: Path) -> None:
    """A table of the extract that isn't as it was made. A view without an end isn't read."""

    def little_memory_and_time() -> None:
        resource.setrlimit(resource.RLIMIT_AS, (1 << 30, 1 << 30))
        resource.setrlimit(resource.RLIMIT_CPU, (20, 20))

    endless = "WITH RECURSIVE numbers (x) AS (SELECT 1 UNION ALL SELECT x + 1 FROM numbers)"
    endless += " SELECT '' AS extracted_at, '' AS first_date, '' AS last_date FROM numbers"
    for name, script in (
        ("bytes for the moment", "UPDATE extract SET extracted_at = x'00'"),
        ("a number for a date", "UPDATE extract SET last_date = 20260111.0"),
        ("two rows", "INSERT INTO extract SELECT * FROM extract"),
        ("an endless view", f"DROP TABLE extract; CREATE VIEW extract AS {endless}"),
        ("a view of no row", f"DROP TABLE extract; CREATE VIEW extract AS {endless} WHERE x < 0"),
    ):
        maker.run("--force", "-o", "damaged.db", special)
        with closing(sqlite3.connect(maker.folder / "damaged.db")) as connection:
            connection.executescript(script)
        words = ("-o", "damaged.db", special)
        told = "damaged.db is damaged; --force replaces it"
        refused(counts, maker, name, 3, told, *words, preexec_fn=little_memory_and_time)
    (maker.folder / "damaged.db").unlink()


def check_endless(counts: Counts, maker: Maker) -> None:
    """Standard input without an end is refused at its first line, and not copied."""

    def little_space() -> None:
        resource.setrlimit(resource.RLIMIT_FSIZE, (1 << 24, 1 << 24))

    for shell in "exec cat /dev/zero", "exec yes":
        with subprocess.Popen(["sh", "-c", shell], stdout=subprocess.PIPE) as source:
            done = subprocess.run(
                [PROGRAMS / "cif-sql", "--cif", maker.cif, "-o", "made.db", "-"],
                cwd=maker.folder,
                stdin=source.stdout,
                stderr=subprocess.PIPE,
                text=True,
                preexec_fn=little_space,
                check=False,
            )
            source.kill()
        counts.same(f"{shell}, status", 3, done.returncode)
        counts.test(f"{shell}, reported", "line 1: BadLength" in done.stderr, done.stderr)


def check_escapes(counts: Counts, maker: Maker, special: Path) -> None:
    """What a terminal would act on isn't printed as it is."""
    odd = "\x1b[2J\x9b1m\x07"
    asked: List[List[Word]] = [[odd], ["-o", "made.db", "--places", odd, special], [special, odd]]
    for words in asked:
        done = maker.run(*words)
        counts.test(f"{len(words)} words, reported", "?[2J?1m?" in done.stderr, done.stderr)
        counts.test(f"{len(words)} words, escapes", not CONTROL.search(done.stderr), done.stderr)
    done = maker.run("--postgres", "--schema", odd, special)
    counts.test("a schema, escapes", not CONTROL.search(done.stderr), done.stderr)


def with_midnights(count: int) -> str:
    """An extract of a train with calls after so many midnights."""
    lines = ["HDTPS.UTEST01.PD2601040401262130DFTEST1       FA050126050126"]
    lines.append(
        "BSNM000012601052601051000000 POO2M01    122104000 EMU    090      B".ljust(79) + "P"
    )
    lines.append("LOALPHA   0900 09001         TB")
    for _ in range(count - 1):
        lines.append("LIBETA    0100 0100      01000100         T")
        lines.append("LIBETA    2300 2300      23002300         T")
    lines.append("LTGAMMA   0700 0700      TF")
    return "".join(line.ljust(80) + "\n" for line in [*lines, "ZZ"])


def check_midnights(counts: Counts, maker: Maker) -> None:
    """A train with more midnights than a database has."""
    path = maker.folder / "midnights.cif"
    path.write_text(with_midnights(31))
    counts.same("31 midnights", 0, maker.run("-o", "made.db", path).returncode)
    rows = sqlite_rows(maker.folder / "made.db", "SELECT count(*), max(date) FROM clock_days")
    counts.same("31 midnights, the dates", [("32", "2026-02-05")], rows)
    (maker.folder / "made.db").unlink()
    path.write_text(with_midnights(32))
    told = "M00001 has calls after 32 midnights: a database has at most 31 in a train"
    refused(counts, maker, "32 midnights", 3, told, "-o", "made.db", path)
    path.unlink()


# Fills a database in the background to which nothing can be sent, while the process that fills it lives.
SENDS = """
import errno, sys
from contextlib import contextmanager
sys.path.insert(0, sys.argv[1])
from cif_timetable.errors import Failed
from cif_timetable.sql.background import in_background
from cif_timetable.sql.schema import Database

class Broken:
    def __init__(self, process):
        self.process = process
    def __getattr__(self, name):
        return getattr(self.process, name)
    def send(self, message):
        raise OSError(errno.EIO, "Input/output error")

@contextmanager
def opened():
    yield Database()

try:
    with in_background([opened]) as [database]:
        database.process = Broken(database.process)
        database.fill("days", ("date",), b"2026-01-05")
except Failed as problem:
    print(*problem.lines)
"""


def check_sending(counts: Counts) -> None:
    """If nothing can be sent to a process that lives, the run fails, and doesn't wait for it."""
    try:
        done = subprocess.run(
            [sys.executable, "-B", "-c", SENDS, PACKAGES],
            capture_output=True,
            text=True,
            check=False,
            timeout=20,
        )
        printed = done.stdout + done.stderr
    except subprocess.TimeoutExpired:
        printed = "it waits"
    counts.test("nothing can be sent", "Input/output error" in printed, printed)


def failing_cif(maker: Maker, table: str, then: str) -> Maker:
    program = maker.folder / "failing-cif"
    program.write_text(FAILING.format(cif=maker.cif, table=table, then=then))
    program.chmod(0o755)
    return Maker(program, maker.folder)


def check_failures(counts: Counts, maker: Maker, special: Path) -> None:
    """A run that fails leaves the old database, and nothing beside it."""
    kept = ("-o", "kept.db")
    bad = maker.folder / "bad.cif"
    bad.write_text("".join(special.read_text().splitlines(keepends=True)[:-1]))
    refused(counts, maker, "a refused extract", 3, "Truncated", *kept, bad)
    refused(counts, maker, "a missing extract", 4, "No such file", *kept, "missing.cif")
    refused(counts, maker, "a bad date", 2, "bad date", *kept, "--from", "26010", special)
    for table in "header", "calls", "public":
        failing = failing_cif(maker, table, "echo 'cif: Memory' >&2; exit 4")
        refused(counts, failing, f"cif fails at {table}", 4, "cif: Memory", *kept, special)
    (maker.folder / "failing-cif").unlink()

    size = (maker.folder / "kept.db").stat().st_size
    for most in 4096, size // 2, size - 1:

        def little_space(most: int = most) -> None:
            resource.setrlimit(resource.RLIMIT_FSIZE, (most, most))

        name = f"space for {most} bytes of {size}"
        refused(counts, maker, name, 4, "kept.db: ", *kept, special, preexec_fn=little_space)


def check_signals(counts: Counts, maker: Maker, special: Path) -> None:
    """Interrupted, it leaves nothing; killed, it leaves the old database."""
    old = (maker.folder / "kept.db").read_bytes()
    # it ends by itself: a signal that comes just before a read is seen behind it
    failing = failing_cif(maker, "calls", "touch reached; exec sleep 20")
    before, reached = left(maker), maker.folder / "reached"
    words: List[Word] = [
        # what runs in the background may have interrupts ignored
        "env",
        "--default-signal",
        PROGRAMS / "cif-sql",
        "--cif",
        failing.cif,
        "--force",
        "-o",
        "kept.db",
        special,
    ]
    term, hup, kill = signal.SIGTERM, signal.SIGHUP, signal.SIGKILL
    # two at once are those of somebody impatient, or of a terminal that closes
    for numbers in (term,), (signal.SIGINT,), (hup,), (term, hup), (hup, signal.SIGINT), (kill,):
        number = numbers[-1]
        process = subprocess.Popen(
            words, cwd=maker.folder, stderr=subprocess.PIPE, start_new_session=True
        )
        for _ in range(600):
            if reached.exists():
                break
            time.sleep(0.05)
        reached.unlink()
        printed = interrupted(process, *numbers)
        name = " and ".join(signal.Signals(each).name for each in numbers)
        status = -number if number == signal.SIGKILL else 4
        if number != signal.SIGKILL:
            counts.test(f"stopped by {name}, reported", len(printed.splitlines()) == 1, printed)
        counts.same(f"stopped by {name}", status, process.returncode)
        counts.test(
            f"stopped by {name}, the database", (maker.folder / "kept.db").read_bytes() == old
        )
        if number != signal.SIGKILL:
            counts.same(f"stopped by {name}, what is left", before, left(maker))
    for path in maker.folder.glob(".kept.db.*"):
        shutil.rmtree(path)
    (maker.folder / "failing-cif").unlink()


def writers_of(process: subprocess.Popen[str]) -> List[int]:
    """The processes that write the database of a run."""
    children = Path(f"/proc/{process.pid}/task/{process.pid}/children").read_text("ascii").split()
    return [
        int(child)
        for child in children
        if b"\0cif-sql\0" in Path(f"/proc/{child}/cmdline").read_bytes()
    ]


def check_writers(counts: Counts, maker: Maker, special: Path) -> None:
    """If a process that writes the database is killed, the run fails, and nothing is left. An
    interrupt doesn't wait for one that is busy."""
    failing = failing_cif(maker, "calls", "touch reached; sleep 1; exit 0")
    before = {path.name: path.read_bytes() for path in maker.folder.iterdir()}
    words: List[Word] = [
        PROGRAMS / "cif-sql",
        "--cif",
        failing.cif,
        "--force",
        "-o",
        "kept.db",
        special,
    ]
    killed = "the process that writes the database ended early"
    stopped = "interrupted by SIGTERM"
    for number, signals, told in (
        (signal.SIGKILL, (), killed),
        (signal.SIGSTOP, (signal.SIGTERM,), stopped),
    ):
        for writer in range(WRITERS):
            with subprocess.Popen(
                words, cwd=maker.folder, stderr=subprocess.PIPE, text=True
            ) as process:
                while not (maker.folder / "reached").exists():
                    time.sleep(0.05)
                writers = writers_of(process)
                counts.same("processes that write", WRITERS, len(writers))
                os.kill(writers[writer], number)
                printed = interrupted(process, *signals)
                if process.returncode == -signal.SIGKILL:
                    os.kill(writers[writer], signal.SIGCONT)
            (maker.folder / "reached").unlink()
            name = f"writer {writer} gets {signal.Signals(number).name}"
            counts.same(name, (4, f"cif-sql: {told}\n"), (process.returncode, printed))
            after = {path.name: path.read_bytes() for path in maker.folder.iterdir()}
            counts.test(f"{name}, what is left", before == after, sorted(after))
    (maker.folder / "failing-cif").unlink()


def check_kills(counts: Counts, maker: Maker, special: Path) -> None:
    """Killed at any moment, with the processes that write, it leaves the old database or the new one, whole."""
    first = changed(maker, special, "first.cif", ("DFTEST1", "DFTESTA"))
    extracts = {"DFTESTA": first, "DFTEST1": special}
    words: List[Word] = [PROGRAMS / "cif-sql", "--cif", maker.cif, "--force", "-o", "kept.db"]
    start = time.monotonic()
    maker.run(*words[3:], special)
    whole = time.monotonic() - start
    there: Optional[str] = "DFTEST1"
    seen = set()
    for number in range(KILLS):
        other = next(name for name in extracts if name != there)
        with subprocess.Popen(
            [*words, extracts[other]],
            cwd=maker.folder,
            stderr=subprocess.DEVNULL,
            start_new_session=True,
        ) as process:
            time.sleep(whole * (number + 1) / KILLS)
            os.killpg(process.pid, signal.SIGKILL)
        [(reference, trains)] = sqlite_rows(maker.folder / "kept.db", TRAINS)
        [(state,)] = sqlite_rows(maker.folder / "kept.db", "PRAGMA integrity_check")
        counts.same(f"kill {number}, trains", ("20", "ok"), (trains, state))
        counts.test(f"kill {number}, the extract", reference in extracts, reference)
        seen.add(reference == there)
        there = reference
    # the first kill comes long before the end
    counts.test("kills come before the end", True in seen, seen)
    maker.run(*words[3:], special)
    over = [path.name for path in maker.folder.glob(".kept.db.*")]
    counts.same("what killed runs have left, after the next one", [], over)


def check_readers(counts: Counts, maker: Maker, special: Path) -> None:
    """A reader that polls while a database is replaced sees the old one or the new one, and never an error."""
    first = changed(maker, special, "first.cif", ("DFTEST1", "DFTESTA"))
    second = changed(maker, special, "second.cif", ("DFTEST1", "DFTESTB"))
    path, done = maker.folder / "kept.db", threading.Event()
    seen: Set[Union[SqlRow, str]] = set()
    maker.run("--force", "-o", "kept.db", first)

    def poll() -> None:
        while not done.is_set():
            try:
                seen.update(sqlite_rows(path, TRAINS))
            except sqlite3.Error as problem:
                seen.add(str(problem))

    reader = threading.Thread(target=poll)
    reader.start()
    for extract in second, first, second:
        maker.run("--force", "-o", "kept.db", extract)
    time.sleep(0.2)
    done.set()
    reader.join()
    # E00001 runs on seven dates, F00001 on four, M00001 on five, and four trains on one
    want = {("DFTESTA", "20"), ("DFTESTB", "20")}
    counts.same("what a reader sees", want, seen)


def check(counts: Counts, maker: Maker, special: Path) -> None:
    folder = maker.folder / "failures"
    folder.mkdir()
    maker = Maker(maker.cif, folder)
    special = special.rename(folder / special.name)
    check_names(counts, maker, special)
    check_streams(counts, maker, special)
    check_output(counts, maker, special)
    check_user_files(counts, maker, special)
    check_endless(counts, maker)
    check_escapes(counts, maker, special)
    check_midnights(counts, maker)
    check_sending(counts)
    check_replacement(counts, maker, special)
    check_failures(counts, maker, special)
    check_signals(counts, maker, special)
    check_writers(counts, maker, special)
    check_kills(counts, maker, special)
    check_readers(counts, maker, special)
