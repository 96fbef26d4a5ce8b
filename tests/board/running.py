"""The program: what it prints, what it refuses, and a database that is replaced while pages are read."""
from __future__ import annotations

import http.client
import os
import re
import shutil
import signal
import socket
import sqlite3
import subprocess
import threading
from collections.abc import Iterator
from contextlib import closing, contextmanager
from pathlib import Path
from typing import Dict, List, Tuple

from cif_timetable.board.queries import open_timetable
from cif_timetable.errors import CifError
from gtfs.checks import PROGRAMS, TOP, Counts

from .pages import EXAMPLES, Made

CHANGED = TOP / "examples" / "changed.cif"
PROGRAM = PROGRAMS / "cif-board"
# The program's Python is Debian's, which has Flask.
ENVIRONMENT = {**os.environ, "PATH": "/usr/bin:/bin"}
BOARD = "/station/GTW/2026-06-06.json"


@contextmanager
def served(*words: object) -> Iterator[Tuple[subprocess.Popen[str], int]]:
    """A server on a free port, and this port."""
    call = [str(word) for word in (PROGRAM, "--port", "0", *words)]
    # a shell may have it ignore interrupts, and no thread runs then
    with subprocess.Popen(  # pylint: disable=subprocess-popen-preexec-fn
        call,
        stdout=subprocess.PIPE,
        stderr=subprocess.PIPE,
        text=True,
        env=ENVIRONMENT,
        preexec_fn=lambda: signal.signal(signal.SIGINT, signal.SIG_DFL),
    ) as process:
        assert process.stdout is not None
        found = re.fullmatch(r"http://127\.0\.0\.1:(\d+)/\n", process.stdout.readline())
        try:
            assert found, process.stderr and process.stderr.read()
            yield process, int(found[1])
        finally:
            process.terminate()
            process.wait(timeout=60)


def asked(port: int, address: str, host: str = "localhost", raw: bool = False) -> Tuple[int, bytes]:
    connection = http.client.HTTPConnection("127.0.0.1", port, timeout=60)
    with closing(connection):
        if raw:
            connection.putrequest("GET", address, skip_host=True)
            connection.endheaders()
        else:
            connection.request("GET", address, headers={"Host": host})
        answer = connection.getresponse()
        return answer.status, answer.read()


def ended(*words: object, environment: Dict[str, str] = ENVIRONMENT) -> Tuple[int, str, str]:
    """How a call ends that can't serve: its status, and what it prints."""
    done = subprocess.run(
        [str(word) for word in (PROGRAM, *words)],
        capture_output=True,
        text=True,
        env=environment,
        timeout=60,
        check=False,
    )
    return done.returncode, done.stdout, done.stderr


def check_served(counts: Counts, made: Made) -> None:
    database = made.examples.path
    with served(database) as (process, port):
        status, body = asked(port, "/station/HHE/2026-06-05.json")
        wanted = made.examples.client.get("/station/HHE/2026-06-05.json").data
        counts.same("a page that is served", (200, wanted), (status, body))
        counts.same("another host", 400, asked(port, "/", "evil.example")[0])
        counts.same("no host", 400, asked(port, "/", raw=True)[0])
        counts.same(
            "the port is taken",
            (4, "", f"cif-board: port {port} is taken: --port names another\n"),
            ended("--port", port, database),
        )
        with closing(socket.socket()) as other:
            other.settimeout(5)
            address = next((each for each in own_addresses() if each != "127.0.0.1"), None)
            if address:
                counts.test("another machine is refused", other.connect_ex((address, port)) != 0)
        process.send_signal(signal.SIGINT)
        ends = process.communicate(timeout=60)
        counts.same("an interrupt ends it", (0, "", ""), (process.returncode, *ends))
    with served("--host", "board.example", database) as (process, port):
        counts.same("a further host", 200, asked(port, "/", f"board.example:{port}")[0])
        process.terminate()
        counts.same("SIGTERM ends it", 0, process.wait(timeout=60))


def own_addresses() -> List[str]:
    return socket.gethostbyname_ex(socket.gethostname())[2]


def check_replaced(counts: Counts, made: Made) -> None:
    """Whoever reads while the database is replaced sees the one or the other, whole, and then the new one."""
    old, new = (made.database(each, f"{each.stem}-kept.db") for each in (EXAMPLES, CHANGED))
    place = made.folder / "place.db"
    shutil.copy(old, place)
    with served(place) as (_, port):
        wanted = [asked(port, BOARD)]
        beside = made.folder / "beside.db"
        shutil.copy(new, beside)
        os.replace(beside, place)
        wanted.append(asked(port, BOARD))
        counts.test("the database is replaced", wanted[0] != wanted[1] and wanted[1][0] == 200)
        found: List[Tuple[int, bytes]] = []
        stop = threading.Event()

        def read() -> None:
            while not stop.is_set():
                found.append(asked(port, BOARD))

        readers = [threading.Thread(target=read) for _ in range(4)]
        for reader in readers:
            reader.start()
        for number in range(60):
            shutil.copy((old, new)[number % 2], beside)
            os.replace(beside, place)
        stop.set()
        for reader in readers:
            reader.join()
        counts.test("readers while it is replaced", set(found) <= set(wanted), len(set(found)))
        counts.test("readers see both", set(found) == set(wanted), len(found))
        counts.same("after it", wanted[1], asked(port, BOARD))
        place.unlink()
        status, body = asked(port, "/station/GTW/2026-06-06")
        counts.test("a database that is gone", status == 503 and b"Try again" in body, body)
        shutil.copy(old, place)
        counts.same("a database that is there again", wanted[0], asked(port, BOARD))


def check_refused(counts: Counts, made: Made) -> None:
    missing, text, other, older = (
        made.folder / each for each in ("missing.db", "text.db", "other.db", "older.db")
    )
    text.write_text("no database")
    with closing(sqlite3.connect(other)) as connection:
        connection.execute("CREATE TABLE departures (station_crs text)")
        connection.commit()
    shutil.copy(made.examples.path, older)
    with closing(sqlite3.connect(older)) as connection:
        connection.execute("DROP VIEW rides")
        connection.commit()
    for path, status, words in (
        (missing, 4, f"{missing}: there is no such file"),
        (made.folder, 4, "there is no such file"),
        (text, 3, "isn't a database"),
        (other, 3, f"{other} isn't a database of cif-sql"),
        (older, 3, f"{older} is of another release of cif-sql: make it again with this one"),
    ):
        got, output, error = ended("--port", "0", path)
        counts.same(f"{path.name}, the status", (status, ""), (got, output))
        told = error.startswith("cif-board: ") and words in error and error.count("\n") == 1
        counts.test(f"{path.name} says: {words}", told, error)
        counts.test(f"{path.name} isn't made", path != missing or not path.exists())
    mistakes: List[List[object]] = [
        [],
        ["--port", "65536", text],
        ["--port", "x", text],
        ["--host", "a:1", text],
    ]
    for words_of in mistakes:
        counts.same(f"usage {words_of}", 2, ended(*words_of)[0])
    folder = made.folder / "without"
    for module in "flask", "waitress":
        folder.mkdir(exist_ok=True)
        (folder / f"{module}.py").write_text("raise ModuleNotFoundError(name=__name__)\n")
        status, output, error = ended(
            "--port",
            "0",
            made.examples.path,
            environment={**ENVIRONMENT, "PYTHONPATH": str(folder)},
        )
        told = error.startswith(
            "cif-board: Flask and waitress are missing: `apt install python3-flask"
        )
        counts.test(
            f"without {module}",
            (status, output) == (4, "") and told and error.count("\n") == 1,
            error,
        )
        counts.same(
            f"--help without {module}",
            0,
            ended("--help", environment={**ENVIRONMENT, "PYTHONPATH": str(folder)})[0],
        )
        shutil.rmtree(folder)


def check_read_only(counts: Counts, made: Made) -> None:
    """Pages leave the database and its folder as they were, also where nothing can be written."""
    folder = made.folder / "only-read"
    folder.mkdir()
    path = folder / "timetable.db"
    shutil.copy(made.examples.path, path)
    before = path.read_bytes()
    try:
        with open_timetable(path) as timetable:
            timetable.connection.execute("CREATE TABLE written (column_1 text)")
        told = "written"
    except CifError as problem:
        told = str(problem)
    counts.test("a connection can't write", "readonly" in told, told)
    with served(path) as (_, port):
        for address in "/", BOARD, "/operators", "/train/W20347/2026-06-05":
            counts.same(f"read only, {address}", 200, asked(port, address)[0])
    counts.same(
        "the folder is as it was", ["timetable.db"], [each.name for each in Path(folder).iterdir()]
    )
    counts.test("the database is as it was", before == path.read_bytes())


def check(counts: Counts, made: Made) -> None:
    check_served(counts, made)
    check_replaced(counts, made)
    check_refused(counts, made)
    check_read_only(counts, made)
