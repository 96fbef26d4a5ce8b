"""What is refused, and that nothing is left or lost then."""
from __future__ import annotations

import resource
import signal
import subprocess
import time
from pathlib import Path
from typing import Callable, Dict, List, Optional

from gtfs.checks import PROGRAMS, Counts, Word, interrupted
from gtfs.failures import FAILING

from .by_hand import extract, june
from .checks import Maker

STOPS = signal.SIGTERM, signal.SIGINT, signal.SIGHUP


def files_in(folder: Path) -> Dict[str, bytes]:
    return {path.name: path.read_bytes() for path in folder.iterdir() if path.is_file()}


def refused(
    counts: Counts,
    maker: Maker,
    name: str,
    status: int,
    reported: str,
    *words: Word,
    stdin: Optional[str] = None,
    preexec_fn: Optional[Callable[[], None]] = None,
) -> None:
    """Whether a run ends with the status, reports this, and leaves the folder as it was."""
    before = files_in(maker.folder)
    done = maker.run(*map(str, words), stdin=stdin, preexec_fn=preexec_fn)
    counts.same(f"{name}, status", status, done.returncode)
    counts.test(f"{name}, reported", reported in done.stderr, done.stderr)
    counts.test(
        f"{name}, no fault of its own", "this is a fault of" not in done.stderr, done.stderr
    )
    after = files_in(maker.folder)
    counts.same(f"{name}, the folder", sorted(before), sorted(after))
    counts.test(f"{name}, the files stay", before == after)


def check_outputs(counts: Counts, maker: Maker, old: Path, new: Path) -> None:
    """Where the page and the CSV file go."""
    done = maker.run(old, new)
    made = sorted(path.name for path in maker.folder.glob("REPORT.*"))
    counts.same("the names by default", (0, ["REPORT.csv", "REPORT.html"]), (done.returncode, made))
    counts.same("nothing is printed", ("", ""), (done.stdout, done.stderr))
    first = files_in(maker.folder)
    maker.run(old, new)
    counts.test("the same again has the same bytes", first == files_in(maker.folder))
    piped = maker.run_bytes(old.read_bytes(), "-o", "other.htm", "-", new)
    same = (maker.folder / "other.csv").read_bytes() == (maker.folder / "REPORT.csv").read_bytes()
    counts.same(
        "an extract from standard input", (0, b"", True), (piped.returncode, piped.stderr, same)
    )
    shell = f"cat {old} | {PROGRAMS / 'cif-report'} --cif {maker.cif} -o other.htm - <(cat {new})"
    piped = subprocess.run(
        ["bash", "-c", shell], cwd=maker.folder, capture_output=True, check=False
    )
    same = (maker.folder / "other.csv").read_bytes() == (maker.folder / "REPORT.csv").read_bytes()
    counts.same("both extracts from pipes", (0, b"", True), (piped.returncode, piped.stderr, same))
    refused(counts, maker, "both from standard input", 2, "only one", "-", "-", stdin="")
    refused(counts, maker, "a folder as output", 2, "folder", "-o", ".", old, new)
    refused(
        counts, maker, "a CSV file as output", 2, "the place of the page", "-o", "x.csv", old, new
    )
    refused(counts, maker, "an input as output", 2, "place of an input", "-o", old, old, new)
    with open(new, "rb") as stdin:
        done = subprocess.run(
            [PROGRAMS / "cif-report", "--cif", maker.cif, "-o", new, old, "-"],
            cwd=maker.folder,
            stdin=stdin,
            capture_output=True,
            text=True,
            check=False,
        )
    told = f"cif-report: {new} would take the place of an input: rename one of them\n"
    counts.same("standard input as output", (2, told), (done.returncode, done.stderr))
    copy = maker.folder / "made-up.csv"
    copy.write_bytes(new.read_bytes())
    refused(
        counts,
        maker,
        "an input as CSV file",
        2,
        "place of an input",
        "-o",
        "made-up.html",
        old,
        copy,
    )
    copy.unlink()
    other = maker.folder / "mine.csv"
    for text in "", "uid,kind\n":
        other.write_text(text)
        refused(
            counts,
            maker,
            "another CSV file there",
            3,
            "isn't a CSV file of cif-report",
            "-o",
            "mine.html",
            old,
            new,
        )
    other.unlink()


def check_refusals(counts: Counts, maker: Maker, old: Path, new: Path) -> None:
    bad = maker.folder / "bad.cif"
    bad.write_text(old.read_text()[:-81])
    refused(counts, maker, "a refused extract, first", 3, "Truncated", bad, new)
    refused(counts, maker, "a refused extract, second", 3, "Truncated", old, bad)
    clash = extract().replace("ZZ".ljust(80), second_body(extract()) + "\n" + "ZZ".ljust(80))
    bad.write_text(clash)
    refused(counts, maker, "an extract with a clash", 3, "Ambiguous", old, bad)
    bad.write_text(extract(window=(june(29), june(30))))
    refused(counts, maker, "no date in common", 3, "OutsideWindow", old, bad)
    refused(
        counts, maker, "a date outside the window", 3, "OutsideWindow", "--to", "260701", old, new
    )
    refused(
        counts,
        maker,
        "dates the wrong way",
        3,
        "WindowReversed",
        "--from",
        "260620",
        "--to",
        "260610",
        old,
        new,
    )
    refused(counts, maker, "a bad date", 2, "bad date", "--from", "26061", old, new)
    refused(counts, maker, "a missing extract", 4, "No such file", old, "missing.cif")
    refused(counts, maker, "one extract", 2, "usage", old)
    refused(
        counts, maker, "--most without a number", 2, "number of trains", "--most", "-1", old, new
    )
    refused(counts, maker, "an empty title", 2, "the title is empty", "--title", " ", old, new)
    bad.write_text("tiploc,name,latitude,longitude\nBETA,,91,0\n")
    refused(counts, maker, "a bad file of places", 3, "line 2: latitude", "--places", bad, old, new)
    bad.unlink()
    missing = Maker(maker.folder / "no-cif", maker.folder)
    refused(counts, missing, "no program cif", 4, "can't be run", old, new)


def second_body(text: str) -> str:
    """The first train again, with another platform."""
    lines = text.splitlines()
    first = next(number for number, line in enumerate(lines) if line.startswith("BS"))
    last = next(number for number, line in enumerate(lines) if line.startswith("LT"))
    return "\n".join(lines[first : last + 1]).replace("5  ", "6  ")


def failing_cif(maker: Maker, table: str, then: str) -> Maker:
    """A program that is `cif`, but for one table or for `diff`."""
    program = maker.folder / "failing-cif"
    program.write_text(FAILING.format(cif=maker.cif, table=table, then=then))
    program.chmod(0o755)
    return Maker(program, maker.folder)


def check_failures(counts: Counts, maker: Maker, old: Path, new: Path) -> None:
    for table in "header", "tiplocs", "schedules":
        failing = failing_cif(maker, table, "echo 'cif: Memory' >&2; exit 4")
        refused(counts, failing, f"cif fails at {table}", 4, "cif: Memory", old, new)
    changing = failing_cif(maker, "schedules", f"touch -d 2001-01-01 {old}; exit 0")
    refused(
        counts, changing, "an extract that changes", 4, "has changed while it was read", old, new
    )
    (maker.folder / "failing-cif").unlink()

    def little_space() -> None:
        resource.setrlimit(resource.RLIMIT_FSIZE, (8000, 8000))

    refused(counts, maker, "no space", 4, "File too large", old, new, preexec_fn=little_space)


def check_signals(counts: Counts, maker: Maker, old: Path, new: Path) -> None:
    """Interrupted, it leaves nothing but the older files."""
    failing = failing_cif(maker, "schedules", "touch reached; exec sleep 60")
    before, reached = files_in(maker.folder), maker.folder / "reached"
    words: List[Word] = [PROGRAMS / "cif-report", "--cif", failing.cif, old, new]

    def not_ignored() -> None:
        # a background job of a shell is started with some of them ignored
        for each in STOPS:
            signal.signal(each, signal.SIG_DFL)

    for number in STOPS:
        # no thread runs then
        process = subprocess.Popen(  # pylint: disable=subprocess-popen-preexec-fn
            words,
            cwd=maker.folder,
            stderr=subprocess.PIPE,
            start_new_session=True,
            preexec_fn=not_ignored,
        )
        for _ in range(600):
            if reached.exists():
                break
            time.sleep(0.05)
        reached.unlink()
        interrupted(process, number)
        name = signal.Signals(number).name
        counts.same(f"stopped by {name}, status", 4, process.returncode)
        counts.test(f"stopped by {name}, the files", before == files_in(maker.folder))
    (maker.folder / "failing-cif").unlink()


def check(counts: Counts, maker: Maker) -> None:
    old, new = maker.folder / "one.cif", maker.folder / "two.cif"
    old.write_text(extract())
    new.write_text(extract(places={"BETA": ("BET", "BETA TOWN")}))
    check_outputs(counts, maker, old, new)
    check_refusals(counts, maker, old, new)
    check_failures(counts, maker, old, new)
    check_signals(counts, maker, old, new)
