"""What is refused, that a failure leaves nothing, and what stays the same from run to run."""
from __future__ import annotations

import io
import os
import pty
import random
import shutil
import signal
import stat
import subprocess
import sys
import time
import zipfile
from collections import defaultdict
from datetime import date, timedelta
from pathlib import Path
from typing import Callable, DefaultDict, Dict, FrozenSet, List, Optional, Set, Tuple

from cif_timetable.gtfs import trips
from cif_timetable.user_csv import Mistake, mail_address, web_address
from cif_timetable.errors import Refused
from cif_timetable._tables import rows_with

from . import generated
from .by_hand import uids_of
from .checks import PACKAGES, PROGRAMS, TOP, Counts, Maker, Word, interrupted
from .feeds import Feed, Shown, active_services

# A generated extract, and how many of its associations stay.
SEED = 1
SCHEDULES = 600

# A file of each kind, with what is told of it.
BAD_FILES = {
    "places": (
        "tiploc,name,latitude,longitude\n"
        "ALPHA,Alpha,91,0\n"
        "BETA,Beta,51.5,\n"
        ",Gamma,51.5,0.5\n"
        "DELTA,Delta,north,181\n"
        "ALPHA,Again,1,1\n"
        "OMEGA,Omega\n"
        'THETA,"The\nta",51,0\n'
        "IOTA,Io\x7fta,51,0\n"
        "KAPPA,Kappa,.9,-1\n"
        "MU,Mu,-89.5,3\n"
        "NU,Nu,-.5,+60.\n"
        'XI,"Xi\n\n",-.5\n',
        (
            "line 2: latitude `91` isn't a number of degrees from -90 to 90",
            "line 3: longitude is missing",
            "line 4: tiploc is missing",
            "line 5: latitude `north` isn't a number of degrees from -90 to 90",
            "line 5: longitude `181` isn't a number of degrees from -180 to 180",
            "line 6: ALPHA is a duplicate: line 2 has it too",
            "line 7: 2 fields, and the first line has 4",
            "line 8: name `The?ta` has a line break or another control character",
            "line 10: name `Io?ta` has a line break or another control character",
            "line 11: `0.9`, `-1` is near 0, 0, where no railway is",
            "line 12: latitude `-89.5` is at a pole",
            "line 14: 3 fields, and the first line has 4",
        ),
    ),
    "operators": (
        "operator_code,name,url\nSN,,www.southern.example\nSN,Southern,\n"
        "A1,A,https://?query\nA2,A,https://-a.example/\nA3,A,http://host:x/\nA4,A,http://localhost\n",
        (
            "line 2: name is missing",
            "line 2: url `www.southern.example` isn't an address of the web such as https://www.example.com/",
            "line 3: SN is a duplicate: line 2 has it too",
            *(
                f"line {line}: url `{url}` isn't an address of the web such as https://www.example.com/"
                for line, url in enumerate(
                    ("https://?query", "https://-a.example/", "http://host:x/", "http://localhost"),
                    4,
                )
            ),
        ),
    ),
    "interchange": (
        "crs,minutes\nALP,-5\nBETA,5\nGAM,\n",
        (
            "line 2: minutes `-5` isn't a number of minutes from 0 to 999",
            "line 3: crs `BETA` isn't a CRS code of three characters",
            "line 4: minutes is missing",
        ),
    ),
    "links": (
        "from,to,minutes\nALP,ALP,5\nALP,BET,5\nBET,ALP,6\nALP,BET,7\n",
        ("line 2: from and to are the same", "line 5: ALP, BET is a duplicate: line 3 has it too"),
    ),
}
BAD_HEADINGS = {
    "places": ("tiploc,name,latitude\n", ("line 1: the field longitude is missing",)),
    "links": ("from,to,minutes,to\n", ("line 1: the field to is a duplicate",)),
    "operators": (
        "",
        tuple(f"line 1: the field {name} is missing" for name in ("operator_code", "name", "url")),
    ),
    "interchange": (
        'crs,minutes\nALP,5\nBET,"5\n\n',
        ("line 3: this is no CSV: unexpected end of data",),
    ),
}
HEADING = b"tiploc,name,latitude,longitude\n"
# What isn't a file of places at all.
OTHER_FILES = {
    "not UTF-8": (
        HEADING + b"ALPHA,Alph\xe4,,\n",
        "line 2: this is no CSV in UTF-8: invalid continuation byte",
    ),
    "a byte 0": (HEADING + b"ALPHA,,,\nBETA,B\0,,\n", "line 3: this is no text: it has a byte 0"),
    "a long line": (
        HEADING + b"A" * 70000,
        "line 2: the line or the file is too long: this can't be the right file",
    ),
    "many mistakes": (HEADING + b"ALPHA,A,x,\n" * 30, None),
}

EXAMPLES = TOP / "examples"

# Stands for cif: it does what cif does, but fails, waits or ends in the middle of a table.
FAILING = """\
#!/bin/sh
case " $* " in
*" {table} "*)
    "{cif}" "$@" 2> /dev/null | head -c 700
    {then}
    ;;
esac
exec "{cif}" "$@"
"""


def left(maker: Maker) -> List[str]:
    return sorted(path.name for path in maker.folder.iterdir())


def refused(
    counts: Counts,
    maker: Maker,
    name: str,
    status: int,
    told: Optional[List[str]],
    *words: Word,
) -> None:
    """Whether a run ends with the status, tells these lines or any, and leaves the folder as it was."""
    before = left(maker)
    done = maker.run(*map(str, words))
    counts.same(f"{name}, status", status, done.returncode)
    if told is None:
        counts.test(f"{name}, told", done.stderr)
    else:
        counts.same(f"{name}, told", list(told), done.stderr.splitlines())
    counts.same(f"{name}, standard output", "", done.stdout)
    counts.same(f"{name}, what is left", before, left(maker))


def check_user_files(counts: Counts, maker: Maker, special: Path) -> None:
    for files in BAD_FILES, BAD_HEADINGS:
        for kind, (text, told) in files.items():
            (maker.folder / "bad.csv").write_text(text)
            lines = [f"cif-gtfs: bad.csv: {line}" for line in told]
            refused(
                counts, maker, f"a bad file of {kind}", 3, lines, f"--{kind}", "bad.csv", special
            )
            # one that isn't there
            missing = ["cif-gtfs: missing.csv: No such file or directory"]
            refused(
                counts,
                maker,
                f"a missing file of {kind}",
                4,
                missing,
                f"--{kind}",
                "missing.csv",
                special,
            )


def check_other_files(counts: Counts, maker: Maker, special: Path) -> None:
    for name, (data, told) in OTHER_FILES.items():
        (maker.folder / "bad.csv").write_bytes(data)
        lines = None if told is None else [f"cif-gtfs: bad.csv: {told}"]
        refused(counts, maker, f"a file with {name}", 3, lines, "--places", "bad.csv", special)
    done = maker.run("--places", "bad.csv", special)
    lines = done.stderr.splitlines()
    counts.test(
        "many mistakes",
        len(lines) == 21 and lines[-1] == "cif-gtfs: bad.csv: and 39 more",
        lines[-3:],
    )
    endless = [
        "cif-gtfs: /dev/zero: line 1: the line or the file is too long: this can't be the right file"
    ]
    refused(counts, maker, "an endless file", 3, endless, "--places", "/dev/zero", special)


def check_outputs(counts: Counts, maker: Maker, special: Path) -> None:
    """An output is a file, or a link to one, and what was there stays if it isn't."""
    folder = maker.folder
    os.mkfifo(folder / "fifo")
    (folder / "loop").symlink_to("loop")
    (folder / "folder").mkdir()
    # what is run has a pipe for its standard output
    others = ["fifo", "loop", "folder", "folder/", "missing/", "-", "", "/dev/stdout"]
    if os.geteuid() == 0:
        os.mknod(folder / "device", 0o666 | stat.S_IFCHR, os.makedev(1, 3))
        others.append("device")
    kinds = {path.name: path.lstat().st_mode for path in folder.iterdir()}
    for output in others:
        refused(counts, maker, f"the output {output!r}", 2, None, "-o", output, special)
        for option in "--trips", "--places-wanted":
            refused(counts, maker, f"{option} {output!r}", 2, None, option, output, special)
    counts.same(
        "what wasn't a file stays",
        kinds,
        {path.name: path.lstat().st_mode for path in folder.iterdir()},
    )
    refused(
        counts, maker, "two outputs in one place", 2, None, "-o", "one", "--trips", "./one", special
    )
    for output in others:
        if output in ("fifo", "loop", "device"):
            (folder / output).unlink()
    (folder / "target.zip").write_text("older")
    (folder / "target.zip").chmod(0o640)
    (folder / "folder" / "link.zip").symlink_to("../target.zip")
    maker.run("-o", "folder/link.zip", special)
    counts.test("a link stays", (folder / "folder" / "link.zip").is_symlink())
    counts.test("the file behind a link is replaced", zipfile.is_zipfile(folder / "target.zip"))
    counts.same(
        "the mode of a file that is replaced",
        0o640,
        stat.S_IMODE((folder / "target.zip").stat().st_mode),
    )


# Lists of places without coordinates that somebody has filled in, also by a spreadsheet that writes
# other separators or letters.
LIST_HEADING = "tiploc,name,latitude,longitude\n"
FILLED = {
    "coordinates": LIST_HEADING + "OMEGA,Omega,,\nALPHA,Alpha Junction,51,0\n",
    "a longitude": LIST_HEADING + "ALPHA,Alpha Junction,,0\n",
    "a latitude": LIST_HEADING + "ALPHA,Alpha Junction,51,\n",
    "other fields": "Latitude ,tiploc\n,BETA\n\n51,ALPHA\n",
    "semicolons": "\ufeffname;latitude;longitude\r\nK\xf6ln, east;51,5;0\r\n",
    "tabs": "name\tlatitude\tlongitude\nAlpha\t\t0\n",
}
UNREADABLE = {"no CSV": LIST_HEADING + 'ALPHA,"Alpha Junction\n', "a byte 0": "\0"}
# What has no coordinate: an older list, also of another extract, and what isn't a list at all.
UNFILLED = {
    "an older list": LIST_HEADING + "ALPHA,Alpha,,\nNOWHERE,The End, ,\n",
    "names": LIST_HEADING + "ALPHA,,,\n",
    "no rows": LIST_HEADING,
    "another file": "monday,tuesday\n1,2\n",
    "short rows": LIST_HEADING + "ALPHA\n\n",
    "nothing": "",
}


def check_filled(counts: Counts, maker: Maker, special: Path) -> None:
    """A list that somebody has filled in isn't replaced."""
    wanted = maker.folder / "folder" / "wanted.csv"
    words = ("-o", "folder/feed.zip", "--places-wanted", "folder/wanted.csv", special)
    filled = "cif-gtfs: folder/wanted.csv has been filled in: rename it, and give it by --places"
    unread = "cif-gtfs: folder/wanted.csv isn't a list of places, so it isn't replaced"
    for texts, told in (FILLED, filled), (UNREADABLE, unread):
        for name, text in texts.items():
            for encoding in "utf-8", "latin-1":
                data = text.encode(encoding, "ignore")
                wanted.write_bytes(data)
                refused(counts, maker, f"a list with {name}", 2, [told], *words)
                counts.same(f"a list with {name} stays", data, wanted.read_bytes())


def check_wanted(counts: Counts, maker: Maker, special: Path) -> None:
    """The list of places without coordinates is written where it is asked for, and nowhere else."""
    folder = maker.folder / "folder"
    wanted = folder / "wanted.csv"
    counts.same(
        "no list is written unasked", ["link.zip"], [path.name for path in folder.iterdir()]
    )
    words = ("-o", "folder/feed.zip", "--places-wanted", "folder/wanted.csv")
    maker.run(*words, special)
    text = wanted.read_text()
    for name, older in UNFILLED.items():
        wanted.write_text(older)
        done = maker.run(*words, special)
        counts.same(f"a list over {name}", (1, text), (done.returncode, wanted.read_text()))
    # the same list of next night's extract, in which a place has another name
    renamed = maker.folder / "next.cif"
    renamed.write_text(special.read_text().replace("OMEGA   ", "OMEGB   "))
    done = maker.run(*words, renamed)
    counts.same("a list over that of another extract", 1, done.returncode)
    counts.test("the list of another extract", "\nOMEGB," in wanted.read_text(), wanted.read_text())
    renamed.unlink()
    filled = maker.folder / "filled.csv"
    filled.write_text(text.replace(",,", ",51,-.5"))
    done = maker.run(*words, "--places", filled, special)
    counts.same("no place is wanted", (0, LIST_HEADING), (done.returncode, wanted.read_text()))
    counts.test("no place is wanted, told", "coordinates" not in done.stderr, done.stderr)
    filled.unlink()
    check_filled(counts, maker, special)
    shutil.rmtree(folder)
    (maker.folder / "target.zip").unlink()


def check_pipes(counts: Counts, maker: Maker, special: Path) -> None:
    """An extract from standard input, or from a pipe, makes the same feed."""
    want = maker.feed(special)[1]
    feed = maker.folder / "feed.zip"
    for name in "-", "/dev/stdin":
        feed.unlink()
        words: List[Word] = [PROGRAMS / "cif-gtfs", "--cif", maker.cif, "-o", feed, name]
        done = subprocess.run(
            words, input=special.read_bytes(), capture_output=True, cwd=maker.folder, check=False
        )
        counts.same(f"an extract from {name}, status", 1, done.returncode)
        with zipfile.ZipFile(feed) as archive:
            got = {
                entry.removesuffix(".txt"): archive.read(entry).decode()
                for entry in archive.namelist()
            }
        counts.test(f"an extract from {name}", want == got)
    feed.unlink()


def check_hints(counts: Counts, maker: Maker) -> None:
    """What cif says of an input that isn't an extract helps."""
    for path, hint in (
        (EXAMPLES / "published.cif", "--holidays FILE gives"),
        (EXAMPLES / "update.cif", "cif update"),
    ):
        done = maker.run(path)
        counts.test(
            f"{path.name} is refused with a hint",
            done.returncode == 3 and hint in done.stderr,
            done.stderr,
        )


def check_space(counts: Counts, maker: Maker, special: Path) -> None:
    """Where temporary files can't be written, their folder is named."""
    temporary = maker.folder / "temporary"
    temporary.mkdir()
    limited = 'ulimit -f 2; TMPDIR=$1; export TMPDIR; shift; exec "$@"'
    words: List[Word] = [
        "sh",
        "-c",
        limited,
        "sh",
        temporary,
        PROGRAMS / "cif-gtfs",
        "--cif",
        maker.cif,
        special,
    ]
    done = subprocess.run(words, capture_output=True, text=True, cwd=maker.folder, check=False)
    counts.same(
        "no space", (4, f"cif-gtfs: {temporary}: File too large\n"), (done.returncode, done.stderr)
    )
    counts.same("no space, what is left", [], sorted(temporary.iterdir()))
    temporary.rmdir()
    for folder in temporary, special:
        environment = {**os.environ, "TMPDIR": str(folder)}
        done = subprocess.run(
            [*words[5:]],
            env=environment,
            capture_output=True,
            text=True,
            cwd=maker.folder,
            check=False,
        )
        told = f"cif-gtfs: TMPDIR: no temporary file can be written in {folder}\n"
        counts.same(f"TMPDIR is {folder.name}", (4, told), (done.returncode, done.stderr))


def check_version(counts: Counts, maker: Maker) -> None:
    version = subprocess.run([maker.cif, "--version"], capture_output=True, text=True, check=False)
    number = version.stdout.partition(" ")[2]
    for program in "cif-gtfs", "cif-gtfs-csv":
        done = maker.run("--version", program=program)
        counts.same(f"{program} --version", f"{program} {number}", done.stdout)


CONTROL = "has a line break or another control character"
NO_WEB = "isn't an address of the web such as https://www.example.com/"
NO_MAIL = "isn't an email address such as info@example.com"
# Addresses that break a rule each, and the longest ones that are right: a label has 63 letters, a host 253, a port is 65535 at most,
# and what stands before the @ has 64 characters.
LONG_HOST = ".".join(["a" * 63] * 3 + ["b" * 57, "com"])
BAD_ADDRESSES = (
    "http://999.999.1.1",
    "http://256.1.1.1/",
    "http://1.2.3.04/",
    "http://\u0661.\u0662.\u0663.\u0664/",
    "http://a.example:\u0661/",
    "http://a.example:65536/",
    "http://a.example:99999/",
    f"http://{'a' * 64}.com/",
    f"http://a.{'c' * 64}/",
    f"https://a{LONG_HOST}/",
)
GOOD_ADDRESSES = (
    "http://255.249.199.0",
    "http://a.example:65535/x?y#z",
    f"http://{'a' * 63}.{'c' * 63}",
    f"https://{LONG_HOST}/",
)
BAD_MAIL = (
    ".a@c.com",
    "a.@c.com",
    "a..b@c.com",
    "a@c",
    f"a@{'b' * 64}.com",
    f"a@b{LONG_HOST}",
    f"{'a' * 65}@c.com",
)
GOOD_MAIL = (f"{'a' * 62}.b@c.com", f"a@{LONG_HOST}", "a.b+c@d-e.example")
# What isn't UTF-8 in an argument becomes a surrogate.
BAD_PUBLISHERS = (
    ("--publisher", "a\nb", f"`a?b` {CONTROL}"),
    ("--publisher", "Caf\udce9", f"`Caf?` {CONTROL}"),
    ("--publisher", "", "`` is empty"),
    ("--publisher", " ", "` ` is empty"),
    ("--url", "acme.example", f"`acme.example` {NO_WEB}"),
    ("--url", "", f"`` {NO_WEB}"),
    ("--email", "acme", f"`acme` {NO_MAIL}"),
    ("--email", "a b@c.example", f"`a b@c.example` {NO_MAIL}"),
    ("--email", "", f"`` {NO_MAIL}"),
)


def check_publisher(counts: Counts, maker: Maker, special: Path) -> None:
    words = (
        "--publisher",
        "Acme, Feeds",
        "--url",
        "https://acme.example/x?y",
        "--email",
        "feeds@acme.example",
    )
    [about] = maker.feed(*words, special)[1]["feed_info"].splitlines()[1:]
    counts.test("the publisher", about.startswith('"Acme, Feeds",https://acme.example/x?y,'), about)
    counts.test("the publisher's mail", about.endswith(",feeds@acme.example"), about)
    for option, bad, told in BAD_PUBLISHERS:
        told = f"cif-gtfs: {option} {told}"
        refused(counts, maker, f"{option} {bad!r}", 2, [told], option, bad, special)


def is_taken(read: Callable[[str], str], text: str) -> bool:
    try:
        return read(text) == text
    except Mistake:
        return False


def check_addresses(counts: Counts) -> None:
    counts.same("the length of the longest host", 253, len(LONG_HOST))
    for read, good, bad in (
        (web_address, GOOD_ADDRESSES, BAD_ADDRESSES),
        (mail_address, GOOD_MAIL, BAD_MAIL),
    ):
        for text in (*good, *bad):
            counts.same(f"the address {text}", text in good, is_taken(read, text))


def check_own_input(counts: Counts, maker: Maker, special: Path) -> None:
    """No output takes the place of an extract that is standard input."""
    extract = maker.folder / "own.cif"
    extract.write_bytes(special.read_bytes())
    told = f"cif-gtfs: {extract} would take the place of an input: rename one of them\n"
    for option in "-o", "--trips":
        for name in "-", "/dev/stdin":
            words: List[Word] = [PROGRAMS / "cif-gtfs", "--cif", maker.cif]
            words += [option, "own.cif", name]
            with open(extract, "rb") as stdin:
                done = subprocess.run(
                    words,
                    stdin=stdin,
                    capture_output=True,
                    text=True,
                    cwd=maker.folder,
                    check=False,
                )
            counts.same(f"{option} for {name}", (2, told), (done.returncode, done.stderr))
            kept = extract.read_bytes() == special.read_bytes()
            counts.test(f"{option} for {name}, the extract stays", kept)
    extract.unlink()


def check_words(counts: Counts, maker: Maker, special: Path) -> None:
    calls: List[Tuple[Word, ...]] = [
        (),
        (special, special),
        ("--form", "1", special),
        ("--fro", "260105", special),
        (".",),
    ]
    for words in calls:
        refused(counts, maker, f"the words {words}", 2, None, *words)
    wanted = maker.folder / "wanted.csv"
    wanted.write_text(LIST_HEADING)
    calls = [("-o", special, special), ("--places-wanted", wanted, "--places", wanted, special)]
    for words in calls:
        refused(counts, maker, f"an output in the place of an input, {words[1]}", 2, None, *words)
    wanted.unlink()
    check_own_input(counts, maker, special)
    for word in "260230", "":
        told = ["cif: bad date", f"  '{word}': must be a valid date, YYMMDD or YYYY-MM-DD"]
        refused(counts, maker, f"the date {word!r}", 2, told, "--from", word, special)
    told = ["cif: OutsideWindow", f"  {special} has the window 260105 to 260125"]
    refused(counts, maker, "a date outside the window", 3, told, "--to", "260126", special)


def check_failures(counts: Counts, maker: Maker, special: Path) -> None:
    lines = special.read_text().splitlines(keepends=True)
    bad, freight = maker.folder / "bad.cif", maker.folder / "freight.cif"
    bad.write_text("".join(lines[:-1]))
    kept = ("HD", "TI", "ZZ")
    goods = [at for at, line in enumerate(lines) if line.startswith("BSNL00001")][0]
    freight.write_text(
        "".join(
            [line for line in lines if line.startswith(kept)][:-1]
            + lines[goods : goods + 4]
            + lines[-1:]
        )
    )
    truncated = [
        f"cif: line {len(lines)}: Truncated",
        f"  in {bad}",
        "  the input ends before its trailer, ZZ",
    ]
    refused(counts, maker, "a refused extract", 3, truncated, bad)
    refused(
        counts,
        maker,
        "a missing extract",
        4,
        ["cif-gtfs: missing.cif: No such file or directory"],
        "missing.cif",
    )
    refused(
        counts,
        maker,
        "no public train",
        3,
        [f"cif-gtfs: {freight} has no public train in its window"],
        freight,
    )
    told = [f"cif-gtfs: {maker.folder}/missing/gtfs.zip: No such file or directory"]
    refused(counts, maker, "no folder for the zip", 4, told, "-o", "missing/gtfs.zip", special)
    check_names(counts, maker, special)
    refused(counts, maker, "no program cif", 4, None, "--cif", "./missing", special)
    told = [
        "cif-gtfs: cif writes a table without the field mainframe_identity: is it another program, or another release?"
    ]
    refused(counts, maker, "another program", 4, told, "--cif", "echo", special)
    (maker.folder / "gtfs.zip").write_text("older")
    refused(counts, maker, "a refused extract over an older zip", 3, None, bad)
    counts.same("an older zip stays", "older", (maker.folder / "gtfs.zip").read_text())
    (maker.folder / "gtfs.zip").unlink()
    for table in "header", "schedules", "public":
        check_failing_cif(counts, maker, special, table)


def check_names(counts: Counts, maker: Maker, special: Path) -> None:
    """A name can be as long as the system has them, and one that is empty is shown."""
    longest = maker.folder / ("a" + "\u00e4" * 127)
    done = maker.run("-o", longest, special)
    counts.same("the longest name, status", 1, done.returncode)
    counts.test("the longest name", zipfile.is_zipfile(longest))
    longest.unlink(missing_ok=True)
    told = [f"cif-gtfs: {longest}a: File name too long"]
    refused(counts, maker, "a longer name", 4, told, "-o", f"{longest}a", special)
    told = ["cif-gtfs: '': No such file or directory"]
    refused(counts, maker, "an extract without a name", 4, told, "")
    refused(counts, maker, "places without a name", 4, told, "--places", "", special)


def failing_cif(maker: Maker, table: str, then: str) -> Maker:
    program = maker.folder / "failing-cif"
    program.write_text(FAILING.format(cif=maker.cif, table=table, then=then))
    program.chmod(0o755)
    return Maker(program, maker.folder)


def check_failing_cif(counts: Counts, maker: Maker, special: Path, table: str) -> None:
    failing = failing_cif(maker, table, "echo 'cif: Memory' >&2; exit 4")
    refused(counts, failing, f"cif fails at {table}", 4, ["cif: Memory"], special)
    # the second signal has no name
    for number, name in ("KILL", "SIGKILL"), ("40", "signal 40"):
        failing = failing_cif(maker, table, f"kill -{number} $$")
        killed = [f"cif was killed by {name}: {failing.cif}"]
        refused(counts, failing, f"cif is killed at {table}, {name}", 4, killed, special)
    for status in 1, 7:
        failing = failing_cif(maker, table, f"exit {status}")
        ended = [f"cif ended with status {status}, which isn't one of its faults: {failing.cif}"]
        refused(counts, failing, f"cif ends with {status} at {table}", 4, ended, special)


def check_changed(counts: Counts, maker: Maker, special: Path) -> None:
    """An extract that another one replaces between two tables is refused."""
    changing = maker.folder / "changing.cif"
    for table in "schedules", "public":
        changing.write_bytes(special.read_bytes())
        failing = failing_cif(maker, table, "echo >> changing.cif; exit 0")
        told = ["cif-gtfs: changing.cif has changed while it was read"]
        refused(counts, failing, f"the extract changes at {table}", 4, told, "changing.cif")


def check_signals(counts: Counts, maker: Maker, special: Path) -> None:
    failing = failing_cif(maker, "public", "exec sleep 60")
    before = left(maker)
    for number in signal.SIGTERM, signal.SIGINT:
        # what runs in the background may have interrupts ignored
        words: List[Word] = [
            "env",
            "--default-signal",
            PROGRAMS / "cif-gtfs",
            "--cif",
            failing.cif,
            special,
        ]
        process = subprocess.Popen(words, cwd=maker.folder, stderr=subprocess.PIPE)
        for _ in range(1200):
            if left(maker) != before:
                break
            time.sleep(0.05)
        told = interrupted(process, number)
        name = signal.Signals(number).name
        counts.same(
            f"stopped by {name}",
            (4, f"cif-gtfs: interrupted by {name}\n".encode()),
            (process.returncode, told),
        )
        counts.same(f"stopped by {name}, what is left", before, left(maker))


def check_terminal(counts: Counts, maker: Maker, special: Path) -> None:
    """On a terminal it tells how far it is, and ends with a clear line."""
    ours, theirs = pty.openpty()
    words: List[Word] = [PROGRAMS / "cif-gtfs", "--cif", maker.cif, special]
    process = subprocess.Popen(words, cwd=maker.folder, stderr=theirs)
    os.close(theirs)
    told = b""
    while block := read_terminal(ours):
        told += block
    process.wait()
    parts = (b"reading calls: ", b"writing the other files\r", b"\r\x1b[Kcif-gtfs: ")
    counts.test("on a terminal", all(part in told for part in parts), told)


def read_terminal(device: int) -> bytes:
    try:
        return os.read(device, 10000)
    except OSError:
        return b""


def ids_by_shown(files: Dict[str, str]) -> Tuple[Feed, DefaultDict[Shown, Set[str]]]:
    """The ids of the trips that have no link, by what they show."""
    feed, found = Feed(files, uids_of(files)), defaultdict(set)
    linked = {name for link in feed.links for name in link}
    for name, trip in feed.trips.items():
        if name not in linked:
            found[trip].add(name)
    return feed, found


def dates_of(feed: Feed, service: str) -> FrozenSet[date]:
    """The dates of a service from 1 to 31 January 2026."""
    days = [date(2026, 1, 1) + timedelta(days=number) for number in range(31)]
    return frozenset(day for day in days if service in active_services(feed.rows, day))


def check_windows(counts: Counts, maker: Maker, special: Path) -> None:
    """In another window the same trips have the same ids, and so have linked ones that no end of the window touches."""
    whole, in_whole = ids_by_shown(maker.feed(special)[1])
    part, in_part = ids_by_shown(maker.feed("--from", "260107", "--to", "260119", special)[1])
    both = in_part.keys() & in_whole.keys()
    counts.test(
        "ids in another window",
        len(both) > 9 and all(in_part[trip] == in_whole[trip] for trip in both),
        in_part,
    )
    counts.test(
        "linked trips in another window",
        len(part.links) > 5 and set(part.links) <= set(whole.links),
        part.links,
    )
    ids = [
        {row["service_id"]: dates_of(feed, row["service_id"]) for row in feed.rows["trips"]}
        for feed in (whole, part)
    ]
    services = ids[0].keys() & ids[1].keys()
    counts.test(
        "services in another window",
        len(services) > 5 and all(ids[0][name] == ids[1][name] for name in services),
        services,
    )
    same = [name for name, dates in ids[1].items() if dates in ids[0].values()]
    counts.test("services with the same dates in another window", services == set(same), services)
    [about] = part.rows["feed_info"]
    counts.same(
        "the dates of a part",
        ("20260107", "20260119"),
        (about["feed_start_date"], about["feed_end_date"]),
    )


def check_again(counts: Counts, maker: Maker, special: Path) -> None:
    zips = []
    for name in "one.zip", "two.zip":
        maker.run("-o", name, special)
        zips.append((maker.folder / name).read_bytes())
        (maker.folder / name).unlink()
    counts.test("the same bytes again", zips[0] == zips[1])


def check_refused(counts: Counts, name: str, add: Callable[[], object]) -> None:
    """Two trips of the train  00001 with one id are refused."""
    try:
        add()
        counts.test(name, False, "they are taken")
    except Refused as refused_trip:
        told = refused_trip.lines[0].startswith("two trips of the train  00001 have the id _00001-")
        counts.test(name, told, refused_trip.lines)


def check_collision(counts: Counts) -> None:
    """Two trips of a train with one id are refused, which needs shorter ids than there are."""
    about, found = b"1A01\tSN\t2\n", trips.TripsOfUid(" 00001")
    rows = [
        [
            b"ALPHA\t%d\t09:00:00\t09:00:00\t1\t0\n" % number,
            b"BETA\t1\t10:00:00\t10:00:00\t0\t1\n",
        ]
        for number in range(300)
    ]
    record = (b"2026-01-05", b"2026-01-05", b"1000000", b"")
    texts = [b"7\t1\t%s7\t2\t%s" % (first, last) for first, last in rows]
    trains = [(1, about, record, b"7", text) for text in texts]
    length, trips.ID_BYTES = trips.ID_BYTES, 1
    try:
        check_refused(counts, "one id", lambda: [found.add(about, of_train) for of_train in rows])
        check_refused(counts, "one id, plain", lambda: trips.plain_trips(" 00001", trains))
    finally:
        trips.ID_BYTES = length
    counts.test("the length of ids", length >= 5, length)
    again = (2, about, record, b"7", texts[0])
    equal = trips.plain_trips(" 00001", [*trains[:2], again])
    counts.same("equal trips are one", [3, 1], [trip.dates for trip in equal.values()])


def check_blocks(counts: Counts) -> None:
    """The rows of some schedules are the same in blocks of any size."""
    rows = [
        b"%d\t%d\tLO\t%s\t%s\tend"
        % (schedule, call, b"AB"[call % 2 :][:1], b"AB"[schedule % 2 :][:1])
        for schedule in range(1, 130)
        for call in range(1 + schedule % 7)
    ]
    numbers: List[List[int]] = [
        [1, 2, 5, 8, 9, 10, 11, 99, 100, 101, 128, 129],
        [129],
        [1],
        [6],
        list(range(1, 130)),
        [],
    ]
    for wanted in numbers:
        # of some schedules many texts are wanted
        many = {b"A", *(b"none%d" % each for each in range(20))}
        kinds = ({b"A", b"B"}, {b"A", b"none"}, many)
        texts = {b"%d" % number: kinds[number % 3] for number in wanted}
        cells = ((row, row.split(b"\t")) for row in rows)
        want = [row for row, cell in cells if cell[3] in texts.get(cell[0], ())]
        for size in (1, 7, 16, 40, 100, 1000, 10**6):
            table = io.BytesIO(b"".join(row + b"\n" for row in rows))
            got = list(rows_with(table, 3, texts, size))
            counts.test(
                f"rows of {len(wanted)} schedules in blocks of {size}", want == got, got[:5]
            )


def padded(*lines: str) -> List[bytes]:
    return [line.ljust(80).encode() + b"\n" for line in lines]


# Runs cif-gtfs with parts of few rows.
IN_SMALL_PARTS = """\
import sys
sys.path[0] = sys.argv.pop(1)
from cif_timetable.gtfs import command_line, parts
parts.BLOCK = 20_000
sys.exit(command_line.main())
"""


def check_processes(counts: Counts, maker: Maker) -> None:
    """Any number of processes makes the same zip, to the byte."""
    extract = maker.folder / "many.cif"
    extract.write_bytes(generated.extract(random.Random(SEED), SCHEDULES))
    found = []
    for number in 1, 2, 3:
        words: List[Word] = ["--processes", str(number), "-o", "many.zip", "--trips", "many.csv"]
        call: List[Word] = [
            sys.executable,
            "-B",
            "-c",
            IN_SMALL_PARTS,
            PACKAGES,
            "--cif",
            maker.cif,
        ]
        done = subprocess.run(
            [*call, *words, extract], cwd=maker.folder, capture_output=True, check=False
        )
        files = [maker.folder / name for name in ("many.zip", "many.csv")]
        found.append((done.returncode, done.stderr, *(file.read_bytes() for file in files)))
    for each in found[1:]:
        counts.test("the zip of several processes", each == found[0], [each[:2], found[0][:2]])
    for word in "0", "65", "x", "-1":
        done_badly = maker.run("--processes", word, extract)
        counts.same(f"{word} processes", 2, done_badly.returncode)
    extract.unlink()
    for file in files:
        file.unlink()


# A train that divides at BETA, and its portion. Trains whose calls are far more than a pipe holds come after them.
DIVIDING = """\
HDTPS.UTEST01.PD2601040401262000DFTEST1       FA050126250126
TIALPHA  00890500AALPHA JUNCTION            032010000ALPALPHA
TIBETA   00890500BBETA-ON-SEA               032020000BET
AANA00001A000022601052601231111100VVSBETA     TP                               P
BSNA000012601052601231111100 PXX1S01    122104000 EMU    090      B            P
BX         SRY
LOALPHA   2100 21001         TB
LIBETA    2130 2135      213021352        T
LTALPHA   2300 23004     TF
BSNA000022601052601231111100 PXX1S02    122104000 EMU    090      B            P
BX         SRY
LOBETA    2140 21401         TB
LTALPHA   2300 23004     TF
"""
LONG = """\
BSNB{number:05}2601052601231111100 PXX1S03    122104000 EMU    090      B            P
BX         SRY
LOALPHA   2100 21001         TB
{calls}LTALPHA   2300 23004     TF
"""
PASSING = "LIBETA              2200 00000000\n"
# Each has 3,500 calls, and all of them some 3 MB of rows.
LONG_TRAINS = 16
PASSINGS = 3498


def check_rest(counts: Counts, maker: Maker) -> None:
    """After the last train with associations there are far more calls than a pipe holds."""
    long = "".join(LONG.format(number=n, calls=PASSING * PASSINGS) for n in range(LONG_TRAINS))
    extract = maker.folder / "long.cif"
    extract.write_bytes(b"".join(padded(*(DIVIDING + long + "ZZ").splitlines())))
    done = maker.run(extract)
    wanted = ["cif-gtfs: stations without coordinates: 2; --places-wanted FILE lists them"]
    counts.same(
        "calls after linked trains", (1, wanted), (done.returncode, done.stderr.splitlines())
    )


def check(counts: Counts, maker: Maker, special: Path) -> None:
    folder = maker.folder / "failures"
    folder.mkdir()
    maker = Maker(maker.cif, folder)
    check_user_files(counts, maker, special)
    check_other_files(counts, maker, special)
    check_words(counts, maker, special)
    check_outputs(counts, maker, special)
    check_wanted(counts, maker, special)
    check_pipes(counts, maker, special)
    check_failures(counts, maker, special)
    check_hints(counts, maker)
    check_space(counts, maker, special)
    check_publisher(counts, maker, special)
    check_addresses(counts)
    check_version(counts, maker)
    check_changed(counts, maker, special)
    check_signals(counts, maker, special)
    check_terminal(counts, maker, special)
    check_windows(counts, maker, special)
    check_again(counts, maker, special)
    check_collision(counts)
    check_blocks(counts)
    check_processes(counts, maker)
    check_rest(counts, maker)
