"""Extracts and updates: those of samples/, which are made up, in the layouts that producers use, from
memory; and further ones that are made here."""
from __future__ import annotations

import gzip
import io
import subprocess
import zipfile
from collections.abc import Sequence
from datetime import date, timedelta
from pathlib import Path

HERE = Path(__file__).resolve().parent
TOP = HERE.parents[1]
SAMPLES = HERE / "samples"
HOLIDAYS = (SAMPLES / "holidays.txt").read_text(encoding="utf-8")
# The program cif that is tested.
CIF = TOP / "dist" / "cif"


def sample(name: str) -> bytes:
    return (SAMPLES / name).read_bytes()


FULL = sample("toc-full.CIF")
# Updates of Saturday 5 to Monday 7 December 2026, which follow the full extract of the 4th.
SAT, SUN, MON = (sample(f"toc-update-{day}.CIF") for day in ("sat", "sun", "mon"))


def padded(*lines: str) -> bytes:
    return "".join(f"{line:<80}\n" for line in lines).encode()


def header(day: date, reference: str, last: str, kind: str, time: str = "1930") -> str:
    """HD of an extract that was made on a date, with a window of a year."""
    made, end = f"{day:%d%m%y}", f"{day + timedelta(days=365):%d%m%y}"
    return f"HDTPS.UDFROC1.PD{day:%y%m%d}{made}{time}{reference:<7}{last:<7}{kind}A{made}{end}"


def train(
    uid: str, day: date, letter: str = "P", mark: str = "N", platform: str = "1"
) -> list[str]:
    """The lines of a train that runs on each weekday of four weeks, at 10:00."""
    days = f"{day:%y%m%d}{day + timedelta(days=28):%y%m%d}1111111"
    return [
        f"BS{mark}{uid}{days} POO2A01    124745000 EMU377 100D     S".ljust(79) + letter,
        "BX         SNY",
        "LOBRGHTN  1000 10001         TB",
        f"LTLEWES   1016 1016{platform:<6}TF",
    ]


def update(day: date, reference: str, last: str, uid: str | None = None) -> bytes:
    """An update of a date that adds a train."""
    added = train(uid or f"Z{day:%d%m}0", day)
    return padded(header(day, reference, last, "U"), *added, "ZZ")


def full(day: date, reference: str, *uids: str, time: str = "1935") -> bytes:
    """A full extract of a date with these trains."""
    lines = [line for uid in uids for line in train(uid, day)]
    return padded(header(day, reference, "", "F", time), *lines, "ZZ")


def packed(extract: bytes) -> bytes:
    return gzip.compress(extract, mtime=0)


def zipped(members: dict[str, bytes]) -> bytes:
    file = io.BytesIO()
    with zipfile.ZipFile(file, "w", zipfile.ZIP_DEFLATED) as archive:
        for name, text in members.items():
            archive.writestr(zipfile.ZipInfo(name), text)
    return file.getvalue()


def by_hand(folder: Path, extract: bytes, updates: Sequence[bytes]) -> bytes:
    """What `cif update` makes of an extract and of updates."""
    names = []
    for number, content in enumerate([extract, *updates]):
        path = folder / f"by-hand-{number}.cif"
        path.write_bytes(content)
        names.append(str(path))
    words = [str(CIF), "update", "--lenient", "--in-sequence", *names]
    done = subprocess.run(words, capture_output=True, check=True)
    for name in names:
        Path(name).unlink()
    return done.stdout


def as_full(extract: bytes, time: bytes = b"1935") -> bytes:
    """The same as a full extract that is published five minutes later: it names no other one."""
    head = extract[:28] + time + extract[32:39] + b"       F" + extract[47:80]
    return head + extract[80:]
