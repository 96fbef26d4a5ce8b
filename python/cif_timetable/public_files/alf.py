"""RSP's ALF, of links between stations: a line has fields such as M=WALK,O=EUS,D=KGX,T=10, which
are mode, from, to and minutes, and then when the link is there: from and until what time (S, E), the
first and the last date (F, U), and weekdays, Monday first (R)."""
from __future__ import annotations

import re
from collections.abc import Iterator
from datetime import datetime

from ..errors import Refused
from .public_file import Notes, Row, lines_of, refusal

COMMENT = "/!!"
CRS = re.compile(r"[A-Z0-9]{3}")
TIME = re.compile(r"([01][0-9]|2[0-3])[0-5][0-9]")
FORMS = (
    ("O", CRS, "a CRS code"),
    ("D", CRS, "a CRS code"),
    ("T", re.compile(r"[0-9]{1,3}"), "minutes"),
)
# What may be missing.
FURTHER = (
    ("S", TIME, "a time HHMM"),
    ("E", TIME, "a time HHMM"),
    ("R", re.compile(r"[01]{7}"), "seven weekdays"),
)
HEADING: Row = "from to minutes first_date last_date days_run first_time last_time".split()


def iso_date(path: str, line: int, name: str, value: str) -> str:
    """A date DD/MM/YYYY, or nothing, as other files have dates."""
    if not value:
        return ""
    try:
        return datetime.strptime(value, "%d/%m/%Y").date().isoformat()
    except ValueError:
        raise refusal(path, line, f"{name}= isn't a date DD/MM/YYYY") from None


def fields_of(path: str) -> Iterator[tuple[int, dict[str, str]]]:
    """The fields of each line of a link, with its number."""
    for number, line in lines_of(path):
        if line.strip() and not line.startswith(COMMENT):
            yield number, dict(field.strip().partition("=")[::2] for field in line.split(","))


def links(path: str, _: Notes) -> list[Row]:
    """The links and when they are there, each in both directions, unless the file has both. cif-gtfs
    decides which of several counts, since it knows the dates of the feed."""
    found: dict[tuple[str, str], list[Row]] = {}
    for number, fields in fields_of(path):
        for name, form, wanted in (*FORMS, *(each for each in FURTHER if each[0] in fields)):
            if not form.fullmatch(fields.get(name, "")):
                raise refusal(path, number, f"{name}= isn't {wanted}")
        dates = (iso_date(path, number, name, fields.get(name, "")) for name in ("F", "U"))
        times = (fields.get(name, "") for name in ("R", "S", "E"))
        if fields["O"] != fields["D"]:
            rows = found.setdefault((fields["O"], fields["D"]), [])
            rows.append((int(fields["T"]), *dates, *times))
    if not found:
        raise Refused(f"{path}: this is no ALF: it has no link")
    back = {(end, start): rows for (start, end), rows in found.items()}
    both = {**back, **found}
    return [HEADING, *((*ends, *row) for ends in sorted(both) for row in dict.fromkeys(both[ends]))]
