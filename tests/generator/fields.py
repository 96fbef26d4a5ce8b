"""Fields by chance, as they are written: texts, times, activities, and the bodies of associations and trains."""
from __future__ import annotations

import string
from dataclasses import dataclass, replace
from random import Random
from typing import Callable, Dict, List, Optional, Tuple

from reference import values
from reference.faults import Reader
from reference.layouts import ASSOCIATION_BODY, LAYOUTS, TRAIN_BODY, plain

COMMON = string.ascii_uppercase + string.digits
PRINTABLE = "".join(chr(code) for code in range(0x20, 0x7F))
# Names and texts of fields; and the kind and the fields of a line.
Pairs = Tuple[Tuple[str, str], ...]
Line = Tuple[str, Pairs]
Lines = Tuple[Line, ...]

CODES = ("TB", "TF", "T ", "-D", " T", "RM", "D ", "-U", "X ", " ~", "12")


@dataclass(frozen=True)
class Body:
    """What holds or runs: fields of AA or BS, and the kind and the fields of each line behind BS."""

    fields: Pairs
    lines: Lines = ()


def of_width(rng: Random, width: int, signs: str) -> str:
    return "".join(rng.choices(signs, k=width))


def text(rng: Random, width: int) -> str:
    """Often none, and now and then one with odd characters, or with spaces inside."""
    chance = rng.random()
    if chance < 0.35:
        return " " * width
    signs = COMMON if chance < 0.85 else COMMON + "   " if chance < 0.93 else PRINTABLE
    return of_width(rng, rng.randint(1, width), signs).strip(" ").ljust(width)


def hour_and_minute(rng: Random) -> str:
    return rng.choice(
        [
            "0000",
            "2359",
            f"{rng.randrange(24):02}{rng.randrange(60):02}",
            f"{rng.randrange(24):02}00",
        ]
    )


def working_time(rng: Random, width: int) -> str:
    return " " * width if rng.random() < 0.25 else hour_and_minute(rng) + rng.choice("  H")


def public_time(rng: Random, width: int) -> str:
    return " " * width if rng.random() < 0.3 else hour_and_minute(rng)


def activities(rng: Random, width: int) -> str:
    count = rng.choice([0, 1, 1, 2, 3, 6])
    return "".join(rng.choice(CODES) for _ in range(count)).ljust(width)


MAKERS: Dict[Reader, Callable[[Random, int], str]] = {
    values.text: text,
    values.working_time: working_time,
    values.public_time: public_time,
    values.activities: activities,
}


def made(rng: Random, kind: str, names: Optional[Tuple[str, ...]] = None) -> Pairs:
    """Names and texts of the fields of a record, or of those that are named."""
    fields = [field for field in LAYOUTS[kind] if names is None or field.name in names]
    return tuple(
        (field.name, MAKERS[field.read](rng, field.last - field.first + 1)) for field in fields
    )


def journey(rng: Random) -> Lines:
    """A journey of a few calls, or rarely of many."""
    count = rng.choices([0, 1, 2, 4, 60], [85, 57, 28, 28, 2])[0]
    calls = [rng.choice(["LI", "LI", "LI", "CR"]) for _ in range(count)]
    return tuple((kind, made(rng, kind)) for kind in ["LO", *calls, "LT"])


def extra(rng: Random) -> Lines:
    """A BX, or none; now and then one of blank texts."""
    chance = rng.random()
    if chance < 0.35:
        return ()
    if chance < 0.5:
        return (("BX", blank_fields("BX")),)
    return (("BX", made(rng, "BX")),)


def blank_fields(kind: str) -> Pairs:
    return tuple((field.name, " " * (field.last - field.first + 1)) for field in LAYOUTS[kind])


def some_body(rng: Random, kind: str) -> Body:
    if kind == "AA":
        return Body(made(rng, "AA", ASSOCIATION_BODY))
    return Body(made(rng, "BS", TRAIN_BODY), extra(rng) + journey(rng))


def full_body(rng: Random, kind: str) -> Body:
    """A body with a line of each kind, and a few of those on the way."""
    if kind == "AA":
        return some_body(rng, kind)
    lines = ["BX", "LO", "LI", "CR", "LI", "CR", "LI", "CR", "LT"]
    return Body(made(rng, "BS", TRAIN_BODY), tuple((kind, made(rng, kind)) for kind in lines))


def for_riders(rng: Random, body: Body, places: Tuple[str, ...]) -> Body:
    """The body, with calls for riders at these places."""

    def of_call(name: str, before: str) -> str:
        made_again = {
            "location": rng.choice(places),
            "suffix": " ",
            "activities": rng.choice(("T", "T", "T", "", "D", "U", "T R", "TBTF", "N")).ljust(12),
        }
        if name in ("public_arrival", "public_departure"):
            return f"{rng.randrange(24):02}{rng.randrange(1, 60):02}"
        if name in ("arrival", "departure") and not before.strip(" "):
            return hour_and_minute(rng) + " "
        return made_again.get(name, before)

    return replace(
        body,
        lines=tuple(
            (kind, tuple((name, of_call(name, before)) for name, before in fields))
            if kind in ("LO", "LI", "LT")
            else (kind, fields)
            for kind, fields in body.lines
        ),
    )


def with_another_field(rng: Random, kind: str, fields: Pairs) -> Pairs:
    """The fields with another text in one of them."""
    at = rng.randrange(len(fields))
    name, before = fields[at]
    after = before
    while after == before:
        after = dict(made(rng, kind, (name,)))[name]
    return (*fields[:at], (name, after), *fields[at + 1 :])


def with_other_lines(rng: Random, lines: Lines) -> Lines:
    """The lines behind a BS with BX, one call or one field changed."""
    chance = rng.random()
    has_extra = lines[0][0] == "BX"
    if chance < 0.15:
        return lines[1:] if has_extra else (("BX", blank_fields("BX")), *lines)
    if chance < 0.3:
        kind = rng.choice(["LI", "CR"])
        at = rng.randint(2 if has_extra else 1, len(lines) - 1)
        return (*lines[:at], (kind, made(rng, kind)), *lines[at:])
    at = rng.randrange(len(lines))
    kind, fields = lines[at]
    return (*lines[:at], (kind, with_another_field(rng, kind, fields)), *lines[at + 1 :])


def changed(rng: Random, kind: str, body: Body) -> Body:
    """A body that differs from this one in one place."""
    if kind == "AA" or rng.random() < 0.3:
        return replace(body, fields=with_another_field(rng, kind, body.fields))
    return replace(body, lines=with_other_lines(rng, body.lines))


def with_other_fields(rng: Random, body: Body) -> Body:
    """A train's body with other fields in some of its lines, whose locations and suffixes stay."""
    lines = list(body.lines)
    for _ in range(rng.choice([1, 2, 4, 8])):
        at = rng.randrange(len(lines))
        kind, fields = lines[at]
        others = zip(fields, with_another_field(rng, kind, fields))
        lines[at] = kind, tuple(
            field if field[0] in ("location", "suffix") else other for field, other in others
        )
    return replace(body, lines=tuple(lines))


def lines_behind(body: Body) -> List[str]:
    """The plain lines behind BS."""
    return [plain(kind, dict(fields)) for kind, fields in body.lines]
