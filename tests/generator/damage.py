"""Damage to an input: to its bytes, to its lines, or to fields of a line. Some of it leaves an extract that is right."""
from __future__ import annotations

from itertools import combinations, product
from random import Random
from typing import Callable, Dict, Iterator, List, Optional, Tuple, Union

from reference import values
from reference.faults import Reader, Refusal
from reference.layouts import LAYOUTS, Field, read

# A change of the bytes, and one of the list of lines.
Change = Callable[[Random, bytes], bytes]
ChangeOfLines = Callable[[Random, List[bytes]], None]

NO_DATES = (
    "260230",
    "290229",
    "260001",
    "261301",
    "260100",
    "260132",
    "26 105",
    "26010A",
    "      ",
    "000000",
)
IDENTITIES = (
    "HD",
    "TI",
    "TA",
    "TD",
    "AA",
    "BS",
    "BX",
    "LO",
    "LI",
    "CR",
    "LT",
    "ZZ",
    "TN",
    "LN",
    "/!!",
    "XX",
    "  ",
    "bs",
    "B ",
)


def with_other_signs(text: str, signs: Union[Tuple[str, ...], str]) -> List[str]:
    """The texts with one other sign: of those that are given for each place."""
    return [text[:at] + sign + text[at + 1 :] for at, others in enumerate(signs) for sign in others]


TIMES = (
    *with_other_signs("0000", ("/3: ", "/: ", "/6: ", "/: ")),
    *with_other_signs("    ", "0000"),
    "2400",
    "0900",
    "9:00",
)
BAD_FIELDS: Dict[Reader, Tuple[str, ...]] = {
    values.full: ("U", "F", " ", "f"),
    values.new: ("R", "D", "N", " ", "n"),
    values.header_date: (
        "999999",
        "311259",
        *NO_DATES,
        "311299",
        "010160",
        "300226",
        "290228",
        "010100",
    ),
    values.first_date: ("999999", "591231", *NO_DATES, "999999", "991231", "600101", "000229"),
    values.last_date: ("999999", "600101", *NO_DATES, "999999", "991231", "591231", "999998"),
    values.days_run: ("1111112", "       ", "111111 ", "A000000", "0000000"),
    values.letter: ("X", " ", "p", "c", "C", "N", "O", "P"),
    values.bank_holiday: ("X", "E", "G", "0"),
    values.working_time: (*(time + " " for time in TIMES), "0000X", "0000h", "    H", "0000H"),
    values.public_time: (*TIMES, "090 ", "-100"),
}
ODD_BYTES = (
    b"\t",
    b"\r",
    b"\n",
    b"\x00",
    b"\x1f",
    b"\x7f",
    b"\x80",
    b"\xc3\xa9",
    b"\xff",
    b" ",
    b"~",
    b"0",
    b"A",
)
ENDINGS = (b"\r", b"\r\n", b"\r\r\n", b"\n\r", b"\n\n", b" \n", b" \r\n", b" ", b"")
# What may stand before the first line: how inputs of other formats begin, and what is like it.
BEGINNINGS: Tuple[bytes, ...] = (
    b"\x1f\x8b",
    b"\x1f\x8c",
    b"PK\x03\x04",
    b"PK\x05\x06",
    b"\xef\xbb\xbf",
    b"\xff\xfe",
    b"\xff\xfe\x00\x00",
)
BEGINNINGS += (b"\xfe\xff", b"\x00\x00\xfe\xff", b"\xef\xbb", b"{", b"[", b"(")
BEHIND = (
    b"\n",
    b"\r",
    b"\r\n",
    b" ",
    b"\x1a",
    b"ZZ".ljust(80) + b"\n",
    b"AA".ljust(80) + b"\n",
    b"X" * 81,
    b"X" * 82,
)

# ---- of bytes


def place(rng: Random, data: bytes) -> int:
    """A place in the bytes: often at a line's end or its first columns."""
    ends = [at for at, byte in enumerate(data) if byte == 0x0A]
    if ends and rng.random() < 0.4:
        return min(max(rng.choice(ends) + rng.randint(-2, 3), 0), len(data) - 1)
    return rng.randrange(len(data))


def replaced_byte(rng: Random, data: bytes) -> bytes:
    at = place(rng, data)
    return data[:at] + rng.choice(ODD_BYTES) + data[at + 1 :]


def dropped_byte(rng: Random, data: bytes) -> bytes:
    at = place(rng, data)
    return data[:at] + data[at + 1 :]


def inserted_byte(rng: Random, data: bytes) -> bytes:
    at = place(rng, data)
    return data[:at] + rng.choice(ODD_BYTES) + data[at:]


def cut(rng: Random, data: bytes) -> bytes:
    return data[: place(rng, data)]


def more_behind(rng: Random, data: bytes) -> bytes:
    return data + rng.choice((*BEHIND, data))


def emptied(rng: Random, data: bytes) -> bytes:
    return b""


# ---- of lines


def of_lines(change: ChangeOfLines) -> Change:
    """A change of the list of lines, each with its ending."""

    def changed(rng: Random, data: bytes) -> bytes:
        lines = data.splitlines(keepends=True)
        change(rng, lines)
        return b"".join(lines)

    return changed


def swapped(rng: Random, lines: List[bytes]) -> None:
    one, other = rng.randrange(len(lines)), rng.randrange(len(lines))
    lines[one], lines[other] = lines[other], lines[one]


def dropped(rng: Random, lines: List[bytes]) -> None:
    del lines[rng.randrange(len(lines))]


def repeated(rng: Random, lines: List[bytes]) -> None:
    lines.insert(rng.randint(0, len(lines)), rng.choice(lines))


def cut_behind_one(rng: Random, lines: List[bytes]) -> None:
    del lines[rng.randint(1, len(lines)) :]


def long_line(rng: Random, lines: List[bytes]) -> None:
    """A line of as many bytes as are read of one, or of one more, and behind the last line one that is refused."""
    lines.insert(rng.randint(0, len(lines)), b"X" * rng.choice([9999, 10000]) + b"\n")
    lines.append(empty_line("XX"))


def of_another_kind(rng: Random, lines: List[bytes]) -> None:
    at = rng.randrange(len(lines))
    identity = rng.choice(IDENTITIES).encode()
    lines[at] = identity + lines[at][len(identity) :]


def sorts_of(lines: List[bytes]) -> List[Tuple[str, str]]:
    """The kind of each line, and whether it is of a cancellation or a deleted record: its `C` or `D`, or an empty text."""
    found, idle = [], ""
    for line in lines:
        if line[:2] in (b"AA", b"BS"):
            idle = "D" if line[2:3] == b"D" else "C" if line[79:80] == b"C" else ""
        found.append((line[:2].decode("latin-1"), "" if line[:2] == b"ZZ" else idle))
    return found


def empty_line(identity: str) -> bytes:
    return identity.encode().ljust(80) + b"\n"


def further(rng: Random, lines: List[bytes]) -> None:
    """A line of some kind, with nothing in it, is put behind another one; each sort of these is as likely."""
    sorts = sorts_of(lines)
    sort = rng.choice(sorted(set(sorts)))
    at = rng.choice([at for at, other in enumerate(sorts) if other == sort])
    lines.insert(at + 1, empty_line(rng.choice(IDENTITIES)))


def with_another_ending(rng: Random, lines: List[bytes]) -> None:
    at = rng.choice([rng.randrange(len(lines)), -1])
    lines[at] = lines[at].rstrip(b"\r\n") + rng.choice(ENDINGS)


def reversed_dates(rng: Random, lines: List[bytes]) -> None:
    """First and last date of a record change places."""
    columns = {b"HD": 48, b"AA": 15, b"BS": 9}
    places: List[Optional[int]] = [at for at, line in enumerate(lines) if line[:2] in columns]
    at = rng.choice(places or [None])
    if at is not None:
        line, first = lines[at], columns[lines[at][:2]]
        lines[at] = (
            line[:first]
            + line[first + 6 : first + 12]
            + line[first : first + 6]
            + line[first + 12 :]
        )


# ---- of fields


def field_places(lines: List[bytes]) -> List[Tuple[Tuple[str, str], int, Field]]:
    """The fields that can be wrong: what sort each is, its line, and the field; those of idle records are sorts too."""
    found = []
    for at, (kind, idle) in enumerate(sorts_of(lines)):
        for field in LAYOUTS.get(kind, ()):
            if field.read in BAD_FIELDS:
                found.append(((field.read.__name__, idle), at, field))
    return found


def with_text(line: bytes, field: Field, text: str) -> bytes:
    return line[: field.first - 1] + text.encode() + line[field.last :]


def spoil(rng: Random, lines: List[bytes], at: int, field: Field) -> None:
    lines[at] = with_text(lines[at], field, rng.choice(BAD_FIELDS[field.read]))


def bad_field(rng: Random, lines: List[bytes]) -> None:
    """A text that is no value of its field, or a value that doesn't go with the others; each sort is as likely."""
    places = field_places(lines)
    if places:
        sort = rng.choice(sorted({sort for sort, _, _ in places}))
        spoil(rng, lines, *rng.choice([place[1:] for place in places if place[0] == sort]))


def bad_fields(rng: Random, lines: List[bytes]) -> None:
    """The same of a few fields of one line."""
    places = field_places(lines)
    if places:
        line = rng.choice(places)[1]
        fields = [field for _, at, field in places if at == line]
        for field in rng.sample(fields, min(len(fields), rng.choice([2, 2, 3]))):
            spoil(rng, lines, line, field)


DAMAGES = {
    replaced_byte: 10,
    dropped_byte: 6,
    inserted_byte: 6,
    cut: 6,
    more_behind: 6,
    emptied: 1,
    of_lines(swapped): 8,
    of_lines(dropped): 8,
    of_lines(repeated): 8,
    of_lines(cut_behind_one): 4,
    of_lines(long_line): 2,
    of_lines(of_another_kind): 10,
    of_lines(further): 6,
    of_lines(with_another_ending): 6,
    of_lines(reversed_dates): 5,
    of_lines(bad_field): 14,
    of_lines(bad_fields): 10,
}


def damaged(rng: Random, data: bytes) -> bytes:
    """The bytes after one damage, or after a few."""
    for _ in range(rng.choice([1, 1, 1, 1, 2, 3])):
        if data:
            data = rng.choices(list(DAMAGES), list(DAMAGES.values()))[0](rng, data)
    return data


# ---- all that can be done in one place


def spoiled(line: bytes, sort: Tuple[str, str]) -> Iterator[bytes]:
    """The line with another text in one field; and with such texts in two fields that are read otherwise."""
    kind, idle = sort
    fields = [
        (field, BAD_FIELDS[field.read])
        for field in LAYOUTS.get(kind, ())
        if field.read in BAD_FIELDS
    ]
    for field, texts in fields:
        yield from (with_text(line, field, text) for text in texts[: 1 if idle else None])
    for (one, ones), (other, others) in combinations(fields, 2):
        if one.read != other.read and not idle:
            yield from (
                with_text(with_text(line, one, text), other, last)
                for text, last in product(ones[:2], others[:2])
            )


def of_other_bytes(line: bytes) -> Iterator[bytes]:
    """Lines that are shorter or longer than this one, or have another byte."""
    content = line.rstrip(b"\n")
    contents = [
        b"",
        content[:30],
        content[:-1],
        content + b"|",
        content + b"||",
        b"~" * 4095,
        b"~" * 4096,
    ]
    contents += [b"/!!" + b"-" * 77, b"/!!" + b"-" * 78, b"/!! caf\xe9".ljust(80)]
    contents += [content[:-1] + byte for byte in (b"\x1f", b"\x7f", b"~")]
    yield from (other + ending for other in contents for ending in (b"\n", b"\r\n"))


def places_of_damage(lines: List[bytes]) -> Iterator[Tuple[int, bytes]]:
    """What may stand for the first line of each sort: it and a line behind it, or it with wrong fields; for the first and the
    last line: lines of other bytes; and before the first line: another beginning, or a line.
    """
    sorts = sorts_of(lines)
    yield from ((0, beginning + lines[0]) for beginning in BEGINNINGS)
    yield from ((at, line) for at in (0, len(lines) - 1) for line in of_other_bytes(lines[at]))
    yield from ((0, empty_line(identity) + lines[0]) for identity in IDENTITIES)
    for sort in sorted(set(sorts)):
        at = sorts.index(sort)
        yield from ((at, lines[at] + empty_line(identity)) for identity in IDENTITIES)
        yield from ((at, line) for line in spoiled(lines[at], sort))


def wrong_columns(lines: List[bytes]) -> List[Tuple[int, bytes]]:
    """What may stand for a line so that it is refused: once for each kind, each reason and the columns of it."""
    found: Dict[Union[str, Tuple[str, str, Optional[int]]], Tuple[int, bytes]] = {
        kind: (0, lines[0] + empty_line(kind)) for kind in ("TA", "TD")
    }
    sorts = sorts_of(lines)
    for sort in sorted(set(sorts)):
        at = sorts.index(sort)
        for line in spoiled(lines[at], sort):
            try:
                read(sort[0], line.decode(), {})
            except Refusal as refusal:
                found.setdefault((sort[0], refusal.name, refusal.first), (at, line))
    return list(found.values())


def damaged_at(lines: List[bytes], at: int, instead: bytes) -> bytes:
    return b"".join([*lines[:at], instead, *lines[at + 1 :]])
