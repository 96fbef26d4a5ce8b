"""What `--verbose` adds on standard error: of an answer what was read, of a fault which input it is about and what helps."""
from __future__ import annotations

import re
from datetime import date
from typing import Dict, List, Match, NamedTuple, Optional, Set, TYPE_CHECKING, Tuple, Union

from . import layouts, values
from .dates import from_word, yymmdd
from .explanation import clashing
from .extracts import COMMENT, NOTES, Extract, Record, contents_of
from .faults import Fault, Reader, Refusal
from .holidays import WIDTH
from .layouts import Fields
from .places import place_of
from .published import count_clashing, count_cut, count_open_ends, transaction_of

if TYPE_CHECKING:
    from .answers import Inputs, Job


class Input(NamedTuple):
    """An input: its name as it is shown, its bytes, or None where it can't be read, and whether it is a file, which can be read
    again."""

    name: str
    data: Optional[bytes]
    again: bool


SIDES = {"compare": ("LEFT", "RIGHT"), "diff": ("LEFT", "RIGHT"), "prepare": ("", "holidays")}

# A character that is escaped, and those that have a letter.
HIDDEN = re.compile("[\x00-\x1f\x7f-\x9f]|([\u2028-\u202e\u2066-\u2069])")
LETTERS = {"\t": r"\t", "\n": r"\n", "\r": r"\r"}

# How many bytes are known of a line of standard input, how many are looked at of one of a file, and behind how many comments of a
# file a header is looked for.
KEPT, LOOKED_AT, COMMENTS = 82, 4096, 100

WANTED = {
    "bad date": "must be a valid date, YYMMDD or YYYY-MM-DD",
    "bad UID": "must be six printable ASCII characters",
    "bad place": "must be a TIPLOC or a CRS code, such as EUSTON or EUS",
}
NO_FILE = "No such file or directory (os error 2)"
BEGINNINGS = {
    b"\x1f\x8b": "gzip: decompress it first",
    b"PK\x03\x04": "a zip archive: extract it first",
    b"\xef\xbb\xbf": "text with a byte order mark: remove its first three bytes",
    b"\xff\xfe": "UTF-16: convert it to ASCII first",
    b"\xfe\xff": "UTF-16: convert it to ASCII first",
    b"H\0": "UTF-16: convert it to ASCII first",
    b"\0H": "UTF-16: convert it to ASCII first",
    b"{": "JSON: take the feed in the CIF format",
    b"[": "JSON: take the feed in the CIF format",
    b"<?xml": "XML: take the feed in the CIF format",
    b"<": "HTML, a page of the web: take the feed itself",
    b"A    ": "the stations of RSP (MSN), for cif-gtfs-csv",
    b"M=": "the links of RSP (ALF), for cif-gtfs-csv",
}
HOLIDAYS_OF_JSON = "examples/README.md has a recipe that makes holidays of the government's list"
SEPARATORS = "words are separated by spaces, not by commas or tabs"
HOLIDAY_LINE = (
    "a line has a code, X, E or G, and dates, YYMMDD or YYYY-MM-DD, in at most 1,000 bytes; "
    "# begins a remark"
)
NO_HOLIDAY_CODE = "a code is X, E or G"
LONG_COMMENT = "a comment has at most 1,000 bytes"
EMPTY = "the input is empty: > FILE empties FILE before it is read"
ENDS_IN_IT = "the input ends in the midst of it"
FULL_FIRST = "the full extract comes first, and its updates in their order behind it"
IN_THEIR_ORDER = "updates stand in their order, the oldest first"
CLASHES = "cif clashes lists all clashes; cif prepare --drop-clashes leaves them out on their dates"
LENIENT = "--lenient goes on after such a line"

# What must stand in columns that are refused: by the reason, or else by what stands there.
MUST: Dict[Union[str, Reader, None], str] = {
    "BadByte": "a byte is 0x20 to 0x7E",
    "UnknownRecord": "no kind of record has this identity",
    "OutOfOrder": "a record of this kind can't stand here",
    "NotUpdate": "must be U, of an update",
    "BadTransaction": "must be N, R or D",
    "OpenEnd": "999999 is an open end, not a date",
    "DatesReversed": "the first date is after the last",
    values.full: "must be F, of a full extract",
    values.new: "must be N, of a full extract",
    values.of_update: "this is an update extract, not a full one",
    values.header_date: "must be a valid date as six digits, DDMMYY",
    values.first_date: "must be a valid date as six digits, YYMMDD",
    values.last_date: "must be a valid date as six digits, YYMMDD",
    values.days_run: "a day is 0 or 1",
    values.bank_holiday: "bank holiday running must be a space",
    values.letter: "the STP indicator is P, N, O or C",
    values.working_time: "a working time is HHMM, then a space or H",
    values.public_time: "a public time is HHMM",
}
NOT_NAMED, NO_CODE = "--holidays doesn't name this code", "a holiday code is a space, X, E or G"
NO_HOLIDAYS = "--holidays FILE gives the dates of this code"
IGNORED = "a line of --holidays with the code alone ignores it"

# ---- the commands that help

PREPARE = "cif prepare makes an extract of a published one"
PREPARE_WITH_HOLIDAYS = "cif prepare --holidays FILE makes an extract of a published one"
UPDATE = "cif update applies an update to a full extract"


def has_code(line: bytes) -> bool:
    return line[28:29].decode("latin-1") in values.HOLIDAY_CODES


def letter_of_header(one: Input) -> bytes:
    """Column 47 of the header behind the first comments of a file."""
    lines = contents_of(data_of(one))[:COMMENTS] if one.again else []
    header = next((line for line in lines if not COMMENT.fullmatch(line)), b"")
    return header[46:47] if header[:2] == b"HD" else b""


def helps(reason: str, line: bytes, one: Input) -> Optional[str]:
    """The command that accepts a line of an input which others refuse, if there is one."""
    if reason == "OpenEnd":
        return PREPARE
    if reason == "UnknownRecord" and line[:2].decode("latin-1") in NOTES:
        return PREPARE
    if reason in ("BadLength", "UnknownRecord") and COMMENT.fullmatch(line):
        return {b"F": PREPARE, b"U": UPDATE}.get(letter_of_header(one))
    if reason == "BankHoliday" and has_code(line):
        return PREPARE_WITH_HOLIDAYS
    return UPDATE if reason == "NotFull" and line[:2] == b"HD" and line[46:47] == b"U" else None


def help_with_all(one: Input, reasons: Dict[str, List[int]]) -> List[str]:
    """The commands for the first lines of some reasons; none of them but update accepts an update."""
    lines = {name: line_again(one, at[0]) for name, at in reasons.items()}
    found = {helps(name, line, one) for name, line in lines.items()}
    if UPDATE in found:
        return [UPDATE]
    return [command for command in (PREPARE, PREPARE_WITH_HOLIDAYS) if command in found]


# ---- inputs


def escaped(text: str) -> str:
    def escape(found: Match[str]) -> str:
        sign = found[0]
        return LETTERS.get(sign) or (f"\\u{{{ord(sign):x}}}" if found[1] else f"\\x{ord(sign):02x}")

    return HIDDEN.sub(escape, text)


def inputs_of(job: Job, names: List[str], data: Inputs) -> List[Input]:
    """The inputs of these names."""
    sides = (
        ("FULL", *["UPDATE"] * len(data))
        if job.command == "update"
        else SIDES.get(job.command, ("",))
    )
    found = []
    for side, name, content in zip(sides, names, data):
        name_shown = "standard input" if name == "-" else escaped(name)
        found.append(Input(f"{side} ({name_shown})" if side else name_shown, content, name != "-"))
    return found


def data_of(one: Input) -> bytes:
    """The bytes of an input that can be read."""
    assert one.data is not None
    return one.data


def line_again(one: Input, number: int) -> bytes:
    """The content of the line of this number, or its first bytes."""
    return contents_of(data_of(one))[number - 1][: None if one.again else KEPT]


def shown(line: bytes) -> str:
    return re.sub("[^ -~]", "?", line[: layouts.WIDTH].decode("latin-1"))


def header_of(one: Input) -> Fields:
    """The fields of the header with which an input begins, or which stands behind comments there."""
    header = next(
        line for line in contents_of(data_of(one)) if not COMMENT.fullmatch(line)
    ).decode()
    return layouts.read("HD", header, {values.full: values.as_it_stands})


def window(one: Input) -> Tuple[date, date, str]:
    """The line of its window."""
    first, last = layouts.window_of("HD", header_of(one))
    return first, last, f"{one.name} has the window {yymmdd(first)} to {yymmdd(last)}"


# ---- of an answer


def of_reasons(one: Input, reasons: Dict[str, List[int]]) -> List[str]:
    """What is said of the reasons of check --all, each with the numbers of its lines."""
    return [f"in {one.name}", *(other_format(one) or help_with_all(one, reasons))]


def of_extracts(
    job: Job, inputs: List[Input], extracts: List[Extract], lines: List[str]
) -> List[str]:
    """What is said of the lines that were answered about these extracts."""
    said = [window(one)[2] for one in inputs]
    has_schedule = any(entry.key == (job.uid,) for entry in extracts[0].schedules)
    is_missing = (
        not has_schedule if job.command == "calendar" else len(lines) == (job.format == "tsv")
    )
    if job.uid and is_missing:
        known = has_schedule or any(job.uid in entry.key[:2] for entry in extracts[0].associations)
        said.append("there are records with this UID" if known else "no record has this UID")
    if job.place is not None and len(lines) == (job.format == "tsv"):
        places = [place_of(word) for word in (job.place, job.calling_at)]
        said += [
            f"no location has the code {place}"
            for place in places
            if place is not None and not is_known(extracts[0], place)
        ]
    return said


def is_known(extract: Extract, place: str) -> bool:
    """Whether a TI has the place as its TIPLOC or CRS code, or a line of a train is there."""
    location = place.ljust(7)
    lines = [line for one in extract.schedules if one.body for line in one.body.lines]
    return any(
        tiploc[:7] == location or tiploc[51:54] == place for tiploc in extract.tiplocs
    ) or any(line[2:9] == location for line in lines)


def of_feed(one: Input, records: List[Record], more: str) -> List[str]:
    """What is said of an input of prepare or update with these records, and more of it."""
    lines = contents_of(data_of(one))
    comments = sum(bool(COMMENT.fullmatch(line)) for line in lines)
    notes = sum(line[:2].decode("latin-1") in NOTES for line in lines)
    counts = f"comments: {comments}, notes: {notes}, open ends: {count_open_ends(records)}"
    return [window(one)[2], f"{one.name}: {counts}{more}"]


def of_prepared(
    one: Input,
    records: List[Record],
    holidays: Dict[str, Set[date]],
    clashes: Optional[Dict[Tuple[str, ...], List[date]]],
) -> List[str]:
    """The same of prepare; clashes has the clash dates of the keys, or is None where they aren't dropped."""
    by_clashes = (
        ""
        if clashes is None
        else f", records cut by clashes: {count_clashing(records, holidays, clashes)}"
    )
    return of_feed(
        one, records, f", records cut by holidays: {count_cut(records, holidays)}{by_clashes}"
    )


def of_prepared_full(one: Input) -> str:
    return f"{one.name}: FULL has to be what was published, or what cif update wrote"


def of_update(one: Input, records: List[Record], waived: List[str]) -> List[str]:
    done = [transaction_of(record) for record in records]
    new, revised, deleted = (done.count(transaction) for transaction in "NRD")
    said = of_feed(
        one,
        records,
        f", lines new: {new}, revised: {revised}, deleted: {deleted}, waived: {len(waived)}",
    )
    return said + [f"{one.name}: waived: {line}" for line in waived]


# ---- of a fault


def of_windows(inputs: List[Input], fault: Fault) -> List[str]:
    firsts, lasts, said = zip(*map(window, inputs))
    if max(firsts) > min(lasts):
        return [*said, "they have no date in common"]
    return [
        *said,
        *["--common compares the dates that both have"] * (fault.name == "WindowsDiffer"),
    ]


def of_line(job: Job, one: Input, fault: Fault) -> List[str]:
    """What is said of a refused line."""
    assert fault.line is not None and fault.refusal is not None
    line = line_again(one, fault.line)
    is_feed, refusal = job.command in ("prepare", "update"), fault.refusal
    command = None if is_feed and fault.name != "NotFull" else helps(fault.name, line, one)
    if command == UPDATE and job.command == "update" and fault.at == 0:
        command = FULL_FIRST
    said = [shown(line)]
    if is_feed and fault.name == "BadLength" and line[:3] == b"/!!":
        said.append(LONG_COMMENT)
    elif fault.name == "BadLength":
        said += length(one, fault.line)
    elif refusal.first and fault.name == "BankHoliday" and is_feed:
        said += of_code(job, refusal, line)
    elif refusal.first:
        said += columns(refusal.first, refusal.last, MUST.get(fault.name) or MUST[refusal.read])
    return [*said, *[FULL_FIRST] * (fault.name == "NotUpdate"), *([command] if command else [])]


def of_code(job: Job, refusal: Refusal, line: bytes) -> List[str]:
    """What is said of a holiday code that may not stand there."""
    if not has_code(line):
        return columns(refusal.first, refusal.last, NO_CODE)
    return [
        *columns(refusal.first, refusal.last, NO_HOLIDAYS if job.holidays is None else NOT_NAMED),
        IGNORED,
    ]


def length(one: Input, number: int) -> List[str]:
    """How long the line of this number is, and whether the input ends in the midst of it."""
    contents = contents_of(data_of(one))
    line = contents[number - 1]
    width = "thousands of" if len(line) >= LOOKED_AT else len(line)
    if not one.again and len(line) >= KEPT:
        return ["the line has more than 80 columns"]
    is_last = number == len(contents) and not data_of(one).endswith(b"\n")
    is_cut = is_last and len(line) < layouts.WIDTH
    return [f"the line has {width} columns, not 80", *[ENDS_IN_IT] * is_cut]


def columns(first: Optional[int], last: Optional[int], must: str) -> List[str]:
    assert first is not None and last is not None
    name = f"column {first}" if first == last else f"columns {first}-{last}"
    return [" " * (first - 1) + "^" * (last - first + 1), f"{name}: {must}"]


def of_holidays(one: Input, line: bytes) -> List[str]:
    """What is said of a line of holidays: what the file looks like, or the first mistaken word, if the line isn't too long."""
    if found := format_of(one):
        name = found.split(": take", 1)[0]
        return [f"the holidays look like {name}", *[HOLIDAYS_OF_JSON] * (name == "JSON")]
    if len(line) > WIDTH:
        return [shown(line), HOLIDAY_LINE]
    more = [SEPARATORS] * (b"," in line or b"\t" in line)
    words = [*re.finditer(rb"[^ ]+", line.split(b"#", 1)[0])]
    if not one.again and len(line) == KEPT and words and words[-1].end() == KEPT:
        words.pop()
    for number, word in enumerate(words):
        text = word[0].decode("latin-1")
        if text not in values.HOLIDAY_CODES if number == 0 else from_word(text) is None:
            said = columns(
                word.start() + 1, word.end(), WANTED["bad date"] if number else NO_HOLIDAY_CODE
            )
            return [
                *(
                    [shown(line), *said]
                    if word.end() <= layouts.WIDTH
                    else [shown(word[0]), said[1]]
                ),
                *more,
            ]
    return [shown(line), HOLIDAY_LINE]


def format_of(one: Input) -> Optional[str]:
    """The other format as which an input begins, if it does."""
    return next(
        (said for beginning, said in BEGINNINGS.items() if data_of(one).startswith(beginning)), None
    )


def other_format(one: Input) -> List[str]:
    return [f"the input looks like {format_of(one)}"] if format_of(one) else []


def of_unfit(inputs: List[Input], fault: Fault) -> List[str]:
    """What is said of a line of an update that doesn't fit, or of its header."""
    assert fault.at is not None and fault.line is not None
    one, before = inputs[fault.at], inputs[fault.at - 1]
    said, last = [shown(line_again(one, fault.line))], header_of(one)["last_file"]
    if fault.name != "OutOfSequence":
        left_out = "an update was left out or done twice, or FULL isn't what was published or what cif update wrote"
        return [
            *said,
            "FULL isn't what was published, or what cif update wrote" if last.strip() else left_out,
            LENIENT,
        ]
    current = header_of(before)["current_file"]
    said.append(
        f"its last reference is [{last}], and the extract's current reference is [{current}]"
    )
    said += ["an update was left out or done twice, or is of another feed", LENIENT]
    return said + [IN_THEIR_ORDER] * (len(inputs) > 2)


def of_refused(job: Job, inputs: List[Input], fault: Fault) -> List[str]:
    """What is said of an input of which a line is refused."""
    assert fault.at is not None and fault.line is not None
    one = inputs[fault.at]
    if fault.name in ("OutOfSequence", "NotThere", "AlreadyThere"):
        return of_unfit(inputs, fault)
    if fault.name == "BadHoliday":
        return of_holidays(one, line_again(one, fault.line))
    if fault.line == 1 and other_format(one):
        return other_format(one)
    if fault.name == "Truncated":
        return ["the input ends before its trailer, ZZ" if one.data else EMPTY]
    return of_line(job, one, fault)


def of_word(fault: Fault) -> List[str]:
    """What more is said of a word that names no date, or no UID."""
    assert fault.word is not None
    if fault.name != "bad UID":
        return []
    return {
        4: ["cif table schedules lists UIDs and identities"],
        5: ["a space before or behind the other five belongs to it, in quotes"],
    }.get(len(fault.word.encode(errors="surrogateescape")), [])


def of_fault(job: Job, inputs: List[Input], fault: Fault) -> List[str]:
    """What is said of a fault."""
    if fault.word is not None:
        return [f"'{escaped(fault.word)}': {WANTED[fault.name]}", *of_word(fault)]
    if fault.name in ("OutsideWindow", "WindowsDiffer"):
        return of_windows(inputs, fault)
    if fault.name == "WindowReversed":
        return ["the date of --from is after the date of --to"]
    if fault.at is None:
        return []
    one = inputs[fault.at]
    if fault.name == "ReadFault":
        return [f"in {one.name}: {NO_FILE}"]
    return [
        f"in {one.name}",
        *([*clashing(*fault.clash), CLASHES] if fault.clash else of_refused(job, inputs, fault)),
    ]
