"""Published extracts: how they are read, the extract of the profile that is made of one, and what updates do to one."""
from __future__ import annotations

from datetime import date
from typing import Dict, Iterable, Iterator, List, Optional, Set, Tuple, Union

from . import values
from .dates import DAY, Window, day_of, yymmdd
from .extracts import KINDS, NOTES, Record, Sort, key_of, of_kind, records_of
from .faults import Refusal, of_line
from .layouts import BODIES, LAYOUTS, Readers, plain, window_of
from .meaning import name_of

# How many days may lie between holidays and the end of the window behind them, or its beginning before them.
MOST_BETWEEN = 250

AS_PREPARED = "FULL has no open end and no holiday code, as if it were prepared"
OPEN_ENDS: Readers = {values.last_date: values.last_date_or_open_end}
TRANSACTIONS: Readers = {
    values.full: values.update,
    values.new: values.transaction,
    values.of_update: values.as_it_stands,
}


def read_published(
    data: Optional[bytes], codes: Iterable[str] = values.HOLIDAY_CODES
) -> List[Record]:
    """The records of a published extract in which these holiday codes may stand."""
    readers: Readers = OPEN_ENDS | {values.bank_holiday: values.holiday_code(codes)}
    return records_of(data, Sort((*KINDS, *NOTES), readers, True))


def read_update(data: Optional[bytes]) -> List[Record]:
    readers: Readers = (
        OPEN_ENDS | TRANSACTIONS | {values.bank_holiday: values.holiday_code(values.HOLIDAY_CODES)}
    )
    return records_of(data, Sort((*KINDS, *NOTES), readers, True))


# ---- written


def plain_lines(record: Record) -> List[str]:
    """The lines of a record; a cancellation has no body."""
    if record.fields.get("letter") != "C":
        return [plain(record.kind, record.fields), *record.lines]
    body = [field for field in LAYOUTS[record.kind] if field.name in BODIES[record.kind]]
    return [
        plain(
            record.kind,
            record.fields | {field.name: " " * (field.last - field.first + 1) for field in body},
        )
    ]


def written(records: List[Record]) -> List[str]:
    """The lines of an extract: those of each kind in the order of its records."""
    kinds = ("HD", "TI", "AA", "BS", "ZZ")
    return [
        line for kind in kinds for record in of_kind(records, kind) for line in plain_lines(record)
    ]


# ---- prepared


def span(record: Record, window: Window) -> Window:
    """The first and the last date of an association or a schedule; an open end is one of the window, or the first date."""
    first, last = record.fields["first"], record.fields["last"]
    return day_of(first), (
        max(day_of(first), window[1]) if last == values.OPEN_END else day_of(last)
    )


def holidays_of(record: Record, holidays: Dict[str, Set[date]]) -> Set[date]:
    """The holidays of its code."""
    return set(holidays.get(record.fields.get("bank_holiday", ""), ()))


def cuts(record: Record, window: Window, days: Set[date]) -> List[date]:
    """Those of the days at which it is cut, rising."""
    first, last = span(record, window)
    return [
        day
        for day in sorted(days)
        if first <= day <= last and record.fields["days"][day.weekday()] == "1"
    ]


def parts(record: Record, window: Window, days: Set[date]) -> Iterator[Record]:
    """The records of the profile that stand for an association or a schedule that is cut at these days."""
    fields, (first, last) = record.fields, span(record, window)
    ends = [first - DAY, *cuts(record, window, days), last + DAY]
    for before, behind in zip(ends, ends[1:]):
        start, end = before + DAY, behind - DAY
        if start <= end:
            dates = {"first": yymmdd(start), "last": yymmdd(end), "bank_holiday": " "}
            yield record._replace(fields=fields | dates)


def prepared(
    records: List[Record],
    holidays: Dict[str, Set[date]],
    clashes: Optional[Dict[Tuple[str, ...], List[date]]] = None,
) -> List[Record]:
    """The records of the prepared extract, which are cut at the clash dates of their keys too if these are given."""
    window = window_in(records)
    found: List[Record] = []
    for record in records:
        if record.kind in BODIES:
            found += parts(
                record,
                window,
                holidays_of(record, holidays).union((clashes or {}).get(key_of(record), ())),
            )
        else:
            found.append(record)
    return found


def window_in(records: List[Record]) -> Window:
    [header] = of_kind(records, "HD")
    return window_of("HD", header.fields)


def count_cut(records: List[Record], holidays: Dict[str, Set[date]]) -> int:
    """How many records are cut by holidays."""
    window = window_in(records)
    return sum(
        bool(cuts(record, window, holidays_of(record, holidays)))
        for record in records
        if record.kind in BODIES
    )


def count_clashing(
    records: List[Record],
    holidays: Dict[str, Set[date]],
    clashes: Dict[Tuple[str, ...], List[date]],
) -> int:
    """How many records apply on a clash date of their keys."""
    window, kept = window_in(records), [record for record in records if record.kind in BODIES]
    days = [set(clashes.get(key_of(record), ())) - holidays_of(record, holidays) for record in kept]
    return sum(bool(cuts(record, window, of_key)) for record, of_key in zip(kept, days))


def count_open_ends(records: List[Record]) -> int:
    return sum(record.fields.get("last") == values.OPEN_END for record in records)


def has_marks(records: List[Record]) -> bool:
    """Whether a record that isn't deleted has an open end or a holiday code."""
    kept = [
        record.fields
        for record in records
        if record.kind in ("AA", "BS") and transaction_of(record) != "D"
    ]
    return any(
        fields["last"] == values.OPEN_END or fields.get("bank_holiday", " ") != " "
        for fields in kept
    )


def unreached(records: List[Record], holidays: Dict[str, Set[date]]) -> List[str]:
    """What is reported of codes whose holidays all lie long before the end of the window, or long after its beginning."""
    [header] = of_kind(records, "HD")
    begins, ends = window_of("HD", header.fields)
    used = {record.fields["bank_holiday"] for record in of_kind(records, "BS")}
    lines = []
    for code in values.HOLIDAY_CODES:
        days = sorted(holidays.get(code, ())) if code in used else []
        if days and max((ends - days[-1]).days, (days[0] - begins).days) > MOST_BETWEEN:
            first, last, *window = map(yymmdd, (days[0], days[-1], begins, ends))
            lines.append(
                f"holidays of {code}: {first} to {last}, the window: {' to '.join(window)}"
            )
    return lines


def told(key: Tuple[str, ...], days: List[date]) -> str:
    """What is reported of a key that has these clash dates."""
    more = len(days) - 1
    rest = f" and {more} more date" + "s" * (more > 1) if more else ""
    return f"dropped: {name_of(key)} on {yymmdd(days[0])}{rest}"


# ---- updated


def update_key(record: Record) -> Union[Tuple[str, ...], str]:
    """What an update knows a record by."""
    if record.kind not in BODIES:
        return record.fields["tiploc"][:7]
    return record.kind, *key_of(record), record.fields["first"], record.fields["letter"]


def put_by(record: Record) -> Optional[Record]:
    """The record that a line of an update puts, if it puts one."""
    if record.kind == "TA":
        tiploc, new = record.fields["tiploc"], record.fields["new_tiploc"]
        return record._replace(
            kind="TI", fields={"tiploc": (tiploc[:7] if new == " " * 7 else new) + tiploc[7:]}
        )
    if transaction_of(record) == "D":
        return None
    return (
        record
        if record.kind == "TI"
        else record._replace(fields=record.fields | {"transaction": "N"})
    )


def transaction_of(record: Record) -> Optional[str]:
    """What a line of an update does: `N` new, `R` revised or `D` deleted."""
    return {"TI": "N", "TA": "R", "TD": "D"}.get(record.kind) or record.fields.get("transaction")


def refusal_of(
    record: Record, put: Optional[Record], there: Set[Union[Tuple[str, ...], str]]
) -> Optional[str]:
    """Why a line of an update can't do what it says, or None; there has the keys of all records that are there."""
    new = transaction_of(record) == "N"
    if not new and update_key(record) not in there:
        return "NotThere"
    also = (
        put is not None
        and (new or update_key(put) != update_key(record))
        and update_key(put) in there
    )
    return "AlreadyThere" if also else None


def follows(update_header: Record, header: Record) -> bool:
    """Whether an update with this header follows an extract with that one."""
    last = update_header.fields["last_file"]
    return last in (" " * 7, header.fields["current_file"])


def updated(
    records: List[Record], update: List[Record], waives: Set[str]
) -> Tuple[List[Record], List[str]]:
    """The records after an update, and its lines that are waived, each by its number with its refusal.

    What it waives are these refusals.
    """
    [header], [trailer], [update_header] = (
        of_kind(records, "HD"),
        of_kind(records, "ZZ"),
        of_kind(update, "HD"),
    )
    there = [(update_key(record), record) for record in records if record.kind not in ("HD", "ZZ")]
    waived = []

    def waive(record: Record, refusal: str) -> None:
        if refusal not in waives:
            raise of_line(record.number, Refusal(refusal))
        waived.append(f"line {record.number}: {refusal}")

    if not follows(update_header, header):
        waive(update_header, "OutOfSequence")
    for record in update:
        if record.kind in ("HD", "ZZ"):
            continue
        put = put_by(record)
        if refusal := refusal_of(record, put, {key for key, _ in there}):
            waive(record, refusal)
        taken_out = {update_key(one) for one in (record, put) if one}
        there = [(key, other) for key, other in there if key not in taken_out]
        there += [(update_key(put), put)] if put else []
    header = update_header._replace(fields=update_header.fields | {"update": "F"})
    return [header, *(record for _, record in there), trailer], waived
