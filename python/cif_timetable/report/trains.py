"""The part of the page that lists the trains that have changed."""
from __future__ import annotations

import json
import re
from collections.abc import Iterator, Sequence
from datetime import date, timedelta
from itertools import groupby, islice
from typing import NamedTuple

from ..days import Dates
from .comparison import Change, Train
from .days import signs_of
from .differences import Place
from .groups import Group, groups_of
from .journeys import Body, Call, body_of, rows_of, text_of
from .report import Report, number_word
from .templates import Markup, fill, joined, lines
from .words import (
    CANCELLED,
    DATA,
    GONE_FOR_GOOD,
    KINDS,
    NUMBERS,
    PLACES,
    PLATFORMS,
    RUNS,
    TIMES,
    Names,
    public_times,
)

# So many weeks of a change are shown, and the calls of so many changes of a train.
MOST_WEEKS = 8
MOST_CALLS = 3
# With less room than this the page is full.
LEAST_ROOM = 100_000

KIND_NAMES = {
    RUNS: "Runs on new dates",
    CANCELLED: "Cancelled",
    TIMES: "Other times",
    PLACES: "Other calls or places",
    PLATFORMS: "Other platforms",
    NUMBERS: "Renumbered",
    DATA: "Other data",
}
SYMBOLS = {RUNS: "+", CANCELLED: "×"}
DIFFERENT = "•"
# What stands for the code of an operator, of two letters, where a train has none.
NO_OPERATOR = "none"

# ---- the dates of a group


class Week(NamedTuple):
    """The Monday of a week, and what its days show."""

    monday: date
    days: str


def symbol_of(change: Change) -> str:
    return SYMBOLS.get(change.phrases[0].kind, DIFFERENT)


def weeks_of(report: Report, changes: Sequence[Change]) -> list[Week]:
    """The weeks in which something is different."""
    days = report.comparison.window.days
    offset = days[0].weekday()
    first_monday = days[0] - timedelta(days=offset)
    symbols: list[str] = []
    for change in changes:
        signs = signs_of(change.dates << offset)
        symbols += " " * (len(signs) + 7 - len(symbols))
        for found in re.finditer("1+", signs):
            symbols[found.start() : found.end()] = symbol_of(change) * len(found[0])
    text = "".join(symbols)
    weeks = ((at, text[at : at + 7].ljust(7)) for at in range(0, len(text), 7))
    return [Week(first_monday + timedelta(days=at), days) for at, days in weeks if days.strip()]


def repeated(weeks: Sequence[Week]) -> Iterator[list[Week]]:
    """Weeks that follow one another and are alike."""

    def likeness(item: tuple[int, Week]) -> tuple[str, date]:
        number, week = item
        return week.days, week.monday - timedelta(days=7 * number)

    for _, group in groupby(enumerate(weeks), key=likeness):
        yield [week for _, week in group]


def week_rows(report: Report, changes: Sequence[Change]) -> Markup:
    rows = []
    groups = list(repeated(weeks_of(report, changes)))
    for weeks in groups[:MOST_WEEKS]:
        label = report.calendar.day_month(weeks[0].monday)
        if len(weeks) > 1:
            label = f"{label}, {len(weeks)} weeks"
        cells = [Markup(f'<td class="{mark_class(symbol)}">{symbol}') for symbol in weeks[0].days]
        rows.append(Markup(f'<tr><th scope="row">{label}{joined(cells)}'))
    left_out = sum(len(weeks) for weeks in groups[MOST_WEEKS:])
    if left_out:
        rows.append(Markup(f'<tr><td colspan="8">and {number_word(left_out, "other week")}'))
    return lines(rows)


def mark_class(symbol: str) -> str:
    return {"+": "more", "×": "less", DIFFERENT: "other"}.get(symbol, "")


def ranges(dates: Dates) -> str:
    """The numbers of dates, such as `3-7 10`, as the script reads them."""
    spans = ((found.start(), found.end() - 1) for found in re.finditer("1+", signs_of(dates)))
    return " ".join(f"{first}-{last}" if last > first else str(first) for first, last in spans)


def changes_for_script(train: Train) -> str:
    """The kinds with their dates, such as `times 3-7;cancelled 10`."""
    return ";".join(f"{kind} {ranges(dates)}" for kind, dates in train.kinds().items())


def change_text(change: Change) -> str:
    """What is different, in words."""
    texts = "; ".join(dict.fromkeys(phrase.text for phrase in change.phrases))
    return texts[:1].upper() + texts[1:]


def change_words(report: Report, change: Change) -> Markup:
    when = report.calendar.words(change.dates)
    if change.phrases[0].text == GONE_FOR_GOOD:
        when = f"(it ran {when})"
    return fill("change", what=change_text(change), when=when)


# ---- calls


def time_text(time: bytes) -> str:
    """A working or public time, such as `10:04½`."""
    text = text_of(time)
    return f"{text[:2]}:{text[2:4]}{'½' if text.endswith('H') else ''}" if text else ""


def cells_of(call: Call | None, with_public: bool) -> tuple[str, str, str]:
    """The arrival, the departure or the pass, and the platform."""
    if call is None:
        return "", "", ""
    leaves = time_text(call.departure)
    if call.passes:
        leaves = time_text(call.passing).replace(":", "/")
    times = [time_text(call.arrival), leaves]
    if with_public:
        public = map(time_text, public_times(call))
        times = [f"{time} ({shown})" if shown else time for time, shown in zip(times, public)]
    return times[0], times[1], text_of(call.platform)


def call_cells(cells: Sequence[str], others: Sequence[str]) -> Iterator[Markup]:
    for cell, other in zip(cells, others):
        text = joined([cell])
        yield Markup(f"<td><mark>{text}</mark>" if text and cell != other else f"<td>{text}")


def call_row(report: Report, old: Call | None, new: Call | None) -> Markup:
    """A call in both journeys. Public times stand there if nothing else of its times differs."""
    name = next(report.names.at(call) for call in (new, old) if call)
    with_public = False
    if old and new and old.kind == new.kind and old.times == new.times:
        with_public = public_times(old) != public_times(new)
    was, now = cells_of(old, with_public), cells_of(new, with_public)
    cells = joined((*call_cells(was, now), *call_cells(now, was)))
    return joined((Markup('<tr><th scope="row">'), name, cells))


def one_sided_row(report: Report, call: Call) -> Markup:
    cells = joined(Markup(f"<td>{joined([cell])}") for cell in cells_of(call, False))
    return joined((Markup('<tr><th scope="row">'), report.names.at(call), cells))


COLUMN_NAMES = '<th scope="col">Arr.</th><th scope="col">Dep.</th><th scope="col">Pl.</th>'


def calls_of(report: Report, train: Train, change: Change) -> Markup:
    """The calls of a change, both side by side, or those of the body that there is."""
    bodies = [body_at(report, place) for place in (*change.old[:1], *change.new[:1])]
    both = len(bodies) == 2
    if both:
        rows = [call_row(report, *row) for row in rows_of(bodies[0].calls, bodies[1].calls)]
    else:
        rows = [one_sided_row(report, call) for call in bodies[0].calls]
    sides = ("Before", "After") if both else ("After",) if change.new else ("Before",)
    heads = joined(Markup(f'<th scope="colgroup" colspan="3">{side}</th>') for side in sides)
    dates = f", {report.calendar.words(change.dates)}" if len(train.changes) > 1 else ""
    columns = Markup(COLUMN_NAMES * len(sides))
    return fill("calls", dates=dates, heads=heads, columns=columns, rows=lines(rows))


def body_at(report: Report, place: Place) -> Body:
    return body_of(report.bodies.text(place))


def places_of(bodies: Sequence[Body]) -> list[str]:
    return list(dict.fromkeys(text_of(call.location) for body in bodies for call in body.calls))


# ---- trains


class Places:
    """The places of the trains on the page, each with its number, for the filter."""

    def __init__(self, names: Names) -> None:
        self.names = names
        self.numbers: dict[str, int] = {}
        self.rows: list[str] = []

    def keep(self, count: int) -> None:
        """Forgets all places but the first ones."""
        self.numbers = dict(islice(self.numbers.items(), count))
        del self.rows[count:]

    def number(self, tiploc: str) -> str:
        number = self.numbers.setdefault(tiploc, len(self.numbers))
        if number == len(self.rows):
            row = [self.names.place(tiploc), self.names.crs(tiploc), tiploc]
            self.rows.append(for_script(row))
        return str(number)


def for_script(value: object) -> str:
    """A value as JSON in which no tag can begin or end."""
    text = json.dumps(value, separators=(",", ":"))
    for sign in "<>&":
        text = text.replace(sign, f"\\u{ord(sign):04x}")
    return text


def size_of(parts: Sequence[str]) -> int:
    return sum(len(part.encode()) for part in parts)


class TrainsPart:
    """Writes trains until the page is full."""

    def __init__(self, report: Report, most: int, most_bytes: int) -> None:
        self.report = report
        self.most = most
        self.left = most_bytes
        self.places = Places(report.names)
        self.shown = 0
        # those of the trains, each with its option of the filter
        self.operators: dict[str, Markup] = {}

    def train(self, train: Train) -> Markup:
        names = self.report.names
        bodies = [
            body_at(self.report, place)
            for change in train.changes
            for place in dict.fromkeys((*change.old, *change.new))
        ]
        operators = list(dict.fromkeys(body.operator or NO_OPERATOR for body in bodies))
        for code in operators:
            if code not in self.operators:
                self.operators[code] = self.option(code)
                self.left -= size_of([self.operators[code]])
        calls = [calls_of(self.report, train, change) for change in train.changes[:MOST_CALLS]]
        own = [phrase.own for change in train.changes for phrase in change.phrases if phrase.own]
        face = train.face
        return fill(
            "train",
            uid=train.uid,
            operator=" ".join(operators),
            places=" ".join(map(self.places.number, places_of(bodies))),
            departure=face.departure,
            origin=names.place(face.origin),
            destination=names.place(face.destination),
            identity=face.identity,
            operator_name=names.operator(face.operator),
            own=joined(fill("own", text=text) for text in own),
            calls=joined(calls),
        )

    def fitting(self, train: Train) -> Markup | None:
        """A train, or none if there is no room for it. Then nothing is kept of it."""
        places, operators = len(self.places.rows), len(self.operators)
        made = self.train(train)
        options = islice(self.operators.values(), operators, None)
        size = size_of([made, *self.places.rows[places:], *options])
        if size > self.left:
            self.places.keep(places)
            self.operators = dict(islice(self.operators.items(), operators))
            return None
        self.left -= size
        return made

    def group(self, group: Group) -> Markup | None:
        """A group, or none if there is no room for it with one train."""
        first, room = group.trains[0], self.left
        values = {
            "weekdays": fill("weekdays"),
            "changes": changes_for_script(first),
            "words": lines(change_words(self.report, change) for change in first.changes),
            "weeks": week_rows(self.report, first.changes),
        }
        more = self.more(group.others + len(group.trains))
        self.left -= size_of([fill("group", **values, trains="", more=more)])
        shown: list[Markup] = []
        for train in group.trains:
            made = self.fitting(train)
            if made is not None:
                shown.append(made)
            elif self.left < LEAST_ROOM:
                break
        if not shown:
            self.left = room
            return None
        self.shown += len(shown)
        more = self.more(group.others + len(group.trains) - len(shown))
        return fill("group", **values, trains=lines(shown), more=more)

    def more(self, others: int) -> Markup:
        text = f"and {number_word(others, 'other train')} with this change"
        return fill("more", text=text) if others else Markup()

    def groups(self) -> Markup:
        """As many groups as there is room for, those of each peak under its heading. A very large
        train leaves its room to others."""
        peaks = self.report.peaks
        made: dict[int | None, list[Markup]] = {at: [] for at in (*range(len(peaks)), None)}
        for group in groups_of(self.report.groups, peaks, self.most):
            added = self.group(group)
            if added is not None:
                made[group.peak].append(added)
            elif self.left < LEAST_ROOM:
                break
        if not peaks:
            return lines(made[None])
        return lines(
            self.of_peak(at, groups) for at, groups in made.items() if at is not None or groups
        )

    def of_peak(self, at: int | None, groups: Sequence[Markup]) -> Markup:
        """The groups of a peak under its heading, or the others."""
        if at is None:
            return fill("other_groups", groups=lines(groups))
        peak = self.report.peaks[at]
        title = f"{KIND_NAMES[peak.kind]} {self.report.calendar.words(peak.dates)}"
        none = f"These trains aren’t on this page; {self.report.csv_name} has them."
        shown = lines(groups) if groups else fill("no_groups", text=none)
        return fill("groups_of_peak", number=at + 1, title=title, groups=shown)

    def operator_name(self, code: str) -> str:
        return "No operator" if code == NO_OPERATOR else self.report.names.operator(code)

    def option(self, code: str) -> Markup:
        return fill("option", value=code, name=self.operator_name(code))

    def options(self) -> tuple[Markup, Markup]:
        """Those of the filter: operators and kinds."""
        operators = joined(
            self.operators[code] for code in sorted(self.operators, key=self.operator_name)
        )
        found = self.report.numbers.of_kind
        kinds = [kind for kind in KINDS if found[kind] or kind == DATA]
        return operators, joined(
            fill("option", value=kind, name=KIND_NAMES[kind]) for kind in kinds
        )

    def data(self) -> Markup:
        """What the script reads."""
        first = for_script(self.report.comparison.window.days[0].isoformat())
        changed = len(self.report.comparison.trains)
        places = Markup(",\n".join(self.places.rows))
        return fill("data", first=Markup(first), changed=changed, places=places)


def note_of(report: Report) -> str:
    return (
        "Those that change most come first, and trains with the same change on the same dates stand together. In a week "
        "+ is a date on which a train runs and didn’t, × one on which it no longer runs, and • one on which it is different. "
        "Of calls, 10/04 is a time of passing, and marked cells differ."
    )


def trains_section(report: Report, most: int, most_bytes: int) -> tuple[Markup, Markup]:
    """The part, and the data for the script."""
    count = len(report.comparison.trains)
    if not count:
        return Markup(), Markup()
    part = TrainsPart(report, most, most_bytes)
    groups = part.groups()
    operators, kinds = part.options()
    left_out = count - part.shown
    rest = f"All {count:,} changed trains are on this page." if count > 1 else ""
    if left_out:
        rest = f"{number_word(left_out, 'changed train')} of {count:,} {'is' if left_out == 1 else 'are'}n’t on this page"
    rest += (
        f" {report.csv_name} has every change in rows."
        if not left_out
        else f"; {report.csv_name} has all."
    )
    days = report.comparison.window.days
    made = fill(
        "trains",
        note=note_of(report),
        operators=operators,
        kinds=kinds,
        first=days[0].isoformat(),
        last=days[-1].isoformat(),
        groups=groups,
        rest=rest.strip(),
    )
    return made, part.data()
