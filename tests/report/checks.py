"""A page against what `cif` says, number by number and date by date."""
from __future__ import annotations

import re
import subprocess
import sys
from collections import Counter
from datetime import date, timedelta
from decimal import ROUND_HALF_EVEN, Decimal
from html import unescape
from pathlib import Path
from typing import Callable, Dict, List, Mapping, Optional, Tuple, TypeVar

from gtfs.checks import PACKAGES, PROGRAMS, Counts, Word

from .definition import Expected, Peak
from .page import Group, Page, bars, heights, number_of
from .page import Peak as PagePeak

# The numbers of the page that aren't of trains.
OTHERS = "associations", "tiplocs"

Key = TypeVar("Key")
Value = TypeVar("Value")


class Maker:
    """Runs cif-report in a folder."""

    def __init__(self, cif: Path, folder: Path) -> None:
        self.cif, self.folder = cif, folder

    def run(
        self,
        *words: Word,
        stdin: Optional[str] = None,
        preexec_fn: Optional[Callable[[], None]] = None,
    ) -> subprocess.CompletedProcess[str]:
        """How a run ends that has this text as its standard input, and calls a function first."""
        return subprocess.run(
            [PROGRAMS / "cif-report", "--cif", self.cif, *words],
            cwd=self.folder,
            input=stdin,
            capture_output=True,
            check=False,
            text=True,
            preexec_fn=preexec_fn,
        )

    def run_bytes(self, stdin: bytes, *words: Word) -> subprocess.CompletedProcess[bytes]:
        """The same in bytes."""
        return subprocess.run(
            [PROGRAMS / "cif-report", "--cif", self.cif, *words],
            cwd=self.folder,
            input=stdin,
            capture_output=True,
            check=False,
        )

    def small_page(self, most_bytes: int, *words: Word) -> Page:
        """What a page says that may have so many bytes only."""
        program = f"import sys; sys.path.insert(0, {str(PACKAGES)!r}); from cif_timetable.report import page, command_line;"
        program += f" page.MOST_BYTES = {most_bytes}; sys.exit(command_line.main())"
        call: List[Word] = [
            sys.executable,
            "-B",
            "-c",
            program,
            "--cif",
            self.cif,
            "-o",
            "small.html",
            *words,
        ]
        subprocess.run(call, cwd=self.folder, capture_output=True, check=True)
        return Page(self.folder / "small.html")

    def page(self, *words: Word) -> Page:
        """What a page that is made says."""
        done = self.run("-o", "made.html", *words)
        if done.returncode:
            raise RuntimeError(f"cif-report {words} ends with {done.returncode}: {done.stderr}")
        return Page(self.folder / "made.html")


def same_values(
    counts: Counts, name: str, want: Mapping[Key, Value], got: Mapping[Key, Value]
) -> None:
    """Whether two dictionaries are equal. What is printed is the first key for which they aren't."""
    unlike = [key for key in {**want, **got} if want.get(key) != got.get(key)]
    found = [f"{key}: wanted {want.get(key)}, got {got.get(key)}" for key in unlike[:1]]
    counts.test(name, not unlike, "".join(found))


def check_expected(counts: Counts, name: str, expected: Expected) -> None:
    """What the tables say is what `cif day` and `cif diff` say, and something differs."""
    for extract in expected.old, expected.new:
        wrong = [
            day
            for day in expected.dates
            if extract.listed(day)
            != sorted(uid for uid, bodies in extract.bodies.items() if day in bodies)
        ]
        counts.same(f"{name}, dates on which cif day lists other trains", [], wrong)
    differing = {}
    for uid in {*expected.old.bodies, *expected.new.bodies}:
        old, new = (extract.bodies.get(uid, {}) for extract in (expected.old, expected.new))
        days = {day for day in {*old, *new} if old.get(day) != new.get(day)}
        if days:
            differing[uid] = days
    same_values(counts, f"{name}, trains and dates of cif diff", differing, expected.by_diff())


def check_summary(counts: Counts, name: str, expected: Expected, page: Page) -> None:
    figures = expected.figures()
    want = {kind: figures.get(kind, 0) for kind in page.figures if kind not in OTHERS}
    got = {kind: number for kind, number in page.figures.items() if kind not in OTHERS}
    counts.same(f"{name}, numbers of trains by kind", want, got)
    new = {
        uid for uid, kind in expected.changes if kind == "runs" and uid not in expected.old.bodies
    }
    gone = {
        uid
        for uid, kind in expected.changes
        if kind == "cancelled" and uid not in expected.new.bodies
    }
    for kind, text, count in ("runs", "of them new", len(new)), (
        "cancelled",
        "of them for good",
        len(gone),
    ):
        label = f", {count:,} {text}" if count else "\0"
        counts.test(
            f"{name}, {text}", (label in page.labels[kind]) == bool(count), (count, page.labels)
        )
    trains = {"Before": f"{len(expected.old.bodies):,}", "After": f"{len(expected.new.bodies):,}"}
    counts.same(f"{name}, trains of the files", trains, page.trains_of_files)
    differing = (
        f"{len(expected.trains):,} trains are different"
        if len(expected.trains) > 1
        else "1 train is different"
    )
    counts.test(f"{name}, trains in the first sentence", differing in page.text, differing)
    dates = [day for day in expected.dates if expected.on(day)]
    part = f"on {len(dates):,} of the" if len(dates) < len(expected.dates) else "on all"
    counts.test(f"{name}, dates in the first sentence", part in page.text, part)


def check_days(counts: Counts, name: str, expected: Expected, page: Page) -> None:
    """The table behind the charts, the calendar, and the charts themselves."""
    want, calendar = {}, {}
    for day in expected.dates:
        before, after = expected.old.trains_on(day), expected.new.trains_on(day)
        want[day] = [before, after, after - before, expected.on(day)]
        if expected.on(day):
            calendar[day] = expected.on(day)
    same_values(counts, f"{name}, trains a day", want, page.numbers)
    same_values(counts, f"{name}, the calendar", calendar, page.calendar)
    most = max(calendar.values())
    levels = {day: -(-4 * count // most) for day, count in calendar.items()}
    same_values(counts, f"{name}, colours of the calendar", levels, page.levels)
    codes = {
        body.schedule["operator_code"]
        for extract in (expected.old, expected.new)
        for bodies in extract.bodies.values()
        for body in bodies.values()
    }
    of_operators = {code: series_of(expected, code) for code in sorted(codes)}
    # the charts of operators have one scale
    reach = reach_of([each for series in of_operators.values() for each in differences_of(*series)])
    for code, series in of_operators.items():
        shown = code in page.charts
        counts.same(f"{name}, a chart of {code}", series[0] != series[1], shown)
        if shown:
            check_chart(counts, f"{name}, {code}", page.charts[code], *series, reach)
    series = series_of(expected)
    reach = reach_of(differences_of(*series))
    check_chart(counts, f"{name}, all trains", page.charts["all"], *series, reach)
    check_weeks(counts, name, expected, page, *series)


Series = Tuple[List[int], List[int]]


def series_of(expected: Expected, code: Optional[str] = None) -> Series:
    """How many trains run on each date, before and after: all, or those of an operator."""
    before, after = (
        [extract.trains_on(day, code) for day in expected.dates]
        for extract in (expected.old, expected.new)
    )
    return before, after


def differences_of(before: List[int], after: List[int]) -> List[int]:
    return [new - old for old, new in zip(before, after)]


def reach_of(differences: List[int]) -> int:
    """What the whole height stands for: the most trains more and the most fewer."""
    return max(0, *differences) + max(0, *(-each for each in differences))


def check_chart(
    counts: Counts, name: str, chart: str, before: List[int], after: List[int], reach: int
) -> None:
    most = max(*before, *after, 1)
    for part, numbers in ("before", before), ("after", after):
        want = [1000 - round(1000 * number / most) for number in numbers]
        counts.same(f"{name}, chart {part}", want, heights(chart, part, len(numbers)))
    differences = differences_of(before, after)
    scale = 1000 / max(reach, 1)
    for part, sign in ("more", 1), ("less", -1):
        wanted = {
            number: round(each * scale)
            for number, each in enumerate(differences)
            if each * sign > 0
        }
        counts.same(f"{name}, bars of {part}", wanted, bars(chart, part))


def percent(before: int, after: int) -> str:
    """As the page says it, to one decimal below ten."""
    if before == after:
        return "as many trains"
    if not before or not after:
        return "no trains any more" if before else "no trains before"
    part = Decimal(100 * abs(after - before)) / before
    tenths = part.quantize(Decimal("0.1"), ROUND_HALF_EVEN)
    text = f"{tenths}" if tenths < 10 else f"{part.quantize(Decimal(1), ROUND_HALF_EVEN):,}"
    return f"{'<0.1' if tenths == 0 else text}% {'more' if after > before else 'fewer'} trains"


def check_weeks(
    counts: Counts, name: str, expected: Expected, page: Page, before: List[int], after: List[int]
) -> None:
    """The table of weeks, from Monday to Sunday, and the per cent of all trains and of operators."""
    weeks: Dict[date, List[int]] = {}
    for day, *numbers in zip(expected.dates, before, after):
        week = weeks.setdefault(day - timedelta(days=day.weekday()), [0, 0])
        weeks[day - timedelta(days=day.weekday())] = [sum(each) for each in zip(week, numbers)]
    want = [[f"{old:,}", f"{new:,}", percent(old, new)] for old, new in weeks.values()]
    counts.same(f"{name}, the weeks", want, [list(map(unescape, each)) for each in page.weeks])
    caption = percent(sum(before), sum(after))
    text = unescape(page.charts["all"])
    if sum(before) != sum(after):
        counts.test(f"{name}, all trains in per cent", f"> <span>{caption}<" in text, caption)


# How much a kind of change counts.
WEIGHTS = {
    "cancelled": 16,
    "runs": 16,
    "places": 8,
    "times": 8,
    "platforms": 4,
    "numbers": 2,
    "data": 1,
}


def rank_of(expected: Expected, group: Group) -> int:
    """How much the trains of a group change: date by date, by the kind that counts most."""
    uid = group.trains[0].uid
    kinds = {kind: days for (each, kind), days in expected.changes.items() if each == uid}
    of_train = sum(
        max(WEIGHTS[kind] for kind, days in kinds.items() if day in days)
        for day in expected.trains[uid]
    )
    return of_train * (len(group.trains) + group.others)


def check_peaks(counts: Counts, name: str, expected: Expected, page: Page) -> None:
    """What stands out, in numbers and words, and its trains, which stand before the others."""
    want = expected.peaks(WEIGHTS)
    got = [(peak.kind, peak.highest) for peak in page.peaks]
    counts.same(f"{name}, what stands out", [(peak.kind, peak.highest) for peak in want], got)
    marks = re.findall(r'class="at level-of-\d" style="left:([\d.]+)%"><b>(\d+)</b>', page.markup)
    places = {
        round(100 * (expected.dates.index(peak.highest) + 0.5) / len(expected.dates), 2): number
        for number, peak in enumerate(want, start=1)
    }
    counts.same(f"{name}, marks", places, {float(left): int(number) for left, number in marks})
    for number, (peak, shown) in enumerate(zip(want, page.peaks)):
        name_of = f"{name}, peak {number + 1}"
        check_peak(counts, name_of, expected, peak, shown)
        for group in page.groups_of_peaks[number]:
            days = group.kinds.get(peak.kind, set())
            inside = 2 * len(days & peak.dates) >= len(days) > 0
            counts.test(f"{name_of}, the group of {group.trains[0].uid}", inside, group.words)
    for group in page.groups_of_peaks[-1]:
        of_peak = [
            peak.kind
            for peak in want
            for days in [group.kinds.get(peak.kind, set())]
            if days and 2 * len(days & peak.dates) >= len(days)
        ]
        counts.same(f"{name}, peaks of the group of {group.trains[0].uid}", [], of_peak)
    if want:
        counts.test(f"{name}, the first sentence", page.lead.startswith(page.peaks[0].sentence))


def check_peak(counts: Counts, name: str, expected: Expected, peak: Peak, shown: PagePeak) -> None:
    """The numbers of trains by kind, what is usual, operators and journeys."""
    trains = {kind: found for kind in WEIGHTS if (found := expected.with_kind(kind, peak.dates))}
    counts.same(f"{name}, trains", {kind: len(uids) for kind, uids in trains.items()}, shown.trains)
    usual = {}
    if len(peak.dates) == 1:
        usual = {kind: expected.usual(kind, peak.highest) for kind in trains}
    counts.same(f"{name}, what is usual", usual, shown.usual)
    count = len(trains[peak.kind])
    text = f" {count:,} (.* )?train" + ("s " if count > 1 else " ")
    counts.test(f"{name}, in words", re.search(text, shown.sentence), shown.sentence)
    operators = Counter(
        expected.body_on(uid, peak).schedule["operator_code"] for uid in trains[peak.kind]
    )
    for code, of_operator in operators.items():
        if 2 * of_operator > count > of_operator:
            text = f", {of_operator:,} of them run by "
            counts.test(f"{name}, {code} in words", text in shown.sentence, shown.sentence)
    most = [each for _, each in operators.most_common(3)]
    numbers = [
        number_of(each) for each in re.findall(r" ([\d,]+)(?=,| and|$)", shown.operators[peak.kind])
    ]
    counts.same(f"{name}, operators", most, numbers[:3])
    journeys: Dict[Tuple[str, str], List[str]] = {}
    for uid in trains[peak.kind]:
        calls = expected.body_on(uid, peak).calls
        leaves = calls[0]["public_departure"].replace("0000", "") or calls[0]["departure"][:4]
        ends = calls[0]["location"], calls[-1]["location"]
        journeys.setdefault(ends, []).append(f"{leaves[:2]}:{leaves[2:]}")
    wanted = sorted(
        (len(leaves), min(leaves) + (f" to {max(leaves)}" if len(leaves) > 1 else ""))
        for leaves in journeys.values()
    )
    got = sorted(shown.journeys.values())
    if len(wanted) > 6:
        counts.same(f"{name}, all journeys", count, sum(number for number, _ in got))
        wanted, got = wanted[-5:], sorted(each for each in got if each[1])[-5:]
    counts.same(f"{name}, journeys", wanted, got)
    if len(peak.dates) == 1:
        before, after = (side.trains_on(peak.highest) for side in (expected.old, expected.new))
        word = "more" if after > before else "fewer"
        text = (
            f"{abs(after - before):,} {word} than before"
            if after != before
            else "as many as before"
        )
        counts.test(f"{name}, trains of the date", text in shown.numbers, shown.numbers)
        counts.test(f"{name}, trains after", f" {after:,} train" in shown.numbers, shown.numbers)


def check_trains(counts: Counts, name: str, expected: Expected, page: Page) -> None:
    """Every change in the CSV file, and the trains on the page with their dates."""
    changes = expected.changes
    same_values(counts, f"{name}, changes in the CSV file", changes, page.by_kind(expected.dates))
    shown = page.trains()
    uids = [train.uid for train in shown]
    counts.same(f"{name}, trains that stand twice", sorted(set(uids)), sorted(uids))
    first, last = expected.dates[0], expected.dates[-1]
    for group in page.groups:
        for train in group.trains:
            want = {kind: days for (uid, kind), days in changes.items() if uid == train.uid}
            same_values(counts, f"{name}, dates of {train.uid}", want, group.kinds)
        if group.all_weeks:
            marks = {"cancelled": "×", "runs": "+"}
            wanted = {
                day: marks.get(kind, "•") for kind, days in group.kinds.items() for day in days
            }
            name_of = f"{name}, weeks of {group.trains[0].uid}"
            same_values(counts, name_of, wanted, group.marks(first, last))
    for groups in page.groups_of_peaks:
        ranks = [rank_of(expected, group) for group in groups]
        counts.same(f"{name}, the largest change first", sorted(ranks, reverse=True), ranks)
    left_out = len(expected.trains) - len(uids)
    rest = f"{left_out:,} changed train" if left_out else "changed trains are on this page"
    counts.test(f"{name}, trains that aren't on the page", rest in page.text, rest)


def check_operators_and_places(counts: Counts, name: str, expected: Expected, page: Page) -> None:
    """What the filter goes by."""
    assert page.data is not None
    tiplocs = [place[2] for place in page.data["places"]]
    for train in page.trains():
        days = expected.trains[train.uid]
        other = {new for old, new, *_ in expected.renumbered if old == train.uid}
        found = [
            extract.bodies.get(uid, {}).get(day)
            for extract in (expected.old, expected.new)
            for uid in {train.uid, *other}
            for day in days
        ]
        bodies = [body for body in found if body]
        operators = {body.schedule["operator_code"] or "none" for body in bodies}
        counts.test(
            f"{name}, operators of {train.uid}", set(train.operators) <= operators, train.operators
        )
        both = {
            body.schedule["operator_code"] or "none"
            for extract in (expected.old, expected.new)
            for day in days
            if (body := extract.bodies.get(train.uid, {}).get(day))
        }
        counts.test(
            f"{name}, all operators of {train.uid}", both <= set(train.operators), train.operators
        )
        places = {call["location"] for body in bodies for call in body.calls}
        got = {tiplocs[number] for number in train.places}
        counts.test(f"{name}, places of {train.uid}", got <= places, got)


def check_others(counts: Counts, name: str, expected: Expected, page: Page) -> None:
    want = {"associations": len(expected.associations()), "tiplocs": len(expected.places())}
    got = {kind: page.figures[kind] for kind in OTHERS}
    counts.same(f"{name}, numbers of other changes", want, got)
    pairs = sorted((base, associated) for base, associated, _, _ in expected.associations())
    shown = sorted((base, associated) for base, associated, _ in page.associations)
    counts.same(f"{name}, associations", pairs, shown)
    found = {
        (row["uid"], row["associated_uid"], row["location"], row["kind"])
        for row in page.rows
        if row["subject"] == "association"
    }
    counts.same(f"{name}, associations in the CSV file", set(expected.associations()), found)
    counts.same(
        f"{name}, places", sorted(expected.places()), sorted(tiploc for tiploc, _ in page.places)
    )
    places = {row["location"]: row["kind"] for row in page.rows if row["subject"] == "place"}
    counts.same(f"{name}, places in the CSV file", expected.places(), places)


def check_size(counts: Counts, maker: Maker, expected: Expected, *words: Word) -> None:
    """A page that would have too many bytes, also by its title, has fewer trains, and says so; the
    CSV file has all."""
    most = 400_000
    page = maker.small_page(most, "--title", "&" * 10_000, *words)
    size = len(page.markup.encode())
    counts.test("a small page, its size", most * 0.8 < size <= most, size)
    left_out = len(expected.trains) - len(page.trains())
    counts.test("a small page, trains", 0 < left_out < len(expected.trains), left_out)
    rest = f"{left_out} changed trains of {len(expected.trains)} aren’t on this page"
    counts.test("a small page, in words", rest in page.text, page.text[-400:])
    changes = expected.changes
    same_values(counts, "a small page, the CSV file", changes, page.by_kind(expected.dates))


def check_trains_and_days(counts: Counts, name: str, expected: Expected, page: Page) -> None:
    """All of a page but associations and places."""
    check_expected(counts, name, expected)
    check_summary(counts, name, expected, page)
    check_days(counts, name, expected, page)
    check_peaks(counts, name, expected, page)
    check_trains(counts, name, expected, page)
    check_operators_and_places(counts, name, expected, page)


def check_page(counts: Counts, name: str, expected: Expected, page: Page) -> None:
    """All of a page."""
    check_trains_and_days(counts, name, expected, page)
    check_others(counts, name, expected, page)
