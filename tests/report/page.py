"""What a page and the CSV file beside it say, as values."""
from __future__ import annotations

import csv
import json
import re
from collections import defaultdict
from datetime import date, timedelta
from html import unescape
from pathlib import Path
from typing import Dict, Iterator, List, Optional, Set, Tuple, TypedDict

from .definition import dates_of

MONTHS = (
    "January February March April May June July August September October November December".split()
)


def text_of(markup: str) -> str:
    """The text of a part of the page, on one line."""
    return " ".join(unescape(re.sub(r"<[^>]*>", " ", markup)).split())


def number_of(text: str) -> int:
    return int(text.replace(",", "").replace("−", "-").replace("+", ""))


def month_day(text: str, days: List[date]) -> date:
    """A date such as `6 June`, among these."""
    words = text.split()
    return next(
        day
        for day in days
        if (day.day, MONTHS[day.month - 1]) == (int(words[0]), words[1])
        and (len(words) < 3 or day.year == int(words[2]))
    )


class Data(TypedDict):
    """What the script of a page has."""

    firstDate: str
    changed: int
    places: List[List[str]]


class Group:
    """Trains with the same changes: these in words, their kinds with dates, and the trains' parts of the page."""

    def __init__(self, markup: str, first: date) -> None:
        [changes] = re.findall(r'data-changes="([^"]*)"', markup)
        self.kinds = {}
        for change in changes.split(";"):
            kind, *ranges = change.split(" ")
            self.kinds[kind] = {first + number * timedelta(1) for number in numbers_in(ranges)}
        words = re.findall(r'<p><strong>(.*?)</strong> <span class="when">(.*?)</span></p>', markup)
        self.words = [(unescape(change), unescape(when)) for change, when in words]
        [weeks] = re.findall(r'(?s)<table class="weeks">(.*?)</table>', markup)
        self.weeks = re.findall(r'<tr><th scope="row">(.*?)((?:<td[^>]*>[^<\n]*)+)', weeks)
        self.all_weeks = "colspan" not in weeks
        self.trains = [Train(each) for each in re.split(r'(?=<li class="train")', markup)[1:]]
        others = re.findall(r'class="more-trains">and ([\d,]+) other', markup)
        self.others = number_of(others[0]) if others else 0

    def marks(self, first: date, last: date) -> Dict[date, str]:
        """What its calendar has at which dates."""
        found: Dict[date, str] = {}
        mondays = [first + number * timedelta(1) for number in range(-6, (last - first).days + 1)]
        for label, cells in self.weeks:
            name, _, count = unescape(label).partition(", ")
            monday = month_day(name, [day for day in mondays if day.weekday() == 0])
            marks = re.findall(r"<td[^>]*>([^<\n]*)", cells)
            for week in range(int(count.split()[0]) if count else 1):
                days = (monday + (7 * week + number) * timedelta(1) for number in range(7))
                found |= {day: mark for day, mark in zip(days, marks) if mark.strip()}
        return found


def numbers_in(ranges: List[str]) -> Iterator[int]:
    for each in ranges:
        first, _, last = each.partition("-")
        yield from range(int(first), int(last or first) + 1)


class Peak:
    """Dates that stand out: the kind, the date with the most, the sentence, how many trains differ by
    kind, how many usually, of which operators, and how many make each journey."""

    def __init__(self, markup: str) -> None:
        [(number, kind, day)] = re.findall(
            r'id="peak-(\d+)" data-kind="(\w+)" data-date="([\d-]+)"', markup
        )
        self.number, self.kind, self.highest = int(number), kind, date.fromisoformat(day)
        [heading] = re.findall(r"<h3><b[^>]*>\d+</b> (.*?)</h3>", markup)
        [numbers] = re.findall(r"</h3>\n<p>(.*?)</p>", markup)
        self.sentence, self.numbers = unescape(heading), unescape(numbers)
        kinds, journeys = re.findall(r"(?s)<tbody>(.*?)</tbody>", markup)
        self.trains: Dict[str, int] = {}
        self.usual: Dict[str, int] = {}
        self.operators: Dict[str, str] = {}
        for kind, cells in re.findall(r'<tr data-kind="(\w+)"><th.*?</th>(.*?)</tr>', kinds):
            *counts, operators = re.findall(r"<td[^>]*>(.*?)</td>", cells)
            self.trains[kind], *usual = map(number_of, counts)
            self.usual |= {kind: each for each in usual}
            self.operators[kind] = unescape(operators)
        self.journeys = {
            text_of(name): (number_of(count), unescape(times))
            for name, count, times in re.findall(
                r'<tr><t[hd][^>]*>(.*?)</t[hd]><td class="number">(.*?)</td><td>(.*?)</td></tr>',
                journeys,
            )
        }


class Train:
    """A train on the page."""

    def __init__(self, markup: str) -> None:
        self.markup = markup
        get: Dict[str, str] = dict(re.findall(r'data-(\w+)="([^"]*)"', markup))
        self.uid, self.operators = unescape(get["uid"]), unescape(get["operator"]).split(" ")
        self.places = list(map(int, get["places"].split(" ")))
        self.text = text_of(markup)
        # of each table of calls the rows: a place, and its cells, with `*` where they are marked
        self.calls = [
            [
                (
                    unescape(name),
                    [re.sub("<mark>(.*)</mark>", r"*\1", cell) for cell in cells.split("<td>")[1:]],
                )
                for name, cells in re.findall(r'<tr><th scope="row">(.*?)(<td>.*)', table)
            ]
            for table in re.findall(r'(?s)<table class="calls">(.*?)</table>', markup)
        ]


class Page:
    """The page and the CSV file."""

    def __init__(self, path: Path) -> None:
        self.markup = path.read_text(encoding="utf-8")
        self.text = text_of(re.sub(r"(?s)<(style|script).*?</\1>", "", self.markup))
        largest = re.findall(
            r'<li><b>(.*?)</b> (.*?) <span class="when">(.*?)</span></li>', self.markup
        )
        self.largest = [(count, unescape(what), unescape(when)) for count, what, when in largest]
        self.lead = text_of(re.findall(r'<p class="lead">(.*?)</p>', self.markup)[0])
        found = re.findall(
            r'data-figure="(\w+)" class="\w+"><dt>(.*?)</dt><dd>(.*?)</dd>', self.markup
        )
        self.figures = {kind: number_of(number) for kind, _, number in found}
        self.labels = {kind: unescape(label) for kind, label, _ in found}
        rows = re.findall(r'(?s)<tr data-date="([\d-]+)">(.*?)</tr>', self.markup)
        weeks = re.findall(r'(?s)<tr class="week">(.*?)</tr>', self.markup)
        self.weeks = [re.findall(r"<td[^>]*>(.*?)</td>", cells) for cells in weeks]
        self.numbers = {
            date.fromisoformat(day): [
                number_of(cell) for cell in re.findall(r"<td[^>]*>(.*?)</td>", cells)
            ]
            for day, cells in rows
        }
        cells = re.findall(
            r'class="level-(\d)"><a [^>]*data-date="([\d-]+)"[^>]*>.*?<b>([\d,]+)</b>', self.markup
        )
        self.calendar = {date.fromisoformat(day): number_of(count) for _, day, count in cells}
        self.levels = {date.fromisoformat(day): int(level) for level, day, _ in cells}
        charts = r'(?s)<figure class="chart \w+" data-operator="(.*?)">(.*?)</figure>'
        self.charts = {unescape(code): chart for code, chart in re.findall(charts, self.markup)}
        self.trains_of_files = dict(re.findall(r'data-trains="(\w+)">([\d,]+)<', self.markup))
        data = re.findall(
            r'(?s)<script type="application/json" id="data">(.*?)</script>', self.markup
        )
        self.data: Optional[Data] = json.loads(data[0]) if data else None
        first = date.fromisoformat(self.data["firstDate"]) if self.data else date.min
        peaks = re.findall(r'(?s)<article class="peak".*?</article>', self.markup)
        self.peaks = [Peak(each) for each in peaks]
        # the groups of each peak, and then the others
        parts = re.split(r'<div class="groups"(?: id="trains-\d+")?>', self.markup)
        parts = [*parts[1:], ""][: len(peaks) + 1] if peaks else parts
        self.groups_of_peaks = [
            [
                Group(each, first)
                for each in re.findall(r'(?s)<article class="group".*?</article>', part)
            ]
            for part in parts
        ]
        self.groups = [group for part in self.groups_of_peaks for group in part]
        self.associations = re.findall(
            r'<tr data-base="(.*?)" data-associated="(.*?)">(.*?)</tr>', self.markup
        )
        self.places = re.findall(r'<tr data-tiploc="(.*?)">(.*?)</tr>', self.markup)
        with path.with_suffix(".csv").open(encoding="utf-8", newline="") as file:
            self.rows = list(csv.DictReader(file))

    def trains(self) -> List[Train]:
        return [train for group in self.groups for train in group.trains]

    def by_kind(self, dates: List[date]) -> Dict[Tuple[str, str], Set[date]]:
        """Of the CSV file: by train and kind, the dates."""
        found = defaultdict(set)
        for row in self.rows:
            if row["subject"] == "train":
                found[row["uid"], row["kind"]].update(dates_of(row, dates))
        return dict(found)

    def words(self) -> List[str]:
        """The changes of the trains, in words with their dates, as the page has them."""
        return [" ".join(each) for group in self.groups for each in group.words]


def heights(chart: str, name: str, count: int) -> List[int]:
    """The heights of a path of steps, date by date."""
    [path] = re.findall(rf'<path class="{name}" d="(.*?)"', chart)
    found: List[int] = []
    for height, end in re.findall(r"V(\d+)H(\d+)", path.split("Z")[0]):
        if int(end) > len(found):
            found += [int(height)] * (int(end) - len(found))
    return found[:count]


def bars(chart: str, name: str) -> Dict[int, int]:
    """The bars of a path: by the number of the date, how high they are."""
    [path] = re.findall(rf'<path class="{name}" d="(.*?)"', chart)
    found = {}
    for left, zero, top in re.findall(r"M([\d.]+),(\d+)V(-?\d+)h", path):
        found[int(float(left))] = int(zero) - int(top)
    return found
