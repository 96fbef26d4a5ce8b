"""What a page has to say, worked out of what `cif table`, `cif day` and `cif diff` say of each date."""
from __future__ import annotations

import subprocess
from collections import Counter, defaultdict
from datetime import date, timedelta
from functools import cached_property
from pathlib import Path
from typing import DefaultDict, Dict, Iterator, List, NamedTuple, Optional, Set, Tuple

from gtfs.checks import Source
from gtfs.definition import Row, table_rows
from reference.dates import Window

TRAIN_FIELDS = "status category headcode course service_code sector power timing_load speed characteristics class sleepers".split()
TRAIN_FIELDS += "reservations connection catering branding extra traction uic operator_code timetable_code reserved_a reserved_b".split()
CALL_DATA = "suffix line path activities engineering pathing performance".split()


def day_of(text: str) -> date:
    return date.fromisoformat(text)


def dates_of(row: Row, dates: List[date]) -> List[date]:
    """Those of the dates on which a record with first date, last date and days run applies."""
    first, last = day_of(row["first_date"]), day_of(row["last_date"])
    return [day for day in dates if first <= day <= last and row["days_run"][day.weekday()] == "1"]


# The calls and the changes of a body.
Journey = Tuple[Tuple[str, ...], ...]


class Body:
    """What runs: the row of `schedules`, and the rows of `calls` and `changes`."""

    def __init__(self, schedule: Row, calls: List[Row], changes: List[Row]) -> None:
        self.schedule = schedule
        self.calls, self.changes = calls, changes
        fields = [schedule[name] for name in ("identity", *TRAIN_FIELDS)]
        self.journey: Journey = tuple(
            tuple(list(row.values())[1:]) for rows in (calls, changes) for row in rows
        )
        self.whole = (tuple(fields), self.journey)

    def __eq__(self, other: object) -> bool:
        return isinstance(other, Body) and self.whole == other.whole

    def __hash__(self) -> int:
        return hash(self.whole)


class Extract:
    """The bodies of an extract by train and date, for some dates."""

    def __init__(self, cif: Path, path: Path, dates: List[date]) -> None:
        self.source, self.dates = Source(cif, path), dates
        rows = {
            name: table_rows(self.source.lines("table", name))
            for name in ("schedules", "calls", "changes", "associations", "tiplocs", "header")
        }
        [self.header] = rows["header"]
        self.tiplocs = rows["tiplocs"]
        self.associations = rows["associations"]
        parts: Dict[str, DefaultDict[str, List[Row]]] = {
            name: defaultdict(list) for name in ("calls", "changes")
        }
        for name, found in parts.items():
            for row in rows[name]:
                found[row["schedule"]].append(row)
        self.bodies: DefaultDict[str, Dict[date, Body]] = defaultdict(dict)
        for row in rows["schedules"]:
            number = row["schedule"]
            body = Body(row, parts["calls"][number], parts["changes"][number])
            for day in dates_of(row, dates):
                self.bodies[row["uid"]][day] = body

    def listed(self, day: date) -> List[str]:
        """The UIDs that `cif day` lists."""
        rows = table_rows(self.source.lines("day", "--format", "tsv", f"{day:%y%m%d}"))
        return sorted(row["uid"] for row in rows if row["kind"] == "BS")

    def trains_on(self, day: date, operator: Optional[str] = None) -> int:
        """How many trains run on a date, all or those of an operator."""
        found = (bodies.get(day) for bodies in self.bodies.values())
        return sum(
            body is not None and operator in (None, body.schedule["operator_code"])
            for body in found
        )


# ---- what differs between two bodies


def numbered(calls: List[Row]) -> Iterator[Tuple[Tuple[str, int], Row]]:
    seen: Counter[str] = Counter()
    for row in calls:
        yield (row["location"], seen[row["location"]]), row
        seen[row["location"]] += 1


def with_other_times(old: Row, new: Row) -> bool:
    """Whether a working time that both have differs, or a public time of calls of one sort."""
    names = "arrival", "pass", "departure"
    working = any(old[name] and new[name] and old[name] != new[name] for name in names)
    return working or (old["record"] == new["record"] and public(old) != public(new))


def public(row: Row) -> Tuple[str, ...]:
    return tuple(row[name].replace("0000", "") for name in ("public_arrival", "public_departure"))


def pairs_of(old: Body, new: Body) -> List[Tuple[Row, Row]]:
    """The calls at places where both call, or both pass."""
    before, after = list(old.calls), list(new.calls)
    found = []
    # from the start, and then from the end, as long as both are at the same places
    for end in 0, -1:
        while before and after and before[end]["location"] == after[end]["location"]:
            found.append((before.pop(end), after.pop(end)))
    keys, done = [key for key, _ in numbered(before)], 0
    for key, row in numbered(after):
        # those whose order is another one stand alone
        if key in keys[done:]:
            done = keys.index(key) + 1
            found.append((before[done - 1], row))
    return [(was, now) for was, now in found if bool(was["pass"]) == bool(now["pass"])]


def kinds_of(old: Body, new: Body) -> Set[str]:
    """The kinds of the difference between two bodies."""
    pairs, kinds = pairs_of(old, new), set()
    places = [[(row["location"], bool(row["pass"])) for row in body.calls] for body in (old, new)]
    if places[0] != places[1]:
        kinds.add("places")
    if any(with_other_times(was, now) for was, now in pairs):
        kinds.add("times")
    if any(was["platform"] != now["platform"] for was, now in pairs):
        kinds.add("platforms")
    if old.schedule["identity"] != new.schedule["identity"]:
        kinds.add("numbers")
    fields = any(old.schedule[name] != new.schedule[name] for name in TRAIN_FIELDS)
    alike = [(was, now) for was, now in pairs if was["record"] == now["record"]]
    data = any(was[name] != now[name] for was, now in alike for name in CALL_DATA)
    changes = [[tuple(row.values())[1:] for row in body.changes] for body in (old, new)]
    if fields or data or changes[0] != changes[1] or not kinds:
        kinds.add("data")
    return kinds


# ---- what differs between two extracts


class Peak(NamedTuple):
    """Dates that stand out, the kind for which they do, and the date that does most."""

    dates: Set[date]
    kind: str
    highest: date


class Expected:
    """All changes on the dates that both extracts have, or on those from one to another."""

    def __init__(self, cif: Path, old: Path, new: Path, window: Optional[Window] = None) -> None:
        self.cif, self.paths = cif, (old, new)
        headers = [table_rows(Source(cif, path).lines("table", "header"))[0] for path in (old, new)]
        begins = max(row["first_date"] for row in headers)
        ends = min(row["last_date"] for row in headers)
        first, last = window or (day_of(begins), day_of(ends))
        self.dates = [first + timedelta(days=number) for number in range((last - first).days + 1)]
        self.old, self.new = (Extract(cif, path, self.dates) for path in (old, new))

    def alone(
        self, extract: Extract, other: Extract
    ) -> DefaultDict[Tuple[str, Journey], Dict[date, Body]]:
        """By train and journey, the bodies of the dates on which the other extract has none."""
        found: DefaultDict[Tuple[str, Journey], Dict[date, Body]] = defaultdict(dict)
        for uid, bodies in extract.bodies.items():
            for day, body in bodies.items():
                if day not in other.bodies.get(uid, {}):
                    found[uid, body.journey][day] = body
        return found

    @cached_property
    def renumbered(self) -> List[Tuple[str, str, Dict[date, Body], Dict[date, Body]]]:
        """The trains that have another UID: old UID, new UID, and the bodies of each date."""
        lost, got = self.alone(self.old, self.new), self.alone(self.new, self.old)
        free = defaultdict(list)
        for uid, journey in sorted(got, key=lambda key: key[0]):
            free[journey, frozenset(got[uid, journey])].append(uid)
        found = []
        for uid, journey in sorted(lost, key=lambda key: key[0]):
            others = free[journey, frozenset(lost[uid, journey])]
            if others:
                other = others.pop(0)
                found.append((uid, other, lost[uid, journey], got[other, journey]))
        return found

    @cached_property
    def changes(self) -> Dict[Tuple[str, str], Set[date]]:
        """By train and kind, the dates."""
        found: DefaultDict[Tuple[str, str], Set[date]] = defaultdict(set)
        gone: DefaultDict[str, Set[date]] = defaultdict(set)
        come: DefaultDict[str, Set[date]] = defaultdict(set)
        for uid, other, lost, got in self.renumbered:
            gone[uid] |= set(lost)
            come[other] |= set(got)
            found[uid, "numbers"] |= set(lost)
            for day, body in lost.items():
                if body != got[day]:
                    for kind in kinds_of(body, got[day]):
                        found[uid, kind].add(day)
        for uid in sorted({*self.old.bodies, *self.new.bodies}):
            old, new = (extract.bodies.get(uid, {}) for extract in (self.old, self.new))
            for day in {*old, *new}:
                was, now = old.get(day), new.get(day)
                if was and now and was != now:
                    for kind in kinds_of(was, now):
                        found[uid, kind].add(day)
                elif was and not now and day not in gone[uid]:
                    found[uid, "cancelled"].add(day)
                elif now and not was and day not in come[uid]:
                    found[uid, "runs"].add(day)
        return dict(found)

    @cached_property
    def trains(self) -> Dict[str, Set[date]]:
        """By train, the dates on which anything differs."""
        found: DefaultDict[str, Set[date]] = defaultdict(set)
        for (uid, _), days in self.changes.items():
            found[uid] |= days
        return dict(found)

    def figures(self) -> Counter[str]:
        """The numbers of trains with each kind, those with other data alone."""
        kinds = defaultdict(set)
        for uid, kind in self.changes:
            kinds[uid].add(kind)
        found = Counter(kind for each in kinds.values() for kind in each if kind != "data")
        found["data"] = sum(each == {"data"} for each in kinds.values())
        return found

    @cached_property
    def counted(self) -> Dict[str, Dict[str, Set[date]]]:
        """By kind and train, the dates: other data where nothing else of the train differs."""
        of_train = defaultdict(set)
        for uid, kind in self.changes:
            of_train[uid].add(kind)
        found: DefaultDict[str, Dict[str, Set[date]]] = defaultdict(dict)
        for (uid, kind), days in self.changes.items():
            if kind != "data" or of_train[uid] == {"data"}:
                found[kind][uid] = days
        return found

    def with_kind(self, kind: str, days: Set[date]) -> List[str]:
        """The trains with a change of a kind on some of these dates."""
        return [uid for uid, found in self.counted[kind].items() if found & days]

    def usual(self, kind: str, day: date) -> int:
        """The least number of trains that isn't exceeded on three quarters of the dates of this
        weekday; of all dates, where these are less than three weeks."""
        alike = [
            other
            for other in self.dates
            if len(self.dates) < 21 or other.weekday() == day.weekday()
        ]
        if len(self.dates) == 1:
            return 0
        counts = [len(self.with_kind(kind, {other})) for other in alike]
        enough = 3 * len(counts) // 4
        return min(most for most in counts if sum(count <= most for count in counts) >= enough)

    def excess(self, kind: str, day: date) -> int:
        """By how many trains a date stands out: by half of what is usual or more, and by ten, or by a
        tenth of the trains that differ."""
        usual = self.usual(kind, day)
        more = len(self.with_kind(kind, {day})) - usual
        least = 10 if len(self.trains) > 90 else -(-len(self.trains) // 10)
        return more if more >= least and 2 * more >= usual and more > 0 else 0

    def peaks(self, weights: Dict[str, int]) -> List[Peak]:
        """What stands out, the most first."""
        heights: Dict[date, Tuple[int, str]] = {}
        for day in self.dates:
            of_kind = [(weights[kind] * self.excess(kind, day), kind) for kind in weights]
            if any(height for height, _ in of_kind):
                heights[day] = sum(height for height, _ in of_kind), max(of_kind)[1]
        highest = max((height for height, _ in heights.values()), default=0)
        found: List[List[date]] = []
        for day in (day for day, (height, _) in heights.items() if 4 * height >= highest):
            before = found[-1][-1] if found else date.min
            if (day - before).days <= 3 and heights[day][1] == heights[before][1]:
                found[-1].append(day)
            else:
                found.append([day])
        found.sort(key=lambda days: -max(heights[day][0] for day in days))
        return [self.peak(days, heights[days[0]][1]) for days in found[:3]]

    def peak(self, days: List[date], kind: str) -> Peak:
        return Peak(set(days), kind, max(days, key=lambda day: len(self.with_kind(kind, {day}))))

    def body_on(self, uid: str, peak: Peak) -> Body:
        """What a train does on the dates that stand out, or what it did there."""
        days = sorted(self.changes[uid, peak.kind] & peak.dates)
        sides = (self.new, self.old)
        return next(
            side.bodies[uid][day]
            for side in sides
            for day in days
            if day in side.bodies.get(uid, {})
        )

    def on(self, day: date) -> int:
        """How many trains differ on a date."""
        return sum(day in days for days in self.trains.values())

    def associations_of(
        self, extract: Extract
    ) -> DefaultDict[Tuple[str, ...], Dict[date, Tuple[str, ...]]]:
        """By key and date, what holds."""
        found: DefaultDict[Tuple[str, ...], Dict[date, Tuple[str, ...]]] = defaultdict(dict)
        for row in extract.associations:
            names = "base_uid associated_uid location base_suffix associated_suffix".split()
            body = "category date_indicator diagram_type association_type".split()
            for day in dates_of(row, self.dates):
                key = tuple(row[name] for name in names)
                found[key][day] = tuple(row[name] for name in body)
        return found

    def associations(self) -> Dict[Tuple[str, ...], Set[date]]:
        """By key, the dates on which an association is new, gone or another one."""
        sides = [self.associations_of(extract) for extract in (self.old, self.new)]
        old, new = sides
        changes = defaultdict(set)
        for key in {*old, *new}:
            for day in {*old.get(key, {}), *new.get(key, {})}:
                was, now = (side.get(key, {}).get(day) for side in sides)
                if was != now:
                    kind = "new" if not was else "gone" if not now else "changed"
                    changes[(*key[:3], kind)].add(day)
        return dict(changes)

    def places(self) -> Row:
        """The TIPLOCs whose records differ, and how."""
        old, new = ({row["tiploc"]: row for row in each.tiplocs} for each in (self.old, self.new))
        found = {}
        for tiploc in {*old, *new}:
            if old.get(tiploc) != new.get(tiploc):
                kind = "new" if tiploc not in old else "gone" if tiploc not in new else "changed"
                found[tiploc] = kind
        return found

    def by_diff(self) -> Dict[str, Set[date]]:
        """The trains with the dates on which `cif diff --format tsv` says that something differs."""
        window = f"--from={self.dates[0]:%y%m%d}", f"--to={self.dates[-1]:%y%m%d}"
        words = ["diff", "--common", "--format", "tsv", *window]
        found = defaultdict(set)
        for row in table_rows(difference_lines(self.cif, words, self.paths)):
            if row["kind"] == "BS":
                found[row["uid"]].update(dates_of(row, self.dates))
        return dict(found)


def difference_lines(cif: Path, words: List[str], paths: Tuple[Path, Path]) -> List[str]:
    """What `cif diff` prints, whose status is 1 where there is something."""
    done = subprocess.run([cif, *words, *paths], capture_output=True, check=False, text=True)
    if done.returncode > 1:
        raise RuntimeError(done.stderr)
    return done.stdout.splitlines()
