"""Pairs of extracts that look like those of a railway: a few lines with an operator each, and changes of each kind between the two."""
from __future__ import annotations

from dataclasses import dataclass, field, replace
from datetime import date, timedelta
from random import Random
from typing import Dict, List, Tuple

from reference.dates import Window
from reference.layouts import LAYOUTS, plain

DAY = timedelta(days=1)
WINDOW = date(2026, 5, 18), date(2026, 9, 6)
HOLIDAYS = {date(2026, 5, 25), date(2026, 8, 31)}
# From the day after, and for a day longer.
NEXT_WINDOW = WINDOW[0] + DAY, WINDOW[1] + DAY

# The operator of each line, and its places with the minutes from the one before, the CRS code, and the name.
LINES_TEXT = """
SN
VICTRIC 0 VIC LONDON VICTORIA
CLPHMJC 6 CLJ CLAPHAM JUNCTION
ECROYDN 9 ECR EAST CROYDON
GTWK 15 GTW GATWICK AIRPORT
THBDGS 4 TBD THREE BRIDGES
HYWRDSH 9 HHE HAYWARDS HEATH
PRSTNPK 14 PRP PRESTON PARK
BRGHTN 4 BTN BRIGHTON
TL
BEDFDM 0 BDM BEDFORD
LUTON 24 LUT LUTON
STALBCY 12 SAC ST ALBANS CITY
STPXBOX 19 STP ST PANCRAS INTERNATIONAL
BLFR 9 BFR LONDON BLACKFRIARS
ECROYDN 22 ECR EAST CROYDON
GTWK 16 GTW GATWICK AIRPORT
GW
PADTON 0 PAD LONDON PADDINGTON
ACTONW 6 --- ACTON WEST
SLOUGH 10 SLO SLOUGH
RDNGSTN 12 RDG READING
DIDCOTP 13 DID DIDCOT PARKWAY
SDON 17 SWI SWINDON
BATHSPA 25 BTH BATH SPA
BRSTLTM 12 BRI BRISTOL TEMPLE MEADS
GR
KNGX 0 KGX LONDON KINGS CROSS
PBRO 46 PBO PETERBOROUGH
DONC 52 DON DONCASTER
YORK 24 YRK YORK
NWCSTLE 57 NCL NEWCASTLE
BRWCKUT 43 BWK BERWICK-UPON-TWEED
EDINBUR 45 EDB EDINBURGH WAVERLEY
SR
EDINBUR 0 EDB EDINBURGH WAVERLEY
HAYMRKT 4 HYM HAYMARKET
LNLTHGW 14 LIN LINLITHGOW
FLKRKHG 8 FKK FALKIRK HIGH
CROY 13 CRO CROY
GLGQHL 13 GLQ GLASGOW QUEEN STREET
NT
LEEDS 0 LDS LEEDS
BRADIN 19 BDI BRADFORD INTERCHANGE
HALIFAX 12 HFX HALIFAX
HBDNBDG 12 HBD HEBDEN BRIDGE
TODMDN 7 TOD TODMORDEN
RCHDALE 16 RCD ROCHDALE
MNCRVIC 15 MCV MANCHESTER VICTORIA
"""
PATTERNS = ("1111100", "1111100", "1111111", "0000010", "0000001", "1111110")

# The CRS code and the name of a place; and a line as its places with minutes.
Place = Tuple[str, str]
Line = List[Tuple[str, int]]


@dataclass(frozen=True)
class Call:
    """A call by its place, its times in minutes from the midnight before the train, and its platform. One that only passes has one time."""

    place: str
    arrives: int
    leaves: int
    platform: str = ""
    passes: bool = False


Calls = Tuple[Call, ...]


@dataclass(frozen=True)
class Schedule:
    """A record of a train."""

    uid: str
    first: date
    last: date
    days: str
    calls: Calls
    operator: str
    identity: str = "1A00"
    power: str = "EMU"
    letter: str = "P"


@dataclass
class Extract:
    """An extract before it is written."""

    reference: str
    extracted: str
    window: Window
    places: Dict[str, Place]
    schedules: List[Schedule] = field(default_factory=list)
    associations: List[str] = field(default_factory=list)

    def text(self) -> str:
        first, last = (f"{day:%d%m%y}" for day in self.window)
        header = {"mainframe": "TPS.UTEST01.PD260517", "date_of_extract": self.extracted[:6]}
        header |= {"time_of_extract": self.extracted[6:], "current_file": self.reference}
        header |= {"update": "F", "version": "A", "first": first, "last": last}
        lines = [line_of("HD", header)]
        lines += [place_line(tiploc, *place) for tiploc, place in sorted(self.places.items())]
        lines += self.associations
        for schedule in sorted(self.schedules, key=lambda each: each.uid):
            lines += schedule_lines(schedule)
        return "".join(f"{line}\n" for line in [*lines, line_of("ZZ", {})])


def line_of(kind: str, fields: Dict[str, str]) -> str:
    """A line, with blanks for what isn't given."""
    widths = {field.name: field.last - field.first + 1 for field in LAYOUTS[kind]}
    return plain(kind, {name: fields.get(name, "").ljust(width) for name, width in widths.items()})


def place_line(tiploc: str, crs: str, name: str) -> str:
    short = name[:16].ljust(16)
    return line_of("TI", {"tiploc": f"{tiploc:7}00500000A{name:26}72000   0{crs:3}{short}"})


def clock(minutes: int) -> str:
    return f"{minutes // 60 % 24:02}{minutes % 60:02}"


def times_of(call: Call, kind: str) -> Dict[str, str]:
    """The fields of a call's times."""
    if call.passes:
        none = {"public_arrival": "0000", "public_departure": "0000"}
        return none | {"pass": clock(call.arrives)}
    found: Dict[str, str] = {}
    if kind != "LO":
        found |= {"arrival": clock(call.arrives), "public_arrival": clock(call.arrives)}
    if kind != "LT":
        found |= {"departure": clock(call.leaves), "public_departure": clock(call.leaves)}
    return found


def call_line(call: Call, kind: str) -> str:
    codes = {"LO": "TB", "LT": "TF"}.get(kind, "" if call.passes else "T ")
    fields = {"location": call.place, "platform": call.platform, "activities": codes}
    return line_of(kind, fields | times_of(call, kind))


def schedule_lines(schedule: Schedule) -> List[str]:
    terms = {"transaction": "N", "uid": schedule.uid, "letter": schedule.letter}
    terms |= {"first": f"{schedule.first:%y%m%d}", "last": f"{schedule.last:%y%m%d}"}
    terms |= {"days": schedule.days}
    if schedule.letter == "C":
        return [line_of("BS", terms)]
    terms |= {"status": "P", "category": "XX", "identity": schedule.identity}
    terms |= {"power": schedule.power, "speed": "100", "class": "B"}
    kinds = ["LO", *["LI"] * (len(schedule.calls) - 2), "LT"]
    return [
        line_of("BS", terms),
        line_of("BX", {"operator_code": schedule.operator, "timetable_code": "Y"}),
        *(call_line(call, kind) for call, kind in zip(schedule.calls, kinds)),
    ]


def association_line(
    base: str, associated: str, location: str, span: Window, category: str = "VV"
) -> str:
    first, last = (f"{day:%y%m%d}" for day in span)
    fields = {"transaction": "N", "base": base, "associated": associated, "first": first}
    fields |= {"last": last, "days": "1111111", "category": category, "date_indicator": "S"}
    return line_of(
        "AA", fields | {"location": location, "diagram": "T", "type": "P", "letter": "P"}
    )


# ---- the timetable before


def read_lines() -> Tuple[Dict[str, Line], Dict[str, Place]]:
    """The lines by their operators, and all places with their CRS codes and names."""
    lines: Dict[str, Line] = {}
    places: Dict[str, Place] = {}
    operator = ""
    for row in LINES_TEXT.split("\n"):
        words = row.split(" ", 3)
        if len(words) > 1:
            lines[operator].append((words[0], int(words[1])))
            places[words[0]] = (words[2].replace("-", " "), words[3])
        elif row:
            operator = row
            lines[operator] = []
    return lines, places


LINES, PLACES = read_lines()


def journey(line: Line, start: int, number: int) -> Calls:
    """The calls of a train that starts after so many minutes. Those without a CRS code are passed."""
    calls, now = [], start
    for at, (place, minutes) in enumerate(line):
        now += minutes
        passes = not PLACES[place][0].strip()
        stop = 0 if passes or at in (0, len(line) - 1) else 1
        platform = "" if passes else str(1 + (number + at) % 8)
        calls.append(Call(place, now, now + stop, platform, passes))
        now += stop
    return tuple(calls)


def backwards(line: Line) -> Line:
    places = [place for place, _ in reversed(line)]
    minutes = [0, *(minutes for _, minutes in reversed(line[1:]))]
    return list(zip(places, minutes))


def regular(rng: Random, number: int) -> Schedule:
    """A train with one record."""
    operator = list(LINES)[number % len(LINES)]
    line = LINES[operator] if rng.random() < 0.5 else backwards(LINES[operator])
    first, last = WINDOW[0] - 30 * DAY, WINDOW[1] + 60 * DAY
    if rng.random() < 0.2:
        first = WINDOW[0] + rng.randrange(20, 60) * DAY
    calls = journey(line, rng.randrange(300, 1430), number)
    identity = f"{rng.choice('12')}{rng.choice('ABCDEFGHJKLMNPRSTUVW')}{rng.randrange(100):02}"
    uid = f"{rng.choice('CGLWY')}{10000 + number:05}"
    return Schedule(uid, first, last, rng.choice(PATTERNS), calls, operator, identity)


def without_holidays(schedules: List[Schedule], operators: Tuple[str, str]) -> List[Schedule]:
    """These operators run nothing on bank holidays."""
    found = []
    for schedule in schedules:
        for day in sorted(HOLIDAYS):
            if schedule.operator in operators and schedule.days[day.weekday()] == "1":
                days = "".join("1" if number == day.weekday() else "0" for number in range(7))
                found.append(replace(schedule, first=day, last=day, days=days, letter="C"))
    return found


def before(rng: Random, count: int) -> Extract:
    """The extract before, with so many schedules."""
    trains = [regular(rng, number) for number in range(count * 9 // 10)]
    extract = Extract("DFTEST1", "1705262110", WINDOW, dict(PLACES), trains)
    more = without_holidays(trains, ("GR", "NT"))
    extract.schedules = trains + more[: count - len(trains)]
    stations = [(train, train.calls[2].place) for train in trains[: count // 100]]
    for train, place in stations:
        other = rng.choice(trains)
        span = WINDOW[0], WINDOW[1]
        extract.associations.append(association_line(train.uid, other.uid, place, span))
    return extract


# ---- the timetable after


def moved(calls: Calls, minutes: int, start: int = 0) -> Calls:
    """The calls so many minutes later, from one of them on."""
    return tuple(
        replace(
            call,
            arrives=call.arrives + (minutes if at > start or not start else 0),
            leaves=call.leaves + minutes,
        )
        if at >= start
        else call
        for at, call in enumerate(calls)
    )


def overlay(train: Schedule, first: date, last: date, calls: Calls) -> Schedule:
    """The train with another body from one date to another."""
    return replace(train, first=first, last=last, letter="O", calls=calls)


def cancelled(train: Schedule, first: date, last: date) -> Schedule:
    return replace(train, first=first, last=last, letter="C")


def summer(rng: Random) -> Window:
    """Some weeks within the window, from a Monday on."""
    first = WINDOW[0] + rng.randrange(2, 10) * 7 * DAY
    return first, first + rng.choice([0, 1, 4]) * 7 * DAY + 6 * DAY


def with_platform(calls: Calls, at: int, platform: str) -> Calls:
    return tuple(
        replace(call, platform=platform) if number == at else call
        for number, call in enumerate(calls)
    )


def without_call(calls: Calls, at: int) -> Calls:
    return tuple(
        replace(call, leaves=call.arrives, passes=True, platform="") if number == at else call
        for number, call in enumerate(calls)
    )


def later(rng: Random, train: Schedule) -> List[Schedule]:
    return [
        train,
        overlay(train, *summer(rng), calls=moved(train.calls, rng.choice([12, 12, 5, 30, -4]))),
    ]


def later_on_the_way(rng: Random, train: Schedule) -> List[Schedule]:
    return [
        train,
        overlay(train, *summer(rng), calls=moved(train.calls, 7, start=rng.choice([2, 3]))),
    ]


def other_platform(rng: Random, train: Schedule) -> List[Schedule]:
    return [replace(train, calls=with_platform(train.calls, rng.choice([0, 2]), "9"))]


def starts_later(rng: Random, train: Schedule) -> List[Schedule]:
    return [train, overlay(train, *summer(rng), calls=train.calls[2:])]


def ends_earlier(rng: Random, train: Schedule) -> List[Schedule]:
    return [train, overlay(train, *summer(rng), calls=train.calls[:-2])]


def fewer_calls(rng: Random, train: Schedule) -> List[Schedule]:
    return [replace(train, calls=without_call(train.calls, 2))]


def another_uid(rng: Random, train: Schedule) -> List[Schedule]:
    return [replace(train, uid="Z" + train.uid[1:])]


def another_identity(rng: Random, train: Schedule) -> List[Schedule]:
    return [replace(train, identity="9" + train.identity[1:])]


def another_power(rng: Random, train: Schedule) -> List[Schedule]:
    return [replace(train, power="BMU")]


def another_operator(rng: Random, train: Schedule) -> List[Schedule]:
    return [replace(train, operator="XC")]


def out_for_weeks(rng: Random, train: Schedule) -> List[Schedule]:
    return [train, cancelled(train, *summer(rng))]


def gone(rng: Random, train: Schedule) -> List[Schedule]:
    return []


def ends_in_july(rng: Random, train: Schedule) -> List[Schedule]:
    return [replace(train, last=date(2026, 7, 11))] if train.first < date(2026, 7, 1) else [train]


def also_on_sundays(rng: Random, train: Schedule) -> List[Schedule]:
    return [train, replace(train, days="0000001", letter="N")] if train.days[6] == "0" else [train]


WAYS = (
    later,
    later_on_the_way,
    other_platform,
    starts_later,
    ends_earlier,
    fewer_calls,
    another_uid,
    another_identity,
    another_power,
    another_operator,
    out_for_weeks,
    gone,
    ends_in_july,
    also_on_sundays,
)


def engineering(schedules: List[Schedule], operator: str, day: date) -> List[Schedule]:
    """No train of the operator runs on a date."""
    weekday = day.weekday()
    return [
        cancelled(train, day, day)
        for train in schedules
        if train.letter == "P"
        and train.operator == operator
        and train.days[weekday] == "1"
        and train.first <= day <= train.last
    ]


def after(rng: Random, old: Extract, each: int) -> Extract:
    """The extract after, in which so many trains have each of the changes."""
    permanent = [train for train in old.schedules if train.letter == "P"]
    chosen = rng.sample(range(len(permanent)), min(each * len(WAYS), len(permanent)))
    ways = {number: WAYS[at % len(WAYS)] for at, number in enumerate(chosen)}
    schedules = [train for train in old.schedules if train.letter != "P"]
    uids = {train.uid for train in schedules}
    for number, train in enumerate(permanent):
        if number in ways and train.uid not in uids:
            schedules += ways[number](rng, train)
        else:
            schedules.append(train)
    untouched = [train for number, train in enumerate(permanent) if number not in ways]
    schedules += engineering(untouched, "SN", date(2026, 6, 13))
    schedules += [
        replace(regular(rng, 50000 + number), first=date(2026, 7, 13)) for number in range(each)
    ]
    places = dict(old.places) | {"STPXBOX": ("STP", "LONDON ST PANCRAS INTL")}
    places |= {"BRENTX": ("BCZ", "BRENT CROSS WEST")}
    del places["ACTONW"]
    extract = Extract("DFTEST2", "1805262105", NEXT_WINDOW, places, schedules)
    extract.associations = old.associations[1:]
    if old.associations:
        train = permanent[-1]
        span = date(2026, 7, 1), date(2026, 7, 10)
        extract.associations.append(
            association_line(train.uid, permanent[-2].uid, train.calls[1].place, span, "JJ")
        )
    return extract


def pair(rng: Random, count: int, each: int) -> Tuple[str, str]:
    """The texts of both extracts: so many schedules, and so many changes of each kind."""
    old = before(rng, count)
    return old.text(), after(rng, old, each).text()
