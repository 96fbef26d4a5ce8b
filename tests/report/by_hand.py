"""Pairs of extracts that differ in one thing each, with what the page says of it in words."""
from __future__ import annotations

import re
from collections import Counter
from dataclasses import replace
from datetime import date, timedelta
from functools import partial
from pathlib import Path
from typing import Callable, List, Mapping, Optional, Sequence, Union

from gtfs.checks import TOP, Counts, Word
from reference.dates import Window

from .checks import Maker
from .page import Page, Train
from .timetables import Call, Calls, Extract, Place, Schedule, association_line

DAY = timedelta(days=1)
# From a Monday to a Sunday, four weeks later.
WINDOW = date(2026, 6, 1), date(2026, 6, 28)
PLACES = {
    "ALPHA": ("ALP", "ALPHA"),
    "BETA": ("BET", "BETA"),
    "GAMMA": ("GAM", "GAMMA"),
    "DELTA": ("DEL", "DELTA"),
    "NORTH": ("   ", "NORTH JUNCTION"),
    "SOUTH": ("   ", "SOUTH JUNCTION"),
}
WEEKDAYS = "1111100"


def june(day: int) -> date:
    return date(2026, 6, day)


def journey(*times: int, platform: str = "5") -> Calls:
    """A train by Alpha, Beta, North Junction, Gamma and Delta, at these minutes: it stops a minute, and passes the junction."""
    names = "ALPHA", "BETA", "NORTH", "GAMMA", "DELTA"
    calls = []
    for name, now in zip(names, times):
        passes = name == "NORTH"
        stop = 0 if passes or name in ("ALPHA", "DELTA") else 1
        calls.append(Call(name, now, now + stop, "" if passes else platform, passes))
    return tuple(calls)


USUAL = journey(600, 620, 630, 640, 660)
NIGHT = journey(1420, 1438, 1445, 1460, 1480)
TRAIN = Schedule("A00001", *WINDOW, WEEKDAYS, USUAL, "SN", "1A01")
OTHER = Schedule("A00002", *WINDOW, "1111111", journey(700, 720, 730, 740, 760), "SN", "1A02")
LATE = Schedule("N00001", *WINDOW, WEEKDAYS, NIGHT, "GX", "1N01")
TRAINS = [TRAIN, OTHER, LATE]
LINK = association_line("A00001", "A00002", "BETA", WINDOW)


def extract(
    trains: Sequence[Schedule] = (),
    places: Optional[Mapping[str, Place]] = None,
    associations: Sequence[str] = (LINK,),
    window: Window = WINDOW,
    extracted: str = "2905262130",
) -> str:
    """An extract with these trains in place of those of their UIDs, and these places in place of those of their names."""
    changed = {train.uid for train in trains}
    schedules = [train for train in TRAINS if train.uid not in changed] + list(trains)
    found = Extract("DFTEST1", extracted, window, {**PLACES, **(places or {})}, schedules)
    found.associations = list(associations)
    return found.text()


def moved(calls: Calls, minutes: int, since: int = 0) -> Calls:
    """The calls so many minutes later: from the departure of one of them on, or all."""
    found = []
    for number, call in enumerate(calls):
        arrives = call.arrives + (minutes if number > since or since == 0 else 0)
        leaves = call.leaves + (minutes if number >= since else 0)
        found.append(replace(call, arrives=arrives, leaves=leaves))
    return tuple(found)


def with_call(calls: Calls, number: int, **changes: Union[int, str]) -> Calls:
    found = list(calls)
    found[number] = replace(found[number], **changes)
    return tuple(found)


def overlay(train: Schedule, first: date, last: date, calls: Calls) -> Schedule:
    return replace(train, first=first, last=last, letter="O", calls=calls)


def cancelled(train: Schedule, first: date, last: Optional[date] = None) -> Schedule:
    return replace(train, first=first, last=last or first, letter="C")


def without(number: int) -> Calls:
    return USUAL[:number] + USUAL[number + 1 :]


PASSED = with_call(USUAL, 1, passes=True, leaves=620, platform="")
SOUTHERN = with_call(USUAL, 2, place="SOUTH")

# Of each pair what changes, the words on the page, and the numbers that aren't 0.
CASES = {
    "cancelled on a date": (
        [OTHER, cancelled(OTHER, june(13))],
        ["Cancelled on Sat 13 June"],
        {"cancelled": 1},
    ),
    "cancelled on all Saturdays but one": (
        [OTHER, *(replace(cancelled(OTHER, june(day)), days="0000010") for day in (6, 20, 27))],
        ["Cancelled on Sat 6, Sat 20 and Sat 27 June"],
        {"cancelled": 1},
    ),
    "cancelled in weeks, but for a date": (
        [TRAIN, cancelled(TRAIN, june(8), june(11)), cancelled(TRAIN, june(15), WINDOW[1])],
        ["Cancelled on Mondays to Fridays from 8 June on, but not on 12 June"],
        {"cancelled": 1},
    ),
    "cancelled on dates without a rule": (
        [TRAIN, *(cancelled(TRAIN, june(day)) for day in (2, 4, 9, 12, 17))],
        ["Cancelled on 5 dates from 2 to 17 June"],
        {"cancelled": 1},
    ),
    "cancelled until a date": (
        [replace(OTHER, first=june(11))],
        ["Cancelled every day until 10 June"],
        {"cancelled": 1},
    ),
    "gone": (
        [replace(TRAIN, first=june(29), last=june(30))],
        ["No longer runs (it ran on Mondays to Fridays)"],
        {"cancelled": 1},
    ),
    "new": (
        [replace(TRAIN, uid="A00003", days="0000010", calls=moved(USUAL, 60))],
        ["New train on Sat 6, Sat 13, Sat 20 and Sat 27 June"],
        {"runs": 1},
    ),
    "also on a date": (
        [TRAIN, replace(TRAIN, first=june(7), last=june(7), days="0000001", letter="N")],
        ["Runs also on Sun 7 June"],
        {"runs": 1},
    ),
    "later in a week": (
        [TRAIN, overlay(TRAIN, june(15), june(19), calls=moved(USUAL, 12))],
        ["12 min later from Mon 15 to Fri 19 June"],
        {"times": 1},
    ),
    "another time by two records": (
        [TRAIN, *(overlay(TRAIN, june(day), june(day), calls=moved(USUAL, 12)) for day in (1, 24))],
        ["12 min later on Mon 1 and Wed 24 June"],
        {"times": 1},
    ),
    "two changes on different dates": (
        [
            TRAIN,
            cancelled(TRAIN, june(1)),
            overlay(TRAIN, june(2), june(2), calls=moved(USUAL, -3)),
        ],
        ["Cancelled on Mon 1 June", "3 min earlier on Tue 2 June"],
        {"cancelled": 1, "times": 1},
    ),
    "later from a place": (
        [replace(TRAIN, calls=moved(USUAL, 7, since=1))],
        ["7 min later from Beta on Mondays to Fridays"],
        {"times": 1},
    ),
    "earlier as far as a place": (
        [replace(TRAIN, calls=moved(USUAL[:2], -5) + USUAL[2:])],
        ["5 min earlier as far as Beta on Mondays to Fridays"],
        {"times": 1},
    ),
    "later at one place": (
        [replace(TRAIN, calls=with_call(USUAL, 3, leaves=643))],
        ["2 min later at Gamma on Mondays to Fridays"],
        {"times": 1},
    ),
    "later between two places": (
        [
            replace(
                TRAIN, calls=with_call(with_call(USUAL, 1, leaves=624), 2, arrives=633, leaves=633)
            )
        ],
        ["3 min later from Beta to North Junction on Mondays to Fridays"],
        {"times": 1},
    ),
    "later by more and more": (
        [replace(TRAIN, calls=journey(602, 625, 640, 652, 690))],
        ["2 to 30 min later on Mondays to Fridays"],
        {"times": 1},
    ),
    "earlier and later": (
        [replace(TRAIN, calls=journey(597, 620, 630, 644, 660))],
        ["Up to 3 min earlier and 4 min later as far as Gamma on Mondays to Fridays"],
        {"times": 1},
    ),
    "later over midnight": (
        [replace(LATE, calls=moved(NIGHT, 12))],
        ["12 min later on Mondays to Fridays"],
        {"times": 1},
    ),
    "to the morning of the same date": (
        [replace(LATE, calls=moved(NIGHT, 25 - 1440))],
        ["23 h 35 min earlier on Mondays to Fridays"],
        {"times": 1},
    ),
    "another platform": (
        [replace(TRAIN, calls=with_call(USUAL, 1, platform="4"))],
        ["Platform 4 for 5 at Beta on Mondays to Fridays"],
        {"platforms": 1},
    ),
    "no platform": (
        [replace(TRAIN, calls=with_call(USUAL, 1, platform=""))],
        ["No platform at Beta, 5 before on Mondays to Fridays"],
        {"platforms": 1},
    ),
    "other platforms": (
        [replace(TRAIN, calls=journey(600, 620, 630, 640, 660, platform="1"))],
        ["Other platforms at 4 places on Mondays to Fridays"],
        {"platforms": 1},
    ),
    "starts elsewhere": (
        [replace(TRAIN, calls=USUAL[1:])],
        ["Starts at Beta, not Alpha on Mondays to Fridays"],
        {"places": 1},
    ),
    "ends elsewhere, and later": (
        [replace(TRAIN, calls=moved(USUAL[:-1], 2))],
        ["Ends at Gamma, not Delta; 2 min later on Mondays to Fridays"],
        {"places": 1, "times": 1},
    ),
    "passes a place": (
        [replace(TRAIN, calls=PASSED)],
        ["No longer calls at Beta on Mondays to Fridays"],
        {"places": 1},
    ),
    "another way": (
        [replace(TRAIN, calls=SOUTHERN)],
        ["Another way between Beta and Gamma on Mondays to Fridays"],
        {"places": 1},
    ),
    "another UID": (
        [replace(TRAIN, first=june(29), last=june(30)), replace(TRAIN, uid="B00001")],
        ["Renumbered on Mondays to Fridays"],
        {"numbers": 1},
    ),
    "another identity": (
        [replace(TRAIN, identity="9Z99")],
        ["Renumbered on Mondays to Fridays"],
        {"numbers": 1},
    ),
    "another operator": (
        [replace(TRAIN, operator="TL")],
        ["Operator Thameslink for Southern on Mondays to Fridays"],
        {"data": 1},
    ),
    "other data": (
        [replace(TRAIN, power="BMU")],
        ["Power type BMU for EMU on Mondays to Fridays"],
        {"data": 1},
    ),
    "other data and another platform": (
        [replace(TRAIN, power="BMU", calls=with_call(USUAL, 1, platform="4"))],
        ["Platform 4 for 5 at Beta; power type BMU for EMU on Mondays to Fridays"],
        {"platforms": 1},
    ),
    "a bank holiday": (
        [train for each in TRAINS for train in (each, cancelled(each, june(8)))],
        ["Cancelled on Mon 8 June"],
        {"cancelled": 3},
    ),
}


def write(maker: Maker, name: str, text: str) -> Path:
    path = maker.folder / name
    path.write_text(text)
    return path


# These are pairs of their own, as a train that another case lacks or adds could be the same one under another UID.
OF_THEIR_OWN = "gone", "new", "another UID"


def with_own_uids(trains: List[Schedule], number: int) -> List[Schedule]:
    """The trains of a case, with UIDs of their own."""
    return [replace(train, uid=f"{train.uid[0]}{number:02}{train.uid[3:]}") for train in trains]


def check_case(counts: Counts, page: Page, name: str, of_case: Callable[[Train], bool]) -> None:
    """The words and the numbers of a case, whose trains are known by their UIDs."""
    _, words, numbers = CASES[name]
    groups = [group for group in page.groups if any(map(of_case, group.trains))]
    counts.same(
        f"{name}, in words", words, [" ".join(each) for group in groups for each in group.words]
    )
    got: Counter[str] = Counter()
    for group in groups:
        kinds = [kind for kind in group.kinds if kind != "data" or len(group.kinds) == 1]
        got.update({kind: sum(map(of_case, group.trains)) for kind in kinds})
    counts.same(f"{name}, numbers", numbers, dict(got))


def has_number(number: int, train: Train) -> bool:
    """Whether a train is of the case with this number, by its UID."""
    return train.uid[1:3] == f"{number:02}"


def check_words(counts: Counts, maker: Maker) -> None:
    """The cases, all but some in one pair."""
    old = write(maker, "before.cif", extract())
    together = [name for name in CASES if name not in OF_THEIR_OWN]
    before = [train for number in range(len(together)) for train in with_own_uids(TRAINS, number)]
    after = []
    for number, name in enumerate(together):
        changed = with_own_uids(CASES[name][0], number)
        uids = {train.uid for train in changed}
        after += changed + [
            train for train in with_own_uids(TRAINS, number) if train.uid not in uids
        ]
    texts = extract(before, associations=()), extract(after, associations=())
    paths = [write(maker, f"together-{number}.cif", text) for number, text in enumerate(texts)]
    page = maker.page("--most", "1000", *paths)
    for number, name in enumerate(together):
        check_case(counts, page, name, partial(has_number, number))
    for name in OF_THEIR_OWN:
        page = maker.page(old, write(maker, "after.cif", extract(CASES[name][0])))
        check_case(counts, page, name, lambda train: True)
        got = {kind: number for kind, number in page.figures.items() if number}
        counts.same(f"{name}, numbers of the page", CASES[name][2], got)
    trains = [
        replace(TRAIN, first=june(29), last=june(30)),
        replace(TRAIN, uid="B00001", identity="9Z99"),
    ]
    page = maker.page(old, write(maker, "after.cif", extract(trains)))
    [train] = page.trains()
    words = [" ".join(each) for group in page.groups for each in group.words]
    counts.same("another UID and identity, in words", ["Renumbered on Mondays to Fridays"], words)
    counts.same("another UID, the train", "A00001", train.uid)
    counts.test("another UID, in words", "UID B00001 for A00001" in train.text, train.text)
    counts.test("another identity, in words", "9Z99 for 1A01" in train.text, train.text)


def check_calls(counts: Counts, maker: Maker) -> None:
    """Calls side by side: arrival, departure or pass, and platform, before and after."""
    calls = with_call(with_call(USUAL, 1, platform="4"), 3, leaves=643)
    new = extract([replace(TRAIN, calls=calls), OTHER, cancelled(OTHER, june(13))])
    page = maker.page(maker.folder / "before.cif", write(maker, "after.cif", new))
    tables = {train.uid: train.calls for train in page.trains()}
    rows = [
        ("Alpha", ["", "10:00", "5", "", "10:00", "5"]),
        ("Beta", ["10:20", "10:21", "*5", "10:20", "10:21", "*4"]),
        ("North Junction", ["", "10/30", "", "", "10/30", ""]),
        ("Gamma", ["10:40", "*10:41", "5", "10:40", "*10:43", "5"]),
        ("Delta", ["11:00", "", "5", "11:00", "", "5"]),
    ]
    counts.same("calls side by side", [rows], tables["A00001"])
    rows = [
        ("Alpha", ["", "11:40", "5"]),
        ("Beta", ["12:00", "12:01", "5"]),
        ("North Junction", ["", "12/10", ""]),
        ("Gamma", ["12:20", "12:21", "5"]),
        ("Delta", ["12:40", "", "5"]),
    ]
    counts.same("calls of a train that is cancelled", [rows], tables["A00002"])
    new = extract([replace(TRAIN, calls=USUAL[1:2] + SOUTHERN[2:])])
    page = maker.page(maker.folder / "before.cif", write(maker, "after.cif", new))
    rows = [
        ("Alpha", ["", "*10:00", "*5", "", "", ""]),
        ("Beta", ["*10:20", "10:21", "5", "", "10:21", "5"]),
        ("North Junction", ["", "*10/30", "", "", "", ""]),
        ("South Junction", ["", "", "", "", "*10/30", ""]),
        ("Gamma", ["10:40", "10:41", "5", "10:40", "10:41", "5"]),
        ("Delta", ["11:00", "", "5", "11:00", "", "5"]),
    ]
    counts.same("calls at other places", [rows], page.trains()[0].calls)


def check_night(counts: Counts, maker: Maker) -> None:
    """Of a train that is moved from its date to the next one, the old date is gone, and the new one is there."""
    first, second = june(10), june(11)
    moved_on = [
        LATE,
        cancelled(LATE, first),
        overlay(LATE, second, second, calls=moved(NIGHT, 25 - 1440)),
    ]
    page = maker.page(maker.folder / "before.cif", write(maker, "after.cif", extract(moved_on)))
    words = ["Cancelled on Wed 10 June", "23 h 35 min earlier on Thu 11 June"]
    counts.same("moved to the next date, in words", words, page.words())


def check_half_minutes(counts: Counts, maker: Maker) -> None:
    text = extract().replace("1030 ", "1030H").replace("10201020", "10211021")
    page = maker.page(maker.folder / "before.cif", write(maker, "after.cif", text))
    words = ["½ min later at North Junction on Mondays to Fridays"]
    counts.same("half a minute, in words", words, page.words())
    text = re.sub(r"(LIBETA .*)10201021", r"\g<1>10201022", extract())
    page = maker.page(maker.folder / "before.cif", write(maker, "after.cif", text))
    words = ["Other public times at Beta on Mondays to Fridays"]
    counts.same("other public times, in words", words, page.words())
    [table] = page.trains()[0].calls
    want = (
        "Beta",
        ["10:20 (10:20)", "*10:21 (10:21)", "5", "10:20 (10:20)", "*10:21 (10:22)", "5"],
    )
    counts.same("other public times, the call", want, table[1])


def check_others(counts: Counts, maker: Maker) -> None:
    """Associations and places."""
    old = maker.folder / "before.cif"
    span = june(6), june(6)
    links = [LINK, association_line("A00002", "N00001", "GAMMA", span, "JJ")]
    page = maker.page(old, write(maker, "after.cif", extract(associations=links)))
    [(base, associated, row)] = page.associations
    counts.same("an association, its trains", ("A00002", "N00001"), (base, associated))
    cells = re.findall(r"<td>(.*?)</td>", row)
    want = ["1N01 (N00001) joins 1A02 (A00002)", "Gamma", "new", "on Sat 6 June"]
    counts.same("an association, in words", want, cells)
    page = maker.page(old, write(maker, "after.cif", extract(associations=[])))
    [(_, _, row)] = page.associations
    want = ["1A02 (A00002) leaves 1A01 (A00001)", "Beta", "no longer", "every day"]
    counts.same("an association that is gone", want, re.findall(r"<td>(.*?)</td>", row))
    renamed = extract(places={"BETA": ("BTX", "BETA TOWN")})
    page = maker.page(old, write(maker, "after.cif", renamed))
    [(tiploc, row)] = page.places
    want = [
        "BETA",
        "BTX",
        "BETA TOWN",
        "changed: name BETA TOWN for BETA; CRS code BTX for BET; short name BETA TOWN for BETA",
    ]
    counts.same(
        "a station with another name", ("BETA", want), (tiploc, re.findall(r"<td>(.*?)</td>", row))
    )
    counts.same(
        "a station with another name, numbers",
        {"tiplocs": 1},
        {kind: count for kind, count in page.figures.items() if count},
    )


def check_names(counts: Counts, maker: Maker) -> None:
    """What looks like HTML is text."""
    odd = {"BETA": ("BET", "<SCRIPT>ALERT(1)</SCRIPT>"), "GAMMA": ("G<M", "]]>&AMP;\"'")}
    operators = write(
        maker, "operators.csv", 'operator_code,name,url\nSN,"<img src=x onerror=""alert(1)"">",\n'
    )
    new = extract([replace(TRAIN, calls=moved(USUAL, 5, since=1), identity="<B>&")], odd)
    words: List[Word] = ["--operators", operators, "--title", "</title><b>&x", "--most", "1"]
    page = maker.page(*words, maker.folder / "before.cif", write(maker, "after.cif", new))
    counts.same("scripts of the page", 2, page.markup.lower().count("<script"))
    for text in "<img", "</title><b>", "<B>&", "]]>", "&x", "<script>alert":
        counts.test(f"{text} isn't in the page as it stands", text not in page.markup, text)
    for text in (
        "</title><b>&x",
        '<img src=x onerror="alert(1)">',
        "<script>alert(1)</Script>",
        "<B>&",
    ):
        counts.test(f"{text} is in its text", text in page.text, page.text[:300])
    assert page.data is not None
    names = [place[0] for place in page.data["places"]]
    counts.test("names for the filter", "<script>alert(1)</Script>" in names, names)


def check_same(counts: Counts, maker: Maker) -> None:
    old = maker.folder / "before.cif"
    page = maker.page(old, old)
    counts.test("the same timetable", "The timetables are the same" in page.text, page.text)
    counts.same("the same timetable, numbers", {0}, set(page.figures.values()))
    counts.same("the same timetable, rows", [], page.rows)
    split = [replace(TRAIN, last=june(13)), replace(TRAIN, first=june(14))]
    page = maker.page(old, write(maker, "after.cif", extract(split)))
    counts.test("the same by other records", "The timetables are the same" in page.text, page.text)


def check_windows(counts: Counts, maker: Maker) -> None:
    """Only the dates that both extracts have, or those that are asked for, count."""
    gone = [TRAIN, cancelled(TRAIN, june(1)), cancelled(TRAIN, june(26))]
    later = june(2), june(30)
    old = maker.folder / "before.cif"
    page = maker.page(old, write(maker, "after.cif", extract(gone, window=later)))
    counts.same("a date before the common window", ["Cancelled on Fri 26 June"], page.words())
    counts.test("the dates compared", "2 to 28 June 2026" in page.text, page.text[:200])
    page = maker.page("--to", "260625", old, maker.folder / "after.cif")
    counts.test("a date after --to", "The timetables are the same" in page.text, page.text[:300])
    page = maker.page("--from", "260626", "--to", "260626", old, maker.folder / "after.cif")
    counts.test(
        "one date", "1 train is different, on the one date compared" in page.text, page.text[:300]
    )
    page = maker.page(maker.folder / "after.cif", old)
    counts.same("the other way round", ["Runs also on Fri 26 June"], page.words())


def check_reversal(counts: Counts, maker: Maker) -> None:
    """A train that calls at Beta, reverses at Gamma, and calls at Beta again."""
    names = "ALPHA", "BETA", "GAMMA", "BETA", "DELTA"
    minutes = 600, 620, 640, 660, 680
    calls = tuple(Call(name, now, now + 1, "5") for name, now in zip(names, minutes))
    passing = with_call(calls, 1, passes=True, leaves=620, platform="")
    for name, before, after, words in (
        ("passes once", calls, passing, "Calls less often at Beta"),
        ("passes no more", passing, calls, "Calls more often at Beta"),
        ("isn't there once", calls, calls[:1] + calls[2:], "Calls less often at Beta"),
        (
            "isn't there at all",
            calls,
            calls[:1] + calls[2:3] + calls[4:],
            "No longer calls at Beta",
        ),
        ("is there once more", calls[:1] + calls[2:], calls, "Calls more often at Beta"),
        ("is there later", calls[:3] + calls[4:], calls[:1] + calls[2:], "Calls in another order"),
    ):
        sides = [
            write(maker, f"reversal-{side}.cif", extract([replace(TRAIN, calls=each)]))
            for side, each in (("before", before), ("after", after))
        ]
        want = [f"{words} on Mondays to Fridays"]
        counts.same(f"a train that reverses {name}, in words", want, maker.page(*sides).words())


def check_renumbered(counts: Counts, maker: Maker) -> None:
    """A train under another UID with another power type on some dates is one train."""
    other = replace(TRAIN, uid="B00001")
    gone = replace(TRAIN, first=june(29), last=june(30))
    changed = replace(overlay(other, june(15), june(19), USUAL), power="BMU")
    old = maker.folder / "before.cif"
    new = write(maker, "after.cif", extract([gone, other, changed], associations=()))
    page = maker.page(old, new)
    want = [
        "Renumbered on 15 dates from 1 to 26 June",
        "Renumbered; power type BMU for EMU from Mon 15 to Fri 19 June",
    ]
    counts.same("another UID and power type, in words", want, page.words())
    got = {kind: page.figures[kind] for kind in ("numbers", "data", "runs", "cancelled")}
    want_figures = {"numbers": 1, "data": 0, "runs": 0, "cancelled": 0}
    counts.same("another UID and power type, numbers", want_figures, got)
    page = maker.page(new, old)
    counts.same("the other way round, in words", want[:1], page.words()[:1])


def check_counts_in_words(counts: Counts, maker: Maker) -> None:
    """One train, and several dates with the most trains that differ."""
    window = june(1), june(28)
    old = Extract("DFTEST1", "2905262130", window, PLACES, [TRAIN])
    two = Extract(
        "DFTEST1",
        "2905262130",
        window,
        PLACES,
        [TRAIN, *(cancelled(TRAIN, june(d)) for d in (8, 9))],
    )
    paths = [
        write(maker, f"one-{number}.cif", each.text()) for number, each in enumerate((old, two))
    ]
    page = maker.page(*paths)
    for text in (
        "There is 1 train in all, as many as before.",
        "at most 1, on Mon 8 and Tue 9 June.",
    ):
        counts.test(f"{text} in words", text in page.text, page.text[:1500])


def check_rows(counts: Counts, maker: Maker) -> None:
    """Names and formulas in the CSV file."""
    old = maker.folder / "before.cif"
    renamed = extract(places={"BETA": ("BTX", "BETA TOWN")})
    page = maker.page(old, write(maker, "after.cif", renamed))
    names = [row["location_name"] for row in page.rows if row["subject"] == "place"]
    counts.same("the name of a place in the CSV file", ["Beta Town"], names)
    operators = write(maker, "operators.csv", "operator_code,name,url\nSN,@SUM(A1),\n")
    places = write(
        maker,
        "places.csv",
        "tiploc,name,latitude,longitude\nALPHA,-1+2,,\nDELTA,+1,,\n",
    )
    new = write(maker, "after.cif", extract([replace(TRAIN, identity="=1+1")]))
    [row] = maker.page("--operators", operators, "--places", places, old, new).rows
    fields = "identity", "operator", "origin_name", "destination_name", "change"
    want = ["'=1+1", "'@SUM(A1)", "'-1+2", "'+1", "renumbered: =1+1 for 1A01"]
    counts.same("cells that would be formulas", want, [row[field] for field in fields])


def check_long_names(counts: Counts, maker: Maker) -> None:
    """Very long names are shortened, and the page isn't larger than it may be, whatever is long."""
    name = "N" * 60_000
    words: List[Word] = [
        "--places",
        write(
            maker,
            "places.csv",
            "tiploc,name,latitude,longitude\n" + "".join(f"{place},{name},,\n" for place in PLACES),
        ),
    ]
    words += [
        "--operators",
        write(maker, "operators.csv", f"operator_code,name,url\nSN,{name},\nGX,{name},\n"),
    ]
    old, new = maker.folder / "before.cif", write(
        maker,
        "after.cif",
        extract([replace(each, calls=moved(each.calls, 5)) for each in TRAINS]),
    )
    page = maker.page(*words, old, new)
    size = len(page.markup.encode())
    counts.test("a page with long names, its size", size < 100_000, size)
    longest = max(map(len, re.findall("N+…?", page.markup)))
    counts.same("a page with long names, the longest", 100, longest)
    counts.same("a page with long names, its trains", len(TRAINS), len(page.trains()))


def check_long_train(counts: Counts, maker: Maker) -> None:
    """A train for which there is no room on the page doesn't keep others from it, neither those
    with the same change nor those with another one."""
    between = [Call(("BETA", "GAMMA")[number % 2], 601, 601) for number in range(3000)]
    train = replace(OTHER, uid="A00001", calls=(USUAL[0], *between, USUAL[-1]))
    trains = [replace(train, uid="A00000"), train, replace(OTHER, uid="A00003")]
    # two have the same change, and two have others
    changed = [replace(each, power=power) for each, power in zip(trains, ("HST", "BMU", "BMU"))]
    changed.append(replace(OTHER, power="DMU"))
    sides = [
        write(maker, f"long-{number}.cif", extract(each))
        for number, each in enumerate((trains, changed))
    ]
    page = maker.small_page(200_000, *sides)
    size = len(page.markup.encode())
    counts.test("a train of 3,000 calls, the size of the page", size <= 200_000, size)
    uids = [each.uid for each in page.trains()]
    counts.same("a train of 3,000 calls, the others", ["A00003", "A00002"], uids)
    rest = "2 changed trains of 4 aren’t on this page"
    counts.test("a train of 3,000 calls, in words", rest in page.text, page.text[-300:])


def check_years(counts: Counts, maker: Maker) -> None:
    """Where the window has several years, dates have theirs."""
    window = date(2026, 12, 28), date(2027, 1, 10)
    train = replace(TRAIN, first=window[0], last=window[1])
    additions: List[List[Schedule]] = [[], [cancelled(train, date(2027, 1, 4))]]
    texts = [extract([train, *more], associations=(), window=window) for more in additions]
    old, new = (
        write(maker, name, text) for name, text in zip(("before-year.cif", "after-year.cif"), texts)
    )
    counts.same(
        "a date with its year", ["Cancelled on Mon 4 January 2027"], maker.page(old, new).words()
    )


def check_order(counts: Counts, maker: Maker) -> None:
    """The page says so if the later extract comes first."""
    warning = "extracted before the first"
    older = write(
        maker, "after.cif", extract([replace(TRAIN, power="BMU")], extracted="2805262130")
    )
    old = maker.folder / "before.cif"
    counts.test("the later extract first", warning in maker.page(old, older).text)
    counts.test("the earlier extract first", warning not in maker.page(older, old).text)


def check_most(counts: Counts, maker: Maker) -> None:
    """How many trains the page has."""
    old = maker.folder / "before.cif"
    new = write(
        maker,
        "after.cif",
        extract([train for each in TRAINS for train in (each, cancelled(each, june(8)))]),
    )
    for most, rest in ("2", "1 changed train of 3 isn’t on this page"), (
        "0",
        "3 changed trains of 3 aren’t on this page",
    ):
        page = maker.page("--most", most, old, new)
        counts.same(f"--most {most}", int(most), len(page.trains()))
        counts.test(f"--most {most}, in words", rest in page.text, page.text[-400:])
        counts.same(f"--most {most}, the CSV file", 3, len(page.rows))


def check_stands_out(counts: Counts, maker: Maker) -> None:
    """Thirty trains that are cancelled on a weekend, and one more on its Sunday, begin the page, before
    fifteen whose platforms change on all dates."""
    every_day = [
        replace(
            OTHER,
            uid=f"E{number:05}",
            calls=moved(OTHER.calls, number),
            operator="SN" if number < 20 else "GX",
        )
        for number in range(46)
    ]
    changed = [
        replace(each, calls=tuple(replace(call, platform="9") for call in each.calls))
        for each in every_day[31:]
    ]
    weekend = [cancelled(each, june(13), june(14)) for each in every_day[:30]]
    old = write(maker, "weekend-old.cif", extract(every_day))
    weekend.append(cancelled(every_day[30], june(14)))
    new = write(maker, "weekend-new.cif", extract([*every_day[:31], *weekend, *changed]))
    page = maker.page("--most", "10", old, new)
    sentence = "On Sat 13 and Sun 14 June 31 trains are cancelled, 20 of them run by Southern."
    [peak] = page.peaks
    counts.same("a weekend, the sentence", sentence, peak.sentence)
    counts.test("a weekend, the lead", page.lead.startswith(f"{sentence} 46 trains are"), page.lead)
    text = "The most on one date are 31, on Sun 14 June."
    counts.same("a weekend, in numbers", text, peak.numbers)
    kinds = {"cancelled": 31, "platforms": 15}
    counts.same("a weekend, trains by kind", kinds, peak.trains)
    counts.same(
        "a weekend, operators", "Southern 20 and Gatwick Express 11", peak.operators["cancelled"]
    )
    counts.same("a weekend, journeys", {"Alpha to Delta": (31, "11:40 to 12:10")}, peak.journeys)
    of_peak, others = page.groups_of_peaks
    shown = [(len(group.trains), group.others) for part in (of_peak, others) for group in part]
    counts.same("a weekend, trains on the page and others", [(5, 25), (5, 10)], shown)
    # 47 trains run every day, and two from Monday to Friday
    usual = ["339", "339", "as many trains"]
    weeks = [usual, ["339", "278", "18% fewer trains"], usual, usual]
    counts.same("a weekend, week by week", weeks, page.weeks)
    page = maker.page(old, write(maker, "no-weekend.cif", extract([*every_day[:31], *changed])))
    counts.same("the same change on all dates, what stands out", [], page.peaks)
    counts.test(
        "the same change on all dates, the lead", page.lead.startswith("15 trains are different")
    )
    friday = [cancelled(each, june(12)) for each in every_day[:12]]
    page = maker.page(old, write(maker, "friday.cif", extract([*every_day, *friday])))
    [peak] = page.peaks
    counts.same(
        "a Friday, the sentence",
        "On Fri 12 June 12 Southern trains are cancelled.",
        peak.sentence,
    )
    text = "In all 37 trains run on that date, 12 fewer than before."
    counts.same("a Friday, in numbers", text, peak.numbers)
    counts.same("a Friday, what is usual", {"cancelled": 0}, peak.usual)


def check_largest(counts: Counts, maker: Maker) -> None:
    """Eight trains that are later, each on another date, and three with other platforms on all dates:
    no date stands out."""
    every_day = [
        replace(OTHER, uid=f"E{number:05}", calls=moved(OTHER.calls, number))
        for number in range(11)
    ]
    changed = [
        replace(each, calls=tuple(replace(call, platform="9") for call in each.calls))
        for each in every_day[8:]
    ]
    for number, each in enumerate(every_day[:8], 1):
        day = june(number)
        changed += [each, overlay(each, day, day, calls=moved(each.calls, 12))]
    old = write(maker, "largest-old.cif", extract(every_day))
    page = maker.page(old, write(maker, "largest-new.cif", extract(changed)))
    counts.same("the largest changes, what stands out", [], page.peaks)
    want = [
        ("3 trains", "Other platforms at 5 places", "every day"),
        ("8 trains", "12 min later", "on dates from 1 to 8 June"),
    ]
    counts.same("the largest changes", want, page.largest)
    sentence = "The largest change is “Other platforms at 5 places”, of 3 trains. 11 trains are"
    counts.test("the largest change first", page.lead.startswith(sentence), page.lead)


def check_example(counts: Counts, maker: Maker) -> None:
    """What README shows."""
    folder = TOP / "examples"
    page = maker.page(folder / "timetable.cif", folder / "changed.cif")
    want = [
        "Cancelled on Sat 6 June",
        "30 to 36 min later; other data of calls: engineering allowance on Sun 7 June",
    ]
    counts.same("the examples, in words", want, page.words())


def check(counts: Counts, maker: Maker) -> None:
    check_words(counts, maker)
    check_calls(counts, maker)
    check_night(counts, maker)
    check_half_minutes(counts, maker)
    check_others(counts, maker)
    check_names(counts, maker)
    check_same(counts, maker)
    check_windows(counts, maker)
    check_reversal(counts, maker)
    check_renumbered(counts, maker)
    check_counts_in_words(counts, maker)
    check_rows(counts, maker)
    check_long_names(counts, maker)
    check_long_train(counts, maker)
    check_years(counts, maker)
    check_order(counts, maker)
    check_most(counts, maker)
    check_stands_out(counts, maker)
    check_largest(counts, maker)
    check_example(counts, maker)
