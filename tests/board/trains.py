"""Trains against what cif says of them: calls, dates, versions, associations; operators and the extract."""
from __future__ import annotations

import re
import shutil
import sqlite3
from collections import Counter, defaultdict
from contextlib import closing
from datetime import timedelta
from itertools import groupby
from typing import Any, Dict, List, Tuple

from gtfs.checks import Counts
from sql.definition import SqlRow

from .pages import Board, Made, squeezed

CALLS = (
    "record location suffix arrival departure pass public_arrival public_departure platform path line"
    " activities".split()
)
ENDS = {
    "origin": "origin",
    "departure": "departure",
    "terminus": "destination",
    "arrival": "arrival",
}
# So many trains of an extract are looked at.
MOST_TRAINS = 25
NO_TRAIN: Dict[str, Any] = {"train": None, "associations": []}


def uids(board: Board) -> List[str]:
    found = sorted({row["uid"] for row in board.expected.schedules.values()})
    return found[:: len(found) // MOST_TRAINS + 1]


def address_of(uid: str, day: str) -> str:
    return f"/train/{uid.replace(' ', '%20')}/{day}"


def check_train(counts: Counts, name: str, board: Board, uid: str) -> None:
    """Its dates, and on each first date of a version its calls."""
    dates = board.cif("calendar", uid)
    data = board.data(address_of(uid, dates[0]["date"]) + ".json")
    wanted = [(row["date"], row["runs"]) for row in dates]
    got = [(row["date"], row["runs"]) for row in data["calendar"]]
    counts.same(f"{name}, the dates of {uid}", wanted, got)
    running = [row["date"] for row in dates if row["runs"]]
    text = squeezed(board.get(address_of(uid, dates[0]["date"])))
    count = f"It runs on {len(running):,} date{'s' * (len(running) != 1)}"
    counts.test(f"{name}, {uid} in words", count in text, text)
    seen = set()
    for row in data["calendar"]:
        if row["runs"] and row["version"] not in seen:
            seen.add(row["version"])
            check_calls(counts, name, board, uid, row["date"])
    check_month(counts, name, board, uid, running)


def check_calls(counts: Counts, name: str, board: Board, uid: str, day: str) -> None:
    """All calls of a train on a date."""
    [wanted] = board.cif("train", "--stops", "--from", day, "--to", day, uid)
    data = board.data(address_of(uid, day) + ".json")
    got = [{each: call[each] for each in CALLS} for call in data["calls"]]
    want = [{each: call[each] for each in CALLS} for call in wanted["calls"]]
    counts.same(f"{name}, the calls of {uid} on {day}", want, got)
    ends = {end: data["train"][column] for end, column in ENDS.items()}
    counts.same(f"{name}, the ends of {uid}", {end: wanted[end] for end in ENDS}, ends)
    counts.same(f"{name}, the identity of {uid}", wanted["identity"], data["train"]["identity"])
    page = board.page(address_of(uid, day))
    table = [cells for cells in page.tables["list calls"][2:] if len(cells) > 1]
    times = [tuple(squeezed(cell.text) for cell in cells[1:4]) for cells in table]
    public = [
        (
            call["platform"] or "",
            *(public_text(call[each]) for each in ("public_arrival", "public_departure")),
        )
        for call in wanted["calls"]
    ]
    counts.same(f"{name}, the calls of {uid} on the page", public, times)


def public_text(cell: str) -> str:
    return "" if cell in (None, "0000") else f"{cell[:2]}:{cell[2:]}"


def check_month(counts: Counts, name: str, board: Board, uid: str, running: List[str]) -> None:
    """The calendar has a letter on each date on which the train runs, and the same one only where the train is the same."""
    day = running[0] if running else board.dates[0].isoformat()
    page = board.get(address_of(uid, day))
    found = re.findall(
        r'<td class="v(\d)[^"]*"><a href="[^"]*/([-0-9]+)"[^>]*><i>(\d+)</i><b>(\w+)</b>', page
    )
    counts.same(f"{name}, the calendar of {uid}", running, sorted(date for _, date, _, _ in found))
    letters = {date: letter for _, date, _, letter in found}
    if not differ_in_calls_alone(board, uid):
        return
    same: Dict[str, str] = {}
    dates = ("first_date", "last_date", "days_run")
    for row in board.cif("train", "--stops", "--form", "3", uid):
        first = letters[row["first_date"]]
        key = repr({each: row[each] for each in row if each not in dates})
        counts.same(f"{name}, versions of {uid}", same.setdefault(key, first), first)
    versions = len(set(same.values())), len(set(letters.values()))
    counts.same(f"{name}, as many versions of {uid}", *versions)


def differ_in_calls_alone(board: Board, uid: str) -> bool:
    """Whether the schedules of a train differ in what `cif train` shows alone."""
    names = [
        each
        for each in board.expected.names["schedules"]
        if each not in ("schedule", "uid", "first_date", "last_date", "days_run", "identity")
    ]
    rows = [row for row in board.expected.schedules.values() if row["uid"] == uid]
    numbers = [row["schedule"] for row in rows]
    changes = {
        repr([list(c.values())[1:] for c in board.expected.of_schedule["changes"][n]])
        for n in numbers
    }
    return len({tuple(row[each] for each in names) for row in rows}) == 1 and len(changes) == 1


# Of the examples: a train on a date, what its page says of another one, and where that link leads.
LINKS = [
    (
        "W20113",
        "2026-06-05",
        "Divides: a portion leaves as 1C22 Haywards Heath to Littlehampton at Haywards Heath",
        "W20114/2026-06-05",
    ),
    (
        "W20114",
        "2026-06-05",
        "Divides from 1F22 London Victoria to Eastbourne at Haywards Heath",
        "W20113/2026-06-05",
    ),
    (
        "W20232",
        "2026-06-05",
        "Joins 1F53 Eastbourne to London Victoria at Haywards Heath",
        "W20231/2026-06-05",
    ),
    (
        "W20231",
        "2026-06-05",
        "Is joined by 1C53 Littlehampton to Haywards Heath at Haywards Heath",
        "W20232/2026-06-05",
    ),
    (
        "W20347",
        "2026-06-04",
        "Goes on as 1A02 Brighton to London Victoria at Brighton, of Fri 5 June for operations, not for riders",
        "W20101/2026-06-05",
    ),
    (
        "W20101",
        "2026-06-05",
        "Comes from 1A94 London Victoria to Brighton at Brighton, of Thu 4 June for operations, not for riders",
        "W20347/2026-06-04",
    ),
]


def check_links(counts: Counts, made: Made) -> None:
    board = made.examples
    for uid, day, words, address in LINKS:
        page = board.get(f"/train/{uid}/{day}")
        text = squeezed(
            re.sub(
                "<[^>]*>",
                "",
                page.partition('<ul class="links"')[2].partition("</ul>")[0].partition(">")[2],
            )
        )
        counts.same(f"the associations of {uid}", words, text)
        counts.test(f"the associations of {uid}, the link", f'href="/train/{address}"' in page)
    for name in "timetable", "many":
        check_all_links(counts, name, made.boards[name])


def check_all_links(counts: Counts, name: str, board: Board) -> None:
    """The associations of each date, from both of their trains."""
    wanted: Dict[Tuple[str, str], List[Tuple[str, str]]] = defaultdict(list)
    for day in board.dates:
        for row in board.cif("day", f"{day:%y%m%d}"):
            if row["kind"] == "AA":
                later = timedelta(days={"N": 1, "P": -1}.get(row["date_indicator"], 0))
                category = row["association_category"]
                base, associated = row["base_uid"], row["associated_uid"]
                wanted[base, str(day)].append((category, associated))
                # on which date it is for any other indicator, nobody knows
                if row["date_indicator"] in (None, "S", "N", "P"):
                    wanted[associated, str(day + later)].append((category, base))
    for uid in sorted({uid for uid, _ in wanted})[:MOST_TRAINS]:
        for day in board.dates:
            # associations may name trains that are nowhere
            answer = board.client.get(address_of(uid, str(day)) + ".json")
            data = answer.json if answer.status_code == 200 else NO_TRAIN
            assert data is not None
            got = [(each["category"], each["other_uid"]) for each in data["associations"]]
            want = wanted[uid, str(day)] if data["train"] else []
            counts.same(
                f"{name}, the associations of {uid} on {day}",
                sorted(want, key=str),
                sorted(got, key=str),
            )


def check_words(counts: Counts, made: Made) -> None:
    """By hand, of the examples."""
    board = made.examples
    page = squeezed(re.sub("<[^>]*>", " ", board.get("/train/W20347/2026-06-05")))
    for words in (
        "23:32 London Victoria to Brighton 1A94 · Southern · UID W20347",
        "It runs on 20 dates, in 2 versions.",
        "A 23:32 London Victoria to Brighton 00:36½ on 12 dates from Mon 18 May to Fri 12 June 2026: Mondays to Fridays. Shown here.",
        "B 23:32 London Victoria to Brighton 00:49½ on 8 dates from Mon 1 June to Thu 11 June 2026: Mondays to Thursdays",
        "Clapham Junction Central 23:37½ to 23:38½, platform 14 23:37½ to 23:38½, platform 13",
        "Redhill passes 00:04 —",
        "Brighton ends 00:49½, platform 3 ends 00:36½, platform 3",
        "East Croydon 2 23:48 23:49 23:48 23:49 FL FL Sat 6 June 2026 Gatwick Airport 6",
    ):
        counts.test(f"W20347 says: {words}", words in page, page)
    text = squeezed(board.get("/train/W20347/2026-06-06"))
    counts.test("W20347 on a Saturday", "It doesn’t run on Sat 6 June 2026." in text, text)
    data = board.data("/train/W20347/2026-06-06.json")
    counts.same(
        "W20347 on a Saturday, as JSON",
        (None, [], 28),
        (data["train"], data["calls"], len(data["calendar"])),
    )
    freight = squeezed(board.get("/train/G31845/2026-05-18"))
    counts.test("a change en route", "From here: identity 6V18, category B4" in freight, freight)
    counts.test("freight", "<strong>not for riders</strong>" in freight)
    counts.test(
        "as required",
        "<strong>runs as required</strong>" in made.special.get("/train/Q00001/2026-01-06"),
    )
    text = squeezed(made.special.get("/train/V00001/2026-01-05"))
    counts.test("a version in words", "train identity 1V02, not 1V01" in text, text)
    notes = squeezed(made.special.get("/train/N00001/2026-01-06"))
    counts.test("activities in words", "on request" in notes and "picks up only" in notes, notes)


def check_published(counts: Counts, made: Made) -> None:
    """Which published record decides, and cancelled dates, where the database knows them."""
    path = made.folder / "published.db"
    shutil.copy(made.examples.path, path)
    with closing(sqlite3.connect(path)) as connection:
        connection.execute(
            "INSERT INTO published VALUES ('W20402', '2026-05-16', NULL, 'P', '2026-05-23', '2026-06-13', '0000010'),"
            " ('W20402', '2026-05-30', '2026-05-31', 'C', '2026-05-31', '2026-05-31', '0000001')"
        )
        connection.commit()
    board = Board(path, made.examples.source)
    text = squeezed(board.get("/train/W20402/2026-05-30"))
    counts.test("published", "permanent (P), first date Sat 16 May 2026" in text, text)
    counts.test(
        "cancelled, in the calendar",
        '<td class="cancelled"><a href="/train/W20402/2026-05-31"' in text,
    )
    counts.test("cancelled, in words", "is cancelled on 1 date" in text, text)
    text = squeezed(board.get("/train/W20402/2026-05-31"))
    counts.test("cancelled on its date", "It is cancelled on Sun 31 May 2026." in text, text)
    letters = {
        row["date"]: row["stp_indicator"]
        for row in board.data("/train/W20402/2026-05-30.json")["calendar"]
    }
    counts.same(
        "cancelled, as JSON",
        ("P", "C", None),
        tuple(letters[f"2026-05-{day}"] for day in (30, 31, 29)),
    )


def texts(row: Dict[str, Any], names: Tuple[str, ...]) -> SqlRow:
    return tuple(None if row[name] is None else str(row[name]) for name in names)


def check_operators(counts: Counts, name: str, board: Board) -> None:
    """Trains a day, on the page in sums."""
    rows = board.data("/operators.json")["trains_per_day"]
    columns = ("date", "operator", "passenger", "as_required", "trains")
    counts.same(
        f"{name}, operators",
        board.expected.trains_per_day(),
        Counter(texts(row, columns) for row in rows),
    )
    table = board.page("/operators").tables.get("list", [[]])[1:]
    got = {
        squeezed(cells[0].text).rsplit(" ", 1)[-1]: squeezed(cells[1].text) for cells in table[1:]
    }
    by_operator = sorted(rows, key=lambda row: row["operator"] or "")
    wanted = {}
    for code, group in groupby(by_operator, lambda row: row["operator"] or ""):
        wanted[code or "operator"] = f"{sum(row['trains'] for row in group):,}"
    counts.same(f"{name}, operators on the page", wanted, got)
    if rows:
        total = f"{sum(row['trains'] for row in rows):,}"
        counts.same(f"{name}, all operators", total, squeezed(table[0][1].text))


def check_extract(counts: Counts, name: str, board: Board) -> None:
    data, header = board.data("/extract.json"), board.expected.header
    got = {each: data[each] for each in header}
    counts.same(f"{name}, the extract", {each: cell or None for each, cell in header.items()}, got)
    tables = board.expected.tables
    for each in "schedules", "associations":
        counts.same(f"{name}, {each}", len(tables[each]), data[each])
    counts.same(
        f"{name}, locations", len({row["tiploc"] for row in tables["tiplocs"]}), data["locations"]
    )
    counts.same(f"{name}, journeys", len(board.expected.journeys()), data["journeys"])
    text = squeezed(board.get("/extract"))
    counts.test(f"{name}, the extract's reference", header["current_reference"] in text, text)


def check(counts: Counts, made: Made) -> None:
    for name, board in made.boards.items():
        for uid in uids(board):
            check_train(counts, name, board, uid)
        check_operators(counts, name, board)
        check_extract(counts, name, board)
    check_links(counts, made)
    check_words(counts, made)
    check_published(counts, made)
    table = made.examples.page("/operators").tables["list"]
    southern = [squeezed(cell.text) for cell in table[2]]
    # by hand: six trains a weekday, one on a Saturday and on a Sunday, and on Monday 25 May three
    wanted = ["Southern SN", "124", "124", "0", "6", "1", "1", "6 Mon 18 May", "1 Sun 17 May"]
    counts.same("the operator Southern", wanted, southern)
