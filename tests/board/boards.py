"""Boards against what cif says of each date, and the lists of what goes from one station to another."""
from __future__ import annotations

import json
from collections import Counter, defaultdict
from datetime import date, timedelta
from typing import Any, Dict, List, Optional, Tuple

from gtfs.checks import Counts, Source
from reference.public import Call as ReferenceCall, reached_and_left

from .pages import Board, Element, Made, Reader, squeezed

DAY = 86400
# Of a long window so many dates are looked at.
MOST_DATES = 5
LONG = 60
COLUMNS = (
    "station_crs crs date time train_date uid identity operator category status as_required platform"
    " origin destination pick_up set_down location number".split()
)


def some_dates(board: Board) -> List[date]:
    """Dates of the whole window, on all weekdays."""
    dates = board.dates
    step = max(len(dates) // MOST_DATES, 1)
    return dates[::step] if step % 7 else dates[:: step + 1]


def texts_of(row: Dict[str, Any]) -> Tuple[Any, ...]:
    return tuple(None if row[name] is None else str(row[name]) for name in COLUMNS)


def stations(board: Board) -> List[str]:
    rows = board.expected.tables["tiplocs"]
    return sorted({row["crs_code"] for row in rows if row["crs_code"]})


def days_before(board: Board, dates: List[date]) -> List[date]:
    """The dates of trains that call on these dates: in a long window none calls after more than two midnights."""
    if len(board.dates) < LONG:
        return board.dates
    return sorted({day for each in dates for day in board.dates if 0 <= (each - day).days <= 2})


def all_calls(board: Board) -> Counter[Tuple[str, str, str, str, str, int]]:
    """All timed calls by the clock: the TIPLOC, the date, the time, the train's date, its UID, the number of the call."""
    found: Counter[Tuple[str, str, str, str, str, int]] = Counter()
    for day in days_before(board, some_dates(board)):
        for row in board.cif("day", "--stops", f"{day:%y%m%d}"):
            calls = [
                ReferenceCall("", {name: cell or "" for name, cell in call.items()})
                for call in row["calls"]
            ]
            for number, moments in enumerate(reached_and_left(calls), 1):
                if moments:
                    midnights, seconds = divmod(moments[1], DAY)
                    time = f"{seconds // 3600:02}:{seconds // 60 % 60:02}:{seconds % 60:02}"
                    by_clock = (day + timedelta(days=midnights)).isoformat()
                    place = calls[number - 1].cells["location"]
                    found[place, by_clock, time, day.isoformat(), row["uid"], number] += 1
    return found


def of_page(cells: List[Element]) -> Tuple[str, str, str]:
    """The time, the platform and the train's address of a row of a page."""
    return (
        squeezed(cells[0].text).replace("½", ":30"),
        squeezed(cells[-3 if len(cells) == 5 else -4].text),
        cells[-1].links[0],
    )


def check_rows(counts: Counts, name: str, board: Board, address: str, kind: str) -> None:
    """The page has the rows of JSON, in their order."""
    rows = board.data(address.replace("?", ".json?", 1) if "?" in address else f"{address}.json")
    table = board.page(address).tables.get(f"board {kind}", [])
    wanted = [
        (
            row["time"][:5] + (":30" if row["time"].endswith("30") else ""),
            row["platform"] or "",
            f"/train/{row['uid'].replace(' ', '%20')}/{row['train_date']}",
        )
        for row in rows[kind]
    ]
    counts.same(f"{name}, the page {address}", wanted, [of_page(cells) for cells in table[1:]])


def check_kind(counts: Counts, name: str, board: Board, kind: str) -> None:
    """Departures or arrivals of all stations on some dates, whole and by two hours."""
    wanted = board.expected.departures if kind == "departures" else board.expected.arrivals
    days = {day.isoformat() for day in some_dates(board)}
    whole: Counter[Tuple[Any, ...]] = Counter()
    for code in stations(board):
        for day in sorted(days):
            address = f"/station/{code}/{day}"
            rows = board.data(f"{address}.json?show={kind}")[kind]
            order = [(row["time"], row["uid"], row["train_date"], row["number"]) for row in rows]
            counts.same(f"{name}, the order of {kind} at {code} on {day}", sorted(order), order)
            whole.update(map(texts_of, rows))
    of_days = Counter({row: count for row, count in wanted.items() if row[0] and row[2] in days})
    counts.same(f"{name}, {kind}", [], sorted((of_days - whole).items())[:3])
    counts.same(f"{name}, surplus {kind}", [], sorted((whole - of_days).items(), key=str)[:3])
    counts.test(f"{name}, some {kind}", whole)


def check_hours(counts: Counts, name: str, board: Board, code: str, day: str) -> None:
    """Two hours after two hours are the whole day, by the links from each to the next."""
    for show, kind in ("departures", "departures"), ("arrivals", "arrivals"), ("all", "calls"):
        whole = board.data(f"/station/{code}/{day}.json?show={show}")[kind]
        found, address = [], f"/station/{code}/{day}?from=00:00&show={show}"
        for _ in range(12):
            found += board.data(address.replace("?", ".json?", 1))[kind]
            address = later(board.page(address), "") or ""
        counts.same(f"{name}, {kind} of {code} by hours", whole, found)
        counts.test(f"{name}, {kind} of {code} are some", whole)
        check_rows(counts, name, board, f"/station/{code}/{day}?show={show}", kind)


def later(page: Reader, day: str) -> Optional[str]:
    """Where the page leads to the hours after its own."""
    links = [link for link in page.links if f"{day}?from=" in link and ".json" not in link]
    return links[-1] if links else None


def check_calls(counts: Counts, name: str, board: Board) -> None:
    """All calls at each TIPLOC on some dates."""
    wanted = all_calls(board)
    by_place = defaultdict(list)
    for key in wanted.elements():
        by_place[key[:2]].append(key)
    places = sorted({key[0] for key in wanted if key[0].strip()})
    listed = {row["tiploc"] for row in board.expected.tables["tiplocs"]}
    for day in some_dates(board):
        for place in places:
            if place not in listed:
                continue
            rows = board.data(f"/station/{place}/{day}.json?show=all")["calls"]
            want = Counter(by_place[place, str(day)])
            names = "location date time train_date uid number".split()
            got = Counter(tuple(row[each] for each in names) for row in rows)
            counts.same(f"{name}, all calls at {place} on {day}", want, got)


def check_cif(counts: Counts, name: str, made: Made, board: Board) -> None:
    """The boards of a TIPLOC and of a station against `cif departures` and `cif arrivals`, of whose rows those for riders count."""
    riders = {
        kind: {(row[3], row[4], row[5], row[16], row[17]) for row in found}
        for kind, found in (
            ("departures", board.expected.departures),
            ("arrivals", board.expected.arrivals),
        )
    }
    for day in some_dates(board):
        for kind, known in riders.items():
            for code in stations(board):
                names = "time train_date uid location call".split()
                rows = [
                    tuple(str(row[each]) for each in names)
                    for row in board.cif(kind, code, f"{day:%y%m%d}")
                ]
                got = [
                    tuple(
                        str(row[each])
                        for each in ("time", "train_date", "uid", "location", "number")
                    )
                    for row in board.data(f"/station/{code}/{day}.json?show={kind}")[kind]
                ]
                counts.same(
                    f"{name}, cif {kind} {code} {day}", [row for row in rows if row in known], got
                )


# Rides of the examples on Friday 5 June: from, to, and of each the departure, the arrival, the train, and its portion.
RIDES: Dict[str, List[Tuple[str, str, str, Optional[str]]]] = {
    "VIC LIT": [("09:47:00", "11:32:00", "W20113", "W20114")],
    "LIT VIC": [("17:16:00", "19:07:00", "W20232", "W20231")],
    "VIC EBN": [("09:47:00", "11:15:00", "W20113", None)],
    "ECR BTN": [("23:49:00", "00:37:00", "W20347", None)],
    "LIT EBN": [],
}


def check_rides(counts: Counts, made: Made) -> None:
    board = made.examples
    for pair, wanted in RIDES.items():
        address = "/journey/" + "/".join(pair.split()) + "/2026-06-05"
        rows = board.data(f"{address}.json")["rides"]
        got = [(row["departure"], row["arrival"], row["uid"], row["portion"]) for row in rows]
        counts.same(f"rides {pair}", wanted, got)
        table = board.page(address).tables.get("board rides", [[]])[1:]
        shown = [(cells[0].text[:5], squeezed(cells[1].text)[:5]) for cells in table]
        counts.same(f"rides {pair}, the page", [(row[0][:5], row[1][:5]) for row in wanted], shown)
        for cells, row in zip(table, wanted):
            uids = [link.split("/")[2] for link in cells[4].links]
            counts.same(f"rides {pair}, the links", [uid for uid in row[2:] if uid], uids)
    text = squeezed(board.get("/journey/VIC/LIT/2026-06-05"))
    said = "Sit in the portion for Littlehampton: at Haywards Heath it leaves as <a"
    counts.test("VIC LIT, in words", said in text, text)
    counts.test("VIC LIT takes", "1 h 45 min" in text, text)
    text = squeezed(board.get("/journey/LIT/VIC/2026-06-05"))
    counts.test("LIT VIC, in words", "At Haywards Heath it joins <a" in text, text)
    text = squeezed(board.get("/journey/ECR/BTN/2026-06-05"))
    counts.test("ECR BTN, over midnight", "Sat 6 June</span>" in text and "48 min" in text, text)


# Where trains go, or come from, on Friday 5 June, and what the page says of portions: the address, and the texts of its rows.
PORTIONS: List[Tuple[str, List[str]]] = [
    (
        "/station/VIC/2026-06-05",
        ["Eastbourne and Littlehampton divides at Haywards Heath", "Gatwick Airport", "Brighton"],
    ),
    ("/station/HHE/2026-06-05?from=10:00", ["Eastbourne", "Littlehampton"]),
    ("/station/LIT/2026-06-05", ["Haywards Heath goes on to London Victoria"]),
    ("/station/LIT/2026-06-05?show=arrivals", ["Haywards Heath has come from London Victoria"]),
    (
        "/station/VIC/2026-06-05?show=arrivals",
        ["Brighton", "Eastbourne and Littlehampton joined at Haywards Heath"],
    ),
    ("/station/HHE/2026-06-05?show=arrivals&from=18:00", ["Eastbourne", "Littlehampton"]),
]


def check_portions(counts: Counts, made: Made) -> None:
    """Both ends of trains that divide, and of those that two have joined."""
    board = made.examples
    for address, wanted in PORTIONS:
        kind = "arrivals" if "arrivals" in address else "departures"
        rows = board.page(address).tables[f"board {kind}"][1:]
        counts.same(f"portions, {address}", wanted, [squeezed(row[1].text) for row in rows])
    rows_of = board.data("/station/VIC/2026-06-05.json")["departures"]
    found = [[portion["portion"] for portion in row["portions"]] for row in rows_of]
    counts.same("portions as JSON", [["W20114"], [], []], found)


# What is odd about a call, in a row of a board of the extract by hand: the address, the train, and what its row says.
MARKS = [
    ("/station/ALP/2026-01-06", "Q00001", ["runs as required"]),
    ("/station/ALP/2026-01-06", "N00001", ["on request"]),
    ("/station/BET/2026-01-07?show=all", "F00001", ["train of Tue 6 January", "not for riders"]),
    ("/station/ALP/2026-01-06?show=all", "E00001", ["not for riders"]),
    ("/station/ALP/2026-01-07?show=all", "F00001", ["passes", "train of Tue 6 January"]),
    ("/station/ALP/2026-01-06?show=arrivals", "R00001", ["train of Mon 5 January"]),
]


def check_marks(counts: Counts, made: Made) -> None:
    board = made.special
    for address, uid, wanted in MARKS:
        kind = {"all": "calls"}.get(address.partition("show=")[2]) or (
            address.partition("show=")[2] or "departures"
        )
        rows = [
            squeezed(" ".join(cell.text for cell in cells))
            for cells in board.page(address).tables[f"board {kind}"][1:]
            if f"/{uid}/" in cells[-1].links[0]
        ]
        for words in wanted:
            counts.test(f"{address}, {uid}: {words}", any(words in row for row in rows), rows)
    for address, uid in ("/station/ALP/2026-01-06", "E00001"), (
        "/station/ALP/2026-01-06",
        "F00001",
    ):
        counts.test(f"{address} without {uid}", uid not in board.get(address))
    passes = board.data("/station/ALP/2026-01-06.json?show=all")["calls"]
    got = [(row["time"], row["train_date"]) for row in passes if row["uid"] == "F00001"]
    # the evening's pass of ALPHAE stands on its own date, that of ALPHA a minute later on the next
    want = [("00:00:30", "2026-01-05"), ("23:59:30", "2026-01-06")]
    counts.same("passes on both sides of midnight", want, got)
    text = board.get("/station/ALP/2026-01-05")
    counts.test(
        "the first date says so", "trains that left the evening before aren’t known" in text
    )


def check_many(counts: Counts, made: Made) -> None:
    """A page of a board has 500 rows or so, and leads on to the others; as JSON all are there."""
    lines = []
    for number in range(700):
        minute = 300 + number // 3
        time = f"{minute // 60:02}{minute % 60:02}"
        lines.append(
            f"BSNX{number:05}2601052601111111111 POO1X00    122104000 EMU    090      B".ljust(79)
            + "P"
        )
        lines.append("BX         SRY")
        lines.append(f"LOALPHA   {time} {time}1".ljust(29) + "TB")
        lines.append("LTBETA    2330 23302     TF")
    path = made.folder / "busy.cif"
    head = [
        "HDTPS.UTEST01.PD2601040401262130DFTEST1       FA050126110126",
        "TIALPHA  00890500AALPHA                     032010000ALPALPHA",
        "TIBETA   00890501BBETA                      032021234BETBETA",
    ]
    path.write_text("".join(f"{line:80}\n" for line in [*head, *lines, "ZZ"]))
    board = Board(made.database(path), Source(made.program, path))
    counts.same("many as JSON", 700, len(board.data("/station/ALP/2026-01-06.json")["departures"]))
    found: List[str] = []
    address: Optional[str] = "/station/ALP/2026-01-06"
    page = board.page(str(address))
    counts.same("many, the first page", 499, len(page.tables["board departures"]))
    counts.test(
        "many, in words",
        "The first 498 departures, before 07:46" in squeezed(board.get(str(address))),
    )
    for _ in range(10):
        if not address:
            break
        page = board.page(address)
        found += [cells[-1].links[0] for cells in page.tables.get("board departures", [[]])[1:]]
        address = later(page, "2026-01-06") if len(found) < 700 else None
    counts.same("many, by pages", [f"/train/X{each:05}/2026-01-06" for each in range(700)], found)


def check(counts: Counts, made: Made) -> None:
    for name, board in made.boards.items():
        for kind in "departures", "arrivals":
            check_kind(counts, name, board, kind)
        check_calls(counts, name, board)
        if made.has_departures:
            check_cif(counts, name, made, board)
    check_hours(counts, "the examples", made.examples, "HHE", "2026-06-05")
    check_hours(counts, "by hand", made.special, "ALP", "2026-01-07")
    tiploc = made.special.data("/station/ALPHAE/2026-01-06.json")
    counts.same("a TIPLOC alone", ["N00001"], [row["uid"] for row in tiploc["departures"]])
    counts.same("a TIPLOC, its code", (None, "ALPHAE"), (tiploc["station_crs"], tiploc["location"]))
    check_rides(counts, made)
    check_portions(counts, made)
    check_marks(counts, made)
    check_many(counts, made)
    counts.test(
        "JSON keeps its names", json.dumps(tiploc["departures"][0]).startswith('{"station_crs"')
    )
