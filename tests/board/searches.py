"""The search, and where the forms lead."""
from __future__ import annotations

from typing import Dict, List
from urllib.parse import urlencode

from gtfs.checks import Counts

from .pages import Made, squeezed

# What is searched in the examples, and where that leads on Friday 5 June.
LEADS: Dict[str, str] = {
    "/?q=HHE": "/station/HHE/2026-06-05",
    "/?q=hhe": "/station/HHE/2026-06-05",
    "/?q=Haywards+Heath": "/station/HHE/2026-06-05",
    "/?q=haywards": "/station/HHE/2026-06-05",
    "/?q=VICTORIA+(CENTRAL)": "/station/VIC/2026-06-05",
    "/?q=KEYMERJ": "/station/KEYMERJ/2026-06-05",
    "/?q=W20347": "/train/W20347/2026-06-05",
    "/?q=w20347": "/train/W20347/2026-06-05",
    "/?q=1A94": "/train/W20347/2026-06-05",
    "/?q=1A41": "/train/W20402",
    "/journey?from=vic&to=LIT": "/journey/VIC/LIT/2026-06-05",
    "/journey?from=London+Victoria&to=littlehampton": "/journey/VIC/LIT/2026-06-05",
    "/journey?from=VICTRIC&to=LIT": "/journey/VIC/LIT/2026-06-05",
    "/station/HHE?from=09:00&show=all": "/station/HHE/2026-06-05?from=09:00&show=all",
    "/station/hhe": "/station/HHE/2026-06-05",
    "/train/W20347": "/train/W20347/2026-06-05",
}
# What is found, in this order: stations, other places, trains.
FOUND: Dict[str, List[List[str]]] = {
    "victoria": [["VIC"], [], []],
    "clap": [["CLJ"], [], []],
    "e": [["ECR", "EBN", "CLJ", "HHE", "HOV", "LWS", "LIT", "VIC", "RDH", "TBD"], ["KEYMERJ"], []],
    "bri": [["BTN", "TBD"], [], []],
    "keymer": [[], ["KEYMERJ"], []],
    "HYWR": [[], ["HYWRDSH"], []],
    "1A41": [[], [], ["W20402"]],
    "zzz": [[], [], []],
    "%": [[], [], []],
    "_": [[], [], []],
}


def decoded(address: str) -> str:
    return address.replace("%3A", ":")


def check(counts: Counts, made: Made) -> None:
    board = made.examples
    for address, wanted in LEADS.items():
        asked = address + ("&" if "?" in address else "?") + "date=2026-06-05"
        answer = board.client.get(asked)
        got = decoded(answer.headers.get("Location", ""))
        counts.same(f"{address} leads on", (302, wanted), (answer.status_code, got))
    for text, columns in FOUND.items():
        data = board.data("/.json?" + urlencode({"q": text, "date": "2026-06-05"}))
        found = [
            [row[name] for row in data[kind]]
            for kind, name in (
                ("stations", "station_crs"),
                ("locations", "tiploc"),
                ("trains", "uid"),
            )
        ]
        counts.same(f"found for {text}", columns, found)
    page = squeezed(board.get("/?q=bri&date=2026-06-05"))
    counts.test("a list of stations", 'href="/station/BTN/2026-06-05">Brighton</a>' in page, page)
    page = squeezed(board.get("/?q=zzz&date=2026-06-05"))
    counts.test("nothing is found", "Nothing is found for “zzz”." in page, page)
    page = squeezed(board.get("/journey?from=bri&to=zzz&date=2026-06-05"))
    counts.test("a choice of stations", 'value="TBD"' in page and 'value="BTN"' in page, page)
    counts.test("no such station", "No station is named “zzz”." in page, page)
    rows = board.data("/.json?q=1A41&date=2026-06-05")["trains"]
    counts.same("a train that doesn't run then", [0], [row["runs"] for row in rows])
    rows = board.data("/.json?q=1A41&date=2026-06-06")["trains"]
    counts.same("a train that runs then", [1], [row["runs"] for row in rows])
    special = made.special
    data = special.data("/.json?q=%27YARD%27+%25_")
    counts.same("wildcards are letters", ["YARD"], [row["tiploc"] for row in data["locations"]])
    answer = special.client.get("/?q=00001&date=2026-01-06")
    counts.same("a UID with a blank", "/train/%2000001/2026-01-06", answer.headers.get("Location"))
    minor = made.boards["sample"]
    rows = minor.data("/.json?q=HHE&date=2027-01-15")["stations"]
    counts.same("a code comes first", "HHE", rows[0]["station_crs"])
