"""What is refused, and what every page keeps to."""
from __future__ import annotations

from typing import Dict, Tuple

from cif_timetable.board import create_app
from gtfs.checks import Counts

from .pages import Made, Reader, squeezed

# Bad addresses of the examples: the status, and what is said.
WRONG: Dict[str, Tuple[int, str]] = {
    "/nothing": (404, "The addresses are /, /station/HHE/2026-06-05"),
    "/station/HHE/2026-06-31": (400, "2026-06-31 isn’t a date. A date is written 2026-06-05."),
    "/station/HHE/260605": (400, "260605 isn’t a date."),
    "/station/HHE/2026-6-5": (400, "2026-6-5 isn’t a date."),
    "/station/HHE/20260605": (400, "20260605 isn’t a date."),
    "/station/HHE/2026-05-16": (
        404,
        "Sat 16 May 2026 isn’t in this timetable, which is from Sun 17 May 2026 to Sat 13 June 2026.",
    ),
    "/station/HHE/2026-06-14": (404, "isn’t in this timetable"),
    "/station/ZZZ/2026-06-05": (404, "This timetable has no ZZZ"),
    "/station/HAYWARDS/2026-06-05": (400, "HAYWARDS is neither."),
    "/station/HHE/2026-06-05?from=9": (400, "9 isn’t a time. A time is written 09:00."),
    "/station/HHE/2026-06-05?from=24:00": (400, "24:00 isn’t a time."),
    "/station/HHE/2026-06-05?show=passes": (
        400,
        "A board shows departures, arrivals or all, and not passes.",
    ),
    "/train/W99999/2026-06-05": (404, "no train with the UID W99999"),
    "/train/W203/2026-06-05": (400, "UID of six columns"),
    "/train/W20347/tomorrow": (400, "tomorrow isn’t a date."),
    "/journey/VIC/ZZZ/2026-06-05": (404, "This timetable has no ZZZ"),
    "/journey/VIC/KEYMERJ/2026-06-05": (404, "Keymer Jn has no CRS code"),
    "/journey/VIC/VIC/2026-06-05": (400, "Both stations are London Victoria."),
    "/?q=HHE&date=2026-06-99": (400, "2026-06-99 isn’t a date."),
    "/station": (404, "There is no such page."),
    "/station/HHE/2026-06-05/more": (404, "There is no such page."),
    "/?q=" + "x" * 101: (400, "A search has at most 100 letters."),
    "/journey?from=HHE&to=" + "x" * 101: (400, "A search has at most 100 letters."),
    "/static/../queries.py": (404, "There is no such page."),
}
PAGES = (
    "/",
    "/?q=alpha",
    "/?q=zz",
    "/station/ALP/2026-01-07",
    "/station/ALP/2026-01-07?show=all",
    "/station/GAM/2026-01-07?show=arrivals",
    "/train/F00001/2026-01-06",
    "/train/%2000001/2026-01-06",
    "/journey/ALP/BET/2026-01-06",
    "/journey?from=al&to=zz",
    "/operators",
    "/extract",
    "/nothing",
)
POLICY = (
    "default-src 'none'; style-src 'self'; script-src 'self'; img-src 'self'; connect-src 'self';"
    " form-action 'self'; base-uri 'none'; frame-ancestors 'none'"
)
HOSTS = {
    "localhost": 200,
    "localhost:8080": 200,
    "LOCALHOST": 200,
    "127.0.0.1:99": 200,
    "[::1]:8080": 200,
    "board.example": 200,
    "board.example:8080": 200,
    "evil.example": 400,
    "localhost.evil.example": 400,
    "127.0.0.1.evil.example:8080": 400,
    "localhost:8080@evil.example": 400,
    "evil.example:80:localhost": 400,
    "": 400,
}


def check_addresses(counts: Counts, made: Made) -> None:
    board = made.examples
    for address, (status, words) in WRONG.items():
        answer = board.client.get(address)
        counts.same(f"{address}, the status", status, answer.status_code)
        text = squeezed(answer.text.replace("&#39;", "’").replace("'", "’"))
        counts.test(f"{address} says: {words}", words in text, text)
        counts.test(f"{address} is a page", "<main" in text and "To the search" in text)
    for day in board.dates[0], board.dates[-1]:
        counts.same(f"{day}", 200, board.client.get(f"/station/HHE/{day}").status_code)
    answer = board.client.get("/station/HHE/2026-06-31.json")
    told = {"error": "2026-06-31 isn't a date. A date is written 2026-06-05."}
    counts.same("a bad address as JSON", (400, told), (answer.status_code, answer.json))
    for address in "/station/hhe/2026-06-05", "/station/hhe":
        answer = board.client.get(f"{address}?_external=1&_scheme=javascript&from=09:00&x=1")
        where = answer.headers["Location"].replace("%3A", ":").replace("2026-06-13", "2026-06-05")
        counts.same(f"{address} leads on", "/station/HHE/2026-06-05?from=09:00", where)
    for method in "post", "put", "delete":
        answer = getattr(board.client, method)("/station/HHE/2026-06-05")
        counts.same(f"{method} is refused", 405, answer.status_code)
    answer = board.client.head("/station/HHE/2026-06-05")
    counts.same("HEAD", (200, b""), (answer.status_code, answer.data))


def check_hosts(counts: Counts, made: Made) -> None:
    client = create_app(
        made.examples.path, ["localhost", "127.0.0.1", "[::1]", "Board.Example"]
    ).test_client()
    for address in "/", "/station/HHE/2026-06-05", "/static/board.css", "/nothing":
        for host, status in HOSTS.items():
            answer = client.get(address, environ_overrides={"HTTP_HOST": host})
            wanted = 404 if (address, status) == ("/nothing", 200) else status
            counts.same(f"{address} of the host {host!r}", wanted, answer.status_code)
            if status == 400:
                counts.test(f"{host!r} learns nothing", "Haywards" not in answer.text, answer.text)
    plain = create_app(made.examples.path).test_client()
    answer = plain.get("/", environ_overrides={"HTTP_HOST": "board.example"})
    counts.same("another host, where none is named", 400, answer.status_code)


def check_pages(counts: Counts, made: Made) -> None:
    """Names are escaped, and nothing is there that the policy forbids."""
    for address in PAGES:
        answer = made.special.client.get(address)
        name = f"{address}, {answer.status_code}"
        counts.same(f"{name}, the policy", POLICY, answer.headers.get("Content-Security-Policy"))
        counts.same(f"{name}, the type", "nosniff", answer.headers.get("X-Content-Type-Options"))
        if answer.status_code != 302:
            reader = Reader()
            reader.feed(answer.text)
            counts.same(f"{name}, what is forbidden", [], reader.forbidden)
            lower = answer.text.lower()
            counts.test(
                f"{name}, names are escaped",
                "<b>junction" not in lower
                and "alert(1)</script>" not in lower
                and "1<b>" not in lower,
            )
            counts.same(f"{name}, headings", 1, lower.count("<h1"))
            counts.test(f"{name}, its language", '<html lang="en-gb">' in lower)
    page = made.special.get("/station/GAM/2026-01-07?show=arrivals")
    counts.test("a name that is HTML", "&lt;script&gt;alert(1)&lt;/Script&gt;" in page, page[:2000])
    page = made.special.get("/?q=<script>alert(1)</script>x")
    counts.test("a search that is HTML", "&lt;script&gt;alert(1)" in page)
    page = made.special.get("/station/%3Cb%3E/2026-01-07", 404)
    counts.test("a code that is HTML", "&lt;b&gt;" in page and "<b>" not in page)


def check_kept(counts: Counts, made: Made) -> None:
    """An answer that is kept is the same, and has the same headers; one that a browser has isn't sent again."""
    client = create_app(made.examples.path).test_client()
    for address in "/station/HHE/2026-06-05", "/station/HHE/2026-06-05.json", "/operators":
        first, second = client.get(address), client.get(address)
        counts.same(f"{address} again", first.data, second.data)
        counts.same(f"{address} again, its headers", sorted(first.headers), sorted(second.headers))
        again = client.get(address, headers={"If-None-Match": first.headers["ETag"]})
        counts.same(f"{address}, what a browser has", (304, b""), (again.status_code, again.data))
        head = client.head(address)
        counts.same(f"{address}, HEAD", (200, b""), (head.status_code, head.data))
        other = client.get(f"{address}?from=06:00")
        if "station" in address:
            counts.test(f"{address}, another question", other.data != first.data)


def check(counts: Counts, made: Made) -> None:
    check_addresses(counts, made)
    check_hosts(counts, made)
    check_pages(counts, made)
    check_kept(counts, made)
