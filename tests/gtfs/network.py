"""An extract of a network in which most trains divide, join or go on: portions, sleepers, and overlays that move one train of a
pair, leave out the place where they meet, or cancel it."""
from __future__ import annotations

from random import Random
from typing import Iterator, List, Optional, Tuple

WINDOW = "260302", "260322"
HEADER = "HDTPS.UTEST01.PD2603010103262000DFTEST1       FA020326220326"
MAIN = [f"MAIN{number}" for number in range(8)]
BRANCHES = {
    "MAIN3": [f"WEST{number}" for number in range(3)],
    "MAIN5": [f"EAST{number}" for number in range(3)],
}
STATIONS = [*MAIN, *(place for branch in BRANCHES.values() for place in branch)]
CRS = {place: f"{place[0]}{place[2]}{place[-1]}" for place in STATIONS}
DAILY, WEEKDAYS, WEEKENDS = "1111111", "1111100", "0000011"


def clock(minutes: int) -> str:
    return f"{minutes // 60 % 24:02}{minutes % 60:02}"


class Run:
    """The calls of a train: place, arrival and departure in minutes, and whether it is advertised there."""

    def __init__(self, calls: List[Tuple[str, int, int, bool]]) -> None:
        self.calls = calls

    def later(self, minutes: int) -> Run:
        return Run(
            [
                (place, arrival + minutes, departure + minutes, public)
                for place, arrival, departure, public in self.calls
            ]
        )

    def without(self, place: str) -> Run:
        """The same without a call on the way."""
        first, *way, last = self.calls
        return Run([first, *(call for call in way if call[0] != place), last])

    def at(self, place: str) -> Tuple[str, int, int, bool]:
        return next(call for call in self.calls if call[0] == place)

    def lines(self) -> Iterator[str]:
        (place, _, departure, public), *way, last = self.calls
        yield f"LO{place:8}{clock(departure)} {clock(departure) if public else '0000'}1{'':9}TB"
        for call, arrival, leaves, advertised in way:
            times = clock(arrival) + clock(leaves) if advertised else "00000000"
            yield f"LI{call:8}{clock(arrival)} {clock(leaves)}{'':6}{times}2{'':8}T"
        place, arrival, _, public = last
        yield f"LT{place:8}{clock(arrival)} {clock(arrival) if public else '0000'}3{'':5}TF"


def journey(rng: Random, places: List[str], start: int, hidden: Optional[str] = None) -> Run:
    """A run along these places, one of which isn't advertised."""
    calls, now = [], start
    for place in places:
        arrival = now
        now += rng.choice([1, 2, 5, 10])
        calls.append((place, arrival, now, place != hidden))
        now += rng.choice([8, 10, 15, 25])
    return Run(calls)


class Network:
    """The lines of an extract as they are made."""

    def __init__(self, rng: Random) -> None:
        self.rng, self.count = rng, 0
        self.lines: List[str] = []

    def uid(self) -> str:
        self.count += 1
        return f"N{self.count:05}"

    def schedule(
        self,
        uid: str,
        run: Run,
        dates: Tuple[str, str] = WINDOW,
        days: str = DAILY,
        letter: str = "P",
    ) -> None:
        self.lines.append(
            f"BSN{uid}{''.join(dates)}{days} POO1N01    122104000 DMU    075      S            {letter}"
        )
        self.lines += ["BX         SRY", *run.lines()]

    def train(self, run: Run, meets: str, days: str) -> str:
        """A train with overlays on some dates. Returns its UID."""
        uid, rng = self.uid(), self.rng
        self.schedule(uid, run, days=days)
        for first, last in (("260305", "260308"), ("260310", "260312"), ("260316", "260318")):
            change = rng.choice(
                ["none", "none", "none", "later", "earlier", "without", "cancelled"]
            )
            if change == "later":
                self.schedule(uid, run.later(rng.choice([3, 12, 40])), (first, last), days, "O")
            elif change == "earlier":
                self.schedule(uid, run.later(-rng.choice([3, 12])), (first, last), days, "O")
            elif change == "without":
                self.schedule(uid, run.without(meets), (first, last), days, "O")
            elif change == "cancelled":
                self.lines.append(f"BSN{uid}{first}{last}{days}".ljust(79) + "C")
        return uid

    def associate(
        self, base: str, associated: str, category: str, indicator: str, place: str, days: str
    ) -> None:
        fields = f"AAN{base}{associated}{{}}{{}}{days}{category}{indicator}{place:7}  T"
        self.lines.append((fields.format(*WINDOW) + "P").ljust(79) + "P")
        if self.rng.random() < 0.2:
            cancelled = f"AAN{base}{associated}260309260311{days}   {place:7}  T"
            self.lines.append(cancelled.ljust(79) + "C")

    def base(self, start: int, hidden: Optional[str]) -> Run:
        """A train along the main line, one way or the other."""
        places = MAIN if self.rng.random() < 0.5 else MAIN[::-1]
        return journey(self.rng, places, start, hidden)

    def add(self) -> None:
        """Adds a train with portions, or one that goes on as another."""
        rng = self.rng
        sleeper = rng.random() < 0.3
        start = rng.choice(range(1290, 1439)) if sleeper else rng.choice(range(300, 1300))
        places = [place for place in BRANCHES if rng.random() < 0.7] or ["MAIN3"]
        run = self.base(start, rng.choice(places) if sleeper else None)
        days = rng.choice([DAILY, DAILY, WEEKDAYS, WEEKENDS])
        base = self.train(run, places[0], days)
        for place in places:
            self.add_portion(base, run, place, days)
        if rng.random() < 0.4:
            self.add_next(base, run, days)

    def add_portion(self, base: str, run: Run, place: str, days: str) -> None:
        """A portion that leaves a train at a place, or joins it there."""
        rng = self.rng
        _, arrival, departure, public = run.at(place)
        branch = [place, *BRANCHES[place]]
        if rng.random() < 0.5:
            portion = journey(rng, branch, arrival, None if public else place)
            portion = portion.later(rng.choice([0, 2, 6, -8]))
            category, leaves = "VV", portion.calls[0][2]
        else:
            portion = journey(rng, branch[::-1], 0, None if public else place)
            portion = portion.later(departure - portion.calls[-1][1] - rng.choice([0, 2, 6, -8]))
            category, leaves = "JJ", portion.calls[0][2]
        indicator = {0: "S", 1: "N", -1: "P"}[leaves // 1440]
        self.associate(base, self.train(portion, place, days), category, indicator, place, DAILY)

    def add_next(self, base: str, run: Run, days: str) -> None:
        """A train as which another one goes on."""
        place, arrival, _, _ = run.calls[-1]
        back = journey(
            self.rng,
            MAIN if place == MAIN[0] else MAIN[::-1],
            arrival + self.rng.choice([0, 4, 30, 400]),
        )
        indicator = "SNX"[back.calls[0][2] // 1440]
        self.associate(base, self.train(back, MAIN[4], days), "NP", indicator, place, DAILY)


def extract(rng: Random, count: int) -> List[str]:
    """The lines of an extract with that many trains of a main line, and their portions."""
    network = Network(rng)
    for _ in range(count):
        network.add()
    places = [f"TI{place:7}00890500A{place.title():26}032010000{CRS[place]}" for place in STATIONS]
    return [HEADER, *places, *network.lines, "ZZ"]
