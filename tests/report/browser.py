"""The page in headless Chromium, by its DevTools protocol: JSON on two pipes, with a byte 0 after each message."""
from __future__ import annotations

import base64
import contextlib
import json
import os
import shutil
import subprocess
import tempfile
from datetime import date
from pathlib import Path
from typing import Callable, Dict, List, Optional, Set, TypedDict

from gtfs.checks import Counts

from .page import Group, Page, Train

PROGRAMS = "chromium", "chromium-browser", "google-chrome"
WIDE, NARROW = 1280, 400

# What overlaps: the boxes of texts that are shown, where neither holds the other.
OVERLAPS = """
(() => {
  const boxes = [];
  const walker = document.createTreeWalker(document.body, NodeFilter.SHOW_TEXT);
  while (walker.nextNode()) {
    const node = walker.currentNode;
    const parent = node.parentElement;
    if (!node.data.trim() || parent.closest("script, datalist, select, [hidden], details:not([open]) > :not(summary)")) {
      continue;
    }
    const range = document.createRange();
    range.selectNodeContents(node);
    for (const box of range.getClientRects()) {
      if (box.width > 1 && box.height > 1) {
        const height = Math.min(box.height, parseFloat(getComputedStyle(parent).fontSize));
        const top = (box.top + box.bottom - height) / 2;
        boxes.push({ text: node.data.trim(), left: box.left, right: box.right, top: top, bottom: top + height });
      }
    }
  }
  boxes.sort((a, b) => a.top - b.top);
  const found = [];
  for (let at = 0; at < boxes.length; at++) {
    for (let next = at + 1; next < boxes.length && boxes[next].top < boxes[at].bottom - 1; next++) {
      const [a, b] = [boxes[at], boxes[next]];
      if (a.left < b.right - 1 && b.left < a.right - 1) {
        found.push(a.text + " | " + b.text);
      }
    }
  }
  return found;
})()
"""
# By how much the page is wider than the window. Tables that are wider scroll by themselves.
BEYOND = "document.documentElement.scrollWidth - document.documentElement.clientWidth"
# The contrast of texts with what is behind them, where it is below what WCAG wants (level AA).
CONTRASTS = """
(() => {
  const numbers = (colour) => colour.match(/[0-9.]+/g).map(Number);
  const light = (colour) => {
    const parts = numbers(colour).slice(0, 3).map((part) => part / 255)
      .map((part) => (part <= 0.04045 ? part / 12.92 : ((part + 0.055) / 1.055) ** 2.4));
    return 0.2126 * parts[0] + 0.7152 * parts[1] + 0.0722 * parts[2];
  };
  const behind = (element) => {
    for (let each = element; each; each = each.parentElement) {
      const colour = getComputedStyle(each).backgroundColor;
      if (numbers(colour)[3] !== 0) {
        return colour;
      }
    }
    return "rgb(255, 255, 255)";
  };
  const found = new Set();
  for (const element of document.querySelectorAll("body *:not(script):not(option)")) {
    const own = [...element.childNodes].some((node) => node.nodeType === 3 && node.data.trim());
    if (own && element.getClientRects().length) {
      const style = getComputedStyle(element);
      const [one, other] = [light(style.color), light(behind(element))];
      const contrast = (Math.max(one, other) + 0.05) / (Math.min(one, other) + 0.05);
      const size = parseFloat(style.fontSize);
      const large = size >= 24 || (size >= 18.66 && Number(style.fontWeight) >= 700);
      if (contrast < (large ? 3 : 4.5)) {
        found.add(element.tagName + " " + element.className + " " + contrast.toFixed(2));
      }
    }
  }
  return [...found];
})()
"""
# Shapes of charts whose contrast with the page is below what WCAG wants of graphics.
SHAPES = """
(() => {
  const light = (colour) => {
    const parts = colour.match(/[0-9.]+/g).map(Number).slice(0, 3).map((part) => part / 255)
      .map((part) => (part <= 0.04045 ? part / 12.92 : ((part + 0.055) / 1.055) ** 2.4));
    return 0.2126 * parts[0] + 0.7152 * parts[1] + 0.0722 * parts[2];
  };
  const paper = light(getComputedStyle(document.body).backgroundColor);
  const found = new Set();
  for (const shape of document.querySelectorAll(".plot path")) {
    const style = getComputedStyle(shape);
    const own = light(style.stroke === "none" ? style.fill : style.stroke);
    const contrast = (Math.max(own, paper) + 0.05) / (Math.min(own, paper) + 0.05);
    if (contrast < 3) {
      found.add(shape.getAttribute("class") + " " + contrast.toFixed(2));
    }
  }
  return [...found];
})()
"""
# Numbers of the grid that cover a chart.
COVERING = """
[...document.querySelectorAll(".grid i")].filter((number) => number.getBoundingClientRect().right
  > number.closest(".plot").querySelector("svg").getBoundingClientRect().left).map((number) => number.textContent)
"""
OPEN_ALL = 'for (const each of document.querySelectorAll("details")) { each.open = true; }'
SHOWN = '[...document.querySelectorAll(".train")].filter((train) => train.getClientRects().length).map((train) => train.dataset.uid)'


def program() -> Optional[str]:
    return next(filter(None, map(shutil.which, PROGRAMS)), None)


class TargetInfo(TypedDict):
    """A page of the browser, or another part of it."""

    targetId: str
    type: str


class RemoteObject(TypedDict, total=False):
    """A value of the page's script."""

    value: object
    description: str


class ExceptionDetails(TypedDict):
    """What a script has thrown."""

    exception: RemoteObject


class Result(TypedDict, total=False):
    """What a method answers, as far as it is used here."""

    targetInfos: List[TargetInfo]
    sessionId: str
    result: RemoteObject
    exceptionDetails: ExceptionDetails
    data: str


class Request(TypedDict):
    """What the page asks for."""

    url: str


class Params(TypedDict, total=False):
    """What an event says, as far as it is used here."""

    request: Request


class Message(TypedDict, total=False):
    """An answer to a call, or an event."""

    id: int
    method: str
    params: Params
    result: Result
    error: object


class Browser:
    """A browser with one page, and what it has sent."""

    def __init__(self, path: str, folder: str) -> None:
        reads, writes = os.pipe(), os.pipe()

        def as_three_and_four() -> None:
            # both are moved out of the way first, since one may have the number of the other
            ends = os.dup(reads[0]), os.dup(writes[1])
            os.dup2(ends[0], 3)
            os.dup2(ends[1], 4)

        words = [path, "--headless=new", "--no-sandbox", "--disable-gpu", "--remote-debugging-pipe"]
        words += ["--disable-dev-shm-usage", "--disable-background-networking"]
        words += [f"--user-data-dir={folder}", "about:blank"]
        # no thread runs then
        self.process = subprocess.Popen(  # pylint: disable=subprocess-popen-preexec-fn
            words,
            stdout=subprocess.DEVNULL,
            stderr=subprocess.DEVNULL,
            preexec_fn=as_three_and_four,
            close_fds=False,
        )
        os.close(reads[0])
        os.close(writes[1])
        self.output = os.fdopen(reads[1], "wb", buffering=0)
        self.input = os.fdopen(writes[0], "rb")
        self.number, self.rest = 0, b""
        self.events: List[Message] = []
        self.session: Optional[str] = None

    def receive(self) -> Message:
        while b"\0" not in self.rest:
            block = os.read(self.input.fileno(), 1 << 16)
            if not block:
                raise RuntimeError("the browser has ended")
            self.rest += block
        text, _, self.rest = self.rest.partition(b"\0")
        message: Message = json.loads(text)
        return message

    def call(self, method: str, **params: object) -> Result:
        """What a method answers. Events before it are kept."""
        self.number += 1
        message: Dict[str, object] = {"id": self.number, "method": method, "params": params}
        if self.session:
            message["sessionId"] = self.session
        self.output.write(json.dumps(message).encode() + b"\0")
        while True:
            answer = self.receive()
            if answer.get("id") == self.number:
                if "error" in answer:
                    raise RuntimeError(f"{method}: {answer['error']}")
                return answer["result"]
            self.events.append(answer)

    def attach(self) -> None:
        [target] = [
            each for each in self.call("Target.getTargets")["targetInfos"] if each["type"] == "page"
        ]
        found = self.call("Target.attachToTarget", targetId=target["targetId"], flatten=True)
        self.session = found["sessionId"]
        for domain in "Page", "Runtime", "Log", "Network":
            self.call(f"{domain}.enable")

    def open(self, path: Path, width: int, scheme: str = "light", script: bool = True) -> None:
        """Opens a page at a width, with light or dark colours."""
        self.events.clear()
        metrics = {"width": width, "height": 900, "deviceScaleFactor": 1, "mobile": False}
        self.call("Emulation.setDeviceMetricsOverride", **metrics)
        self.call("Emulation.setScriptExecutionDisabled", value=not script)
        features = [{"name": "prefers-color-scheme", "value": scheme}]
        self.call("Emulation.setEmulatedMedia", media="", features=features)
        self.call("Page.navigate", url=path.as_uri())
        while not any(event.get("method") == "Page.loadEventFired" for event in self.events):
            self.events.append(self.receive())

    def value(self, expression: str) -> object:
        found = self.call("Runtime.evaluate", expression=expression, returnByValue=True)
        if "exceptionDetails" in found:
            raise RuntimeError(found["exceptionDetails"]["exception"]["description"])
        return found["result"].get("value")

    def texts(self, expression: str) -> List[str]:
        """A value that is a list of texts."""
        found = self.value(expression)
        assert isinstance(found, list)
        return found

    def count(self, expression: str) -> int:
        """A value that is a whole number."""
        found = self.value(expression)
        assert isinstance(found, int)
        return found

    def screenshot(self, path: Path) -> None:
        found = self.call("Page.captureScreenshot", captureBeyondViewport=True)
        path.write_bytes(base64.b64decode(found["data"]))

    def happened(self, method: str) -> List[Params]:
        return [event["params"] for event in self.events if event.get("method") == method]

    def close(self) -> None:
        for end in self.output, self.input:
            with contextlib.suppress(OSError):
                end.close()
        self.process.terminate()
        self.process.wait(timeout=30)


def check_quiet(counts: Counts, name: str, browser: Browser, page: Path) -> None:
    """Nothing in the console, and nothing fetched."""
    counts.same(f"{name}, errors", [], browser.happened("Runtime.exceptionThrown"))
    counts.same(f"{name}, the console", [], browser.happened("Runtime.consoleAPICalled"))
    counts.same(f"{name}, the log", [], browser.happened("Log.entryAdded"))
    asked = [each["request"]["url"] for each in browser.happened("Network.requestWillBeSent")]
    wrong = [url for url in asked if url != page.as_uri() and not url.startswith("data:")]
    counts.same(f"{name}, what is fetched", [], wrong)
    counts.test(f"{name}, the page is asked for", page.as_uri() in asked, asked)


def check_looks(counts: Counts, browser: Browser, page: Path) -> None:
    """Nothing overlaps, goes beyond the window or is hard to read, in a wide and a narrow one."""
    for width, scheme in (WIDE, "light"), (WIDE, "dark"), (NARROW, "light"), (NARROW, "dark"):
        name = f"at {width} columns, {scheme}"
        browser.open(page, width, scheme)
        counts.same(f"{name}, width", width, browser.value("innerWidth"))
        browser.value(OPEN_ALL)
        counts.same(f"{name}, overlaps", [], browser.texts(OVERLAPS)[:5])
        counts.same(f"{name}, beyond the window", 0, browser.value(BEYOND))
        counts.same(f"{name}, contrast", [], browser.texts(CONTRASTS)[:5])
        counts.same(f"{name}, contrast of charts", [], browser.texts(SHAPES)[:5])
        counts.test(f"{name}, texts", browser.count("document.body.innerText.length") > 1000)
        check_quiet(counts, name, browser, page)


def bottom(browser: Browser, selector: str) -> int:
    """How far down the page an element ends."""
    return browser.count(
        f"Math.ceil(document.querySelector({json.dumps(selector)}).getBoundingClientRect().bottom + scrollY)"
    )


def check_first(counts: Counts, browser: Browser, page: Path, made: Page) -> None:
    """What stands out is seen first: in words and as a chart in a wide window, in words and at the
    top of the chart in a narrow one."""
    [peak, *_] = made.peaks
    for width in WIDE, NARROW:
        browser.open(page, width)
        text = browser.value('document.querySelector("main, .lead").textContent')
        counts.test(
            f"at {width} columns, the first words", str(text).startswith(peak.sentence), text
        )
        counts.test(f"at {width} columns, words", bottom(browser, ".lead") < 900)
        counts.same(f"at {width} columns, numbers over a chart", [], browser.texts(COVERING))
        end = bottom(browser, "figure .difference")
        counts.test(f"at {width} columns, the chart", end < 900, end)
    browser.open(page, WIDE)
    link = 'document.querySelector(".peak .links a")'
    browser.value(f"{link}.click()")
    heading = browser.value("document.querySelector(`${location.hash} h3`).textContent")
    counts.test(
        "the trains of what stands out", str(heading).startswith("1 Cancelled on "), heading
    )
    on_date = trains_on(made, peak.highest)
    browser.value('document.querySelector(".peak .links a[data-date]").click()')
    shown = browser.texts(SHOWN)
    counts.same("all trains of the date that stands out", sorted(on_date), sorted(shown))
    hidden = 'document.querySelectorAll(".groups:not([hidden])").length'
    kinds = [{kind for group in part for kind in group.kinds} for part in made.groups_of_peaks]
    some = {
        kind for of_part in kinds for kind in of_part if any(kind not in each for each in kinds)
    }
    counts.test("kinds without a train of what stands out", some, kinds)
    for kind in sorted(some):
        browser.value('document.getElementById("filter").reset()')
        set_field(browser, "kind", kind)
        want = sum(kind in of_part for of_part in kinds)
        counts.same(f"headings with trains of kind {kind}", want, browser.value(hidden))


def set_field(browser: Browser, name: str, value: str) -> None:
    """Fills a field of the filter as a user does."""
    browser.value(
        f'(() => {{ const field = document.getElementById("filter").elements[{json.dumps(name)}];'
        f' field.value = {json.dumps(value)}; field.dispatchEvent(new Event("input", {{bubbles: true}})); }})()'
    )


def check_one_filter(
    counts: Counts,
    browser: Browser,
    made: Page,
    name: str,
    fields: Dict[str, str],
    wanted: List[str],
) -> None:
    """The filter shows those trains that are wanted, and says how many."""
    browser.value('document.getElementById("filter").reset()')
    for field, value in fields.items():
        set_field(browser, field, value)
    got = browser.texts(SHOWN)
    counts.same(f"filter by {name}", sorted(wanted), sorted(got))
    counts.test(
        f"filter by {name}, some and not all", 0 < len(wanted) < len(made.trains()), len(wanted)
    )
    text = browser.value('document.getElementById("filter").elements.shown.value')
    assert made.data is not None
    changed = f"{made.data['changed']:,}"
    counts.same(
        f"filter by {name}, in words",
        f"{len(wanted)} of {len(made.trains())} trains on this page; {changed} trains differ in all",
        text,
    )
    groups = browser.value(
        '[...document.querySelectorAll(".group")].filter((each) => !each.hidden).length'
    )
    want = sum(any(train.uid in wanted for train in group.trains) for group in made.groups)
    counts.same(f"filter by {name}, groups", want, groups)


def trains_with(made: Page, right: Callable[[Group, Train], object]) -> List[str]:
    """The UIDs of the trains for which this is so, given their group."""
    return [train.uid for group in made.groups for train in group.trains if right(group, train)]


def trains_at(made: Page, numbers: Set[int]) -> List[str]:
    """Those that have one of these places."""
    return trains_with(made, lambda group, train: numbers & set(train.places))


def trains_of_kind(made: Page, kind: str) -> List[str]:
    return trains_with(made, lambda group, train: kind in group.kinds)


def trains_on(made: Page, day: date) -> List[str]:
    """Those that differ on a date."""
    return trains_with(made, lambda group, train: any(day in days for days in group.kinds.values()))


def check_filter(counts: Counts, browser: Browser, page: Path, made: Page) -> None:
    browser.open(page, WIDE)
    assert made.data is not None
    places = made.data["places"]
    counts.same(
        "without a filter",
        sorted(train.uid for train in made.trains()),
        sorted(browser.texts(SHOWN)),
    )
    operator = made.trains()[0].operators[0]
    by_operator = trains_with(made, lambda group, train: operator in train.operators)
    check_one_filter(counts, browser, made, "operator", {"operator": operator}, by_operator)
    for name, text in ("a CRS code", "gtw"), ("a TIPLOC", "GTWK"), ("a name", "Gatwick air"):
        numbers = {number for number, place in enumerate(places) if place[2] == "GTWK"}
        at_place = trains_at(made, numbers)
        check_one_filter(counts, browser, made, name, {"place": text}, at_place)
    for kind in sorted({kind for group in made.groups for kind in group.kinds}):
        of_kind = trains_of_kind(made, kind)
        check_one_filter(counts, browser, made, f"kind {kind}", {"kind": kind}, of_kind)
    all_dates = set().union(*(days for group in made.groups for days in group.kinds.values()))
    for day in max(all_dates), min(all_dates):
        on_date = trains_on(made, day)
        check_one_filter(counts, browser, made, f"date {day}", {"date": day.isoformat()}, on_date)
    both = trains_with(made, lambda group, train: day in group.kinds.get("cancelled", ()))
    fields = {"date": day.isoformat(), "kind": "cancelled"}
    check_one_filter(counts, browser, made, "date and kind", fields, both)
    link = f"document.querySelector('#when a[data-date=\"{day.isoformat()}\"]').click()"
    browser.value(f'document.getElementById("filter").reset(); {link}')
    counts.same("a date of the calendar", sorted(on_date), sorted(browser.texts(SHOWN)))
    browser.value('document.querySelector("#filter [type=reset]").click()')
    for _ in range(50):
        if len(browser.texts(SHOWN)) == len(made.trains()):
            break
    counts.same("all again", len(made.trains()), len(browser.texts(SHOWN)))
    closed = browser.count('document.querySelectorAll(".train details:not([open])").length')
    browser.value('document.getElementById("filter").elements.calls.click()')
    counts.test("calls are closed at first", closed > 0)
    counts.same(
        "all calls are open",
        0,
        browser.value('document.querySelectorAll(".train details:not([open])").length'),
    )


def check_keyboard(counts: Counts, browser: Browser, page: Path) -> None:
    """By the tab key one gets to a date, to the filter and to the calls, and the calls open by Enter."""
    browser.open(page, WIDE)
    reached = set()
    for _ in range(200):
        for kind in "keyDown", "keyUp":
            browser.call(
                "Input.dispatchKeyEvent", type=kind, key="Tab", code="Tab", windowsVirtualKeyCode=9
            )
        reached.add(browser.value("document.activeElement.name || document.activeElement.tagName"))
        if {"place", "SUMMARY"} <= reached and browser.value(
            'document.activeElement.matches(".train summary")'
        ):
            break
    counts.test(
        "by the tab key", {"A", "operator", "place", "kind", "date", "SUMMARY"} <= reached, reached
    )
    for kind in "keyDown", "keyUp":
        browser.call(
            "Input.dispatchKeyEvent",
            type=kind,
            key="Enter",
            code="Enter",
            text="\r",
            windowsVirtualKeyCode=13,
        )
    counts.test(
        "the calls open by Enter", browser.value("document.activeElement.parentElement.open")
    )


def check_without_script(counts: Counts, browser: Browser, page: Path, made: Page) -> None:
    browser.open(page, WIDE, script=False)
    counts.same("without script, trains", len(made.trains()), len(browser.texts(SHOWN)))
    counts.same(
        "without script, the filter",
        True,
        browser.value('document.getElementById("filter").hidden'),
    )
    links = '[...document.querySelectorAll(".peak a")].filter((link) => link.getClientRects().length).map((link) => link.hash)'
    want = [f"#trains-{peak.number}" for peak in made.peaks]
    counts.same("without script, links of what stands out", want, browser.texts(links))
    there = "[...document.querySelectorAll('.peak a')].every((link) => document.querySelector(link.hash))"
    counts.test("without script, where they lead", browser.value(there))


def check_print(counts: Counts, browser: Browser, page: Path, made: Page) -> None:
    """On paper all trains are there, with dark letters also where the screen is dark."""
    browser.open(page, 700, "dark")
    features = [{"name": "prefers-color-scheme", "value": "dark"}]
    browser.call("Emulation.setEmulatedMedia", media="print", features=features)
    counts.same("printed, trains", len(made.trains()), len(browser.texts(SHOWN)))
    counts.same(
        "printed, the filter",
        0,
        browser.value('document.getElementById("filter").getClientRects().length'),
    )
    counts.same("printed, contrast", [], browser.texts(CONTRASTS)[:5])
    counts.same(
        "printed, paper",
        "rgb(255, 255, 255)",
        browser.value("getComputedStyle(document.body).backgroundColor"),
    )


def starts(path: str) -> bool:
    """Whether the browser starts here, and shows a page: it may lack what it needs of the system."""
    folder = tempfile.mkdtemp(prefix="cif-report-browser-")
    browser = Browser(path, folder)
    try:
        browser.attach()
        return bool(browser.value("1 + 1") == 2)
    except (OSError, RuntimeError, ValueError):
        return False
    finally:
        browser.close()
        shutil.rmtree(folder, ignore_errors=True)


def check(counts: Counts, page: Path) -> bool:
    """All of a page with many changes. Returns whether there is a browser."""
    path = program()
    if path is None or not starts(path):
        return False
    made, folder = Page(page), tempfile.mkdtemp(prefix="cif-report-browser-")
    browser = Browser(path, folder)
    try:
        browser.attach()
        check_looks(counts, browser, page)
        check_first(counts, browser, page, made)
        check_filter(counts, browser, page, made)
        check_keyboard(counts, browser, page)
        check_without_script(counts, browser, page, made)
        check_print(counts, browser, page, made)
    finally:
        browser.close()
        # what the browser still writes there doesn't matter
        shutil.rmtree(folder, ignore_errors=True)
    return True
