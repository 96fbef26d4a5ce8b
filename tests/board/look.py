"""Pages in headless Chromium: how they look, and that they work with and without JavaScript, and by keyboard."""
from __future__ import annotations

import shutil
import tempfile
import time
from typing import List

from gtfs.checks import Counts
from report import browser as chromium
from report.browser import BEYOND, CONTRASTS, NARROW, OVERLAPS, WIDE, Browser

from .pages import Made
from .running import served

# The pages of the examples and of the extract by hand that are looked at.
EXAMPLES = (
    "/?date=2026-06-05",
    "/?q=bri&date=2026-06-05",
    "/station/HHE/2026-06-05",
    "/station/HHE/2026-06-05?show=all&from=18:00",
    "/train/W20347/2026-06-05",
    "/train/W20113/2026-06-05",
    "/train/W20347/2026-06-06",
    "/journey/VIC/LIT/2026-06-05",
    "/journey?from=bri&to=zzz&date=2026-06-05",
    "/operators",
    "/extract",
)
SPECIAL = (
    "/station/ALP/2026-01-07?show=all",
    "/station/ALP/2026-01-06",
    "/train/F00001/2026-01-06",
    "/operators",
)
OPTIONS = (
    '[...document.getElementById("q-names").options].map((each) => each.value + " " + each.label)'
)
STYLED = "getComputedStyle(document.body).maxWidth"


class Address:
    """An address, as the browser opens one."""

    def __init__(self, text: str) -> None:
        self.text = text

    def as_uri(self) -> str:
        return self.text


def opened(
    browser: Browser, address: str, width: int = WIDE, scheme: str = "light", script: bool = True
) -> None:
    browser.open(Address(address), width, scheme, script)  # type: ignore[arg-type]


def press(browser: Browser, key: str, code: int, text: str = "") -> None:
    for kind in "keyDown", "keyUp":
        browser.call(
            "Input.dispatchKeyEvent",
            type=kind,
            key=key,
            code=key,
            windowsVirtualKeyCode=code,
            **({"text": text} if text else {}),
        )


def waited(browser: Browser, expression: str, wanted: object) -> object:
    """The value of an expression, once it is as wanted, or after some seconds."""
    found: object = None
    for _ in range(100):
        try:
            found = browser.value(expression)
        except RuntimeError:
            found = None
        if found == wanted:
            break
        time.sleep(0.05)
    return found


def check_look(counts: Counts, browser: Browser, base: str, address: str) -> None:
    """Nothing overlaps, goes beyond the window or is hard to read, on a wide and a narrow screen, light and dark; nothing is fetched
    from elsewhere, and nothing in the console."""
    for width in WIDE, NARROW:
        for scheme in "light", "dark":
            name = f"{address} at {width} columns, {scheme}"
            opened(browser, base + address, width, scheme)
            browser.value(chromium.OPEN_ALL)
            counts.same(f"{name}, style", "1100px", browser.value(STYLED))
            counts.same(f"{name}, overlaps", [], browser.texts(OVERLAPS)[:5])
            counts.same(f"{name}, beyond the window", 0, browser.value(BEYOND))
            counts.same(f"{name}, contrast", [], browser.texts(CONTRASTS)[:5])
            counts.same(f"{name}, errors", [], browser.happened("Runtime.exceptionThrown"))
            counts.same(f"{name}, the log", [], browser.happened("Log.entryAdded"))
            urls = [
                each["request"]["url"] for each in browser.happened("Network.requestWillBeSent")
            ]
            counts.same(
                f"{name}, from elsewhere",
                [],
                [url for url in urls if not url.startswith((base, "data:"))],
            )


def check_completion(counts: Counts, browser: Browser, base: str) -> None:
    """The search completes names, and of a journey those of stations alone."""
    opened(browser, base + "/?date=2026-06-05")
    # a busy machine may not have heeded autofocus yet
    browser.value('document.getElementById("q").focus()')
    browser.call("Input.insertText", text="hay")
    counts.same(
        "names are completed",
        ["Haywards Heath HHE"],
        waited(browser, OPTIONS, ["Haywards Heath HHE"]),
    )
    browser.value('document.getElementById("q").value = ""')
    browser.call("Input.insertText", text="1A41")
    wanted = ["W20402 1A41 London Victoria to Brighton"]
    counts.same("trains are completed", wanted, waited(browser, OPTIONS, wanted))
    browser.value('document.getElementById("q").value = ""')
    browser.call("Input.insertText", text="k")
    counts.same("one letter completes nothing", [], waited(browser, OPTIONS, []))
    browser.value('document.getElementById("from").focus()')
    browser.call("Input.insertText", text="lit")
    options = OPTIONS.replace("q-names", "from-names")
    counts.same(
        "a journey's names", ["Littlehampton LIT"], waited(browser, options, ["Littlehampton LIT"])
    )
    counts.same("completion, errors", [], browser.happened("Runtime.exceptionThrown"))
    counts.same("completion, the log", [], browser.happened("Log.entryAdded"))


def check_keyboard(counts: Counts, browser: Browser, base: str, script: bool) -> None:
    """By keyboard alone from the search to the board, to a train of it and to another of its dates, also without JavaScript."""
    name = "with" if script else "without"
    opened(browser, base + "/?date=2026-06-05", script=script)
    if script:
        counts.same("the search is ready", "q", waited(browser, "document.activeElement.id", "q"))
    else:
        # without script Chromium heeds no autofocus
        browser.value('document.getElementById("q").focus()')
    browser.call("Input.insertText", text="Haywards Heath")
    press(browser, "Enter", 13, "\r")
    path = 'document.readyState === "complete" && location.pathname'
    counts.same(
        f"{name} script, the board",
        "/station/HHE/2026-06-05",
        waited(browser, path, "/station/HHE/2026-06-05"),
    )
    found: List[object] = []
    for _ in range(60):
        press(browser, "Tab", 9)
        found.append(browser.value("document.activeElement.pathname || document.activeElement.id"))
        if found[-1] == "/train/W20347/2026-06-04":
            break
    counts.test(
        f"{name} script, keys reach all",
        {"date", "start", "/train/W20347/2026-06-04", "/station/HHE/2026-06-06"} <= set(found),
        found,
    )
    counts.test(
        f"{name} script, the focus is seen",
        browser.value("getComputedStyle(document.activeElement).outlineStyle") == "solid",
    )
    press(browser, "Enter", 13, "\r")
    wanted = "/train/W20347/2026-06-04"
    counts.same(f"{name} script, the train", wanted, waited(browser, path, wanted))
    browser.value('document.querySelector(".month a[href$=\\"2026-06-12\\"]").focus()')
    press(browser, "Enter", 13, "\r")
    wanted = "/train/W20347/2026-06-12"
    counts.same(f"{name} script, another date", wanted, waited(browser, path, wanted))


def check(counts: Counts, made: Made) -> bool:
    """Whether there is a browser, after all is looked at."""
    path = chromium.program()
    if path is None or not chromium.starts(path):
        return False
    folder = tempfile.mkdtemp(prefix="cif-board-browser-")
    browser = Browser(path, folder)
    try:
        browser.attach()
        with served(made.examples.path) as (_, port):
            base = f"http://127.0.0.1:{port}"
            for address in EXAMPLES:
                check_look(counts, browser, base, address)
            check_completion(counts, browser, base)
            for script in True, False:
                check_keyboard(counts, browser, base, script)
        with served(made.special.path) as (_, port):
            for address in SPECIAL:
                check_look(counts, browser, f"http://127.0.0.1:{port}", address)
    finally:
        browser.close()
        # what the browser still writes there doesn't matter
        shutil.rmtree(folder, ignore_errors=True)
    return True
