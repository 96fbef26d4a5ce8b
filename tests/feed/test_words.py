"""The help of cif-feed against its manual page and the completions for bash, zsh and fish; and the
ways to start it."""
from __future__ import annotations

import os
import re
import subprocess
import sys
import unittest
from configparser import RawConfigParser

from gtfs.words import (
    WIDTH,
    completion,
    help_of,
    offered,
    options_of_fish,
    options_of_help,
    options_of_page,
    options_of_zsh,
)

from cif_timetable.feed.settings import SOURCES

from . import extracts

TOP = extracts.TOP
# What bash offers behind these words: words, or `files`.
LINES = {
    "cif-feed --st": ["--status"],
    "cif-feed --example ": [*SOURCES],
    "cif-feed ": ["files"],
    "cif-feed --status ": ["files"],
}


class Words(unittest.TestCase):
    """All say the same."""

    def setUp(self) -> None:
        self.page = (TOP / "man" / "cif-feed.1").read_text(encoding="utf-8")
        self.help = help_of("cif-feed")

    def test_options(self) -> None:
        options = options_of_help(self.help)
        self.assertIn("--status", options)
        self.assertEqual(options, options_of_page(self.page))
        self.assertEqual(options, options_of_zsh(completion("_cif-feed")))
        self.assertEqual(options, options_of_fish(completion("cif-feed.fish")))
        self.assertEqual(sorted(options), sorted(offered("cif-feed -")))

    def test_width(self) -> None:
        self.assertLessEqual(max(map(len, self.help.splitlines())), WIDTH)

    def test_statuses(self) -> None:
        statuses = re.findall(r"^  (\d)  ", self.help, re.MULTILINE)
        self.assertEqual(statuses, re.findall(r"^\.It (\d)$", self.page, re.MULTILINE))

    def test_bash(self) -> None:
        for line, offers in LINES.items():
            with self.subTest(line):
                self.assertEqual(sorted(offers), sorted(offered(line)))

    def test_settings(self) -> None:
        """The page and the document name each setting of the examples."""
        folder = TOP / "python" / "cif_timetable" / "feed"
        names: set[str] = set()
        for path in folder.glob("*.toml"):
            names |= set(
                re.findall(r"^(?:# )?(\w+) = ", path.read_text(encoding="utf-8"), re.MULTILINE)
            )
        self.assertIn("past_days", names)
        document = (TOP / "docs" / "FEED.md").read_text(encoding="utf-8")
        for name in names:
            self.assertRegex(self.page, rf"\b{name}\b")
            self.assertRegex(document, rf"\b{name}\b")

    def test_module(self) -> None:
        words = [sys.executable, "-B", "-m", "cif_timetable.feed", "--version"]
        environment = {**os.environ, "PYTHONPATH": str(TOP / "python")}
        done = subprocess.run(words, capture_output=True, text=True, check=True, env=environment)
        program = TOP / "python" / "bin" / "cif-feed"
        other = subprocess.run([program, "--version"], capture_output=True, text=True, check=True)
        self.assertRegex(done.stdout, r"^cif-feed [\d.]+\n$")
        self.assertEqual(done.stdout, other.stdout)

    def test_units(self) -> None:
        """The service and the timer of examples/ can be read, and belong together."""
        service, timer = RawConfigParser(), RawConfigParser()
        for parser, name in (service, "cif-feed.service"), (timer, "cif-feed.timer"):
            parser.read(TOP / "examples" / name)
        self.assertIn("cif-feed", service["Service"]["ExecStart"])
        self.assertEqual("oneshot", service["Service"]["Type"])
        self.assertIn("OnCalendar", timer["Timer"])
