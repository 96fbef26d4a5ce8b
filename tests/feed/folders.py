"""A folder with a feed, and runs of cif-feed in it, in this process."""
from __future__ import annotations

import io
import json
import os
import signal
import tempfile
import unittest
from contextlib import redirect_stderr
from dataclasses import dataclass
from datetime import date, datetime, timezone
from pathlib import Path
from unittest import mock

from cif_timetable.feed import clock, net, versions
from cif_timetable.feed.command_line import main

from . import extracts
from .server import Server, serving

USER, PASSWORD = "nobody@example.com", "hUsH-5ecret"
SIGNALS = (signal.SIGINT, signal.SIGTERM, signal.SIGHUP)
MEMORY = "/dev/shm"
OUTPUTS = 'extract = "timetable.cif"'


@dataclass(frozen=True)
class Done:
    """How a run ended."""

    status: int
    said: str


class InFolder(unittest.TestCase):
    """Tests with a folder of their own, and a clock that stands still."""

    # whether both are set in the environment
    has_user = True

    def setUp(self) -> None:
        # where there is a file system in memory, nothing waits for a disk
        memory = MEMORY if os.access(MEMORY, os.W_OK) else None
        work = tempfile.TemporaryDirectory(prefix="cif-feed-", dir=memory)
        self.addCleanup(work.cleanup)
        self.base = Path(work.name).resolve()
        self.folder = self.base / "feed"
        self.folder.mkdir()
        self.now = datetime(2026, 12, 5, 7, tzinfo=timezone.utc)
        for target, name, value in (
            (clock, "now", lambda: self.now),
            (clock, "today", self.today),
            (net, "PAUSES", (0.001, 0.002, 0.004)),
            (net, "SILENCE", 2.0),
            (versions, "LOCK_WAIT", 0.1),
            (versions, "LOCK_PAUSE", 0.02),
        ):
            patched = mock.patch.object(target, name, value)
            patched.start()
            self.addCleanup(patched.stop)

    def today(self) -> date:
        return self.now.date()

    def at(self, day: int, month: int = 12, hour: int = 7) -> None:
        """Sets the clock."""
        self.now = datetime(2026, month, day, hour, tzinfo=timezone.utc)

    def settings(self, source: str, address: str, *lines: str, outputs: str = OUTPUTS) -> None:
        text = [f'source = "{source}"', f'address = "{address}"', *lines]
        if not any(line.startswith(("holidays", "[holidays]")) for line in lines):
            text.insert(2, 'holidays = "holidays.txt"')
            (self.folder / "holidays.txt").write_text(extracts.HOLIDAYS, encoding="utf-8")
        tables = [line for line in text if line.startswith("[")]
        keys = [line for line in text if line not in tables]
        (self.folder / "feed.toml").write_text(
            "\n".join([*keys, *tables, "[outputs]", outputs, ""]), encoding="utf-8"
        )

    def run_feed(self, *words: str) -> Done:
        """A run of cif-feed. What it does about signals is undone."""
        handlers = [signal.getsignal(number) for number in SIGNALS]
        user = {"CIF_FEED_USER": USER, "CIF_FEED_PASSWORD": PASSWORD} if self.has_user else {}
        environment = {"CIF": str(extracts.CIF), "HOME": str(self.base), **user}
        said = io.StringIO()
        try:
            with mock.patch.dict(os.environ, environment), redirect_stderr(said):
                status = main([*(words or [str(self.folder)])])
        except SystemExit as ended:
            status = int(str(ended.code))
        finally:
            for number, handler in zip(SIGNALS, handlers):
                signal.signal(number, handler)
        return Done(status, said.getvalue())

    # ---- what is there

    @property
    def current(self) -> Path:
        return self.folder / "current"

    def state(self) -> bytes:
        return (self.current / "full.cif").read_bytes()

    def reference(self) -> str:
        return self.state()[32:39].decode().strip()

    def facts(self) -> dict[str, object]:
        found = json.loads((self.current / "feed.json").read_text(encoding="utf-8"))
        assert isinstance(found, dict)
        return found

    def log(self) -> list[str]:
        return (self.folder / "feed.log").read_text(encoding="utf-8").splitlines()

    def version_names(self) -> list[str]:
        return sorted(path.name for path in (self.folder / "versions").iterdir())

    def raw_names(self) -> list[str]:
        return sorted(path.name for path in self.folder.glob("raw/*"))

    # ---- assertions

    def assert_silent(self, done: Done) -> None:
        self.assertEqual(Done(0, ""), done)

    def assert_says(self, done: Done, status: int, *words: str) -> None:
        """One line, of cif-feed and the folder, with these words."""
        self.assertEqual(status, done.status, done.said)
        self.assertEqual(1, done.said.count("\n"), done.said)
        self.assertTrue(done.said.startswith(f"cif-feed: {self.folder}: "), done.said)
        for word in words:
            self.assertIn(word, done.said)

    def assert_hidden(self, *secrets: str) -> None:
        """No file of the folder has any of these."""
        for path in self.base.rglob("*"):
            if path.is_file():
                content = path.read_bytes()
                for secret in secrets:
                    self.assertNotIn(secret.encode(), content, path)


class WithServer(InFolder):
    """Tests with a server."""

    def setUp(self) -> None:
        super().setUp()
        self.server = self.new_server()

    def new_server(self) -> Server:
        context = serving()
        server = context.__enter__()
        self.addCleanup(context.__exit__, None, None, None)
        return server
