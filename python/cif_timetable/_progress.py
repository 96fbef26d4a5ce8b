"""How far a run is, on one line of a terminal."""
from __future__ import annotations

import sys


class Progress:
    """Shows how far a run is if standard error is a terminal, and else nothing."""

    def __init__(self, visible: bool = True) -> None:
        self.visible = visible and sys.stderr.isatty()
        self.text = ""

    def show(self, text: str) -> None:
        if self.visible and text != self.text:
            self.text = text
            print(f"\r\x1b[K{text}", end="", file=sys.stderr, flush=True)

    def show_share(self, text: str, done: int, count: int) -> None:
        """Shows how much is done of what there is to do, in per cent."""
        if self.visible:
            self.show(f"{text}: {100 * done // max(count, 1)} %")

    def clear(self) -> None:
        self.show("")
