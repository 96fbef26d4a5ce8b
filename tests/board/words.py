"""The help of cif-board against its manual page and the completions for bash, zsh and fish."""
from __future__ import annotations

import re
from typing import Dict, List

from gtfs.checks import TOP, Counts
from gtfs.words import (
    WIDTH,
    completion,
    help_of,
    offered,
    options_of_fish,
    options_of_help,
    options_of_page,
    options_of_zsh,
)

# What bash offers behind these words: words, or `files`.
LINES: Dict[str, List[str]] = {
    "cif-board --po": ["--port"],
    "cif-board --port ": [],
    "cif-board --open ": ["files"],
    "cif-board --host localhost ": ["files"],
}


def check(counts: Counts) -> None:
    page, text = (TOP / "man" / "cif-board.1").read_text(), help_of("cif-board")
    counts.test(
        "cif-board --help, width", all(len(line) <= WIDTH for line in text.splitlines()), text
    )
    options = options_of_help(text)
    counts.test("cif-board --help, options", {"-h", "--help"} <= options, options)
    counts.same("cif-board, options for zsh", options, options_of_zsh(completion("_cif-board")))
    counts.same(
        "cif-board, options for fish", options, options_of_fish(completion("cif-board.fish"))
    )
    counts.same("cif-board, options for bash", sorted(options), sorted(offered("cif-board -")))
    counts.same("cif-board, options in cif-board.1", options, options_of_page(page))
    synopsis = page.partition(".Sh SYNOPSIS")[2].partition(".Sh DESCRIPTION")[0]
    words = re.findall(r"^\.Op Fl (?:Fl )?([\w-]+)", synopsis, re.MULTILINE)
    usage = re.findall(r"\[--?([\w-]+)", text.partition("\n\n")[0])
    counts.same("cif-board, SYNOPSIS", [word for word in usage if word not in ("h", "V")], words)
    statuses = re.findall(r"^  (\d)  ", text, re.MULTILINE)
    counts.same("cif-board, statuses", statuses, re.findall(r"^\.It (\d)$", page, re.MULTILINE))
    for line, offers in LINES.items():
        counts.same(f"bash offers behind {line!r}", sorted(offers), sorted(offered(line)))
