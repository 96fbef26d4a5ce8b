"""The help of cif-sql against its manual page and the completions for bash, zsh and fish."""
from __future__ import annotations

import re
from typing import Dict, List

from gtfs.checks import TOP, Counts
from gtfs.words import (
    WIDTH,
    completion,
    help_of,
    offered,
    options_of_fish,
    options_of_help,
    options_of_page,
    options_of_zsh,
)

# What bash offers behind these words: words, or `files`.
LINES: Dict[str, List[str]] = {
    "cif-sql --fo": ["--force"],
    "cif-sql -o ": ["files"],
    "cif-sql --to ": [],
    "cif-sql --to 260105 ": ["files"],
}


def check(counts: Counts) -> None:
    page, text = (TOP / "man" / "cif-sql.1").read_text(), help_of("cif-sql")
    counts.test(
        "cif-sql --help, width", all(len(line) <= WIDTH for line in text.splitlines()), text
    )
    options = options_of_help(text)
    counts.test("cif-sql --help, options", {"-h", "--help"} <= options, options)
    counts.same("cif-sql, options for zsh", options, options_of_zsh(completion("_cif-sql")))
    counts.same("cif-sql, options for fish", options, options_of_fish(completion("cif-sql.fish")))
    counts.same("cif-sql, options for bash", sorted(options), sorted(offered("cif-sql -")))
    counts.same("cif-sql, options in cif-sql.1", options, options_of_page(page))
    synopsis = page.partition(".Sh SYNOPSIS")[2].partition(".Sh DESCRIPTION")[0]
    words = re.findall(r"^\.Op Fl (?:Fl )?([\w-]+)", synopsis, re.MULTILINE)
    usage = re.findall(r"\[--?([\w-]+)", text.partition("\n\n")[0])
    counts.same("cif-sql, SYNOPSIS", [word for word in usage if word not in ("h", "V")], words)
    statuses = re.findall(r"^  (\d)  ", text, re.MULTILINE)
    counts.same("cif-sql, statuses", statuses, re.findall(r"^\.It (\d)$", page, re.MULTILINE))
    for line, offers in LINES.items():
        counts.same(f"bash offers behind {line!r}", sorted(offers), sorted(offered(line)))
