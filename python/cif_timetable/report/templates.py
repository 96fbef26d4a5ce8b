"""The templates of the page, which are files of HTML beside this one, and what fills them."""
from __future__ import annotations

import re
from collections.abc import Iterable
from functools import lru_cache
from html import escape
from pathlib import Path
from string import Template

HERE = Path(__file__).resolve().parent
PART = re.compile("^<!-- part ([a-z_]+) -->$", re.MULTILINE)


class Markup(str):
    """A text that is HTML already. Any other is escaped."""


@lru_cache(maxsize=None)
def file_text(name: str) -> str:
    return (HERE / name).read_text(encoding="utf-8")


@lru_cache(maxsize=None)
def templates() -> dict[str, Template]:
    """The parts of all files of HTML by their names. A comment such as `<!-- part page -->` begins one."""
    found: dict[str, Template] = {}
    for path in HERE.glob("*.html"):
        _, *parts = PART.split(file_text(path.name))
        for name, text in zip(parts[::2], parts[1::2]):
            found[name] = Template(text.strip("\n"))
    return found


def escaped(value: object) -> str:
    return value if isinstance(value, Markup) else escape(str(value))


def fill(part: str, **values: object) -> Markup:
    """A template with its values."""
    texts = {key: escaped(value) for key, value in values.items()}
    return Markup(templates()[part].substitute(texts))


def joined(parts: Iterable[str], between: str = "") -> Markup:
    """Parts one after another."""
    return Markup(between.join(escaped(part) for part in parts))


def lines(parts: Iterable[str]) -> Markup:
    """Parts, each on a line of its own."""
    return Markup("".join(f"{escaped(part)}\n" for part in parts))
