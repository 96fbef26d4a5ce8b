#!/usr/bin/python3
"""Lists the definitions on which the clauses of a function rest, in the order in which they are cited.

    list.py [--text] [CRATE SRC_FILE FUNCTION CLAUSES..]

Without arguments it lists what the theorem rests on: the clause `normal` of `normalise`, and after the first sum what the
other clauses add, which say what is refused, and why. To believe the theorem, read these definitions: --text prints them.

CLAUSES are names of the function's clauses, separated by commas. What they cite is followed from definition to
definition, through the specs/ of all crates, to the traits of the function's devices, and to what the types of the code
say of their fields and of their values in the logic. Each definition has a line with its crate and file, its name, and its
number of lines without comments and blank lines. A type or a trait has its file in src/ and no number. What std and the
other libraries define isn't listed. Each further CLAUSES lists only what those before it don't rest on.

With --text each of them is followed by its text. What is only cited by types, or is one, says how the code keeps a value, and
is marked so. The others are the theorem's own words.
"""
from __future__ import annotations

import os
import sys
from pathlib import Path
from typing import List, Optional, Set

from sources import DEVICES, Place, cited, clauses, declaration, module, said_of, source_text

THEOREM = ("cif_canon", "normal_form.rt", "normalise", "normal", "reads")


class Sum:
    """How many definitions and types, of how many lines in which files."""

    def __init__(self) -> None:
        self.definitions = self.lines = self.types = 0
        self.files: Set[Path] = set()

    def add_definition(self, lines: int, file: Path) -> None:
        self.definitions += 1
        self.lines += lines
        self.files.add(file)

    def add(self, other: Sum) -> None:
        self.definitions += other.definitions
        self.lines += other.lines
        self.types += other.types
        self.files |= other.files

    def __str__(self) -> str:
        return f"{self.definitions:,} definitions of {self.lines:,} lines in {len(self.files)} files, {self.types} types"


def case_of(at: Place) -> Optional[Place]:
    """The definition that a name stands in: itself, or what it is a case or a field of; or nothing."""
    _, crate, inner, name = at
    own = module(crate, inner)
    if name in own.definitions:
        return at
    return next(
        (("definition", crate, inner, other) for other in own.order if own.has_case(other, name)),
        None,
    )


def is_kept(at: Place) -> bool:
    """Whether this is a type by which the code keeps values, and no trait of a device."""
    return at[0] == "type" and at[3] not in DEVICES


def next_cited(at: Place, through_types: bool = True) -> List[Place]:
    """What a definition or a type cites."""
    kind, crate, inner, name = at
    if kind == "type":
        return said_of(crate, inner, name) if through_types or not is_kept(at) else []
    own = module(crate, inner)
    return cited(own.definitions[name], own.imports, own.definitions, crate, inner)


def reached(roots: List[Place], seen: Set[Place], through_types: bool = True) -> List[Place]:
    """What is reached from the roots and wasn't before, in the order in which it is cited."""
    waiting = list(roots)
    found: List[Place] = []
    while waiting:
        first = waiting.pop(0)
        at = case_of(first) if first[0] == "definition" else first
        if at is None or at in seen:
            continue
        seen.add(at)
        found.append(at)
        waiting[:0] = next_cited(at, through_types)
    return found


def line_of(at: Place) -> str:
    """How the list names a definition or a type."""
    kind, crate, inner, name = at
    if kind == "type":
        return f"{crate} src/{inner}.rt {name}"
    return f"{crate} specs/{inner.replace('.', '/')}.antt {name} {len(module(crate, inner).definitions[name])}"


def text_of(at: Place) -> str:
    """The text of a definition or a type."""
    kind, crate, inner, name = at
    if kind == "definition":
        return "\n".join(module(crate, inner).texts[name])
    return "\n".join(filter(None, declaration(source_text(crate, inner), name)))


def show(at: Place, kept: bool, with_text: bool) -> None:
    """Prints a definition or a type; with its text, and a mark if it only says how a value is kept."""
    print(line_of(at) + (" (how a value is kept)" if with_text and kept else ""))
    if with_text:
        print("\n" + text_of(at) + "\n")


def main() -> None:
    words = sys.argv[1:]
    with_text = words[:1] == ["--text"]
    crate, source, function, *groups = words[with_text:] or THEOREM
    seen: Set[Place] = set()
    said: Set[Place] = set()
    whole = Sum()
    for group in groups:
        lines, imports, devices = clauses(crate, source, function, group.split(","))
        roots = cited(lines, imports, {}, crate, "") + devices
        reached(roots, said, through_types=False)
        own = Sum()
        for at in reached(roots, seen):
            show(at, is_kept(at) or at not in said, with_text)
            if at[0] == "type":
                own.types += 1
            else:
                own.add_definition(len(module(*at[1:3]).definitions[at[3]]), module(*at[1:3]).file)
        whole.add(own)
        print(own)
    if len(groups) > 1:
        print(f"in all {whole}")


try:
    main()
    sys.stdout.flush()
except BrokenPipeError:
    # as when `head` has read enough
    os.dup2(os.open(os.devnull, os.O_WRONLY), sys.stdout.fileno())
