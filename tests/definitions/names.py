#!/usr/bin/python3
"""Checks that the documents name only what there is.

    names.py DOCUMENT..

Of what stands between backticks, each path has to lead to a file or a folder, from the top or from a folder of it, and each other
name has to stand in a source of crates/ or tests/. Commands of the kit, which begin with `rt`, and options aren't looked up. Where a
document says `name` of `file`, or in `file`, the name has to stand in that file.

In docs/PROMISES.md each name in the cells behind a promise, or in the parentheses behind one in a list, has to be a function, a type or
a law there, or a clause, a field, an invariant or a definition. In the cell of functions, `f`, `g`: `c` says that `c` is a clause or an
invariant of one of these, or a field of a record that their contracts cite or that is named beside it; `c` of `R`, anywhere, that it is
a field of R. "the same" are the functions of the row above, "each answer" those that are listed above the table.
"""
from __future__ import annotations

import re
import sys
from pathlib import Path
from typing import Iterator, List, Set, Tuple

from sources import CLAUSE, all_contracts, all_declarations, all_records

TOP = Path(__file__).resolve().parents[2]
PATH = re.compile(r"[\w./-]*/[\w./-]*|[\w-]+\.(?:rt|antt|py|rs|c|sh|rows|md|cif|txt|edit)")
NAME = re.compile(r"[A-Za-z_]\w*(?:-\w+)*")
DECLARED = re.compile(
    r"\b(?:fn|mod|struct|enum|trait|impl|for|record|data|abbrev|unfoldable|ensures|requires|ghost) +"
    r"(?:pub +)?(?:\w+::)*(\w+)|^(?:\s*pub )?(\w+) :",
    re.M,
)
IN_FILE = re.compile(
    r"((?:`[\w:-]+`(?:, and |, | and ))*`[\w:-]+`) (?:(?:of|in) (?:`cif_\w+`, )?|\()`([\w./-]+\.(?:rt|antt|py|rows))`"
)
OF_RECORD = re.compile(r"`(\w+)` of `([A-Z]\w+)`")


def all_files() -> List[str]:
    """The paths of the repository's files, from the top."""
    found = (path.relative_to(TOP).parts for path in TOP.rglob("*"))
    return ["/".join(parts) for parts in found if not {".git", "out", "__pycache__"} & set(parts)]


def leads(path: str, files: List[str]) -> bool:
    """Whether the path, which may begin below the top, is a file's or a folder's."""
    wanted = "/" + path.strip("/")
    return any(("/" + file).endswith(wanted) or wanted + "/" in "/" + file for file in files)


def named(text: str) -> Iterator[Tuple[bool, str]]:
    """The paths and the names between the backticks of a text."""
    for quoted in re.findall(r"`([^`]+)`", text):
        if not quoted.startswith(("rt ", "--", "$", "/")):
            yield from ((True, path) for path in PATH.findall(quoted))
            yield from ((False, name) for name in NAME.findall(PATH.sub(" ", quoted)))


def missing_names(document: str, files: List[str], words: Set[str]) -> Iterator[str]:
    """What the document names, and there isn't."""
    for number, line in enumerate((TOP / document).read_text().split("\n"), 1):
        for is_path, name in named(line):
            if not (leads(name, files) if is_path else name in words):
                yield f"{document}, line {number}: there is no {name}"


def names_elsewhere(document: str, files: List[str]) -> Iterator[str]:
    """What the document says to stand in a file, and doesn't."""
    text = re.sub(r"\s+", " ", (TOP / document).read_text())
    for names, path in IN_FILE.findall(text):
        texts = [(TOP / file).read_text() for file in files if ("/" + file).endswith("/" + path)]
        for name in re.findall(r"[\w-]+(?=`)", names):
            if not any(re.search(r"\b" + re.escape(name) + r"\b", found) for found in texts):
                yield f"{document}: {path} has no {name}"


def tables(document: str) -> Iterator[Tuple[str, List[str]]]:
    """The rows of the document's tables, each as its promise and the two cells behind it."""
    for promise, cells in re.findall(r"^([^|\n]+)\|([^\n]*)$", (TOP / document).read_text(), re.M):
        yield promise, cells.split("|")


def undeclared_names(document: str, declared: Set[str]) -> Iterator[str]:
    """What stands behind a promise, in a list or a table, and nothing declares."""
    text = (TOP / document).read_text()
    behind = re.findall(r"^- .*?\.\**\s+\((.*?)\)$", text, re.M | re.S)
    rows = list(tables(document))
    for promise, cells in rows:
        if len(cells) != 2:
            yield f"{document}: no row of three cells: {promise}"
    for is_path, name in named("\n".join(behind + ["|".join(cells) for _, cells in rows])):
        if not is_path and name not in declared:
            yield f"{document}: nothing declares {name}"


class Contracts:
    """What the contracts of functions, and the declarations of types, name and cite."""

    def __init__(self) -> None:
        self.texts = {**all_declarations(), **all_contracts()}
        self.fields, self.cites = all_records()

    def fields_of(self, name: str) -> Set[str]:
        """The fields of a record, or of those that a definition cites by another name."""
        return self.fields.get(name, set()).union(
            *(self.fields.get(other, set()) for other in self.cites.get(name, ()))
        )

    def names_of(self, name: str) -> Set[str]:
        """The clauses and the invariants of all that has the name, and the fields of the records that they cite."""
        found: Set[str] = set()
        for text in self.texts.get(name, []):
            found.update(CLAUSE.findall(text))
            found.update(*(self.fields_of(other) for other in re.findall(r"\b[A-Z]\w+", text)))
        return found

    def answers(self) -> List[str]:
        """The functions that answer a command."""
        return [name for name in self.texts if name.startswith("answer_")]


def last_names(text: str) -> List[str]:
    """The names between the backticks of a text, each without the type or the module before it."""
    return re.findall(r"`(?:\w+::)*(\w+)`", text)


def owners_of(words: str, own: List[str], above: List[str], known: Contracts) -> List[str]:
    """The functions and types that clauses are said to be of: those that are named, or that the words stand for."""
    if re.match(r"\s*(each answer|the answers)", words):
        return known.answers()
    if re.match(r"\s*(the same|all but)", words) or not own:
        return above
    return own


def wrong_clauses(cell: str, above: List[str], known: Contracts) -> Iterator[str]:
    """The clauses of a cell that none of their functions has. `above` are the functions of the row above, and become this row's."""
    begun: List[str] = []
    row: List[str] = []
    for group in cell.split(";"):
        before, colon, behind = group.partition(": ")
        named_before = [name for name in last_names(before) if name in known.texts]
        if not colon and named_before == last_names(before):
            begun += named_before
            continue
        own = owners_of(before, begun + named_before if colon else [], row or above, known)
        clauses = last_names(behind if colon else before)
        row += [name for name in own if name not in row]
        beside = [
            "IsResultOf" if name == "reads" else name
            for name in clauses
            if name[0].isupper() or name == "reads"
        ]
        allowed: Set[str] = set().union(*map(known.names_of, own), *map(known.fields_of, beside))
        yield from (name for name in clauses if name[0].islower() and name not in allowed)
        begun = []
    above[:] = row + begun


def clauses_elsewhere(document: str, known: Contracts) -> Iterator[str]:
    """What the document says to be a clause of a function, or a field of a record, and isn't."""
    for field, record in OF_RECORD.findall((TOP / document).read_text()):
        if field not in known.fields_of(record) | known.names_of(record) | known.texts.keys():
            yield f"{document}: {record} has no {field}"
    above: List[str] = []
    for promise, cells in tables(document):
        if not promise.startswith(("Promise", "---")):
            for name in wrong_clauses(cells[0].strip(), above, known):
                yield f"{document}: no function there has a clause {name}: {cells[0].strip()}"


def main() -> int:
    files = all_files()
    code = [
        file
        for file in files
        if re.match(r"(crates|tests)/.*(\.(rt|antt|py|c|sh|rows)|/run|/stdin)$", file)
    ]
    text = "\n".join(
        (TOP / file).read_text(errors="replace") for file in code if (TOP / file).is_file()
    )
    words = set(NAME.findall(text)) | {part for file in files for part in file.split("/")}
    declared = {name for pair in DECLARED.findall(text) for name in pair}
    missing: List[str] = []
    for document in sys.argv[1:]:
        missing += [*missing_names(document, files, words), *names_elsewhere(document, files)]
        if "PROMISES" in document:
            missing += [
                *undeclared_names(document, declared),
                *clauses_elsewhere(document, Contracts()),
            ]
    print("\n".join(missing))
    return 1 if missing else 0


sys.exit(main())
