#!/usr/bin/python3
r"""row_files.py FOLDER FORM_1 FILE..

Makes a folder in FOLDER for each row that the files have, where the runners of tests/ find it. A row of normalise, check,
train or table without `--form` is one of both forms: it gets another folder in FORM_1, with `--form 1` among its words. Its
answer is the same, unless it has a file `stdout-in-form-1`. The files have rows like this:

    # A comment. It may stand anywhere, and so may an empty line.
    == nothing-but-header-and-trailer: normalise
    -- stdin
    HDTPS.UTEST01.PD2601040401262000DFTEST1       FA050126250126                    |
    ZZ                                                                              |
    -- stdout = stdin

The first line has the name of the row and the words for the program, as a shell reads them. Then come the files that the
row has: `stdin`, if it isn't to be empty, and those that the words name. `stdout` and `stderr` are what the program has to
write, byte for byte. It writes nothing where they aren't given.

    -- NAME              the file, line by line
    -- NAME = OTHER      the same bytes as another file of this row
    -- NAME = ROW/OTHER  the same bytes as a file of another row that stands in the same file
    -- stderr any        any text will do; also for stdout
    -- status 3          the status, if it isn't 0

Bytes are written as in the cases of crates/test_cases: in a line, or in a quoted word, `\xNN` is the byte with that number in
hexadecimal digits, and a backslash at the end of a line takes its line feed away. So an empty line is `\x0a\`. Besides, a
line that ends with a space gets a `|` behind it; one that ends with a `|`, or begins like a comment or a heading, has `\x7c`,
`\x23`, `\x2d` or `\x3d` there.
A file that has a space at the end of a line, or a byte that isn't printable ASCII, is refused.
"""
from __future__ import annotations

import re
import shlex
import sys
from pathlib import Path
from typing import Dict, Iterable, List, Mapping, Optional, Sequence, Tuple, Union

NAME = r"[a-z0-9][a-z0-9-]*"
FILE = r"[\w.-]+"
HEADING = re.compile(rf"== ({NAME}):(.*)")
SECTION = re.compile(rf"-- ({FILE})(?: = (?:({NAME})/)?({FILE}))?")
STATUS = re.compile(r"-- status (\d+)")
ANY = re.compile(r"-- (stdout|stderr) any")
PRINTABLE = re.compile(r"([ -~]*[!-~])?")
LINE = re.compile(r"((?:[^\\]|\\x[0-9a-f]{2})*?)((?<= )\||(?<!\|))(\\?)")


# What a row says of a file: its bytes, the file of another row, or None for any text.
Content = Union[bytes, Tuple[str, str], None]


class Mistake(Exception):
    """What is wrong with a file of rows, and where."""


class Row:
    """A row: its words, its status, and what it says of each file: bytes, a reference (row, file), or None for any text."""

    def __init__(self, name: str, words: List[str]) -> None:
        self.name, self.words = name, words
        self.status: Optional[int] = None
        self.files: Dict[str, Content] = {}
        self.whole: Dict[str, Optional[bytes]] = {}

    def set_status(self, status: str) -> None:
        if self.status is not None:
            raise Mistake("a second status")
        self.status = int(status)

    def add(self, name: str, data: Content) -> None:
        if name in self.files or name in ("args", "status"):
            raise Mistake(f"the row can't have another {name}")
        self.files[name] = data


def unescaped(text: str) -> str:
    """The text with the bytes that its escapes stand for."""
    return re.sub(r"\\x(..)", lambda found: chr(int(found[1], 16)), text)


def bytes_of(line: str) -> bytes:
    """The bytes that a line of a file stands for."""
    if "\\" not in line and not line.endswith("|"):
        return line.encode() + b"\n"
    found = LINE.fullmatch(line)
    if not found:
        raise Mistake("an unknown escape, or a | at the end that doesn't follow a space")
    return (unescaped(found[1]) + ("" if found[3] else "\n")).encode("latin-1")


def add_line(
    rows: Dict[str, Row], row: Optional[Row], section: Optional[str], line: str
) -> Tuple[Row, Optional[str]]:
    """Adds a line to the rows; returns the row and the file that the next line is for."""
    if row and section and not line.startswith(("== ", "-- ")):
        before = row.files[section]
        assert isinstance(before, bytes)
        row.files[section] = before + bytes_of(line)
        return row, section
    if found := HEADING.fullmatch(line):
        if found[1] in rows:
            raise Mistake(f"a second {found[1]}")
        rows[found[1]] = Row(found[1], [unescaped(word) for word in shlex.split(found[2])])
        return rows[found[1]], None
    if row is None:
        raise Mistake("no row has this line")
    if found := STATUS.fullmatch(line):
        row.set_status(found[1])
    elif found := ANY.fullmatch(line):
        row.add(found[1], None)
    elif found := SECTION.fullmatch(line):
        row.add(found[1], (found[2] or row.name, found[3]) if found[3] else b"")
        if not found[3]:
            return row, found[1]
    else:
        raise Mistake("neither a heading nor the line of a file")
    return row, None


def read_file(rows: Dict[str, Row], path: Path) -> None:
    """Adds the rows of the file."""
    row: Optional[Row] = None
    section: Optional[str] = None
    for number, line in enumerate(path.read_bytes().decode("latin-1").split("\n"), 1):
        try:
            if not PRINTABLE.fullmatch(line):
                raise Mistake("a space at the end, or a byte that isn't printable ASCII")
            if line and not line.startswith("#"):
                row, section = add_line(rows, row, section, line)
        except (Mistake, ValueError) as mistake:
            raise Mistake(f"{path}, line {number}: {mistake}") from None


def content(
    rows: Mapping[str, Row], row: str, name: str, seen: Tuple[Tuple[str, str], ...] = ()
) -> Optional[bytes]:
    """The bytes of the row's file, or None for any text."""
    if (row, name) in seen or row not in rows or name not in rows[row].files:
        raise Mistake(f"{(seen or [(row, name)])[0][0]}: there is no {row}/{name}")
    found = rows[row].files[name]
    return content(rows, *found, (*seen, (row, name))) if isinstance(found, tuple) else found


def read_rows(paths: Iterable[Path]) -> Dict[str, Row]:
    """The rows of the files, by their names, with bytes in place of references."""
    rows: Dict[str, Row] = {}
    for path in paths:
        read_file(rows, path)
    for row in rows.values():
        row.whole = {name: content(rows, row.name, name) for name in row.files}
        for name in "stdout", "stderr":
            row.whole.setdefault(name, b"")
    return rows


def make_folder(
    folder: Path, words: List[str], status: Optional[int], files: Mapping[str, Optional[bytes]]
) -> None:
    """Writes a row: its words in `args`, one a line, its status, and its files but for those that may have any text."""
    folder.mkdir(parents=True)
    (folder / "args").write_bytes("".join(word + "\n" for word in words).encode("latin-1"))
    (folder / "status").write_text(f"{status or 0}\n")
    for name, whole in files.items():
        if whole is not None:
            (folder / name).write_bytes(whole)


def make_folders(rows: Path, form_1: Path, row: Row) -> None:
    """Writes the row, and if it is one of both forms its copy in form 1."""
    make_folder(rows / row.name, row.words, row.status, row.whole)
    if (
        row.words
        and row.words[0] in ("normalise", "check", "train", "table")
        and "--form" not in row.words
    ):
        files = dict(row.whole)
        files["stdout"] = files.pop("stdout-in-form-1", files["stdout"])
        words = [row.words[0], "--form", "1", *row.words[1:]]
        make_folder(form_1 / f"{row.name}-in-form-1", words, row.status, files)


def escape(byte: str) -> str:
    return f"\\x{ord(byte):02x}"


def escaped(line: bytes) -> str:
    """The bytes with an escape for each that isn't printable ASCII, or is a backslash."""
    return re.sub(r"[^ -~]|\\", lambda byte: escape(byte[0]), line.decode("latin-1"))


def line_of(line: bytes, ended: bool) -> str:
    """How a file of rows writes a line of a file."""
    text = escaped(line)
    if text.startswith(("#", "-- ", "== ")):
        text = escape(text[0]) + text[1:]
    if text.endswith("|"):
        text = text[:-1] + escape("|")
    if not text:
        return "\\x0a\\"
    return text + ("|" if text.endswith(" ") else "") + ("" if ended else "\\")


def text_of(
    name: str,
    words: Sequence[str],
    files: Mapping[str, Union[bytes, str]],
    status: Union[int, str, None],
) -> str:
    """How a file of rows writes a row. For each file it is given bytes, or the text that follows the name in its line."""
    lines = [f"== {name}: {escaped(shlex.join(words).encode())}"]
    for file, whole in files.items():
        if isinstance(whole, str):
            lines.append(f"-- {file} {whole}")
        elif whole or file not in ("stdout", "stderr"):
            lines.append(f"-- {file}")
            *ended, last = whole.split(b"\n")
            lines += [line_of(line, True) for line in ended] + (
                [line_of(last, False)] if last else []
            )
    if status:
        lines.append(f"-- status {status}")
    return "".join(line + "\n" for line in lines)


def main() -> int:
    if len(sys.argv) < 4:
        print("usage: row_files.py FOLDER FORM_1 FILE..", file=sys.stderr)
        return 2
    rows, form_1, *files = map(Path, sys.argv[1:])
    try:
        for row in read_rows(files).values():
            make_folders(rows, form_1, row)
    except (Mistake, OSError) as problem:
        print(problem, file=sys.stderr)
        return 2
    return 0


if __name__ == "__main__":
    sys.exit(main())
