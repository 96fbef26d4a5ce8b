"""Rows in JSON: those of a table, an object a line. With the calls of trains a train's rows are one object, with a list."""
from __future__ import annotations

import json
from itertools import groupby
from typing import Collection, Dict, List, Union

Value = Union[None, int, str, List[Dict[str, Union[None, int, str]]]]

NUMBERS = {"schedule", "set_down", "pick_up", "runs"}
CALL = "call_"
# The commands whose rows have the number of a call.
OF_NUMBERED_CALLS = ("table", "diff", "departures", "arrivals")


def value_of(name: str, cell: str, numbers: Collection[str]) -> Union[None, int, str]:
    if cell == "":
        return None
    return int(cell) if name in numbers else cell


def line_of(row: Dict[str, Value]) -> str:
    return json.dumps(row, ensure_ascii=False, separators=(",", ":"))


def of_table(lines: List[str], numbers: Collection[str]) -> List[str]:
    """The rows of a table that has these lines."""
    names, *rows = (line.split("\t") for line in lines)
    return [
        line_of({name: value_of(name, cell, numbers) for name, cell in zip(names, row)})
        for row in rows
    ]


def of_calls(lines: List[str]) -> List[str]:
    """The same of a table in which a train has a row for each call."""
    names, *rows = (line.split("\t") for line in lines)
    first = names.index("call")
    called = ["record", *(name.removeprefix(CALL) for name in names[first + 1 :])]
    found = []
    for fields, of_train in groupby(rows, lambda row: row[:first]):
        row: Dict[str, Value] = {
            name: value_of(name, cell, ()) for name, cell in zip(names, fields)
        }
        row["calls"] = [
            {name: value_of(name, cell, ()) for name, cell in zip(called, cells[first:])}
            for cells in of_train
            if cells[first]
        ]
        found.append(line_of(row))
    return found


def rows_of(lines: List[str], command: str, stops: bool) -> List[str]:
    """The rows of a command's table in JSON."""
    if stops:
        return of_calls(lines)
    return of_table(lines, NUMBERS | ({"call"} if command in OF_NUMBERED_CALLS else set()))
