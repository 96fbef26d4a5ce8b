"""The names of operators, which CIF gives as codes of two letters.

operators.csv has names from memory. What the user says of an operator comes before them.
"""
from __future__ import annotations

from collections.abc import Mapping
from pathlib import Path
from typing import NamedTuple

from .user_csv import Field, Key, Layout, mail_address, plain_text, read_file, web_address

KNOWN = Path(__file__).resolve().parent / "operators.csv"


class OperatorRow(NamedTuple):
    """What the user says of an operator."""

    operator_code: str
    name: str
    url: str | None
    phone: str | None = None
    email: str | None = None


OPERATORS = Layout(
    OperatorRow,
    (
        Field("operator_code", plain_text, needed=True),
        Field("name", plain_text, needed=True),
        Field("url", web_address),
        Field("phone", plain_text, optional=True),
        Field("email", mail_address, optional=True),
    ),
    ("operator_code",),
)


def read_operators(path: str | None) -> dict[Key, OperatorRow]:
    """What is known of operators, by their codes."""
    known = read_file(OPERATORS, str(KNOWN))
    known.update(read_file(OPERATORS, path))
    return known


def operator_name(code: str, given: Mapping[Key, OperatorRow]) -> str:
    """The name of an operator, or else its code."""
    row = given.get((code,))
    if row is not None:
        return row.name
    return f"Operator {code}" if code else "Unknown operator"
