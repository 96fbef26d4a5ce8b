"""All reasons to refuse an input, with the lines that have them."""
from __future__ import annotations

from typing import Dict, List, Optional, Tuple

from . import layouts
from .extracts import KINDS, contents_of, kind_of, line_of
from .faults import FAILED, Fault, Refusal

# The reasons that a line can have by itself, in the order of their numbers.
REASONS: Tuple[str, ...] = (
    "BadLength",
    "BadByte",
    "UnknownRecord",
    "NotFull",
    "BadDate",
    "OpenEnd",
    "DatesReversed",
    "BadDays",
)
REASONS += ("BankHoliday", "BadStp", "BadTime")

# A line with so many bytes before its LF is the last one.
LONGEST = 10000


def own_reason(content: bytes) -> Optional[str]:
    """The reason of a line whatever stands before it, or None."""
    try:
        line = line_of(content)
        layouts.read(kind_of(line, KINDS), line, {})
    except Refusal as refusal:
        return refusal.name
    return None


def judged(data: bytes) -> List[bytes]:
    """The contents that are judged; a line that is too long to be read to its end is the last one."""
    at = 0
    while 0 <= data.find(b"\n", at, at + LONGEST):
        at = data.find(b"\n", at) + 1
    return contents_of(data[: at + LONGEST])


def all_reasons(data: Optional[bytes]) -> Dict[str, List[int]]:
    """The reasons that lines have, each with the numbers of those lines."""
    if data is None:
        raise Fault("ReadFault", FAILED)
    lines: Dict[Optional[str], List[int]] = {}
    for number, content in enumerate(judged(data), 1):
        lines.setdefault(own_reason(content), []).append(number)
    return {name: lines[name] for name in REASONS if name in lines}


def listed(reasons: Dict[str, List[int]]) -> List[str]:
    """A line for each reason."""
    return [
        f"{name}: {len(at)} line{'s' * (len(at) > 1)}, first at line {at[0]}"
        for name, at in reasons.items()
    ]
