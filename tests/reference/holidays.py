"""Holidays: a text that says on which dates each holiday code has its holidays."""
from __future__ import annotations

import re
from datetime import date
from typing import Dict, List, Optional, Set, Tuple

from .dates import from_word
from .extracts import contents_of
from .faults import FAILED, REFUSED, Fault
from .values import HOLIDAY_CODES

WIDTH = 1000
SAID = re.compile(rb" *(?:([XEG])((?: +[0-9-]+)*) *)?")


def said_by(content: bytes) -> Optional[Tuple[Optional[str], List[date]]]:
    """The code and the dates of a line, or None where it isn't as it has to be; a line without a code has none of both."""
    found = SAID.fullmatch(content.split(b"#", 1)[0])
    if len(content) > WIDTH or not found:
        return None
    code, words = found[1], found[2] or b""
    dates = [from_word(word.decode()) for word in words.split()]
    known = [day for day in dates if day is not None]
    return None if None in dates else (code.decode() if code else None, known)


def read_holidays(data: Optional[bytes]) -> Dict[str, Set[date]]:
    """The dates of each code that is named; None is an input that can't be read."""
    if data is None:
        raise Fault("ReadFault", FAILED)
    named: Dict[str, Set[date]] = {}
    for number, content in enumerate(contents_of(data), 1):
        said = said_by(content)
        if said is None:
            raise Fault(f"holidays: line {number}: BadHoliday", REFUSED, "BadHoliday", number)
        code, dates = said
        if code in HOLIDAY_CODES:
            named.setdefault(code, set()).update(dates)
    return named
