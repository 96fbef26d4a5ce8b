"""Words that name places."""
from __future__ import annotations

import re
from typing import Optional

from .faults import WORDS, Fault

WORD = re.compile(r"[!-~]{1,7}")


def place_of(word: Optional[str]) -> Optional[str]:
    """The word of a place in capitals; of no word there is none."""
    if word is not None and not WORD.fullmatch(word):
        raise Fault("bad place", WORDS, word=word)
    return None if word is None else re.sub("[a-z]", lambda small: small[0].upper(), word)
