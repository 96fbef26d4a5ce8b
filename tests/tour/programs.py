#!/usr/bin/python3
"""programs.py DOCUMENT

Runs the programs of a document, which are its blocks ```python, one after the other as one program.
What each prints has to be the block that follows it. Without pandas, those that need it are skipped.
"""
from __future__ import annotations

import contextlib
import importlib.util
import io
import re
import sys
import traceback
from pathlib import Path

sys.dont_write_bytecode = True
BLOCKS = re.compile(r"^```python\n(.*?)^```\n```\n(.*?)^```$", re.DOTALL | re.MULTILINE)
PANDAS = ".frame("


def main() -> int:
    names: dict[str, object] = {"__name__": "__main__"}
    passed = failed = skipped = 0
    for program, shown in BLOCKS.findall(Path(sys.argv[1]).read_text(encoding="utf-8")):
        if PANDAS in program and not importlib.util.find_spec("pandas"):
            print("pandas isn't there: a program is skipped")
            skipped += 1
            continue
        printed = io.StringIO()
        with contextlib.redirect_stdout(printed):
            try:
                exec(program, names)  # pylint: disable=exec-used
            except Exception:  # pylint: disable=broad-except
                traceback.print_exc(file=printed)
        if printed.getvalue() == shown:
            passed += 1
        else:
            failed += 1
            print(f"{program}prints\n{printed.getvalue()}and not\n{shown}")
    print(f"{passed} {failed} {skipped}")
    return 0


if __name__ == "__main__":
    sys.exit(main())
