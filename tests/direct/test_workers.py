"""Work that processes do side by side."""
from __future__ import annotations

import os
import signal
import time
import unittest
from pathlib import Path

from cif_timetable._workers import in_processes
from cif_timetable.errors import Failed, Refused


def work(task: int) -> int:
    """The later tasks take less time."""
    time.sleep(0.002 * (10 - task % 10))
    if task == 90:
        os.kill(os.getpid(), signal.SIGKILL)
    if task == 91:
        raise Refused("this task")
    if task == 92:
        raise MemoryError
    return task * task


def children() -> str:
    return Path(f"/proc/self/task/{os.getpid()}/children").read_text("ascii")


class InProcesses(unittest.TestCase):
    """Results come in order, and no process is left."""

    def test_order(self) -> None:
        for count in 1, 2, 5:
            wanted = [task * task for task in range(12)]
            self.assertEqual(wanted, list(in_processes(work, range(12), count)))
        self.assertEqual([], list(in_processes(work, [], 2)))
        self.assertEqual("", children())

    def test_endings(self) -> None:
        for task, kind, text in (
            (90, Failed, "ended early"),
            (91, Refused, "this task"),
            (92, Failed, "memory ran out"),
        ):
            with self.subTest(task), self.assertRaisesRegex(kind, text):
                list(in_processes(work, [1, 2, task, *range(3, 9)], 2))
            self.assertEqual("", children())

    def test_dropped(self) -> None:
        results = in_processes(work, range(100), 3)
        next(results)
        results.close()
        self.assertEqual("", children())
