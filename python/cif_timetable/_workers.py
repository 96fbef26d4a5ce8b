"""Work that processes of their own do side by side."""
from __future__ import annotations

from collections import deque
from collections.abc import Callable, Generator, Iterable, Iterator
from contextlib import contextmanager
from multiprocessing import get_context
from multiprocessing.connection import Connection
from typing import TypeVar

from ._files import interrupts_waiting
from ._running import ignore_interrupts
from .errors import CifError, Failed

Task = TypeVar("Task")
Result = TypeVar("Result")

# A copy of this process needs neither a start of Python nor anything handed over.
PROCESSES = get_context("fork")


def work_all(
    work: Callable[[Task], Result], ours: Connection, others: Iterable[Connection]
) -> None:
    """What a process does: it answers each task with the result, or with what ended it, until no
    more can come. An interrupt is for the process that sends, which then ends."""
    ignore_interrupts()
    for other in others:
        other.close()
    while True:
        answer: Result | CifError
        try:
            answer = work(ours.recv())
        except EOFError:
            return
        except CifError as ending:
            answer = ending
        except MemoryError:
            answer = Failed("memory ran out")
        try:
            ours.send(answer)
        except OSError:
            # nobody waits any more
            return


def received(process: Connection) -> object:
    """The result of a task. Raises what ended it."""
    try:
        result = process.recv()
    except (OSError, EOFError):
        raise Failed("a process that does a part of the work ended early") from None
    if isinstance(result, CifError):
        raise result
    return result


@contextmanager
def started(work: Callable[[Task], Result], count: int) -> Iterator[list[Connection]]:
    """So many processes that do work, each by what leads to it. They are gone when the block ends."""
    pipes = [PROCESSES.Pipe() for _ in range(count)]
    ends = {end for pipe in pipes for end in pipe}
    processes = [
        PROCESSES.Process(target=work_all, args=(work, theirs, ends - {theirs}), daemon=True)
        for _, theirs in pipes
    ]
    try:
        with interrupts_waiting():
            for process in processes:
                process.start()
        for _, theirs in pipes:
            theirs.close()
        yield [ours for ours, _ in pipes]
    finally:
        for process in processes:
            if process.pid is not None:
                process.kill()
        for end in ends:
            end.close()
        for process in processes:
            if process.pid is not None:
                process.join()


def in_processes(
    work: Callable[[Task], Result], tasks: Iterable[Task], count: int
) -> Generator[Result, None, None]:
    """The results of tasks in their order, done by so many processes. Each has one task at a time.
    What the work changes is changed in its process only."""
    with started(work, count) as processes:
        free, busy = deque(processes), deque[Connection]()
        for task in tasks:
            if not free:
                free.append(busy.popleft())
                yield received(free[0])  # type: ignore[misc]
            process = free.popleft()
            try:
                process.send(task)
            except OSError:
                # it has ended, and what it has sent before says why
                received(process)
                raise
            busy.append(process)
        for process in busy:
            yield received(process)  # type: ignore[misc]
