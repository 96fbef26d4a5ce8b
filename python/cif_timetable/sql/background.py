"""Databases that are filled by processes of their own, while the next rows are read."""
from __future__ import annotations

from collections.abc import Callable, Iterator, Sequence
from contextlib import AbstractContextManager, contextmanager
from multiprocessing import get_context
from multiprocessing.connection import Connection

from .._files import interrupts_waiting
from .._running import ignore_interrupts
from ..errors import CifError, Failed
from .schema import Database

Opened = Callable[[], AbstractContextManager[Database]]

# A copy of this process needs neither a start of Python nor anything handed over.
PROCESSES = get_context("fork")


class Background(Database):
    """Hands rows on to the process."""

    def __init__(self, process: Connection) -> None:
        self.process = process

    def fill(self, table: str, names: Sequence[str], rows: bytes) -> None:
        try:
            self.process.send((table, names, rows))
        except OSError as problem:
            # only a process that has ended says why
            if self.process.poll():
                self.wait()
            reason = f"nothing can be sent to the process that writes it: {problem.strerror}"
            raise Failed(f"the database: {reason}") from None

    def finish(self) -> None:
        """Says that all rows are there. `wait` says what ended the process early."""
        try:
            self.process.send(None)
        except OSError:
            pass

    def wait(self) -> None:
        """Waits until the database is complete, or raises what ended the process early."""
        ending = self.ending()
        if ending is not None:
            raise ending

    def ending(self) -> CifError | None:
        """What ended the process early, or None once it has done all."""
        try:
            ending = self.process.recv()
        except (OSError, EOFError):
            return Failed("the process that writes the database ended early")
        assert ending is None or isinstance(ending, CifError)
        return ending


def fill_all(opened: Opened, ours: Connection, others: Sequence[Connection]) -> None:
    """What a process does: it fills a database with what comes, until that ends. An interrupt is
    for the process that sends, which then ends without saying that all is there."""
    ignore_interrupts()
    for other in others:
        other.close()
    ending: CifError | None = None
    try:
        with opened() as database:
            message = ours.recv()
            while message is not None:
                database.fill(*message)
                message = ours.recv()
    except CifError as problem:
        ending = problem
    except MemoryError:
        ending = Failed("memory ran out")
    except EOFError:
        return
    try:
        ours.send(ending)
    except OSError:
        # nobody waits any more
        pass


@contextmanager
def in_background(databases: Sequence[Opened]) -> Iterator[list[Background]]:
    """Databases, each of which another process opens and fills. They are complete when the block
    ends; if the block fails, nobody writes into them any more."""
    pipes = [PROCESSES.Pipe() for _ in databases]
    ends = {end for pipe in pipes for end in pipe}
    processes = [
        PROCESSES.Process(target=fill_all, args=(opened, other, ends - {other}))
        for opened, (_, other) in zip(databases, pipes)
    ]
    try:
        with interrupts_waiting():
            for process in processes:
                process.start()
        for _, other in pipes:
            other.close()
        filled = [Background(ours) for ours, _ in pipes]
        yield filled
        for database in filled:
            database.finish()
        for database in filled:
            database.wait()
    except BaseException:
        # what they write goes nowhere, and an index takes long
        for process in processes:
            if process.pid is not None:
                process.kill()
        raise
    finally:
        for end in ends:
            end.close()
        for process in processes:
            if process.pid is not None:
                process.join()
