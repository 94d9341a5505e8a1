"""Jobs of a command line, some of them at the same time, and their results in order.

An interrupt ends the command at once: what waits is cancelled, what computes is left alone, and nothing more is written. The threads
are daemons, for those of `concurrent.futures` would be waited for.
"""
from __future__ import annotations

import threading
from collections.abc import Callable, Iterator, Sequence
from concurrent.futures import Future
from pathlib import Path
from typing import Generic, TypeVar

Made = TypeVar("Made")

# How long a file that is being written is waited for at an interrupt, in seconds: a pipe without a reader takes nothing.
PATIENCE = 10.0


class Writing:
    """Leave to write files. It ends with an interrupt, so that no file is left half-written."""

    def __init__(self) -> None:
        self._leave = threading.Lock()

    def write(self, path: str, data: bytes) -> None:
        """Writes a file."""
        with self._leave:
            Path(path).write_bytes(data)

    def end(self) -> None:
        """Waits for a file that is being written, unless nobody takes it. From now on none is."""
        self._leave.acquire(timeout=PATIENCE)


class Crew(Generic[Made]):
    """Threads that do jobs.

    Parameters
    ----------
    count : int
        How many jobs are done at the same time.
    jobs : sequence of callable
        In the order in which they are begun.
    then : callable
        Called when a job has ended.
    """

    def __init__(self, count: int, jobs: Sequence[Callable[[], Made]], then: Callable[[], None]) -> None:
        self._then, self._counting = then, threading.Lock()
        self._results: list[Future[Made]] = [Future() for _ in jobs]
        self._left = iter(list(zip(jobs, self._results)))
        for _ in range(min(count, len(jobs))):
            threading.Thread(target=self._work, name="morph", daemon=True).start()

    def _work(self) -> None:
        for job, result in self._left:
            if not result.set_running_or_notify_cancel():
                continue
            try:
                made = job()
            except BaseException as fault:
                self._count()
                result.set_exception(fault)
            else:
                self._count()
                result.set_result(made)

    def _count(self) -> None:
        with self._counting:
            self._then()

    def results(self) -> Iterator[Future[Made]]:
        """What came of each job, in their order."""
        for result in self._results:
            result.exception()
            yield result

    def cancel(self) -> None:
        """Cancels what has not begun."""
        for result in self._results:
            result.cancel()
