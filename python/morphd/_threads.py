"""Work that threads share. They are kept for the next call.

While a call of the library runs, the interpreter's lock is free, and threads compute side by side; for all else they wait for that lock in
turn, and one that slept takes long to wake. So whoever asks works too, and waits for what was begun, not for threads: one that comes
late finds nothing left to do. What is handed out should be ready to run.
"""
from __future__ import annotations

import os
import threading
from collections import deque
from collections.abc import Callable, Iterable
from queue import Empty, SimpleQueue
from typing import Generic, TypeVar

from ._numbers import whole

Item = TypeVar("Item")
Made = TypeVar("Made")

_asked: SimpleQueue[Callable[[], None]] = SimpleQueue()
_starting = threading.Lock()
_started = 0
# After so many seconds a caller looks who helps, if the word of one that ended was lost with an interrupt.
_LOOK_AGAIN = 1.0


def processors() -> int:
    """How many processors this process may use, which a batch system or a container limits; of the machine where nobody tells."""
    return len(os.sched_getaffinity(0)) if hasattr(os, "sched_getaffinity") else os.cpu_count() or 1


def worker_count(workers: int | None) -> int:
    """How many threads are asked for: None is 1, -1 is one for each processor that may be used, -2 one less."""
    count = 1 if workers is None else whole(workers, "workers")
    if count < 0:
        count += 1 + processors()
    if count < 1:
        raise ValueError(f"workers is a number of threads from 1 on, or negative to count from the processors: {workers}")
    return count


def _serve(asked: SimpleQueue[Callable[[], None]]) -> None:
    while True:
        asked.get()()


def _start(count: int) -> None:
    """Has so many threads at least, or as many as the system gives."""
    global _started
    if _started >= count:
        return
    with _starting:
        while _started < count:
            try:
                threading.Thread(target=_serve, args=(_asked,), name="morphd", daemon=True).start()
            except RuntimeError:
                return
            _started += 1


def _forget_threads() -> None:
    """A child process has none of its parent's threads."""
    global _asked, _starting, _started
    _asked, _starting, _started = SimpleQueue(), threading.Lock(), 0


os.register_at_fork(after_in_child=_forget_threads)


class _Share(Generic[Item, Made]):
    """Items of which threads take one after another. The caller takes them from the end, where work may stand that needs the
    interpreter, since he is awake already; the others take them from the front."""

    def __init__(self, work: Callable[[Item], Made], items: list[Item]) -> None:
        self.work, self.items = work, items
        self.left = deque(range(len(items)))
        self.made: dict[int, Made] = {}
        self.faults: dict[int, BaseException] = {}
        self.interrupt: BaseException | None = None
        self.helping: set[int] = set()
        self.ended: SimpleQueue[None] = SimpleQueue()

    def take(self, next_item: Callable[[], int]) -> None:
        """Does the work at items that nobody has begun, until none is left. An interrupt leaves the rest undone."""
        while self.interrupt is None:
            try:
                at = next_item()
            except IndexError:
                return
            try:
                self.made[at] = self.work(self.items[at])
            except BaseException as fault:
                self.faults[at] = fault
                if not isinstance(fault, Exception):
                    self.interrupt = fault

    def help(self) -> None:
        """What another thread does. It is known to help before it takes an item, so nobody leaves while it has one."""
        me = threading.get_ident()
        self.helping.add(me)
        try:
            self.take(self.left.popleft)
        finally:
            self.helping.discard(me)
            self.ended.put(None)

    def wait(self) -> None:
        """Ends when nobody helps any more. An interrupt is kept until then, for others still read and write the caller's arrays."""
        while self.helping:
            try:
                self.ended.get(timeout=_LOOK_AGAIN)
            except Empty:
                continue
            except BaseException as fault:
                self.interrupt = fault

    def results(self) -> list[Made]:
        """What was made, in order; or the first fault is raised, an interrupt before all others."""
        count = len(self.items)
        # a thread that comes late still has this share: it is to find nothing to do, and not to hold the caller's arrays
        self.left.clear()
        self.items.clear()
        fault = self.interrupt or self.faults.get(min(self.faults, default=0))
        if fault is None:
            return [self.made.pop(at) for at in range(count)]
        try:
            raise fault
        finally:
            # a fault holds its frames, and so the caller's arrays: they go with it, where nothing in them holds it
            self.faults.clear()
            fault = self.interrupt = None


def each(work: Callable[[Item], Made], items: Iterable[Item], workers: int) -> list[Made]:
    """What the work makes of each item, by so many threads, the caller's among them. The first fault is raised, when all have ended."""
    held = list(items)
    if workers == 1 or len(held) < 2:
        return [work(item) for item in held]
    share, others = _Share(work, held), min(workers, len(held)) - 1
    try:
        _start(others)
        for _ in range(others):
            _asked.put(share.help)
        share.take(share.left.pop)
    except BaseException as fault:
        share.interrupt = fault
    finally:
        try:
            share.wait()
        finally:
            # again, if an interrupt came between two looks
            share.wait()
    return share.results()


def run(tasks: Iterable[Callable[[], Made]], workers: int) -> list[Made]:
    """What each task gives, as `each` does it."""
    return each(lambda task: task(), tasks, workers)
