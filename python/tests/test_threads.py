"""Work that threads share."""
import gc
import os
import signal
import subprocess
import sys
import threading
import time
import weakref
from pathlib import Path

import numpy as np
import pytest

import morphd
from morphd import _pieces, _threads


def test_how_many_workers(monkeypatch):
    monkeypatch.setattr("os.cpu_count", lambda: 64)
    monkeypatch.setattr("os.sched_getaffinity", lambda process: set(range(0, 16, 2)), raising=False)
    assert [_threads.worker_count(number) for number in (None, 1, 5, -1, -3)] == [1, 1, 5, 8, 6]
    for number in (0, -9):
        with pytest.raises(ValueError, match="workers"):
            _threads.worker_count(number)
    for wrong in (2.5, 2.0, float("inf"), "2"):
        with pytest.raises(TypeError, match="workers is a whole number"):
            _threads.worker_count(wrong)
    monkeypatch.delattr("os.sched_getaffinity")
    assert _threads.worker_count(-1) == 64


@pytest.mark.skipif(not hasattr(os, "sched_getaffinity"), reason="this system does not tell which processors a process may use")
def test_as_many_workers_as_the_process_may_use_processors():
    code = "import os; os.sched_setaffinity(0, {min(os.sched_getaffinity(0))}); from morphd import _threads; print(_threads.worker_count(-1))"
    made = subprocess.run([sys.executable, "-c", code], cwd=Path(morphd.__file__).parents[1], capture_output=True, text=True, check=True)
    assert made.stdout == "1\n"


@pytest.mark.parametrize("workers", [1, 2, 5, 40])
def test_results_come_in_order(workers):
    for count in (0, 1, 2, 30):
        assert _threads.each(lambda item: item * item, range(count), workers) == [item * item for item in range(count)]


def test_each_item_is_done_once_by_many_callers_at_once():
    done, faults = [], []

    def ask(base):
        try:
            assert _threads.each(lambda item: done.append(item) or item, range(base, base + 50), 4) == list(range(base, base + 50))
        except BaseException as fault:
            faults.append(fault)

    callers = [threading.Thread(target=ask, args=(50 * number,)) for number in range(8)]
    for caller in callers:
        caller.start()
    for caller in callers:
        caller.join(60)
    assert not faults and sorted(done) == list(range(400))


def test_work_may_share_work():
    def inner(item):
        return sum(_threads.each(lambda other: item * other, range(5), 3))

    assert _threads.each(inner, range(20), 3) == [10 * item for item in range(20)]


def test_the_first_fault_is_raised_when_all_have_ended():
    ended = []

    def work(item):
        if item in (3, 7):
            raise ValueError(item)
        time.sleep(0.01)
        ended.append(item)

    with pytest.raises(ValueError, match="3"):
        _threads.each(work, range(10), 4)
    assert sorted(ended) == [0, 1, 2, 4, 5, 6, 8, 9]


@pytest.mark.parametrize("is_callers", [True, False])
def test_an_interrupt_leaves_the_rest_undone(is_callers):
    """Whichever thread meets it, who asked is interrupted, once nobody works any more."""
    caller, begun, working = threading.get_ident(), [], []
    both = threading.Barrier(2, timeout=60)

    def work(item):
        begun.append(item)
        if len(begun) <= 2:
            both.wait()
        if (threading.get_ident() == caller) == is_callers:
            raise KeyboardInterrupt
        working.append(item)
        time.sleep(0.05)
        working.remove(item)

    with pytest.raises(KeyboardInterrupt):
        _threads.each(work, range(100), 2)
    assert len(begun) < 100 and not working


@pytest.fixture
def interrupts():
    """Interrupts of whoever waits for others, so many one after the other, and what is done then. Nothing else is interrupted."""
    if threading.current_thread() is not threading.main_thread():
        pytest.skip("Python interrupts the main thread alone")
    waiting, raised, sending = _threads._Share.wait.__code__, [], []

    def interrupted(number, frame):
        while frame is not None and frame.f_code is not waiting:
            frame = frame.f_back
        if frame is not None:
            raised.append(number)
            raise KeyboardInterrupt

    def send(times, then):
        until = time.monotonic() + 10
        while len(raised) < times and time.monotonic() < until:
            time.sleep(0.01)
            signal.pthread_kill(threading.main_thread().ident, signal.SIGINT)
        time.sleep(0.05)
        then()

    def start(*arguments):
        sending.append(threading.Thread(target=send, args=arguments))
        sending[-1].start()

    before = signal.signal(signal.SIGINT, interrupted)
    yield start
    for each in sending:
        each.join()
    signal.signal(signal.SIGINT, before)


@pytest.mark.parametrize("times", [1, 6])
def test_interrupts_while_others_work_are_raised_when_they_have_ended(interrupts, times):
    """The caller has done his share, and waits. What the others still do, they do on his arrays. An interrupt goes before faults."""
    caller, both, release, ended = threading.get_ident(), threading.Barrier(2, timeout=60), threading.Event(), []

    def work(item):
        both.wait()
        if threading.get_ident() != caller:
            interrupts(times, release.set)
            release.wait(60)
            time.sleep(0.05)
            ended.append(item)
        raise ValueError(item)

    with pytest.raises(KeyboardInterrupt):
        _threads.each(work, range(2), 2)
    assert release.is_set() and len(ended) == 1


def test_an_interrupt_while_others_are_asked_leaves_the_rest_undone(monkeypatch):
    _threads.each(lambda item: None, range(3), 3)
    begun, ended, is_begun, asked = [], [], threading.Event(), _threads._asked

    class Interrupted:
        def put(self, help_out):
            if begun:
                raise KeyboardInterrupt
            asked.put(help_out)
            assert is_begun.wait(60)

    def work(item):
        begun.append(item)
        is_begun.set()
        time.sleep(0.05)
        ended.append(item)

    monkeypatch.setattr(_threads, "_asked", Interrupted())
    with pytest.raises(KeyboardInterrupt):
        _threads.each(work, range(50), 3)
    assert begun == ended and len(begun) < 50


def test_a_word_that_is_lost_is_not_waited_for(monkeypatch):
    """An interrupt can take the word of a thread that ended, so who waits looks for himself, too."""
    class Lossy(_threads.SimpleQueue):
        def put(self, item):
            pass

    monkeypatch.setattr(_threads, "SimpleQueue", Lossy)
    monkeypatch.setattr(_threads, "_LOOK_AGAIN", 0.01)
    assert _threads.each(lambda item: time.sleep(0.02) or item, range(6), 3) == list(range(6))


def test_a_fault_does_not_keep_what_was_shared():
    """What was at work goes with the fault, without the collector of cycles."""
    def work(array):
        raise ValueError(array.shape)

    arrays = [np.ones(3), np.ones(3)]
    seen = [weakref.ref(array) for array in arrays]
    gc.disable()
    try:
        with pytest.raises(ValueError):
            _threads.each(work, arrays, 2)
        del arrays
        assert all(one() is None for one in seen)
    finally:
        gc.enable()


@pytest.fixture
def busy():
    """All other threads are kept busy by another call, until they are let go of and have ended what they were asked for."""
    _threads.each(lambda item: None, range(2), 2)
    release, count = threading.Event(), _threads._started
    held, free = (threading.Barrier(count + 1, timeout=60) for _ in range(2))

    def hold():
        held.wait()
        release.wait(60)

    def ask_all(work):
        for _ in range(count):
            _threads._asked.put(work)

    def let_go():
        ask_all(free.wait)
        release.set()
        free.wait()

    ask_all(hold)
    held.wait()
    yield let_go
    release.set()


def test_nobody_waits_for_a_thread_that_has_nothing_to_do(busy):
    assert _threads.each(lambda item: -item, range(2), 2) == [0, -1]


def test_a_thread_that_comes_late_begins_nothing(busy):
    """What an interrupt left undone stays so, and is not held either."""
    begun, arrays = [], [np.ones(2) for _ in range(9)]
    seen = [weakref.ref(array) for array in arrays]

    def work(array):
        begun.append(len(array))
        raise KeyboardInterrupt

    with pytest.raises(KeyboardInterrupt):
        _threads.each(work, arrays, 4)
    del arrays
    assert all(one() is None for one in seen)
    busy()
    assert begun == [2]


def test_fewer_threads_than_asked_for(monkeypatch):
    class Exhausted(threading.Thread):
        def start(self):
            raise RuntimeError("can't start new thread")

    monkeypatch.setattr(_threads.threading, "Thread", Exhausted)
    monkeypatch.setattr(_threads, "_started", 0)
    assert _threads.each(lambda item: item + 1, range(6), 3) == [1, 2, 3, 4, 5, 6]


def test_a_child_process_has_threads_of_its_own(monkeypatch):
    monkeypatch.setattr(_pieces, "LEAST_ROWS", 1)
    image = np.ones((8, 3), np.uint8)
    morphd.erosion(image, [[1]], workers=2)
    child = os.fork()
    if child == 0:
        os._exit(0 if (morphd.erosion(image, [[1]], workers=2) == 1).all() and _threads._started == 1 else 1)
    assert os.waitpid(child, 0)[1] == 0
