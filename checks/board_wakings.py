#!/usr/bin/env python3
"""Counts how often the threads of a `morphd listen` fall asleep: a result is to wake who waits for it, and nobody else.

    python3 checks/board_wakings.py crates/morphd/out/morphd

A thread that is woken for nothing looks, and falls asleep again, which the system counts (`voluntary_ctxt_switches` of
proc(5)). First many sessions wait at once, each for an entry of its own, while one worker computes. Then one session waits for
one task after another, while many workers sleep. No contract can say who is woken too often, and no reply shows it.

It prints both counts for each WAIT, and ends with status 1 where one lies beyond its bounds.
"""
import os
import random
import re
import sys
import threading

from server import NoAnswer, Server

# Sessions that wait at once, and how many entries each of them waits for. While so few wait no two tickets share a class.
SESSIONS, ENTRIES = 32, 20
# Workers that sleep, and how many entries one session waits for.
WORKERS, ALONE = 12, 200
# How often threads may fall asleep for each WAIT: a session for its lines and for its entry, a worker behind its task, and
# whoever finds the lock taken. If each result woke all sessions it would be SESSIONS times more, and WORKERS times if each task
# woke all workers. At least once a session sleeps for nearly each of its waits, or nothing was measured.
LEAST, MOST = 0.5, 6
SIDE = 128


def given(chance):
    """A picture of one tile, and an element without a pattern, so that a task takes longer than a line on its way."""
    picture = b"P5\n%d %d\n255\n" % (SIDE, SIDE) + chance.randbytes(SIDE * SIDE)
    rows = b"\n".join(b"".join(chance.choice((b"0", b"1", b"1")) for _ in range(31)) for _ in range(31))
    element = b"P1\n31 31\n%s\n" % rows
    return b"LOAD f %d\n%sELEMENT b 15 15 %d\n%s" % (len(picture), picture, len(element), element)


def sleeps(process):
    """How often all threads of a process have fallen asleep so far."""
    total = 0
    for thread in os.listdir(f"/proc/{process}/task"):
        with open(f"/proc/{process}/task/{thread}/status", encoding="ascii") as rows:
            total += int(re.search(r"^voluntary_ctxt_switches:\s*(\d+)", rows.read(), re.MULTILINE).group(1))
    return total


def wait_for(client, who, count):
    """Runs one command after another, and waits for each."""
    for number in range(count):
        name = b"e%dx%d" % (who, number)
        client.send(b"RUN %s ERODE f b\nWAIT %s\n" % (name, name))
        replies = client.line(), client.line()
        if not (replies[0].startswith(b"OK ") and replies[1].startswith(b"DONE ")):
            raise NoAnswer("the replies were %r" % (replies,))


def measured(program, sessions, workers, entries):
    """How often threads fall asleep for each WAIT of so many sessions at once."""
    with Server(program, sessions, workers) as server:
        clients = [server.connect() for _ in range(sessions)]
        clients[0].send(given(random.Random(1)))
        for _ in range(2):
            clients[0].line()
        server.is_at_rest()
        before, faults = sleeps(server.run.pid), []

        def run(client, who):
            try:
                wait_for(client, who, entries)
            except NoAnswer as fault:
                faults.append(fault)

        crew = [threading.Thread(target=run, args=it) for it in zip(clients, range(sessions))]
        for each in crew:
            each.start()
        for each in crew:
            each.join()
        if faults:
            raise faults[0]
        count = sleeps(server.run.pid) - before
        for client in clients:
            client.send(b"QUIT\n")
        if server.end() != (0, b""):
            raise NoAnswer("the server did not end well")
    return count / (sessions * entries)


def main():
    program, is_well = sys.argv[1], True
    for sessions, workers, entries in ((SESSIONS, 1, ENTRIES), (1, WORKERS, ALONE)):
        count = measured(program, sessions, workers, entries)
        print(f"{sessions} sessions, {workers} workers: threads fall asleep {count:.1f} times for each WAIT", flush=True)
        is_well &= LEAST <= count <= MOST
    if not is_well:
        sys.exit(f"they are to fall asleep {LEAST} to {MOST} times")


if __name__ == "__main__":
    main()
