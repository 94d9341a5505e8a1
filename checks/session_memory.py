#!/usr/bin/env python3
"""By how much a `morphd serve --memory` grows while one session takes all that it may.

    python3 checks/session_memory.py crates/morphd/out/morphd [WORKERS..]

With the settings of the unit for systemd, over tiles of each of SIDES and by so many workers (2 and 4 where none are named), a client
loads a picture of 1024 x 1024 samples, or of 2048 x 2048, and has results of one kind made until one is refused: all of them before
their work begins, or each before the next is asked for; of spectra three. What is told is the greatest resident size of the service, less
that before the client came. It may be MEBIBYTES, and for each worker WORKER MiB more. The process is begun anew for each session, and its
sizes are asked of the system. It begins with a session that may take twice as much, to show that it would notice.
"""
import functools
import random
import sys
import time

from kept_memory import settings_of_unit
from server import NoAnswer, Service

# How long a client waits for a reply, in seconds: behind a question stands all work that was accepted.
PATIENCE = 600
MEBIBYTES, WORKER, SIDES, SIDE = 64, 2, (64, 256, 1024), 1024
# More results than fit.
MOST_RESULTS = 1000
BOX, CROSS = (1, b"P1\n3 3\n111111111\n"), (1, b"P1\n3 3\n010111010\n")
DISC = (40, b"P1\n81 81\n" + b"".join(b"01"[it:it + 1] for it in ((k % 81 - 40) ** 2 + (k // 81 - 40) ** 2 <= 1600 for k in range(81 * 81))) + b"\n")


class Wrong(Exception):
    """The session was answered otherwise."""


def noise(side):
    return b"P5\n%d %d\n255\n" % (side, side) + random.Random(5).randbytes(side * side)


@functools.cache
def grey():
    """A picture without a pattern."""
    return noise(SIDE)


@functools.cache
def large():
    """One of four times as many pixels."""
    return noise(2 * SIDE)


@functools.cache
def discs():
    """A set of squares on their corners."""
    rows = [[abs(x % 128 - 64) + abs(y % 128 - 64) < 60 for x in range(SIDE)] for y in range(SIDE)]
    packed = [int("".join("01"[it] for it in row), 2).to_bytes(SIDE // 8, "big") for row in rows]
    return b"P4\n%d %d\n" % (SIDE, SIDE) + b"".join(packed)


# Of each kind: the picture, the element, the lines of one result behind its name, and whether each is made before the next is asked for.
KINDS = {
    "openings, all at once": (grey, BOX, b"OPEN f b", False),
    "openings, one by one": (grey, BOX, b"OPEN f b", True),
    "ranks, all at once": (grey, CROSS, b"RANK f b 3", False),
    "openings by a disc": (large, DISC, b"OPEN f b", False),
    "a spectrum by a box": (grey, BOX, b"SPECTRUM f b 24", True),
    "spectra by a cross": (grey, CROSS, b"SPECTRUM f b 7", True),
    "skeletons": (discs, CROSS, b"SKELETON f b 32", True),
}


def must_be(told, wanted, what):
    if told != wanted:
        raise Wrong("%s is %r and not %r" % (what, told, wanted))


def fill(client, kind):
    """Has results made until one is refused, and says how many were."""
    picture, (middle, element), line, one_by_one = KINDS[kind]
    must_be(client.ask(b"LOAD f %d\n" % len(picture()) + picture())[0], b"OK 0\n", "the reply to a picture")
    must_be(client.ask(b"ELEMENT b %d %d %d\n" % (middle, middle, len(element)) + element)[0], b"OK 1\n", "the reply to an element")
    for number in range(MOST_RESULTS):
        told, _ = client.ask(b"RUN r%d %s\n" % (number, line))
        if told == b"ERR 50 MEMORY\n":
            break
        must_be(told, b"OK %d\n" % (number + 2), "the reply to a RUN")
        if one_by_one:
            must_be(client.ask(b"WAIT r%d\n" % number)[0].split()[0], b"DONE", "the end of a wait")
        # Curves take little: a few of them tell what making them takes.
        if b"SPECTRUM" in line and number == 2:
            break
    must_be(client.ask(b"WAIT r0\n")[0].split()[0], b"DONE", "the end of the last wait")
    return number


def growth(program, kind, tile, workers, mebibytes=MEBIBYTES):
    """By how many MiB a service grew at most whose session may take so many."""
    more = ("--memory", str(mebibytes))
    with Service(program, 1, workers=workers, tile=tile, settings=settings_of_unit(), more=more) as service:
        before = service.size()
        with service.connect(PATIENCE) as client:
            count = fill(client, kind)
        grown = (service.size("VmHWM") - before) / 1024
        status, told = service.end(PATIENCE)
    must_be((status, told), (0, b""), "the service's end")
    print("  %-22s tiles of %4d, %d workers: %3d results, %5.1f MiB" % (kind, tile, workers, count, grown), flush=True)
    return grown


def most(workers):
    """By how many MiB it may grow."""
    return MEBIBYTES + WORKER * workers


def main():
    if len(sys.argv) < 2:
        sys.exit(__doc__)
    program, crews = sys.argv[1], list(map(int, sys.argv[2:])) or [2, 4]
    begun, over = time.monotonic(), []
    if growth(program, "ranks, all at once", 256, 1, 2 * MEBIBYTES) <= most(1):
        sys.exit("session_memory.py: a session that takes twice as much was not noticed")
    for workers in crews:
        for kind in KINDS:
            for tile in SIDES:
                grown = growth(program, kind, tile, workers)
                if grown > most(workers):
                    over.append("%s over tiles of %d by %d workers: %.1f MiB" % (kind, tile, workers, grown))
    print("session_memory.py: %s; %.0f s" % ("; ".join(over) or "no session took more than it may", time.monotonic() - begun))
    return 1 if over else 0


if __name__ == "__main__":
    try:
        sys.exit(main())
    except (Wrong, NoAnswer) as fault:
        sys.exit("session_memory.py: %s" % fault)
