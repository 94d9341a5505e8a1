#!/usr/bin/env python3
"""What a `morphd serve` keeps when its clients have left, and what is left of its addresses for those who come then.

    python3 checks/kept_memory.py crates/morphd/out/morphd

With the settings of the unit for systemd, and over tiles of each of SIDES, CLIENTS clients at once each open a picture of 2048 x 2048
samples eight times and fetch one of the results, which has to be the opening. Behind them come SMALL small sessions, one after the
other. When all have left, the service may be larger by SLACK than it was before they came.

Then clients come one after the other and each have so many results of 4 MiB made, more than fit or nearly so, under the unit's bound
on addresses and under `ulimit -v 1000000`. Each has to get as many as the first one.

It begins with a service that is told to keep what it frees, to show that it would notice. Whatever waits has a time limit.
"""
import os
import random
import re
import sys
import threading
import time

from server import NoAnswer, Service

# How long a client waits for its last reply, and the service for its end, in seconds.
PATIENCE = 300
# How many sessions the unit has.
SESSIONS_OF_UNIT = 16
CLIENTS, SIDE, OPENINGS, SIDES = SESSIONS_OF_UNIT, 2048, 8, (64, 128, 256, 512, 1024)
SMALL = 100
# By how many bytes a service may grow.
SLACK = 10 << 20
# Of clients one after the other: how many come, and by how many results one may have fewer than the first.
TURNS, FEWER = 6, 2
UNIT = f"{os.path.dirname(os.path.dirname(os.path.realpath(__file__)))}/examples/morphd.service"
SQUARE = b"P1\n5 5\n" + b"1" * 25 + b"\n"
# Keeps all that is freed.
KEEPS = [("MALLOC_MMAP_MAX_", "0"), ("MALLOC_TRIM_THRESHOLD_", "17179869184")]
ERODE = b"LOAD f 19\nP2\n5 1\n9\n3 1 4 1 5\nELEMENT b 1 0 11\nP1\n3 1\n111\nRUN e ERODE f b\nFETCH e\nQUIT\n"
ERODED = b"OK 0\nOK 1\nOK 2\nIMAGE 2 14\nP5\n5 1\n9\n\x01\x01\x01\x01\x01"


class Wrong(Exception):
    """The service kept more than it may, or answered otherwise."""


def unit_rows(word):
    """What stands behind this word in the unit."""
    with open(UNIT, encoding="utf-8") as unit:
        return [line.strip()[len(word) + 1:] for line in unit if line.startswith(word + "=")]


def settings_of_unit():
    """The environment that the unit gives the service."""
    return [it.split("=", 1) for row in unit_rows("Environment") for it in row.split()]


def settings_for(sessions):
    """The same for so many sessions: as many pools of the C library for each."""
    given = dict(settings_of_unit())
    given["MALLOC_ARENA_MAX"] = str(int(given["MALLOC_ARENA_MAX"]) * sessions // SESSIONS_OF_UNIT)
    return list(given.items())


def addresses_of_unit():
    """The unit's bound on addresses, in bytes."""
    (bound,) = unit_rows("LimitAS")
    return int(re.fullmatch("([0-9]+)G", bound).group(1)) << 30


def picture_of(row):
    """A square picture of which each row is this one."""
    return b"P5\n%d %d\n255\n" % (len(row), len(row)) + bytes(row) * len(row)


def opened(row):
    """The opening of a row by five samples."""
    windows = [slice(max(0, x - 2), x + 3) for x in range(len(row))]
    eroded = [min(row[it]) for it in windows]
    return [max(eroded[it]) for it in windows]


def commands(row, operation, count):
    """A session up to the STATUS of so many results of a picture, and the names of the results."""
    picture, names = picture_of(row), ["o%d" % k for k in range(count)]
    sent = b"LOAD f %d\n" % len(picture) + picture + b"ELEMENT b 2 2 %d\n" % len(SQUARE) + SQUARE
    sent += "".join("RUN %s %s f b\n" % (name, operation) for name in names).encode()
    return sent + "".join("STATUS %s\n" % name for name in names).encode()


def large_session(row):
    """What a client with a large picture sends, and what it is to hear."""
    opening = picture_of(opened(row))
    replies = "".join("OK %d\n" % k for k in range(2 + OPENINGS))
    replies += "".join("DONE %d GREY %d %d 255\n" % (2 + k, len(row), len(row)) for k in range(OPENINGS))
    return commands(row, "OPEN", OPENINGS) + b"FETCH o0\nQUIT\n", replies.encode() + b"IMAGE 2 %d\n" % len(opening) + opening


def says(client, sent):
    """Sends, to a client that may be closed meanwhile."""
    try:
        client.send(sent)
    except NoAnswer:
        pass


def speaks(service, sent, come):
    """One client, which sends while it listens."""
    with service.connect(PATIENCE) as client:
        speaker = threading.Thread(target=says, args=(client, sent), daemon=True)
        speaker.start()
        come.append(client.rest())
        speaker.join(PATIENCE)


def all_at_once(service, sent):
    """What so many clients heard, who came at once."""
    come = []
    clients = [threading.Thread(target=speaks, args=(service, sent, come), daemon=True) for _ in range(CLIENTS)]
    for client in clients:
        client.start()
    for client in clients:
        client.join(PATIENCE)
    return come


def ends(service):
    status, told = service.end(PATIENCE)
    if (status, told) != (0, b""):
        raise Wrong("the service ended with status %d and told %r" % (status, told))


def kept(program, tile, settings, row):
    """By how many bytes the service is larger behind large pictures, and behind small ones after them."""
    sent, wanted = large_session(row)
    with Service(program, CLIENTS, tile=tile, settings=settings) as service:
        start = service.size()
        come = all_at_once(service, sent)
        service.is_at_rest()
        behind, greatest = service.size(), service.size("VmHWM")
        for _ in range(SMALL):
            heard = []
            speaks(service, ERODE, heard)
            if heard != [ERODED]:
                raise Wrong("a small session heard %r" % heard)
        service.is_at_rest()
        last = service.size()
        ends(service)
    if come != [wanted] * CLIENTS:
        raise Wrong("%d of %d clients with large pictures heard what they are to hear" % (come.count(wanted), CLIENTS))
    print("  tiles of %d: before %d kB, at most %d, behind %d clients %d, behind %d small sessions %d"
          % (tile, start, greatest, CLIENTS, behind, SMALL, last), flush=True)
    return 1024 * (behind - start), 1024 * (last - start)


def results_by_turns(program, settings, addresses, count, row):
    """How many of so many results each client gets, one client after the other."""
    sent, done = commands(row, "ERODE", count) + b"QUIT\n", []
    with Service(program, CLIENTS, settings=settings, addresses=addresses) as service:
        for _ in range(TURNS):
            come = []
            speaks(service, sent, come)
            done.append(sum(line.startswith(b"DONE ") for line in come[0].split(b"\n")))
            service.is_at_rest()
        ends(service)
    print("  %d kB of addresses, %d results of 4 MiB wanted by each: %s got" % (addresses >> 10, count, done), flush=True)
    return done


def main():
    program, begun = os.path.abspath(sys.argv[1]), time.monotonic()
    row = random.Random("a large picture").choices(range(256), k=SIDE)
    faults = []
    if max(kept(program, 128, KEEPS, row)) <= SLACK:
        sys.exit("kept_memory.py: a service that keeps what it frees was not noticed")
    for tile in SIDES:
        if max(kept(program, tile, settings_of_unit(), row)) > SLACK:
            faults.append("more than %d bytes are kept over tiles of %d" % (SLACK, tile))
    for addresses, count in ((addresses_of_unit(), 400), (1000000 << 10, 190)):
        done = results_by_turns(program, settings_of_unit(), addresses, count, row)
        if min(done) < done[0] - FEWER or not done[0]:
            faults.append("under %d bytes of addresses later clients get less" % addresses)
    print("kept_memory.py: %s; %.0f s" % ("; ".join(faults) or "a service gives back what its clients took", time.monotonic() - begun))
    sys.exit(bool(faults))


if __name__ == "__main__":
    try:
        main()
    except (Wrong, NoAnswer) as fault:
        print("kept_memory.py: %s" % fault, flush=True)
        # Clients that wait still are not waited for.
        os._exit(1)
