#!/usr/bin/env python3
"""One good client of a `morphd serve` after the other, in a process of its own, so that nothing but the service keeps them waiting.

    python3 -B checks/good_client.py PORT

Each makes a connection, has a row eroded, and says QUIT; what comes has to be what the definitions say. Once standard input ends, one line
is written: how many there were, and how many milliseconds pass from the first word to the last reply, of half of them at most, of
99 in 100 at most, and of all at most.
"""
import select
import socket
import sys
import time

from peers import ERODE, ERODED

SENT, WANTED = ERODE + b"QUIT\n", b"OK 0\nOK 1\nOK 2\nIMAGE 2 14\n" + ERODED
# How long one waits at most, and between two of them, in seconds.
PATIENCE, PAUSE = 300, 0.02


def heard(port):
    """What one client hears."""
    with socket.create_connection(("127.0.0.1", port), timeout=PATIENCE) as wire:
        wire.setsockopt(socket.IPPROTO_TCP, socket.TCP_NODELAY, 1)
        wire.sendall(SENT)
        parts = []
        while part := wire.recv(4096):
            parts.append(part)
    return b"".join(parts)


def least_above(sorted_times, part):
    """A time that so many of a hundred do not exceed."""
    return sorted_times[min(len(sorted_times) - 1, len(sorted_times) * part // 100)]


def main():
    port, times = int(sys.argv[1]), []
    while not times or not select.select([sys.stdin], [], [], PAUSE)[0]:
        begun = time.monotonic()
        come = heard(port)
        times.append(1000 * (time.monotonic() - begun))
        if come != WANTED:
            sys.exit("good_client.py: %r came, and %r has to" % (come[:200], WANTED))
    times.sort()
    print("%d %.2f %.2f %.2f" % (len(times), least_above(times, 50), least_above(times, 99), times[-1]))


if __name__ == "__main__":
    main()
