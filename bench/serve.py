#!/usr/bin/env python3
"""Times a `morphd serve` over loopback: connections a second, each with the first session of docs/PROTOCOL.md; pictures a second, of 96 x 96
samples that are loaded, eroded by a ball and fetched, from one connection and from several at once, beside one `morphd batch`
with the same; and a LOAD and a FETCH of 16 MiB, beside what `nc` takes for the same bytes.

    python3 bench/serve.py crates/morphd/out/morphd [ROUNDS]

Each line is the best of the rounds. The clients are processes of their own, which send all that they have while they read what
comes.
"""
import multiprocessing
import os
import pathlib
import random
import shutil
import socket
import subprocess
import sys
import threading
import time

sys.path.insert(0, str(pathlib.Path(__file__).resolve().parent.parent / "checks"))

from listen import SIDE, by_nc, read_into
from server import NoAnswer, Service

# How long anything may take, in seconds, and for how long connections are counted.
PATIENCE, SECONDS = 120, 2.0
PICTURES, WIDTH = 8000, 96
SESSION = b"LOAD f 19\nP2\n5 1\n9\n3 1 4 1 5\nELEMENT b 1 0 11\nP1\n3 1\n111\nRUN e ERODE f b\nFETCH e\nQUIT\n"
REPLY = b"OK 0\nOK 1\nOK 2\nIMAGE 2 14\nP5\n5 1\n9\n" + bytes([1]) * 5
BALL = b"P1\n5 5\n0111011111111111111101110\n"


def pictures(count):
    """A session of so many pictures, each released when it was fetched."""
    chance = random.Random(1)
    image = b"P5\n%d %d\n255\n" % (WIDTH, WIDTH) + chance.randbytes(WIDTH * WIDTH)
    parts = [b"ELEMENT b 2 2 %d\n" % len(BALL) + BALL]
    for k in range(count):
        parts.append(b"LOAD f%d %d\n" % (k, len(image)) + image)
        parts.append(b"RUN e%d ERODE f%d b\nFETCH e%d\nRELEASE f%d\nRELEASE e%d\n" % (k, k, k, k, k))
    return b"".join(parts + [b"QUIT\n"])


def spoken(wire, data):
    """Sends all of it, and gives how many bytes came until the end."""
    speaker = threading.Thread(target=wire.sendall, args=(data,))
    speaker.start()
    room, come = bytearray(1 << 20), 0
    while n := wire.recv_into(room):
        come += n
    speaker.join()
    return come


def connects(port, begin, counts):
    """One connection after the other, for SECONDS."""
    begin.wait(PATIENCE)
    count, end = 0, time.perf_counter() + SECONDS
    while time.perf_counter() < end:
        with socket.create_connection(("127.0.0.1", port), timeout=PATIENCE) as wire:
            wire.sendall(SESSION)
            come = b""
            while piece := wire.recv(4096):
                come += piece
        if come != REPLY:
            raise NoAnswer("%r came" % come)
        count += 1
    counts.put(count)


def sends(port, begin, counts, count):
    """So many pictures over one connection."""
    data = pictures(count)
    with socket.create_connection(("127.0.0.1", port), timeout=PATIENCE) as wire:
        begin.wait(PATIENCE)
        counts.put(spoken(wire, data))


def by_clients(clients, work, *more):
    """What so many clients of a service tell together, and how many seconds they took."""
    with Service(PROGRAM, max(16, clients)) as service:
        begin, counts = multiprocessing.Barrier(clients + 1), multiprocessing.Queue()
        runs = [multiprocessing.Process(target=work, args=(service.port, begin, counts, *more), daemon=True) for _ in range(clients)]
        for run in runs:
            run.start()
        begin.wait(PATIENCE)
        begun = time.perf_counter()
        total = sum(counts.get(timeout=PATIENCE) for _ in runs)
        took = time.perf_counter() - begun
        for run in runs:
            run.join(PATIENCE)
        status, told = service.end(PATIENCE)
    if (status, told) != (0, b""):
        sys.exit("bench/serve.py: the service ended with status %d, %r" % (status, told))
    return total, took


def by_batch(workers):
    """Seconds of all pictures by one batch of so many workers, through pipes, and how many bytes came."""
    data = pictures(PICTURES)
    run = subprocess.Popen([PROGRAM, "batch", "--workers", str(workers)], stdin=subprocess.PIPE, stdout=subprocess.PIPE)
    begun, come = time.perf_counter(), 0
    speaker = threading.Thread(target=lambda: (run.stdin.write(data), run.stdin.close()))
    speaker.start()
    while piece := run.stdout.read1(1 << 20):
        come += len(piece)
    took = time.perf_counter() - begun
    speaker.join()
    run.wait(PATIENCE)
    return took, come


def load_and_fetch(image):
    """Seconds of a LOAD and of a FETCH."""
    with Service(PROGRAM, 1) as service, service.connect() as client:
        request = b"LOAD f %d\n" % len(image) + image
        begun = time.perf_counter()
        client.ask(request)
        loaded = time.perf_counter()
        client.send(b"FETCH f\n")
        client.line()
        read_into(client, len(image))
        fetched = time.perf_counter()
        client.send(b"QUIT\n")
        client.rest()
    return loaded - begun, fetched - loaded


def tell_pictures(rounds):
    batches = {workers: min(by_batch(workers) for _ in range(rounds)) for workers in (1, 4)}
    for workers, (took, _) in batches.items():
        print("  a batch of %d worker%s %10.0f" % (workers, "s" if workers > 1 else " ", PICTURES / took), flush=True)
    alone = None
    for clients in (1, 4, 16):
        took = min(by_clients(clients, sends, PICTURES // clients)[1] for _ in range(rounds))
        alone = alone or took
        print("  %2d clients %16.0f, %.2f times one client's" % (clients, PICTURES / took, alone / took), flush=True)


def main():
    rounds = int(sys.argv[2]) if sys.argv[2:] else 3
    print("connections a second, each with the first session of docs/PROTOCOL.md:")
    for clients in (1, 4, 16):
        print("  %2d clients %10.0f" % (clients, max(by_clients(clients, connects)[0] for _ in range(rounds)) / SECONDS), flush=True)
    print("pictures a second, %d of %d x %d samples:" % (PICTURES, WIDTH, WIDTH), flush=True)
    tell_pictures(rounds)
    image = b"P5\n%d %d\n255\n" % (SIDE, SIDE) + random.Random(1).randbytes(SIDE * SIDE)
    times = [load_and_fetch(image) for _ in range(2 * rounds)]
    load, fetch = (1000 * min(each) for each in zip(*times))
    print("%d bytes over loopback: LOAD %.1f ms, FETCH %.1f ms" % (len(image), load, fetch), flush=True)
    if not shutil.which("nc"):
        print("nc is missing, so its time was not taken (Debian: apt install netcat-openbsd)")
        return
    os.chdir("/dev/shm")
    took = 1000 * min(by_nc(image) for _ in range(2 * rounds))
    for name in ("sent", "come"):
        os.unlink(name)
    print("nc: %.1f ms; LOAD takes %.2f times as long, FETCH %.2f times, and both %.2f times nc both ways"
          % (took, load / took, fetch / took, (load + fetch) / (2 * took)))


if __name__ == "__main__":
    PROGRAM = os.path.abspath(sys.argv[1])
    try:
        main()
    except NoAnswer as fault:
        sys.exit("bench/serve.py: %s" % fault)
