#!/usr/bin/env python3
"""Times a `morphd listen` over loopback: round trips of STATUS a second from 1 and from 16 connections, each of which waits
for its answer before it asks again; and a LOAD and a FETCH of 16 MiB, beside what `nc` takes for the same bytes.

    python3 bench/listen.py crates/morphd/out/morphd [ROUNDS]

Each line is the best of the rounds. The clients of the round trips are processes of their own; what a Python client can do
at most is told by round trips with a server that only sends back what it reads.
"""
import multiprocessing
import os
import pathlib
import random
import shutil
import socket
import subprocess
import sys
import threading
import time

sys.path.insert(0, str(pathlib.Path(__file__).resolve().parent.parent / "checks"))

from server import NoAnswer, Server, free_port

SIDE = 4096
SECONDS = 2.0
STATUS, DONE = b"STATUS f\n", b"DONE 0 GREY 5 1 9\n"
# How long anything may take, in seconds.
PATIENCE = 60


def round_trips(port, awaited, begin, counts):
    """Asks over one connection for SECONDS, and tells how often it was answered."""
    with socket.create_connection(("127.0.0.1", port), timeout=PATIENCE) as wire:
        wire.setsockopt(socket.IPPROTO_TCP, socket.TCP_NODELAY, 1)
        begin.wait(PATIENCE)
        count, end = 0, time.perf_counter() + SECONDS
        while time.perf_counter() < end:
            wire.sendall(STATUS)
            left = awaited
            while left > 0:
                come = len(wire.recv(left))
                if come == 0:
                    raise NoAnswer("the end came in the place of an answer")
                left -= come
            count += 1
        wire.shutdown(socket.SHUT_WR)
        counts.put(count)


def asked_by(connections, port, awaited):
    """Round trips a second, of so many clients together."""
    begin, counts = multiprocessing.Barrier(connections), multiprocessing.Queue()
    clients = [multiprocessing.Process(target=round_trips, args=(port, awaited, begin, counts), daemon=True)
               for _ in range(connections)]
    for client in clients:
        client.start()
    total = sum(counts.get(timeout=PATIENCE) for _ in clients)
    for client in clients:
        client.join(PATIENCE)
    return total / SECONDS


def echo(door, connections):
    """Sends back so many bytes as the server's answer has."""
    def answer(wire):
        with wire:
            while wire.recv(len(STATUS)):
                wire.sendall(DONE)
    answers = []
    for _ in range(connections):
        wire, _ = door.accept()
        wire.setsockopt(socket.IPPROTO_TCP, socket.TCP_NODELAY, 1)
        answers.append(threading.Thread(target=answer, args=(wire,)))
        answers[-1].start()
    for it in answers:
        it.join()


def status_of(program, connections):
    with Server(program, connections + 1) as server:
        with server.connect() as client:
            client.ask(b"LOAD f 19\nP2\n5 1\n9\n3 1 4 1 5\n")
            rate = asked_by(connections, server.port, len(DONE))
            client.send(b"QUIT\n")
            client.rest()
        ended_well(server)
    return rate


def status_of_echo(connections):
    """How many requests a second a server in Python answers that only answers."""
    with socket.create_server(("127.0.0.1", free_port())) as door:
        server = multiprocessing.Process(target=echo, args=(door, connections), daemon=True)
        server.start()
        rate = asked_by(connections, door.getsockname()[1], len(DONE))
        server.join(PATIENCE)
    return rate


def ended_well(server):
    status, told = server.end(PATIENCE)
    if status != 0:
        sys.exit("bench/listen.py: the server ended with status %d, %r" % (status, told))


def load_and_fetch(program, image):
    """Seconds of a LOAD and of a FETCH."""
    with Server(program, 1) as server, server.connect() as client:
        request = b"LOAD f %d\n" % len(image) + image
        begun = time.perf_counter()
        client.ask(request)
        loaded = time.perf_counter()
        client.send(b"FETCH f\n")
        client.line()
        read_into(client, len(image))
        fetched = time.perf_counter()
        client.send(b"QUIT\n")
        client.rest()
        ended_well(server)
    return loaded - begun, fetched - loaded


def read_into(client, count):
    """Reads so many bytes, without a second copy of them."""
    room = memoryview(bytearray(count))
    at = len(client.held)
    room[:at] = client.taken(at)
    while at < count:
        n = client.wire.recv_into(room[at:])
        if n == 0:
            raise NoAnswer("the end came behind %d of %d bytes" % (at, count))
        at += n


def by_nc(image):
    """Seconds until an `nc` that listens has read the bytes of another one and has ended."""
    port = free_port()
    with open("sent", "wb") as file:
        file.write(image)
    with open("sent", "rb") as sent, open("come", "wb") as come:
        listens = subprocess.Popen(["nc", "-l", "-N", "127.0.0.1", str(port)], stdin=subprocess.DEVNULL, stdout=come)
        time.sleep(0.3)
        begun = time.perf_counter()
        subprocess.run(["nc", "-N", "127.0.0.1", str(port)], stdin=sent, stdout=subprocess.DEVNULL, check=True, timeout=PATIENCE)
        listens.wait(PATIENCE)
        took = time.perf_counter() - begun
    if os.path.getsize("come") != len(image):
        sys.exit("bench/listen.py: nc brought %d of %d bytes" % (os.path.getsize("come"), len(image)))
    return took


def main():
    program = os.path.abspath(sys.argv[1])
    rounds = int(sys.argv[2]) if sys.argv[2:] else 3
    print("round trips of STATUS a second, and of as many bytes with a server in Python that only answers:")
    for connections in (1, 16):
        rate = max(status_of(program, connections) for _ in range(rounds))
        print("  %2d connections %10.0f %10.0f" % (connections, rate, status_of_echo(connections)), flush=True)
    image = b"P5\n%d %d\n255\n" % (SIDE, SIDE) + random.Random(1).randbytes(SIDE * SIDE)
    times = [load_and_fetch(program, image) for _ in range(2 * rounds)]
    load, fetch = (1000 * min(each) for each in zip(*times))
    print("%d bytes over loopback: LOAD %.1f ms, FETCH %.1f ms" % (len(image), load, fetch), flush=True)
    if not shutil.which("nc"):
        print("nc is missing, so its time was not taken (Debian: apt install netcat-openbsd)")
        return
    os.chdir("/dev/shm")
    took = 1000 * min(by_nc(image) for _ in range(2 * rounds))
    for name in ("sent", "come"):
        os.unlink(name)
    print("nc: %.1f ms; LOAD takes %.2f times as long, FETCH %.2f times, and both %.2f times nc both ways"
          % (took, load / took, fetch / took, (load + fetch) / (2 * took)))


if __name__ == "__main__":
    try:
        main()
    except NoAnswer as fault:
        sys.exit("bench/listen.py: %s" % fault)
