#!/usr/bin/env python3
"""Times parts of what sessions do: files that are read and written, the core's calls, and a board with its audit.

    python3 -B bench/parts.py crates/morphd/out/morphd [files] [calls] [board] [--rounds 3]

Each figure is the least of the rounds, which go over the sessions in turn. Of files and calls it is the processor's time that a
session of `morphd batch` by one worker takes beyond a shorter one, over as many calls as the longer one has more, so neither the start of
the program counts nor what both do. The bytes come from /dev/shm, that is from memory, and what is written goes to /dev/null.

- `files`: LOAD and FETCH of pictures of 4096 x 4096 samples without a pattern, beside a copy of the file's bytes and one of the samples
  as they lie in memory.
- `calls`: calls on tables of so many entries, of pictures of one pixel: so the times are those of what is looked up and kept.
- `board`: commands through `morphd listen` by 1, 2 and 4 workers, from the first RUN to the last reply; and the audit of 64 passes over
  a log of 1,000,000 items, which is what the server takes from its last client's end to its own.

Kernels are timed by bench/library.py, as calls of the library on whole pictures, and by bench/workers.py, tile by tile in sessions.
A refusal ends it. It asks a program nothing but sessions, so it also times those of older commits.
"""
import argparse
import os
import pathlib
import random
import subprocess
import sys
import tempfile
import time

sys.path.insert(0, str(pathlib.Path(__file__).resolve().parent.parent / "checks"))

from server import Server

SIDE, TIMES = 4096, 4
COUNT = SIDE * SIDE
TABLES = (4096, 32768)
PASSES, ITEMS = 64, 1_000_000
PIXEL, BAR = b"P4\n1 1\n\x80", b"ELEMENT b 0 0 9\nP1\n1 1\n1\n"


def processor_time(program, session):
    """The processor's seconds of a session."""
    with open(session, "rb") as asked:
        made = subprocess.Popen([program, "batch", "--strict", "--workers", "1"], stdin=asked, stdout=subprocess.DEVNULL)
        _, status, usage = os.wait4(made.pid, 0)
    made.returncode = os.waitstatus_to_exitcode(status)
    if made.returncode:
        sys.exit(f"{program} batch ended with status {made.returncode}")
    return usage.ru_utime + usage.ru_stime


def least_times(program, sessions, rounds):
    """The least time of each of these sessions, by its name."""
    for name, parts in sessions.items():
        with open(name, "wb") as file:
            file.writelines(parts)
    best = dict.fromkeys(sessions, float("inf"))
    for _ in range(rounds):
        for name in best:
            best[name] = min(best[name], processor_time(program, name))
    for name in sessions:
        os.remove(name)
    return best


# ---- files


def lines_of(words, each, gap):
    """Plain samples, so many a line."""
    return b"".join(gap.join(words[at:at + each]) + b"\n" for at in range(0, len(words), each))


def pictures():
    """Of each kind of file its name, its bytes, and how many bytes its samples take in memory."""
    noise = random.Random(1).randbytes(2 * COUNT)
    octets, wide = noise[:COUNT], memoryview(noise).cast("H")
    yield "raw 8 bits", b"P5\n%d %d\n255\n" % (SIDE, SIDE) + octets, COUNT
    yield "raw 16 bits", b"P5\n%d %d\n65535\n" % (SIDE, SIDE) + noise, 2 * COUNT
    yield "packed bits", b"P4\n%d %d\n" % (SIDE, SIDE) + noise[:COUNT // 8], COUNT // 8
    bits = octets.translate(bytes(48 + it % 2 for it in range(256)))
    yield "plain bits", b"P1\n%d %d\n" % (SIDE, SIDE) + b"\n".join(bits[at:at + 64] for at in range(0, COUNT, 64)) + b"\n", COUNT // 8
    table = [b"%d" % it for it in range(65536)]
    yield "plain 8 bits", b"P2\n%d %d\n255\n" % (SIDE, SIDE) + lines_of([table[it] for it in octets], 16, b" "), COUNT
    yield "plain 16 bits", b"P2\n%d %d\n65535\n" % (SIDE, SIDE) + lines_of([table[it] for it in wide], 16, b" "), 2 * COUNT


def load(name, text):
    return [b"LOAD %s %d\n" % (name, len(text)), text]


def copy_time(size, rounds):
    """The processor's seconds of a copy of so many bytes, into memory that was taken before."""
    given, taken = memoryview(bytearray(size)), memoryview(bytearray(b"\1") * size)
    best = float("inf")
    for _ in range(rounds + 1):
        begun = time.process_time()
        taken[:] = given
        best = min(best, time.process_time() - begun)
    return best


def time_files(program, rounds):
    print(f"| {SIDE} x {SIDE} | LOAD, ms | times a copy of the file | of the samples | ns a sample | FETCH, ms |\n|---|---:|---:|---:|---:|---:|")
    for name, text, size in pictures():
        once = load(b"f", text)
        again = [it for number in range(TIMES) for it in (*load(b"f%d" % number, text), b"RELEASE f%d\n" % number)]
        took = least_times(program, {"once": once, "loads": once + again, "fetches": once + [b"FETCH f\n"] * TIMES}, rounds)
        read, written = ((took[it] - took["once"]) / TIMES for it in ("loads", "fetches"))
        copies = [read / copy_time(it, rounds) for it in (len(text), size)]
        print(f"| {name} | {1000 * read:.1f} | {copies[0]:.1f} | {copies[1]:.1f} | {1e9 * read / COUNT:.2f} | {1000 * written:.1f} |", flush=True)


# ---- calls


def rows_of(word, numbers):
    """A line for each number."""
    return [word % ((it,) * word.count(b"%d")) for it in numbers]


def sessions_of(size):
    """Of tables of so many pictures: the sessions, and of each row its name, its two sessions and how many calls they differ by."""
    every = range(size - 1)
    pixels = [it for number in range(size) for it in load(b"f%d" % number, PIXEL)]
    runs = rows_of(b"RUN e%d ERODE f%d b\n", every)
    chain = [b"RUN e0 ERODE f0 b\n", *(b"RUN e%d ERODE e%d b\n" % (it, it - 1) for it in range(1, size))]
    filled = [BAR, *pixels, *runs]
    sessions = {
        "nothing": [b"QUIT\n"], "loaded": [BAR, *pixels], "filled": filled, "chained": [BAR, *pixels, *chain],
        "released": [BAR, *pixels, *rows_of(b"RELEASE f%d\n", every)], "cancelled": filled + rows_of(b"CANCEL e%d\n", every),
        "wanted": filled + rows_of(b"RELEASE f%d\n", every), "failed": [BAR, *pixels, *chain, b"CANCEL e0\n"],
        "asked": filled + rows_of(b"STATUS e%d\n", every), "worked": filled + rows_of(b"WAIT e%d\n", every),
    }
    rows = (("LOAD of a picture of one pixel", "nothing", "loaded", size), ("RUN", "loaded", "filled", size - 1),
            ("STATUS", "filled", "asked", size - 1), ("CANCEL, nothing waits for it", "filled", "cancelled", size - 1),
            ("CANCEL of the first of a chain, for each that fails with it", "chained", "failed", size - 1),
            ("RELEASE, a command waits for it", "filled", "wanted", size - 1), ("RELEASE, its value is dropped", "loaded", "released", size - 1),
            ("WAIT with the erosion of a pixel", "filled", "worked", size - 1))
    return sessions, rows


def time_calls(program, rounds):
    table = {}
    for size in TABLES:
        sessions, rows = sessions_of(size)
        took = least_times(program, sessions, rounds)
        for name, less, more, count in rows:
            table.setdefault(name, []).append(1e6 * (took[more] - took[less]) / count)
    print(f"| µs each | {' | '.join(f'{2 * it:,} entries' for it in TABLES)} |\n|---|---:|---:|")
    for name, figures in table.items():
        print(f"| {name} | {' | '.join(f'{it:.2f}' for it in figures)} |", flush=True)


# ---- a board


def square_of(across, holds=lambda x, y: True):
    middle = across // 2
    rows = (b"".join(b"1" if holds(x - middle, y - middle) else b"0" for x in range(across)) + b"\n" for y in range(across))
    bitmap = b"P1\n%d %d\n%s" % (across, across, b"".join(rows))
    return b"ELEMENT b %d %d %d\n%s" % (middle, middle, len(bitmap), bitmap)


def jobs():
    """Of each job its name, its picture, its element and its commands."""
    grey = b"P5\n%d %d\n255\n" % (SIDE, SIDE) + random.Random(1).randbytes(COUNT)
    inside = (b"\xff" * 7 + b"\0") * (SIDE // 64)
    squares = b"P4\n%d %d\n" % (SIDE, SIDE) + (inside * 56 + bytes(len(inside)) * 8) * (SIDE // 64)
    yield "four erosions by 15 x 15", grey, square_of(15), [b"ERODE f b"] * 4
    yield "opening by a disc of 15", grey, square_of(15, lambda x, y: x * x + y * y <= 49), [b"OPEN f b"]
    yield "skeleton of 16 levels", squares, square_of(3), [b"SKELETON f b 16"]


def job_time(program, picture, element, commands, tile, workers):
    """The seconds from the first RUN to the reply to the last WAIT."""
    with Server(program, 1, workers, tile) as server, server.connect() as client:
        for request in (b"".join(load(b"f", picture)), element):
            client.ask(request)
        begun = time.perf_counter()
        for number, command in enumerate(commands):
            client.ask(b"RUN e%d %s\n" % (number, command))
        for number in range(len(commands)):
            client.ask(b"WAIT e%d\n" % number)
        took = time.perf_counter() - begun
        client.send(b"QUIT\n")
        client.rest()
        server.end()
    return took


def audit_time(program):
    """The seconds from the last client's end to that of the server, which then audits all passes."""
    each = ITEMS // PASSES
    with Server(program, PASSES) as server:
        clients = [server.connect() for _ in range(PASSES)]
        for client in clients[:-1]:
            client.send(b"STATUS f\n" * each + b"QUIT\n")
            client.rest()
        clients[-1].send(b"STATUS f\n" * each + b"QUIT\n")
        clients[-1].rest()
        begun = time.perf_counter()
        status, told = server.end()
        took = time.perf_counter() - begun
    if status:
        sys.exit(f"the server ended with status {status}: {told}")
    return took


def time_board(program, rounds):
    print("| through a board | tiles | 1 worker, ms | 2 workers | 4 workers |\n|---|---:|---:|---:|---:|")
    for name, *job in jobs():
        for tile in (128, 256, 512):
            took = dict.fromkeys((1, 2, 4), float("inf"))
            for _ in range(rounds):
                for workers in took:
                    took[workers] = min(took[workers], job_time(program, *job, tile, workers))
            print(f"| {name} | {tile} | {' | '.join(f'{1000 * it:.0f}' for it in took.values())} |", flush=True)
    print(f"the audit of {PASSES} passes over {ITEMS:,} items: {1000 * min(audit_time(program) for _ in range(rounds)):.0f} ms")


PARTS = {"files": time_files, "calls": time_calls, "board": time_board}


def main():
    words = argparse.ArgumentParser(description="times of files, of the core's calls and of a board")
    words.add_argument("program")
    words.add_argument("parts", nargs="*", help="files, calls, board; all of them if none is named")
    words.add_argument("--rounds", type=int, default=3)
    given = words.parse_args()
    if given.rounds < 1 or set(given.parts) - set(PARTS):
        words.error("there has to be a round, and the parts are files, calls and board")
    program = os.path.abspath(given.program)
    with tempfile.TemporaryDirectory(dir="/dev/shm") as folder:
        os.chdir(folder)
        for part in given.parts or PARTS:
            PARTS[part](program, given.rounds)
        os.chdir("/")


if __name__ == "__main__":
    main()
