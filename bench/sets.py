#!/usr/bin/env python3
"""Times whole sessions of `morphd batch` on a set of 4096 x 4096 pixels by one worker: the set comes in as P4, one command runs,
and its result goes out.

    python3 bench/sets.py crates/morphd/out/morphd [--side 4096] [--rounds 5] [--tiles 128 256 1024]

Each time is the best of the rounds, which go over the commands and the sides of tiles in turn; behind it stands the greatest
resident size that the system counted. Beside them stands what the same takes by calls of Leptonica alone, without the reading
and writing (`bench/sets.c`; Debian's packages gcc and libleptonica-dev, left out where they are not), and each result is
compared with Leptonica's. Files lie in /dev/shm, that is in memory.

The system counts a program's size from that of this script on, which therefore never holds the picture.
"""
import argparse
import os
import random
import shutil
import subprocess
import tempfile
import time

HERE = os.path.dirname(os.path.abspath(__file__))
# By name: the command, the element, how many pixels it is across, and how many levels.
COMMANDS = {
    "opening by a disc of 15": (b"OPEN p b", "opening", "disc", 15, 0),
    "skeleton of 50 levels by 3 x 3": (b"SKELETON p b 50", "skeleton", "square", 3, 50),
    "spectrum of 16 sizes by 3 x 3": (b"SPECTRUM p b 16", "spectrum", "square", 3, 16),
    "spectrum of 16 sizes by a disc of 5": (b"SPECTRUM p b 16", "spectrum", "disc", 5, 16),
}


def element(shape, across):
    """The request that names an element b with its origin in the middle."""
    middle = across // 2
    places = range(-middle, middle + 1)
    holds = {"square": lambda x, y: True, "disc": lambda x, y: x * x + y * y <= middle * middle}[shape]
    rows = b"".join(b"".join(b"1" if holds(x, y) else b"0" for x in places) + b"\n" for y in places)
    bitmap = b"P1\n%d %d\n" % (across, across) + rows
    return b"ELEMENT b %d %d %d\n%s" % (middle, middle, len(bitmap), bitmap)


def write_set(side):
    """A set with holes of 8 x 64 pixels in one of 50 places."""
    chance = random.Random(1)
    with open("set", "wb") as file:
        file.write(b"P4\n%d %d\n" % (side, side))
        for y in range(side):
            if y % 64 == 0:
                row = bytes(0 if chance.random() < 0.02 else 255 for _ in range(side // 8))
            file.write(row)


def write_session(name):
    command, _, shape, across, _ = COMMANDS[name]
    with open("session", "wb") as file, open("set", "rb") as picture:
        file.write(b"LOAD p %d\n" % os.path.getsize("set"))
        shutil.copyfileobj(picture, file, 1 << 20)
        file.write(element(shape, across) + b"RUN r " + command + b"\nFETCH r\n")


def run(program, tile):
    """The milliseconds and the greatest resident size in MiB of a session."""
    words = [program, "batch", "--tile", str(tile), "--workers", "1"]
    with open("session", "rb") as asked, open("replies", "wb") as replies:
        begun = time.perf_counter()
        made = subprocess.Popen(words, stdin=asked, stdout=replies)
        _, status, usage = os.wait4(made.pid, 0)
        seconds = time.perf_counter() - begun
    if os.waitstatus_to_exitcode(status):
        raise SystemExit("%s ended with status %d" % (" ".join(words), os.waitstatus_to_exitcode(status)))
    return 1000 * seconds, usage.ru_maxrss / 1024


def bytes_of(file):
    with open(file, "rb") as made:
        return made.read()


def is_same(kind, side):
    """Whether the session's result is Leptonica's: its raster, or its lines of volumes."""
    replies, other = bytes_of("replies"), bytes_of("leptonica")
    if kind == "spectrum":
        return [line for line in replies.split(b"\n") if line.startswith(b"V ")] == other.strip().split(b"\n")
    size = side * side if kind == "skeleton" else side * (side // 8)
    return len(other) > size and replies[-size:] == other[-size:]


def compiled():
    """The program that calls Leptonica, where it can be compiled."""
    made = subprocess.run(["cc", "-O2", "-o", "peer", os.path.join(HERE, "sets.c"), "-llept"], capture_output=True)
    return os.path.abspath("peer") if made.returncode == 0 else None


def measure(name, program, given, peer):
    """A line of the table: by each side of tiles the best time and the greatest size, and Leptonica's time."""
    _, kind, shape, across, levels = COMMANDS[name]
    write_session(name)
    best = dict.fromkeys(given.tiles, (float("inf"), 0.0))
    for _ in range(given.rounds):
        for tile in given.tiles:
            taken, size = run(program, tile)
            best[tile] = (min(best[tile][0], taken), max(best[tile][1], size))
    beside, same = "", ""
    if peer:
        words = [peer, kind, str(across), shape, str(levels), str(given.rounds)]
        beside = subprocess.run(words, check=True, capture_output=True, text=True).stdout.strip()
        same = "same" if is_same(kind, given.side) else "DIFFERENT"
    cells = " | ".join("%.1f (%.0f MiB)" % best[tile] for tile in given.tiles)
    print("| %s | %s | %s | %s |" % (name, cells, beside, same), flush=True)
    return same != "DIFFERENT"


def main():
    words = argparse.ArgumentParser(description="sessions on sets beside Leptonica")
    words.add_argument("program")
    words.add_argument("--side", type=int, default=4096)
    words.add_argument("--rounds", type=int, default=5)
    words.add_argument("--tiles", type=int, nargs="+", default=[128, 256, 1024])
    words.add_argument("--only", default="")
    given = words.parse_args()
    program = os.path.abspath(given.program)
    with tempfile.TemporaryDirectory(dir="/dev/shm") as folder:
        os.chdir(folder)
        peer = compiled()
        write_set(given.side)
        print("| ms of a session | %s | Leptonica | result |" % " | ".join("tiles of %d" % tile for tile in given.tiles))
        print("|---|%s---:|---|" % ("---:|" * len(given.tiles)))
        agreed = [measure(name, program, given, peer) for name in COMMANDS if given.only in name]
    if not all(agreed):
        raise SystemExit("a session's result is not Leptonica's")


if __name__ == "__main__":
    main()
