#!/usr/bin/env python3
"""Times `morphd batch` by 1, 2 and 4 workers: each session loads a picture of 4096 x 4096, runs one command on it and
fetches the result, at tiles of 128, 256 and 1024.

    python3 bench/workers.py crates/morphd/out/morphd [--side 4096] [--rounds 3] [--only rank]

Each line has the work alone and the whole session. The work is run when a WAIT asks for it, and the replies to all that
came before go out first: so a client on pipes sends what comes before, reads its replies, sends the WAIT and takes the
time until that is answered. The session's time is that of another run, from a file to a file. Both are in ms by one
worker, and by 2 and 4 workers as a share of that: 0.50 is twice as fast.

Each figure is the best of the rounds, which go over the workers in turn. The greatest resident size is the one that the
system counted for any of the sessions. It counts a program's from that of this script on, which therefore never holds the
picture. Files lie in /dev/shm, that is in memory. OpenCV's times by 1 and 4 threads stand under each command where some
Python has cv2 (`bench/opencv_threads.py`). At the end stands whether each command wrote the same at every side of tiles by
every number of workers.
"""
import argparse
import hashlib
import os
import random
import shutil
import subprocess
import sys
import tempfile
import time

TILES, WORKERS = (128, 256, 1024), (1, 2, 4)
LEVELS = 50
COMMANDS = {
    "erosion by 15 x 15": ("grey", "square", b"ERODE p b"),
    "opening by a disc of 15": ("grey", "disc", b"OPEN p b"),
    "closing by a disc of 255": ("grey", "wide", b"CLOSE p b"),
    "rank of 15 x 15, the median": ("grey", "square", b"RANK p b 113"),
    "the same of 16 bits": ("deep", "square", b"RANK p b 113"),
    "skeleton of %d levels" % LEVELS: ("set", "small", b"SKELETON p b %d" % LEVELS),
}
HERE = os.path.dirname(os.path.abspath(__file__))


def element(across, holds):
    """The request that names an element b: the places (x, y) from its middle that hold."""
    middle = across // 2
    places = range(-middle, middle + 1)
    rows = b"".join(b"".join(b"1" if holds(x, y) else b"0" for x in places) + b"\n" for y in places)
    bitmap = b"P1\n%d %d\n" % (across, across) + rows
    return b"ELEMENT b %d %d %d\n%s" % (middle, middle, len(bitmap), bitmap)


ELEMENTS = {
    "square": element(15, lambda x, y: True),
    "disc": element(15, lambda x, y: x * x + y * y <= 49),
    "wide": element(255, lambda x, y: x * x + y * y <= 127 * 127),
    "small": element(3, lambda x, y: True),
}


def row_size(kind, side):
    """The bytes of a row: of a picture of one byte a sample or of two, or of a set."""
    return {"grey": side, "deep": 2 * side, "set": side // 8}[kind]


def head_of(kind, side):
    if kind == "set":
        return b"P4\n%d %d\n" % (side, side)
    return b"P5\n%d %d\n%d\n" % (side, side, 255 if kind == "grey" else 65535)


def rows_of(kind, side):
    """The rows of a picture of random levels, or of a set with holes of 8 x 64 pixels in one of 50 places."""
    chance = random.Random(1)
    for y in range(side):
        if kind != "set":
            yield chance.randbytes(row_size(kind, side))
        else:
            if y % 64 == 0:
                row = bytes(0 if chance.random() < 0.02 else 255 for _ in range(side // 8))
            yield row


def write_session(kind, side, shape, command):
    """The file `asked` has all up to the RUN, and `session` the FETCH besides. `picture` has the image alone."""
    head = head_of(kind, side)
    size = len(head) + side * row_size(kind, side)
    with open("picture", "wb") as file:
        file.write(head)
        file.writelines(rows_of(kind, side))
    with open("asked", "wb") as file, open("picture", "rb") as picture:
        file.write(b"LOAD p %d\n" % size)
        shutil.copyfileobj(picture, file, 1 << 20)
        file.write(ELEMENTS[shape] + b"RUN r " + command + b"\n")
    shutil.copyfile("asked", "session")
    with open("session", "ab") as file:
        file.write(b"FETCH r\n")


def words_of(program, tile, workers):
    return [program, "batch", "--tile", str(tile), "--workers", str(workers)]


def run(words):
    """The seconds and the greatest resident size in MiB of a session from a file to a file, and a sum of what it wrote."""
    with open("session", "rb") as asked, open("replies", "wb") as replies:
        begun = time.perf_counter()
        made = subprocess.Popen(words, stdin=asked, stdout=replies)
        _, status, usage = os.wait4(made.pid, 0)
        seconds = time.perf_counter() - begun
    made.returncode = os.waitstatus_to_exitcode(status)
    if made.returncode:
        raise SystemExit("%s ended with status %d" % (" ".join(words), made.returncode))
    return seconds, usage.ru_maxrss / 1024, sum_of("replies")


def sum_of(name):
    made = hashlib.sha256()
    with open(name, "rb") as file:
        while piece := file.read(1 << 20):
            made.update(piece)
    return made.hexdigest()


def work_of(words):
    """The seconds from a WAIT to its reply, when all that was asked before has been answered."""
    with subprocess.Popen(words, stdin=subprocess.PIPE, stdout=subprocess.PIPE) as made:
        with open("asked", "rb") as asked:
            shutil.copyfileobj(asked, made.stdin, 1 << 20)
        made.stdin.flush()
        for ticket in range(3):
            expect(words, made.stdout.readline(), b"OK %d\n" % ticket)
        begun = time.perf_counter()
        made.stdin.write(b"WAIT r\n")
        made.stdin.flush()
        reply = made.stdout.readline()
        seconds = time.perf_counter() - begun
        made.stdin.close()
        expect(words, reply[:7], b"DONE 2 ")
    expect(words, made.returncode, 0)
    return seconds


def expect(words, came, wanted):
    if came != wanted:
        raise SystemExit("%s: %r in place of %r" % (" ".join(words), came, wanted))


class Figures:
    """The best times of the work and of the session and the greatest size by workers, and the sums of what was written."""

    def __init__(self):
        self.work = dict.fromkeys(WORKERS, float("inf"))
        self.session = dict.fromkeys(WORKERS, float("inf"))
        self.size = dict.fromkeys(WORKERS, 0.0)
        self.sums = set()

    def add(self, program, tile, workers):
        words = words_of(program, tile, workers)
        seconds, size, written = run(words)
        self.work[workers] = min(self.work[workers], work_of(words))
        self.session[workers] = min(self.session[workers], seconds)
        self.size[workers] = max(self.size[workers], size)
        self.sums.add(written)

    def row(self, name, tile):
        cells = [name, "%d" % tile]
        for times in self.work, self.session:
            cells.append("%.1f" % (times[1] * 1000))
            cells += ["%.2f" % (times[workers] / times[1]) for workers in WORKERS[1:]]
        cells.append(", ".join("%.0f" % self.size[workers] for workers in WORKERS))
        return "| " + " | ".join(cells) + " |"


def measured(program, tile, rounds):
    figures = Figures()
    for _ in range(rounds):
        for workers in WORKERS:
            figures.add(program, tile, workers)
    return figures


def show_opencv(name):
    """OpenCV's times of a command on the very same picture, from a program of its own, since it holds the picture."""
    for python in dict.fromkeys((sys.executable, "/usr/bin/python3")):
        made = subprocess.run([python, os.path.join(HERE, "opencv_threads.py"), "picture", name],
                              stdout=subprocess.PIPE, stderr=subprocess.DEVNULL, text=True, check=False)
        if made.returncode == 0:
            print(made.stdout, end="", flush=True)
            return


def read_words():
    words = argparse.ArgumentParser(description="times of the work and of sessions by 1, 2 and 4 workers")
    words.add_argument("program")
    words.add_argument("--side", type=int, default=4096, help="of the picture, a multiple of 8")
    words.add_argument("--rounds", type=int, default=3)
    words.add_argument("--only", default="", help="commands whose name begins so")
    given = words.parse_args()
    if given.side < 8 or given.side % 8:
        words.error("the side has to be a multiple of 8")
    if given.rounds < 1:
        words.error("there has to be a round")
    return given


def main():
    given = read_words()
    program, others = os.path.abspath(given.program), []
    with tempfile.TemporaryDirectory(dir="/dev/shm") as folder:
        os.chdir(folder)
        print("| a picture of %d x %d | tiles | work, ms, 1 worker | 2 workers | 4 workers | session, ms, 1 worker | "
              "2 workers | 4 workers | MiB, 1, 2 and 4 workers |" % (given.side, given.side))
        print("|---|---:|---:|---:|---:|---:|---:|---:|---:|")
        for name, (kind, shape, command) in COMMANDS.items():
            if not name.startswith(given.only):
                continue
            write_session(kind, given.side, shape, command)
            written = set()
            for tile in TILES:
                figures = measured(program, tile, given.rounds)
                written |= figures.sums
                print(figures.row(name, tile), flush=True)
            if len(written) > 1:
                others.append(name)
            show_opencv(name)
        os.chdir("/")
    if others:
        raise SystemExit("DIFFERS by tiles or workers: " + ", ".join(others))
    print("all tiles and workers wrote the same")


if __name__ == "__main__":
    main()
