#!/usr/bin/env python3
"""Times whole sessions of `morphd batch` by one worker: each loads a picture of 4096 x 4096 bytes without a pattern, runs one
operation by 15 x 15 on it and fetches the result. Beside it stands what OpenCV takes for the operation alone.

    python3 bench/operations.py crates/morphd/out/morphd [--rounds 5]

Each time is the best of the rounds, which go over the operations and the sides of tiles in turn. Behind a time stands its
ratio to the erosion's at the same side, and the greatest resident size that the system counted. The last line is a session of
30,000 pictures of one pixel, each eroded, and one fetched. Files lie in /dev/shm, that is in memory. OpenCV is measured by a
Python that has cv2 (Debian: python3-opencv), in one thread; each result is compared with that of the session.

The system counts a program's size from that of this script on, which therefore never holds a picture.
"""
import argparse
import os
import random
import subprocess
import sys
import tempfile
import time

SIDE, ACROSS, TILES = 4096, 15, (128, 1024)
OPERATIONS = ("ERODE", "DILATE", "OPEN", "CLOSE", "GRADIENT", "WTOPHAT", "BTOPHAT")
SMALL = 30_000
# What a Python with cv2 runs: it prints the milliseconds of each operation, and writes each result to a file of its name.
OPENCV = """
import sys, time, cv2, numpy
cv2.setNumThreads(1)
side, across, rounds = (int(it) for it in sys.argv[1:])
picture = numpy.fromfile("picture", numpy.uint8).reshape(side, side)
element = numpy.ones((across, across), numpy.uint8)
kinds = dict(ERODE=cv2.MORPH_ERODE, DILATE=cv2.MORPH_DILATE, OPEN=cv2.MORPH_OPEN, CLOSE=cv2.MORPH_CLOSE,
             GRADIENT=cv2.MORPH_GRADIENT, WTOPHAT=cv2.MORPH_TOPHAT, BTOPHAT=cv2.MORPH_BLACKHAT)
for name, kind in kinds.items():
    best = float("inf")
    for _ in range(rounds):
        begun = time.perf_counter()
        made = cv2.morphologyEx(picture, kind, element)
        best = min(best, time.perf_counter() - begun)
    made.tofile("opencv-" + name)
    print(name, 1000 * best)
"""


def element():
    bitmap = b"P1\n%d %d\n" % (ACROSS, ACROSS) + (b"1" * ACROSS + b"\n") * ACROSS
    return b"ELEMENT b %d %d %d\n%s" % (ACROSS // 2, ACROSS // 2, len(bitmap), bitmap)


def pieces(file):
    """The bytes of a file from here on, a row of the picture at a time."""
    while piece := file.read(SIDE):
        yield piece


def write_sessions():
    chance = random.Random(1)
    with open("picture", "wb") as file:
        file.writelines(chance.randbytes(SIDE) for _ in range(SIDE))
    head = b"P5\n%d %d\n255\n" % (SIDE, SIDE)
    for name in OPERATIONS:
        with open(name, "wb") as file, open("picture", "rb") as picture:
            file.write(b"LOAD f %d\n%s" % (len(head) + SIDE * SIDE, head))
            file.writelines(pieces(picture))
            file.write(element() + b"RUN r %s f b\nFETCH r\n" % name.encode())
    pixel = b"P2\n1 1\n9\n7\n"
    with open("small", "wb") as file:
        file.write(element())
        file.writelines(b"LOAD f%d %d\n%s" % (number, len(pixel), pixel) for number in range(SMALL))
        file.writelines(b"RUN r%d ERODE f%d b\n" % (number, number) for number in range(SMALL))
        file.write(b"FETCH r7\n")


def run(program, session, tile):
    """The milliseconds and the greatest resident size in MiB of a session by one worker."""
    words = [program, "batch", "--tile", str(tile), "--workers", "1"]
    with open(session, "rb") as asked, open("replies", "wb") as replies:
        begun = time.perf_counter()
        made = subprocess.Popen(words, stdin=asked, stdout=replies)
        _, status, usage = os.wait4(made.pid, 0)
        took = time.perf_counter() - begun
    made.returncode = os.waitstatus_to_exitcode(status)
    if made.returncode:
        raise SystemExit("%s ended with status %d" % (" ".join(words), made.returncode))
    return 1000 * took, usage.ru_maxrss / 1024


def opencv(rounds):
    """What OpenCV took for each operation; nothing where no Python here has it."""
    for python in ("/usr/bin/python3", sys.executable):
        words = [python, "-c", OPENCV, str(SIDE), str(ACROSS), str(rounds)]
        ran = subprocess.run(words, capture_output=True, text=True)
        if ran.returncode == 0:
            return {name: float(took) for name, took in map(str.split, ran.stdout.splitlines())}
    print("OpenCV was not measured (Debian: apt install python3-opencv)", file=sys.stderr)
    return {}


def is_same(name):
    """Whether the last session's picture is OpenCV's."""
    with open("replies", "rb") as ours, open("opencv-" + name, "rb") as theirs:
        ours.seek(-SIDE * SIDE, os.SEEK_END)
        return all(a == b for a, b in zip(pieces(ours), pieces(theirs), strict=True))


def main():
    words = argparse.ArgumentParser(description="times of whole sessions by one worker")
    words.add_argument("program")
    words.add_argument("--rounds", type=int, default=5)
    given = words.parse_args()
    if given.rounds < 1:
        words.error("there has to be a round")
    program, others = os.path.abspath(given.program), []
    with tempfile.TemporaryDirectory(dir="/dev/shm") as folder:
        os.chdir(folder)
        write_sessions()
        beside = opencv(given.rounds)
        best = {(name, tile): (float("inf"), 0.0) for name in OPERATIONS for tile in TILES}
        for _ in range(given.rounds):
            for name, tile in best:
                took, size = run(program, name, tile)
                best[name, tile] = min(best[name, tile][0], took), max(best[name, tile][1], size)
                if beside and not is_same(name) and name not in others:
                    others.append(name)
        print("| %d x %d by %d x %d | OpenCV, ms | %s |" % (
            SIDE, SIDE, ACROSS, ACROSS, " | ".join("tiles of %d: ms, to the erosion, MiB" % tile for tile in TILES)))
        print("|---|---:|" + "---:|" * len(TILES))
        for name in OPERATIONS:
            columns = ["%.1f, %.2f, %.0f" % (
                best[name, tile][0], best[name, tile][0] / best["ERODE", tile][0], best[name, tile][1]) for tile in TILES]
            print("| %s | %s | %s |" % (name, "%.1f" % beside[name] if beside else "", " | ".join(columns)))
        took = min(run(program, "small", 128)[0] for _ in range(given.rounds))
        print("%d pictures of one pixel, eroded, and one fetched: %.0f ms" % (SMALL, took))
    if others:
        raise SystemExit("DIFFERS from OpenCV: " + ", ".join(others))


if __name__ == "__main__":
    main()
