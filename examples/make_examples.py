#!/usr/bin/env python3
"""Makes the example pictures and sessions of this folder: grains, discs of known widths, a defect mask and a line of text.

    python3 make_examples.py

The pictures are drawn from fixed seeds, so that every run writes the same bytes.
"""
import argparse
import os
import random

import sizes

HERE = os.path.dirname(os.path.abspath(__file__))
WIDTH, HEIGHT = 72, 28
# The discs in discs.pgm: their widths, and the first row and column of each.
DISCS = {11: (18, 3), 21: (13, 17), 41: (3, 41)}

FONT = {  # five columns by seven rows, a row for each string
    "M": ("#...#", "##.##", "#.#.#", "#.#.#", "#...#", "#...#", "#...#"),
    "O": (".###.", "#...#", "#...#", "#...#", "#...#", "#...#", ".###."),
    "R": ("####.", "#...#", "#...#", "####.", "#.#..", "#..#.", "#...#"),
    "P": ("####.", "#...#", "#...#", "####.", "#....", "#....", "#...."),
    "H": ("#...#", "#...#", "#...#", "#####", "#...#", "#...#", "#...#"),
    "D": ("####.", "#...#", "#...#", "#...#", "#...#", "#...#", "####."),
}


def disc(radius):
    """A plain bitmap of a disc, with its origin in the middle."""
    side = 2 * radius + 1
    rows = []
    for y in range(-radius, radius + 1):
        rows.append("".join("1" if x * x + y * y <= radius * radius + 1 else "0" for x in range(-radius, radius + 1)))
    return ("P1\n%d %d\n%s\n" % (side, side, "\n".join(rows))).encode()


def grey(samples):
    """A raw PGM of rows of samples from 0 to 255."""
    return b"P5\n%d %d\n255\n" % (len(samples[0]), len(samples)) + bytes(s for row in samples for s in row)


def bits(samples):
    """A plain PBM of rows of samples 0 and 1."""
    rows = "\n".join("".join(map(str, row)) for row in samples)
    return ("P1\n%d %d\n%s\n" % (len(samples[0]), len(samples), rows)).encode()


def grains(rng):
    """Bright grains on a dark ground, with specks of dust that are no grains."""
    rows = [[28 + rng.randrange(12) for _ in range(WIDTH)] for _ in range(HEIGHT)]
    for _ in range(16):
        cx, cy, r = rng.randrange(WIDTH), rng.randrange(HEIGHT), rng.uniform(2.4, 5.2)
        level = rng.randrange(150, 235)
        for y in range(HEIGHT):
            for x in range(WIDTH):
                if (x - cx) ** 2 + (y - cy) ** 2 <= r * r:
                    rows[y][x] = max(rows[y][x], level - rng.randrange(10))
    for _ in range(60):
        rows[rng.randrange(HEIGHT)][rng.randrange(WIDTH)] = rng.randrange(200, 256)
    return rows


def discs(rng):
    """Bright discs of known widths on a dark ground. None touches another, nor the frame."""
    rows = [[28 + rng.randrange(12) for _ in range(85)] for _ in range(47)]
    for across, (top, left) in DISCS.items():
        half = (across - 1) / 2
        for y in range(across):
            for x in range(across):
                if (x - half) ** 2 + (y - half) ** 2 <= across * across / 4:
                    rows[top + y][left + x] = 190 + rng.randrange(12)
    return rows


def defects(rng):
    """A mask of scratches with gaps, and of pits."""
    rows = [[0] * WIDTH for _ in range(HEIGHT)]
    for _ in range(4):
        y, slope = rng.uniform(3, HEIGHT - 4), rng.uniform(-0.15, 0.15)
        for x in range(4, WIDTH - 4):
            if rng.random() < 0.75:
                rows[max(0, min(HEIGHT - 1, round(y + slope * x)))][x] = 1
    for _ in range(6):
        cx, cy = rng.randrange(4, WIDTH - 4), rng.randrange(4, HEIGHT - 4)
        for y in range(-2, 3):
            for x in range(-2, 3):
                if x * x + y * y <= 4:
                    rows[cy + y][cx + x] = 1
    return rows


def text(rng):
    """Dark letters on a bright sheet, in two levels of ink, with worn pixels."""
    rows = [[225 + rng.randrange(20) for _ in range(WIDTH)] for _ in range(13)]
    for i, letter in enumerate("MORPHD"):
        for y, line in enumerate(FONT[letter]):
            for x, mark in enumerate(line):
                if mark == "#" and rng.random() < 0.93:
                    for dx in (0, 1):
                        rows[3 + y][4 + 11 * i + 2 * x + dx] = 35 + rng.randrange(20)
    return rows


def session(parts):
    """Lines, and payloads as pairs of a line without its length and of bytes."""
    out = b""
    for part in parts:
        if isinstance(part, tuple):
            out += b"%s %d\n" % (part[0].encode(), len(part[1])) + part[1]
        else:
            out += part.encode() + b"\n"
    return out


def write(name, data):
    with open(os.path.join(HERE, name), "wb") as file:
        file.write(data)


def main():
    argparse.ArgumentParser(description="Makes the example pictures and sessions of this folder anew.").parse_args()
    pictures = {
        "grains.pgm": grey(grains(random.Random(7))),
        "discs.pgm": grey(discs(random.Random(3))),
        "defects.pbm": bits(defects(random.Random(11))),
        "text.pgm": grey(text(random.Random(5))),
    }
    for name, data in pictures.items():
        write(name, data)
    ball, bar = disc(2), b"P1\n5 1\n11111\n"
    write("grains.session", session([
        ("LOAD grains", pictures["grains.pgm"]), ("ELEMENT ball 2 2", ball),
        "RUN small ERODE grains ball", "RUN opened DILATE small ball", "STATUS opened", "FETCH opened"]))
    write("demo.session", session([
        ("LOAD grains", pictures["grains.pgm"]), ("ELEMENT ball 2 2", ball), "RUN bright THRESHOLD grains 120", "FETCH bright",
        "RUN opened OPEN grains ball", "FETCH opened",
        ("ELEMENT octagon 2 2", sizes.bitmap("octagon", 4)), "RUN curve SPECTRUM bright octagon 12", "FETCH curve"]))
    write("defects.session", session([
        ("LOAD mask", pictures["defects.pbm"]), ("ELEMENT bar 2 0", bar),
        "RUN wide DILATE mask bar", "RUN joined ERODE wide bar", "FETCH joined"]))
    write("text.session", session([
        ("LOAD sheet", pictures["text.pgm"]), ("ELEMENT pair 0 0", b"P1\n2 1\n11\n"),
        "RUN bold ERODE sheet pair", "FETCH bold", "RELEASE bold", "STATUS bold"]))


if __name__ == "__main__":
    main()
