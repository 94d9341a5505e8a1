#!/usr/bin/env python3
"""Pads a PBM or PGM by N pixels on each side, which repeat its edge and go on as in a mirror; or takes N away, where N is below 0.

    python3 examples/pad.py PICTURE N > padded.pgm

PICTURE is a file, or - for standard input. What lies outside the frame morphd leaves out. Who wants a mirror there, as SciPy
has it, pads by how far the element reaches, runs, and takes as much away again.
"""
import argparse
import dataclasses
import sys

from show import Picture, read


def mirrored(at, size):
    """The place that a mirror shows: .. 1 0 | 0 1 2 .. | 2 1 .."""
    at %= 2 * size
    return min(at, 2 * size - 1 - at)


def padded(picture, n):
    """The picture with n pixels more on each side."""
    width, height, size = picture.width, picture.height, 1 if picture.maxval < 256 else 2
    if width + 2 * n < 1 or height + 2 * n < 1:
        raise ValueError("nothing would be left of the picture")
    across = width * size
    rows = [picture.samples[y * across:(y + 1) * across] for y in range(height)]
    columns = [mirrored(x, width) * size for x in range(-n, width + n)]
    made = b"".join(b"".join(rows[mirrored(y, height)][x:x + size] for x in columns) for y in range(-n, height + n))
    return dataclasses.replace(picture, width=width + 2 * n, height=height + 2 * n, samples=made)


def main():
    parser = argparse.ArgumentParser(description="Pads a PBM or PGM by N pixels on each side, as in a mirror.")
    parser.add_argument("picture", metavar="PICTURE", help="a file, or - for standard input")
    parser.add_argument("n", metavar="N", type=int, help="how many pixels; below 0, how many are taken away")
    given = parser.parse_args()
    try:
        sys.stdout.buffer.write(padded(Picture.of_file(read(given.picture)), given.n).file())
    except (OSError, ValueError) as fault:
        sys.exit(f"{given.picture}: {fault}")


if __name__ == "__main__":
    main()
