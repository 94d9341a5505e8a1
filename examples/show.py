#!/usr/bin/env python3
"""Shows a PBM or PGM picture in the terminal, two rows to a line.

    python3 examples/show.py PICTURE

PICTURE is a file, or - for standard input. The output of a session can be shown too: the last picture that it hands out.
"""
import argparse
import os
import sys

sys.path.insert(0, os.path.join(os.path.dirname(os.path.dirname(os.path.realpath(__file__))), "python"))

from morphd.netpbm import Picture  # noqa: E402

LEVELS = " .:-=+*#%@"
BEGINNINGS = (b"P1", b"P2", b"P4", b"P5")


def samples(data):
    """Rows of values from 0 to 1; a pixel of a set is bright."""
    picture = Picture.of_file(data)
    return [[sample / picture.maxval for sample in row] for row in picture.rows()]


def picture(data):
    """The picture itself, or the last one of a session's replies."""
    found, at = data, 0
    while data[:2] not in BEGINNINGS and b"\n" in data[at:]:
        line, at = data[at:data.index(b"\n", at)], data.index(b"\n", at) + 1
        words = line.split()
        if words[:1] in ([b"IMAGE"], [b"CURVE"]):
            length = int(words[2])
            found = data[at:at + length] if words[0] == b"IMAGE" else found
            at += length
    return found


def read(path):
    """The bytes of a file, or of the standard input."""
    if path == "-":
        return sys.stdin.buffer.read()
    with open(path, "rb") as file:
        return file.read()


def main():
    parser = argparse.ArgumentParser(description="Shows a PBM or PGM picture in the terminal, two rows to a line.")
    parser.add_argument("picture", metavar="PICTURE", help="a file, or - for standard input; or the replies of a session")
    path = parser.parse_args().picture
    try:
        rows = samples(picture(read(path)))
    except (OSError, ValueError) as fault:
        sys.exit(f"{path}: {fault}")
    for y in range(0, len(rows), 2):
        pair = rows[y:y + 2]
        line = "".join(LEVELS[round(sum(row[x] for row in pair) / len(pair) * (len(LEVELS) - 1))] for x in range(len(rows[0])))
        print(line.rstrip())


if __name__ == "__main__":
    main()
