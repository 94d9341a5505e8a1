#!/usr/bin/env python3
"""Writes a structuring element as a plain bitmap: square N, disc R, cross N or line N [ANGLE]; its origin is the middle pixel.

    python3 examples/element.py disc 5 > disc.pbm

N is an odd side or length in pixels, and R a radius: a disc is 2 R + 1 pixels wide. The angle of a line is in degrees, and
counts upwards from the right.
"""
import argparse
import math


def marked(side, is_in):
    """A bitmap of the places (x, y), counted from the middle, that are in the element."""
    half = side // 2
    places = range(-half, half + 1)
    rows = "\n".join("".join("1" if is_in(x, y) else "0" for x in places) for y in places)
    return f"P1\n{side} {side}\n{rows}\n"


def line(length, angle):
    half, turn = length // 2, math.radians(angle)
    steps = [step / 4 for step in range(-4 * half, 4 * half + 1)]
    places = {(round(step * math.cos(turn)), round(-step * math.sin(turn))) for step in steps}
    return marked(length, lambda x, y: (x, y) in places)


FORMS = {
    "square": lambda size, angle: marked(size, lambda x, y: True),
    "disc": lambda size, angle: marked(2 * size + 1, lambda x, y: x * x + y * y <= size * size),
    "cross": lambda size, angle: marked(size, lambda x, y: x == 0 or y == 0),
    "line": line,
}


def main():
    parser = argparse.ArgumentParser(description="Writes a structuring element as a plain bitmap.")
    parser.add_argument("form", choices=FORMS)
    parser.add_argument("size", metavar="N", type=int, help="an odd side or length in pixels; of a disc its radius")
    parser.add_argument("angle", metavar="ANGLE", type=float, nargs="?", default=0, help="of a line, in degrees upwards from the right")
    given = parser.parse_args()
    if given.form != "disc" and given.size % 2 == 0:
        parser.error("the side or length has to be odd")
    across = 2 * given.size + 1 if given.form == "disc" else given.size
    if not 1 <= across <= 255:
        parser.error("an element has 1 to 255 pixels a side")
    print(FORMS[given.form](given.size, given.angle), end="")


if __name__ == "__main__":
    main()
