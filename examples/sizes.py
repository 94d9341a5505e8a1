#!/usr/bin/env python3
"""Writes the session that measures sizes of bright grains: the spectrum of a picture by octagons of 7, 13, 19, .. pixels.

    python3 examples/sizes.py PICTURE [--above LEVEL] [--sizes N] [--shape SHAPE] [--side S] > mine.session
    morphd batch < mine.session | python3 examples/curve.py [--shape SHAPE] [--side S]

PICTURE is a PBM or PGM file. With `--above` the grains are the places of that level or more; `otsu` finds a level and tells it.
Without it the levels count as they are, and so does a bright ground. N is the number of sizes: 12 if left out, and at most 32.

A width is that of the largest SHAPE that fits into a grain: octagon, square, diamond or disc. Size n is n(S - 1) + 1 pixels
wide. S is 7 if left out: of octagons 4, 7, 10, .., of the others an odd number. Discs are openings by a disc of each size.
"""
import argparse
import os
import sys

sys.path.insert(0, os.path.join(os.path.dirname(os.path.dirname(os.path.realpath(__file__))), "python"))

SHAPES = ("octagon", "square", "diamond", "disc")
SIDE = 7
WIDEST = 255


def is_side(shape, side):
    """Whether there are shapes that are so wide."""
    return side > 1 and (side % 3 == 1 if shape == "octagon" else side % 2 == 1)


def bitmap(shape, side):
    """A plain bitmap of the shape."""
    half, slanted = side // 2, side // 3
    places = [(x, y) for y in range(side) for x in range(side)]
    holds = {
        "octagon": lambda x, y: min(x, side - 1 - x) + min(y, side - 1 - y) >= slanted,
        "square": lambda x, y: True,
        "diamond": lambda x, y: abs(x - half) + abs(y - half) <= half,
        "disc": lambda x, y: (x - half) ** 2 + (y - half) ** 2 <= half * half,
    }[shape]
    marks = "".join("1" if holds(x, y) else "0" for x, y in places)
    rows = "\n".join(marks[at:at + side] for at in range(0, side * side, side))
    return f"P1\n{side} {side}\n{rows}\n".encode()


def element(name, shape, side):
    """The line that makes an element, with its bitmap."""
    made = bitmap(shape, side)
    return f"ELEMENT {name} {side // 2} {side // 2} {len(made)}\n".encode() + made


def by_sums(measured, shape, side, sizes):
    """The lines of a spectrum by the n-fold sums of a shape."""
    return element(shape, shape, side) + f"RUN curve SPECTRUM {measured} {shape} {sizes}\nFETCH curve\n".encode()


def by_discs(measured, side, sizes):
    """The lines of openings by discs. The volume of each is the first of a spectrum by a single pixel."""
    lines = [b"ELEMENT pixel 0 0 9\nP1\n1 1\n1\n"]
    for n in range(1, sizes + 1):
        opened, curve = f"opened{n}", f"curve{n}"
        lines.append(element(f"disc{n}", "disc", n * (side - 1) + 1))
        lines.append(f"RUN {opened} OPEN {measured} disc{n}\nRUN {curve} SPECTRUM {opened} pixel 1\n".encode())
    lines += [f"RUN curve0 SPECTRUM {measured} pixel 1\n".encode(), *(f"FETCH curve{n}\n".encode() for n in range(sizes + 1))]
    return b"".join(lines)


def session(picture, above, sizes, shape, side):
    """The bytes of the session. What is a set is fetched too, so that `curve.py` sees what is doubtful about it."""
    parts, measured = [b"LOAD picture %d\n" % len(picture), picture], "picture"
    if above is not None:
        measured = "grains"
        parts.append(b"RUN grains THRESHOLD picture %d\n" % above)
    if above is not None or picture[:2] in (b"P1", b"P4"):
        parts.append(f"FETCH {measured}\n".encode())
    return b"".join([*parts, by_discs(measured, side, sizes) if shape == "disc" else by_sums(measured, shape, side, sizes)])


def level_by_otsu(name, picture):
    """Otsu's level of a picture, which is told."""
    from morphd.levels import otsu_of_counts
    from morphd.netpbm import Picture

    try:
        level = otsu_of_counts(Picture.of_file(picture).counts())
    except ValueError as fault:
        sys.exit(f"{name}: {fault}")
    print(f"{name}: the grains have level {level} or more, by Otsu", file=sys.stderr)
    return level


def level(text):
    return text if text == "otsu" else int(text)


def arguments():
    parser = argparse.ArgumentParser()
    parser.add_argument("picture", metavar="PICTURE", help="a PBM or PGM file")
    parser.add_argument("--above", metavar="LEVEL", type=level, help="the grains are the places of this level or more, or by otsu")
    parser.add_argument("--sizes", metavar="N", type=int, default=12, help="how many sizes, at most 32 (default: 12)")
    parser.add_argument("--shape", choices=SHAPES, default=SHAPES[0], help="what the widths are those of (default: octagon)")
    parser.add_argument("--side", metavar="S", type=int, default=SIDE, help="the width of its first size (default: 7)")
    given = parser.parse_args()
    if not is_side(given.shape, given.side):
        parser.error("the side of an octagon is 4, 7, 10, .." if given.shape == "octagon" else "the side has to be odd, and over 1")
    if not 1 <= given.sizes <= 32:
        parser.error("there are 1 to 32 sizes")
    widest = given.sizes * (given.side - 1) + 1 if given.shape == "disc" else given.side
    if widest > WIDEST:
        parser.error(f"the widest {given.shape} is {widest} pixels wide, and may be {WIDEST}")
    return given


def main():
    given = arguments()
    with open(given.picture, "rb") as file:
        picture = file.read()
    if picture[:2] not in (b"P1", b"P2", b"P4", b"P5"):
        sys.exit(f"{given.picture} is no PBM or PGM file: convert it first, as docs/COOKBOOK.md shows")
    above = level_by_otsu(given.picture, picture) if given.above == "otsu" else given.above
    sys.stdout.buffer.write(session(picture, above, given.sizes, given.shape, given.side))


if __name__ == "__main__":
    main()
