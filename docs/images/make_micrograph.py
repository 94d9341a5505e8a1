#!/usr/bin/env python3
"""Makes the first pictures of README.md: a micrograph of powder, the same opened, and the curve of its grains in micrometres.

    python3 docs/images/make_micrograph.py [FOLDER]

The micrograph is drawn: balls of three sizes that light falls on from one side, specks of dust, a ground that darkens to one side,
and a camera's noise. It is opened and measured by checks/bit_model.py, so nothing has to be built and the check of the documents
can draw it anew.
"""
import collections
import math
import os
import random
import sys

HERE = os.path.dirname(os.path.abspath(__file__))
ROOT = os.path.dirname(os.path.dirname(HERE))
sys.path[:0] = [f"{ROOT}/checks", HERE]
import bit_model  # noqa: E402
from png_files import png  # noqa: E402

WIDE, HIGH = 600, 400
# Levels are multiples of this one, so that few sets are opened.
STEP = 8
PIXEL = 0.5
THRESHOLD = 104
SIZES = 14
# The diameter of a class of balls in pixels, how it spreads, and how many there are to be.
CLASSES = [(62, 3.0, 9), (38, 2.0, 26), (20, 1.5, 60)]
DUST = 160
Element = collections.namedtuple("Element", "width height x y pixels")


def octagon(flat, slanted):
    """An octagon by the pixels of its straight and of its slanted sides, with its origin in its middle."""
    side = flat + 2 * slanted
    rows = [min(at, side - 1 - at, slanted) for at in range(side)]
    pixels = b"".join(bytes([0] * (slanted - cut) + [1] * (flat + 2 * cut) + [0] * (slanted - cut)) for cut in rows)
    return Element(side, side, side // 2, side // 2, pixels)


def places(chance):
    """The middle and the radius of each ball: none touches another."""
    found = []
    for diameter, spread, count in CLASSES:
        wanted, tries = len(found) + count, 0
        while len(found) < wanted and tries < 20_000:
            tries += 1
            radius = chance.gauss(diameter, spread) / 2
            x, y = chance.uniform(0, WIDE), chance.uniform(0, HIGH)
            if all(math.hypot(x - a, y - b) > radius + c + 4 for a, b, c in found):
                found.append((x, y, radius))
    return found


def ground():
    """The levels between the balls: the lamp stands to the left."""
    return [[52 - 18 * x / WIDE - 6 * y / HIGH for x in range(WIDE)] for y in range(HIGH)]


def lay_ball(levels, x, y, radius):
    """Lays a ball, bright where it looks to the upper left, with an edge that a lens blurs over two pixels."""
    for row in range(max(0, int(y - radius - 2)), min(HIGH, int(y + radius + 3))):
        for column in range(max(0, int(x - radius - 2)), min(WIDE, int(x + radius + 3))):
            dx, dy = (column - x) / radius, (row - y) / radius
            far = math.hypot(dx, dy)
            share = min(1, max(0, (1 - far) * radius / 2 + 0.5))
            height = math.sqrt(max(0, 1 - far * far))
            level = 128 + 92 * max(0, 0.62 * height - 0.52 * dx - 0.58 * dy)
            levels[row][column] += share * (level - levels[row][column])


def lay_dust(levels, chance):
    for _ in range(DUST):
        x, y, size = chance.randrange(WIDE - 3), chance.randrange(HIGH - 3), chance.choice((1, 2, 2, 3))
        for row in range(y, y + size):
            for column in range(x, x + size):
                levels[row][column] = max(levels[row][column], chance.uniform(150, 230))


def micrograph():
    """The rows of the picture."""
    chance = random.Random(7)
    levels = ground()
    for ball in places(chance):
        lay_ball(levels, *ball)
    lay_dust(levels, chance)
    return [[min(255, max(0, STEP * round((it + chance.gauss(0, 5)) / STEP))) for it in row] for row in levels]


def opened(rows, b):
    """The opening of a picture of levels: that of each of its sets."""
    frame, pixels = bit_model.Frame(WIDE, HIGH, b.width), [it for row in rows for it in row]
    made = [0] * len(pixels)
    for level in range(STEP, 256, STEP):
        kept = bit_model.opening(frame, frame.set_of(bytes(it >= level for it in pixels)), b)
        made = [level if is_in else it for it, is_in in zip(made, frame.bytes_of(kept))]
    return [made[at:at + WIDE] for at in range(0, len(made), WIDE)]


def shares(rows, b):
    """The part of the grains' area that falls at each size, in percent, and what is left."""
    frame = bit_model.Frame(WIDE, HIGH, 2 * b.width)
    grains = bit_model.opening(frame, frame.set_of(bytes(it >= THRESHOLD for row in rows for it in row)), octagon(1, 1))
    left = bit_model.volumes(frame, grains, b, SIZES)
    return [100 * (more - less) / left[0] for more, less in zip(left, left[1:])], 100 * left[-1] / left[0]


# ---- the drawing of the curve

LEFT, TOP, ACROSS, DOWN = 56, 18, 520, 190
FONT = 'font-family="sans-serif" font-size="13" fill="#222"'


def word(x, y, what, anchor="middle"):
    return f'<text x="{x:g}" y="{y:g}" text-anchor="{anchor}" {FONT}>{what}</text>'


def curve(found, widths):
    """The drawing: a bar for each size, from its least width to the next one's."""
    most = 10 * math.ceil(max(found) / 10)
    scale, grown = ACROSS / widths[-1], DOWN / most
    lines = [f'<svg xmlns="http://www.w3.org/2000/svg" width="{LEFT + ACROSS + 24}" height="{TOP + DOWN + 52}">',
             '<rect width="100%" height="100%" fill="#fff"/>']
    for percent in range(0, most + 1, 10):
        y = TOP + DOWN - percent * grown
        lines += [f'<path d="M{LEFT} {y:g}h{ACROSS}" stroke="#ddd"/>', word(LEFT - 8, y + 4, f"{percent} %", "end")]
    for much, least, greatest in zip(found, widths, widths[1:]):
        x, y = LEFT + least * scale, TOP + DOWN - much * grown
        lines.append(f'<rect x="{x + 1:.1f}" y="{y:.1f}" width="{(greatest - least) * scale - 2:.1f}" height="{much * grown:.1f}" '
                     'fill="#3b6ea5"/>')
    for at in range(0, int(widths[-1]) + 1, 5):
        lines += [f'<path d="M{LEFT + at * scale:g} {TOP + DOWN}v5" stroke="#222"/>', word(LEFT + at * scale, TOP + DOWN + 19, at)]
    lines += [f'<path d="M{LEFT} {TOP}v{DOWN}h{ACROSS}" stroke="#222" fill="none"/>',
              word(LEFT + ACROSS / 2, TOP + DOWN + 40, "width of the octagon that fits into the grain, µm"),
              word(LEFT + 6, TOP + 12, "part of the grains' area", "start"), "</svg>", ""]
    return "\n".join(lines).encode()


def pictures():
    """The name and the bytes of each picture."""
    rows, b = micrograph(), octagon(3, 2)
    found, _ = shares(rows, b)
    widths = [PIXEL * (n * (b.width - 1) + (1 if n else 0)) for n in range(SIZES + 1)]
    yield "micrograph.png", png(rows)
    yield "opened.png", png(opened(rows, octagon(3, 3)))
    yield "curve.svg", curve(found, widths)


def main():
    folder = sys.argv[1] if sys.argv[1:] else HERE
    for name, data in pictures():
        with open(os.path.join(folder, name), "wb") as file:
            file.write(data)


if __name__ == "__main__":
    main()
