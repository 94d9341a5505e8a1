#!/usr/bin/env python3
"""Draws the curve of a session's replies as bars, a line for each size: what part of all grains has that width.

    morphd batch < SESSION | python3 examples/curve.py [--shape SHAPE] [--side S] [--pixel WIDTH] [--unit WORD]
    python3 examples/curve.py [..] < CURVE

CURVE is the text of a curve, as examples/save.py keeps it. SHAPE is that of the element, octagon if left out, and S its width, 7
if left out: size n is n(S - 1) + 1 pixels wide. Tell both as you told them to examples/sizes.py. WIDTH is that of a pixel, in
micrometres or in the unit that is named. Where a reply is a refusal, that is told instead. What is doubtful about the curve
is told in a line on standard error: with the set of the grains before it, as examples/sizes.py has it fetched, that the frame
cuts grains, and that they may be dark, too.
"""
import argparse
import os
import sys

sys.path.insert(0, os.path.join(os.path.dirname(os.path.dirname(os.path.realpath(__file__))), "python"))
from morphd.doubts import cut_area, doubts  # noqa: E402

LONGEST = 40


def replies(data):
    """The lines of the replies, each with the bytes that it names."""
    at = 0
    while at < len(data):
        end = data.index(b"\n", at)
        words = data[at:end].decode("latin-1").split()
        size = int(words[2]) if words[0] in ("IMAGE", "CURVE") else 0
        yield words, data[end + 1:end + 1 + size]
        at = end + 1 + size


def curves_and_set(data):
    """The texts of the curves, and the file of the last set before them, None where there is none."""
    if data.startswith(b"V "):
        return [data.decode()], None
    curves, grains = [], None
    for words, payload in replies(data):
        if words[0] == "ERR":
            sys.exit("the session was refused: " + " ".join(words))
        if words[0] == "CURVE":
            curves.append(payload.decode())
        elif words[0] == "IMAGE" and payload.startswith(b"P4") and not curves:
            grains = payload
    return (curves, grains) if curves else sys.exit("the replies hold no curve")


def volumes(curves, shape):
    """The volumes: those of the last curve, or of discs the first one of each curve."""
    held = [[int(words[2]) for words in map(str.split, text.splitlines()) if words[0] == "V"] for text in curves]
    return [each[0] for each in held] if shape == "disc" else held[-1]


def rows(found, side):
    """Of each size the least and the greatest width in pixels, and how much is as wide; the last has no greatest one."""
    widths = [n * (side - 1) + 1 for n in range(len(found))]
    falls = [max(before - behind, 0) for before, behind in zip(found, found[1:])]
    bounded = [(least, behind - 1, much) for least, behind, much in zip(widths, widths[1:], falls)]
    return [*bounded, (widths[-1], None, found[-1])]


def told(least, greatest, pixel, unit):
    """A range of widths in words."""
    low, high = (f"{it * pixel:g}" if it else "" for it in (least, greatest))
    between = f"{low} and more" if greatest is None else low if low == high else f"{low} to {high}"
    return f"{between} {unit}"


def drawn(found, pixel, unit):
    """The lines of the drawing. Sizes above the greatest that occurs are left out."""
    while len(found) > 1 and found[-1][2] == 0:
        found = found[:-1]
    total = sum(much for _, _, much in found) or 1
    most = max(much for _, _, much in found) or 1
    for least, greatest, much in found:
        bar = "#" * round(LONGEST * much / most)
        yield f"{told(least, greatest, pixel, unit):>20}  {100 * much / total:5.1f} %  {bar}".rstrip()


def pixels(file):
    """The sides of a raw PBM, and a byte for each of its pixels."""
    _, sides, raster = file.split(b"\n", 2)
    width, height = map(int, sides.split())
    across = (width + 7) // 8
    rows = (int.from_bytes(raster[y * across:(y + 1) * across], "big") for y in range(height))
    digits = "".join(format(row, f"0{8 * across}b")[:width] for row in rows)
    return width, height, digits.encode().translate(bytes(49) + b"\1" + bytes(206))


def doubtful(found, grains):
    """The lines of what is doubtful. Where no set with the curve's area was fetched, the curve may be that of levels."""
    if grains is not None:
        width, height, marks = pixels(grains)
        if marks.count(1) == found[0]:
            return doubts(found, width * height, cut_area(marks, width))
    return doubts(found, is_set=False)


def positive(text):
    width = float(text)
    if not 0 < width < float("inf"):
        raise ValueError
    return width


def main():
    parser = argparse.ArgumentParser()
    parser.add_argument("--shape", choices=("octagon", "square", "diamond", "disc"), default="octagon", help="default: octagon")
    parser.add_argument("--side", metavar="S", type=int, default=7, help="the width of the element (default: 7)")
    parser.add_argument("--pixel", metavar="WIDTH", type=positive, help="the width of a pixel")
    parser.add_argument("--unit", metavar="WORD", default="um", help="its unit (default: um)")
    given = parser.parse_args()
    scale = (given.pixel, given.unit) if given.pixel else (1, "px")
    curves, grains = curves_and_set(sys.stdin.buffer.read())
    found = volumes(curves, given.shape)
    print(f"the width of the largest {given.shape} that fits, and the part of the area:")
    for line in drawn(rows(found, given.side), *scale):
        print(line)
    sys.stdout.flush()
    for line in doubtful(found, grains):
        print(f"curve.py: {line}", file=sys.stderr)


if __name__ == "__main__":
    main()
