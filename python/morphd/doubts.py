"""What makes a curve of sizes doubtful, in one line each: what goes wrong most often, and what who reads it has to know.

This module needs nothing but Python, so scripts without NumPy say the same as the package.
"""
from __future__ import annotations

from collections.abc import Sequence

__all__ = ["MOST_LEFT", "cut_area", "doubts"]

# Over this part of the volume what is left over is too much for a mean.
MOST_LEFT = 0.1


def _paint(left: bytearray, at: int) -> tuple[int, int]:
    """Takes away the run that has a pixel, and gives its ends."""
    begin, end = left.rfind(0, 0, at) + 1, left.find(0, at)
    left[begin:end] = bytes(end - begin)
    return begin, end


def cut_area(pixels: bytes, width: int) -> int:
    """The area of the grains that the frame cuts: of those that have a pixel in the outermost rows and columns.

    Parameters
    ----------
    pixels : bytes
        A byte for each pixel by rows, 1 in the set and 0 beside it. Pixels hang together by sides and corners.
    width : int
        How long a row is.

    Returns
    -------
    int
        In pixels.
    """
    # a row of zeros on either side, and a zero behind each row, so no run goes on beyond the frame
    wide = width + 1
    rows = [pixels[at : at + width] for at in range(0, len(pixels), width)]
    left = bytearray(b"\0".join([bytes(wide), *rows, bytes(wide + 1)]))
    first, last = wide + 1, len(rows) * wide + 1
    ends = [(at, at + 1) for begin in range(first, last + 1, wide) for at in (begin, begin + width - 1)]
    # where runs that hang on the frame may lie: each run is met once, however its grain winds
    places = [(first, first + width), (last, last + width), *ends]
    area = 0
    while places:
        low, high = places.pop()
        while (at := left.find(1, low, high)) >= 0:
            begin, end = _paint(left, at)
            area += end - begin
            places += ((begin - 1 - wide, end + 1 - wide), (begin - 1 + wide, end + 1 + wide))
            low = end
    return area


def doubts(volumes: Sequence[int], frame: int | None = None, cut: int = 0, is_set: bool = True) -> list[str]:
    """What is doubtful about a curve.

    Parameters
    ----------
    volumes : sequence of int
        The picture's volume, and that behind each opening.
    frame : int, optional
        How many pixels the picture has, where that is known.
    cut : int
        The area of the grains that the frame cuts.
    is_set : bool
        Whether it is the curve of a set.

    Returns
    -------
    list of str
        A line for each; none where nothing is.
    """
    whole, rest = volumes[0], volumes[-1]
    if not whole:
        return ["the set is empty: no sample reaches the threshold, if there was one" if is_set else "all samples are 0"]
    found = []
    if is_set and frame is not None and 2 * whole > frame:
        found.append(f"the set covers {whole / frame:.0%} of the frame: where grains are darker than their ground, invert the picture")
    elif is_set and cut:
        found.append(f"grains that the frame cuts, and what touches them, have {cut / whole:.1%} of the area: they may be told too wide")
    if rest > MOST_LEFT * whole:
        wider = "grains wider than the last size; take more sizes, or a wider step"
        found.append(f"{rest / whole:.0%} is left over: {wider if is_set else f'a ground, or {wider}'}")
    return found
