"""Families of footprints by which spectra are taken: what is one, and which shape its widths are those of.

This module needs nothing but Python.
"""
from __future__ import annotations

from typing import Any

from .footprints import Footprint, diamond, octagon

# What a width says of a round grain, by the shape.
NOTES = {
    "square": ": of a disc about 0.7 of its diameter",
    "octagon": ": of a disc its diameter, or up to 5 of 100 and a pixel less",
    "diamond": ": of a disc its diameter, while up to a third of its area counts as narrower",
    "disc": ": of a disc its diameter",
}


def _is_bitmap(value: Any) -> bool:
    """Whether it has two axes, and so is more than a row of a bitmap."""
    if isinstance(value, (list, tuple)):
        return bool(value) and isinstance(value[0], (list, tuple))
    return isinstance(value, Footprint) or getattr(value, "ndim", 0) == 2


def family(footprint: Any) -> tuple[Footprint, ...] | None:
    """The footprints of a list of them, None where it is one footprint.

    Raises
    ------
    ValueError
        Where one is no wider than the one before, or the first no wider than a pixel.
    """
    if not isinstance(footprint, (list, tuple)) or not footprint:
        return None
    if not all(map(_is_bitmap, footprint)):
        return None
    found = tuple(map(Footprint, footprint))
    for before, each in zip([1, *(each.width for each in found)], found):
        if each.width <= before:
            raise ValueError(f"footprints of a list grow: one is {each.width} wide behind one of {before}")
    return found


def _shapes(footprint: Footprint) -> set[str]:
    """The words for a footprint; of small ones there are several."""
    rows, columns = footprint.shape
    words = {"footprint"}
    if footprint.count == rows * columns:
        return words | {"square" if rows == columns else "line" if 1 in (rows, columns) else "rectangle"}
    if rows != columns:
        return words
    if any(footprint.pixels == octagon(rows - 2 * slanted, slanted).pixels for slanted in range(1, (rows + 1) // 2)):
        words.add("octagon")
    if rows % 2:
        words |= {"diamond"} if footprint.pixels == diamond(rows // 2).pixels else set()
        half = rows // 2
        places = [(at // rows - half) ** 2 + (at % rows - half) ** 2 for at in range(rows * rows)]
        most = max(far for far, pixel in zip(places, footprint.pixels) if pixel)
        words |= {"disc"} if footprint.count == sum(far <= most for far in places) else set()
    return words


def shape_of(footprint: Footprint | tuple[Footprint, ...]) -> str:
    """The word for the shape whose width is told: of n-fold sums of one footprint, or of each of several."""
    if isinstance(footprint, Footprint):
        words = _shapes(footprint) - {"disc"}
    else:
        words = set.intersection(*map(_shapes, footprint))
    return next(word for word in ("square", "line", "rectangle", "diamond", "disc", "octagon", "footprint") if word in words)
