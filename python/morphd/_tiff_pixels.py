"""The side of a pixel as TIFFs tell it: by TIFF's own resolution, or in a unit that ImageJ names.

Many programs write the pixels of a screen to the inch where nothing was measured. ImageJ takes 72 of them for no measure, and so do we;
96 is what programs of Windows write.
"""
from __future__ import annotations

import re
from collections.abc import Mapping
from fractions import Fraction
from typing import Any

from .pixels import Pixel, pixel_size

# TIFF's tags of a pixel's side: how many there are to a unit, along rows and along columns, and which unit that is.
_DESCRIPTION, _ACROSS, _DOWN, _UNIT = 270, 282, 283, 296
_INCH, CENTIMETRE = 2, 3
_OF_SCREENS = (72, 96)
_MOST_OF_A_FRACTION = (1 << 32) - 1


def _fraction(value: Any) -> Fraction:
    """A tag's fraction; 0 where it is none."""
    above, below = value if isinstance(value, tuple) else (getattr(value, "numerator", 0), getattr(value, "denominator", 0))
    return Fraction(int(above), int(below)) if below else Fraction(0)


def pixel_in(tags: Mapping[int, Any]) -> tuple[Pixel | None, tuple[str, ...]]:
    """The side of a pixel that the tags of a TIFF tell, and what is doubtful about it. It is None where they tell none, or what is no
    measure, or pixels are no squares.

    The unit is an inch or a centimetre by TIFF's own tag. ImageJ counts in a unit of its own, which it names in the description.
    """
    across, down = _fraction(tags.get(_ACROSS)), _fraction(tags.get(_DOWN))
    if across <= 0 or abs(across - down) > across / 1000:
        return None, ()
    unit = int(tags.get(_UNIT, _INCH))
    if unit == _INCH and across in _OF_SCREENS:
        return None, (f"{across} pixels to the inch are what programs write where nothing was measured, so they are not taken",)
    if unit in (_INCH, CENTIMETRE):
        return Pixel(float((25400 if unit == _INCH else 10000) / across), "µm"), ()
    return _named(tags, across), ()


def _named(tags: Mapping[int, Any], across: Fraction) -> Pixel | None:
    """The side of a pixel in the unit that ImageJ names."""
    told = str(tags.get(_DESCRIPTION, ""))
    named = re.search(r"^unit=(\S+)$", told, re.MULTILINE) if told.startswith("ImageJ=") else None
    if named is None:
        return None
    pixel = pixel_size((float(1 / across), re.sub(r"\\u00[bB]5", "µ", named[1])))
    return pixel if pixel.unit != "pixels" else None


def resolution(pixel: Pixel) -> Fraction | None:
    """How many pixels there are to a centimetre, as TIFF takes fractions; None of a pixel without a unit."""
    if pixel.unit == "pixels":
        return None
    if pixel.micrometres is None:
        raise ValueError(f"a TIFF tells pixels in nm, µm, mm, cm, m or in: {pixel}")
    exact = Fraction(10000) / Fraction(repr(pixel.micrometres))
    near = exact.limit_denominator(max(int(_MOST_OF_A_FRACTION // max(exact, Fraction(1))), 1))
    if not 0 < near <= _MOST_OF_A_FRACTION:
        raise ValueError(f"a TIFF cannot tell a pixel of {pixel}")
    return near
