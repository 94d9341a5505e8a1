"""The least area that a grain has to have, as a command line tells it, and areas and numbers in words.

    area("30um2").in_pixels(Pixel(0.5, "µm"))      # 120
    area("30").in_pixels(None)                     # 30

This module needs nothing but Python.
"""
from __future__ import annotations

import math
import re
from fractions import Fraction
from typing import NamedTuple

from .pixels import Pixel, pixel_size

# A number as Python writes it, and a unit of letters with its square, which pixels can do without.
_TEXT = re.compile(r"\s*((?:[0-9]+\.?[0-9]*|\.[0-9]+)(?:[eE][-+]?[0-9]+)?)\s*(?:([^\W\d_²]+)\s*(\^2|2|²)?)?\s*")
# What the library takes.
_MOST = (1 << 32) - 1


class Area(NamedTuple):
    """An area: `number` of squares whose side is one `unit`."""

    number: Fraction
    unit: str
    text: str

    def goes_with(self, pixel: Pixel | None) -> bool:
        """Whether it can be told in pixels of this side."""
        if self.unit == "pixels":
            return True
        return pixel is not None and (pixel.unit == self.unit or None not in (pixel.micrometres, Pixel(1, self.unit).micrometres))

    def in_pixels(self, pixel: Pixel | None) -> int:
        """How many pixels have at least this area. Sides count as they are written, so a fifth of a millimetre is one."""
        if self.unit == "pixels":
            return _within(math.ceil(self.number), self.text)
        if pixel is None or not self.goes_with(pixel):
            raise ValueError(f"--min-area {self.text} needs the side of a pixel in such a unit: --pixel tells it")
        same = pixel.unit == self.unit
        scale = Fraction(1) if same else _exact(Pixel(1, self.unit).micrometres) / _exact(Pixel(1, pixel.unit).micrometres)
        return _within(math.ceil(self.number * (scale / _exact(pixel.size)) ** 2), self.text)


def _exact(number: float | None) -> Fraction:
    """The number as it is written: 0.1 is a tenth."""
    return Fraction(str(number))


def _within(count: int, text: str) -> int:
    if count > _MOST:
        raise ValueError(f"--min-area {text} is more than the {_MOST} pixels that can be told")
    return count


def area(text: str) -> Area:
    """An area as a text tells it: '30' pixels, or with a unit, as '30um2' or '30 µm²'."""
    found = _TEXT.fullmatch(text)
    unit = "pixels" if found is None else pixel_size(f"1{found[2] or ''}").unit
    if found is None or (unit != "pixels" and found[3] is None):
        raise ValueError(f"an area is a number of pixels, or one with a unit and its square, as 30um2: {text!r}")
    return Area(Fraction(found[1]), unit, text.strip())


def in_digits(number: float) -> str:
    """A number by four digits, and by more where it is a thousand or more."""
    if math.isnan(number):
        return "-"
    return f"{number:.0f}" if abs(number) >= 1000 else f"{number:.4g}"


def grains(count: int) -> str:
    """So many grains."""
    return "1 grain" if count == 1 else f"{count or 'no'} grains"


def squared(unit: str) -> str:
    """The unit of areas."""
    return unit if unit == "pixels" else f"{unit}²"
