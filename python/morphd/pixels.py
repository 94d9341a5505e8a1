"""The side of a pixel with its unit, as texts and files tell it.

    pixel_size("0.32um")                # Pixel(size=0.32, unit='µm')
    str(pixel_size((0.5, "mm")))        # '0.5 mm'

This module needs nothing but Python.
"""
from __future__ import annotations

import re
from typing import Any, NamedTuple, SupportsFloat

__all__ = ["Pixel", "pixel_size"]

# A number as Python writes it, and a unit of letters alone.
_TEXT = re.compile(r"\s*((?:[0-9]+\.?[0-9]*|\.[0-9]+)(?:[eE][-+]?[0-9]+)?)\s*([^\W\d_]*)\s*")
# The micro sign (U+00B5) and the Greek letter (U+03BC) are one unit, and so are the other words for it.
_SAME = {
    "": "pixels", "px": "pixels", "pixel": "pixels", "um": "µm", "μm": "µm", "micron": "µm", "microns": "µm", "inch": "in",
    "inches": "in",
}
_MICROMETRES = {"nm": 1e-3, "µm": 1.0, "mm": 1e3, "cm": 1e4, "m": 1e6, "in": 25400.0}


class Pixel(NamedTuple):
    """The side of a pixel: `size` of `unit`."""

    size: float
    unit: str

    @property
    def micrometres(self) -> float | None:
        """Its side in micrometres; None where the unit is no length."""
        scale = _MICROMETRES.get(self.unit)
        return None if scale is None else self.size * scale

    def __str__(self) -> str:
        return f"{self.size:.9g} {self.unit}"


def pixel_size(pixel: float | str | tuple[float, str]) -> Pixel:
    """The side of a pixel and its unit.

    Parameters
    ----------
    pixel : float, str or (float, str)
        A number, a text as '0.32um', or both apart.

    Returns
    -------
    Pixel
        The unit of a number alone is 'pixels' if it is 1, else 'units'.

    Raises
    ------
    TypeError
        Where it is nothing of that kind.
    ValueError
        Where it is no number and a unit, or not longer than 0.
    """
    size, unit = _apart(pixel)
    if not 0 < size < float("inf"):
        raise ValueError(f"a pixel is longer than 0: {pixel!r}")
    return Pixel(size, _SAME.get(unit, unit))


def _apart(pixel: Any) -> tuple[float, str]:
    """The number and the unit, as they are told."""
    if isinstance(pixel, str):
        found = _TEXT.fullmatch(pixel)
        if found is None:
            raise ValueError(f"a pixel is a number with a unit, as 0.32um: {pixel!r}")
        return float(found[1]), found[2]
    if isinstance(pixel, SupportsFloat):
        size = float(pixel)
        return size, "pixels" if size == 1 else "units"
    if isinstance(pixel, (tuple, list)) and len(pixel) == 2:
        number, unit = pixel
        if isinstance(number, SupportsFloat) and isinstance(unit, str):
            return float(number), unit
    raise TypeError(f"a pixel is a number, a text as '0.32um', or both apart, as (0.32, 'um'): {pixel!r}")
