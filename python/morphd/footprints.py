"""Footprints: the flat structuring elements that operators look through.

    import morphd
    morphd.disk(5)                                  # a disc eleven pixels across
    morphd.line(41, 45)                             # a diagonal line, rising to the right
    morphd.Footprint([[0, 1], [1, 1]], origin=(1, 0))
    -morphd.Footprint([[1, 1, 0]])                  # the same, reflected at its origin

Wherever a function takes a footprint it also takes a 2-D array or nested lists: what is not 0 belongs to it, and its
origin is row ``rows // 2`` and column ``columns // 2``, as SciPy and OpenCV have it. It takes a drawing, too, as `str` of a
footprint gives it: ``"010\\n111\\n010"``. An operator sees, at a place p, the samples at p + b for each pixel b counted from
the origin.

This module needs nothing but Python.
"""
from __future__ import annotations

import math
from collections.abc import Iterable, Sequence
from dataclasses import FrozenInstanceError
from functools import cached_property
from typing import Any, NamedTuple

from ._numbers import real, whole
from .errors import Refused

__all__ = ["Footprint", "Reach", "diamond", "disk", "line", "octagon", "rectangle", "square"]

LONGEST_SIDE = 255


class Reach(NamedTuple):
    """How far something looks from a place, in rows and columns, none of them negative."""

    up: int
    down: int
    left: int
    right: int

    def __add__(self, other: object) -> Reach:
        """The reach of two steps, one behind the other."""
        if not isinstance(other, Reach):
            return NotImplemented
        return Reach(*(mine + theirs for mine, theirs in zip(self, other)))

    def __mul__(self, times: object) -> Reach:
        """The reach of so many steps."""
        if not isinstance(times, int):
            return NotImplemented
        return Reach(*(mine * times for mine in self))

    def turned(self) -> Reach:
        """The reach of the reflected footprint."""
        return Reach(self.down, self.up, self.right, self.left)

    def joined(self, other: Reach) -> Reach:
        """The reach of two looks from one place."""
        return Reach(*(max(mine, theirs) for mine, theirs in zip(self, other)))


def _pixel(value: Any) -> bool:
    """Whether a value of a nested list belongs to the footprint."""
    if hasattr(value, "__len__") and not isinstance(value, (str, bytes)):
        raise ValueError(f"a footprint has two axes, and here is more within a row: {value!r}")
    return real(value, "a pixel of a footprint") != 0


def _row(pixels: Any) -> bytes:
    """A byte for each pixel of a row, which may be drawn in signs."""
    if not isinstance(pixels, str):
        if not hasattr(pixels, "__iter__") or isinstance(pixels, (bytes, bytearray)):
            raise ValueError(f"a footprint has two axes, and this is no row of numbers: {pixels!r}")
        return bytes(map(_pixel, pixels))
    if set(pixels) - {"0", "1"}:
        raise ValueError(f"a footprint is drawn in 0 and 1: {pixels!r}")
    return bytes(map(int, pixels))


def _bitmap_bytes(bitmap: Any) -> tuple[bytes, int, int]:
    """A byte for each pixel, and the sides, of an array, of nested sequences, or of a drawing in 0 and 1."""
    if hasattr(bitmap, "__array__"):
        import numpy

        array = numpy.asarray(bitmap)
        if array.ndim != 2:
            raise ValueError(f"a footprint has two axes, and this array has {array.ndim}")
        if array.dtype.kind not in "biuf":
            raise TypeError(f"a footprint is made of numbers, and this is an array of {array.dtype}")
        return (array != 0).tobytes(), array.shape[0], array.shape[1]
    if not hasattr(bitmap, "__iter__"):
        raise TypeError(f"a footprint is a bitmap, as square(3) or [[1, 1, 1]]: {bitmap!r}")
    rows = [_row(pixels) for pixels in (bitmap.split() if isinstance(bitmap, str) else bitmap)]
    columns = len(rows[0]) if rows else 0
    if any(len(row) != columns for row in rows):
        raise ValueError("the rows of a footprint are equally long")
    return b"".join(rows), len(rows), columns


class Footprint:
    """A bitmap with an origin. It never changes, so it may be a key and go to other threads.

    Parameters
    ----------
    bitmap : array_like or str
        Two axes; what is not 0 belongs to the footprint. Or a drawing of 0 and 1, a line for each row, as `str` gives it.
        1 to 255 rows and columns, at least one pixel.
    origin : (int, int), optional
        Row and column of the origin, inside the bitmap; the middle if left out, rounded up for even sides. The origin
        need not be a pixel of the footprint.

    Attributes
    ----------
    shape : (int, int)
        Rows and columns.
    origin : (int, int)
        Row and column of the origin.
    pixels : bytes
        A byte for each pixel, by rows, 0 or 1.

    Examples
    --------
    >>> from morphd import Footprint
    >>> corner = Footprint([[1, 0], [1, 1]], origin=(1, 0))
    >>> corner.reach
    Reach(up=1, down=0, left=0, right=1)
    >>> print(-corner)
    11
    01
    """

    shape: tuple[int, int]
    origin: tuple[int, int]
    pixels: bytes

    def __init__(self, bitmap: Any, origin: Sequence[int] | None = None) -> None:
        if isinstance(bitmap, Footprint):
            pixels, (rows, columns) = bitmap.pixels, bitmap.shape
            origin = bitmap.origin if origin is None else origin
        else:
            pixels, rows, columns = _bitmap_bytes(bitmap)
        self._keep(pixels, (rows, columns), (rows // 2, columns // 2) if origin is None else origin)

    def _keep(self, pixels: bytes, shape: tuple[int, int], origin: Sequence[int]) -> None:
        (rows, columns), (row, column) = shape, (whole(place, "a row or column of an origin") for place in origin)
        asked = f"a footprint of {rows} x {columns} with its origin at {(row, column)}"
        if not (1 <= rows <= LONGEST_SIDE and 1 <= columns <= LONGEST_SIDE):
            raise Refused(22, asked)
        if not (0 <= row < rows and 0 <= column < columns):
            raise Refused(31, asked)
        if 1 not in pixels:
            raise Refused(32, asked)
        # past `__setattr__`, as a frozen dataclass does it
        vars(self).update(pixels=pixels, shape=(rows, columns), origin=(row, column))

    def __setattr__(self, name: str, value: object) -> None:
        raise FrozenInstanceError(f"a footprint stays as it is: {name} cannot be set")

    def __delattr__(self, name: str) -> None:
        raise FrozenInstanceError(f"a footprint stays as it is: {name} cannot be deleted")

    @classmethod
    def _of(cls, pixels: bytes, shape: tuple[int, int], origin: tuple[int, int]) -> Footprint:
        made = cls.__new__(cls)
        made._keep(pixels, shape, origin)
        return made

    def at(self, origin: Sequence[int]) -> Footprint:
        """This bitmap with its origin in another row and column."""
        return Footprint(self, origin)

    @cached_property
    def offsets(self) -> tuple[tuple[int, int], ...]:
        """Rows and columns of the pixels, counted from the origin, by rows."""
        (_, columns), (row, column) = self.shape, self.origin
        return tuple((at // columns - row, at % columns - column) for at, pixel in enumerate(self.pixels) if pixel)

    @cached_property
    def box(self) -> tuple[int, int, int, int]:
        """The first row, last row, first column and last column with a pixel."""
        rows, columns = self.shape
        held = [self.pixels[row * columns : (row + 1) * columns] for row in range(rows)]
        filled = [row for row in range(rows) if 1 in held[row]]
        left = min(held[row].index(1) for row in filled)
        return filled[0], filled[-1], left, max(held[row].rindex(1) for row in filled)

    @cached_property
    def reach(self) -> Reach:
        """How far it looks up, down, left and right."""
        (top, bottom, left, right), (row, column) = self.box, self.origin
        return Reach(*(max(far, 0) for far in (row - top, bottom - row, column - left, right - column)))

    @property
    def width(self) -> int:
        """The longer side of the least rectangle around its pixels."""
        top, bottom, left, right = self.box
        return max(bottom - top, right - left) + 1

    @property
    def count(self) -> int:
        """How many pixels it has."""
        return self.pixels.count(b"\1")

    @property
    def has_origin(self) -> bool:
        """Whether its origin is one of its pixels."""
        return self.pixels[self.origin[0] * self.shape[1] + self.origin[1]] == 1

    @cached_property
    def is_symmetric(self) -> bool:
        """Whether it is the same when it is reflected at its origin."""
        return sorted(self.offsets) == sorted((-row, -column) for row, column in self.offsets)

    @property
    def bitmap(self) -> Any:
        """The bitmap as a NumPy array of bool, read-only."""
        import numpy

        return numpy.frombuffer(self.pixels, bool).reshape(self.shape)

    def __array__(self, dtype: Any = None, copy: bool | None = None) -> Any:
        return self.bitmap if dtype is None else self.bitmap.astype(dtype)

    @cached_property
    def _reflected(self) -> Footprint:
        (rows, columns), (row, column) = self.shape, self.origin
        return Footprint._of(self.pixels[::-1], self.shape, (rows - 1 - row, columns - 1 - column))

    def __neg__(self) -> Footprint:
        return self._reflected

    def __eq__(self, other: object) -> bool:
        if not isinstance(other, Footprint):
            return NotImplemented
        return (self.pixels, self.shape, self.origin) == (other.pixels, other.shape, other.origin)

    def __hash__(self) -> int:
        return hash((self.pixels, self.shape, self.origin))

    def __reduce__(self) -> tuple[Any, ...]:
        return Footprint._of, (self.pixels, self.shape, self.origin)

    def __repr__(self) -> str:
        return f"<Footprint {self.shape[0]} x {self.shape[1]}, {self.count} pixels, origin {self.origin}>"

    def __str__(self) -> str:
        columns = self.shape[1]
        drawn = "".join("01"[pixel] for pixel in self.pixels)
        return "\n".join(drawn[at : at + columns] for at in range(0, len(drawn), columns))


def _drawn(rows: int, columns: int, pixels: Iterable[bool]) -> Footprint:
    return Footprint._of(bytes(pixels), (rows, columns), (rows // 2, columns // 2))


def _checked(what: str, *sides: float) -> None:
    """Refuses sides that no footprint has before a pixel of it is made."""
    if not all(1 <= side <= LONGEST_SIDE for side in sides):
        raise Refused(22, what)


def rectangle(rows: int, columns: int) -> Footprint:
    """A full rectangle.

    Parameters
    ----------
    rows, columns : int
        Its sides in pixels, 1 to 255.

    Returns
    -------
    Footprint
    """
    height, width = whole(rows, "rows"), whole(columns, "columns")
    _checked(f"a rectangle of {height} x {width}", height, width)
    return _drawn(height, width, [True] * (height * width))


def square(side: int) -> Footprint:
    """A full square.

    Parameters
    ----------
    side : int
        Its side in pixels, 1 to 255.

    Returns
    -------
    Footprint
    """
    return rectangle(side, side)


def disk(radius: float) -> Footprint:
    """A disc: the pixels at most `radius` from the origin.

    Parameters
    ----------
    radius : float
        Its radius in pixels, from 0 to less than 128. A whole radius r makes a disc of 2 r + 1 pixels across, as scikit-image's.

    Returns
    -------
    Footprint
    """
    if not 0 <= (size := real(radius, "radius")) < (LONGEST_SIDE + 1) // 2:
        raise Refused(22, f"a disc of radius {radius}")
    far = range(-int(size), int(size) + 1)
    return _drawn(len(far), len(far), [x * x + y * y <= size * size for y in far for x in far])


def diamond(radius: int) -> Footprint:
    """A square on its corner: the pixels at most `radius` steps from the origin, along rows and columns.

    Parameters
    ----------
    radius : int
        How many steps, 0 to 127.

    Returns
    -------
    Footprint
    """
    size = whole(radius, "radius")
    _checked(f"a diamond of radius {size}", 2 * size + 1)
    far = range(-size, size + 1)
    return _drawn(len(far), len(far), [abs(x) + abs(y) <= size for y in far for x in far])


def octagon(straight: int, slanted: int) -> Footprint:
    """An octagon.

    Parameters
    ----------
    straight : int
        The length of its horizontal and vertical sides, from 1 on.
    slanted : int
        The height, and so the width, of its slanted sides, from 0 on. It is ``straight + 2 * slanted`` pixels across, as
        scikit-image's; 1 to 255.

    Returns
    -------
    Footprint
    """
    flat, cut = whole(straight, "straight"), whole(slanted, "slanted")
    side = flat + 2 * cut
    _checked(f"an octagon of sides {flat} and {cut}", flat, cut + 1, side)
    last = side - 1
    corners = [min(x, last - x) + min(y, last - y) >= cut for y in range(side) for x in range(side)]
    return _drawn(side, side, corners)


def line(length: int, angle: float = 0.0) -> Footprint:
    """A line one pixel thick.

    Parameters
    ----------
    length : int
        How many pixels it has: one for each column where it is closer to a row, else one for each row. 1 to 255.
    angle : float
        In degrees, from a row that goes to the right, counterclockwise as the picture is seen: at 45 it rises to the right.

    Returns
    -------
    Footprint
        Symmetric, with its origin in the middle, for an odd `length`; for an even one the pixel behind the middle is the
        origin.
    """
    count = whole(length, "length")
    _checked(f"a line of {count} pixels", count)
    if not math.isfinite(angle):
        raise ValueError(f"an angle is a number of degrees: {angle}")
    x, y = math.cos(math.radians(angle)), -math.sin(math.radians(angle))
    longest = max(abs(x), abs(y))
    steps = [step - count // 2 for step in range(count)]
    # halves are rounded away from 0, so that the line is symmetric; cosines are cut, so that 45 degrees are a diagonal
    slope = [round(x / longest, 12), round(y / longest, 12)]
    places = [[int(math.copysign(math.floor(abs(part * step) + 0.5), part * step)) for part in slope] for step in steps]
    left, top = (min(place[axis] for place in places) for axis in (0, 1))
    right, bottom = (max(place[axis] for place in places) for axis in (0, 1))
    held = {(row - top, column - left) for column, row in places}
    rows, columns = bottom - top + 1, right - left + 1
    pixels = bytes((row, column) in held for row in range(rows) for column in range(columns))
    return Footprint._of(pixels, (rows, columns), (-top, -left))
