"""Pictures with the outlines and the numbers of grains, as PNG files.

    drawing = drawn(image, labels)
    Path("outlines.png").write_bytes(png(drawing.pixels))

It takes NumPy and nothing else: the ten digits stand below, and zlib packs a PNG. Outlines lie on the grains' own pixels. Those of
grains that are measured are orange, and those of others blue and dashed, so nobody needs to tell the colours apart.
"""
from __future__ import annotations

import struct
import zlib
from typing import Any, NamedTuple

import numpy as np
from numpy.typing import NDArray

Pixels = NDArray[np.uint8]
Labels = NDArray[np.integer[Any]]

# Of Okabe and Ito's colours, which most people tell apart.
ORANGE, BLUE = (230, 159, 0), (86, 180, 233)
INK, RIM = (255, 255, 255), (0, 0, 0)
# Seven rows of five pixels for each digit.
_DIGITS = [
    "01110 10001 10011 10101 11001 10001 01110", "00100 01100 00100 00100 00100 00100 01110",
    "01110 10001 00001 00110 01000 10000 11111", "11111 00010 00100 00010 00001 10001 01110",
    "00010 00110 01010 10010 11111 00010 00010", "11111 10000 11110 00001 00001 10001 01110",
    "00110 01000 10000 11110 10001 10001 01110", "11111 00001 00010 00100 01000 01000 01000",
    "01110 10001 10001 01110 10001 10001 01110", "01110 10001 10001 01111 00001 00010 01100",
]
_FONT = [np.array([[int(bit) for bit in row] for row in digit.split()], bool) for digit in _DIGITS]
# A picture is drawn larger until its longer side is about so long, but never longer than twice that.
SHORT, LONG = 800, 1600
# One more pixel of an outline, and of a digit, for so many of the longer side; but an outline has a part of a usual grain at most.
_STROKE, _PART = 700, 16
# The levels of the pixels outside and inside a set, so that outlines stand out from both.
_DARK, _BRIGHT = 40, 200
# In a picture that is drawn smaller, a number is left out where its grain has less than this part of its height or width.
_CROWDED = 0.5
# How long a dash is, and how far the next one lies behind its begin.
_DASH, _TURN = 3, 5


class Drawing(NamedTuple):
    """A picture with outlines: `pixels` by rows with three colours each, and how many times as large they are as the picture's.

    Of a picture that was drawn smaller `scale` is negative: -2 stands for a half. There `unnumbered` grains are too small for their
    numbers.
    """

    pixels: Pixels
    scale: int
    unnumbered: int = 0


def greys(image: NDArray[Any]) -> Pixels:
    """A picture's samples as greys: bytes as they are, others from the least to the greatest of them."""
    if image.dtype == np.bool_:
        return np.where(image, _BRIGHT, _DARK).astype(np.uint8)
    if image.dtype == np.uint8:
        return image
    low, high = int(image.min()), int(image.max())
    return ((image.astype(np.int64) - low) * 255 // max(high - low, 1)).astype(np.uint8)


def edges(labels: Labels, thickness: int) -> NDArray[np.bool_]:
    """The pixels of grains that have another label, or the frame, within so many steps to a side."""
    wide = np.pad(labels, thickness)
    rows, columns = labels.shape
    found = np.zeros(labels.shape, bool)
    for far in range(1, thickness + 1):
        for down, right in ((-far, 0), (far, 0), (0, -far), (0, far)):
            top, left = thickness + down, thickness + right
            found |= labels != wide[top : top + rows, left : left + columns]
    outlines: NDArray[np.bool_] = found & (labels > 0)
    return outlines


def digits(number: int, size: int) -> tuple[NDArray[np.bool_], NDArray[np.bool_]]:
    """A number as a bitmap with a margin of `size` pixels, and what its digits cover with the rim around them."""
    columns = [column for digit in str(number) for column in (_FONT[int(digit)], np.zeros((7, 1), bool))]
    ink = np.pad(np.hstack(columns[:-1]), 1)
    wide = np.pad(ink, 1)
    rows, count = ink.shape
    rim = np.logical_or.reduce([wide[down : down + rows, right : right + count] for down in range(3) for right in range(3)])
    return ink.repeat(size, 0).repeat(size, 1), rim.repeat(size, 0).repeat(size, 1)


def places(labels: Labels, count: int) -> NDArray[np.int64]:
    """The row, the column and the greatest size in rows and columns that a number has at each of the grains 1 to `count`.

    The place is the grain's centre of area, or the pixel of the grain that is nearest to it. A grain that is not there has zeros.
    """
    rows, columns = np.nonzero(labels)
    order = np.argsort(labels[rows, columns], kind="stable")
    rows, columns = rows[order], columns[order]
    ends = np.cumsum(np.bincount(labels[rows, columns], minlength=count + 1)[: count + 1])
    found = np.zeros((count, 4), np.int64)
    for grain in range(count):
        down, right = rows[ends[grain] : ends[grain + 1]], columns[ends[grain] : ends[grain + 1]]
        if down.size:
            nearest = np.argmin((down - down.mean()) ** 2 + (right - right.mean()) ** 2)
            found[grain] = down[nearest], right[nearest], np.ptp(down) + 1, np.ptp(right) + 1
    return found


def _lay(pixels: Pixels, number: int, place: NDArray[np.int64], largest: int) -> None:
    """Draws a number in the middle of its grain, over two thirds of it at most unless it is tiny, and within the frame."""
    row, column, high, wide = place.tolist()
    size = max(1, min(largest, 2 * high // (3 * 9), 2 * wide // (3 * (6 * len(str(number)) + 1))))
    ink, rim = digits(number, size)
    rows, columns = pixels.shape[:2]
    top = max(0, min(row - ink.shape[0] // 2, rows - ink.shape[0]))
    left = max(0, min(column - ink.shape[1] // 2, columns - ink.shape[1]))
    below = pixels[top : top + ink.shape[0], left : left + ink.shape[1]]
    ink, rim = ink[: below.shape[0], : below.shape[1]], rim[: below.shape[0], : below.shape[1]]
    below[rim] = RIM
    below[ink] = INK


def usual_side(labels: Labels) -> float:
    """The root of the area of a usual grain; 0 where there is none."""
    areas = np.bincount(labels.ravel())[1:]
    return float(np.sqrt(np.median(areas[areas > 0]))) if areas.any() else 0.0


def scale_of(shape: tuple[int, ...], side: float, count: int, fits: bool) -> int:
    """How many times as large a picture is drawn, negative for smaller: so that it is not tiny, and numbers fit into usual grains."""
    longer = max(shape)
    if fits and longer > LONG:
        return -(-(longer // -LONG))
    needed = int(np.ceil((6 * len(str(count)) + 1) / side)) if side else 1
    return max(1, min(max(SHORT // longer, needed), LONG // longer))


def drawn(image: NDArray[Any], labels: Labels, others: Labels | None = None, *, fits: bool = False) -> Drawing:
    """A picture with the outlines and the numbers of its grains.

    Parameters
    ----------
    image : ndarray
        Of bool, uint8 or uint16, with two axes.
    labels : ndarray
        The number of the grain at each pixel, 0 outside.
    others : ndarray, optional
        Labels of grains that are not measured: their outlines are dashed, and they have no numbers.
    fits : bool
        Whether a picture over 1,600 pixels a side is drawn smaller.

    Returns
    -------
    Drawing
    """
    count, side = int(labels.max(initial=0)), usual_side(labels)
    scale = scale_of(image.shape, side, count, fits)
    grey, labels = _resized(greys(image), scale), _resized(labels, scale)
    pixels = np.repeat(grey[:, :, np.newaxis], 3, axis=2)
    larger = side * scale if scale > 0 else side / -scale
    thickness = max(1, min(max(grey.shape) // _STROKE, int(larger) // _PART))
    if others is not None:
        down, right = np.indices(grey.shape, sparse=True)
        pixels[edges(_resized(others, scale), thickness) & ((down + right) // thickness % _TURN < _DASH)] = BLUE
    pixels[edges(labels, thickness)] = ORANGE
    laid = 0
    for number, place in enumerate(places(labels, count), 1):
        _, _, high, wide = place.tolist()
        if high and (scale > 0 or min(high / 9, wide / (6 * len(str(number)) + 1)) >= _CROWDED):
            _lay(pixels, number, place, max(2, max(grey.shape) // _STROKE))
            laid += 1
    return Drawing(pixels, scale, count - laid)


def _resized(array: NDArray[Any], scale: int) -> NDArray[Any]:
    """The array with each item `scale` times in each direction, or one of so many of them."""
    if scale < 0:
        return array[-scale // 2 :: -scale, -scale // 2 :: -scale]
    return array.repeat(scale, 0).repeat(scale, 1) if scale > 1 else array


def _chunk(kind: bytes, data: bytes) -> bytes:
    return struct.pack(">I", len(data)) + kind + data + struct.pack(">I", zlib.crc32(kind + data))


def png(pixels: Pixels) -> bytes:
    """The PNG file of pixels by rows, with red, green and blue."""
    rows, columns, _ = pixels.shape
    # each row less the one above it, as PNG's filter number 2 has it
    packed = np.full((rows, 1 + 3 * columns), 2, np.uint8)
    lines = pixels.reshape(rows, -1)
    packed[:, 1:] = lines
    packed[1:, 1:] -= lines[:-1]
    head = struct.pack(">IIBBBBB", columns, rows, 8, 2, 0, 0, 0)
    body = _chunk(b"IHDR", head) + _chunk(b"IDAT", zlib.compress(packed.tobytes(), 6)) + _chunk(b"IEND", b"")
    return b"\x89PNG\r\n\x1a\n" + body
