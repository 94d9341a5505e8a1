"""Netpbm files as bytes: PBM and PGM, plain and raw, in and out.

    picture = morphd.Picture.of_file(open("grains.pgm", "rb").read())
    picture.width, picture.height, picture.maxval, picture.is_set
    open("copy.pgm", "wb").write(picture.file())

This module needs nothing but Python; `numpy.asarray(picture)` makes an array of a picture where NumPy is installed.
"""
from __future__ import annotations

import bisect
import operator
import re
import sys
from array import array
from collections import Counter
from dataclasses import dataclass
from typing import Any

from .errors import Refused

__all__ = ["Picture"]

# White space is TAB, LF, CR and blank. Where one of these stands, nothing else can be meant, so nothing is tried twice.
_WHITE = b" \t\r\n"
_FIELD = rb"[ \t\r\n](?:[ \t\r\n]|#[^\r\n]*+)*+([0-9]++)"
_SET_HEADER = re.compile(rb"P[14]" + 2 * _FIELD + rb"[ \t\r\n]")
_GREY_HEADER = re.compile(rb"P[25]" + 3 * _FIELD + rb"[ \t\r\n]")
_COMMENT = re.compile(rb"#[^\r\n]*")
_COMMENT_APART = re.compile(rb"(?<![^ \t\r\n])#[^\r\n]*")
_BEHIND_DIGITS = re.compile(rb"[^0-9].*", re.DOTALL)
# `bytes.split` takes VT and FF for white space, too: they become a sign that is none.
_NO_OTHER_WHITE = bytes.maketrans(b"\v\f", b"!!")
# What sessions take; a whole file with longer sides is read here, since operators take arrays of any size.
_LONGEST_SIDE, _MOST_SAMPLES = 8192, 1 << 24
_UNPACKED = [bytes(byte >> (7 - bit) & 1 for bit in range(8)) for byte in range(256)]


def _unless(holds: bool, number: int, asked: str) -> None:
    if not holds:
        raise Refused(number, asked)


def _number(digits: bytes) -> int:
    """Their value. Of one that no memory could hold so many samples of, the front is taken, which is over all limits too."""
    return int(digits.lstrip(b"0")[:19] or b"0")


@dataclass(frozen=True)
class Picture:
    """A picture without NumPy.

    Attributes
    ----------
    width, height : int
        Its sides.
    maxval : int
        The greatest level that it can have, 1 of a set.
    is_set : bool
        Whether it is a set (PBM) and not levels (PGM).
    samples : bytes
        Its samples by rows: a byte each, or two with the higher one first where `maxval` is over 255. 1 is in a set.
    """

    width: int
    height: int
    maxval: int
    is_set: bool
    samples: bytes

    @classmethod
    def of_file(cls, data: bytes) -> Picture:
        """The picture in the bytes of a PBM or PGM file.

        Parameters
        ----------
        data : bytes

        Returns
        -------
        Picture

        Raises
        ------
        Refused
            20 to 26, where they are no such file: by the number that a session refuses them by. A whole file over the limits of
            sessions is read.
        """
        magic, asked = data[:2], "a Netpbm file"
        _unless(magic in (b"P1", b"P2", b"P4", b"P5"), 20, asked)
        is_set = magic in (b"P1", b"P4")
        header = (_SET_HEADER if is_set else _GREY_HEADER).match(data)
        if header is None:
            raise Refused(21, asked)
        width, height, maxval = ([_number(field) for field in header.groups()] + [1])[:3]
        _unless(width > 0 and height > 0, 22, asked)
        try:
            _unless(1 <= maxval <= 65535, 23, asked)
            read = _plain if magic in (b"P1", b"P2") else _raw
            return cls(width, height, maxval, is_set, read(data[header.end() :], width, height, 0 if is_set else maxval))
        except Refused as fault:
            if max(width, height) > _LONGEST_SIDE or width * height > _MOST_SAMPLES:
                raise Refused(22, f"{fault.asked} of {height} x {width}, refused by {fault.number} {fault.word} as well") from None
            raise

    @classmethod
    def of_array(cls, image: Any, maxval: int | None = None) -> Picture:
        """The picture of an array of bool, uint8 or uint16 with two axes, where NumPy is installed.

        Parameters
        ----------
        image : array_like
        maxval : int, optional
            The type's greatest value if left out.

        Returns
        -------
        Picture
        """
        import numpy as np

        held = np.asarray(image)
        if held.ndim != 2 or not (held.dtype == bool or held.dtype.newbyteorder("=") in (np.uint8, np.uint16)):
            raise TypeError(f"a picture is made of bool, uint8 or uint16 with two axes, not of {held.dtype} with {held.ndim}")
        is_set = held.dtype == bool
        top = 1 if is_set else int(np.iinfo(held.dtype).max) if maxval is None else operator.index(maxval)
        _unless(held.size > 0, 22, "a picture")
        _unless(1 <= top <= 65535, 23, "a picture")
        _unless(is_set or int(held.max()) <= top, 25, "a picture")
        return cls(held.shape[1], held.shape[0], top, is_set, held.astype("u1" if top < 256 else ">u2").tobytes())

    def file(self) -> bytes:
        """The bytes of its raw PBM or PGM file."""
        if not self.is_set:
            return b"P5\n%d %d\n%d\n" % (self.width, self.height, self.maxval) + self.samples
        rows = (self.samples[at : at + self.width] for at in range(0, len(self.samples), self.width))
        return b"P4\n%d %d\n" % (self.width, self.height) + b"".join(map(_packed, rows))

    def rows(self) -> list[list[int]]:
        """Its samples as lists of numbers, one for each row."""
        levels = list(self.samples if self.maxval < 256 else _wide(self.samples))
        return [levels[at : at + self.width] for at in range(0, len(levels), self.width)]

    def counts(self) -> dict[int, int]:
        """How many of its samples have each level that occurs."""
        return dict(Counter(self.samples if self.maxval < 256 else _wide(self.samples)))

    def __array__(self, dtype: Any = None, copy: bool | None = None) -> Any:
        import numpy as np

        held = np.frombuffer(self.samples, "u1" if self.maxval < 256 else ">u2").reshape(self.height, self.width)
        made = held.astype(bool if self.is_set else "u1" if self.maxval < 256 else "u2")
        return made if dtype is None else made.astype(dtype)


def _wide(raster: bytes) -> array[int]:
    """Samples of two bytes, the higher one first."""
    made = array("H", raster)
    if sys.byteorder == "little":
        made.byteswap()
    return made


def _bytes_of(levels: array[int]) -> bytes:
    """Two bytes for each sample, the higher one first."""
    return _wide(levels.tobytes()).tobytes()


def _packed(row: bytes) -> bytes:
    """A row of pixels as bits, filled up to whole bytes."""
    length = (len(row) + 7) // 8
    return int(row.translate(b"01" + bytes(254)).decode("ascii").ljust(8 * length, "0"), 2).to_bytes(length, "big")


def _plain(raster: bytes, width: int, height: int, maxval: int) -> bytes:
    """The samples of a plain raster; a maxval of 0 stands for a set. Its places are looked at from the first to the last."""
    return _plain_levels(raster, width * height, maxval) if maxval else _plain_pixels(raster, width * height)


def _plain_pixels(raster: bytes, count: int) -> bytes:
    """The pixels of a plain raster, between which nothing has to stand."""
    asked, blank = "a plain PBM file", _WHITE + b"#"
    text = _COMMENT.sub(b"#", raster)
    pixels = text.translate(None, blank)[:count]
    _unless(not pixels.strip(b"01"), 25, asked)
    _unless(len(pixels) == count, 24, asked)
    end = bisect.bisect_left(range(len(text)), count, key=lambda place: len(text[:place].translate(None, blank)))
    _unless(text[end : end + 1] in _WHITE, 26, asked)
    return pixels.translate(bytes(48) + b"\0\1" + bytes(206))


def _plain_levels(raster: bytes, count: int, maxval: int) -> bytes:
    """The samples of a plain raster, each a word of digits. Behind the digits of the last one there may stand a fault of its own."""
    asked = "a plain PGM file"
    text = _COMMENT_APART.sub(b"", raster.translate(_NO_OTHER_WHITE))
    words = text.split(None, min(count, len(text)))[:count]
    last = words[-1] if len(words) == count else b""
    if last:
        words[-1] = _BEHIND_DIGITS.sub(b"", last)
    _unless(all(map(bytes.isdigit, words)), 25, asked)
    levels = list(map(_number, words))
    _unless(max(levels, default=0) <= maxval, 25, asked)
    _unless(len(words) == count, 24, asked)
    _unless(last.isdigit(), 26, asked)
    return bytes(levels) if maxval < 256 else _bytes_of(array("H", levels))


def _raw(raster: bytes, width: int, height: int, maxval: int) -> bytes:
    """The samples of a raw raster; a maxval of 0 stands for a set."""
    asked, across = "a raw Netpbm file", (width + 7) // 8 if not maxval else width * (1 if maxval < 256 else 2)
    samples = raster[: height * across]
    _unless(len(samples) == height * across, 24, asked)
    if maxval and maxval not in (255, 65535):
        _unless(max(samples if maxval < 256 else _wide(samples)) <= maxval, 25, asked)
    _unless(len(raster) == len(samples), 26, asked)
    if maxval:
        return samples
    rows = (samples[at : at + across] for at in range(0, len(samples), across))
    return b"".join(b"".join(map(_UNPACKED.__getitem__, row))[:width] for row in rows)
