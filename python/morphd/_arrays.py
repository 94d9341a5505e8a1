"""Arrays of the caller as the library takes them, and its samples as arrays of the caller's type.

bool is a set; uint8 and uint16 are levels as they stand. Other integers and floats become their places in rising order
where they have at most 65,536 values: an operator that only compares samples makes the same of them either way.
"""
from __future__ import annotations

import math
import os
from collections.abc import Callable
from contextlib import suppress
from dataclasses import dataclass
from typing import Any

import numpy as np
from numpy.typing import NDArray

from ._calls import Field, Samples
from ._numbers import real, whole
from .errors import Refused

MOST_LEVELS = 65536
_LEVELS = (np.dtype(np.uint8), np.dtype(np.uint16))


def any_array(image: Any) -> NDArray[Any]:
    """The array of an image, with any axes."""
    if isinstance(image, np.ma.MaskedArray):
        raise TypeError("masked arrays are not taken: fill them, and choose by np.where behind the call")
    if isinstance(image, (str, os.PathLike)):
        raise TypeError(f"an image is an array, and this is a path: morphd.read({str(image)!r}) makes one of a picture")
    return np.asarray(image)


def as_array(image: Any, axes: tuple[int, int] | None) -> NDArray[Any]:
    """The array of an image, with two axes unless `axes` says which ones are its rows and columns."""
    array = any_array(image)
    if array.ndim != 2 and axes is None:
        raise ValueError(f"an image has two axes, and this array has {array.ndim}: axes=(ROWS, COLUMNS) says which are a plane's")
    return array


def as_plane(image: Any) -> NDArray[Any]:
    """The array of an image, for functions that take two axes alone."""
    array = any_array(image)
    if array.ndim != 2:
        raise ValueError(f"an image has two axes, and this array has {array.ndim}: take plane after plane")
    return array


@dataclass(frozen=True)
class Reading:
    """An array as the library takes it.

    Attributes
    ----------
    field : Field
        Its samples for the library.
    dtype : numpy.dtype
        The caller's type.
    level_of : callable
        Gives the least level whose value is not less than a number, which is not NaN.
    back : callable or None
        Makes values of levels; None where samples stand as they are.
    outside : int
        The level of the sample outside the frame, where there is one.
    """

    field: Field
    dtype: np.dtype[Any]
    level_of: Callable[[Any], int]
    back: Callable[[Samples], NDArray[Any]] | None = None
    outside: int = 0

    def restored(self, samples: Samples) -> NDArray[Any]:
        """Samples of the result as an array of the caller's type."""
        if self.back is not None:
            samples = self.back(samples)
        if self.field.is_set:
            return samples.view(np.bool_)
        return samples if samples.dtype == self.dtype else samples.astype(self.dtype)


def _plain(array: NDArray[Any], dtype: Any) -> Samples:
    """These samples by rows, without gaps, aligned and in this machine's order of bytes."""
    return np.require(array, dtype, ["C_CONTIGUOUS", "ALIGNED"])


def _outside_whole(cval: Any, least: int, most: int) -> int:
    """A sample outside the frame, among whole numbers."""
    number = real(cval, "cval")
    if not (least <= number <= most and number == math.floor(number)):
        raise ValueError(f"cval is a sample of the image's type, from {least} to {most}: {cval!r}")
    return int(number)


def _outside_float(cval: Any, dtype: np.dtype[Any]) -> Any:
    """A sample outside the frame, among floats: the nearest one. What is too great for the type is no infinity."""
    is_endless = real(cval, "cval") in (math.inf, -math.inf)
    with np.errstate(over="ignore"), suppress(OverflowError):
        held = np.asarray(cval).astype(dtype).reshape(())[()]
        if not np.isnan(held) and np.isinf(held) == is_endless:
            return held
    raise ValueError(f"cval is a sample of the image's type, and {dtype} holds no {cval!r}")


def _least_whole(value: Any) -> int:
    """The least whole number that is not less; for infinities one that is over all samples, or under them."""
    number = real(value, "k")
    return math.ceil(min(max(number, -1), MOST_LEVELS))


def _of_bools(array: NDArray[Any], cval: Any) -> Reading:
    """An array of bool. Where it is a view of bytes, what is not 0 is 1."""
    samples = _plain(array, np.bool_).view(np.uint8)
    if samples.size and samples.max() > 1:
        samples = np.minimum(samples, 1)
    return Reading(Field(samples, 1, True), array.dtype, _least_whole, None, 0 if cval is None else _outside_whole(cval, 0, 1))


def _of_levels(array: NDArray[Any], maxval: Any, cval: Any) -> Reading:
    """An array of uint8 or uint16."""
    most = int(np.iinfo(array.dtype).max)
    top = most if maxval is None else whole(maxval, "maxval")
    if not 1 <= top <= most:
        raise Refused(23, f"maxval {top} for {array.dtype}")
    outside = 0 if cval is None else _outside_whole(cval, 0, top)
    native = array.dtype.newbyteorder("=")
    samples = _plain(array, native)
    if native == np.uint16 and top < 256:
        # the library takes levels of one byte where they fit
        if array.size and samples.max() > top:
            raise Refused(25, f"{array.shape} samples up to {top}")
        samples = samples.astype(np.uint8)
    return Reading(Field(samples, top, False), array.dtype, _least_whole, None, outside)


def _narrowed(levels: NDArray[Any], count: int) -> Field:
    """Places in rising order as samples of the smallest type. The library has two levels at least, so one value has two."""
    return Field(_plain(levels, np.uint8 if count <= 256 else np.uint16), max(count - 1, 1), False)


def _of_range(array: NDArray[Any], low: int, high: int, outside: int) -> Reading:
    """Integers that lie close enough to one another: each is its distance from the least."""
    wide = np.int64 if array.dtype.kind == "i" else np.uint64
    levels = (array.astype(wide) - wide(low)).astype(np.uint16)

    def level_of(value: Any) -> int:
        number = real(value, "k")
        return 0 if number <= low else high - low + 1 if number > high else math.ceil(number) - low

    def back(samples: Samples) -> NDArray[Any]:
        if low == high:
            return np.full(samples.shape, low, array.dtype)
        return (samples.astype(wide) + wide(low)).astype(array.dtype)

    return Reading(_narrowed(levels, high - low + 1), array.dtype, level_of, back, outside - low)


def _place(values: NDArray[Any], value: Any) -> int:
    """How many of the values, in rising order, are less than a number: of integers exactly, of floats as NumPy compares them."""
    if values.dtype.kind == "f":
        return len(values) - int(np.count_nonzero(values >= value))
    number = real(value, "k")
    if number > int(values[-1]):
        return len(values)
    return 0 if number <= int(values[0]) else int(np.searchsorted(values, values.dtype.type(math.ceil(number))))


def _of_values(array: NDArray[Any], cval: Any, what: str) -> Reading:
    """An array of other numbers. The sample outside the frame has a level, too."""
    dtype = array.dtype
    more: list[Any] = []
    if dtype.kind in "iu":
        limits = np.iinfo(dtype)
        more = [] if cval is None else [_outside_whole(cval, int(limits.min), int(limits.max))]
        ends = [int(array.min()), int(array.max()), *more]
        if max(ends) - min(ends) < MOST_LEVELS:
            return _of_range(array, min(ends), max(ends), ends[-1])
    elif np.isnan(array).any():
        raise ValueError(f"{what}: NaN has no place in the order of samples; fill it, and choose by np.where behind the call")
    elif cval is not None:
        more = [_outside_float(cval, dtype)]
    values = np.unique(np.concatenate([array.ravel(), np.asarray(more, dtype)]))
    if len(values) > MOST_LEVELS:
        raise TypeError(f"{what} takes arrays of {dtype} with up to {MOST_LEVELS} values, and this has {len(values)}: "
                        "bring them to uint16")
    field = _narrowed(np.searchsorted(values, array), len(values))
    outside = int(np.searchsorted(values, np.asarray(more, dtype))[0]) if more else 0

    def back(samples: Samples) -> NDArray[Any]:
        # of a single value both levels are that value
        made: NDArray[Any] = values.take(samples, mode="clip")
        return made

    return Reading(field, dtype, lambda value: _place(values, value), back, outside)


def is_taken(dtype: np.dtype[Any]) -> bool:
    """Whether samples of this type go to the library as they are."""
    return dtype == np.bool_ or dtype.newbyteorder("=") in _LEVELS


def check_kind(array: NDArray[Any], what: str, only_compares: bool) -> None:
    """Refuses types that the operator does not take."""
    dtype = array.dtype
    if is_taken(dtype):
        return
    if dtype.kind not in "iuf":
        raise TypeError(f"{what} takes arrays of bool, integers and floats, and this is one of {dtype}")
    if not only_compares:
        raise TypeError(f"{what} takes arrays of bool, uint8 and uint16, and this is one of {dtype}: the order of samples alone does "
                        "not tell its result")


def read(array: NDArray[Any], what: str, maxval: Any, cval: Any = None) -> Reading:
    """The array for the library. `cval` is the sample outside the frame, where it is not None."""
    native = array.dtype.newbyteorder("=")
    if maxval is not None and native not in _LEVELS:
        raise TypeError(f"{what}: maxval goes with uint8 and uint16, and this is an array of {array.dtype}")
    if array.dtype == np.bool_:
        return _of_bools(array, cval)
    return _of_levels(array, maxval, cval) if native in _LEVELS else _of_values(array, cval, what)


def may_be_refused(dtype: np.dtype[Any], maxval: Any) -> bool:
    """Whether samples of this type can be such that an operator refuses them."""
    return dtype != np.bool_ and (maxval is not None or dtype.newbyteorder("=") not in _LEVELS)


def checked_out(out: Any, array: NDArray[Any], dtype: Any) -> NDArray[Any] | None:
    """The caller's array for the result, if he gave one that it fits."""
    if out is None:
        return None
    if not isinstance(out, np.ndarray) or isinstance(out, np.ma.MaskedArray):
        raise TypeError("out is a NumPy array, and no masked one")
    if out.shape != array.shape or out.dtype != dtype:
        raise ValueError(f"out is an array of {dtype} and {array.shape}, and this is one of {out.dtype} and {out.shape}")
    if not out.flags.writeable:
        raise ValueError("out is read-only")
    return out


def direct(out: NDArray[Any] | None, reading: Reading, samples_type: Any) -> Samples | None:
    """`out` as samples that the library can write at once, or None where a copy is needed."""
    if out is None or reading.back is not None or not (out.flags.c_contiguous and out.flags.aligned):
        return None
    held = out.view(np.uint8) if out.dtype == np.bool_ else out
    if held.dtype != samples_type or np.may_share_memory(held, reading.field.samples):
        return None
    return held
