"""Components by several threads: bands of rows are labelled by the library side by side, and joined across their seams.

What the library makes of each band is proved. What joins them is NumPy's, and tested: the result is that of one band, number for
number, since components are numbered by their first pixels and each has its own in the first of its bands.
"""
from __future__ import annotations

from collections.abc import Iterator
from functools import partial
from typing import NamedTuple

import numpy as np
from numpy.typing import NDArray

from . import _geodesic_calls, _pieces, _threads
from ._calls import Field, Samples
from ._geodesic_calls import REGION
from .footprints import Footprint

# The least rows that are worth a thread of their own.
LEAST_ROWS = 256
# So many rows are given their numbers at once, so that places of 8 bytes for each of their pixels stay in the cache.
_ROWS_AT_ONCE = 64
_X, _Y, _AREA, _LEFT, _TOP, _RIGHT, _BOTTOM = range(len(REGION))

Numbers = NDArray[np.uint32]


class _Seams(NamedTuple):
    """Components that go on across seams: the number of each in its band, of all bands one after another, and the least of those that
    it hangs together with."""

    numbers: NDArray[np.int64]
    least: NDArray[np.int64]


def _bands(field: Field, workers: int) -> list[slice]:
    """The rows of each band, as many as there are workers where they are worth it; one band where an array is too low, or has more than the library takes."""
    height = field.samples.shape[0]
    count = min(workers, height // LEAST_ROWS) if _pieces.fits(field.samples.shape) else 1
    marks = [height * part // count for part in range(count + 1)] if count > 1 else [0, height]
    return [slice(a, b) for a, b in zip(marks, marks[1:])]


def _pairs(above: NDArray[np.int64], below: NDArray[np.int64], steps: list[int]) -> Iterator[tuple[int, int]]:
    """The pairs of numbers that hang together in the last row of a band and the first one of the next, each of them once. One row
    down, pixels hang together with those so many columns to the right."""
    width, found = len(above), []
    for step in steps:
        upper = above[max(-step, 0): width - max(step, 0)]
        lower = below[max(step, 0): width - max(-step, 0)]
        meet = (upper > 0) & (lower > 0)
        found.append(upper[meet] << 32 | lower[meet])
    pairs = np.unique(np.concatenate(found))
    return zip((pairs >> 32).tolist(), (pairs & 0xFFFFFFFF).tolist())


def _least(pairs: list[tuple[int, int]]) -> dict[int, int]:
    """Of each number in pairs the least of those that it hangs together with."""
    above: dict[int, int] = {}

    def top(number: int) -> int:
        while (next_one := above.setdefault(number, number)) != number:
            above[number] = above.setdefault(next_one, next_one)
            number = next_one
        return number

    for one, other in pairs:
        a, b = top(one), top(other)
        above[max(a, b)] = min(a, b)
    return {number: top(number) for number in above}


def _seams(out: Samples, rows: list[slice], before: list[int], footprint: Footprint) -> _Seams:
    """What goes on across the seams. Before each band there are so many numbers of those above it."""
    steps = [column for row, column in footprint.offsets if row == 1]
    pairs: list[tuple[int, int]] = []
    for at in range(len(rows) - 1):
        above, below = (out[row].astype(np.int64) for row in (rows[at].stop - 1, rows[at + 1].start))
        above[above > 0] += before[at]
        below[below > 0] += before[at + 1]
        pairs += _pairs(above, below, steps)
    found = _least(pairs)
    return _Seams(np.fromiter(found, np.int64, len(found)), np.fromiter(found.values(), np.int64, len(found)))


def _renumbered(seams: _Seams, count: int) -> Numbers:
    """The number that each of the bands' numbers gets, from 0 for none on."""
    is_first = np.ones(count + 1, np.bool_)
    is_first[0] = False
    is_first[seams.numbers] = seams.least == seams.numbers
    numbers = np.cumsum(is_first, dtype=np.uint32)
    numbers[seams.numbers] = numbers[seams.least]
    return numbers


def _number(band: Samples, numbers: Numbers) -> None:
    """Gives each pixel of a band the number of its component."""
    for row in range(0, len(band), _ROWS_AT_ONCE):
        some = band[row: row + _ROWS_AT_ONCE]
        # without a mode np.take writes into an array of its own first
        np.take(numbers, some, out=some, mode="clip")


def _join(out: Samples, counts: list[int], rows: list[slice], footprint: Footprint, workers: int) -> tuple[_Seams, Numbers]:
    """Numbers all pixels by what the bands have, so many components each."""
    before = [sum(counts[:at]) for at in range(len(counts))]
    seams = _seams(out, rows, before, footprint)
    numbers = _renumbered(seams, sum(counts))
    tasks = []
    for band, first, count in zip(rows, before, counts):
        own = np.concatenate([numbers[:1], numbers[first + 1: first + count + 1]])
        if count and (own[-1] != count or (own != np.arange(count + 1)).any()):
            tasks.append(partial(_number, out[band], own))
    _threads.run(tasks, workers)
    return seams, numbers


def labels(field: Field, footprint: Footprint, workers: int) -> tuple[Samples, int]:
    """The labels of a set, from 1 by the first places of its components, and how many they are."""
    out, rows = np.empty(field.samples.shape, np.uint32), _bands(field, workers)
    if len(rows) == 1:
        return _geodesic_calls.labels(field, footprint, out)

    def labelled(band: slice) -> int:
        return _geodesic_calls.labels(field._replace(samples=field.samples[band]), footprint, out[band])[1]

    _, numbers = _join(out, _threads.each(labelled, rows, workers), rows, footprint, workers)
    return out, int(numbers.max())


def regions(field: Field, footprint: Footprint, workers: int) -> tuple[Samples, Samples]:
    """The labels of a set, and a row of the numbers of `REGION` for each of its components, by their first places."""
    out, rows = np.empty(field.samples.shape, np.uint32), _bands(field, workers)
    if len(rows) == 1:
        return _geodesic_calls.regions(field, footprint, out)

    def measured(band: slice) -> Samples:
        told = _geodesic_calls.regions(field._replace(samples=field.samples[band]), footprint, out[band])[1]
        told[:, [_Y, _TOP, _BOTTOM]] += np.uint32(band.start)
        return told

    told = _threads.each(measured, rows, workers)
    seams, _ = _join(out, [len(it) for it in told], rows, footprint, workers)
    return out, _joined_rows(np.concatenate(told), seams)


def _joined_rows(told: Samples, seams: _Seams) -> Samples:
    """The rows of all bands, of which those of one component are made one."""
    goes = seams.numbers != seams.least
    parts, to = told[seams.numbers[goes] - 1], seams.least[goes] - 1
    np.add.at(told[:, _AREA], to, parts[:, _AREA])
    for column in (_LEFT, _TOP):
        np.minimum.at(told[:, column], to, parts[:, column])
    for column in (_RIGHT, _BOTTOM):
        np.maximum.at(told[:, column], to, parts[:, column])
    return np.delete(told, seams.numbers[goes] - 1, axis=0)
