"""Measures of the components of a labelled array, by NumPy: centroids, perimeters, Feret diameters and samples of an image.

All come from the runs of one label in the rows of the array. The work grows with the pixels and with the runs, which are sorted, and
for Feret diameters with the corners of convex hulls, of which a component of n rows and columns has some n to the power of 2/3.
"""
from __future__ import annotations

from typing import Any, NamedTuple

import numpy as np
from numpy.typing import NDArray

Labels = NDArray[np.int32]
Numbers = NDArray[np.int64]
Reals = NDArray[np.float64]


class Runs(NamedTuple):
    """The runs of one label in the rows of an array, in the order of its rows: their labels, rows, first columns, and the columns
    behind their last ones."""

    label: Numbers
    row: Numbers
    begin: Numbers
    end: Numbers


def runs_of(labels: Labels) -> Runs:
    """The runs of an array, without those of the label 0."""
    rows, columns = labels.shape
    is_first = np.ones((rows, columns), np.bool_)
    np.not_equal(labels[:, 1:], labels[:, :-1], out=is_first[:, 1:])
    begins = np.flatnonzero(is_first)
    ends = np.append(begins[1:], rows * columns)
    held = labels.ravel().take(begins)
    is_in = held > 0
    begins, ends, held = begins[is_in], ends[is_in], held[is_in]
    row = begins // columns
    return Runs(held.astype(np.int64), row, begins - row * columns, ends - row * columns)


def _sums(runs: Runs, count: int, each: Numbers) -> Reals:
    """The sum of a number of each run, for each label. It is exact up to 2 to the 53rd."""
    return np.asarray(np.bincount(runs.label, each, count + 1)[1:], np.float64)


def places_and_boxes(runs: Runs, count: int) -> dict[str, Numbers]:
    """Of each label the column and row of its first pixel, its area, and its box with both ends: what the library tells of components."""
    order = np.argsort(runs.label, kind="stable")
    label, row, begin, end = (each[order] for each in runs)
    starts = np.searchsorted(label, np.arange(1, count + 1))
    if not count:
        return dict.fromkeys(("x", "y", "area", "left", "top", "right", "bottom"), np.zeros(0, np.int64))
    return {
        "x": begin[starts], "y": row[starts], "area": np.add.reduceat(end - begin, starts), "left": np.minimum.reduceat(begin, starts),
        "top": row[starts], "right": np.maximum.reduceat(end, starts) - 1, "bottom": row[np.append(starts[1:], len(label)) - 1],
    }


def centroids(runs: Runs, area: Numbers) -> tuple[Reals, Reals]:
    """The mean column and the mean row of each component."""
    length = runs.end - runs.begin
    across = _sums(runs, len(area), length * (runs.begin + runs.end - 1)) / 2
    return across / area, _sums(runs, len(area), length * runs.row) / area


def perimeters(labels: Labels, runs: Runs, count: int) -> Numbers:
    """How many sides of pixels part each component from what is no pixel of it. A run along rows, or along columns, has two."""
    along: Numbers = np.bincount(runs.label, minlength=count + 1)
    down = np.bincount(labels[:1].ravel(), minlength=count + 1) + np.bincount(
        labels[1:][labels[1:] != labels[:-1]], minlength=count + 1)
    return 2 * (along + down)[1:]


def _envelope(line: Numbers, place: Numbers, value: Numbers) -> NDArray[np.intp]:
    """Which points are the corners of the lower convex hull of their line. Points are sorted by their lines, and by their places
    there; a value is what is to be low.

    A point that is not under the straight line between those beside it is no corner, whatever else goes with it. So all of these go
    at once, until none is left; lines of which none went are done.
    """
    kept, done = np.arange(len(line)), [np.empty(0, np.intp)]
    while len(kept):
        at, x, y = line[kept], place[kept], value[kept]
        inner = np.flatnonzero((at[1:-1] == at[:-2]) & (at[1:-1] == at[2:])) + 1
        before, behind = inner - 1, inner + 1
        turn = (x[inner] - x[before]) * (y[behind] - y[inner]) - (y[inner] - y[before]) * (x[behind] - x[inner])
        gone = inner[turn <= 0]
        has_changed = np.zeros(int(at[-1]) + 1, np.bool_)
        has_changed[at[gone]] = True
        stays = np.ones(len(kept), np.bool_)
        stays[gone] = False
        is_open = has_changed[at]
        done.append(kept[~is_open])
        kept = kept[stays & is_open]
    return np.sort(np.concatenate(done))


def _outlines(runs: Runs) -> tuple[Numbers, Numbers, Numbers, Numbers]:
    """The corners of pixels furthest left and right of each component, on each line between two rows: the label, the line, and the
    column on both sides."""
    order = np.lexsort((runs.row, runs.label))
    label, row, begin, end = (each[order] for each in runs)
    is_first = np.ones(len(label), np.bool_)
    is_first[1:] = (label[1:] != label[:-1]) | (row[1:] != row[:-1])
    starts = np.flatnonzero(is_first)
    label, row = label[starts], row[starts]
    left, right = np.minimum.reduceat(begin, starts), np.maximum.reduceat(end, starts)
    # each row has the line above it, and that below it too where no pixel lies in the next row
    goes_on = (label[1:] == label[:-1]) & (row[1:] == row[:-1] + 1)
    is_last = np.append(~goes_on, True)
    count = 1 + is_last
    line = np.repeat(np.arange(len(label)), count)
    is_below = np.zeros(len(line), np.bool_)
    is_below[np.cumsum(count)[is_last] - 1] = True
    has_above = np.append(False, goes_on)
    least, most = left.copy(), right.copy()
    least[has_above] = np.minimum(left[has_above], left[np.flatnonzero(has_above) - 1])
    most[has_above] = np.maximum(right[has_above], right[np.flatnonzero(has_above) - 1])
    return label[line], row[line] + is_below, np.where(is_below, left[line], least[line]), np.where(is_below, right[line], most[line])


def feret_diameters(runs: Runs, count: int) -> Reals:
    """The greatest distance of two corners of pixels of each component."""
    if not count:
        return np.zeros(0)
    label, line, left, right = _outlines(runs)
    on_left, on_right = _envelope(label, line, left), _envelope(label, line, -right)
    label = np.concatenate((label[on_left], label[on_right]))
    order = np.argsort(label, kind="stable")
    label = label[order]
    x, y = np.concatenate((left[on_left], right[on_right]))[order], np.concatenate((line[on_left], line[on_right]))[order]
    behind = np.searchsorted(label, label, "right")
    best, first, step = np.zeros(len(label), np.int64), np.arange(len(label)), 1
    while len(first := first[first + step < behind[first]]):
        other = first + step
        best[first] = np.maximum(best[first], (x[first] - x[other]) ** 2 + (y[first] - y[other]) ** 2)
        step += 1
    squares: Numbers = np.maximum.reduceat(best, np.searchsorted(label, np.arange(1, count + 1)))
    return np.sqrt(squares, dtype=np.float64)


def sample_measures(runs: Runs, area: Numbers, image: NDArray[Any]) -> dict[str, NDArray[Any]]:
    """The mean, the least and the greatest sample of an image on each component."""
    columns = image.shape[1]
    if not len(area):
        return {"intensity_mean": np.zeros(0), "intensity_min": np.zeros(0, image.dtype), "intensity_max": np.zeros(0, image.dtype)}
    flat = np.append(image.ravel(), image.dtype.type(0))
    ends = np.column_stack((runs.row * columns + runs.begin, runs.row * columns + runs.end)).ravel()
    order = np.argsort(runs.label, kind="stable")
    starts = np.searchsorted(runs.label[order], np.arange(1, len(area) + 1))

    def gathered(gather: Any, samples: NDArray[Any]) -> NDArray[Any]:
        made: NDArray[Any] = gather.reduceat(gather.reduceat(samples, ends)[::2][order], starts)
        return made

    return {
        "intensity_mean": gathered(np.add, flat.astype(np.float64)) / area,
        "intensity_min": gathered(np.minimum, flat), "intensity_max": gathered(np.maximum, flat),
    }
