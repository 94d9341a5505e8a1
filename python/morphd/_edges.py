"""What stands outside the frame, for modes other than the library's own.

Samples that see nothing outside are the same in each mode, so a large array is computed as it stands, and then its edges anew, each
with a rim around it. A small one gets a rim as a whole, which is cut off behind.
"""
from __future__ import annotations

from collections.abc import Callable, Iterator
from functools import lru_cache, partial
from typing import Literal, NamedTuple, get_args

import numpy as np
from numpy.typing import NDArray

from . import _library, _pieces, _threads
from ._calls import Call, Field, Flat, Samples
from .footprints import Reach

Mode = Literal["ignore", "reflect", "mirror", "nearest", "wrap", "constant"]
MODES: tuple[Mode, ...] = get_args(Mode)
# An array is large whose sides are so many times as long as the rims on both ends: its edges are at most as much work as the rest.
SIDE_PER_RIMS = 6


class Edges(NamedTuple):
    """A mode, and the sample outside for `constant`, in the library's levels."""

    mode: Mode = "ignore"
    cval: int = 0


class Part(NamedTuple):
    """A run of rows or columns, counted from the array's first one. It may begin before that, and end behind the last."""

    begin: int
    end: int

    def wider(self, before: int, behind: int) -> Part:
        return Part(self.begin - before, self.end + behind)


def _folded(at: NDArray[np.intp], length: int, mode: Mode) -> NDArray[np.intp]:
    if mode == "nearest":
        return at.clip(0, length - 1)
    if mode == "wrap":
        return at % length
    if mode == "mirror":
        period = max(2 * length - 2, 1)
        at %= period
        return np.minimum(at, period - at) if length > 1 else at
    at %= 2 * length
    return np.minimum(at, 2 * length - 1 - at)


@lru_cache(maxsize=16)
def _places(part: Part, length: int, mode: Mode) -> NDArray[np.intp]:
    """Which row or column of so many stands at each place of the part. Pictures of one size ask for the same, so they are kept."""
    places = _folded(np.arange(part.begin, part.end), length, mode)
    places.flags.writeable = False
    return places


def _along(samples: Samples, part: Part, axis: int, mode: Mode) -> Samples:
    """The rows of the part, for axis 0, or its columns."""
    length = samples.shape[axis]
    if 0 <= part.begin and part.end <= length:
        return samples[part.begin : part.end] if axis == 0 else samples[:, part.begin : part.end]
    places = _places(part, length, mode)
    # not by `take`, which would copy all of a transposed array
    return samples[places] if axis == 0 else samples[:, places]


def with_rim(field: Field, reach: Reach, edges: Edges) -> Field:
    """The array with a rim of so many rows and columns."""
    samples = field.samples
    height, width = samples.shape
    up, down, left, right = reach
    if 0 in samples.shape or not any(reach):
        return field
    made = np.empty((up + height + down, left + width + right), samples.dtype)
    middle = made[up : up + height]
    middle[:, left : left + width] = samples
    if edges.mode == "constant":
        middle[:, :left] = middle[:, left + width :] = made[:up] = made[up + height :] = edges.cval
    else:
        columns, rows = _places(Part(-left, width + right), width, edges.mode), _places(Part(-up, height + down), height, edges.mode)
        middle[:, :left], middle[:, left + width :] = samples[:, columns[:left]], samples[:, columns[left + width :]]
        made[:up], made[up + height :] = middle[rows[:up]], middle[rows[up + height :]]
    return field._replace(samples=made)


def _cut(field: Field, rows: Part, columns: Part, edges: Edges) -> Field:
    """Some rows and columns, with what stands outside the array."""
    samples = field.samples
    if edges.mode != "constant":
        cut = _along(_along(samples, rows, 0, edges.mode), columns, 1, edges.mode)
        return field._replace(samples=np.ascontiguousarray(cut))
    made = np.full((rows.end - rows.begin, columns.end - columns.begin), edges.cval, samples.dtype)
    inside = samples[max(rows.begin, 0) : max(rows.end, 0), max(columns.begin, 0) : max(columns.end, 0)]
    made[max(-rows.begin, 0) :, max(-columns.begin, 0) :][: inside.shape[0], : inside.shape[1]] = inside
    return field._replace(samples=made)


def _is_large(shape: tuple[int, ...], reach: Reach) -> bool:
    (height, width), (up, down, left, right) = shape, reach
    return SIDE_PER_RIMS * (up + down) <= height and SIDE_PER_RIMS * (left + right) <= width


class Ends(NamedTuple):
    """The rows at both ends of an array that see what stands outside, and the columns of them that are computed."""

    rows: tuple[Part, Part]
    columns: Part

    def places(self) -> Iterator[tuple[slice, slice]]:
        """The rows and the columns of each end."""
        for part in self.rows:
            yield slice(*part), slice(*self.columns)


def _computed(call: Call, field: Field, edges: Edges, ends: Ends) -> list[Samples]:
    """The result at each end. Both ends are one call: each has its rim beside it, so neither sees the other."""
    up, down, left, right = call.reach
    columns = ends.columns.wider(left, right)
    windows = [_cut(field, part.wider(up, down), columns, edges).samples for part in ends.rows]
    whole = _pieces.apply(call, field._replace(samples=np.concatenate(windows)), None, 1)
    return [held[up:, left:] for held in (whole, whole[len(windows[0]) :])]


def _edge_tasks(call: Call, field: Field, made: Samples, edges: Edges) -> Iterator[Callable[[], Callable[[], None]]]:
    """What computes the edges of a result, first of the rows, then of what is left of the columns, and gives what writes them.
    Columns are computed as rows of the transposed array, since the library's kernels go along rows."""
    up, down, left, right = call.reach
    height, width = field.samples.shape
    turned = field._replace(samples=field.samples.T)
    for on, asked, to, ends in (
        (field, call, made, Ends((Part(0, up), Part(height - down, height)), Part(0, width))),
        (turned, call.transposed, made.T, Ends((Part(0, left), Part(width - right, width)), Part(up, height - down))),
    ):
        if any(part.begin < part.end for part in ends.rows):
            yield partial(_computed_edges, asked, on, to, edges, ends)


def _computed_edges(call: Call, field: Field, made: Samples, edges: Edges, ends: Ends) -> Callable[[], None]:
    results = _computed(call, field, edges, ends)

    def write() -> None:
        for (rows, columns), samples in zip(ends.places(), results):
            target = made[rows, columns]
            target[...] = samples[: target.shape[0], : target.shape[1]]

    return write


def _with_edges(call: Call, field: Field, edges: Edges, out: Samples | None, workers: int) -> Samples:
    """The result, whose edges are computed anew beside it, and written over it at the end."""
    made = _pieces.room(call, field, out)
    # pieces of half the size, so that whoever computes edges can leave more of the rest to the others
    rest = _pieces.tasks(call, field, made, workers if workers == 1 else 2 * workers)
    # the caller begins at the end, while the other threads wake
    tasks: list[Callable[[], Callable[[], None] | None]] = [*rest, *_edge_tasks(call, field, made, edges)]
    for write in _threads.run(tasks, workers)[len(rest) :]:
        if write is not None:
            write()
    return made


def _from_a_pixel(call: Call) -> tuple[Call, int, int]:
    """A rank whose footprint has its origin in it, and by how many rows and columns its result is shifted."""
    if not isinstance(call, Flat) or call.op != _library.RANK or call.footprint.has_origin:
        return call, 0, 0
    down, right = call.footprint.offsets[0]
    row, column = call.footprint.origin
    return Flat(call.op, call.footprint.at((row + down, column + right)), call.k), down, right


def apply(call: Call, field: Field, edges: Edges, out: Samples | None, workers: int) -> Samples:
    """What the call makes of the array in this mode, in `out` where it is given."""
    if edges.mode == "ignore":
        return _pieces.apply(call, field, out, workers)
    reach, (height, width) = call.reach, field.samples.shape
    moved, down, right = _from_a_pixel(call)
    if moved is call and _is_large(field.samples.shape, reach):
        return _with_edges(call, field, edges, out, workers)
    whole = _pieces.apply(moved, with_rim(field, reach, edges), None, workers)
    inner = whole[reach.up + down :, reach.left + right :][:height, :width]
    if out is None:
        return np.ascontiguousarray(inner)
    out[...] = inner
    return out
