"""Arrays cut into pieces: for several cores, and where an array is larger than the library's limits.

A piece is computed on a window that is larger than it by the call's reach, where the frame goes on. What a sample depends on lies
inside that window, so the result is that of one piece, byte for byte. Of whole rows under a call of one step the library makes the
piece alone, where it belongs; else the rim is computed too, and cut off.
"""
from __future__ import annotations

import math
from collections.abc import Callable
from functools import partial
from typing import NamedTuple

import numpy as np

from . import _threads
from ._calls import Call, Field, Flat, Samples
from .errors import Refused
from .footprints import Reach

# The library's limits of one image, and the least rows that are worth a core of their own.
LONGEST_SIDE, MOST_SAMPLES, LEAST_ROWS = 8192, 1 << 24, 16


class Span(NamedTuple):
    """A run of rows or columns, and the window around it."""

    begin: int
    end: int
    first: int
    last: int

    @property
    def own(self) -> slice:
        """The run inside the array."""
        return slice(self.begin, self.end)

    @property
    def window(self) -> slice:
        """The window inside the array."""
        return slice(self.first, self.last)

    @property
    def inner(self) -> slice:
        """The run inside the window."""
        return slice(self.begin - self.first, self.end - self.first)


class Piece(NamedTuple):
    """A rectangle of an array, by its rows and columns."""

    rows: Span
    columns: Span

    @property
    def is_its_window(self) -> bool:
        """Whether there is no rim to cut off."""
        return all(span.own == span.window for span in self)

    def has_whole_rows(self, shape: tuple[int, ...]) -> bool:
        """Whether its rows are those of an array of this shape from the first column to the last."""
        return self.columns.own == slice(0, shape[1])


def _spans(length: int, parts: int, before: int, behind: int) -> list[Span]:
    """The length cut into parts that differ by at most 1."""
    marks = [length * part // parts for part in range(parts + 1)]
    return [Span(a, b, max(a - before, 0), min(b + behind, length)) for a, b in zip(marks, marks[1:])]


def _parts(length: int, most: int, rim: int) -> int:
    """Into how many parts a length is cut so that each has room with its rim."""
    if length <= most:
        return 1
    if most <= rim:
        raise ValueError(
            f"an array of this size is cut into pieces, and each needs {rim} rows or columns around it, which leaves no "
            "room: use a smaller footprint, or fewer levels"
        )
    return math.ceil(length / (most - rim))


def fits(shape: tuple[int, ...]) -> bool:
    """Whether the library takes an array of this shape in one piece."""
    return max(shape) <= LONGEST_SIDE and shape[0] * shape[1] <= MOST_SAMPLES


def cut(shape: tuple[int, ...], reach: Reach, workers: int) -> list[Piece]:
    """The pieces of an array: within the library's limits, and as many as there are workers where they are worth it."""
    height, width = shape
    columns = _spans(width, _parts(width, LONGEST_SIDE, reach.left + reach.right), reach.left, reach.right)
    widest = max((span.last - span.first for span in columns), default=1)
    rim = reach.up + reach.down
    parts = _parts(height, min(LONGEST_SIDE, MOST_SAMPLES // max(widest, 1)), rim)
    wanted = min(workers, height // max(LEAST_ROWS, rim)) // len(columns)
    rows = _spans(height, max(parts, wanted, 1), reach.up, reach.down)
    return [Piece(row, column) for row in rows for column in columns]


def check_samples(field: Field, asked: object) -> None:
    """Refuses samples over the maxval before any piece is written. One piece needs no such look: the library has its own, and
    refuses an array without samples, too."""
    is_free = field.is_set or field.maxval == np.iinfo(field.samples.dtype).max or field.samples.size == 0
    if not is_free and field.samples.max() > field.maxval:
        raise Refused(25, f"{asked} of {field}")


def room(call: Call, field: Field, out: Samples | None) -> Samples:
    """Where the result goes: `out`, or a new array."""
    return np.empty(field.samples.shape, call.dtype(field)) if out is None else out


def _rimmed(call: Call, window: Field, piece: Piece, target: Samples) -> None:
    """Computes a piece with its rim, in room of its own, and keeps the piece."""
    whole = np.empty(window.samples.shape, target.dtype)
    call.ready(window, whole)()
    target[...] = whole[piece.rows.inner, piece.columns.inner]


def _task(call: Call, field: Field, made: Samples, piece: Piece) -> Callable[[], None]:
    """What writes a piece: ready to run where nothing has to be copied."""
    seen, target = field.samples[piece.rows.window, piece.columns.window], made[piece.rows.own, piece.columns.own]
    if not piece.has_whole_rows(made.shape):
        return lambda: _rimmed(call, field._replace(samples=np.ascontiguousarray(seen)), piece, target)
    window = field._replace(samples=seen)
    if piece.is_its_window:
        return call.ready(window, target)
    return partial(_rimmed, call, window, piece, target)


def tasks(call: Call, field: Field, made: Samples, workers: int) -> list[Callable[[], None]]:
    """What writes the result, a piece each: in any order, or at once."""
    shape = made.shape
    pieces = [] if workers == 1 and fits(shape) else cut(shape, call.reach, workers)
    if len(pieces) < 2:
        return [call.ready(field, made)]
    check_samples(field, call)
    if isinstance(call, Flat) and call.has_one_step and pieces[0].has_whole_rows(shape):
        ready = call.rows_of(field, made)
        return [ready(piece.rows) for piece in pieces]
    return [_task(call, field, made, piece) for piece in pieces]


def apply(call: Call, field: Field, out: Samples | None, workers: int) -> Samples:
    """What the call makes of the array, in `out` where it is given: by rows without gaps, of the result's type."""
    made = room(call, field, out)
    _threads.run(tasks(call, field, made, workers), workers)
    return made
