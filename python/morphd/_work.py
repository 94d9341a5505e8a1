"""An operator on the caller's array: what it is told, plane after plane, and into `out`.

Levels, rims and pieces are the work of `_arrays`, `_edges` and `_pieces`; which steps an operator has says `_plans`.
"""
from __future__ import annotations

import operator
from collections.abc import Callable, Iterator
from dataclasses import dataclass, replace
from typing import Any

import numpy as np
from numpy.typing import NDArray

from . import _arrays, _pieces, _plans, _threads
from ._edges import MODES, Edges, Mode
from ._numbers import real
from ._plans import Compat

Array = NDArray[Any]
_COMPUTING = (
    "gradient", "white_tophat", "black_tophat", "hit_or_miss", "skeleton", "restored", "clear_border", "hmax", "hmin", "h_maxima",
    "h_minima", "local_maxima", "local_minima", "area_opening", "area_closing",
)


@dataclass(frozen=True)
class Options:
    """What an operator is told beside its image and footprints."""

    mode: Mode | None = None
    cval: Any = 0
    maxval: int | None = None
    axes: tuple[int, int] | None = None
    compat: Compat | None = None
    out: Array | None = None
    workers: int | None = None
    usual: Mode = "ignore"

    def edges(self, name: str, is_set: bool, level: int) -> Edges:
        """The edges of an operator: as the mode says, else as the other library has them, else the usual ones."""
        if self.mode is None and self.compat is not None:
            return _plans.edges_of(name, self.compat, is_set)
        return Edges(self.mode or self.usual, level)


@dataclass(frozen=True)
class Work:
    """An operator: its name, its plan on an array, and the type of its result, None for the image's."""

    name: str
    plan: Callable[[_arrays.Reading], _plans.Plan]
    made: Any = None


def _checked(options: Options) -> Options:
    if options.mode is not None and options.mode not in MODES:
        raise ValueError(f"mode is one of {', '.join(MODES)}, or None: {options.mode!r}")
    _plans.check_compat(options.compat)
    if options.mode == "constant":
        real(options.cval, "cval")
    return options if options.workers is None else replace(options, workers=_threads.worker_count(options.workers))


def plane_axes(array: Array, axes: tuple[int, int]) -> tuple[int, int]:
    """The axes of the rows and of the columns of a plane, counted from 0."""
    count = array.ndim
    try:
        rows, columns = (operator.index(axis) for axis in axes)
    except (TypeError, ValueError):
        raise TypeError(f"axes are two whole numbers, those of the rows and of the columns: {axes!r}") from None
    if not all(-count <= axis < count for axis in (rows, columns)) or rows % count == columns % count:
        raise ValueError(f"axes are two of the {count} axes of the array: {axes}")
    return rows % count, columns % count


def planes(array: Array, out: Array, axes: tuple[int, int]) -> Iterator[tuple[Array, Array]]:
    """Each plane of an array with the plane of the result."""
    places = plane_axes(array, axes)
    moved, target = (np.moveaxis(held, places, (-2, -1)) for held in (array, out))
    for at in np.ndindex(*moved.shape[:-2]):
        yield moved[at], target[at]


def _read(work: Work, array: Array, options: Options) -> _arrays.Reading:
    """An array of two axes, and what stands outside it."""
    return _arrays.read(array, work.name, options.maxval, options.cval if options.mode == "constant" else None)


def _check_samples(work: Work, array: Array, axes: tuple[int, int], options: Options) -> None:
    """Refuses what one of the planes holds before the result of any is written."""
    if _arrays.may_be_refused(array.dtype, options.maxval):
        for plane, _ in planes(array, array, axes):
            _pieces.check_samples(_read(work, plane, options).field, work.name)


def _on_plane(work: Work, array: Array, options: Options, out: Array | None) -> Array:
    """The operator on an array of two axes."""
    reading = _read(work, array, options)
    edges = options.edges(work.name, reading.field.is_set, reading.outside)
    run = _plans.Run(reading.field, edges, options.workers or 1)
    held = _arrays.direct(out, reading, reading.field.samples.dtype if work.made is None else np.uint8)
    samples = _plans.run(work.plan(reading), run, held)
    if out is not None and held is not None:
        return out
    made = reading.restored(samples) if work.made is None else samples.view(work.made)
    if out is None:
        return made
    out[...] = made
    return out


def _empty(work: Work, array: Array, options: Options, made: Array) -> Array:
    """The result of an array without samples. What is wrong with the arguments is found on a plane of one sample."""
    if options.axes is not None:
        next(planes(array, made, options.axes), None)
    _on_plane(work, np.zeros((1, 1), array.dtype), options, None)
    return made


def made_of(work: Work, image: Any, options: Options) -> Array:
    """The operator on an array of two axes, or on each plane of it."""
    options = _checked(options)
    array = _arrays.as_array(image, options.axes)
    _arrays.check_kind(array, work.name, work.name not in _COMPUTING)
    dtype = array.dtype if work.made is None else np.dtype(work.made)
    out = _arrays.checked_out(options.out, array, dtype)
    if array.size == 0:
        return _empty(work, array, options, np.empty(array.shape, dtype) if out is None else out)
    if options.axes is None:
        return _on_plane(work, array, options, out)
    made = np.empty(array.shape, dtype) if out is None else out
    held = array.copy() if out is not None and np.may_share_memory(out, array) else array
    if out is not None:
        _check_samples(work, held, options.axes, options)
    for plane, target in planes(held, made, options.axes):
        _on_plane(work, plane, options, target)
    return made
