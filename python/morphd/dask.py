"""Operators on Dask arrays, chunk by chunk with the overlap that they need, and work on many files.

    import morphd.dask
    opened = morphd.dask.opening(dask_array, morphd.disk(5))      # lazy; compute() gives what one piece would
    done = morphd.dask.map_files(paths, measure, client)          # measure(path) on each worker, with a bar

A chunk is computed on what stands around it as far as the operator looks, so the result is that of the whole array, byte for
byte. What lies outside the array is left out, as with ``mode='ignore'``; medians and other ranks reflect unless told.
"""
from __future__ import annotations

import os
import sys
import time
from collections.abc import Callable, Iterable, Mapping
from dataclasses import dataclass, field
from typing import Any, Literal

import dask.array
import numpy as np
from dask.array import Array

from . import _calls, _library, _threads, operators
from ._numbers import whole
from ._progress import bar
from .footprints import Footprint, Reach

__all__ = [
    "Outcome", "black_tophat", "closing", "dilation", "erosion", "gradient", "hit_or_miss", "map_files", "median", "opening",
    "percentile", "rank", "restored", "skeleton", "threshold", "white_tophat",
]

_OPS = {
    "erosion": _library.ERODE, "dilation": _library.DILATE, "opening": _library.OPEN, "closing": _library.CLOSE,
    "gradient": _library.GRADIENT, "white_tophat": _library.WHITE_TOPHAT, "black_tophat": _library.BLACK_TOPHAT,
}
Rim = Literal["ignore", "reflect", "nearest", "wrap"]
# What Dask calls the modes that it can put around an array.
_RIMS: dict[str, str] = {"ignore": "none", "reflect": "reflect", "nearest": "nearest", "wrap": "periodic"}


@dataclass(frozen=True)
class _Chunk:
    """The operator on one chunk, which goes to a worker."""

    name: str
    arguments: tuple[Any, ...]
    options: Mapping[str, Any]

    def __call__(self, chunk: Any) -> Any:
        return getattr(operators, self.name)(chunk, *self.arguments, **self.options)


def _checked(name: str, array: Array) -> None:
    """Refuses arrays that cannot be treated chunk by chunk."""
    if array.ndim != 2:
        raise ValueError(f"an image has two axes, and this array has {array.ndim}: take plane after plane")
    if array.dtype != np.bool_ and array.dtype.newbyteorder("=") not in (np.uint8, np.uint16):
        # the order of samples is that of a chunk, and what an erosion gives where it sees nothing would be, too
        raise TypeError(f"{name} over chunks takes arrays of bool, uint8 and uint16, and this is one of {array.dtype}")


def _overlapped(work: _Chunk, array: Array, reach: Reach, made: Any = None, rim: str = "none") -> Array:
    """The operator on each chunk and what stands around it."""
    _checked(work.name, array)
    dtype = array.dtype if made is None else np.dtype(made)
    kept = {"dtype": dtype, "meta": np.empty((0, 0), dtype)}
    sides = [(reach.up, reach.down), (reach.left, reach.right)]
    # Dask takes no more from around a chunk than there is, nor an empty chunk: along such an axis all is one chunk, whose edges
    # are the array's, so that they are the operator's to treat
    whole = [axis for axis in (0, 1) if max(sides[axis]) >= array.shape[axis] or 0 in array.chunks[axis]]
    if whole:
        array = array.rechunk(dict.fromkeys(whole, -1))
    depth: dict[int, Any] = {axis: (0, 0) if axis in whole else sides[axis] for axis in (0, 1)}
    if not any(map(max, depth.values())):
        return array.map_blocks(work, **kept)
    if np.isnan(array.shape).any():
        raise ValueError(f"{work.name} looks beyond chunks, and their sizes are unknown: array.compute_chunk_sizes() finds them")
    if rim != "none":
        # Dask puts rims around an array that are equally wide on both sides
        depth = {axis: max(each) for axis, each in depth.items()}
    return dask.array.map_overlap(work, array, depth=depth, boundary=rim, align_arrays=False, **kept)


def _flat(name: str, array: Array, footprint: Any, maxval: int | None) -> Array:
    b = Footprint(footprint)
    return _overlapped(_Chunk(name, (b,), {"maxval": maxval}), array, _calls.Flat(_OPS[name], b).reach)


def erosion(array: Array, footprint: Any, *, maxval: int | None = None) -> Array:
    """`morphd.erosion` over chunks. So are the functions below, each of the one of its name.

    Parameters
    ----------
    array : dask.array.Array
        Two axes; of bool, uint8 or uint16. Chunks that are smaller than the footprint's reach are joined.
    footprint : Footprint or array_like
    maxval : int, optional
        The greatest sample that the array can have; the type's if left out.

    Returns
    -------
    dask.array.Array
    """
    return _flat("erosion", array, footprint, maxval)


def dilation(array: Array, footprint: Any, *, maxval: int | None = None) -> Array:
    """`morphd.dilation` over chunks."""
    return _flat("dilation", array, footprint, maxval)


def opening(array: Array, footprint: Any, *, maxval: int | None = None) -> Array:
    """`morphd.opening` over chunks."""
    return _flat("opening", array, footprint, maxval)


def closing(array: Array, footprint: Any, *, maxval: int | None = None) -> Array:
    """`morphd.closing` over chunks."""
    return _flat("closing", array, footprint, maxval)


def gradient(array: Array, footprint: Any, *, maxval: int | None = None) -> Array:
    """`morphd.gradient` over chunks."""
    return _flat("gradient", array, footprint, maxval)


def white_tophat(array: Array, footprint: Any, *, maxval: int | None = None) -> Array:
    """`morphd.white_tophat` over chunks."""
    return _flat("white_tophat", array, footprint, maxval)


def black_tophat(array: Array, footprint: Any, *, maxval: int | None = None) -> Array:
    """`morphd.black_tophat` over chunks."""
    return _flat("black_tophat", array, footprint, maxval)


def _ranked(work: _Chunk, array: Array, b: Footprint, mode: Rim) -> Array:
    if mode not in _RIMS:
        raise ValueError(f"mode is one of {', '.join(_RIMS)} over chunks: {mode!r}")
    # a chunk's own rim is cut off where Dask has put one around it, and is the array's elsewhere
    return _overlapped(_Chunk(work.name, work.arguments, {**work.options, "mode": mode}), array, b.reach, rim=_RIMS[mode])


def rank(array: Array, k: int, footprint: Any, *, mode: Rim = "reflect", maxval: int | None = None) -> Array:
    """`morphd.rank` over chunks. So are `median` and `percentile`, each of the one of its name.

    Parameters
    ----------
    array : dask.array.Array
        Two axes; of bool, uint8 or uint16.
    k : int
        From 1, the least, to the number of the footprint's pixels.
    footprint : Footprint or array_like
    mode : {'reflect', 'nearest', 'wrap', 'ignore'}
        What stands outside the array.
    maxval : int, optional
        The greatest sample that the array can have; the type's if left out.

    Returns
    -------
    dask.array.Array
    """
    b = Footprint(footprint)
    return _ranked(_Chunk("rank", (k, b), {"maxval": maxval}), array, b, mode)


def median(array: Array, footprint: Any, *, mode: Rim = "reflect", maxval: int | None = None) -> Array:
    """`morphd.median` over chunks."""
    b = Footprint(footprint)
    return _ranked(_Chunk("median", (b,), {"maxval": maxval}), array, b, mode)


def percentile(array: Array, q: float, footprint: Any, *, mode: Rim = "reflect", maxval: int | None = None) -> Array:
    """`morphd.percentile` over chunks."""
    b = Footprint(footprint)
    return _ranked(_Chunk("percentile", (q, b), {"maxval": maxval}), array, b, mode)


def threshold(array: Array, k: float, *, maxval: int | None = None) -> Array:
    """`morphd.threshold` over chunks."""
    return _overlapped(_Chunk("threshold", (k,), {"maxval": maxval}), array, _calls.NOWHERE, np.bool_)


def hit_or_miss(array: Array, hit: Any, miss: Any = None, *, maxval: int | None = None) -> Array:
    """`morphd.hit_or_miss` over chunks."""
    first = Footprint(hit)
    second = Footprint(~first.bitmap, first.origin) if miss is None else Footprint(miss)
    return _overlapped(_Chunk("hit_or_miss", (first, second), {"maxval": maxval}), array, _calls.HitOrMiss(first, second).reach)


def skeleton(array: Array, footprint: Any, levels: int) -> Array:
    """`morphd.skeleton` over chunks, which reach far: by the footprint's reach for each level."""
    b, count = Footprint(footprint), whole(levels, "levels")
    return _overlapped(_Chunk("skeleton", (b, count), {}), array, _calls.Skeleton(b, count).reach, np.uint8)


def restored(array: Array, footprint: Any, levels: int) -> Array:
    """`morphd.restored` over chunks, which reach far: by the footprint's reach for each level."""
    b, count = Footprint(footprint), whole(levels, "levels")
    return _overlapped(_Chunk("restored", (b, count), {}), array, _calls.Restoration(b, count).reach, np.bool_)


@dataclass
class Outcome:
    """What became of many files.

    Attributes
    ----------
    results : dict
        What the work gave for each path, in the order of the paths.
    failures : dict
        The fault of each path where it failed.
    """

    results: dict[Any, Any] = field(default_factory=dict)
    failures: dict[Any, BaseException] = field(default_factory=dict)

    def put(self, path: Any, result: Any, fault: BaseException | None) -> None:
        """Keeps what became of a path, and tells of a failure in a line."""
        if fault is None:
            self.results[path] = result
            return
        self.failures[path] = fault
        print(f"{path}: {type(fault).__name__}: {' '.join(str(fault).split())}", file=sys.stderr, flush=True)


@dataclass(frozen=True)
class _Tried:
    """Work that is tried again where it fails; it gives its result and its last fault, one of them None."""

    work: Callable[[Any], Any]
    retries: int

    def __call__(self, path: Any) -> tuple[Any, BaseException | None]:
        for left in range(self.retries, -1, -1):
            try:
                return self.work(path), None
            except Exception as fault:
                if not left:
                    return None, fault
                time.sleep(0.05)
        raise AssertionError("a work is tried at least once")


def map_files(
    paths: Iterable[Any], work: Callable[[Any], Any], client: Any = None, *, retries: int = 2, progress: bool = True,
) -> Outcome:
    """Does the same work on many files, on the processes of a cluster.

    Parameters
    ----------
    paths : iterable of str or path
    work : callable
        Gets a path. What it gives comes back, so let it be small: a number, a curve, the path of what it wrote.
    client : distributed.Client, optional
        The cluster; if left out, one of as many processes as there are processors to use, for the time of this call.
    retries : int, optional
        How often work that failed is tried again; also where its process died.
    progress : bool, optional
        Whether a bar is shown on standard error.

    Returns
    -------
    Outcome
        Results and failures by path. Each failure is told on standard error as well, in a line.
    """
    wanted = [os.fspath(path) if isinstance(path, os.PathLike) else path for path in paths]
    try:
        import distributed
    except ImportError as missing:
        raise ImportError("map_files needs python3-distributed: apt-get install python3-distributed") from missing
    if client is not None:
        return _mapped(wanted, _Tried(work, retries), client, progress)
    with distributed.Client(n_workers=_threads.processors(), threads_per_worker=1, processes=True, dashboard_address=":0") as own:
        return _mapped(wanted, _Tried(work, retries), own, progress)


def _mapped(paths: list[Any], tried: _Tried, client: Any, progress: bool) -> Outcome:
    """The outcome of work on a cluster, told as it comes."""
    import distributed

    tasks = client.map(tried, paths, retries=tried.retries, pure=False)
    at = {task.key: path for task, path in zip(tasks, paths)}
    made, one_more = Outcome(), bar(len(paths), "file") if progress else None
    for task in distributed.as_completed(tasks):
        fault = task.exception() if task.status == "error" else None
        result, own_fault = (None, None) if fault is not None else task.result()
        made.put(at[task.key], result, fault or own_fault)
        if one_more is not None:
            one_more()
    for kept in (made.results, made.failures):
        in_order = {path: kept[path] for path in paths if path in kept}
        kept.clear()
        kept.update(in_order)
    return made
