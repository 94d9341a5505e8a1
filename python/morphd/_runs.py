"""How much of a set the frame cuts, told by the runs of its rows.

Pixels hang together by sides and corners, so a run hangs on the first run of the row above that it touches, and all runs that it
touches there are parts of one grain. Each run is met once on the way down; what is left to join are the grains that meet further
below, which are few. So the work grows with the samples, however a grain winds.
"""
from __future__ import annotations

import itertools
from typing import Any

import numpy as np
from numpy.typing import NDArray

Places = NDArray[np.intp]


def cut_area(samples: NDArray[Any]) -> int:
    """The area in pixels of the grains that have a pixel in the outermost rows and columns of a set: of 0 and 1, or bool."""
    rows, columns = samples.shape
    if not samples.size:
        return 0
    # a column of zeros parts the rows, so that the runs of all of them make one list of places
    wide = columns + 1
    flat = np.zeros(rows * wide + 1, np.uint8)
    flat[1:].reshape(rows, wide)[:, :columns] = samples
    along, down = np.arange(columns), np.arange(0, rows * wide, wide)
    rim = np.concatenate([along, along + down[-1], down, down + columns - 1])
    rim = rim[flat.take(rim + 1) > 0]
    if not rim.size:
        return 0
    ends = np.flatnonzero(flat[1:] != flat[:-1])
    begins, ends = ends[::2].copy(), ends[1::2].copy()
    # of each run the first one that it touches in the row above, and the one behind the last
    first, behind = np.searchsorted(ends, begins - wide), np.searchsorted(begins, ends - wide, "right")
    grains = _grains(first, behind, np.searchsorted(begins, np.arange(0, rows * wide + 1, wide)))
    is_cut = np.zeros(len(begins), np.bool_)
    is_cut[grains.take(np.searchsorted(begins, rim, "right") - 1)] = True
    cut = is_cut.take(grains)
    return int(ends[cut].sum()) - int(begins[cut].sum())


def _grains(first: Places, behind: Places, starts: Places) -> Places:
    """A number for each run, which runs of one grain share; `starts` has the first run of each row."""
    touched = behind - first
    top = np.where(touched > 0, first, np.arange(len(first)))
    for begin, end in itertools.pairwise(starts[1:].tolist()):
        top[begin:end] = top.take(top[begin:end])
    # two neighbours in a row are touched by one run below at most
    several = np.flatnonzero(touched > 1)
    steps = np.zeros(len(first) + 1, np.int8)
    steps[first.take(several)] += 1
    steps[behind.take(several) - 1] -= 1
    left = np.flatnonzero(np.cumsum(steps, dtype=np.int8))
    is_top = top == np.arange(len(top))
    number = (np.cumsum(is_top) - 1).take(top)
    grains: Places = _joined(np.count_nonzero(is_top), number.take(left), number.take(left + 1)).take(number)
    return grains


def _joined(count: int, some: Places, others: Places) -> Places:
    """Of so many nodes the one that stands for all that hang together by pairs, each of one of `some` and one of `others`.

    Each turn hangs one root of a pair below the other, by an order that looks like chance and is another one in each turn. So of
    the roots that are in a pair about half are gone behind it, and turns are few.
    """
    parent = np.arange(count)
    for turn in itertools.count():
        is_apart = some != others
        some, others = some[is_apart], others[is_apart]
        if not some.size:
            break
        # an odd factor gives each number another one, modulo 2 to the 32nd
        factor = np.uint32(0x9E3779B9 * (2 * turn + 1) % (1 << 32))
        is_over = some.astype(np.uint32) * factor > others.astype(np.uint32) * factor
        parent[np.where(is_over, some, others)] = np.where(is_over, others, some)
        some, others = _roots(parent, some), _roots(parent, others)
    while not np.array_equal(above := parent.take(parent), parent):
        # the ways to the roots halve
        parent = above
    return parent


def _roots(parent: Places, nodes: Places) -> Places:
    """The roots above nodes, to which one turn leaves few steps."""
    while not np.array_equal(above := parent.take(nodes), nodes):
        nodes = above
    return nodes
