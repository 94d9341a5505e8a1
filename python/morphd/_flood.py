"""Flooding by levels from markers: which basin each place belongs to.

The rule is that of Beucher and Lantuejoul 1979, as Meyer 1991 and Soille (2003, chapter 9) order it. For each level h, from the least, in
rounds: each place of a level up to h that has no label, and has a neighbour with one when the round begins, takes the label of the
first such neighbour, by rows from the top and in a row from the left; when a round changes nothing comes the next level.

When a level is done no place of a level up to it is without a label and beside one. So the first round of a level looks at the places
of that very level alone, which are sorted once. In a later round a place has a labelled neighbour only if that got its label
in the round before, so each round looks at the neighbours of those alone. Each place is looked at some three times for each
neighbour, and no round passes over the image. A round costs some calls of NumPy besides; rounds of few places, of which plateaus
that wind have millions, are made in Python.

Places are numbers in a frame that is one place wider on each side, so no neighbour lies across an edge. This module calls nothing
of the library; it is tested beside `watershed` of checks/reference_model.py, which goes by the rule, pixel by pixel.
"""
from __future__ import annotations

from collections.abc import Iterator, Sequence

import numpy as np
from numpy.typing import NDArray

from ._calls import Samples

Labels = NDArray[np.int32]
Places = NDArray[np.intp]

# Rounds of so few places are made in Python.
FEW = 48
_NOWHERE = np.empty(0, np.intp), np.empty(0, np.int32)


class _Frame:
    """An image with its labels, one place wider on each side.

    Parameters
    ----------
    samples : ndarray
        Of uint8 or uint16.
    markers : ndarray of int32
        The labels at the start.
    is_open : ndarray of bool
        Which places are to get one.
    offsets : sequence of (int, int)
        The rows and columns from a place to its neighbours, by rows; with each its opposite.
    """

    def __init__(self, samples: Samples, markers: Labels, is_open: NDArray[np.bool_], offsets: Sequence[tuple[int, int]]) -> None:
        rows, columns = samples.shape
        self._width = columns + 2
        most = int(samples.max(initial=0)) + 1
        # over all levels: what has a label, and what gets none
        self._never = np.min_scalar_type(most).type(most)
        levels = np.full((rows + 2, columns + 2), self._never)
        np.copyto(levels[1:-1, 1:-1], samples, where=is_open)
        labels = np.zeros(levels.shape, np.int32)
        labels[1:-1, 1:-1] = markers
        self._levels, self._labels = levels.reshape(-1), labels.reshape(-1)
        self._offsets = [down * self._width + right for down, right in offsets]
        # for single places, which NumPy takes ten times as long for
        self._level_at, self._label_at = self._levels.data, self._labels.data

    @property
    def labels(self) -> Labels:
        """The labels as they stand."""
        return self._labels.reshape(-1, self._width)[1:-1, 1:-1].copy()

    def sorted(self) -> Iterator[tuple[int, Places]]:
        """The open places of each level by rows, from the least level on."""
        places = np.flatnonzero(self._levels != self._never)
        values = self._levels[places].astype(np.uint8 if self._never < 256 else np.uint16)
        # stable, and by counting digits
        order = np.argsort(values, kind="stable")
        places, values = places[order], values[order]
        del order
        begin, ends = 0, np.flatnonzero(values[1:] != values[:-1]) + 1
        for end in [*ends.tolist(), len(values)]:
            if begin < end:
                yield int(values[begin]), places[begin:end]
            begin = end

    def flood(self, level: int, places: Places) -> None:
        """All rounds of a level, whose own places are these."""
        if len(places) <= FEW:
            last = self._crawled(level, self._begun_by_few(places.tolist()))
            met, taken = self._met(last)
        else:
            met, taken = self._begun(places)
        while len(met):
            if len(met) <= FEW:
                met, taken = self._met(self._crawled(level, met.tolist()))
            else:
                met, taken = self._spread(level, met, taken)

    def _met(self, places: list[int]) -> tuple[Places, Labels]:
        """Places with their labels."""
        if not places:
            return _NOWHERE
        met = np.array(places, np.intp)
        return met, self._labels[met]

    def _begun_by_few(self, places: list[int]) -> list[int]:
        """The first round of a level that has few places: those that get a label."""
        found, levels, labels, never = [], self._level_at, self._label_at, int(self._never)
        for place in places:
            if levels[place] != never:
                for offset in self._offsets:
                    if label := labels[place + offset]:
                        found.append((place, label))
                        break
        for place, label in found:
            levels[place], labels[place] = never, label
        return [place for place, _ in found]

    def _begun(self, places: Places) -> tuple[Places, Labels]:
        """The first round of a level: the places that get a label, and their labels."""
        places = places[self._levels[places] != self._never]
        labels = self._labels
        taken = labels[places + self._offsets[0]]
        for offset in self._offsets[1:]:
            np.copyto(taken, labels[places + offset], where=taken == 0)
        is_met = taken != 0
        places, taken = places[is_met], taken[is_met]
        labels[places] = taken
        self._levels[places] = self._never
        return places, taken

    def _spread(self, level: int, met: Places, taken: Labels) -> tuple[Places, Labels]:
        """A later round, behind one in which these places got these labels. Who has one of them as its first neighbour comes first."""
        places, labels = [], []
        for offset in self._offsets:
            beside = met - offset
            is_open = self._levels[beside] <= level
            beside, label = beside[is_open], taken[is_open]
            self._levels[beside] = self._never
            self._labels[beside] = label
            places.append(beside)
            labels.append(label)
        return np.concatenate(places), np.concatenate(labels)

    def _crawled(self, level: int, last: list[int]) -> list[int]:
        """Such rounds as long as few places get a label in each; gives those of the last one. The first neighbour of a place is the one
        with the least number, so places that got their labels give them in this order."""
        levels, labels, offsets, never = self._level_at, self._label_at, self._offsets, int(self._never)
        while last and len(last) <= FEW:
            last.sort()
            found = []
            for place in last:
                label = labels[place]
                for offset in offsets:
                    beside = place + offset
                    if levels[beside] <= level:
                        levels[beside], labels[beside] = never, label
                        found.append(beside)
            last = found
        return last


def flooded(samples: Samples, markers: Labels, mask: NDArray[np.bool_], offsets: Sequence[tuple[int, int]]) -> Labels:
    """The labels of an image that is flooded from markers within a mask.

    Parameters
    ----------
    samples : ndarray
        Of uint8 or uint16, with two axes.
    markers : ndarray of int32
        The labels at the start, 0 where there is none. Those outside the mask are left out.
    mask : ndarray of bool
        Where labels may stand.
    offsets : sequence of (int, int)
        The rows and columns from a place to its neighbours, by rows; with each its opposite.

    Returns
    -------
    ndarray of int32
        0 outside the mask, and where no path in it leads to a marker.
    """
    markers = np.where(mask, markers, np.int32(0))
    is_open = mask & (markers == 0)
    frame = _Frame(samples, markers, is_open, offsets)
    if len(offsets) and markers.any():
        for level, places in frame.sorted():
            frame.flood(level, places)
    return frame.labels
