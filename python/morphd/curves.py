"""Granulometries: how much of a picture openings of growing size leave, which tells the sizes of its grains.

    curve = morphd.spectrum(mask, morphd.octagon(3, 2), 16, pixel="0.32um")
    curve = morphd.spectrum(mask, [morphd.disk(r) for r in (2, 4, 6, 8)], pixel="0.32um")
    print(curve.mean_size, curve.unit)
    curve.plot()
    curve.to_csv("grains.csv")
"""
from __future__ import annotations

import csv
import html
import os
import warnings
from collections.abc import Sequence
from dataclasses import dataclass
from typing import IO, Any

import numpy as np
from numpy.typing import ArrayLike, NDArray

from . import _arrays, _families, _pieces, _threads
from ._calls import Field, Flat, Samples, volumes
from ._docs import COMPUTES, documented
from ._library import DILATE, ERODE, OPEN
from ._numbers import whole
from ._runs import cut_area
from .doubts import MOST_LEFT, doubts
from .errors import Refused
from .footprints import Footprint
from .pixels import pixel_size

__all__ = ["Spectrum", "spectrum"]

# What the library takes; an array that is cut asks it for no spectrum.
MOST_SIZES = 32
MEANING = (
    "Volumes are sums of grey levels: bright grains weigh more than dark ones, and a bright ground, which no opening takes "
    "away, stays in the rest; take the ground away by a white top-hat, or threshold, before."
)


@dataclass(frozen=True, eq=False)
class Spectrum:
    """How the volume of a picture falls under openings of growing size.

    Of one footprint the opening number n is by its n-fold sum: n erosions, then as many dilations by the reflected footprint.
    Of several ones it is by number n of them. Of a set, the volume is its area in pixels. Of levels it is their sum: a bright
    grain weighs more than a dark one, and a bright ground, which no opening takes away, stays in `rest`; take it away by a white
    top-hat, or threshold, before.

    A width is that of the largest of these shapes that fits into a grain, and not that of the grain itself: `width_meaning`
    says how they differ. Two curves are equal where their volumes, footprints, pixels and kinds are.

    Attributes
    ----------
    volumes : ndarray of uint64
        The picture's volume, and that behind each opening: one more than there are sizes.
    footprint : Footprint or tuple of Footprint
        By which it was opened.
    pixel : float
        The side of a pixel, in `unit`.
    unit : str
        'pixels', if no other was told.
    is_set : bool
        Whether it is the spectrum of a set.
    frame : int or None
        How many pixels the picture has, where that is known.
    cut : int
        Of a set the area in pixels of the grains that the frame cuts.
    gains : ndarray of uint64 or None
        Of several footprints, what each opening has that the one before has not. Where one of these is not 0 the family is no
        granulometry on this picture, and the falls there are too small by as much.
    """

    volumes: NDArray[np.uint64]
    footprint: Footprint | tuple[Footprint, ...]
    pixel: float = 1.0
    unit: str = "pixels"
    is_set: bool = True
    frame: int | None = None
    cut: int = 0
    gains: NDArray[np.uint64] | None = None

    @property
    def falls(self) -> NDArray[np.uint64]:
        """What each opening takes away from the one before: the volume of the grains of that size."""
        falls: NDArray[np.uint64] = self.volumes[:-1] - np.minimum(self.volumes[1:], self.volumes[:-1])
        return falls

    @property
    def rest(self) -> int:
        """What the last opening leaves: grains that are larger, and a ground."""
        return int(self.volumes[-1])

    @property
    def _pixels(self) -> NDArray[np.int64]:
        """The width in pixels of what each opening is by, from a single pixel on."""
        if isinstance(self.footprint, Footprint):
            return np.arange(len(self.volumes)) * (self.footprint.width - 1) + 1
        return np.array([1, *(each.width for each in self.footprint)])

    @property
    def widths(self) -> NDArray[np.float64]:
        """The least width in each bin, in `unit`: that of the shape that still fits, where the next one does not."""
        return self._pixels[:-1] * self.pixel

    @property
    def edges(self) -> NDArray[np.float64]:
        """The edges of the bins, in `unit`, one more than there are falls. A bin holds whole numbers of pixels, and its edges lie
        half a pixel beside them: widths of 7 to 12 pixels lie between 6.5 and 12.5."""
        return (self._pixels - 0.5) * self.pixel

    @property
    def centres(self) -> NDArray[np.float64]:
        """The middle of each bin, in `unit`: the mean of the widths that it holds."""
        edges = self.edges
        return (edges[:-1] + edges[1:]) / 2

    @property
    def mean_size(self) -> float:
        """The mean of the centres, each weighed by its fall; NaN where nothing falls. What is left over does not count, see
        `mean_bound`."""
        total = float(self.falls.sum())
        return float((self.centres * self.falls).sum() / total) if total else float("nan")

    @property
    def mean_bound(self) -> float:
        """The least that the mean can be where what is left over counts, too: by the last edge, which it lies beyond."""
        total = float(self.falls.sum()) + self.rest
        return float(((self.centres * self.falls).sum() + self.edges[-1] * self.rest) / total) if total else float("nan")

    @property
    def has_mean(self) -> bool:
        """Whether so little is left over that the mean says something: a tenth of the volume, or less."""
        return 0 < int(self.falls.sum()) and self.rest <= MOST_LEFT * int(self.volumes[0])

    @property
    def shape(self) -> str:
        """The word for what a width is the width of: 'octagon', 'square', 'diamond', 'disc', 'line', 'rectangle' or 'footprint'."""
        return _families.shape_of(self.footprint)

    @property
    def width_meaning(self) -> str:
        """What widths are, in one line."""
        return f"Widths are those of the largest {self.shape} that fits into a grain{_families.NOTES.get(self.shape, '')}."

    @property
    def meaning(self) -> str:
        """What volumes are, in one line."""
        return "Volumes are areas in pixels." if self.is_set else MEANING

    @property
    def doubts(self) -> list[str]:
        """What is doubtful about it, in a line each."""
        found = doubts(self.volumes.tolist(), self.frame, self.cut, self.is_set)
        if self.gains is not None and self.gains.any():
            places = ", ".join(f"{width:.6g}" for width in (self._pixels[1:] * self.pixel)[self.gains > 0].tolist())
            part = float(self.gains.max()) / float(self.volumes[0])
            found.append(f"no granulometry on this picture: the openings of width {places} {self.unit} have up to {part:.1%} that "
                         "the one before has not")
        return found

    @property
    def _mean(self) -> str:
        """The mean in words, if there is one."""
        if self.has_mean:
            bound = f", at least {self.mean_bound:.4g} with what is left over" if self.rest else ""
            return f"mean width {self.mean_size:.4g} {self.unit}{bound}"
        return "no mean" if not self.rest else f"no mean, so much is left over; it is at least {self.mean_bound:.4g} {self.unit}"

    def _rows(self) -> list[tuple[str, int]]:
        """The least and the greatest width in each bin, in words, with its fall; then what is left over."""
        ends = zip(self._pixels[:-1].tolist(), (self._pixels[1:] - 1).tolist(), self.falls.tolist())
        told = [(f"{low * self.pixel:.6g}" if high <= low else f"{low * self.pixel:.6g} to {high * self.pixel:.6g}", fall)
                for low, high, fall in ends]
        return [*told, (f"left over, {self._pixels[-1] * self.pixel:.6g} or more", self.rest)]

    def plot(self, ax: Any = None) -> Any:
        """Draws the falls over the widths, as parts of the whole volume.

        Parameters
        ----------
        ax : matplotlib.axes.Axes, optional
            Where; a new figure of pyplot if left out.

        Returns
        -------
        matplotlib.axes.Axes
        """
        if ax is None:
            from matplotlib import pyplot

            ax = pyplot.subplots(layout="constrained")[1]
        whole = float(self.volumes[0]) or 1.0
        ax.bar(self.centres, self.falls / whole, width=0.9 * np.diff(self.edges))
        ax.set_xlabel(f"width of the largest {self.shape} that fits, in {self.unit}")
        ax.set_ylabel("part of the area" if self.is_set else "part of the volume")
        mean = f"mean {self.mean_size:.3g} {self.unit}" if self.has_mean else "no mean"
        ax.set_title(f"{mean}, {self.rest / whole:.1%} left over", fontsize="medium")
        return ax

    def to_csv(self, path: str | os.PathLike[str] | IO[str]) -> None:
        """Writes a line for each size: its number, the least and the greatest width in its bin, the volume before the opening and
        the fall; then one for what is left over.

        Parameters
        ----------
        path : str, path or text file
        """
        if isinstance(path, (str, os.PathLike)):
            with open(path, "w", newline="", encoding="utf-8") as file:
                self.to_csv(file)
            return
        rows = csv.writer(path, lineterminator="\n")
        rows.writerow(["size", f"least {self.shape} in {self.unit}", f"greatest {self.shape} in {self.unit}", "volume", "fall"])
        widths = [f"{width * self.pixel:.9g}" for width in self._pixels.tolist()]
        greatest = [f"{(width - 1) * self.pixel:.9g}" for width in self._pixels[1:].tolist()]
        rows.writerows(zip(range(len(greatest)), widths, greatest, self.volumes.tolist(), self.falls.tolist()))
        rows.writerow([len(greatest), widths[-1], "", self.rest, ""])

    def __str__(self) -> str:
        head, rows = f"{self.shape} in {self.unit}", self._rows()
        wide = max(len(head), *(len(width) for width, _ in rows))
        lines = [f"{width:>{wide}} {fall:>14}" for width, fall in [(head, "fall"), *rows]]
        return "\n".join([*lines, self._mean, self.width_meaning, self.meaning])

    def _repr_html_(self) -> str:
        """The spectrum as a table, for notebooks."""
        rows = [f"<tr><td>{html.escape(width)}</td><td>{fall}</td></tr>" for width, fall in self._rows()]
        head = f"<tr><th>{self.shape} in {html.escape(self.unit)}</th><th>fall</th></tr>"
        told = html.escape(f"{self._mean}. {self.width_meaning} {self.meaning}")
        return f"<table><caption>{told}</caption>{head}{''.join(rows)}</table>"

    def _key(self) -> tuple[Any, ...]:
        return self.volumes.tolist(), self.footprint, self.pixel, self.unit, self.is_set

    def __eq__(self, other: object) -> bool:
        if not isinstance(other, Spectrum):
            return NotImplemented
        return self._key() == other._key()

    def __hash__(self) -> int:
        return hash((tuple(self.volumes.tolist()), *self._key()[1:]))


def measured(
    image: ArrayLike, footprint: Footprint | ArrayLike | Sequence[Any], sizes: int | None = None,
    pixel: float | str | tuple[float, str] = 1.0, *, maxval: int | None = None, workers: int | None = None,
) -> Spectrum:
    """What `spectrum` gives, without its warnings: whoever calls it tells the `doubts`."""
    array, family = _arrays.as_plane(image), _families.family(footprint)
    size, unit = pixel_size(pixel)
    _arrays.check_kind(array, "spectrum", False)
    field = _arrays.read(array, "spectrum", maxval).field
    threads = _threads.worker_count(workers)
    gains, b = None, family or Footprint(footprint)
    if isinstance(b, Footprint):
        found = _of_one(field, b, sizes, threads)
    elif sizes is not None and whole(sizes, "sizes") != len(b):
        raise ValueError(f"sizes goes with one footprint, and these are {len(b)}: leave it out")
    else:
        found, gains = _of_family(field, b, threads)
    rows, columns = field.samples.shape
    cut = cut_area(field.samples) if field.is_set else 0
    return Spectrum(found, b, size, unit, field.is_set, rows * columns, cut, gains)


@documented(COMPUTES)
def spectrum(
    image: ArrayLike, footprint: Footprint | ArrayLike | Sequence[Any], sizes: int | None = None,
    pixel: float | str | tuple[float, str] = 1.0, *, maxval: int | None = None, workers: int | None = None,
) -> Spectrum:
    """The granulometric spectrum of a picture.

    Parameters
    ----------
    %(image)s
        No `axes` here: a picture has a spectrum of its own.
    footprint : Footprint, array_like, or list of these
        One footprint, whose n-fold sums are the sizes: ``octagon(3, 2)`` steps by six pixels, ``octagon(2, 1)`` by three.
        ``square(3)`` reads a disc as its diameter over the root of 2, and ``disk(1)`` is a diamond. Or a list of footprints,
        each wider than the one before, as ``[disk(r) for r in range(1, 20)]``: the picture is opened by each.
    sizes : int
        How many openings, 1 to 32; left out with a list.
    pixel : float, str or (float, str), optional
        The side of a pixel, as 0.32 or '0.32um'; widths are pixels if left out.
    maxval : int, optional
        The greatest sample that an array of uint8 or uint16 can have; the type's if left out.
    workers : int, optional
        How many threads share the work of openings by a list, or where a picture is larger than 8192 a side or 16,777,216
        samples; -1 is one for each processor. The n-fold sums of a smaller picture are the work of one thread: pieces would
        have to be put together behind each step. The result is the same.

    Returns
    -------
    Spectrum
        Of grey levels, volumes are sums of levels: bright grains weigh more, and a bright ground stays in the rest; take
        it away by a white top-hat, or threshold, before.

    Warns
    -----
    UserWarning
        For each of its `doubts`: an empty set, one over half of the frame, grains that the frame cuts, over a tenth left over,
        a family that is no granulometry on this picture.

    Raises
    ------
    %(raises)s

    Examples
    --------
    >>> import numpy as np, morphd
    >>> grains = np.zeros((9, 13), bool)
    >>> grains[1, 1] = grains[3:6, 3:6] = True
    >>> curve = morphd.spectrum(grains, morphd.square(3), 2)
    >>> curve.volumes, curve.falls, curve.rest
    (array([10,  9,  0], dtype=uint64), array([1, 9], dtype=uint64), 0)
    >>> curve.edges, curve.centres, curve.mean_size
    (array([0.5, 2.5, 4.5]), array([1.5, 3.5]), 3.3)
    """
    found = measured(image, footprint, sizes, pixel, maxval=maxval, workers=workers)
    for line in found.doubts:
        warnings.warn(line, UserWarning, stacklevel=2)
    return found


def _of_one(field: Field, footprint: Footprint, sizes: int | None, workers: int) -> Samples:
    """The volumes by the n-fold sums of a footprint."""
    if sizes is None:
        raise TypeError("sizes says how many openings there are by one footprint")
    count = whole(sizes, "sizes")
    if not 1 <= count <= MOST_SIZES:
        raise Refused(47, f"spectrum of {count} sizes")
    is_whole = _pieces.fits(field.samples.shape)
    return volumes(field, footprint, count) if is_whole else _by_openings(field, footprint, count, workers)


def _of_family(field: Field, family: tuple[Footprint, ...], workers: int) -> tuple[Samples, Samples]:
    """The volumes behind an opening by each footprint, and what each opening has that the one before has not."""
    found, gains, before = [int(field.samples.sum(dtype=np.uint64))], [], field.samples
    for each in family:
        opened = _pieces.apply(Flat(OPEN, each), field, None, workers)
        found.append(int(opened.sum(dtype=np.uint64)))
        gains.append(int((np.maximum(opened, before) - before).sum(dtype=np.uint64)))
        before = opened
    return np.array(found, np.uint64), np.array(gains, np.uint64)


def _by_openings(field: Field, footprint: Footprint, count: int, workers: int) -> Samples:
    """Volumes and gains of openings where an array is cut. A volume is a sum, whose pieces cannot overlap as those of an image do,
    so it is taken of whole openings, each made of the library's erosions and dilations."""
    found, eroded = [], field
    for size in range(count + 1):
        opened = eroded
        for _ in range(size):
            opened = opened._replace(samples=_pieces.apply(Flat(DILATE, -footprint), opened, None, workers))
        found.append(int(opened.samples.sum(dtype=np.uint64)))
        eroded = eroded._replace(samples=_pieces.apply(Flat(ERODE, footprint), eroded, None, workers))
    return np.array(found, np.uint64)
