"""Grains one by one: what `morph grains` finds in a picture, and how much and how large that is.

    found = measured("grains.png", loaded, Asked(at=None))
    print(found.counted)

The steps stand in their order: the threshold, the border, holes, small grains, labels, measures. Where grains that touch are parted, that
comes behind holes, and the border and small grains behind it.
"""
from __future__ import annotations

import math
from collections.abc import Sequence
from dataclasses import dataclass, replace
from typing import TYPE_CHECKING, Any, NamedTuple

import numpy as np
from numpy.typing import NDArray

from . import areas, geodesics, levels, operators
from ._areas import Area, grains, in_digits, squared
from .footprints import Footprint, diamond, square
from .grains import Regions, _mean_and_spread, regions
from .pixels import Pixel
from .watersheds import split_grains

if TYPE_CHECKING:
    from .files import Loaded

Numbers = NDArray[np.float64]
Set = NDArray[np.bool_]
Labels = NDArray[np.int32]

# Over this part of the frame grains are rather the ground.
_MOST_COVERED = 0.5


@dataclass(frozen=True)
class Asked:
    """What is asked for.

    Attributes
    ----------
    at : float or None
        The threshold; None of a set that is given.
    is_otsu : bool
        Whether Otsu's level is taken.
    is_dark : bool
        Whether grains are what lies below the threshold, or outside the set.
    clears, fills : bool
        Whether grains that the frame cuts are left out, and whether holes are filled.
    least : Area or None
        The least area.
    connectivity : int
        4 or 8.
    split : float or None
        By how many pixels the distance falls at the necks where grains that touch are parted; None where they are not.
    """

    at: float | None = None
    is_otsu: bool = False
    is_dark: bool = False
    clears: bool = False
    fills: bool = False
    least: Area | None = None
    connectivity: int = 8
    split: float | None = None


@dataclass(frozen=True)
class Counted:
    """How many grains there are, and how large they are.

    Attributes
    ----------
    areas : ndarray of float64
        Of each grain that is measured, in squares of `unit`.
    unit : str
    inside : int
        How many of these the frame does not cut.
    cut : int
        How many grains the frame cuts, measured or left out.
    left_out : int
        How many of these are left out.
    small : int
        How many were too small.
    frame : float
        The area of the frame, or of all frames.
    covered : float
        The area of all grains, those that are left out as cut with them.
    heaps, parts : int
        How many components were parted, and how many grains came out of them, all that are left out with them.
    """

    areas: Numbers
    unit: str
    inside: int
    cut: int
    left_out: int
    small: int
    frame: float
    covered: float
    heaps: int = 0
    parts: int = 0

    @property
    def diameters(self) -> Numbers:
        """Those of discs of the same area."""
        found: Numbers = np.sqrt(self.areas * (4 / math.pi))
        return found

    @property
    def density(self) -> float:
        """How many grains there are to a square of `unit`, with half of those that the frame cuts."""
        return (self.inside + self.cut / 2) / self.frame

    @property
    def per_square_millimetre(self) -> float | None:
        """The same to a square millimetre; None where the unit is no length."""
        micrometres = Pixel(1, self.unit).micrometres
        return None if micrometres is None else self.density * (1000 / micrometres) ** 2

    def rows(self) -> list[tuple[str, list[str]]]:
        """What is told of sizes: in words, with the mean, the spread, the least, the middle and the greatest."""
        told = []
        for name, unit, values in (("area", squared(self.unit), self.areas), ("diameter", self.unit, self.diameters)):
            ends = [in_digits(float(value)) for value in np.quantile(values, (0, 0.5, 1))] if len(values) else ["-"] * 3
            by_number, by_area = _mean_and_spread(values, np.ones(len(values))), _mean_and_spread(values, self.areas)
            told.append((f"{name} in {unit}, by number", [*map(in_digits, by_number), *ends]))
            told.append((f"{name} in {unit}, by area", [*map(in_digits, by_area), "", "", ""]))
        return told

    def head(self) -> str:
        """How many there are, in one line."""
        told = [grains(len(self.areas))]
        if self.left_out:
            told.append(f"{self.left_out} cut by the frame and left out")
        elif self.cut:
            told.append(f"{self.cut} of them cut by the frame")
        if self.small:
            told.append(f"{self.small} too small")
        if self.heaps:
            told.append(f"{self.heaps} heap{'s' if self.heaps > 1 else ''} parted into {self.parts}")
        return ", ".join(told)

    def tail(self) -> list[str]:
        """What is told behind the sizes."""
        density, size = self.per_square_millimetre, f"{in_digits(self.frame)} {squared(self.unit)}"
        told = f"{in_digits(self.inside + self.cut / 2)} grains in {size}, with half of those that the frame cuts"
        return [told + ("" if density is None else f": {in_digits(density)} to the square millimetre")]

    def __str__(self) -> str:
        if not len(self.areas):
            return self.head()
        rows = [("", list(COLUMNS)), *self.rows()]
        wide = max(len(name) for name, _ in rows)
        lines = [f"{name:<{wide}}{''.join(f'{value:>10}' for value in values)}".rstrip() for name, values in rows]
        return "\n".join([self.head(), *lines, *self.tail(), MEANING])


COLUMNS = ("mean", "spread", "least", "middle", "greatest")
MEANING = "Diameters are those of discs of the same area, spreads standard deviations."


def together(parts: Sequence[Counted]) -> Counted:
    """The grains of several pictures, whose sizes have one unit, as those of one."""
    names = ("inside", "cut", "left_out", "small", "frame", "covered", "heaps", "parts")
    sums = {name: sum(getattr(part, name) for part in parts) for name in names}
    return replace(parts[0], areas=np.concatenate([part.areas for part in parts]), **sums)


@dataclass(frozen=True, eq=False)
class Measured:
    """The grains of a picture.

    Attributes
    ----------
    path : str
    image : ndarray
        What was read.
    asked : Asked
        With the level that was taken.
    pixel : Pixel
        1 pixel where no side is known.
    regions : Regions
        A row for each grain that is measured, in the order of their numbers, with the number of each pixel.
    others : ndarray
        The numbers of the grains that are left out as cut.
    counted : Counted
    doubts : tuple of str
        What is doubtful, in a line each.
    """

    path: str
    image: NDArray[Any]
    asked: Asked
    pixel: Pixel
    regions: Regions
    others: Labels
    counted: Counted
    doubts: tuple[str, ...]


def _grains(image: NDArray[Any], asked: Asked, maxval: int | None) -> Set:
    """The set of all grains."""
    if image.dtype != np.bool_ and asked.at is None:
        raise ValueError("it has grey levels, so --at says where grains begin: a level, or otsu")
    if image.dtype == np.bool_ and (asked.at is not None or asked.is_otsu):
        raise ValueError("it is a set already, which takes no --at")
    bright: Set = image if asked.at is None else operators.threshold(image, asked.at, maxval=maxval)
    return ~bright if asked.is_dark else bright


def around(connectivity: int) -> Footprint:
    """The footprint of pixels that hang together by sides, for 4, or by sides and corners, for 8."""
    return diamond(1) if connectivity == 4 else square(3)


def around_holes(connectivity: int) -> Footprint:
    """The same for the ground: where grains hang together by corners, it does not."""
    return around(12 - connectivity)


def steps(connectivity: int) -> int:
    """How functions tell it: along how many axes a neighbour may lie, 1 for 4 and 2 for 8."""
    return 1 if connectivity == 4 else 2


def numbered(found: Set, connectivity: int) -> tuple[Labels, int]:
    """The numbers of the grains of a set, and how many they are."""
    labels, count = geodesics.label(found, connectivity=steps(connectivity), return_num=True)
    return labels, count


def _without_small(found: Set, asked: Asked, least: int) -> tuple[Set, int]:
    """The set with its holes filled, if that is asked for, and without what is too small; and how many grains were that."""
    if asked.fills:
        found = geodesics.fill_holes(found, around_holes(asked.connectivity))
    if least <= 1:
        return found, 0
    kept = areas.remove_small_objects(found, least, connectivity=steps(asked.connectivity))
    return kept, numbered(found, asked.connectivity)[1] - numbered(kept, asked.connectivity)[1]


class _Kept(NamedTuple):
    """The grains that are measured, the labels of those that are left out as cut, and how many there are of these, of those that are too
    small, of pixels of all but the latter, and of heaps and their parts."""

    table: Regions
    others: Labels
    left_out: int
    small: int
    covered: int
    heaps: int = 0
    parts: int = 0


def _whole(found: Set, asked: Asked, least: int, side: Pixel) -> _Kept:
    """The components of the set."""
    kept = geodesics.clear_border(found, footprint=around(asked.connectivity)) if asked.clears else found
    whole, small = _without_small(kept, asked, least)
    cut, small_cut = _without_small(found & ~kept, asked, least) if asked.clears else (np.zeros_like(found), 0)
    table = regions(whole, connectivity=steps(asked.connectivity), pixel=side)
    others, left_out = numbered(cut, asked.connectivity)
    return _Kept(table, others, left_out, small + small_cut, int((whole | cut).sum()))


def _parted(found: Set, asked: Asked, least: int, side: Pixel, fall: float) -> _Kept:
    """The grains that its components are parted into."""
    filled = geodesics.fill_holes(found, around_holes(asked.connectivity)) if asked.fills else found
    labels = split_grains(filled, fall, steps(asked.connectivity))
    areas = np.bincount(labels.ravel(), minlength=1)
    is_cut, heap_of = np.zeros(len(areas), np.bool_), np.zeros(len(areas), np.int32)
    for edge in (labels[0], labels[-1], labels[:, 0], labels[:, -1]):
        is_cut[edge] = True
    heap_of[labels.ravel()] = numbered(filled, asked.connectivity)[0].ravel()
    of_heaps = np.bincount(heap_of[1:])
    is_large = areas >= least
    is_large[0] = False
    is_out = is_large & is_cut & asked.clears
    return _Kept(
        regions(labels=_renumbered(labels, is_large & ~is_out), pixel=side), _renumbered(labels, is_out), int(is_out.sum()),
        len(areas) - 1 - int(is_large.sum()), int(areas[is_large].sum()), int((of_heaps > 1).sum()), int(of_heaps[of_heaps > 1].sum()))


def _renumbered(labels: Labels, is_kept: Set) -> Labels:
    """Some of the labels, numbered from 1."""
    numbers = np.zeros(len(is_kept), np.int32)
    numbers[is_kept] = np.arange(1, int(is_kept.sum()) + 1)
    made: Labels = numbers[labels]
    return made


def _why_empty(image: NDArray[Any], asked: Asked) -> str:
    """Why a picture has no grain at all."""
    if asked.at is None:
        return "no grain: the set is empty" if not asked.is_dark else "no grain: all is in the set"
    if asked.is_dark:
        return f"no grain: no sample lies under the threshold of {asked.at:g}, and the least is {image.min()}"
    return f"no grain: no sample reaches the threshold of {asked.at:g}, and the greatest is {image.max()}"


def _doubts(image: NDArray[Any], whole: Set, asked: Asked, counted: Counted) -> list[str]:
    """What is doubtful about the grains of a picture."""
    found, count, covered = [], len(counted.areas), counted.covered / counted.frame
    if not whole.any():
        found.append(_why_empty(image, asked))
    elif not count:
        reasons = [f"{counted.left_out} cut by the frame"] if counted.left_out else []
        reasons += [f"{counted.small} smaller than {asked.least.text}"] if counted.small and asked.least else []
        found.append(f"no grain is left: {', '.join(reasons)}")
    if covered > _MOST_COVERED:
        advice = "brighter than their ground, leave out --dark" if asked.is_dark else "darker than their ground, take --dark"
        found.append(f"grains cover {covered:.0%} of the frame: where they are {advice}")
    if counted.cut > counted.left_out:
        found.append(f"{counted.cut} of {count} grains are cut by the frame, so they are measured too small: --clear-border leaves them out")
    return found


def measured(path: str, loaded: Loaded, asked: Asked, pixel: Pixel | None = None, maxval: int | None = None) -> Measured:
    """What is found in a picture.

    Parameters
    ----------
    path : str
        The picture's name.
    loaded : Loaded
        What its file holds.
    asked : Asked
    pixel : Pixel, optional
        The side of a pixel, that of the file if left out.
    maxval : int, optional
        The greatest sample that there can be.

    Returns
    -------
    Measured

    Raises
    ------
    ValueError
        Where the picture has levels and no threshold is told, or is a set and one is told, or has three axes; and where the least
        area is told in a unit and the pixel is not.
    """
    image, side = loaded.array, pixel or loaded.pixel
    if image.ndim != 2:
        raise ValueError("it has several pages: --page chooses one")
    least = 1 if asked.least is None else asked.least.in_pixels(side)
    if asked.is_otsu and image.dtype != np.bool_:
        asked = replace(asked, at=levels.otsu(image))
    found = _grains(image, asked, maxval)
    side = side or Pixel(1.0, "pixels")
    kept = _whole(found, asked, least, side) if asked.split is None else _parted(found, asked, least, side, asked.split)
    table, touching, one = kept.table, int(kept.table["touches_frame"].sum()), side.size**2
    counted = Counted(
        np.asarray(table["area"], np.float64), side.unit, inside=len(table) - touching, cut=touching + kept.left_out,
        left_out=kept.left_out, small=kept.small, frame=image.size * one, covered=kept.covered * one, heaps=kept.heaps, parts=kept.parts)
    return Measured(path, image, asked, side, table, kept.others, counted, tuple(_doubts(image, found, asked, counted)))
