"""Watersheds: basins that are flooded from markers, and touching grains that are parted by them.

    labels = morphd.split_grains(mask)
    grains = morphd.regions(labels=labels, pixel="0.32um")

The distances, regional extrema and labels that both stand on are calls of libmorphd, which are proved. Flooding itself is NumPy's
(`_flood`): it is tested beside a plain program that goes by the rule pixel by pixel, and not proved.
"""
from __future__ import annotations

from fractions import Fraction
from typing import Any

import numpy as np
from numpy.typing import ArrayLike, NDArray

from . import _arrays, _geodesic_calls, _library
from ._calls import Field, Samples
from ._docs import documented
from ._flood import flooded
from ._geodesic_calls import Cut, Distances, Regional
from ._numbers import real, whole
from .errors import Refused
from .footprints import Footprint
from .geodesics import CROSS, as_set, labelled, neighbours

__all__ = ["split_grains", "watershed"]

Labels = NDArray[np.int32]
Set = NDArray[np.bool_]

_MOST_LABEL = 2**31 - 1
# So many levels are one pixel of distance where grains are split, and so many there are.
_PART, _LEVELS = 16, 65536


def _offsets(footprint: Footprint) -> list[tuple[int, int]]:
    """From a place to its neighbours, by rows."""
    return sorted(offset for offset in footprint.offsets if offset != (0, 0))


@documented()
def watershed(
    image: ArrayLike, markers: ArrayLike | None = None, connectivity: int = 1, *, mask: ArrayLike | None = None,
    watershed_line: bool = False,
) -> Labels:
    """The basin that each pixel belongs to, when the image is flooded from markers.

    For each level h of the image, from the least on, go rounds. In a round each pixel of a level up to h, in the mask and without a label,
    that has a neighbour with one when the round begins takes that label. Where its neighbours have several labels, the tie goes to the
    first such neighbour, counted by rows from the top and in a row from the left. When a round changes nothing comes the next level.
    Flooding by this rule is tested, and not proved.

    Parameters
    ----------
    image : array_like
        Two axes. bool, uint8 and uint16 are taken as they are; other integers and floats, too, with up to 65,536 values and no NaN, since
        flooding only compares samples.
    markers : array_like of int, or int, optional
        The labels at the start, by pixels of any level: 0 where there is none, else up to 2147483647. If left out, the
        components of `local_minima` of the image, numbered by `label`, as far as they lie in the mask. A number
        stands for so many pixels on a regular grid, as scikit-image spaces them.
    connectivity : {1, 2}, optional
        1 where the pixels that share a side are neighbours, 2 where those that share a corner are, too.
    mask : array_like of bool, optional
        Where labels may stand; all of the frame if left out. Markers outside it are left out.
    watershed_line : bool, optional
        Whether a line parts the basins: a pixel that has a neighbour with a lesser label, which is not 0, gets 0. It lies in the basin of
        the greater label, so a basin of one pixel's width can become 0.

    Returns
    -------
    ndarray of int32
        The label of each pixel. It is 0 outside the mask, where no path in the mask leads to a marker, and on the line.

    Raises
    ------
    %(raises)s
        That the mask or the markers have other sides than the image has the number 53, and a label outside its limits 47.

    See Also
    --------
    split_grains : Touching grains of a set.
    regions : Measures each of the basins.
    skimage.segmentation.watershed : Pixels get their labels earlier there, from the neighbour that was flooded first; see Notes.

    Notes
    -----
    The rule is that of Beucher and Lantuejoul, in the order of Meyer and Soille. It is exact, so the labels do not depend on the
    machine or on how they are found. Minima and labels at the start are calls of the library, which are proved. Flooding is not: it is
    tested beside a program that goes by the rule, pixel by pixel.

    scikit-image makes the same labels where the markers are the minima, each with one, and no pixel has neighbours of several labels
    when its turn comes. At such a tie it takes the label of the neighbour which got its own first; here it is the first by rows. A
    marker over its neighbours spreads there when its own level comes, and a basin without a marker is filled at once by who comes first.

    Its time grows with the pixels and with the rounds of all levels. With markers an array may have any sides; the minima of one are
    found within the library's limits.

    References
    ----------
    .. [1] %(beucher)s
    .. [2] %(meyer_1991)s
    .. [3] %(soille)s

    Examples
    --------
    >>> import numpy as np, morphd
    >>> image = np.array([[1, 3, 9, 2, 0, 2]], np.uint8)
    >>> morphd.watershed(image)
    array([[1, 1, 1, 2, 2, 2]], dtype=int32)
    >>> morphd.watershed(image, [[0, 0, 0, 0, 5, 0]], mask=image < 9)
    array([[0, 0, 0, 5, 5, 5]], dtype=int32)
    >>> morphd.watershed(image, watershed_line=True)
    array([[1, 1, 1, 0, 2, 2]], dtype=int32)
    """
    b, array = neighbours(whole(connectivity, "connectivity")), _arrays.as_plane(image)
    _arrays.check_kind(array, "watershed", True)
    is_in = _mask_of(mask, array.shape)
    if not array.size:
        return np.zeros(array.shape, np.int32)
    field = _arrays.read(array, "watershed", None).field
    labels = flooded(field.samples, _markers_of(markers, field, is_in, b), is_in, _offsets(b))
    return _lined(labels, _offsets(b)) if watershed_line else labels


def _mask_of(mask: Any, shape: tuple[int, ...]) -> Set:
    if mask is None:
        return np.ones(shape, np.bool_)
    samples = as_set(mask, "watershed").samples
    if samples.shape != shape:
        raise Refused(53, f"watershed of {shape} within {samples.shape}")
    is_in: Set = samples != 0
    return is_in


def _markers_of(markers: Any, field: Field, is_in: Set, footprint: Footprint) -> Labels:
    """The labels at the start."""
    if markers is None:
        minima = Regional(_library.MINIMA, footprint).made(field, None)
        return labelled(Field(minima * is_in, 1, True), footprint, 1)[0]
    if np.ndim(markers) == 0:
        count = whole(markers, "markers")
        if count < 1:
            raise Refused(47, f"watershed from {count} markers")
        part = np.count_nonzero(is_in) / is_in.size
        return _grid(is_in.shape, int(count / part)) if part else np.zeros(is_in.shape, np.int32)
    array = _arrays.as_plane(markers)
    if array.dtype.kind not in "iu":
        raise TypeError(f"markers are whole numbers, and these are of {array.dtype}: label(markers) numbers the components of a set")
    if array.shape != is_in.shape:
        raise Refused(53, f"watershed of {is_in.shape} from {array.shape}")
    least, most = int(array.min()), int(array.max())
    if least < 0 or most > _MOST_LABEL:
        raise Refused(47, f"watershed from a label of {least if least < 0 else most}")
    return array.astype(np.int32)


def _grid(shape: tuple[int, ...], count: int) -> Labels:
    """So many labels, or nearly, on a regular grid: as `skimage.util.regular_seeds` has them."""
    made = np.zeros(shape, np.int32)
    short, long = sorted(shape)
    sides = [1.0, 1.0]
    if short * long > count:
        even = (short * long / count) ** 0.5
        sides = [float(short), long / count] if short < even else [even, even]
    if shape[0] > shape[1]:
        sides.reverse()
    rows, columns = (slice(int(side // 2), None, round(side)) for side in sides)
    seen = made[rows, columns]
    seen[...] = np.arange(1, seen.size + 1).reshape(seen.shape)
    return made


def _lined(labels: Labels, offsets: list[tuple[int, int]]) -> Labels:
    """The labels with 0 where a neighbour has a lesser one."""
    rows, columns = labels.shape
    wide, is_line = np.pad(labels, 1), np.zeros(labels.shape, np.bool_)
    for down, right in offsets:
        beside = wide[1 + down : 1 + down + rows, 1 + right : 1 + right + columns]
        is_line |= (beside != 0) & (beside < labels)
    labels[is_line] = 0
    return labels


@documented()
def split_grains(mask: ArrayLike, h: float = 1.0, connectivity: int | None = None) -> Labels:
    """A number for each grain of a set in which grains touch, parted at their necks.

    How far a pixel is from the ground rises towards the middle of a grain, and falls at the neck between two that touch. Middles that
    a path joins on which it falls by no more than `h` are one grain. The others are parted by a watershed of this distance, turned
    over.

    Parameters
    ----------
    %(mask)s
        Fill holes before, since pixels are near to those, too.
    h : float, optional
        In pixels, from 0 on. More joins what a smaller one parts: with 0 each maximum of the distance is a grain, and where `h` is over all
        distances nothing is parted. Rough outlines want 2 and more.
    %(connectivity)s

    Returns
    -------
    ndarray of int32
        0 outside the set. Each component of it has one number or more; grains are numbered by their first pixels, row after row, and
        each hangs together.

    Raises
    ------
    %(raises)s

    See Also
    --------
    regions : Measures the grains; it takes these labels.
    watershed, distance, hmax, local_maxima, label : What it is made of.
    skimage.segmentation.watershed, skimage.feature.peak_local_max : Part grains likewise.

    Notes
    -----
    Distances are Euclid's, of which whole sixteenths of a pixel are kept, up to 4095 less `h` pixels. `h` counts in sixteenths, too.
    The markers are Soille's extended maxima, the regional maxima of `hmax`. For that the distance is raised by `h` all over the
    set, so that each component has one. Floods go by sides, so that necks are cut straight, and then by corners to what sides do not
    reach. Distances, `hmax`, regional maxima and labels are calls of the library, which are proved; flooding is tested.

    References
    ----------
    .. [1] %(beucher)s
    .. [2] %(meyer_1991)s
    .. [3] %(soille)s

    Examples
    --------
    >>> import numpy as np, morphd
    >>> mask = np.array([[1, 1, 1, 0, 1, 1, 1], [1, 1, 1, 1, 1, 1, 1], [1, 1, 1, 0, 1, 1, 1]], bool)
    >>> morphd.split_grains(np.pad(mask, 1), h=0.5)[2, 1:-1]
    array([1, 1, 1, 1, 2, 2, 2], dtype=int32)
    """
    b, field, fall = neighbours(connectivity), as_set(mask, "split_grains"), _sixteenths_of(h)
    if not field.samples.any():
        return np.zeros(field.samples.shape, np.int32)
    levels = _distances(field)
    if fall >= levels.max():
        return labelled(field, b, 1)[0]
    is_in = field.samples != 0
    raised = np.where(is_in, np.minimum(levels, _LEVELS - 1 - fall) + np.uint16(fall), np.uint16(0))
    domes = Field(raised, _LEVELS - 1, False)
    if fall:
        domes = domes._replace(samples=Cut(_library.MAXIMA, fall, b).made(domes, None))
    middles = Field(Regional(_library.MAXIMA, b).made(domes, None), 1, True)
    labels = flooded(levels.max() - levels, labelled(middles, b, 1)[0], is_in, _offsets(CROSS))
    if (is_in & (labels == 0)).any():
        # the parts without a middle, which hang on others by corners
        labels = flooded(levels.max() - levels, labels, is_in, _offsets(b))
    return by_first_places(labels)


def _sixteenths_of(h: Any) -> int:
    """A length as whole sixteenths of a pixel."""
    number = real(h, "h")
    if not number >= 0:
        raise Refused(47, f"split_grains with {h}")
    return int(min(number, Fraction(_LEVELS)) * _PART)


def _distances(field: Field) -> Samples:
    """How far each pixel of a set is from the ground, in sixteenths of a pixel, cut down. Roots are not near enough to a whole number from
    below to be rounded to it."""
    squares = Distances(_library.SQUARED_EUCLID, _MOST_LABEL).made(field, None)
    roots = np.sqrt(squares, dtype=np.float64)
    roots *= _PART
    made: Samples = np.minimum(roots, _LEVELS - 1, out=roots).astype(np.uint16)
    return made


def by_first_places(labels: Labels) -> Labels:
    """The same parts, numbered from 1 by their first places."""
    held = labels.ravel()
    count = int(held.max(initial=0))
    first = np.full(count + 1, held.size, np.int64)
    # of several places of a number the last that is written stays
    first[held[::-1]] = np.arange(held.size - 1, -1, -1)
    first[0] = -1
    numbers = np.zeros(count + 1, np.int32)
    numbers[np.argsort(first, kind="stable")] = np.arange(count + 1)
    made: Labels = numbers[labels]
    return made
