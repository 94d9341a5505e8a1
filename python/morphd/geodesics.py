"""What hangs together: reconstruction, holes, borders, extrema, labels and distances, each computed by libmorphd.

    import morphd
    mask = morphd.clear_border(morphd.fill_holes(morphd.threshold(image, 120)))
    labels = morphd.label(mask)
    far = morphd.distance(mask)

A footprint tells which pixels hang together: pixel p with the pixels at p + b, b in the footprint. Left out it is the square of
3 x 3, so pixels that share a side or a corner do, or where a docstring says so the cross, where they share a side.

Each call of the library is proved to make the samples of the definition. A function here is one such call on a plane of bool, uint8 or
uint16, within the library's limits of 8192 a side and 16,777,216 samples; what is larger is refused, since it cannot be cut into
pieces. What a docstring says is made otherwise is tested, not proved.
"""
from __future__ import annotations

from dataclasses import replace
from typing import Any, Literal, NamedTuple, Union, overload

import numpy as np
from numpy.typing import ArrayLike, NDArray

from . import _arrays, _geodesic_calls, _joined, _library
from ._calls import Field, Samples
from ._docs import COMPUTES, FILLS, documented
from ._geodesic_calls import Cleared, ClearedBand, Cut, Distances, Filled, Regional, Whole
from ._numbers import whole, word
from ._threads import worker_count
from ._work import Array, Options, Work, made_of, plane_axes, planes
from .errors import Refused
from .footprints import Footprint, diamond, square

__all__ = [
    "clear_border", "distance", "fill_holes", "h_maxima", "h_minima", "hmax", "hmin", "label", "local_maxima", "local_minima",
    "reconstruction",
]

FootprintLike = Union[Footprint, ArrayLike]
Metric = Literal["euclidean", "sqeuclidean", "cityblock", "chessboard"]
Method = Literal["dilation", "erosion"]

CROSS, SQUARE = diamond(1), square(3)
_METHODS = {"dilation": _library.BY_DILATION, "erosion": _library.BY_EROSION}
_METRICS = {
    "euclidean": _library.SQUARED_EUCLID, "sqeuclidean": _library.SQUARED_EUCLID, "cityblock": _library.CITY_BLOCK,
    "chessboard": _library.CHESSBOARD,
}
# The distance of pixels in an array without one outside the set: more than any other, and a number of int32.
_ENDLESS = 2**31 - 1


def _around(footprint: FootprintLike | None, usual: Footprint = SQUARE) -> Footprint:
    return usual if footprint is None else Footprint(footprint)


def neighbours(connectivity: int | None) -> Footprint:
    """The footprint of pixels that share a side, for 1, or a side or a corner, for 2 or None."""
    number = 2 if connectivity is None else whole(connectivity, "connectivity")
    if number not in (1, 2):
        raise ValueError(f"connectivity is 1, for pixels that share a side, or 2, for a corner too: {connectivity}")
    return CROSS if number == 1 else SQUARE


def as_set(mask: Any, what: str) -> Field:
    """A set for the library: of bool, or of bytes of which those that are not 0 are alike."""
    array = _arrays.as_plane(mask)
    if array.dtype == np.bool_:
        return _arrays.read(array, what, None).field
    if array.dtype == np.uint8:
        samples = _arrays.read(array, what, None).field.samples
        if not samples.size or not ((samples != 0) & (samples != samples.max())).any():
            return Field(samples, 1, True)
    raise Refused(44, f"{what} of an array of {array.dtype}")


@documented()
def reconstruction(
    seed: ArrayLike, mask: ArrayLike, method: Method = "dilation", footprint: FootprintLike | None = None, *,
    maxval: int | None = None, axes: tuple[int, int] | None = None, out: Array | None = None,
) -> Array:
    """The mask as far as it hangs together with a seed.

    By dilation each pixel rises to the greatest level at which a path leads from it to the seed, on which no sample of the mask
    is lower. Of sets, these are the components of the mask in which the seed has a pixel. By erosion it falls likewise.

    Parameters
    ----------
    seed : array_like
        Of the shape and type of `mask`. By dilation no sample is over that of the mask, by erosion none is under it.
    mask : array_like
        Two axes, unless `axes` is given. An array of bool is a set; uint8 and uint16 are taken as they are. Other integers and
        floats are taken, too, with up to 65,536 values in a seed and its mask and no NaN.
    method : {'dilation', 'erosion'}, optional
        Whether samples rise from the seed to the mask, or fall to it.
    %(around)s
    %(whole)s
        Here that is `seed` or `mask`.

    Returns
    -------
    ndarray
        Of the mask's type; scikit-image's is float64.

    Raises
    ------
    ValueError
        Where the seed is over the mask, or under it by erosion. The library itself would cut it to the mask.
    %(raises)s

    See Also
    --------
    fill_holes, clear_border, hmax : What is made of it.
    skimage.morphology.reconstruction

    Notes
    -----
    A pixel p takes from the pixels at p + b. scikit-image goes from p to p + b, so a footprint that is not symmetric stands for its
    reflected one there.

    References
    ----------
    .. [1] %(vincent)s
    .. [2] %(soille)s

    Examples
    --------
    >>> import numpy as np, morphd
    >>> mask = np.array([[3, 4, 6, 2, 5]], np.uint8)
    >>> seed = np.array([[0, 0, 6, 0, 0]], np.uint8)
    >>> morphd.reconstruction(seed, mask)
    array([[3, 4, 6, 2, 2]], dtype=uint8)
    """
    if method not in _METHODS:
        raise ValueError(f"method is 'dilation' or 'erosion': {method!r}")
    b = _around(footprint)
    marker, array = _arrays.as_array(seed, axes), _arrays.as_array(mask, axes)
    _arrays.check_kind(array, "reconstruction", True)
    if marker.dtype.newbyteorder("=") != array.dtype.newbyteorder("="):
        raise TypeError(f"reconstruction takes a seed of the mask's type, and these are of {marker.dtype} and {array.dtype}")
    if marker.shape != array.shape:
        raise Refused(53, f"reconstruction of {array.shape} from {marker.shape}")
    made = _arrays.checked_out(out, array, array.dtype)
    if axes is None and array.size:
        return _rebuilt(_pair(marker, array, maxval, method), method, b, made)
    held = np.empty(array.shape, array.dtype)
    pairs = [] if axes is None else zip(planes(marker, held, axes), planes(array, held, axes))
    for (one, target), (other, _) in pairs if array.size else []:
        target[...] = _rebuilt(_pair(one, other, maxval, method), method, b, None)
    if made is None:
        return held
    made[...] = held
    return made


class _Pair(NamedTuple):
    """A seed and a mask of two axes: the seed's samples, and the mask as the library takes it."""

    marker: Samples
    mask: _arrays.Reading


def _pair(seed: Array, mask: Array, maxval: int | None, method: Method) -> _Pair:
    """Both for the library. Values that are no levels have their places among those of both."""
    if _arrays.is_taken(mask.dtype):
        marker, reading = (_arrays.read(each, "reconstruction", maxval) for each in (seed, mask))
        pair = _Pair(marker.field.samples, reading)
    else:
        both = _arrays.read(np.concatenate((seed, mask)), "reconstruction", maxval)
        parts = both.field.samples[: len(seed)], both.field.samples[len(seed) :]
        pair = _Pair(parts[0], replace(both, field=both.field._replace(samples=parts[1]), dtype=mask.dtype))
    samples = pair.mask.field.samples
    if method == "dilation" and (pair.marker > samples).any():
        raise ValueError("by dilation no sample of the seed is over that of the mask")
    if method == "erosion" and (pair.marker < samples).any():
        raise ValueError("by erosion no sample of the seed is under that of the mask")
    return pair


def _rebuilt(pair: _Pair, method: Method, footprint: Footprint, out: Array | None) -> Array:
    """The reconstruction of a mask of two axes."""
    field = pair.mask.field
    held = _arrays.direct(out, pair.mask, field.samples.dtype)
    if held is None or np.may_share_memory(held, pair.marker):
        held = np.empty_like(field.samples)
    _geodesic_calls.reconstruction(_METHODS[method], field._replace(samples=pair.marker), field, footprint, held)()
    made = pair.mask.restored(held)
    if out is None:
        return made
    if not np.may_share_memory(out, held):
        out[...] = made
    return out


def made_whole(name: str, plan: Whole, image: Any, options: Options, made: Any = None) -> Array:
    """What a call makes of an array of two axes, or of each plane of it."""
    return made_of(Work(name, lambda _: plan, made), image, options)


@documented(FILLS)
def fill_holes(
    image: ArrayLike, footprint: FootprintLike | None = None, *, maxval: int | None = None, axes: tuple[int, int] | None = None,
    out: Array | None = None,
) -> Array:
    """The image with its holes filled.

    A hole of a set is what is not in it and does not hang together with the border of the frame. Of levels, each pixel rises to the
    least level that a path from it to the border has to reach: ponds are filled up to the lowest place of their banks.

    Parameters
    ----------
    %(image)s
    footprint : Footprint or array_like, optional
        Which pixels of the ground hang together; if left out the cross, as SciPy has it for sets: those that share a side. So
        a ring whose pixels meet at corners alone has a hole. With `square(3)` it has none. Where a footprint leads from a pixel
        nowhere, it rises to the maxval, or among types that are no levels to the plane's greatest value.
    %(whole)s

    Returns
    -------
    ndarray
        Of the image's type.

    Raises
    ------
    %(raises)s

    See Also
    --------
    reconstruction : By erosion, of the image from its border.
    closing : Fills what is smaller than a footprint, whether it is closed in or not.
    scipy.ndimage.binary_fill_holes

    References
    ----------
    .. [1] %(soille)s
    .. [2] %(vincent)s

    Examples
    --------
    >>> import numpy as np, morphd
    >>> pond = np.array([[9, 5, 9], [7, 1, 8], [0, 6, 0]], np.uint8)
    >>> morphd.fill_holes(pond)
    array([[9, 5, 9],
           [7, 5, 8],
           [0, 6, 0]], dtype=uint8)
    """
    return made_whole("fill_holes", Filled(_around(footprint, CROSS)), image, Options(maxval=maxval, axes=axes, out=out))


@documented(COMPUTES)
def clear_border(
    image: ArrayLike, buffer: int = 0, footprint: FootprintLike | None = None, *, maxval: int | None = None,
    axes: tuple[int, int] | None = None, out: Array | None = None,
) -> Array:
    """The image without what touches the border of the frame.

    Of a set, the components without a pixel in the first and last row and column stay. Of levels, the image less what is
    reconstructed from its border.

    Parameters
    ----------
    %(image)s
        Integers are levels, where scikit-image takes them for labels.
    buffer : int, optional
        How many rows and columns more belong to the border; less than the sides of the image. Over 0 the result is the image less a
        reconstruction, so made of a proved call and a difference.
    %(around)s
    %(whole)s

    Returns
    -------
    ndarray
        Of the image's type.

    Raises
    ------
    %(raises)s

    See Also
    --------
    regions : Tells of each component whether it touches the frame.
    skimage.segmentation.clear_border

    References
    ----------
    .. [1] %(soille)s
    .. [2] %(vincent)s

    Examples
    --------
    >>> import numpy as np, morphd
    >>> mask = np.array([[1, 0, 0, 0], [0, 0, 1, 0], [0, 0, 0, 0]], bool)
    >>> morphd.clear_border(mask).astype(int)
    array([[0, 0, 0, 0],
           [0, 0, 1, 0],
           [0, 0, 0, 0]])
    """
    b, width = _around(footprint), whole(buffer, "buffer")
    options = Options(maxval=maxval, axes=axes, out=out)
    if width < 0:
        raise ValueError(f"buffer is a number of rows and columns from 0 on: {buffer}")
    if width == 0:
        return made_whole("clear_border", Cleared(b), image, options)
    array = _arrays.as_array(image, axes)
    sides = array.shape if axes is None else [array.shape[axis] for axis in plane_axes(array, axes)]
    if any(width >= side for side in sides):
        raise ValueError(f"buffer is less than the sides of the image: {width} of {array.shape}")
    return made_whole("clear_border", ClearedBand(b, width + 1), array, options)


@documented(COMPUTES)
def hmax(
    image: ArrayLike, h: int, footprint: FootprintLike | None = None, *, maxval: int | None = None,
    axes: tuple[int, int] | None = None, out: Array | None = None,
) -> Array:
    """The image with `h` cut off each of its domes, and so without the domes of a height up to `h`.

    This is the transformation that Soille calls h-maxima, and no set. ``image - hmax(image, h)`` has the tops of the domes;
    ``local_maxima(hmax(image, h))`` is the set of those that are left, Soille's extended maxima.

    Parameters
    ----------
    %(image)s
    h : int
        In levels of the image, from 1 to 65535.
    %(around)s
    %(whole)s

    Returns
    -------
    ndarray
        The reconstruction by dilation of the image from the image less `h`, where that is not under 0; of the image's type.

    Raises
    ------
    %(raises)s

    See Also
    --------
    hmin : The same for basins.
    local_maxima : The tops of all domes.
    h_maxima : The set of the tops, which scikit-image calls so.

    References
    ----------
    .. [1] %(soille)s
    .. [2] %(vincent)s

    Examples
    --------
    >>> import numpy as np, morphd
    >>> image = np.array([[0, 2, 0, 5, 1]], np.uint8)
    >>> morphd.hmax(image, 2)
    array([[0, 0, 0, 3, 1]], dtype=uint8)
    >>> image - morphd.hmax(image, 2) >= 2
    array([[False,  True, False,  True, False]])
    """
    return _cut("hmax", _library.MAXIMA, image, h, footprint, Options(maxval=maxval, axes=axes, out=out))


@documented(COMPUTES)
def hmin(
    image: ArrayLike, h: int, footprint: FootprintLike | None = None, *, maxval: int | None = None,
    axes: tuple[int, int] | None = None, out: Array | None = None,
) -> Array:
    """The image with each of its basins filled up by `h`, and so without the basins of a depth up to `h`.

    This is the transformation that Soille calls h-minima, and no set. ``local_minima(hmin(image, h))`` is the set of the basins that
    are left, Soille's extended minima.

    Parameters
    ----------
    %(image)s
    h : int
        In levels of the image, from 1 to 65535.
    %(around)s
    %(whole)s

    Returns
    -------
    ndarray
        The reconstruction by erosion of the image from the image and `h`, where that is not over the maxval; of the image's type.

    Raises
    ------
    %(raises)s

    See Also
    --------
    hmax : The same for domes.
    local_minima : The floors of all basins.
    h_minima : The set of the floors, which scikit-image calls so.

    References
    ----------
    .. [1] %(soille)s
    .. [2] %(vincent)s

    Examples
    --------
    >>> import numpy as np, morphd
    >>> morphd.hmin(np.array([[9, 7, 9, 4, 8]], np.uint8), 2)
    array([[9, 9, 9, 6, 8]], dtype=uint8)
    """
    return _cut("hmin", _library.MINIMA, image, h, footprint, Options(maxval=maxval, axes=axes, out=out))


def _cut(name: str, kind: int, image: Any, h: Any, footprint: FootprintLike | None, options: Options) -> Array:
    """The image with h cut off its domes, or filled into its basins."""
    return made_whole(name, Cut(kind, word(whole(h, "h"), name), _around(footprint)), image, options)


@documented(COMPUTES)
def h_maxima(image: ArrayLike, h: int, footprint: FootprintLike | None = None) -> NDArray[np.bool_]:
    """The set of the tops of the domes of a height of `h` or more, as scikit-image has it.

    Parameters
    ----------
    %(image)s
    h : int
        In levels of the image, from 1 to 65535.
    %(around)s

    Returns
    -------
    ndarray of bool
        ``image - hmax(image, h) >= h``; nothing where `h` is more than the greatest sample less the least. The difference is NumPy's.
        scikit-image has 0 and 1 in bytes.

    Raises
    ------
    %(raises)s

    See Also
    --------
    hmax : The image with its domes cut.
    skimage.morphology.h_maxima

    Examples
    --------
    >>> import numpy as np, morphd
    >>> morphd.h_maxima(np.array([[0, 2, 0, 5, 1]], np.uint8), 2)
    array([[False,  True, False,  True, False]])
    """
    return _are_as_high("h_maxima", _library.MAXIMA, image, h, footprint)


@documented(COMPUTES)
def h_minima(image: ArrayLike, h: int, footprint: FootprintLike | None = None) -> NDArray[np.bool_]:
    """The set of the floors of the basins of a depth of `h` or more, as scikit-image has it.

    Parameters
    ----------
    %(image)s
    h : int
        In levels of the image, from 1 to 65535.
    %(around)s

    Returns
    -------
    ndarray of bool
        ``hmin(image, h) - image >= h``; nothing where `h` is more than the greatest sample less the least. The difference is NumPy's.

    Raises
    ------
    %(raises)s

    See Also
    --------
    hmin : The image with its basins filled.
    skimage.morphology.h_minima

    Examples
    --------
    >>> import numpy as np, morphd
    >>> morphd.h_minima(np.array([[9, 7, 9, 4, 8]], np.uint8), 3)
    array([[False, False, False,  True, False]])
    """
    return _are_as_high("h_minima", _library.MINIMA, image, h, footprint)


def _are_as_high(name: str, kind: int, image: Any, h: Any, footprint: FootprintLike | None) -> NDArray[np.bool_]:
    """The tops of the domes that are h high or more, or the floors of the basins that are so deep, if samples lie that far apart."""
    array = _arrays.as_plane(image)
    cut = _cut(name, kind, array, h, footprint, Options())
    # as levels, since sets are not subtracted
    before, behind = (_arrays.read(each, name, None).field.samples for each in (array, cut))
    if not before.size or int(before.max()) - int(before.min()) < h:
        return np.zeros(array.shape, np.bool_)
    made: NDArray[np.bool_] = (before - behind if kind == _library.MAXIMA else behind - before) >= h
    return made


@documented(COMPUTES)
def local_maxima(
    image: ArrayLike, footprint: FootprintLike | None = None, *, maxval: int | None = None, axes: tuple[int, int] | None = None,
    out: Array | None = None,
) -> NDArray[np.bool_]:
    """The set of the regional maxima: plateaus of a level over 0 that have no higher neighbour.

    Parameters
    ----------
    %(image)s
    %(around)s
    %(whole)s

    Returns
    -------
    ndarray of bool

    Raises
    ------
    %(raises)s

    See Also
    --------
    local_minima : The same for lower neighbours.
    hmax : Takes low domes away before.
    skimage.morphology.local_maxima : Differs on an image of a single level alone: there it has no maximum, and here the frame is
        one, where that level is not 0.

    References
    ----------
    .. [1] %(soille)s
    .. [2] %(vincent)s

    Examples
    --------
    >>> import numpy as np, morphd
    >>> morphd.local_maxima(np.array([[2, 4, 4, 1, 3]], np.uint8))
    array([[False,  True,  True, False,  True]])
    """
    plan = Regional(_library.MAXIMA, _around(footprint))
    return made_whole("local_maxima", plan, image, Options(maxval=maxval, axes=axes, out=out), np.bool_)


@documented(COMPUTES)
def local_minima(
    image: ArrayLike, footprint: FootprintLike | None = None, *, maxval: int | None = None, axes: tuple[int, int] | None = None,
    out: Array | None = None,
) -> NDArray[np.bool_]:
    """The set of the regional minima: plateaus of a level under the maxval that have no lower neighbour.

    Parameters
    ----------
    %(image)s
    %(around)s
    %(whole)s

    Returns
    -------
    ndarray of bool

    Raises
    ------
    %(raises)s

    See Also
    --------
    local_maxima : The same for higher neighbours.
    hmin : Fills flat basins before.
    skimage.morphology.local_minima : Differs on an image of a single level alone: there it has no minimum, and here the frame is
        one, where that level is not the maxval.

    References
    ----------
    .. [1] %(soille)s
    .. [2] %(vincent)s

    Examples
    --------
    >>> import numpy as np, morphd
    >>> morphd.local_minima(np.array([[2, 4, 4, 1, 3]], np.uint8))
    array([[ True, False, False,  True, False]])
    """
    plan = Regional(_library.MINIMA, _around(footprint))
    return made_whole("local_minima", plan, image, Options(maxval=maxval, axes=axes, out=out), np.bool_)


@overload
def label(
    mask: ArrayLike, connectivity: int | None = None, return_num: Literal[False] = False, *, workers: int | None = None,
) -> NDArray[np.int32]: ...


@overload
def label(
    mask: ArrayLike, connectivity: int | None = None, *, return_num: Literal[True], workers: int | None = None,
) -> tuple[NDArray[np.int32], int]: ...


@overload
def label(
    mask: ArrayLike, connectivity: int | None, return_num: Literal[True], *, workers: int | None = None,
) -> tuple[NDArray[np.int32], int]: ...


@documented()
def label(
    mask: ArrayLike, connectivity: int | None = None, return_num: bool = False, *, workers: int | None = None,
) -> NDArray[np.int32] | tuple[NDArray[np.int32], int]:
    """A number for each component of a set.

    Parameters
    ----------
    %(mask)s
    %(connectivity)s
    return_num : bool, optional
        Whether the number of components is given, too.
    %(bands)s

    Returns
    -------
    labels : ndarray of int32
        0 outside the set; of two pixels in it the same number where a path in the set leads from one to the other. Components are
        numbered from 1 by their first pixels, row after row.
    num : int
        How many components there are, with ``return_num=True``.

    Raises
    ------
    %(raises)s

    See Also
    --------
    regions : Measures each component.
    skimage.measure.label : Numbers them as here; parts integers of other values, which are refused here.
    scipy.ndimage.label : Joins pixels that share a side, unless told.

    References
    ----------
    .. [1] %(soille)s
    .. [2] %(vincent)s

    Examples
    --------
    >>> import numpy as np, morphd
    >>> mask = np.array([[1, 0, 0, 1], [0, 1, 0, 1]], bool)
    >>> morphd.label(mask)
    array([[1, 0, 0, 2],
           [0, 1, 0, 2]], dtype=int32)
    >>> morphd.label(mask, connectivity=1, return_num=True)[1]
    3
    """
    b, field = neighbours(connectivity), as_set(mask, "label")
    labels, count = labelled(field, b, worker_count(workers))
    return (labels, count) if return_num else labels


def labelled(field: Field, footprint: Footprint, workers: int) -> tuple[NDArray[np.int32], int]:
    """The labels of a set, and how many there are."""
    if not field.samples.size:
        return np.zeros(field.samples.shape, np.int32), 0
    labels, count = _joined.labels(field, footprint, workers)
    return labels.view(np.int32), count


def regioned(field: Field, footprint: Footprint, workers: int) -> tuple[NDArray[np.int32], NDArray[np.uint32]]:
    """The labels of a set, and a row of what is told of each component."""
    if not field.samples.size:
        return np.zeros(field.samples.shape, np.int32), np.zeros((0, len(_geodesic_calls.REGION)), np.uint32)
    labels, rows = _joined.regions(field, footprint, workers)
    return labels.view(np.int32), rows


@documented()
def distance(mask: ArrayLike, metric: Metric = "euclidean") -> NDArray[Any]:
    """How far each pixel of a set is from the nearest pixel that is not in it, in pixels.

    Parameters
    ----------
    %(mask)s
    metric : {'euclidean', 'sqeuclidean', 'cityblock', 'chessboard'}, optional
        The straight line; its square; steps along rows and columns; steps along diagonals, too.

    Returns
    -------
    ndarray of float64 or int32
        0 outside the set; float64 for 'euclidean', the root of the squares, which are proved, and int32 else. What lies outside
        the frame is near to nothing. Where all pixels of the array are in the set none has a distance: it is infinite, and the
        greatest int32 among whole numbers.

    Raises
    ------
    %(raises)s

    See Also
    --------
    scipy.ndimage.distance_transform_edt : The same as 'euclidean', but where all is in the set.
    scipy.ndimage.distance_transform_cdt : With 'taxicab' as 'cityblock'; has -1 where all is in the set.

    References
    ----------
    .. [1] %(soille)s

    Examples
    --------
    >>> import numpy as np, morphd
    >>> morphd.distance(np.array([[0, 1, 1, 1], [1, 1, 1, 1]], bool), "sqeuclidean")
    array([[ 0,  1,  4,  9],
           [ 1,  2,  5, 10]], dtype=int32)
    """
    if metric not in _METRICS:
        raise ValueError(f"metric is one of {', '.join(_METRICS)}: {metric!r}")
    field = as_set(mask, "distance")
    if not field.samples.size:
        return np.zeros(field.samples.shape, np.float64 if metric == "euclidean" else np.int32)
    made = Distances(_METRICS[metric], _ENDLESS).made(field, None).view(np.int32)
    if metric != "euclidean":
        return made
    if made.flat[0] == _ENDLESS:
        return np.full(made.shape, np.inf)
    return np.sqrt(made, dtype=np.float64)
