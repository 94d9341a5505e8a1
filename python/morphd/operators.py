"""Operators on NumPy arrays, each computed by libmorphd.

    import morphd
    opened = morphd.opening(image, morphd.disk(5))
    clean = morphd.median(image, morphd.square(5), workers=4)
    mask = morphd.threshold(morphd.white_tophat(image, morphd.disk(15)), 40)

Operators that look at edges in several ways take `mode`; what they do on whole arrays they do by pieces on several cores,
and on arrays that are too large for the library, with the same result. Options are keywords, more of them than a function
has of arguments elsewhere in this package.

Each call of the library is proved to make the samples of the definition. On a plane of bool, uint8 or uint16 within the
library's limits, with ``mode="ignore"``, one worker and no `compat`, an operator is one such call. All else is made of
several calls or of levels that stand for samples, and that is tested, not proved: rims, pieces, differences, other types.
"""
from __future__ import annotations

from collections.abc import Callable
from typing import Any

import numpy as np
from numpy.typing import ArrayLike, NDArray

from . import _arrays, _plans
from ._calls import Flat, HitOrMiss, Restoration, Skeleton, Threshold
from ._docs import COMPUTES, documented
from ._edges import Mode
from ._library import RANK
from ._numbers import real, whole, word
from ._plans import Compat
from ._work import Array, Options, Work, made_of
from .errors import Refused
from .footprints import Footprint

__all__ = [
    "black_tophat", "closing", "dilation", "erosion", "gradient", "hit_or_miss", "median", "opening", "percentile", "rank",
    "restored", "skeleton", "threshold", "white_tophat",
]

FootprintLike = Footprint | ArrayLike


def _flat(name: str, image: Any, footprint: FootprintLike, options: Options) -> Array:
    b = footprint if isinstance(footprint, Footprint) else Footprint(footprint)
    return made_of(Work(name, lambda reading: _plans.of(name, b, options.compat, reading.field.is_set)), image, options)


@documented()
def erosion(
    image: ArrayLike, footprint: FootprintLike, *, mode: Mode | None = None, cval: Any = 0, maxval: int | None = None,
    axes: tuple[int, int] | None = None, compat: Compat | None = None, out: Array | None = None, workers: int | None = None,
) -> Array:
    """The least sample under the footprint.

    Parameters
    ----------
    %(image)s
    %(footprint)s
    %(mode)s
    %(cval)s
    %(options)s
    %(compat)s
    %(out)s

    Returns
    -------
    ndarray
        At each place p the least of the samples at p + b, b in the footprint; of the image's type.

    Raises
    ------
    %(raises)s

    See Also
    --------
    dilation : The greatest sample in its place.
    opening, gradient, hit_or_miss : What is made of it.
    scipy.ndimage.grey_erosion, skimage.morphology.erosion

    References
    ----------
    .. [1] %(serra)s
    .. [2] %(herk)s

    Examples
    --------
    >>> import numpy as np, morphd
    >>> morphd.erosion(np.array([[3, 1, 4, 1, 5]], np.uint8), [[1, 1, 1]])
    array([[1, 1, 1, 1, 1]], dtype=uint8)
    """
    return _flat("erosion", image, footprint, Options(mode, cval, maxval, axes, compat, out, workers))


@documented()
def dilation(
    image: ArrayLike, footprint: FootprintLike, *, mode: Mode | None = None, cval: Any = 0, maxval: int | None = None,
    axes: tuple[int, int] | None = None, compat: Compat | None = None, out: Array | None = None, workers: int | None = None,
) -> Array:
    """The greatest sample under the footprint.

    Parameters
    ----------
    %(image)s
    %(footprint)s
    %(mode)s
    %(cval)s
    %(options)s
    %(compat)s
    %(out)s

    Returns
    -------
    ndarray
        At each place p the greatest of the samples at p + b, b in the footprint; of the image's type. An erosion looks at
        the same places; SciPy's dilation looks at p - b.

    Raises
    ------
    %(raises)s

    See Also
    --------
    erosion : The least sample in its place.
    closing, gradient : What is made of it.
    scipy.ndimage.grey_dilation, skimage.morphology.dilation

    References
    ----------
    .. [1] %(serra)s
    .. [2] %(herk)s
    
    Examples
    --------
    >>> import numpy as np, morphd
    >>> morphd.dilation(np.array([[3, 1, 4, 1, 5]], np.uint8), [[1, 1, 1]])
    array([[3, 4, 4, 5, 5]], dtype=uint8)
    """
    return _flat("dilation", image, footprint, Options(mode, cval, maxval, axes, compat, out, workers))


@documented()
def opening(
    image: ArrayLike, footprint: FootprintLike, *, mode: Mode | None = None, cval: Any = 0, maxval: int | None = None,
    axes: tuple[int, int] | None = None, compat: Compat | None = None, out: Array | None = None, workers: int | None = None,
) -> Array:
    """An erosion, then a dilation by the reflected footprint: takes away what is bright and smaller than the footprint.

    Parameters
    ----------
    %(image)s
    %(footprint)s
    %(mode)s
    %(cval)s
    %(options)s
    %(compat)s
    %(out)s

    Returns
    -------
    ndarray
        Of the image's type.

    Raises
    ------
    %(raises)s

    See Also
    --------
    closing : The same for dark details.
    white_tophat : What an opening takes away.
    spectrum : Openings of growing size.
    scipy.ndimage.grey_opening, skimage.morphology.opening

    Notes
    -----
    Two laws hold, where `compat` is left out. No sample is greater than the image's: it is anti-extensive. A second opening
    changes nothing: it is idempotent. Both hold for every footprint with the modes 'ignore' and 'wrap', and with 'constant' if
    no sample is less than `cval`; with another `cval` the second one holds still. With 'reflect' and 'mirror' both hold for
    footprints that are the same when their rows are turned round at the origin, and when their columns are; with 'nearest'
    neither holds for all of these.

    References
    ----------
    .. [1] %(serra)s
    .. [2] %(heijmans)s
    
    Examples
    --------
    >>> import numpy as np, morphd
    >>> morphd.opening(np.array([[0, 7, 7, 7, 0, 9, 0]], np.uint8), [[1, 1, 1]])
    array([[0, 7, 7, 7, 0, 0, 0]], dtype=uint8)
    """
    return _flat("opening", image, footprint, Options(mode, cval, maxval, axes, compat, out, workers))


@documented()
def closing(
    image: ArrayLike, footprint: FootprintLike, *, mode: Mode | None = None, cval: Any = 0, maxval: int | None = None,
    axes: tuple[int, int] | None = None, compat: Compat | None = None, out: Array | None = None, workers: int | None = None,
) -> Array:
    """A dilation, then an erosion by the reflected footprint: fills what is dark and smaller than the footprint.

    Parameters
    ----------
    %(image)s
    %(footprint)s
    %(mode)s
    %(cval)s
    %(options)s
    %(compat)s
    %(out)s

    Returns
    -------
    ndarray
        Of the image's type.

    Raises
    ------
    %(raises)s

    See Also
    --------
    opening : The same for bright details.
    black_tophat : What a closing adds.
    scipy.ndimage.grey_closing, skimage.morphology.closing

    Notes
    -----
    Two laws hold, where `compat` is left out. No sample is less than the image's: it is extensive. A second closing
    changes nothing: it is idempotent. Both hold for every footprint with the modes 'ignore' and 'wrap', and with 'constant' if
    no sample is greater than `cval`; with another `cval` the second one holds still. With 'reflect' and 'mirror' both hold for
    footprints that are the same when their rows are turned round at the origin, and when their columns are; with 'nearest'
    neither holds for all of these.

    References
    ----------
    .. [1] %(serra)s
    .. [2] %(heijmans)s
    
    Examples
    --------
    >>> import numpy as np, morphd
    >>> morphd.closing(np.array([[9, 2, 9, 9, 1, 1, 1, 9]], np.uint8), [[1, 1, 1]])
    array([[9, 9, 9, 9, 1, 1, 1, 9]], dtype=uint8)
    """
    return _flat("closing", image, footprint, Options(mode, cval, maxval, axes, compat, out, workers))


@documented(COMPUTES)
def gradient(
    image: ArrayLike, footprint: FootprintLike, *, mode: Mode | None = None, cval: Any = 0, maxval: int | None = None,
    axes: tuple[int, int] | None = None, compat: Compat | None = None, out: Array | None = None, workers: int | None = None,
) -> Array:
    """The dilation less the erosion: how much samples differ under the footprint.

    Parameters
    ----------
    %(image)s
    %(footprint)s
    %(mode)s
    %(cval)s
    %(options)s
    %(compat)s
    %(out)s

    Returns
    -------
    ndarray
        Of the image's type.

    Raises
    ------
    %(raises)s

    See Also
    --------
    erosion, dilation
    scipy.ndimage.morphological_gradient, skimage.filters.rank.gradient

    References
    ----------
    .. [1] %(rivest)s
    
    Examples
    --------
    >>> import numpy as np, morphd
    >>> morphd.gradient(np.array([[0, 0, 9, 9]], np.uint8), [[1, 1, 1]])
    array([[0, 9, 9, 0]], dtype=uint8)
    """
    return _flat("gradient", image, footprint, Options(mode, cval, maxval, axes, compat, out, workers))


@documented(COMPUTES)
def white_tophat(
    image: ArrayLike, footprint: FootprintLike, *, mode: Mode | None = None, cval: Any = 0, maxval: int | None = None,
    axes: tuple[int, int] | None = None, compat: Compat | None = None, out: Array | None = None, workers: int | None = None,
) -> Array:
    """What an opening takes away: bright details that are smaller than the footprint, without the ground.

    Parameters
    ----------
    %(image)s
    %(footprint)s
    %(mode)s
    %(cval)s
    %(options)s
    %(compat)s
    %(out)s

    Returns
    -------
    ndarray
        The image less its opening; of the image's type. It never wraps round 0.

    Raises
    ------
    %(raises)s

    See Also
    --------
    opening
    black_tophat : The same for dark details.
    scipy.ndimage.white_tophat, skimage.morphology.white_tophat

    References
    ----------
    .. [1] %(meyer)s
    .. [2] %(soille)s
    
    Examples
    --------
    >>> import numpy as np, morphd
    >>> morphd.white_tophat(np.array([[1, 1, 8, 1, 1]], np.uint8), [[1, 1, 1]])
    array([[0, 0, 7, 0, 0]], dtype=uint8)
    """
    return _flat("white_tophat", image, footprint, Options(mode, cval, maxval, axes, compat, out, workers))


@documented(COMPUTES)
def black_tophat(
    image: ArrayLike, footprint: FootprintLike, *, mode: Mode | None = None, cval: Any = 0, maxval: int | None = None,
    axes: tuple[int, int] | None = None, compat: Compat | None = None, out: Array | None = None, workers: int | None = None,
) -> Array:
    """What a closing adds: dark details that are smaller than the footprint, without the ground.

    Parameters
    ----------
    %(image)s
    %(footprint)s
    %(mode)s
    %(cval)s
    %(options)s
    %(compat)s
    %(out)s

    Returns
    -------
    ndarray
        The closing less the image; of the image's type. It never wraps round 0.

    Raises
    ------
    %(raises)s

    See Also
    --------
    closing
    white_tophat : The same for bright details.
    scipy.ndimage.black_tophat, skimage.morphology.black_tophat

    References
    ----------
    .. [1] %(meyer)s
    .. [2] %(soille)s
    
    Examples
    --------
    >>> import numpy as np, morphd
    >>> morphd.black_tophat(np.array([[8, 8, 1, 8, 8]], np.uint8), [[1, 1, 1]])
    array([[0, 0, 7, 0, 0]], dtype=uint8)
    """
    return _flat("black_tophat", image, footprint, Options(mode, cval, maxval, axes, compat, out, workers))


def _ranked(name: str, image: Any, footprint: FootprintLike, number: Callable[[int], int], options: Options) -> Array:
    """Sample number `number(n)` of the n under the footprint."""
    if options.compat is not None and name not in {"scipy": ("rank", "median", "percentile")}.get(options.compat, ("median",)):
        raise ValueError(f"{options.compat} has no {name}")
    b = Footprint(footprint)
    return made_of(Work(name, lambda _: Flat(RANK, b, word(number(b.count), name))), image, options)


@documented(usual="reflect")
def rank(
    image: ArrayLike, k: int, footprint: FootprintLike, *, mode: Mode | None = None, cval: Any = 0, maxval: int | None = None,
    axes: tuple[int, int] | None = None, compat: Compat | None = None, out: Array | None = None, workers: int | None = None,
) -> Array:
    """Sample number `k` in rising order under the footprint.

    Parameters
    ----------
    %(image)s
    k : int
        From 1, the least, to the number of the footprint's pixels, the greatest. SciPy counts from 0.
    %(footprint)s
    %(mode)s
        With 'ignore' the frame's edge has fewer samples, and number min(k, m) of these m is taken, which is the greatest one
        where k is over m: then the footprint's origin has to be one of its pixels.
    %(cval)s
    %(options)s
    %(compat)s
    %(out)s

    Returns
    -------
    ndarray
        Of the image's type.

    Raises
    ------
    %(raises)s

    See Also
    --------
    median, percentile : Ranks by their place among the footprint's pixels.
    erosion, dilation : The first and the last one.
    scipy.ndimage.rank_filter

    References
    ----------
    .. [1] %(soille)s
    .. [2] %(huang)s
    
    Examples
    --------
    >>> import numpy as np, morphd
    >>> morphd.rank(np.array([[3, 1, 4, 1, 5]], np.uint8), 3, [[1, 1, 1]])
    array([[3, 4, 4, 5, 5]], dtype=uint8)
    """
    options = Options(mode, cval, maxval, axes, compat, out, workers, "reflect")
    number = whole(k, "k")
    return _ranked("rank", image, footprint, lambda _: number, options)


@documented(usual="reflect")
def median(
    image: ArrayLike, footprint: FootprintLike, *, mode: Mode | None = None, cval: Any = 0, maxval: int | None = None,
    axes: tuple[int, int] | None = None, compat: Compat | None = None, out: Array | None = None, workers: int | None = None,
) -> Array:
    """The middle sample under the footprint: number ``n // 2 + 1`` in rising order of its n pixels.

    Parameters
    ----------
    %(image)s
    %(footprint)s
    %(mode)s
        With 'ignore' the result is no median at the frame's edge: the same number is taken of fewer samples.
    %(cval)s
    %(options)s
    %(compat)s
    %(out)s

    Returns
    -------
    ndarray
        Of the image's type.

    Raises
    ------
    %(raises)s

    See Also
    --------
    rank, percentile
    scipy.ndimage.median_filter, skimage.filters.median, cv2.medianBlur

    References
    ----------
    .. [1] %(huang)s
    
    Examples
    --------
    >>> import numpy as np, morphd
    >>> morphd.median(np.array([[3, 3, 200, 4, 4]], np.uint8), [[1, 1, 1]])
    array([[3, 3, 4, 4, 4]], dtype=uint8)
    """
    options = Options(mode, cval, maxval, axes, compat, out, workers, "reflect")
    return _ranked("median", image, footprint, lambda count: count // 2 + 1, options)


@documented(usual="reflect")
def percentile(
    image: ArrayLike, q: float, footprint: FootprintLike, *, mode: Mode | None = None, cval: Any = 0, maxval: int | None = None,
    axes: tuple[int, int] | None = None, compat: Compat | None = None, out: Array | None = None, workers: int | None = None,
) -> Array:
    """The sample under the footprint that `q` of 100 lie below, without means of two.

    Parameters
    ----------
    %(image)s
    q : float
        From 0, the least, to 100, the greatest: number ``int(n * q / 100) + 1`` of n, and at most n, as SciPy has it.
    %(footprint)s
    %(mode)s
    %(cval)s
    %(options)s
    %(compat)s
    %(out)s

    Returns
    -------
    ndarray
        Of the image's type.

    Raises
    ------
    %(raises)s

    See Also
    --------
    rank, median
    scipy.ndimage.percentile_filter, skimage.filters.rank.percentile

    References
    ----------
    .. [1] %(soille)s
    .. [2] %(huang)s
    
    Examples
    --------
    >>> import numpy as np, morphd
    >>> morphd.percentile(np.array([[3, 1, 4, 1, 5]], np.uint8), 50, [[1, 1, 1]])
    array([[3, 3, 1, 4, 5]], dtype=uint8)
    """
    if not 0 <= q <= 100:
        raise ValueError(f"q is a percentage from 0 to 100: {q}")
    options = Options(mode, cval, maxval, axes, compat, out, workers, "reflect")
    return _ranked("percentile", image, footprint, lambda count: min(int(count * q / 100) + 1, count), options)


@documented()
def threshold(
    image: ArrayLike, k: float, *, maxval: int | None = None, axes: tuple[int, int] | None = None, out: Array | None = None,
    workers: int | None = None,
) -> NDArray[np.bool_]:
    """The set of the samples of `k` or more.

    Parameters
    ----------
    %(image)s
    k : scalar
        Any number but NaN. Integers are compared with it exactly, also with a fraction, and floats as ``image >= k`` compares
        them. At 0 or less all samples of bool, uint8 and uint16 are in the set.
    %(options)s
    %(out)s

    Returns
    -------
    ndarray of bool

    Raises
    ------
    %(raises)s

    See Also
    --------
    white_tophat : Takes an uneven ground away before.
    numpy.greater_equal

    References
    ----------
    .. [1] %(serra)s
    
    Examples
    --------
    >>> import numpy as np, morphd
    >>> morphd.threshold(np.array([[3, 1, 4, 1, 5]], np.uint8), 3)
    array([[ True, False,  True, False,  True]])
    """
    if (number := real(k, "k")) != number:
        raise ValueError("threshold at NaN")

    def plan(reading: _arrays.Reading) -> _plans.Plan:
        level = max(reading.level_of(k), 0)
        # over all samples that there can be: a number that the library does not take, so a set less itself
        return Threshold(level) if level < _arrays.MOST_LEVELS else _plans.Less(Threshold(0), Threshold(0))

    options = Options(maxval=maxval, axes=axes, out=out, workers=workers)
    return made_of(Work("threshold", plan, np.bool_), image, options)


@documented(COMPUTES)
def hit_or_miss(
    image: ArrayLike, hit: FootprintLike, miss: FootprintLike | None = None, *, mode: Mode | None = None, cval: Any = 0,
    maxval: int | None = None, axes: tuple[int, int] | None = None, compat: Compat | None = None, out: Array | None = None,
    workers: int | None = None,
) -> Array:
    """Places where one footprint lies in the set and another one beside it; of levels, by how much.

    Parameters
    ----------
    %(image)s
    hit : Footprint or array_like
        What has to lie in the set.
    miss : Footprint or array_like, optional
        What has to lie outside; the pixels of the bitmap of `hit` that are none of `hit`, if left out.
    %(mode)s
    %(cval)s
    %(options)s
    %(compat)s
    %(out)s

    Returns
    -------
    ndarray
        The erosion by `hit` less the dilation by `miss`; of the image's type.

    Raises
    ------
    %(raises)s

    See Also
    --------
    erosion, dilation
    scipy.ndimage.binary_hit_or_miss

    References
    ----------
    .. [1] %(serra)s
    .. [2] %(soille)s
    
    Examples
    --------
    >>> import numpy as np, morphd
    >>> morphd.hit_or_miss(np.array([[0, 1, 0, 1, 1]], bool), [[0, 1, 0]])
    array([[False,  True, False, False, False]])
    """
    if compat == "skimage":
        raise ValueError("skimage has no hit_or_miss")
    first = Footprint(hit)
    second = Footprint(~first.bitmap, first.origin) if miss is None else Footprint(miss)

    def plan(reading: _arrays.Reading) -> _plans.Plan:
        if compat != "scipy":
            return HitOrMiss(first, second)
        if not reading.field.is_set:
            raise TypeError(f"SciPy's hit_or_miss takes an array of bool, and this is one of {reading.dtype}")
        # nothing hits where it misses: a set less itself
        return HitOrMiss(first, second) if set(first.offsets).isdisjoint(second.offsets) else _plans.Less(None, None)

    return made_of(Work("hit_or_miss", plan), image, Options(mode, cval, maxval, axes, compat, out, workers))


@documented(COMPUTES)
def skeleton(
    image: ArrayLike, footprint: FootprintLike, levels: int, *, axes: tuple[int, int] | None = None, out: Array | None = None,
    workers: int | None = None,
) -> NDArray[np.uint8]:
    """Lantuejoul's skeleton of a set, of so many levels.

    Parameters
    ----------
    image : array_like of bool
        Two axes, unless `axes` is given.
    footprint : Footprint or array_like
        By which the set is eroded again and again. Its origin has to be one of its pixels.
    levels : int
        How many times, 1 to 254.
    %(axes)s
    %(out)s

    Returns
    -------
    ndarray of uint8
        0 where there is no skeleton; n + 1 where a pixel is in the residue of the erosion number n and in none behind it;
        ``levels + 1`` for what the last erosion leaves. `restored` makes the set of it.

    Raises
    ------
    %(raises)s

    See Also
    --------
    restored : The set of a skeleton.
    skimage.morphology.skeletonize : A thin line without a footprint, which restores nothing.

    References
    ----------
    .. [1] %(lantuejoul)s
    .. [2] %(serra)s
    
    Examples
    --------
    >>> import numpy as np, morphd
    >>> morphd.skeleton(np.array([[0, 1, 1, 1, 1, 1, 0]], bool), [[1, 1, 1]], 3)
    array([[0, 0, 0, 3, 0, 0, 0]], dtype=uint8)
    """
    array = _arrays.as_array(image, axes)
    if array.dtype != np.bool_:
        raise Refused(44, f"skeleton of an array of {array.dtype}")
    b, count = Footprint(footprint), word(whole(levels, "levels"), "skeleton")
    return made_of(Work("skeleton", lambda _: Skeleton(b, count), np.uint8), array, Options(axes=axes, out=out, workers=workers))


@documented(COMPUTES)
def restored(
    marks: ArrayLike, footprint: FootprintLike, levels: int, *, axes: tuple[int, int] | None = None, out: Array | None = None,
    workers: int | None = None,
) -> NDArray[np.bool_]:
    """The set that a skeleton came from.

    Parameters
    ----------
    marks : array_like of uint8 or uint16
        What `skeleton` made.
    footprint : Footprint or array_like
        The footprint that it was made with.
    levels : int
        The levels that it was made with; with fewer of them, details that are smaller stay away.
    %(axes)s
    %(out)s

    Returns
    -------
    ndarray of bool

    Raises
    ------
    %(raises)s

    See Also
    --------
    skeleton

    References
    ----------
    .. [1] %(lantuejoul)s
    .. [2] %(serra)s
    
    Examples
    --------
    >>> import numpy as np, morphd
    >>> morphd.restored(np.array([[0, 0, 0, 3, 0, 0, 0]], np.uint8), [[1, 1, 1]], 3)
    array([[False,  True,  True,  True,  True,  True, False]])
    """
    b, count = Footprint(footprint), word(whole(levels, "levels"), "restoration")
    return made_of(Work("restored", lambda _: Restoration(b, count), np.bool_), marks, Options(axes=axes, out=out, workers=workers))
