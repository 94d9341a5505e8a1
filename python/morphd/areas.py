"""What has too few pixels goes: area openings and closings, each computed by libmorphd.

    import morphd
    smooth = morphd.area_closing(morphd.area_opening(image, 25), 25)
    mask = morphd.remove_small_objects(morphd.threshold(smooth, 120), 25)

Each call of the library is proved to make the samples of the definition. A function here is one such call on a plane of bool, uint8 or
uint16, within the limits of `morphd.geodesics`.
"""
from __future__ import annotations

from typing import Any

import numpy as np
from numpy.typing import ArrayLike, NDArray

from . import _arrays, _library
from ._docs import DROPS, documented
from ._geodesic_calls import AreaFiltered, Large, Whole
from ._numbers import whole, word
from ._work import Array, Options
from .errors import Refused
from .geodesics import made_whole, neighbours

__all__ = ["area_closing", "area_opening", "remove_small_objects"]

# More pixels than any component has, and a number that the library takes.
_ENDLESS = 2**31 - 1


@documented(DROPS)
def area_opening(
    image: ArrayLike, area_threshold: int = 64, connectivity: int | None = None, *, maxval: int | None = None,
    axes: tuple[int, int] | None = None, out: Array | None = None,
) -> Array:
    """The image without its bright parts of too few pixels; of a set, the components that have so many pixels or more.

    Each pixel falls to the greatest level at which it belongs to a component of so many pixels, among those of that level or more.

    Parameters
    ----------
    %(image)s
    area_threshold : int, optional
        The least area in pixels that stays, from 1 on.
    %(connectivity)s
        scikit-image's is 1.
    %(whole)s

    Returns
    -------
    ndarray
        Of the image's type.

    Raises
    ------
    %(raises)s

    See Also
    --------
    area_closing : The same for dark parts.
    remove_small_objects : The same of sets, with scikit-image's connectivity.
    opening : Takes away what a footprint does not fit into.
    skimage.morphology.area_opening

    References
    ----------
    .. [1] %(soille)s
    .. [2] %(vincent_areas)s
    .. [3] %(meijster)s

    Examples
    --------
    >>> import numpy as np, morphd
    >>> morphd.area_opening(np.array([[1, 1, 0, 1]], bool), 2)
    array([[ True,  True, False, False]])
    >>> morphd.area_opening(np.array([[2, 9, 4, 4, 3]], np.uint8), 2)
    array([[2, 4, 4, 4, 3]], dtype=uint8)
    """
    least = _least(area_threshold, "area_opening")
    array = _arrays.as_array(image, axes)
    of_sets: Whole = Large(least, neighbours(connectivity))
    plan = of_sets if array.dtype == np.bool_ else AreaFiltered(_library.AREA_OPENING, least, neighbours(connectivity))
    return made_whole("area_opening", plan, array, Options(maxval=maxval, axes=axes, out=out))


@documented(DROPS)
def area_closing(
    image: ArrayLike, area_threshold: int = 64, connectivity: int | None = None, *, maxval: int | None = None,
    axes: tuple[int, int] | None = None, out: Array | None = None,
) -> Array:
    """The image without its dark parts of too few pixels; of a set, with its gaps of too few pixels in it.

    This is the complement of the area opening of the complement.

    Parameters
    ----------
    %(image)s
    area_threshold : int, optional
        The least area in pixels of what stays dark, from 1 on.
    %(connectivity)s
        scikit-image's is 1.
    %(whole)s

    Returns
    -------
    ndarray
        Of the image's type.

    Raises
    ------
    %(raises)s

    See Also
    --------
    area_opening : The same for bright parts.
    fill_holes : Fills what is closed in, whatever its area.
    skimage.morphology.area_closing

    References
    ----------
    .. [1] %(soille)s
    .. [2] %(vincent_areas)s
    .. [3] %(meijster)s

    Examples
    --------
    >>> import numpy as np, morphd
    >>> morphd.area_closing(np.array([[7, 0, 5, 5, 6]], np.uint8), 2)
    array([[7, 5, 5, 5, 6]], dtype=uint8)
    """
    plan = AreaFiltered(_library.AREA_CLOSING, _least(area_threshold, "area_closing"), neighbours(connectivity))
    return made_whole("area_closing", plan, image, Options(maxval=maxval, axes=axes, out=out))


@documented()
def remove_small_objects(
    mask: ArrayLike, min_size: int = 64, connectivity: int = 1, *, axes: tuple[int, int] | None = None, out: Array | None = None,
) -> NDArray[np.bool_]:
    """A set without its components of less than so many pixels, as scikit-image has it.

    Parameters
    ----------
    mask : array_like of bool
        Two axes, unless `axes` is given. scikit-image takes labels, too.
    min_size : int, optional
        The least area in pixels that stays, from 0 on; at 0 and 1 all stays.
    connectivity : {1, 2}, optional
        1 where pixels hang together that share a side, 2 where those that share a corner do, too.
    %(planes)s

    Returns
    -------
    ndarray of bool

    Raises
    ------
    %(raises)s

    See Also
    --------
    area_opening : The same, with connectivity 2 unless told.
    skimage.morphology.remove_small_objects

    References
    ----------
    .. [1] %(soille)s

    Examples
    --------
    >>> import numpy as np, morphd
    >>> morphd.remove_small_objects(np.array([[1, 1, 0, 1]], bool), 2)
    array([[ True,  True, False, False]])
    """
    least = whole(min_size, "min_size")
    if least < 0:
        raise ValueError(f"min_size is a number of pixels from 0 on: {min_size}")
    array = _arrays.as_array(mask, axes)
    if array.dtype != np.bool_:
        raise Refused(44, f"remove_small_objects of an array of {array.dtype}")
    plan = Large(_least(max(least, 1), "remove_small_objects"), neighbours(connectivity))
    return made_whole("remove_small_objects", plan, array, Options(axes=axes, out=out))


def _least(area: Any, name: str) -> int:
    """The least area for the library: no component has more pixels than it takes."""
    return word(min(whole(area, "area_threshold"), _ENDLESS), name)
