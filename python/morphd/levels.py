"""The level that parts bright samples from dark ones.

    morphd.threshold(image, morphd.otsu(image))

Counting the samples of an array takes NumPy; the rest of this module needs nothing but Python.
"""
from __future__ import annotations

from collections.abc import Mapping
from typing import TYPE_CHECKING

if TYPE_CHECKING:
    from numpy.typing import ArrayLike

__all__ = ["otsu", "otsu_of_counts"]


def otsu_of_counts(counts: Mapping[int, int]) -> int:
    """Otsu's level of a histogram, exactly.

    Parameters
    ----------
    counts : mapping of int to int
        How many samples have each level.

    Returns
    -------
    int
        The least level of the brighter class.

    Raises
    ------
    ValueError
        Where fewer than two levels occur.
    """
    levels = sorted(level for level, count in counts.items() if count)
    if len(levels) < 2:
        raise ValueError("Otsu's level parts two classes, and all samples are the same" if levels else "there are no samples")
    total, volume = sum(counts.values()), sum(level * count for level, count in counts.items())
    below = below_volume = 0
    best, most, most_weight = 0, -1, 1
    for level in levels[:-1]:
        below, below_volume = below + counts[level], below_volume + level * counts[level]
        # the variance between the classes is this square over the product of their sizes, times what is the same for all levels
        square, weight = (below_volume * total - volume * below) ** 2, below * (total - below)
        if square * most_weight > most * weight:
            best, most, most_weight = level + 1, square, weight
    return best


def otsu(image: ArrayLike) -> int:
    """Otsu's level: bright samples are those of this level or more.

    It parts the samples in two classes so that the variance between them is greatest. Of several such levels it is the least.

    Parameters
    ----------
    image : array_like
        Of uint8 or uint16, with any axes; all its samples are counted together.

    Returns
    -------
    int
        One more than the level of scikit-image's `threshold_otsu` and OpenCV's, whose bright samples lie over it.

    Raises
    ------
    TypeError
        Where the array is of another type.
    ValueError
        Where all samples are the same.

    References
    ----------
    N. Otsu, A threshold selection method from gray-level histograms. IEEE Transactions on Systems, Man, and Cybernetics 9
    (1979), 62-66.

    Examples
    --------
    >>> import numpy as np, morphd
    >>> morphd.otsu(np.array([[9, 10, 200, 210]], np.uint8))
    11
    """
    import numpy as np

    from . import _arrays

    array = _arrays.any_array(image)
    if array.dtype.newbyteorder("=") not in (np.uint8, np.uint16):
        raise TypeError(f"otsu takes arrays of uint8 and uint16, and this is one of {array.dtype}")
    counts = np.bincount(array.ravel())
    return otsu_of_counts({int(level): int(counts[level]) for level in np.flatnonzero(counts)})
