"""The commands of a shell that ask what hangs together: `label`, `reconstruct`, `fill`, `clear-border` and `distance`.

Numbers that they make become pictures of 8 bits where all are up to 255, and else of 16.
"""
from __future__ import annotations

from argparse import Namespace
from typing import TYPE_CHECKING, Any

import numpy as np
from numpy.typing import NDArray

from . import geodesics
from ._measured import around, around_holes, numbered
from .files import load

if TYPE_CHECKING:
    from .files import Loaded

# The greatest number that a picture holds.
MOST = 65535


def _narrowed(numbers: NDArray[Any], told: str) -> NDArray[Any]:
    """Whole numbers from 0 on as a picture's samples."""
    most = int(numbers.max(initial=0))
    if most > MOST:
        raise ValueError(f"{told}, and a picture holds numbers up to {MOST}")
    return numbers.astype(np.uint8 if most <= 255 else np.uint16)


def _of_set(loaded: Loaded, name: str) -> NDArray[np.bool_]:
    """A picture that has to be a set."""
    if loaded.array.dtype != np.bool_:
        raise ValueError(f"{name} takes a set, and this has grey levels: morph threshold makes one of it")
    if loaded.array.ndim != 2:
        raise ValueError("it has several pages: --page chooses one")
    found: NDArray[np.bool_] = loaded.array
    return found


def _labels(loaded: Loaded, words: Namespace) -> NDArray[Any]:
    labels, count = numbered(_of_set(loaded, "label"), words.connectivity)
    return _narrowed(labels, f"it has {count} components")


def _distances(loaded: Loaded, words: Namespace) -> NDArray[Any]:
    found = _of_set(loaded, "distance")
    if found.all():
        raise ValueError("all pixels are in the set, so none has a distance to one outside")
    far = np.rint(geodesics.distance(found, words.metric)).astype(np.int64)
    return _narrowed(far, f"its greatest distance is {far.max()}")


def _reconstruction(loaded: Loaded, words: Namespace, options: dict[str, Any]) -> NDArray[Any]:
    """The marker is cut to the mask, or raised to it, as the definition has it."""
    marker, mask = load(words.marker, channel=words.channel, page=words.page).array, loaded.array
    if marker.dtype != mask.dtype or marker.shape != mask.shape:
        kinds = [f"{'a set' if each.dtype == np.bool_ else each.dtype} of {'x'.join(map(str, each.shape))}" for each in (marker, mask)]
        raise ValueError(f"the marker {words.marker} is {kinds[0]}, and the mask {kinds[1]}")
    bounded = np.minimum(marker, mask) if words.method == "dilation" else np.maximum(marker, mask)
    made: NDArray[Any] = geodesics.reconstruction(bounded, mask, words.method, around(words.connectivity), **options)
    return made


def made(loaded: Loaded, words: Namespace, options: dict[str, Any]) -> NDArray[Any]:
    """What a command makes of a picture.

    Parameters
    ----------
    loaded : Loaded
    words : Namespace
        Of the command line.
    options : dict
        The greatest sample and the axes of a plane, for what takes levels.

    Returns
    -------
    ndarray
        Of bool, uint8 or uint16.
    """
    if words.operation == "label":
        return _labels(loaded, words)
    if words.operation == "distance":
        return _distances(loaded, words)
    if words.operation == "reconstruct":
        return _reconstruction(loaded, words, options)
    filled: NDArray[Any]
    if words.operation == "fill":
        filled = geodesics.fill_holes(loaded.array, around_holes(words.connectivity), **options)
    else:
        filled = geodesics.clear_border(loaded.array, footprint=around(words.connectivity), **options)
    return filled
