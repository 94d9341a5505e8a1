"""Random images and footprints, small and odd."""
import numpy as np

from morphd import Footprint

SHAPES = [(1, 1), (1, 9), (9, 1), (2, 3), (5, 5), (7, 12), (16, 11)]
TYPES = [bool, np.uint8, np.uint16]


def image(rng, shape, dtype):
    """Few levels or all of them, so that there are ties and none."""
    if dtype == bool:
        return rng.random(shape) < rng.choice([0.2, 0.5, 0.9])
    top = int(np.iinfo(dtype).max)
    return rng.integers(0, rng.choice([4, top + 1]), shape).astype(dtype)


def footprint(rng, longest=4, with_origin=False):
    """Of any shape, with gaps, its origin anywhere in its bitmap."""
    rows, columns = rng.integers(1, longest + 1, 2)
    bitmap = rng.random((rows, columns)) < rng.choice([0.3, 0.7, 1.0])
    origin = int(rng.integers(rows)), int(rng.integers(columns))
    bitmap[rng.integers(rows), rng.integers(columns)] = True
    bitmap[origin] |= with_origin
    return Footprint(bitmap, origin)
