"""Area openings and closings: worked rows, the definitions, and scikit-image's."""
import cases
import numpy as np
import plain
import pytest
import reference_model

import morphd

STEPS = ((1, reference_model.CROSS), (2, reference_model.SQUARE), (None, reference_model.SQUARE))


def row(*samples):
    return np.array([samples], np.uint8)


def same(made, wanted, *what):
    assert made.dtype == wanted.dtype, what
    np.testing.assert_array_equal(made, wanted, str(what))


def test_a_peak_and_a_plateau():
    """The peak of one pixel falls to its lower neighbour's level; the plateau of two pixels stays."""
    same(morphd.area_opening(row(2, 9, 4, 4, 3), 2), row(2, 4, 4, 4, 3))
    same(morphd.area_opening(row(2, 9, 4, 4, 3), 3), row(2, 4, 4, 4, 3))
    same(morphd.area_opening(row(2, 9, 4, 4, 3), 4), row(2, 3, 3, 3, 3))
    same(morphd.area_closing(row(7, 0, 5, 5, 6), 2), row(7, 5, 5, 5, 6))


def test_a_frame_that_is_too_small():
    """It drops to 0, or rises to the maxval."""
    image = row(2, 9, 4)
    same(morphd.area_opening(image, 4), row(0, 0, 0))
    same(morphd.area_closing(image, 4), row(255, 255, 255))
    same(morphd.area_closing(image, 4, maxval=9), row(9, 9, 9))
    for least in (2**31, 2**40):
        same(morphd.area_opening(image, least), row(0, 0, 0))


def test_sets_and_their_gaps():
    mask = np.array([[1, 1, 0, 1, 0, 0]], bool)
    same(morphd.area_opening(mask, 2), np.array([[1, 1, 0, 0, 0, 0]], bool))
    same(morphd.area_closing(mask, 2), np.array([[1, 1, 1, 1, 0, 0]], bool))
    same(morphd.area_closing(mask, 1), mask)


def test_corners_alone():
    """Two pixels that share a corner are of one component, unless connectivity is 1."""
    image = np.array([[5, 0], [0, 5]], np.uint8)
    same(morphd.area_opening(image, 2), image)
    same(morphd.area_opening(image, 2, connectivity=1), np.zeros_like(image))


def test_the_definitions():
    """Of each level the large components of what has that level or more; a set has one."""
    rng, shapes = np.random.default_rng(31), cases.SHAPES[:5]
    for number in range(60):
        image = cases.image(rng, shapes[number % len(shapes)], cases.TYPES[number % 3])
        f, least = plain.image(image), int(rng.choice([1, 2, 3, 8, 40]))
        for connectivity, b in STEPS:
            opened, closed = reference_model.area_opening(b, least, f), reference_model.area_closing(b, least, f)
            same(morphd.area_opening(image, least, connectivity), plain.array(opened, image.dtype), least, image)
            same(morphd.area_closing(image, least, connectivity), plain.array(closed, image.dtype), least, image)
            if image.dtype == bool:
                assert opened == reference_model.large_components(b, least, f)


def test_the_reference_models_area_openings_go_level_by_level():
    """Literally: at each place the greatest of all levels up to the maxval at which it belongs to a large component."""
    rng = np.random.default_rng(32)
    for _ in range(20):
        samples = rng.integers(0, 9, (4, 5)).astype(np.uint8)
        f, least = plain.image(samples, 9), int(rng.integers(1, 9))
        for b in (reference_model.CROSS, reference_model.SQUARE):
            large = [reference_model.large_components(b, least, plain.image(samples >= k)).samples for k in range(1, 10)]
            wanted = [max((k for k, bits in enumerate(large, 1) if bits[at]), default=0) for at in range(samples.size)]
            assert reference_model.area_opening(b, least, f).samples == wanted


@pytest.mark.parametrize("dtype", cases.TYPES)
def test_those_of_scikit_image(dtype):
    """They make the same samples, where the least area and the connectivity are the same."""
    morphology = pytest.importorskip("skimage.morphology")
    rng = np.random.default_rng(33)
    for _ in range(8):
        # scikit-image 0.19 reads beyond smaller ones
        image = cases.image(rng, tuple(rng.integers(4, 9, 2)), dtype)
        for least in (1, 2, 5, 30, 100):
            for connectivity in (1, 2):
                for name in ("area_opening", "area_closing"):
                    wanted = getattr(morphology, name)(image, least, connectivity)
                    same(getattr(morphd, name)(image, least, connectivity), wanted, name, least, connectivity, image)
