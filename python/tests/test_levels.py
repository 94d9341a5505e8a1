"""Otsu's level: beside scikit-image and OpenCV, and by the definition."""
from fractions import Fraction

import numpy as np
import pytest

import morphd
from morphd.levels import otsu_of_counts


def picture(rng, dtype, most):
    """Two heaps of levels that overlap."""
    dark, bright = rng.normal(most * 0.3, most * 0.1, (20, 30)), rng.normal(most * 0.7, most * 0.08, (20, 30))
    return np.where(rng.random((20, 30)) < rng.uniform(0.1, 0.9), dark, bright).clip(0, most).astype(dtype)


@pytest.mark.parametrize("dtype, most", [(np.uint8, 255), (np.uint8, 12), (np.uint16, 4095), (np.uint16, 65535)])
def test_beside_scikit_image(dtype, most):
    filters = pytest.importorskip("skimage.filters")
    rng = np.random.default_rng(1)
    for _ in range(20):
        image = picture(rng, dtype, most)
        np.testing.assert_array_equal(image >= morphd.otsu(image), image > filters.threshold_otsu(image))


def test_beside_opencv():
    cv2 = pytest.importorskip("cv2")
    rng = np.random.default_rng(2)
    for _ in range(20):
        image = picture(rng, np.uint8, 255)
        level, mask = cv2.threshold(image, 0, 1, cv2.THRESH_OTSU)
        assert morphd.otsu(image) == level + 1
        np.testing.assert_array_equal(morphd.threshold(image, morphd.otsu(image)), mask == 1)


def test_by_the_definition():
    """The first level at which the variance between the classes is greatest, in fractions."""
    rng = np.random.default_rng(3)
    for _ in range(100):
        samples = rng.integers(0, 9, rng.integers(2, 12)).tolist()
        counts = {level: samples.count(level) for level in range(9)}
        between = {}
        for level in range(min(samples) + 1, max(samples) + 1):
            dark, bright = [it for it in samples if it < level], [it for it in samples if it >= level]
            apart = Fraction(sum(dark), len(dark)) - Fraction(sum(bright), len(bright))
            between[level] = len(dark) * len(bright) * apart**2
        if between:
            assert otsu_of_counts(counts) == max(between, key=between.get)


def test_what_has_no_level():
    for image in (np.full((3, 3), 7, np.uint8), np.zeros((0, 3), np.uint16)):
        with pytest.raises(ValueError, match="samples"):
            morphd.otsu(image)
    for image in (np.ones((3, 3), bool), np.ones((3, 3))):
        with pytest.raises(TypeError, match="uint8 and uint16"):
            morphd.otsu(image)
    with pytest.raises(TypeError, match="masked"):
        morphd.otsu(np.ma.masked_equal(np.array([[1, 2, 9]], np.uint8), 9))
    assert morphd.otsu(np.array([[[1, 1]], [[2, 5]]], ">u2")) == 3
