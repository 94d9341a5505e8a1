"""Components by several threads: the labels, the numbers and the table are those of one thread, wherever the seams lie."""
import random

import numpy as np
import pytest
from windings import serpent, slanted, spiral

import morphd
from morphd import _geodesic_calls, _joined

CONNECTIVITIES = (1, 2)


@pytest.fixture(autouse=True)
def low_bands(monkeypatch):
    """Two rows are worth a thread here."""
    monkeypatch.setattr(_joined, "LEAST_ROWS", 2)
    monkeypatch.setattr(_joined, "_ROWS_AT_ONCE", 3)


def masks():
    """Sets whose components go on across seams, some by long ways, and sets in which none does."""
    chance = random.Random(5)
    yield from (np.array(made(23), bool) for made in (serpent, slanted, spiral))
    comb = np.ones((17, 31), bool)
    comb[:-1, ::2] = False
    yield from (comb, comb[::-1].copy(), np.zeros((9, 5), bool), np.ones((8, 3), bool), np.indices((12, 13)).sum(0) % 2 == 0)
    for height, width, share in ((40, 1, 0.7), (31, 2, 0.5), (24, 64, 0.41), (37, 29, 0.59), (16, 130, 0.5), (64, 7, 0.3)):
        drawn = [chance.random() < share for _ in range(height * width)]
        yield np.array(drawn, bool).reshape(height, width)


@pytest.mark.parametrize("connectivity", CONNECTIVITIES)
@pytest.mark.parametrize("workers", (2, 3, 5, 12))
def test_the_result_is_that_of_one_thread(workers, connectivity):
    for mask in masks():
        labels, count = morphd.label(mask, connectivity, True)
        made, told = morphd.label(mask, connectivity, True, workers=workers)
        assert told == count and made.dtype == np.int32 and np.array_equal(made, labels), mask
        table = morphd.regions(mask, connectivity=connectivity)
        joined = morphd.regions(mask, connectivity=connectivity, workers=workers)
        assert np.array_equal(joined.labels, table.labels) and len(joined) == len(table)
        for column in table.columns:
            assert np.array_equal(joined[column], table[column]), (column, mask)


def test_a_grain_in_three_bands_is_one_row():
    mask = np.zeros((6, 4), bool)
    mask[:, 1] = mask[0, 3] = mask[5, 3] = True
    grains = morphd.regions(mask, connectivity=1, workers=3)
    assert list(grains["area"]) == [6, 1, 1]
    assert list(zip(grains["x"], grains["y"])) == [(1, 0), (3, 0), (3, 5)]
    assert (grains["top"][0], grains["bottom"][0]) == (0, 5)


def test_corners_meet_across_a_seam():
    mask = np.array([[1, 0, 0], [1, 0, 0], [0, 1, 0], [0, 1, 0]], bool)
    assert morphd.label(mask, 2, True, workers=2)[1] == 1
    assert morphd.label(mask, 1, True, workers=2)[1] == 2


def test_each_band_is_one_call(stood_in, monkeypatch):
    heights = []
    told = _geodesic_calls.labels

    def labels(field, footprint, out):
        heights.append(len(field.samples))
        return told(field, footprint, out)

    monkeypatch.setattr(_geodesic_calls, "labels", labels)
    for workers, wanted in ((1, [9]), (2, [4, 5]), (9, [2, 2, 2, 3])):
        heights.clear()
        morphd.label(np.ones((9, 4), bool), workers=workers)
        assert sorted(heights) == wanted


def test_wrong_numbers_of_workers():
    mask = np.ones((4, 4), bool)
    for call in (morphd.label, morphd.regions):
        with pytest.raises(ValueError, match="workers"):
            call(mask, workers=0)
        with pytest.raises(TypeError, match="workers"):
            call(mask, workers="2")


def test_an_array_that_the_library_does_not_take():
    with pytest.raises(morphd.Refused):
        morphd.label(np.zeros((8193, 2), bool), workers=4)
