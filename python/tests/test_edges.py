"""Edges of large arrays, which are computed anew, against a rim around the whole array."""
import numpy as np
import pytest

import morphd
from morphd import _edges

FOOTPRINTS = [
    morphd.square(3), morphd.disk(2), morphd.line(5, 90), morphd.Footprint([[1, 1]]), morphd.Footprint([[1], [1], [1]], (2, 0)),
    morphd.Footprint([[1, 0, 1, 1]], (0, 0)), morphd.Footprint([[0, 1, 1], [1, 0, 0]], (1, 2)),
]
OUTER = [mode for mode in _edges.MODES if mode != "ignore"]
TYPES = (bool, np.uint8, np.uint16, np.int32)
COMPARE = [(name, dtype) for name in ("erosion", "dilation", "opening", "closing", "median") for dtype in TYPES]
# Levels that are put in order have no differences.
SUBTRACT = [(name, dtype) for name in ("gradient", "white_tophat", "black_tophat") for dtype in TYPES[:3]]


def both_ways(monkeypatch, call):
    """What a call makes with the edges anew, and with a rim around all."""
    asked = []
    real = _edges._with_edges

    def watched(*arguments):
        asked.append(arguments)
        return real(*arguments)

    monkeypatch.setattr(_edges, "_with_edges", watched)
    anew = call()
    monkeypatch.setattr(_edges, "SIDE_PER_RIMS", 1000)
    before = len(asked)
    around_all = call()
    monkeypatch.undo()
    assert before > 0 and len(asked) == before
    return anew, around_all


@pytest.mark.parametrize("mode", OUTER)
@pytest.mark.parametrize("name, dtype", COMPARE + SUBTRACT)
def test_edges_anew_and_a_rim_around_all(monkeypatch, name, dtype, mode):
    rng = np.random.default_rng(11)
    for b in FOOTPRINTS:
        if name == "median" and not b.has_origin:
            continue
        image = rng.integers(0, 2 if dtype is bool else 200, (29, 31)).astype(dtype)
        cval = int(rng.integers(0, 2 if dtype is bool else 200))
        np.testing.assert_array_equal(*both_ways(monkeypatch, lambda: getattr(morphd, name)(image, b, mode=mode, cval=cval)))


@pytest.mark.parametrize("mode", OUTER)
@pytest.mark.parametrize("dtype", TYPES[:3])
def test_edges_of_two_footprints_anew_and_a_rim_around_all(monkeypatch, dtype, mode):
    rng = np.random.default_rng(14)
    hit, miss = morphd.Footprint([[0, 1, 1], [0, 0, 0]], (1, 1)), morphd.Footprint([[0, 0], [1, 0], [1, 1]], (0, 1))
    image = rng.integers(0, 2 if dtype is bool else 200, (29, 31)).astype(dtype)
    np.testing.assert_array_equal(*both_ways(monkeypatch, lambda: morphd.hit_or_miss(image, hit, miss, mode=mode, cval=1)))


@pytest.mark.parametrize("mode", OUTER)
def test_edges_anew_go_into_out_and_by_several_workers(monkeypatch, mode):
    image = np.random.default_rng(12).integers(0, 200, (64, 40)).astype(np.uint8)
    out = np.zeros_like(image)
    wanted, _ = both_ways(monkeypatch, lambda: morphd.erosion(image, morphd.disk(2), mode=mode, cval=7))
    assert morphd.erosion(image, morphd.disk(2), mode=mode, cval=7, workers=3, out=out) is out
    np.testing.assert_array_equal(out, wanted)


def test_the_first_side_that_is_large():
    reach = morphd.disk(2).reach
    assert _edges._is_large((24, 24), reach)
    assert not _edges._is_large((23, 24), reach) and not _edges._is_large((24, 23), reach)


@pytest.mark.parametrize("mode", OUTER)
def test_parts_are_those_of_an_array_with_a_rim(mode):
    rng = np.random.default_rng(13)
    field = _edges.Field(rng.integers(0, 9, (7, 9)).astype(np.uint8), 255, False)
    edges = _edges.Edges(mode, 3)
    whole = _edges.with_rim(field, _edges.Reach(4, 5, 6, 3), edges).samples
    for rows, columns in [((-4, 12), (-6, 12)), ((-4, 2), (0, 9)), ((3, 12), (-6, 1)), ((2, 5), (4, 12)), ((-4, -1), (10, 12))]:
        part = _edges._cut(field, _edges.Part(*rows), _edges.Part(*columns), edges).samples
        np.testing.assert_array_equal(part, whole[rows[0] + 4 : rows[1] + 4, columns[0] + 6 : columns[1] + 6])
