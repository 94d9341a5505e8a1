"""The area that the frame cuts, by NumPy: beside a flood pixel by pixel, and what it costs."""
import itertools
import math
import random
from types import SimpleNamespace

import numpy as np
import pytest
import windings

from morphd import _runs, doubts
from morphd._runs import cut_area


def by_flooding(samples):
    return windings.cut_by_flooding(samples.tolist())


def test_small_sets():
    """Each one of up to three rows and columns."""
    for shape in itertools.product((1, 2, 3), repeat=2):
        for bits in itertools.product((0, 1), repeat=math.prod(shape)):
            samples = np.array(bits, np.uint8).reshape(shape)
            assert cut_area(samples) == by_flooding(samples), samples.tolist()


@pytest.mark.parametrize("seed", range(4))
def test_random_sets(seed):
    rng = np.random.default_rng(seed)
    for _ in range(100):
        shape, part = rng.integers(1, 24, 2), rng.choice([0.1, 0.3, 0.41, 0.5, 0.8, 1])
        samples = rng.random(shape) < part
        assert cut_area(samples) == by_flooding(samples), samples.tolist()


@pytest.mark.parametrize("side", [9, 20, 33])
def test_grains_that_wind_are_followed_to_their_ends(side):
    for rows in windings.all_of(side, random.Random(side)):
        assert cut_area(np.array(rows, np.uint8)) == windings.cut_by_flooding(rows) > side, rows


def test_it_is_that_of_scripts_without_numpy():
    rng = np.random.default_rng(3)
    for part in (0.05, 0.3, 0.38, 0.41, 0.45, 0.7):
        samples = (rng.random((211, 307)) < part).view(np.uint8)
        assert cut_area(samples) == doubts.cut_area(samples.tobytes(), 307)


def test_scipy_says_the_same():
    ndimage = pytest.importorskip("scipy.ndimage")
    rng = np.random.default_rng(4)
    for part in (0.02, 0.2, 0.41, 0.6):
        samples = rng.random((400, 300)) < part
        grains = ndimage.label(samples, np.ones((3, 3)))[0]
        rim = np.concatenate([grains[0], grains[-1], grains[:, 0], grains[:, -1]])
        assert cut_area(samples) == np.isin(grains, rim[rim > 0]).sum()


@pytest.mark.parametrize("samples", [np.zeros((0, 0), bool), np.zeros((0, 4), bool), np.zeros((4, 0), bool), np.zeros((5, 4), bool)])
def test_nothing(samples):
    assert cut_area(samples) == 0


def test_samples_with_gaps_between_them():
    wide = np.array(windings.maze(41, random.Random(5)), np.uint8)
    assert cut_area(wide[::2, ::3]) == by_flooding(wide[::2, ::3])
    assert cut_area(wide.T[::-1]) == by_flooding(wide.T[::-1])


def cost(samples, monkeypatch):
    """How many turns were made, how many places were looked at in them, and how many runs there are."""
    looked, roots = [], _runs._roots

    class Parents(np.ndarray):
        """An array that counts what is looked up in it."""

        def take(self, places):
            looked[-1] += len(places)
            return np.asarray(self).take(places)

    def counted(parent, nodes):
        looked.append(0)
        return roots(parent.view(Parents), nodes)

    monkeypatch.setattr(_runs, "_roots", counted)
    area = cut_area(samples)
    monkeypatch.setattr(_runs, "_roots", roots)
    edges = np.diff(np.pad(samples, ((0, 0), (1, 1))).astype(np.int8), axis=1)
    return SimpleNamespace(area=area, turns=len(looked) / 2, looked=sum(looked), runs=np.count_nonzero(edges > 0))


@pytest.mark.parametrize("side", [64, 160, 400])
def test_a_winding_grain_costs_no_more_than_its_runs(side, monkeypatch):
    for rows in windings.all_of(side, random.Random(side)):
        found = cost(np.array(rows, np.uint8), monkeypatch)
        assert found.turns <= 2 * math.log2(found.runs) + 2, (found, rows[:3])
        assert found.looked <= 3 * found.runs + 100, (found, rows[:3])
