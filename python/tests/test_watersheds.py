"""Watersheds beside a program that goes by the rule, by hand and beside scikit-image; and touching grains that are parted."""
import itertools
import math

import numpy as np
import plain
import pytest
import reference_model

import morphd
from morphd import Refused, _flood, watersheds

STEPS = {1: reference_model.CROSS, 2: reference_model.SQUARE}
TYPES = [bool, np.uint8, np.uint16]


@pytest.fixture(params=[0, 3, _flood.FEW])
def few(request, monkeypatch):
    """Rounds by NumPy alone, by both ways in turn, and as they are."""
    monkeypatch.setattr(_flood, "FEW", request.param)
    return request.param


def row(*samples):
    return np.array([samples], np.uint8)


def within(*rows):
    """A mask, by its rows."""
    return np.array([[sign == "1" for sign in each] for each in rows])


def numbers(*labels):
    return np.array([labels], np.int32)


def same(made, wanted, *what):
    assert made.dtype == np.int32 and made.shape == np.shape(wanted) and (made == wanted).all(), (made, wanted, *what)


def by_rule(image, markers, connectivity=1, mask=None, **options):
    """What the rule says, pixel by pixel."""
    is_in = np.ones(image.shape, bool) if mask is None else mask
    made = reference_model.watershed(STEPS[connectivity], plain.image(image), markers.ravel().tolist(), is_in.ravel().tolist(), **options)
    return np.array(made, np.int32).reshape(image.shape)


# ---- worked rows


def test_two_basins_meet_at_a_crest(few):
    """The crest is reached from both sides in one round, and the first neighbour is the left one."""
    same(morphd.watershed(row(1, 3, 9, 2, 0, 2)), numbers(1, 1, 1, 2, 2, 2))


def test_a_level_is_done_before_the_next_one(few):
    """The basin on the right is full up to 4 before the left one passes 5."""
    same(morphd.watershed(row(0, 5, 4, 4, 4, 4, 1), numbers(7, 0, 0, 0, 0, 0, 3)), numbers(7, 7, 3, 3, 3, 3, 3))


def test_a_plateau_is_shared_in_rounds(few):
    """Each basin gains a pixel in each round; the middle one, which both reach at once, is the left one's."""
    same(morphd.watershed(row(0, 1, 1, 1, 1, 1, 0), numbers(1, 0, 0, 0, 0, 0, 2)), numbers(1, 1, 1, 1, 2, 2, 2))


def test_ties_go_to_the_first_neighbour_by_rows(few):
    image = np.zeros((3, 3), np.uint8)
    for labels in itertools.permutations((1, 2, 3, 4)):
        above, left, right, below = labels
        markers = np.array([[0, above, 0], [left, 0, right], [0, below, 0]])
        assert morphd.watershed(image, markers)[1, 1] == above
        assert morphd.watershed(image, markers, mask=within("101", "111", "111"))[1, 1] == left
        assert morphd.watershed(image, markers, mask=within("101", "011", "111"))[1, 1] == right
        corners = np.array([[above, 0, left], [0, 0, 0], [right, 0, below]])
        assert morphd.watershed(image, corners, 2)[1, 1] == above
        corners[0, 0] = 0
        assert morphd.watershed(image, corners, 2, mask=within("001", "010", "101"))[1, 1] == left


def test_a_basin_without_a_marker_is_flooded_over_its_bank(few):
    same(morphd.watershed(row(0, 5, 2, 3, 9), numbers(4, 0, 0, 0, 0)), numbers(4, 4, 4, 4, 4))


def test_a_marker_counts_from_the_first_level_on(few):
    """It stands higher than its neighbours, which take it as soon as their level comes."""
    same(morphd.watershed(row(9, 2, 2, 3, 1), numbers(6, 0, 0, 0, 5)), numbers(6, 6, 6, 6, 5))


def test_no_neighbour_lies_across_an_edge(few):
    """The last pixel of a row is not beside the first of the next one, nor the last row beside the first."""
    image = np.array([[0, 9, 0], [0, 9, 0], [9, 9, 9], [0, 9, 0]], np.uint8)
    for connectivity in (1, 2):
        for at in ((0, 2), (1, 0), (3, 2), (0, 0)):
            markers = np.zeros(image.shape, np.int32)
            markers[at] = 5
            made = morphd.watershed(image, markers, connectivity, mask=image < 9)
            same(made, by_rule(image, markers, connectivity, image < 9))
            assert set(np.argwhere(made)[:, 1]) == {at[1]}


def test_labels_are_kept(few):
    """Any numbers, those that touch, and the same one in two places."""
    same(morphd.watershed(row(1, 1, 1, 1, 1), numbers(2**31 - 1, 3, 0, 0, 3)), numbers(2**31 - 1, 3, 3, 3, 3))


def test_no_marker(few):
    for markers in (np.zeros((2, 3), int), np.array([[0, 0, 9], [0, 0, 0]])):
        assert not morphd.watershed(np.eye(2, 3, dtype=np.uint8), markers, mask=within("110", "110")).any()
    assert not morphd.watershed(np.zeros((2, 3), np.uint8), np.ones((2, 3), int), mask=np.zeros((2, 3), bool)).any()


def test_a_line_lies_in_the_basin_of_the_greater_label(few):
    same(morphd.watershed(row(1, 3, 9, 2, 0, 2), watershed_line=True), numbers(1, 1, 1, 0, 2, 2))
    markers = np.array([[3, 0], [0, 1]])
    same(morphd.watershed(np.zeros((2, 2), np.uint8), markers, watershed_line=True), [[3, 0], [0, 1]])
    same(morphd.watershed(np.zeros((2, 2), np.uint8), markers, 2, watershed_line=True), [[0, 0], [0, 1]])


# ---- the rule


@pytest.mark.parametrize("few, part", [(0, 9), (_flood.FEW, 3)])
def test_all_images_of_three_by_three_and_two_levels(monkeypatch, few, part):
    """With a third of all pairs of markers, or by NumPy with a ninth of them, by turns; both ways of neighbours in turn."""
    monkeypatch.setattr(_flood, "FEW", few)
    pairs = list(enumerate(itertools.combinations(range(9), 2)))
    for bits in range(512):
        image = np.array([bits >> at & 1 for at in range(9)], np.uint8).reshape(3, 3)
        for number, (one, other) in pairs[bits % part :: part]:
            markers = np.zeros(9, np.int32)
            markers[one], markers[other] = 2, 1
            markers, connectivity = markers.reshape(3, 3), 1 + (bits + number // part) % 2
            same(morphd.watershed(image, markers, connectivity), by_rule(image, markers, connectivity), image, markers)


def random_cases(seed, count, longest):
    """Plateaus and noise, with few markers and many, within masks of all kinds; rows and columns among them."""
    rng = np.random.default_rng(seed)
    for number in range(count):
        shape = tuple(rng.integers(1, longest + 1, 2)) if number % 5 else ((1, longest), (longest, 1))[number // 5 % 2]
        dtype = TYPES[number % 3]
        image = rng.random(shape) < 0.5 if dtype == bool else rng.integers(0, rng.choice([1, 3, 9, 200]), shape).astype(dtype)
        markers = rng.integers(1, 7, shape) * (rng.random(shape) < rng.choice([0.01, 0.05, 0.3]))
        mask = None if number % 2 else rng.random(shape) < rng.choice([0.5, 0.8, 0.95])
        yield rng, image, markers, mask


def test_random_images(few):
    for _, image, markers, mask in random_cases(1 + few, 90, 12):
        for connectivity in (1, 2):
            same(morphd.watershed(image, markers, connectivity, mask=mask), by_rule(image, markers, connectivity, mask), image, markers)


def test_larger_random_images(few):
    for _, image, markers, mask in random_cases(100 + few, 12, 24):
        image = image if image.dtype == bool else image // 3
        for connectivity in (1, 2):
            same(morphd.watershed(image, markers, connectivity, mask=mask), by_rule(image, markers, connectivity, mask), image, markers)


def test_all_levels_of_two_bytes(few):
    """The greatest sample is a level as any other."""
    for dtype in (np.uint8, np.uint16):
        top = np.iinfo(dtype).max
        image = np.array([[0, top, top - 1, top, 1], [top] * 5], dtype)
        markers = np.array([[1, 0, 0, 0, 2], [0] * 5])
        same(morphd.watershed(image, markers), by_rule(image, markers))
        same(morphd.watershed(np.full((2, 5), top, dtype), markers), by_rule(np.full((2, 5), top, dtype), markers))


def test_minima_are_the_markers_that_are_left_out():
    for _, image, _, mask in random_cases(2, 24, 9):
        for connectivity in (1, 2):
            minima = morphd.local_minima(image, morphd.diamond(1) if connectivity == 1 else morphd.square(3))
            markers = morphd.label(minima if mask is None else minima & mask, connectivity)
            made = morphd.watershed(image, connectivity=connectivity, mask=mask)
            same(made, by_rule(image, markers, connectivity, mask), image)


def test_a_line_by_its_rule():
    for _, image, markers, mask in random_cases(3, 40, 9):
        for connectivity in (1, 2):
            labels = by_rule(image, markers, connectivity, mask)
            wanted = labels.copy()
            for (y, x), label in np.ndenumerate(labels):
                beside = [labels[v, u] for u, v in reference_model.covered(plain.image(image), STEPS[connectivity], x, y)]
                wanted[y, x] = 0 if any(0 < each < label for each in beside) else label
            made = morphd.watershed(image, markers, connectivity, mask=mask, watershed_line=True)
            same(made, wanted, image, markers)
            for y, x in np.argwhere(made):
                assert {made[v, u] for u, v in reference_model.covered(plain.image(image), STEPS[connectivity], x, y)} <= {0, made[y, x]}


@pytest.mark.parametrize("dtype", ["i2", "i8", "u4", "f4", "f8", ">f8"])
def test_other_types_are_their_places_in_order(dtype):
    rng = np.random.default_rng(4)
    levels = rng.integers(0, 30, (8, 9)).astype(np.uint8)
    values = np.sort(rng.choice(200, 30, replace=False)).astype(dtype)
    markers = rng.integers(1, 5, levels.shape) * (rng.random(levels.shape) < 0.1)
    same(morphd.watershed(values[levels] * (1 if values.dtype.kind == "u" else -1) + 0, markers),
         morphd.watershed(levels if values.dtype.kind == "u" else 29 - levels, markers))
    same(morphd.watershed(values[levels]), morphd.watershed(levels))


@pytest.mark.parametrize("dtype", ["i1", "u1", "i2", "u2", "i4", "u4", "i8", "u8", ">i4"])
def test_markers_of_all_types_of_whole_numbers(dtype):
    same(morphd.watershed(row(1, 3, 9, 2), np.array([[3, 0, 0, 5]], dtype)), numbers(3, 3, 3, 5))


def test_arrays_of_all_kinds_of_memory():
    rng = np.random.default_rng(5)
    image, markers = rng.integers(0, 9, (9, 7)).astype(np.uint16), rng.integers(0, 9, (9, 7)) * (rng.random((9, 7)) < 0.1)
    mask = rng.random((9, 7)) < 0.8
    wanted = by_rule(image, markers, 1, mask)
    wide = np.zeros((18, 21), np.uint16)
    wide[::2, ::3] = image
    held = [each.copy() for each in (image, markers, mask)]
    for each in (wide[::2, ::3], np.asfortranarray(image), image.astype(">u2"), image[::-1].copy()[::-1]):
        same(morphd.watershed(each, np.asfortranarray(markers), mask=mask[:, ::-1].copy()[:, ::-1]), wanted)
    same(morphd.watershed(image, markers, mask=mask.astype(np.uint8) * 255), wanted)
    same(morphd.watershed(image.tolist(), markers.tolist(), mask=mask.tolist()), wanted)
    assert all((now == was).all() for now, was in zip((image, markers, mask), held))


def test_arrays_without_samples():
    for shape in ((0, 5), (3, 0)):
        assert morphd.watershed(np.zeros(shape, np.uint8)).shape == morphd.split_grains(np.zeros(shape, bool)).shape == shape
        assert morphd.watershed(np.zeros(shape, np.uint8), np.zeros(shape, int), mask=np.zeros(shape, bool)).dtype == np.int32


# ---- peers


def test_where_scikit_image_has_the_same():
    """Where each pixel has neighbours of a single label when its turn comes, and the markers are the minima, each with one."""
    segmentation = pytest.importorskip("skimage.segmentation")
    compared = 0
    for _, image, _, mask in random_cases(6, 600, 5):
        if image.dtype == bool or min(image.shape) < 3:
            continue
        for connectivity in (1, 2):
            within_mask = image if mask is None else np.where(mask, image, np.iinfo(image.dtype).max)
            markers = morphd.label(morphd.local_minima(within_mask, morphd.diamond(1) if connectivity == 1 else morphd.square(3)), connectivity)
            ties = []

            def chosen(beside):
                ties.append(len(set(beside)) > 1)
                return beside[0]

            wanted = by_rule(image, markers, connectivity, mask, chosen=chosen)
            made = segmentation.watershed(image, markers, connectivity, mask=mask)
            if not any(ties):
                np.testing.assert_array_equal(made, wanted)
                same(morphd.watershed(image, markers, connectivity, mask=mask), wanted)
                compared += 1
    assert compared > 50


def test_where_scikit_image_differs():
    """As the documents say: there a pixel is the first basin's that comes beside it, here that of its first neighbour by rows."""
    segmentation = pytest.importorskip("skimage.segmentation")
    image, markers = row(3, 9, 0), numbers(1, 0, 2)
    assert segmentation.watershed(image, markers).tolist() == [[1, 2, 2]] and morphd.watershed(image, markers).tolist() == [[1, 1, 2]]
    image, markers = row(9, 2, 2, 3, 1), numbers(6, 0, 0, 0, 5)
    assert segmentation.watershed(image, markers).tolist() == [[6, 5, 5, 5, 5]]
    assert morphd.watershed(image, markers).tolist() == [[6, 6, 6, 6, 5]]
    # without ties: there a basin without a marker is filled at once by who comes first, here from both banks, a round after the other
    image, markers = row(0, 5, 1, 1, 5, 0), numbers(1, 0, 0, 0, 0, 2)
    assert segmentation.watershed(image, markers).tolist() == [[1, 1, 1, 1, 2, 2]]
    assert morphd.watershed(image, markers).tolist() == [[1, 1, 1, 2, 2, 2]]
    # without ties: there a marker over its neighbours spreads when its own level comes
    image, markers = np.array([[3, 0], [2, 1], [1, 1]], np.uint8), np.array([[0, 0], [2, 0], [1, 0]], np.int32)
    assert segmentation.watershed(image, markers).tolist() == [[1, 1], [2, 1], [1, 1]]
    assert morphd.watershed(image, markers).tolist() == [[2, 2], [2, 2], [1, 1]]


def test_a_number_of_markers():
    util = pytest.importorskip("skimage.util")
    segmentation = pytest.importorskip("skimage.segmentation")
    rng = np.random.default_rng(7)
    for number in range(200):
        shape = tuple(rng.integers(1, 30, 2).tolist())
        count = int(rng.choice([1, 2, 3, 5, 10, 40, 1000]))
        image, mask = np.zeros(shape, np.uint8), None if number % 2 else rng.random(shape) < 0.7
        if mask is not None and not mask.any():
            continue
        seeds = util.regular_seeds(shape, count if mask is None else int(count / (mask.sum() / mask.size))) * (1 if mask is None else mask)
        same(morphd.watershed(image, count, mask=mask), morphd.watershed(image, seeds, mask=mask))
        made, wanted = morphd.watershed(image, np.int64(count), mask=mask), segmentation.watershed(image, count, mask=mask)
        np.testing.assert_array_equal(made > 0, wanted > 0)
        assert made.max() == wanted.max()
    assert not morphd.watershed(np.zeros((4, 5), np.uint8), 3, mask=np.zeros((4, 5), bool)).any()


# ---- what is refused


@pytest.mark.parametrize("options, number", [
    ({"mask": np.ones((2, 4), bool)}, 53), ({"markers": np.ones((3, 3), int)}, 53), ({"markers": np.full((2, 3), -1)}, 47),
    ({"markers": np.full((2, 3), 2**31)}, 47), ({"markers": np.full((2, 3), 2**64 - 1, np.uint64)}, 47), ({"markers": 0}, 47),
    ({"markers": -4}, 47), ({"mask": np.arange(6, dtype=np.uint8).reshape(2, 3)}, 44), ({"mask": np.ones((2, 3))}, 44)])
def test_refusals_by_number(options, number):
    with pytest.raises(Refused) as told:
        morphd.watershed(np.zeros((2, 3), np.uint8), **options)
    assert told.value.number == number and "watershed" in str(told.value)


@pytest.mark.parametrize("options, fault, told", [
    ({"markers": np.ones((2, 3), bool)}, TypeError, "markers are whole numbers"), ({"markers": np.ones((2, 3))}, TypeError, "whole"),
    ({"markers": 2.0}, TypeError, "markers is a whole number"), ({"markers": [1, 2]}, ValueError, "two axes"),
    ({"connectivity": 3}, ValueError, "connectivity is 1"), ({"connectivity": None}, TypeError, "connectivity is a whole number"),
    ({"connectivity": 1.0}, TypeError, "whole number"), ({"mask": np.ones(3, bool)}, ValueError, "two axes")])
def test_faults(options, fault, told):
    with pytest.raises(fault, match=told):
        morphd.watershed(np.zeros((2, 3), np.uint8), **options)


def test_images_that_are_not_taken():
    for image, fault in ((np.zeros(3), ValueError), (np.array([[np.nan]]), ValueError), (np.array([["a"]]), TypeError),
                         (np.arange(70000.0).reshape(70, 1000), TypeError), (np.ma.masked_array([[1]], [[True]]), TypeError)):
        with pytest.raises(fault):
            morphd.watershed(image)


def test_minima_have_the_limits_of_the_library():
    """Where markers are given none holds: the flood is no call of it."""
    image = np.zeros((1, 8193), np.uint8)
    with pytest.raises(Refused) as told:
        morphd.watershed(image)
    assert told.value.number == 22
    markers = np.zeros((1, 8193), int)
    markers[0, 5] = 3
    assert (morphd.watershed(image, markers) == 3).all()


# ---- touching grains


def discs(shape, *circles):
    down, right = np.indices(shape)
    return np.logical_or.reduce([(down - y) ** 2 + (right - x) ** 2 <= r * r for y, x, r in circles])


def test_two_discs_are_parted_at_their_neck():
    mask = discs((40, 60), (20, 18, 12), (20, 40, 12))
    labels, count = morphd.label(mask, return_num=True)
    assert count == 1
    made = morphd.split_grains(mask)
    assert made.dtype == np.int32 and made.max() == 2 and ((made > 0) == mask).all()
    assert made[20, 18] == 1 and made[20, 40] == 2
    # the neck is at the column in the middle, which is of the left disc
    assert (made[:, :29][mask[:, :29]] == 1).all() and (made[:, 30:][mask[:, 30:]] == 2).all()


def test_a_fall_that_joins():
    """Discs of 12 whose middles are 16 apart fall from 12 or so to some 9 between them."""
    mask = discs((40, 60), (20, 18, 12), (20, 34, 12))
    assert [int(morphd.split_grains(mask, h).max()) for h in (0, 1, 2, 2.9, 3.5, 5, 100, 10**9, np.inf)] == [2, 2, 2, 2, 1, 1, 1, 1, 1]
    same(morphd.split_grains(mask, 100), morphd.label(mask))


def by_hand(mask, h, connectivity):
    """The same from the definitions: levels, raised; extended maxima by the reference model; the rule."""
    f = plain.image(mask)
    squares = reference_model.squared_distance(2**31 - 1, f)
    levels = [min(next(n for n in range(16 * 60) if (n + 1) ** 2 > 256 * d) if d < 2**31 - 1 else 65535, 65535) for d in squares]
    fall = int(16 * h)
    raised = f._replace(samples=[min(level + fall, 65535) if s else 0 for level, s in zip(levels, f.samples)], kind="GREY", maxval=65535)
    b = STEPS[connectivity]
    cut = reference_model.h_maxima(b, fall, raised) if fall else raised
    middles = reference_model.regional_maxima(b, cut)
    markers, _ = reference_model.labelling(b, middles)
    top = f._replace(samples=[max(levels) - level for level in levels], kind="GREY", maxval=65535)
    for step in (reference_model.CROSS, b):
        markers = reference_model.watershed(step, top, markers, f.samples)
    labels = markers
    order = list(dict.fromkeys(label for label in labels if label))
    return np.array([order.index(label) + 1 if label else 0 for label in labels], np.int32).reshape(mask.shape)


def test_splitting_by_its_parts():
    rng = np.random.default_rng(8)
    for number in range(30):
        shape = tuple(rng.integers(1, 15, 2))
        mask = rng.random(shape) < rng.choice([0.5, 0.9]) if number % 2 else discs(shape, *rng.integers(1, 8, (4, 3)).tolist())
        for h in (0, 0.5, 1, 3):
            connectivity = 1 + (number + int(2 * h)) % 2
            same(morphd.split_grains(mask, h, connectivity), by_hand(mask, h, connectivity), mask, h)


def test_each_component_stays_and_each_grain_hangs_together():
    rng = np.random.default_rng(9)
    for number in range(20):
        mask = discs((24, 24), *zip(*rng.integers(0, 24, (2, 9)).tolist(), rng.integers(1, 6, 9).tolist()))
        for connectivity in (1, 2, None):
            made = morphd.split_grains(mask, float(rng.choice([0, 0.5, 2])), connectivity)
            assert ((made > 0) == mask).all()
            firsts = [int(np.flatnonzero(made == label)[0]) for label in range(1, made.max() + 1)]
            assert firsts == sorted(firsts)
            for label in range(1, made.max() + 1):
                assert morphd.label(made == label, connectivity, return_num=True)[1] == 1


def test_a_mask_of_all_pixels_is_one_grain():
    """Nothing outside is near."""
    assert (morphd.split_grains(np.ones((3, 4), bool)) == 1).all()
    assert (morphd.split_grains(np.full((3, 4), 255, np.uint8)) == 1).all()
    assert not morphd.split_grains(np.zeros((3, 4), bool)).any()


def test_a_fall_counts_by_sixteenths():
    """From the middles of both squares, 3, to the bridge, 1, the distance falls by 2 pixels: that is not more than 2."""
    mask = np.zeros((7, 13), bool)
    mask[1:6, 1:6] = mask[1:6, 7:12] = mask[3, 6] = True
    for connectivity in (1, 2):
        for h, count in ((31 / 16, 2), (1.999, 2), (2, 1), (33 / 16, 1), (np.float32(1.9375), 2), (np.int64(2), 1)):
            assert morphd.split_grains(mask, h, connectivity).max() == count
    assert morphd.split_grains(mask)[3].tolist() == [0] + [1] * 6 + [2] * 5 + [0]


def test_distances_are_whole_sixteenths(monkeypatch):
    """Cut down, exactly; they stop at the greatest that two bytes hold."""
    squares = [*range(3000), *(n * n + d for n in (255, 256, 4000, 4094, 4095) for d in (-1, 0, 1)), 16777215, 16777216, 10**9, 2**31 - 1]
    monkeypatch.setattr(watersheds.Distances, "made", lambda *_: np.array([squares], np.uint32))
    assert watersheds._distances(None).tolist() == [[min(math.isqrt(256 * each), 65535) for each in squares]]


@pytest.mark.parametrize("h, fault", [(-1, Refused), (float("nan"), Refused), ("a", TypeError), (None, TypeError)])
def test_falls_that_are_refused(h, fault):
    with pytest.raises(fault):
        morphd.split_grains(np.ones((3, 3), bool), h)


def test_sets_that_are_not_taken():
    for mask in (np.arange(6, dtype=np.uint8).reshape(2, 3), np.ones((2, 3)), np.ones((2, 3), np.int32)):
        with pytest.raises(Refused) as told:
            morphd.split_grains(mask)
        assert told.value.number == 44
    with pytest.raises(ValueError):
        morphd.split_grains(np.ones((2, 3), bool), 1, 3)
