"""Reconstruction, holes, borders, extrema, components and distances: worked rows, the definitions, and what is refused."""
from concurrent.futures import ThreadPoolExecutor
from pathlib import Path

import cases
import numpy as np
import plain
import pytest
import reference_model

import morphd
from morphd import Footprint, OutOfMemory, Refused, _library

SIDES = Footprint([[1, 0, 1]])
BAR = Footprint([[1, 1, 1]])
CROSS = morphd.diamond(1)


def row(*samples):
    return np.array([samples], np.uint8)


def set_of(*samples):
    return np.array([samples], bool)


def same(made, wanted, *what):
    assert made.dtype == wanted.dtype, what
    np.testing.assert_array_equal(made, wanted, str(what))


# ---- worked rows


def test_reconstruction_of_a_row():
    """A marker of one sample spreads within the mask: behind the sample of 2 it is 2. By erosion it falls."""
    same(morphd.reconstruction(row(0, 0, 6, 0, 0), row(3, 4, 6, 2, 5), footprint=SIDES), row(3, 4, 6, 2, 2))
    made = morphd.reconstruction(row(9, 9, 1, 9, 9), row(3, 4, 1, 2, 0), "erosion", SIDES, maxval=9)
    same(made, row(4, 4, 1, 2, 2))


def test_an_opening_by_reconstruction():
    """The erosion keeps the middle of the line of three, which is built again whole; the single pixel is gone."""
    mask = set_of(0, 1, 1, 1, 0, 1, 0)
    same(morphd.reconstruction(morphd.erosion(mask, BAR), mask, footprint=SIDES), set_of(0, 1, 1, 1, 0, 0, 0))


def test_a_filled_pond_and_a_cleared_border():
    pond = np.array([[9, 5, 9], [7, 1, 8], [0, 6, 0]], np.uint8)
    same(morphd.fill_holes(pond, maxval=9), np.array([[9, 5, 9], [7, 5, 8], [0, 6, 0]], np.uint8))
    peak = np.array([[0, 3, 0], [1, 7, 2], [0, 1, 0]], np.uint8)
    same(morphd.clear_border(peak, footprint=CROSS), np.array([[0, 0, 0], [0, 4, 0], [0, 0, 0]], np.uint8))


def test_domes_and_basins():
    """The dome of height 2 is gone, and 2 is cut off that of height 5; basins likewise."""
    same(morphd.hmax(row(0, 2, 0, 5, 1), 2, SIDES), row(0, 0, 0, 3, 1))
    same(morphd.hmin(row(9, 7, 9, 4, 8), 2, SIDES, maxval=9), row(9, 9, 9, 6, 8))


def test_tops_and_floors_of_sets():
    """A set has levels up to 1. Of a single level it has none."""
    mask = set_of(0, 1, 1, 0, 1)
    same(morphd.h_maxima(mask, 1), mask)
    same(morphd.h_minima(mask, 1), ~mask)
    same(morphd.h_maxima(np.array([[0, 255, 7, 0, 1]], np.uint8).view(bool), 1), mask)
    for given, h in ((mask, 2), (mask | True, 1), (mask & False, 1), (mask[:, :0], 1)):
        same(morphd.h_maxima(given, h), given & False)
        same(morphd.h_minima(given, h), given & False)


def test_regional_extrema():
    same(morphd.local_maxima(row(2, 4, 4, 1, 3), SIDES), set_of(0, 1, 1, 0, 1))
    same(morphd.local_minima(row(2, 4, 4, 1, 3), SIDES), set_of(1, 0, 0, 1, 0))


def test_components_of_a_row():
    same(morphd.label(set_of(1, 1, 0, 1)), np.array([[1, 1, 0, 2]], np.int32))
    same(morphd.area_opening(set_of(1, 1, 0, 1), 2), set_of(1, 1, 0, 0))


def test_distances_of_a_row():
    for metric in ("cityblock", "chessboard"):
        same(morphd.distance(set_of(0, 1, 1, 1, 0), metric), np.array([[0, 1, 2, 1, 0]], np.int32))
    same(morphd.distance(set_of(0, 1, 1, 1, 1), "sqeuclidean"), np.array([[0, 1, 4, 9, 16]], np.int32))
    same(morphd.distance(set_of(0, 1, 1, 1, 1)), np.array([[0.0, 1, 2, 3, 4]]))


def test_components_are_numbered_by_their_first_pixels():
    """The one on the right begins in the first row, and so does the one that comes back to the left below it."""
    mask = np.array([[0, 0, 0, 1], [1, 0, 0, 1], [1, 0, 0, 0], [0, 1, 0, 0]], bool)
    same(morphd.label(mask), np.array([[0, 0, 0, 1], [2, 0, 0, 1], [2, 0, 0, 0], [0, 2, 0, 0]], np.int32))
    same(morphd.label(mask, 1), np.array([[0, 0, 0, 1], [2, 0, 0, 1], [2, 0, 0, 0], [0, 3, 0, 0]], np.int32))
    labels, count = morphd.label(mask, return_num=True)
    assert (labels.max(), count, type(count)) == (2, 2, int)


def test_a_ring_that_meets_at_corners():
    """What is joined tells whether it has a hole."""
    ring = np.array([[0, 1, 0], [1, 0, 1], [0, 1, 0]], bool)
    assert morphd.fill_holes(ring)[1, 1] and not morphd.fill_holes(ring, morphd.square(3))[1, 1]


def test_a_footprint_that_points_one_way():
    """A pixel takes from those that the footprint covers from it."""
    left = Footprint([[1, 0, 0]], (0, 1))
    same(morphd.reconstruction(row(0, 5, 0), row(5, 5, 5), footprint=left), row(0, 5, 5))


# ---- the definitions


def literal(step, start, f):
    """As many steps as the frame has places."""
    for _ in range(f.width * f.height):
        start = step(start)
    return start


def random_cases(seed, count, longest=3):
    rng = np.random.default_rng(seed)
    for number in range(count):
        shape = cases.SHAPES[number % len(cases.SHAPES)]
        yield number, rng, cases.image(rng, shape, cases.TYPES[number % 3]), cases.footprint(rng, longest)


def turned(b):
    """A footprint's offsets as the reference model has them."""
    return [(column, row) for row, column in b.offsets]


def test_the_reference_model_floods_as_the_definitions_say():
    for _, rng, image, b in random_cases(1, 60):
        if image.size > 40:
            continue
        mask, marker, offsets = plain.image(image), plain.image(cases.image(rng, image.shape, image.dtype)), turned(b)
        made = literal(lambda f: reference_model.geodesic_dilation(offsets, mask, f), reference_model.meet(marker, mask), mask)
        assert reference_model.reconstruction(offsets, mask, marker) == made
        made = literal(lambda f: reference_model.geodesic_erosion(offsets, mask, f), reference_model.union(marker, mask), mask)
        assert reference_model.reconstruction_by_erosion(offsets, mask, marker) == made
        if image.dtype == bool:
            for step in (reference_model.CROSS, reference_model.SQUARE):
                eroded, counts = mask, [0] * len(mask.samples)
                for _ in range(12):
                    counts = [count + s for count, s in zip(counts, eroded.samples)]
                    eroded = reference_model.erosion(eroded, step)
                assert reference_model.distance(step, 12, mask) == counts


def test_the_reference_models_components_are_reconstructions():
    for _, _, image, _ in random_cases(2, 60):
        if image.dtype != bool or image.size > 40:
            continue
        f = plain.image(image)
        for b in (reference_model.CROSS, reference_model.SQUARE):
            parts = reference_model.components(b, f)
            assert sorted(place for part in parts for place in part) == sorted((x, y) for y, x in np.argwhere(image).tolist())
            for part in parts:
                marker = f._replace(samples=[int(at == part[0][1] * f.width + part[0][0]) for at in range(image.size)])
                held = reference_model.reconstruction(b, f, marker)
                assert {(x, y) for x, y in part} == {(at % f.width, at // f.width) for at, s in enumerate(held.samples) if s}


def wanted_of(name, image, b, *numbers):
    """What a function has to give, by the reference model."""
    f, offsets = plain.image(image), turned(b)
    made = {
        "fill_holes": lambda: reference_model.holes_filled(offsets, f), "clear_border": lambda: reference_model.border_cleared(offsets, f),
        "hmax": lambda: reference_model.h_maxima(offsets, *numbers, f), "hmin": lambda: reference_model.h_minima(offsets, *numbers, f),
        "local_maxima": lambda: reference_model.regional_maxima(offsets, f),
        "local_minima": lambda: reference_model.regional_minima(offsets, f)}[name]()
    return plain.array(made, bool if "local" in name else image.dtype)


@pytest.mark.parametrize("name", ["fill_holes", "clear_border", "hmax", "hmin", "local_maxima", "local_minima"])
def test_functions_of_one_image(name):
    for number, rng, image, b in random_cases(3, 63):
        h = int(rng.choice([1, 2, 40, 65535]))
        numbers, options = ([h], {}) if name in ("hmax", "hmin") else ([], {"footprint": b})
        made = getattr(morphd, name)(image, *numbers, **(options or {"footprint": b}))
        same(made, wanted_of(name, image, b, *numbers), name, h, image, b)


def test_reconstructions():
    for number, rng, mask, b in random_cases(4, 84):
        for method, cut, made in (("dilation", np.minimum, reference_model.reconstruction),
                                  ("erosion", np.maximum, reference_model.reconstruction_by_erosion)):
            seed = cut(cases.image(rng, mask.shape, mask.dtype), mask)
            wanted = plain.array(made(turned(b), plain.image(mask), plain.image(seed)), mask.dtype)
            same(morphd.reconstruction(seed, mask, method, b), wanted, method, seed, mask, b)


def test_sets():
    for _, _, image, _ in random_cases(5, 84):
        if image.dtype != bool:
            continue
        f = plain.image(image)
        for connectivity, b in ((1, reference_model.CROSS), (2, reference_model.SQUARE), (None, reference_model.SQUARE)):
            labels, count = reference_model.labelling(b, f)
            made, told = morphd.label(image, connectivity, return_num=True)
            same(made, np.array(labels, np.int32).reshape(image.shape))
            assert told == count
        if not image.all():
            squares = np.array(reference_model.squared_distance(10**6, f)).reshape(image.shape)
            same(morphd.distance(image, "sqeuclidean"), squares.astype(np.int32))
            same(morphd.distance(image), np.sqrt(squares))
            for metric, b in (("cityblock", reference_model.CROSS), ("chessboard", reference_model.SQUARE)):
                same(morphd.distance(image, metric), np.array(reference_model.distance(b, 99, f), np.int32).reshape(image.shape))


# ---- peers


def seeds_and_masks(seed, types):
    """Random images of up to 24 x 24, smooth ones and noise, with markers below or above them."""
    rng = np.random.default_rng(seed)
    for number in range(40):
        dtype = np.dtype(types[number % len(types)])
        shape = tuple(rng.integers(1, 25, 2))
        mask = rng.random(shape) < 0.6 if dtype == bool else rng.integers(0, rng.choice([4, 200]), shape).astype(dtype)
        drop = rng.integers(0, 9, shape) * (rng.random(shape) < 0.9)
        low = mask & (drop == 0) if dtype == bool else (mask - np.minimum(drop, mask)).astype(dtype)
        high = mask | (drop > 6) if dtype == bool else np.minimum(mask.astype(int) + drop, 255).astype(dtype)
        yield rng, mask, low, high


def test_reconstructions_of_scikit_image():
    morphology = pytest.importorskip("skimage.morphology")
    for rng, mask, low, high in seeds_and_masks(6, (bool, np.uint8, np.uint16, np.int32, np.float64)):
        bitmap = rng.random((3, 3)) < 0.6
        bitmap[1, 1] = True
        for footprint in (None, bitmap):
            ours = None if footprint is None else -Footprint(footprint)
            for seed, method in ((low, "dilation"), (high, "erosion")):
                made = morphd.reconstruction(seed, mask, method, ours)
                wanted = morphology.reconstruction(*(each.astype(float) for each in (seed, mask)), method, footprint)
                same(made, wanted.astype(mask.dtype), method, seed, mask, footprint)


def test_holes_of_scipy():
    ndimage = pytest.importorskip("scipy.ndimage")
    rng = np.random.default_rng(7)
    for _ in range(40):
        image = rng.random(rng.integers(1, 25, 2)) < 0.6
        same(morphd.fill_holes(image), ndimage.binary_fill_holes(image))
        same(morphd.fill_holes(image, morphd.square(3)), ndimage.binary_fill_holes(image, np.ones((3, 3))))
        levels = np.where(image, 255, 0).astype(np.uint8)
        same(morphd.fill_holes(levels), np.where(ndimage.binary_fill_holes(image), 255, 0).astype(np.uint8))


def test_borders_of_scikit_image():
    segmentation = pytest.importorskip("skimage.segmentation")
    rng = np.random.default_rng(8)
    for _ in range(40):
        image = rng.random(rng.integers(4, 25, 2)) < 0.3
        for buffer in (0, 1, 3):
            wanted = segmentation.clear_border(image, buffer)
            same(morphd.clear_border(image, buffer), wanted, image, buffer)
            same(morphd.clear_border(image.astype(np.uint8), buffer), wanted.astype(np.uint8))


def test_extrema_of_scikit_image():
    morphology = pytest.importorskip("skimage.morphology")
    for _, image, _, _ in seeds_and_masks(9, (np.uint8, np.uint16)):
        if min(image.shape) < 3 or image.min() == image.max():
            continue
        for footprint in (None, CROSS):
            bitmap = None if footprint is None else footprint.bitmap
            same(morphd.local_maxima(image, footprint), morphology.local_maxima(image, bitmap).astype(bool), image)
            same(morphd.local_minima(image, footprint), morphology.local_minima(image, bitmap).astype(bool), image)
            for h in (1, 3, 50):
                same(morphd.h_maxima(image, h, footprint), morphology.h_maxima(image, h, bitmap).astype(bool), image, h)
                same(morphd.h_minima(image, h, footprint), morphology.h_minima(image, h, bitmap).astype(bool), image, h)


def test_heights_of_nothing_and_of_one_level():
    for image in (np.zeros((0, 3), np.uint8), np.full((2, 3), 9, np.uint8)):
        for made in (morphd.h_maxima(image, 4), morphd.h_minima(image, 4)):
            assert made.dtype == bool and made.shape == image.shape and not made.any()


def test_where_extrema_differ_from_those_of_scikit_image():
    """On an image of one level, as the docstrings say."""
    morphology = pytest.importorskip("skimage.morphology")
    for level, is_maximum, is_minimum in ((0, False, True), (7, True, True), (255, True, False)):
        image = np.full((4, 5), level, np.uint8)
        assert not morphology.local_maxima(image).any() and not morphology.local_minima(image).any()
        assert morphd.local_maxima(image).all() == morphd.local_maxima(image).any() == is_maximum
        assert morphd.local_minima(image).all() == morphd.local_minima(image).any() == is_minimum


def test_labels_of_peers():
    measure, ndimage = pytest.importorskip("skimage.measure"), pytest.importorskip("scipy.ndimage")
    rng = np.random.default_rng(10)
    for number in range(60):
        image = rng.random(rng.integers(1, 25, 2)) < rng.choice([0.2, 0.4, 0.6])
        for connectivity in (1, 2, None):
            labels, count = morphd.label(image, connectivity, return_num=True)
            wanted, told = measure.label(image, connectivity=connectivity, return_num=True)
            np.testing.assert_array_equal(labels, wanted)
            assert count == told
        np.testing.assert_array_equal(labels, ndimage.label(image, np.ones((3, 3)))[0])


def test_small_objects_of_scikit_image():
    morphology = pytest.importorskip("skimage.morphology")
    rng = np.random.default_rng(11)
    for _ in range(40):
        # scikit-image 0.19 reads beyond smaller ones
        image = rng.random(rng.integers(4, 25, 2)) < 0.45
        for size in (0, 1, 3, 12, 64):
            same(morphd.remove_small_objects(image, size), morphology.remove_small_objects(image, size))
            same(morphd.remove_small_objects(image, size, 2), morphology.remove_small_objects(image, size, 2))


def test_distances_of_scipy():
    ndimage = pytest.importorskip("scipy.ndimage")
    rng = np.random.default_rng(12)
    for number in range(40):
        image = rng.random(rng.integers(1, 25, 2)) < rng.choice([0.5, 0.95])
        image[rng.integers(image.shape[0]), rng.integers(image.shape[1])] = False
        np.testing.assert_allclose(morphd.distance(image), ndimage.distance_transform_edt(image), rtol=1e-15)
        same(morphd.distance(image, "cityblock"), ndimage.distance_transform_cdt(image, "taxicab"))
        same(morphd.distance(image, "chessboard"), ndimage.distance_transform_cdt(image, "chessboard"))


# ---- arrays


def rebuilt(image, **options):
    return morphd.reconstruction(np.where(image % 2 == 0, image, 0).astype(image.dtype), image, **options)


ONE_IMAGE = {
    "reconstruction": rebuilt,
    "fill_holes": morphd.fill_holes, "clear_border": morphd.clear_border,
    "clear_border with a band": lambda image, **options: morphd.clear_border(image, 1, **options),
    "hmax": lambda image, **options: morphd.hmax(image, 1, **options), "hmin": lambda image, **options: morphd.hmin(image, 1, **options),
    "local_maxima": morphd.local_maxima, "local_minima": morphd.local_minima,
    "area_opening": lambda image, **options: morphd.area_opening(image, 2, **options),
    "area_closing": lambda image, **options: morphd.area_closing(image, 3, **options),
    "remove_small_objects": lambda image, **options: morphd.remove_small_objects(image, 2, **options),
}
OF_SETS = ("remove_small_objects",)


def arrangements(image):
    """Samples that are alike, in memory of many kinds."""
    wide = np.zeros((2 * image.shape[0], 3 * image.shape[1]), image.dtype)
    wide[::2, ::3] = image
    frozen = image.copy()
    frozen.flags.writeable = False
    shifted = np.zeros(image.nbytes + 1, np.uint8)[1:].view(image.dtype).reshape(image.shape)
    shifted[...] = image
    return {"steps": wide[::2, ::3], "columns first": np.asfortranarray(image), "turned": image[::-1, ::-1].copy()[::-1, ::-1],
            "read-only": frozen, "unaligned": shifted, "other order of bytes": image.astype(image.dtype.newbyteorder())}


@pytest.mark.parametrize("dtype", cases.TYPES)
@pytest.mark.parametrize("name", ONE_IMAGE)
def test_strides_and_out(name, dtype):
    if name in OF_SETS and dtype != bool:
        pytest.skip("of sets alone")
    call = ONE_IMAGE[name]
    image = cases.image(np.random.default_rng(13), (9, 7), dtype)
    wanted = call(image)
    for kind, given in arrangements(image).items():
        np.testing.assert_array_equal(call(given), wanted, kind)
    rows, columns = image.shape
    outs = {"new": np.ones_like(wanted), "steps": np.ones((2 * rows, 2 * columns), wanted.dtype)[::2, ::2],
            "columns first": np.ones((rows, columns), wanted.dtype, "F")}
    for kind, out in outs.items():
        assert call(image, out=out) is out, kind
        np.testing.assert_array_equal(out, wanted, kind)
    if wanted.dtype == image.dtype:
        out = image.copy()
        assert call(out, out=out) is out
        np.testing.assert_array_equal(out, wanted)


@pytest.mark.parametrize("name", ONE_IMAGE)
def test_planes(name):
    call = ONE_IMAGE[name]
    image = np.random.default_rng(14).integers(0, 2 if name in OF_SETS else 99, (6, 3, 5))
    image = image.astype(bool if name in OF_SETS else np.uint8)
    made = call(image, axes=(0, 2))
    for at in range(3):
        np.testing.assert_array_equal(made[:, at], call(image[:, at]))
    out = np.ones_like(made)
    assert call(image, axes=(0, 2), out=out) is out
    np.testing.assert_array_equal(out, made)
    with pytest.raises(ValueError, match="axes"):
        call(image)
    with pytest.raises(ValueError, match="axes"):
        call(image, axes=(0, 3))


@pytest.mark.parametrize("name", ONE_IMAGE)
def test_arrays_without_samples(name):
    dtype = bool if name in OF_SETS else np.uint16
    if "band" in name:
        return
    for shape in ((0, 5), (3, 0)):
        assert ONE_IMAGE[name](np.zeros(shape, dtype)).shape == shape


def test_sets_without_pixels():
    for shape in ((0, 5), (3, 0)):
        assert morphd.label(np.zeros(shape, bool), return_num=True)[1] == 0
        assert morphd.distance(np.zeros(shape, bool)).shape == shape
    assert not morphd.label(np.zeros((3, 4), bool)).any() and not morphd.distance(np.zeros((3, 4), bool)).any()


def test_an_array_that_is_all_in_the_set():
    """Nothing outside is near."""
    full = np.ones((3, 4), bool)
    assert (morphd.distance(full) == np.inf).all()
    for metric in ("sqeuclidean", "cityblock", "chessboard"):
        assert (morphd.distance(full, metric) == 2**31 - 1).all()


@pytest.mark.parametrize("dtype", ["i2", "i8", "u4", "f4", "f8", ">f8"])
def test_ordered_levels(dtype):
    """What only compares samples makes the same of their places in order."""
    rng = np.random.default_rng(15)
    levels = rng.integers(0, 30, (8, 9)).astype(np.uint8)
    values = np.sort(rng.choice(200, 30, replace=False)).astype(dtype)
    seed = np.minimum(levels, rng.integers(0, 30, levels.shape)).astype(np.uint8)
    for made, wanted in ((morphd.fill_holes(values[levels]), morphd.fill_holes(levels)),
                         (morphd.reconstruction(values[seed], values[levels]), morphd.reconstruction(seed, levels))):
        same(made, values[wanted])
    planes = np.stack([values[levels], values[levels][::-1]]).astype(dtype)
    out = np.zeros_like(planes)
    morphd.reconstruction(values[np.stack([seed, seed[::-1]])], planes, axes=(1, 2), out=out)
    same(out[0], values[morphd.reconstruction(seed, levels)])


def test_a_camera_of_12_bits():
    image = np.random.default_rng(16).integers(0, 4096, (6, 7)).astype(np.uint16)
    same(morphd.hmin(image, 100, maxval=4095), np.minimum(morphd.hmin(image, 100), 4095))
    assert morphd.local_minima(np.full((2, 2), 4095, np.uint16)).all()
    assert not morphd.local_minima(np.full((2, 2), 4095, np.uint16), maxval=4095).any()
    few = (image % 100).astype(np.uint16)
    same(morphd.fill_holes(few, maxval=99), morphd.fill_holes(few))
    same(morphd.reconstruction(few // 2, few, maxval=99), morphd.reconstruction(few // 2, few))


def test_bytes_of_masks():
    """A mask of uint8 has one value beside 0; bytes of bool that are neither 0 nor 1 count as 1."""
    mask = np.random.default_rng(17).random((7, 9)) < 0.5
    for given in (mask * np.uint8(255), mask * np.uint8(1), np.where(mask, 77, 0).astype(np.uint8), (mask * np.uint8(7)).view(bool)):
        same(morphd.label(given), morphd.label(mask))
        same(morphd.distance(given), morphd.distance(mask))
        same(morphd.regions(given)["area"], morphd.regions(mask)["area"])
    assert not morphd.label(np.zeros((2, 2), np.uint8)).any()
    for call in (morphd.label, morphd.distance, morphd.regions):
        for wrong in (np.array([[0, 1, 2]], np.uint8), np.zeros((2, 2), np.uint16), np.zeros((2, 2)), [[0, 1]]):
            with pytest.raises(Refused, match="a set is wanted: an array of bool.*44 BINARY"):
                call(wrong)


def asked_of(monkeypatch):
    """The arguments of each call of the library from now on."""
    asked, ready = [], _library.ready

    def kept(name, words, *arguments):
        asked.append((name, arguments))
        return ready(name, words, *arguments)

    monkeypatch.setattr(_library, "ready", kept)
    return asked


@pytest.mark.parametrize("dtype", cases.TYPES)
def test_memory_is_not_copied(monkeypatch, dtype):
    """The library sees the caller's arrays, and writes into his."""
    asked, image = asked_of(monkeypatch), cases.image(np.random.default_rng(18), (6, 8), dtype)
    seed = image // 2 if dtype != bool else image & np.roll(image, 1)
    out = np.empty_like(image)
    for call in (lambda: morphd.reconstruction(seed, image, out=out), lambda: morphd.fill_holes(image, out=out),
                 lambda: morphd.clear_border(image, out=out), lambda: morphd.hmax(image, 1, out=out),
                 lambda: morphd.area_opening(image, out=out), lambda: morphd.area_closing(image, out=out)):
        asked.clear()
        assert call() is out
        (_, arguments), = asked
        assert image.ctypes.data in arguments and out.ctypes.data in arguments
        if "reconstruct" in asked[0][0]:
            assert seed.ctypes.data in arguments
    if dtype == bool:
        for call in (morphd.label, morphd.distance, morphd.remove_small_objects, lambda mask: morphd.label(mask.view(np.uint8))):
            asked.clear()
            made = call(image)
            assert image.ctypes.data in asked[0][1] and (made.ctypes.data in asked[0][1] or made.dtype == float)


def test_calls_from_several_threads():
    """They share nothing, and a table is made of its own labels."""
    rng = np.random.default_rng(19)
    masks = [rng.random((11, 13)) < 0.5 for _ in range(24)]

    def found(mask):
        return morphd.label(mask).tolist(), morphd.regions(mask)["perimeter"].tolist(), morphd.fill_holes(mask).tolist()

    with ThreadPoolExecutor(4) as threads:
        assert list(threads.map(found, masks)) == [found(mask) for mask in masks]


def test_a_pixel_from_which_no_path_leads():
    image = np.array([[3, 5, 4], [5, 1, 5], [4, 5, 3]])
    nowhere = Footprint([[1]])
    assert morphd.fill_holes(image.astype(np.uint8), nowhere, maxval=9)[1, 1] == 9
    assert morphd.fill_holes(image, nowhere)[1, 1] == 5 and morphd.fill_holes(image, nowhere)[0, 0] == 3


def test_out_that_is_the_seed(stood_in):
    """The stand-in sees arrays that lie over one another."""
    mask = np.array([[3, 4, 6, 2, 5]], np.uint8)
    for target in ("seed", "mask"):
        given = {"seed": np.minimum(mask, [[0, 0, 6, 0, 0]]).astype(np.uint8), "mask": mask.copy()}
        assert morphd.reconstruction(given["seed"], given["mask"], out=given[target]) is given[target]
        assert given[target].tolist() == [[3, 4, 6, 2, 2]]
    held = np.array([[0, 0, 6, 0, 0, 7]], np.uint8)
    morphd.reconstruction(held[:, :5], mask, out=held[:, 1:])
    assert held.tolist() == [[0, 3, 4, 6, 2, 2]]


def test_one_call_of_the_library_each(stood_in):
    """What is proved is the library's result, so it is not put together of others."""
    import stand_in

    image, mask = np.arange(12, dtype=np.uint8).reshape(3, 4), np.ones((3, 4), bool)
    for call, name in (
        (lambda: morphd.reconstruction(image // 2, image), "reconstruct_u8"), (lambda: morphd.fill_holes(image), "fill_u8"),
        (lambda: morphd.fill_holes(mask), "fill_set"), (lambda: morphd.clear_border(image.astype(np.uint16)), "clear_border_u16"),
        (lambda: morphd.hmax(image, 3), "extrema_h_u8"), (lambda: morphd.local_minima(image), "extrema_regional_u8"),
        (lambda: morphd.label(mask), "label_set"), (lambda: morphd.area_opening(mask), "area_set"),
        (lambda: morphd.area_opening(image), "area_u8"), (lambda: morphd.area_closing(image.astype(np.uint16)), "area_u16"),
        (lambda: morphd.area_closing(mask), "area_u8"),
        (lambda: morphd.remove_small_objects(mask), "area_set"), (lambda: morphd.distance(mask), "distance_set"),
        (lambda: morphd.clear_border(image, 1), "reconstruct_u8")):
        stand_in.calls.clear()
        call()
        assert stand_in.calls == {f"morphd_{name}": 1}


# ---- refusals

GREY = np.array([[7, 3, 5]], np.uint8)
SET = GREY > 4
REFUSED = [
    (25, lambda: morphd.reconstruction(GREY, GREY, maxval=6)),
    (25, lambda: morphd.fill_holes(GREY, maxval=6)),
    (25, lambda: morphd.clear_border(GREY.astype(np.uint16), maxval=6)),
    (23, lambda: morphd.hmax(GREY, 1, maxval=256)),
    (23, lambda: morphd.local_maxima(GREY, maxval=0)),
    (53, lambda: morphd.reconstruction(GREY, GREY.T)),
    (53, lambda: morphd.regions(SET, intensity=GREY.T)),
    (47, lambda: morphd.hmax(GREY, 0)),
    (47, lambda: morphd.hmin(GREY, 65536)),
    (47, lambda: morphd.hmin(GREY, -1)),
    (47, lambda: morphd.hmax(GREY, 1 << 40)),
    (47, lambda: morphd.area_opening(SET, 0)),
    (47, lambda: morphd.area_opening(SET, -3)),
    (47, lambda: morphd.area_closing(GREY, 0)),
    (25, lambda: morphd.area_opening(GREY, maxval=6)),
    (23, lambda: morphd.area_closing(GREY, maxval=0)),
    (44, lambda: morphd.remove_small_objects(GREY)),
    (44, lambda: morphd.label(GREY)),
    (32, lambda: morphd.fill_holes(GREY, [[0]])),
    (31, lambda: morphd.fill_holes(GREY, Footprint([[1]], (1, 0)))),
    (22, lambda: morphd.clear_border(GREY, 0, np.ones((1, 256)))),
    (22, lambda: morphd.label(np.zeros((1, 8193), bool))),
    (22, lambda: morphd.fill_holes(np.zeros((8193, 1), np.uint8))),
    (22, lambda: morphd.distance(np.zeros((1, 8193), bool))),
]


@pytest.mark.parametrize("number, call", REFUSED)
def test_refusals(number, call):
    with pytest.raises(Refused) as told:
        call()
    assert told.value.number == number
    assert told.value.asked


@pytest.mark.parametrize("call, fault, told", [
    (lambda: morphd.reconstruction(GREY + 1, GREY), ValueError, "by dilation no sample of the seed is over"),
    (lambda: morphd.reconstruction(GREY - 1, GREY, "erosion"), ValueError, "by erosion no sample of the seed is under"),
    (lambda: morphd.reconstruction(GREY + 0.5, GREY.astype(float)), ValueError, "by dilation"),
    (lambda: morphd.reconstruction(~SET, SET), ValueError, "by dilation"),
    (lambda: morphd.reconstruction(GREY, GREY, "opening"), ValueError, "method is 'dilation' or 'erosion'"),
    (lambda: morphd.reconstruction(SET, GREY), TypeError, "a seed of the mask's type"),
    (lambda: morphd.reconstruction(GREY.astype(float), np.array([[7, np.nan, 5]])), ValueError, "NaN"),
    (lambda: morphd.clear_border(GREY, 1), ValueError, "buffer is less than the sides"),
    (lambda: morphd.clear_border(GREY, -1), ValueError, "from 0 on"),
    (lambda: morphd.clear_border(GREY, 1.0), TypeError, "buffer is a whole number"),
    (lambda: morphd.remove_small_objects(SET, -1), ValueError, "from 0 on"),
    (lambda: morphd.hmax(GREY, 1.5), TypeError, "h is a whole number"),
    (lambda: morphd.area_opening(SET, 2.0), TypeError, "area_threshold is a whole number"),
    (lambda: morphd.area_opening(GREY / 2), TypeError, "order of samples alone"),
    (lambda: morphd.area_closing(GREY.astype(int)), TypeError, "order of samples alone"),
    (lambda: morphd.area_closing(GREY, 2, 3), ValueError, "connectivity is 1"),
    (lambda: morphd.label(SET, 3), ValueError, "connectivity is 1"),
    (lambda: morphd.label(SET, 0), ValueError, "connectivity is 1"),
    (lambda: morphd.label(SET, "4"), TypeError, "connectivity is a whole number"),
    (lambda: morphd.label(SET[0]), ValueError, "two axes, and this array has 1: take plane after plane"),
    (lambda: morphd.h_maxima(np.stack([GREY, GREY]), 1), ValueError, "two axes, and this array has 3: take plane after plane"),
    (lambda: morphd.hmax(np.stack([GREY, GREY]), 1), ValueError, "two axes, and this array has 3: axes=.ROWS, COLUMNS. says"),
    (lambda: morphd.fill_holes(np.stack([GREY, GREY]), axes=0), TypeError, "axes are two whole numbers, those of the rows"),
    (lambda: morphd.reconstruction(np.stack([GREY, GREY]), np.stack([GREY, GREY]), axes=(1,)), TypeError, "axes are two whole numbers"),
    (lambda: morphd.area_opening(np.stack([GREY, GREY]), axes="xy"), TypeError, "axes are two whole numbers"),
    (lambda: morphd.clear_border(np.stack([GREY, GREY]), 1, axes=(0.0, 1)), TypeError, "axes are two whole numbers"),
    (lambda: morphd.clear_border(np.stack([GREY, GREY]), 1, axes=(1, -2)), ValueError, "axes are two of the 3 axes of the array"),
    (lambda: morphd.clear_border(np.stack([GREY, GREY]), 1, axes=(1, 3)), ValueError, "axes are two of the 3 axes of the array"),
    (lambda: morphd.fill_holes(GREY, 3), TypeError, "a footprint is a bitmap, as square.3. or"),
    (lambda: morphd.label(Path("grains.png")), TypeError, "this is a path: morphd.read.'grains.png'. makes one of a picture"),
    (lambda: morphd.fill_holes("grains.png"), TypeError, "this is a path"),
    (lambda: morphd.h_maxima(GREY / 2, 1), TypeError, "h_maxima takes arrays of bool, uint8 and uint16"),
    (lambda: morphd.h_minima(GREY, 1.5), TypeError, "h is a whole number"),
    (lambda: morphd.fill_holes(GREY, out=np.ma.array(GREY)), TypeError, "out is a NumPy array, and no masked one"),
    (lambda: morphd.distance(SET, "taxicab"), ValueError, "metric is one of"),
    (lambda: morphd.clear_border(GREY / 2), TypeError, "order of samples alone"),
    (lambda: morphd.hmax(GREY / 2, 1), TypeError, "order of samples alone"),
    (lambda: morphd.local_maxima(GREY.astype(int)), TypeError, "order of samples alone"),
    (lambda: morphd.fill_holes(np.array([["a"]])), TypeError, "bool, integers and floats"),
    (lambda: morphd.fill_holes(np.ma.masked_equal(GREY, 3)), TypeError, "masked"),
    (lambda: morphd.fill_holes(GREY, out=np.zeros((1, 3), bool)), ValueError, "out is an array of uint8"),
    (lambda: morphd.local_maxima(GREY, out=np.zeros((1, 3), np.uint8)), ValueError, "out is an array of bool"),
    (lambda: morphd.reconstruction(GREY, GREY, out=np.zeros((3, 1), np.uint8)), ValueError, "out is an array of uint8"),
])
def test_wrong_arguments(call, fault, told):
    with pytest.raises(fault, match=told):
        call()


def test_a_refusal_leaves_out_as_it_was():
    out = np.array([[1, 2, 3]], np.uint8)
    for call in (lambda: morphd.fill_holes(GREY, maxval=6, out=out), lambda: morphd.reconstruction(GREY + 1, GREY, out=out),
                 lambda: morphd.hmax(GREY, 0, out=out)):
        with pytest.raises(ValueError):
            call()
        assert out.tolist() == [[1, 2, 3]]


def test_want_of_memory(stood_in):
    stood_in.refusing = 50
    for call, told in (
        (lambda: morphd.fill_holes(GREY), "filled holes by .* of 1 x 3 samples up to 255"),
        (lambda: morphd.reconstruction(GREY, GREY), "reconstruction by dilation with .* of 1 x 3 samples up to 255 from 1 x 3"),
        (lambda: morphd.label(SET), "labels by .* of a set of 1 x 3"), (lambda: morphd.distance(SET), "distances of a set"),
        (lambda: morphd.area_opening(SET), "components of 64 pixels and more"), (lambda: morphd.hmax(GREY, 2), "h-maxima of 2"),
        (lambda: morphd.area_closing(GREY), "area closing of 64 pixels"), (lambda: morphd.local_minima(GREY), "regional minima"),
        (lambda: morphd.regions(SET), "regions by")):
        with pytest.raises(OutOfMemory, match=told):
            call()


def test_numbers_of_the_library_have_words():
    for number, word in ((53, "FRAME"), (54, "LEVELS"), (55, "ONE_WAY")):
        assert Refused(number).word == word and f"({number} {word})" in str(Refused(number, "x"))
