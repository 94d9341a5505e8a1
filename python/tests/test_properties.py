"""Laws of morphology, and results by pieces, on what hypothesis thinks of."""
import numpy as np
import pytest

pytest.importorskip("hypothesis")

from hypothesis import HealthCheck, given, settings  # noqa: E402
from hypothesis import strategies as some  # noqa: E402
from hypothesis.extra import numpy as arrays  # noqa: E402

import plain  # noqa: E402

import morphd  # noqa: E402
from morphd import _flood  # noqa: E402

SHAPES = arrays.array_shapes(min_dims=2, max_dims=2, max_side=9)
IMAGES = some.sampled_from([np.bool_, np.uint8, np.uint16]).flatmap(lambda dtype: arrays.arrays(dtype, SHAPES))
QUICK = settings(max_examples=60, deadline=None, suppress_health_check=list(HealthCheck))


@some.composite
def footprints(draw):
    bitmap = draw(arrays.arrays(np.bool_, arrays.array_shapes(min_dims=2, max_dims=2, max_side=4)))
    origin = draw(some.integers(0, bitmap.shape[0] - 1)), draw(some.integers(0, bitmap.shape[1] - 1))
    bitmap[draw(some.integers(0, bitmap.shape[0] - 1)), draw(some.integers(0, bitmap.shape[1] - 1))] = True
    return morphd.Footprint(bitmap, origin)


@QUICK
@given(IMAGES, footprints())
def test_openings_and_closings(image, b):
    opened, closed = morphd.opening(image, b), morphd.closing(image, b)
    assert (opened <= image).all() and (image <= closed).all()
    assert np.array_equal(morphd.opening(opened, b), opened) and np.array_equal(morphd.closing(closed, b), closed)


def axial(b):
    """The footprint with all that it has when its rows, or its columns, are turned round at the origin."""
    places = {(up * row, left * column) for row, column in b.offsets for up in (1, -1) for left in (1, -1)}
    far = [max(place[axis] for place in places) for axis in (0, 1)]
    bitmap = np.zeros([2 * most + 1 for most in far], bool)
    for row, column in places:
        bitmap[row + far[0], column + far[1]] = True
    return morphd.Footprint(bitmap)


def laws(image, b, **options):
    """Whether an opening is anti-extensive and idempotent, and whether a closing is extensive and idempotent."""
    opened, closed = morphd.opening(image, b, **options), morphd.closing(image, b, **options)
    return ((opened <= image).all(), np.array_equal(morphd.opening(opened, b, **options), opened),
            (image <= closed).all(), np.array_equal(morphd.closing(closed, b, **options), closed))


@QUICK
@given(IMAGES, footprints(), some.data())
def test_the_laws_of_openings_and_closings_in_each_mode(image, b, data):
    """As the docstrings of both claim them."""
    assert all(laws(image, b, mode="wrap"))
    for mode in ("reflect", "mirror"):
        assert all(laws(image, axial(b), mode=mode)), mode
    cval = data.draw(some.integers(0, 1 if image.dtype == bool else int(np.iinfo(image.dtype).max)))
    anti_extensive, opening, extensive, closing = laws(image, b, mode="constant", cval=cval)
    assert opening and closing
    assert anti_extensive or image.min() < cval
    assert extensive or image.max() > cval


# A mode, a law by its place in what `laws` gives, a footprint of one row with the column of its origin, and an image of one row.
BROKEN = [
    ("reflect", 0, "01", 0, [0, 9, 0]), ("reflect", 1, "0001", 0, [0, 0, 0, 9]), ("reflect", 2, "01", 0, [9, 0, 0]),
    ("reflect", 3, "0001", 0, [0, 0, 0, 9]),
    ("mirror", 0, "01", 0, [0, 0, 9]), ("mirror", 1, "011", 0, [9, 9, 0]), ("mirror", 2, "01", 0, [9, 0, 0]), ("mirror", 3, "011", 0, [0, 0, 9]),
    ("nearest", 0, "10001", 2, [9, 0, 9]), ("nearest", 1, "10001", 2, [0, 9, 0, 0, 9]), ("nearest", 2, "10001", 2, [0, 9, 0]),
    ("nearest", 3, "10001", 2, [0, 0, 9, 0, 9]), ("constant", 0, "11", 0, [0, 9, 0]), ("constant", 2, "11", 0, [9, 9, 9]),
]


@pytest.mark.parametrize("mode, law, row, column, image", BROKEN)
def test_where_the_laws_end(mode, law, row, column, image):
    """The docstrings claim no more than holds."""
    assert not laws(np.array([image], np.uint8), morphd.Footprint(row, (0, column)), mode=mode, cval=5)[law]


@QUICK
@given(IMAGES, footprints(), some.integers(1, 5))
def test_workers_change_nothing(image, b, workers):
    with pytest.MonkeyPatch.context() as small:
        small.setattr(morphd._pieces, "LEAST_ROWS", 1)
        for name in ("erosion", "closing", "gradient", "white_tophat"):
            function = getattr(morphd, name)
            assert np.array_equal(function(image, b, workers=workers), function(image, b))


@QUICK
@given(arrays.arrays(np.float32, SHAPES, elements=some.floats(-1e6, 1e6, width=32)), footprints(), some.floats(-1e6, 1e6, width=32))
def test_thresholds_commute_with_erosions_of_floats(image, b, k):
    held = morphd.Footprint(b.bitmap, b.origin)
    if not held.has_origin:
        return
    assert np.array_equal(morphd.threshold(morphd.erosion(image, held), k), morphd.erosion(morphd.threshold(image, k), held))


CODED = some.sampled_from(["i1", "i2", "i4", "i8", "u4", "u8", "f2", "f4", "f8"])
OF_CODED = CODED.flatmap(lambda dtype: arrays.arrays(dtype, SHAPES, elements=arrays.from_dtype(np.dtype(dtype), allow_nan=False)))


@QUICK
@given(OF_CODED, footprints(), some.sampled_from(["erosion", "dilation", "opening", "closing"]), some.integers(1, 3))
def test_other_types_are_their_places_in_order(image, b, name, workers):
    values, places = np.unique(image, return_inverse=True)
    made = plain.made(name, places.reshape(image.shape).astype(np.uint8), b, max(len(values) - 1, 1))
    with pytest.MonkeyPatch.context() as small:
        small.setattr(morphd._pieces, "LEAST_ROWS", 1)
        assert np.array_equal(getattr(morphd, name)(image, b, workers=workers), values[made.clip(0, len(values) - 1)])


@QUICK
@given(OF_CODED, some.data())
def test_thresholds_of_other_types_compare_numbers(image, data):
    k = data.draw(some.sampled_from(list(image.flat)))
    assert np.array_equal(morphd.threshold(image, k), image >= k)
    if image.dtype.kind in "iu":
        k = data.draw(some.one_of(some.integers(-(2**66), 2**66), some.floats(allow_nan=False), some.fractions()))
        assert morphd.threshold(image, k).tolist() == [[sample >= k for sample in row] for row in image.tolist()]


@QUICK
@given(IMAGES)
def test_pictures_are_read_again(image):
    picture = morphd.Picture.of_array(image)
    assert morphd.Picture.of_file(picture.file()) == picture
    assert np.array_equal(np.asarray(picture), image)


@QUICK
@given(some.binary(max_size=60))
def test_bytes_are_a_picture_or_refused(data):
    try:
        picture = morphd.Picture.of_file(b"P5" + data)
    except morphd.Refused as told:
        assert 20 <= told.number <= 26
    else:
        assert len(picture.samples) == picture.width * picture.height * (1 if picture.maxval < 256 else 2)


def floods(draw):
    """An image with markers, a mask and a connectivity."""
    image = draw(IMAGES)
    markers = draw(arrays.arrays(np.int64, image.shape, elements=some.sampled_from([0, 0, 0, 1, 2, 5]), fill=some.just(0)))
    return image, markers, draw(arrays.arrays(np.bool_, image.shape, fill=some.just(True))), draw(some.sampled_from([1, 2]))


FLOODS = some.composite(floods)()


@QUICK
@given(FLOODS, some.sampled_from([0, 2, 48]))
def test_watersheds_are_those_of_their_rule(flood, few):
    image, markers, mask, connectivity = flood
    b = (plain.reference_model.CROSS, plain.reference_model.SQUARE)[connectivity - 1]
    wanted = plain.reference_model.watershed(b, plain.image(image), markers.ravel().tolist(), mask.ravel().tolist())
    with pytest.MonkeyPatch.context() as small:
        small.setattr(_flood, "FEW", few)
        assert morphd.watershed(image, markers, connectivity, mask=mask).ravel().tolist() == wanted


@QUICK
@given(FLOODS)
def test_laws_of_watersheds(flood):
    """Markers keep their labels; a component of the mask is full where it has one, and else empty; basins hang together with them; only
    the order of levels counts; and a flood from its own result changes nothing."""
    image, markers, mask, connectivity = flood
    made = morphd.watershed(image, markers, connectivity, mask=mask)
    held = np.where(mask, markers, 0)
    assert np.array_equal(made[held > 0], held[held > 0]) and not made[~mask].any()
    parts, count = morphd.label(mask, connectivity, return_num=True)
    for part in range(1, count + 1):
        assert (made[parts == part] > 0).all() if held[parts == part].any() else not made[parts == part].any()
    for label in set(made.flat) - {0}:
        of_label = morphd.label(made == label, connectivity)
        assert set(of_label[made == label]) == set(of_label[held == label])
    assert np.array_equal(morphd.watershed(image.astype(np.float64) * 3 - 7, markers, connectivity, mask=mask), made)
    assert np.array_equal(morphd.watershed(image, made, connectivity, mask=mask), made)


@QUICK
@given(arrays.arrays(np.bool_, SHAPES), some.sampled_from([0, 0.3, 1, 2.5]), some.sampled_from([1, 2]))
def test_laws_of_split_grains(mask, h, connectivity):
    """Each pixel of the set has a number, grains are numbered by their first pixels, each lies in one component, and a greater fall joins."""
    made = morphd.split_grains(mask, h, connectivity)
    assert np.array_equal(made > 0, mask)
    assert list(dict.fromkeys(made[made > 0].tolist())) == list(range(1, made.max() + 1))
    parts = morphd.label(mask, connectivity)
    assert all(len(set(parts[made == label])) == 1 for label in range(1, made.max() + 1))
    assert morphd.split_grains(mask, 2 * h + 1, connectivity).max() <= made.max()
    assert np.array_equal(morphd.split_grains(mask, 10, connectivity), parts)
