"""Every function against the reference model, on each type, mode and odd shape."""
import cases
import numpy as np
import plain
import reference_model
import pytest

import morphd
from morphd import Footprint, OutOfMemory, Refused

MODES = ("reflect", "mirror", "nearest", "wrap", "constant")


def same(made, wanted, *what):
    assert made.dtype == wanted.dtype, what
    np.testing.assert_array_equal(made, wanted, str(what))


def all_cases(seed, **options):
    rng = np.random.default_rng(seed)
    for dtype in cases.TYPES:
        for shape in cases.SHAPES:
            yield cases.image(rng, shape, dtype), cases.footprint(rng, **options)


@pytest.mark.parametrize("name", plain.FLAT)
def test_flat_operators(name):
    for image, b in all_cases(1):
        same(getattr(morphd, name)(image, b), plain.made(name, image, b), name, image, b)


@pytest.mark.parametrize("mode", MODES)
@pytest.mark.parametrize("name", plain.FLAT)
def test_flat_operators_with_a_rim(name, mode):
    for image, b in all_cases(2, longest=3):
        cval = int(image.max())
        same(getattr(morphd, name)(image, b, mode=mode, cval=cval), plain.made_with_rim(name, image, b, mode, cval), name, mode, image, b)


def test_footprints_that_see_nothing():
    far = Footprint([[1, 0, 0, 0, 0]], (0, 4))
    image = np.array([[5, 6, 7]], np.uint8)
    same(morphd.erosion(image, far), np.full((1, 3), 255, np.uint8))
    same(morphd.erosion(image, far, maxval=9), np.full((1, 3), 9, np.uint8))
    same(morphd.dilation(image, far), np.zeros((1, 3), np.uint8))


def test_ranks():
    for image, b in all_cases(3, with_origin=True):
        for k in {1, (b.count + 1) // 2, b.count}:
            same(morphd.rank(image, k, b, mode="ignore"), plain.rank(image, k, b), k, image, b)


@pytest.mark.parametrize("mode", MODES)
def test_ranks_with_a_rim_around_any_footprint(mode):
    for image, b in all_cases(4, longest=3):
        k = (b.count + 1) // 2
        same(morphd.rank(image, k, b, mode=mode, cval=1), plain.rank(image, k, b, mode, 1), k, mode, image, b)


def test_ranks_reflect_unless_they_are_told():
    for image, b in all_cases(5, longest=3):
        same(morphd.rank(image, 1, b), plain.rank(image, 1, b, "reflect"), image, b)
        same(morphd.median(image, b), plain.rank(image, b.count // 2 + 1, b, "reflect"), image, b)
        same(morphd.percentile(image, 30, b), plain.rank(image, int(b.count * 0.3) + 1, b, "reflect"), image, b)
        same(morphd.percentile(image, 100, b), plain.rank(image, b.count, b, "reflect"), image, b)


def test_the_middle_of_fewer_samples_is_no_median():
    image = np.array([[1, 2, 3], [4, 5, 6], [7, 8, 9]], np.uint8)
    assert morphd.median(image, morphd.square(3), mode="ignore")[0, 0] == 5
    assert morphd.median(image, morphd.square(3))[0, 0] == 2


def test_thresholds():
    for image, _ in all_cases(6):
        for k in (0, 1, 3, 255, 65535):
            same(morphd.threshold(image, k), plain.array(reference_model.set_where(plain.image(image), lambda s: s >= k), bool), k, image)
    same(morphd.threshold(np.array([[3, 4]], np.uint8), 3.5), np.array([[False, True]]))


def test_hit_or_miss():
    rng = np.random.default_rng(7)
    for image, hit in all_cases(7):
        bitmap = ~hit.bitmap & (rng.random(hit.shape) < 0.7)
        if not bitmap.any():
            continue
        miss = Footprint(bitmap, hit.origin)
        sides = [[(column, row) for row, column in b.offsets] for b in (hit, miss)]
        wanted = plain.array(reference_model.OPERATIONS["HITMISS"][2](plain.image(image), *sides), image.dtype)
        same(morphd.hit_or_miss(image, hit, miss), wanted, image, hit, miss)


def test_a_miss_that_is_left_out_is_the_rest_of_the_bitmap():
    corner = Footprint([[0, 0, 0], [0, 1, 1], [0, 1, 1]])
    image = np.zeros((6, 6), bool)
    image[2:5, 2:5] = True
    found = morphd.hit_or_miss(image, corner)
    assert np.argwhere(found).tolist() == [[2, 2]]
    same(found, morphd.hit_or_miss(image, corner, ~corner.bitmap))


def test_skeletons_and_what_they_restore():
    for image, b in all_cases(8, longest=3, with_origin=True):
        if image.dtype != bool:
            continue
        for levels in (1, 3):
            turned = [(column, row) for row, column in b.offsets]
            marks = morphd.skeleton(image, b, levels)
            same(marks, plain.array(reference_model.skeleton(plain.image(image), turned, levels), np.uint8), levels, image, b)
            wanted = reference_model.restoration(plain.image(marks), turned, levels)
            same(morphd.restored(marks, b, levels), plain.array(wanted, bool), levels, image, b)
            same(morphd.restored(marks.astype(np.uint16), b, levels), plain.array(wanted, bool), levels, image, b)


def test_a_skeleton_restores_its_set():
    image = morphd.erosion(np.random.default_rng(9).random((12, 14)) < 0.95, morphd.square(2))
    same(morphd.restored(morphd.skeleton(image, morphd.diamond(1), 9), morphd.diamond(1), 9), image)


REFUSED = [
    (47, lambda image: morphd.rank(image, 0, [[1, 1]])),
    (47, lambda image: morphd.rank(image, 3, [[1, 1]])),
    (47, lambda image: morphd.rank(image, -1, [[1, 1]])),
    (45, lambda image: morphd.rank(image, 1, [[1, 0]], mode="ignore")),
    (46, lambda image: morphd.hit_or_miss(image, [[1, 1]], [[0, 1]])),
    (32, lambda image: morphd.hit_or_miss(image, [[1, 1]])),
    (44, lambda image: morphd.skeleton(image, [[1]], 1)),
    (45, lambda image: morphd.skeleton(image > 0, [[1, 0]], 1)),
    (47, lambda image: morphd.skeleton(image > 0, [[1]], 255)),
    (47, lambda image: morphd.restored(image, [[1]], 0)),
    (25, lambda image: morphd.erosion(image, [[1]], maxval=6)),
    (25, lambda image: morphd.erosion(image.astype(np.uint16), [[1]], maxval=6)),
    (23, lambda image: morphd.erosion(image, [[1]], maxval=256)),
    (23, lambda image: morphd.erosion(image, [[1]], maxval=0)),
    (31, lambda image: morphd.erosion(image, Footprint([[1]], (1, 0)))),
    (22, lambda image: morphd.erosion(image, np.ones((1, 256)))),
]


@pytest.mark.parametrize("number, call", REFUSED)
def test_refusals(number, call):
    with pytest.raises(Refused) as told:
        call(np.array([[7, 3, 5]], np.uint8))
    assert told.value.number == number
    assert told.value.asked


def test_a_refusal_leaves_out_as_it_was():
    image, out = np.array([[7, 3]], np.uint8), np.array([[1, 2]], np.uint8)
    with pytest.raises(Refused):
        morphd.rank(image, 5, [[1]], out=out, mode="ignore")
    assert out.tolist() == [[1, 2]]


def test_want_of_memory(stood_in):
    stood_in.refusing = 50
    with pytest.raises(OutOfMemory, match="erosion by .* of 1 x 2 samples up to 255"):
        morphd.erosion(np.array([[7, 3]], np.uint8), [[1]])


@pytest.mark.parametrize("call", [
    lambda image: morphd.erosion(image, [[1]], mode="mirrored"),
    lambda image: morphd.erosion(image, [[1]], compat="matlab"),
    lambda image: morphd.erosion(image, [[1]], mode="constant", cval=-1),
    lambda image: morphd.erosion(image, [[1]], mode="constant", cval=256),
    lambda image: morphd.erosion(image, [[1]], mode="constant", cval=1.5),
    lambda image: morphd.erosion(image, [[1]], workers=0),
    lambda image: morphd.percentile(image, 101, [[1]]),
    lambda image: morphd.erosion(image, [[1], [1, 1]]),
    lambda image: morphd.rank(image, 1, [[1]], compat="opencv"),
    lambda image: morphd.hit_or_miss(image, [[1]], compat="skimage"),
])
def test_wrong_arguments(call):
    with pytest.raises(ValueError):
        call(np.array([[7, 3]], np.uint8))


def test_one_call_of_the_library_where_nothing_else_is_asked_for(stood_in):
    """What is proved is the library's result, so it is not put together of others."""
    import stand_in

    for name in plain.FLAT:
        stand_in.calls.clear()
        getattr(morphd, name)(np.ones((3, 3), np.uint8), Footprint([[1, 1, 0]]))
        assert stand_in.calls == {"morphd_flat_u8": 1}, name
