"""Types, strides, orders of bytes, `out`, `axes` and `maxval`."""
from decimal import Decimal
from fractions import Fraction

import cases
import numpy as np
import plain
import pytest

import morphd
from morphd import Refused

L = morphd.Footprint([[1, 0], [1, 1]], (0, 1))
COMPARING = ("erosion", "dilation", "opening", "closing", "rank", "median", "percentile", "threshold")


def random_bytes(shape=(6, 9), seed=1):
    return np.random.default_rng(seed).integers(0, 256, shape).astype(np.uint8)


def call(name, image, **options):
    before = {"rank": [2], "percentile": [40], "threshold": []}.get(name, [])
    behind = [image.flat[5]] if name == "threshold" else [L]
    return getattr(morphd, name)(image, *before, *behind, **options)


@pytest.mark.parametrize("dtype", ["i1", "i2", "i4", "i8", "u4", "u8", "f2", "f4", "f8", ">i4", ">f8"])
@pytest.mark.parametrize("name", COMPARING)
def test_ordered_levels(name, dtype):
    """What only compares samples makes the same of their places in order."""
    ranks = random_bytes() // 4
    ranks[3, 4] = 0
    values = np.sort(np.random.default_rng(2).choice(100, 64, replace=False))
    values = (values - (0 if np.dtype(dtype).kind == "u" else 50)).astype(dtype)
    made, wanted = call(name, values[ranks]), call(name, ranks, maxval=int(ranks.max()))
    if name == "threshold":
        np.testing.assert_array_equal(made, wanted)
        return
    assert made.dtype == np.dtype(dtype)
    np.testing.assert_array_equal(made, values[wanted])


def test_values_that_are_far_apart():
    values = np.array([-(2**63), -5, 0, 7, 2**63 - 1])
    image = values[random_bytes() % 5]
    np.testing.assert_array_equal(morphd.erosion(image, L), values[morphd.erosion(random_bytes() % 5, L, maxval=4)])
    huge = np.array([2**64 - 1, 2**64 - 5], np.uint64)[random_bytes() % 2]
    np.testing.assert_array_equal(morphd.dilation(huge, [[1]]), huge)
    np.testing.assert_array_equal(morphd.threshold(huge, 2**64 - 3), huge == 2**64 - 1)


INTEGERS = ("i1", "i2", "i4", "i8", "u1", "u2", "u4", "u8", ">i8", ">u8")
NUMBERS = (0, 2, 2.5, np.float32(0.1), -1, -0.5, -3.0, 2.0**53, 2**53 + 1, 2.0**60, 2**60 + 1, np.int64(2**60 + 1), np.uint64(2**60 + 1),
           np.uint64(2**63 + 1), 2.0**63, 2.0**64, np.longdouble(2) ** 63 + 1, 10**30, -(10**30), np.True_, np.array(3),
           Fraction(5, 2), Decimal("2.5"))


def integers(dtype, is_far_apart):
    """Values near one another at an end of a type, or at both of them, where floats have no place for each."""
    limits = np.iinfo(dtype)
    near = [int(limits.max) - each for each in (0, 1, 2)]
    if not is_far_apart:
        return near
    return [int(limits.min), int(limits.min) + 1, *near, *(each for each in (0, 2, 3, 2**53 + 1, 2**60, 2**60 + 1) if each < limits.max)]


@pytest.mark.parametrize("is_far_apart", [True, False])
@pytest.mark.parametrize("dtype", INTEGERS)
def test_thresholds_of_integers_are_exact(dtype, is_far_apart):
    held = integers(dtype, is_far_apart)
    image, ends = np.array([held], dtype), [float("inf"), -float("inf")]
    for k in [*NUMBERS, *held, *map(float, held), *(image.flat[at] for at in range(len(held))), *ends]:
        exact = k if k in ends else Fraction(*np.asarray(k).item().as_integer_ratio())
        assert morphd.threshold(image, k).tolist() == [[each >= exact for each in held]], k


@pytest.mark.parametrize("dtype", ["f2", "f4", "f8", "g", ">f4"])
def test_thresholds_of_floats_are_those_of_numpy(dtype):
    dtype, limits = np.dtype(dtype), np.finfo(dtype)
    held = np.array([[0.1, 0.7, -0.7, 0, 2.5, limits.max, limits.min, limits.tiny, np.inf, -np.inf, 1000.1]], dtype)
    near = [] if dtype == "f2" else [*np.nextafter(held[:, :5], dtype.type(1)).flat, *np.nextafter(held[:, :5], dtype.type(-1)).flat]
    others = (0.7, 0.1, 1000.1, -0.7, np.float64(0.7), np.float32(0.7), np.float16(0.7), 65519.0, 70000.0, 1e39, np.array(0.7), 3, 2**60)
    for k in (*held.flat, *near, *others, np.inf, -np.inf):
        np.testing.assert_array_equal(morphd.threshold(held, k), held >= k, str(k))


@pytest.mark.parametrize("dtype", INTEGERS)
def test_a_constant_outside_integers_is_exact(dtype):
    for is_far_apart in (True, False):
        held = integers(dtype, is_far_apart)
        image = np.array([held], dtype)
        for cval in (*held, held[0] - 1, held[0] + 1, *(image.flat[at] for at in range(len(held))), *(float(each) for each in held)):
            if not np.iinfo(dtype).min <= int(cval) <= np.iinfo(dtype).max:
                with pytest.raises(ValueError, match="cval"):
                    morphd.erosion(image, [[1, 1, 1]], mode="constant", cval=cval)
                continue
            row = [int(cval), *held, int(cval)]
            for name, best in (("erosion", min), ("dilation", max)):
                wanted = [[best(row[at : at + 3]) for at in range(len(held))]]
                assert getattr(morphd, name)(image, [[1, 1, 1]], mode="constant", cval=cval).tolist() == wanted, (name, cval)


@pytest.mark.parametrize("dtype", ["f2", "f4", "f8", "g", ">f8"])
def test_a_constant_outside_floats_is_rounded_once(dtype):
    """It has the level of the value that is written, also where it lies between two or over all of the image's values."""
    image = np.array([[0.2, 0.2, 0.2, 0.2, 0.9]], dtype)
    third = np.longdouble(1) / 3
    for cval in (0.7, 0.2, 0.9, 0.95, 0.1, third, -5, 2**11 + 1, np.float32(0.7), np.inf, -np.inf, Fraction(1, 3), Decimal("0.7")):
        value = np.array(cval).astype(dtype)
        padded = np.pad(image, 1, constant_values=value)[1:-1]
        for name, best in (("erosion", np.minimum), ("dilation", np.maximum)):
            wanted = best(best(padded[:, :-2], padded[:, 1:-1]), padded[:, 2:])
            np.testing.assert_array_equal(getattr(morphd, name)(image, [[1, 1, 1]], mode="constant", cval=cval), wanted, str(cval))


def test_a_constant_outside_beside_as_many_values_as_a_byte_has():
    image = (np.arange(255) / 256).astype(np.float32).reshape(15, 17)
    for cval in (0.7, 2.3, -0.1, float(image[3, 4])):
        for name, best in (("erosion", np.minimum), ("dilation", np.maximum)):
            made = getattr(morphd, name)(image, [[1, 1, 1]], mode="constant", cval=cval)
            padded = np.pad(image, 1, constant_values=np.float32(cval))[1:-1]
            np.testing.assert_array_equal(made, best(best(padded[:, :-2], padded[:, 1:-1]), padded[:, 2:]))


def test_a_constant_outside_beside_scipy():
    ndimage = pytest.importorskip("scipy.ndimage")
    rng = np.random.default_rng(21)
    for number in range(300):
        dtype = (np.float32, np.float64, np.int32, np.uint16)[number % 4]
        image = (rng.integers(0, 12, rng.integers(1, 9, 2)) / (10 if dtype in (np.float32, np.float64) else 1)).astype(dtype)
        cval = int(rng.integers(13)) / (10 if dtype in (np.float32, np.float64) else 1)
        for name in ("erosion", "dilation"):
            wanted = getattr(ndimage, f"grey_{name}")(image, footprint=np.ones((3, 3)), mode="constant", cval=cval)
            made = getattr(morphd, name)(image, np.ones((3, 3)), mode="constant", cval=cval, compat="scipy")
            np.testing.assert_array_equal(made, wanted, f"{name} {dtype} {cval}")


def test_infinities_have_a_place():
    image = np.array([[-np.inf, 0.5, np.inf]])
    assert morphd.erosion(image, [[1, 1, 1]]).tolist() == [[-np.inf, -np.inf, 0.5]]
    assert morphd.threshold(image, np.inf).tolist() == [[False, False, True]]


def test_where_nothing_is_seen_the_greatest_value_stands():
    far = morphd.Footprint([[1, 0, 0]], (0, 2))
    assert morphd.erosion(np.array([[2.5, 7.5]]), far).tolist() == [[7.5, 7.5]]
    assert morphd.dilation(np.array([[2.5, 7.5]]), far).tolist() == [[2.5, 2.5]]
    planes = np.array([[[2.5, 7.5]], [[1.0, 1.0]], [[-9.0, 3.0]]])
    assert morphd.erosion(planes, far, axes=(1, 2)).tolist() == [[[7.5, 7.5]], [[1, 1]], [[3, 3]]]


@pytest.mark.parametrize("dtype", ["i1", "i2", "i4", "i8", "u4", "u8", "f2", "f4", "f8", "g", ">i4", ">f8"])
def test_a_single_value_is_all_there_is(dtype):
    kind = np.dtype(dtype).kind
    ends = [np.finfo(dtype).max, -np.inf] if kind == "f" else [np.iinfo(dtype).max, np.iinfo(dtype).min]
    for value in (*ends, 7):
        image = np.full((2, 3), value, dtype)
        for b in (morphd.Footprint([[1, 0]], (0, 1)), morphd.Footprint([[1, 0, 0, 0, 0]], (0, 4)), L):
            for name in ("erosion", "dilation", "opening", "closing"):
                made = getattr(morphd, name)(image, b)
                assert made.dtype == image.dtype and (made == image).all(), (name, value, b)
            assert (morphd.median(image, b) == image).all()
        assert morphd.threshold(image, value).all()
    assert not morphd.threshold(np.full((2, 3), 7, dtype), 7.5).any()


def test_a_constant_outside_has_a_level():
    image = np.array([[2.5, 7.5, 3.0]])
    assert morphd.erosion(image, [[1, 1, 1]], mode="constant", cval=-1.25).tolist() == [[-1.25, 2.5, -1.25]]
    assert morphd.dilation(image.astype(int), [[1, 1, 1]], mode="constant", cval=100000).tolist() == [[100000, 7, 100000]]


@pytest.mark.parametrize("dtype, cval", [
    ("i1", 300), ("i4", 1.5), ("u4", -1), ("f4", float("nan")), ("i8", 2.0**63), ("u8", 2**64), ("u8", float("nan")), ("i8", float("inf")),
    ("u1", 256), ("u1", 2.5), ("u2", float("inf")), ("?", 2), ("f2", 70000), ("f2", 65520.0), ("f4", 1e39), ("f4", 10**400),
    ("f8", 10**400)])
def test_a_constant_outside_is_of_the_images_type(dtype, cval):
    image = np.array([[1, 1]], dtype)
    with pytest.raises(ValueError, match="cval is a sample of the image's type"):
        morphd.erosion(image, [[1]], mode="constant", cval=cval)
    assert morphd.erosion(image, [[1]], cval=cval).tolist() == image.tolist()
    assert morphd.erosion(image, [[1, 1]], mode="constant", cval=0).tolist() == [[0, 1]]


@pytest.mark.parametrize("cval", [None, "3", 1j, [1]])
def test_a_constant_outside_is_a_number(cval):
    for dtype in ("?", "u1", "u2", "i4", "f8"):
        with pytest.raises(TypeError, match="cval is a number"):
            morphd.erosion(np.array([[1, 0]], dtype), [[1]], mode="constant", cval=cval)


def test_a_constant_outside_is_up_to_the_maxval():
    image = np.array([[3, 4]], np.uint8)
    assert morphd.dilation(image, [[1, 1, 1]], mode="constant", cval=9, maxval=9).tolist() == [[9, 9]]
    with pytest.raises(ValueError, match="from 0 to 9"):
        morphd.dilation(image, [[1, 1, 1]], mode="constant", cval=10, maxval=9)


WHOLE = [
    ("maxval", lambda number: morphd.erosion(np.array([[3, 4]], np.uint8), [[1, 0]], maxval=number)),
    ("k", lambda number: morphd.rank(np.array([[3, 4]], np.uint8), number, np.ones((3, 4)))),
    ("levels", lambda number: morphd.skeleton(np.ones((5, 5), bool), morphd.square(3), number)),
    ("levels", lambda number: morphd.restored(np.ones((5, 5), np.uint8), morphd.square(3), number)),
    ("sizes", lambda number: morphd.spectrum(np.ones((5, 5), bool), morphd.square(3), number).volumes),
    ("workers", lambda number: morphd.erosion(np.array([[3, 4]], np.uint8), [[1]], workers=number)),
]


@pytest.mark.parametrize("name, call", WHOLE)
def test_counts_are_whole_numbers(name, call):
    for number in (9.9, 9.0, np.float64(9), np.float32(9.5), float("inf"), float("nan"), "9", 9j, [9], Fraction(9), np.array(9.0)):
        with pytest.raises(TypeError, match=f"{name} is a whole number"):
            call(number)
    for number in (np.uint8(9), np.int64(9), np.array(9)):
        np.testing.assert_array_equal(call(number), call(9))


@pytest.mark.parametrize("dtype", ["?", "u1", "u2", "i4", "f4"])
def test_thresholds_beyond_all_samples(dtype):
    image = np.array([[0, 1, 1]], dtype)
    for k in (-5, -0.5, -1e300, -float("inf"), -(10**400)):
        assert morphd.threshold(image, k).tolist() == [[True, True, True]], k
    for k in (2, 256, 65536, 70000.5, 1e300, float("inf"), 10**400):
        assert morphd.threshold(image, k).tolist() == [[False, False, False]], k
    planes, out = np.stack([image, image]), np.zeros((2, 1, 3), bool)
    assert morphd.threshold(planes, -5, axes=(1, 2), out=out) is out and out.all()


def test_thresholds_between_values():
    image = np.array([[-3, 0, 2]])
    assert morphd.threshold(image, -2.5).tolist() == [[False, True, True]]
    assert morphd.threshold(image, -100).tolist() == [[True, True, True]]
    assert not morphd.threshold(image, 10**400).any() and morphd.threshold(image, -(10**400)).all()
    assert morphd.threshold(image, 2.5).tolist() == [[False, False, False]]
    assert morphd.threshold(image / 2, 0.25).tolist() == [[False, False, True]]


def test_all_of_65536_values_and_one_more():
    values = np.linspace(-1, 1, 65536).reshape(1, -1)[:, ::7][:, :8192]
    np.testing.assert_array_equal(morphd.erosion(values, [[1]]), values)
    level = 2 * np.arange(65536).reshape(256, 256) + 2**40
    assert not morphd.threshold(level.astype(float), 1e30).any()
    assert morphd.threshold(level.astype(float), level[100, 100]).sum() == 65536 - 25700
    with pytest.raises(TypeError, match="up to 65536 values, and this has 65537"):
        morphd.erosion(np.arange(65537.0).reshape(1, -1), [[1]])


@pytest.mark.parametrize("name", ["gradient", "white_tophat", "black_tophat", "hit_or_miss"])
def test_what_computes_takes_no_ordered_levels(name):
    with pytest.raises(TypeError, match="order of samples alone"):
        getattr(morphd, name)(np.array([[1.5, 2.5]]), [[1, 0]])


@pytest.mark.parametrize("image", [np.array([["a"]]), np.array([[1j]]), np.array([[None]]), np.array([["2020-01-01"]], "M8[D]")])
def test_types_without_an_order(image):
    with pytest.raises(TypeError):
        morphd.erosion(image, [[1]])


def test_nan_and_masks_are_refused():
    with pytest.raises(ValueError, match="NaN"):
        morphd.erosion(np.array([[1.0, np.nan]]), [[1]])
    with pytest.raises(ValueError, match="NaN"):
        morphd.threshold(np.array([[1.0, 2.0]]), np.nan)
    with pytest.raises(TypeError, match="masked"):
        morphd.erosion(np.ma.masked_equal([[1, 2]], 2), [[1]])


def arrangements(image):
    """Samples that are alike, in memory of many kinds."""
    rows, columns = image.shape
    wide = np.zeros((2 * rows, 3 * columns), image.dtype)
    wide[::2, ::3] = image
    frozen = image.copy()
    frozen.flags.writeable = False
    shifted = np.zeros(image.nbytes + 1, np.uint8)[1:].view(image.dtype).reshape(image.shape)
    shifted[...] = image
    return {"steps": wide[::2, ::3], "columns first": np.asfortranarray(image), "turned": image[::-1, ::-1].copy()[::-1, ::-1],
            "read-only": frozen, "unaligned": shifted,
            "other order of bytes": image.astype(image.dtype.newbyteorder()), "list": image.tolist()}


@pytest.mark.parametrize("dtype", cases.TYPES)
def test_strides_and_orders_of_bytes(dtype):
    image = cases.image(np.random.default_rng(3), (7, 5), dtype)
    wanted = plain.made("opening", image, L)
    for name, given in arrangements(image).items():
        made = morphd.opening(given, L)
        assert made.dtype == (np.asarray(given).dtype), name
        if name != "list":
            np.testing.assert_array_equal(made, wanted, name)


@pytest.mark.parametrize("name", ["erosion", "opening", "white_tophat", "median"])
@pytest.mark.parametrize("dtype", [*cases.TYPES, np.int32, ">u2"])
def test_out(name, dtype, stood_in):
    if name == "white_tophat" and dtype == np.int32:
        pytest.skip("top-hats take no int32")
    image = cases.image(np.random.default_rng(4), (8, 6), np.uint16 if dtype in (np.int32, ">u2") else dtype).astype(dtype)
    wanted = getattr(morphd, name)(image, L)
    outs = {"new": np.empty_like(image), "steps": np.zeros((16, 12), dtype)[::2, ::2], "columns first": np.zeros((8, 6), dtype, "F")}
    for kind, out in outs.items():
        assert getattr(morphd, name)(image, L, out=out) is out, kind
        np.testing.assert_array_equal(out, wanted, kind)
    assert getattr(morphd, name)(image, L, out=image) is image
    np.testing.assert_array_equal(image, wanted)


def test_out_that_lies_over_the_image(stood_in):
    """The stand-in sees arrays that lie over one another, which the library's own calls must not be given."""
    held = random_bytes((9, 6))
    wanted = morphd.erosion(held[:8], L)
    morphd.erosion(held[:8], L, out=held[1:])
    np.testing.assert_array_equal(held[1:], wanted)


def test_out_of_another_type():
    image, out = random_bytes(), np.zeros((6, 9), bool)
    assert morphd.threshold(image, 100, out=out) is out
    np.testing.assert_array_equal(out, image >= 100)
    for wrong in (np.zeros((6, 9), np.uint16), np.zeros((9, 6), np.uint8)):
        with pytest.raises(ValueError, match="out is an array of uint8"):
            morphd.erosion(image, L, out=wrong)
    with pytest.raises(TypeError):
        morphd.erosion(image, L, out=[[0] * 9] * 6)
    out = np.zeros((6, 9), np.uint8)
    out.flags.writeable = False
    with pytest.raises(ValueError, match="read-only"):
        morphd.erosion(image, L, out=out)


@pytest.mark.parametrize("axes", [(0, 1), (1, 2), (0, 2), (2, 0), (-2, -1)])
def test_planes(axes):
    image = random_bytes((4, 5, 3))
    other = ({0, 1, 2} - {axis % 3 for axis in axes}).pop()
    made = morphd.opening(image, L, axes=axes)
    assert made.shape == image.shape
    for at in range(image.shape[other]):
        plane, result = (held.take(at, other) for held in (image, made))
        turned = axes[0] % 3 > axes[1] % 3
        wanted = morphd.opening(plane.T, L).T if turned else morphd.opening(plane, L)
        np.testing.assert_array_equal(result, wanted)
    out = np.empty_like(image)
    assert morphd.opening(image, L, axes=axes, out=out) is out
    np.testing.assert_array_equal(out, made)
    morphd.opening(image, L, axes=axes, out=image)
    np.testing.assert_array_equal(image, made)


@pytest.mark.parametrize("shift", [1, 2, -1, -2])
@pytest.mark.parametrize("dtype", [np.uint8, np.int32])
def test_out_that_is_shifted_across_planes(dtype, shift):
    """The result of one plane lies where a later one is read, unless all are kept before."""
    held = random_bytes((7, 5, 4)).astype(dtype)
    image, out = (held[:5], held[shift : shift + 5]) if shift > 0 else (held[2:], held[2 + shift : 7 + shift])
    wanted = np.stack([morphd.dilation(plane, L) for plane in image])
    assert np.may_share_memory(image, out)
    assert morphd.dilation(image, L, axes=(1, 2), out=out) is out
    np.testing.assert_array_equal(out, wanted)


def stack(planes, dtype):
    return np.array(planes, dtype)


REFUSED_LATER = [
    (lambda planes, out: morphd.erosion(planes, L, axes=(1, 2), maxval=8, out=out), stack([[[1, 2]], [[9, 3]]], np.uint8)),
    (lambda planes, out: morphd.erosion(planes, L, axes=(1, 2), maxval=400, out=out), stack([[[1, 2]], [[401, 3]]], np.uint16)),
    (lambda planes, out: morphd.white_tophat(planes, L, axes=(1, 2), maxval=8, out=out), stack([[[1, 2]], [[9, 3]]], np.uint16)),
    (lambda planes, out: morphd.median(planes, L, axes=(1, 2), maxval=8, out=out), stack([[[1, 2]], [[9, 3]]], np.uint8)),
    (lambda planes, out: morphd.erosion(planes, L, axes=(1, 2), out=out), stack([[[1, 2]], [[np.nan, 3]]], float)),
    (lambda planes, out: morphd.erosion(planes, L, axes=(1, 2), out=out),
     stack([np.zeros((257, 256)), np.arange(257.0 * 256).reshape(257, 256)], np.float32)),
]


@pytest.mark.parametrize("workers", [1, 2])
@pytest.mark.parametrize("call, planes", REFUSED_LATER)
def test_a_later_plane_that_is_refused_leaves_out_as_it_was(monkeypatch, call, planes, workers):
    monkeypatch.setattr(morphd._pieces, "LEAST_ROWS", 1)
    planes, before, out = planes.copy(), planes, np.full_like(planes, 77)
    for given in (out, planes):
        with pytest.raises((ValueError, TypeError)):
            call(planes, given)
        assert (out == 77).all()
        np.testing.assert_array_equal(planes, before)
    planes[1] = planes[0]
    assert call(planes, out) is out
    assert not (out == 77).any()


@pytest.mark.parametrize("workers", [1, 2, -1])
@pytest.mark.parametrize("shape", [(0, 3), (40, 0), (0, 0), (0, 20000), (20000, 0)])
@pytest.mark.parametrize("dtype", ["?", "u1", ">u2", "i4", "f4"])
def test_arrays_without_samples_give_empty_ones(dtype, shape, workers):
    image = np.zeros(shape, dtype)
    for mode in (None, "ignore", "reflect", "constant"):
        for maxval in (None, 9, 500)[: {"u1": 2, ">u2": 3}.get(dtype, 1)]:
            for out in (None, np.zeros_like(image)):
                made = morphd.erosion(image, [[1], [1], [1]], mode=mode, maxval=maxval, workers=workers, out=out)
                assert made.shape == shape and made.dtype == image.dtype and (out is None or made is out)
    assert morphd.threshold(image, 1, workers=workers).dtype == bool
    assert morphd.erosion(np.zeros((0, 4, 5), dtype), [[1]], axes=(1, 2), workers=workers).shape == (0, 4, 5)
    planes = np.zeros((2, *shape), dtype)
    assert morphd.median(planes, [[1]], axes=(1, 2), workers=workers, out=planes) is planes


def test_what_is_made_of_nothing_has_the_type_of_the_result():
    sets, levels = np.zeros((0, 3), bool), np.zeros((3, 0), np.uint16)
    assert morphd.skeleton(sets, [[1]], 3).dtype == np.uint8 and morphd.restored(levels, [[1]], 3).dtype == bool
    for image in (sets, levels):
        assert morphd.hit_or_miss(image, [[1, 0]]).dtype == image.dtype and morphd.rank(image, 1, [[1]]).shape == image.shape


@pytest.mark.parametrize("call", [
    lambda image: morphd.rank(image, 3, [[1, 1]]), lambda image: morphd.rank(image, 1, [[1, 0]], mode="ignore"),
    lambda image: morphd.skeleton(image, [[1]], 3), lambda image: morphd.erosion(image, [[1]], maxval=256),
    lambda image: morphd.erosion(image, [[1]], mode="constant", cval=256), lambda image: morphd.erosion(image, [[1]], mode="mirrored"),
    lambda image: morphd.erosion(image, [[1]], axes=(0, 2)), lambda image: morphd.erosion(image, [[1]], out=np.zeros((3, 0), np.uint8)),
    lambda image: morphd.erosion(image, [[1]], compat="matlab"), lambda image: morphd.hit_or_miss(image, [[1]], [[1]])])
def test_arguments_are_checked_where_there_is_no_sample(call):
    with pytest.raises(ValueError):
        call(np.zeros((0, 3), np.uint8))


def test_planes_of_two_axes_and_of_none():
    image = random_bytes()
    np.testing.assert_array_equal(morphd.erosion(image, L, axes=(1, 0)), morphd.erosion(image.T, L).T)
    assert morphd.threshold(random_bytes((2, 3, 4)), 9, axes=(1, 2)).dtype == bool
    for wrong in ((0, 0), (0, 3), (0, -3)):
        with pytest.raises(ValueError, match="axes"):
            morphd.erosion(random_bytes((2, 3, 4)), L, axes=wrong)
    for image in (random_bytes((5,)), random_bytes((2, 3, 4)), np.uint8(3)):
        with pytest.raises(ValueError, match="axes"):
            morphd.erosion(image, L)


def test_a_camera_of_12_bits():
    image = np.random.default_rng(5).integers(0, 4096, (6, 7)).astype(np.uint16)
    far = morphd.Footprint([[1, 0, 0]], (0, 2))
    np.testing.assert_array_equal(morphd.erosion(image, far, maxval=4095), plain.made("erosion", image, far, 4095))
    assert morphd.erosion(image, far, maxval=4095)[0, 0] == 4095
    few = (image % 100).astype(np.uint16)
    np.testing.assert_array_equal(morphd.black_tophat(few, far, maxval=99), plain.made("black_tophat", few, far, 99))
    assert morphd.erosion(few, far, maxval=99).dtype == np.uint16
    # the second one's low byte is no more than the maxval
    for over, maxval in ((image, 100), (np.array([[259, 3]], np.uint16), 9), (np.array([[7, 3]], np.uint16), 6)):
        with pytest.raises(Refused, match="25 SAMPLE"):
            morphd.erosion(over, far, maxval=maxval)
    with pytest.raises(TypeError, match="maxval"):
        morphd.erosion(image.astype(float), far, maxval=4095)


def test_bytes_of_bool_that_are_neither_0_nor_1():
    for others in ([0, 2, 255], [0, 2, 2]):
        image = np.array([others], np.uint8).view(bool)
        assert morphd.erosion(image, [[1]]).view(np.uint8).tolist() == [[0, 1, 1]]
        assert morphd.threshold(image, 1).view(np.uint8).tolist() == [[0, 1, 1]]


CORNER = morphd.Footprint([[1, 0], [1, 1]], (1, 0))
SETS = {
    **{name: lambda image, name=name, **options: getattr(morphd, name)(image, CORNER, **options) for name in (*plain.FLAT, "median")},
    "rank": lambda image, **options: morphd.rank(image, 2, CORNER, **options),
    "hit_or_miss": lambda image, **options: morphd.hit_or_miss(image, [[1, 0]], [[0, 1]], **options),
}


@pytest.mark.parametrize("name", SETS)
def test_bytes_of_bool_are_not_computed_with(name):
    rng, call = np.random.default_rng(22), SETS[name]
    for number in range(40):
        held = rng.choice(np.array([0, 0, 1, 2, 128, 255], np.uint8), (9, 14))
        dirty, clean = held.view(bool), held != 0
        mode = ("ignore", "reflect", "mirror", "nearest", "wrap", "constant")[number % 6]
        compat = (None, "scipy", "opencv")[number // 6 % 3] if name != "rank" else None
        for given in (dirty, dirty[:, ::2], dirty.T):
            wanted = call(np.ascontiguousarray(clean if given is dirty else clean.T if given.shape[0] == 14 else clean[:, ::2]),
                          mode=mode, compat=compat)
            made = call(given, mode=mode, compat=compat, workers=1 + number % 2)
            np.testing.assert_array_equal(made.view(np.uint8), wanted.view(np.uint8), f"{mode} {compat}")
        out = np.full(dirty.shape, 77, np.uint8).view(bool)
        assert call(dirty, mode=mode, compat=compat, out=out) is out
        np.testing.assert_array_equal(out.view(np.uint8), call(clean, mode=mode, compat=compat).view(np.uint8))


def test_bytes_of_bool_elsewhere():
    held = np.random.default_rng(23).choice(np.array([0, 255, 2, 1], np.uint8), (12, 13))
    dirty, clean = held.view(bool), held != 0
    for k in (0, 1, 2):
        np.testing.assert_array_equal(morphd.threshold(dirty, k), morphd.threshold(clean, k))
    np.testing.assert_array_equal(morphd.skeleton(dirty, morphd.square(3), 3), morphd.skeleton(clean, morphd.square(3), 3))
    np.testing.assert_array_equal(morphd.restored(dirty, morphd.square(3), 3), morphd.restored(clean, morphd.square(3), 3))
    curves = [morphd.spectrum(each, morphd.square(2), 3) for each in (dirty, clean)]
    assert curves[0].volumes.tolist() == curves[1].volumes.tolist() and curves[0].volumes[0] == clean.sum()
    with pytest.MonkeyPatch.context() as small:
        small.setattr(morphd._pieces, "LONGEST_SIDE", 9)
        assert morphd.spectrum(dirty, morphd.square(2), 3).volumes.tolist() == curves[1].volumes.tolist()
    assert morphd.Footprint(dirty).pixels == morphd.Footprint(clean).pixels
    np.testing.assert_array_equal(morphd.erosion(np.ones((3, 40), np.uint8), dirty), morphd.erosion(np.ones((3, 40), np.uint8), clean))
    planes = np.stack([held, held[::-1]]).view(bool)
    np.testing.assert_array_equal(morphd.opening(planes, L, axes=(1, 2)).view(np.uint8)[0], morphd.opening(clean, L).view(np.uint8))
    assert not held.max() == 1, "the image is as it was"
