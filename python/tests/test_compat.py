"""`compat` and `mode` beside SciPy, scikit-image and OpenCV, on random images and footprints, where they are installed."""
import numpy as np
import pytest

import morphd

# So many random cases for each of the three.
CASES = 2000


def random_cases(seed, types, odd=False):
    """Small images with odd footprints, also of even sides and with gaps; none of them empty."""
    rng = np.random.default_rng(seed)
    for number in range(CASES):
        dtype = types[number % len(types)]
        shape = tuple(rng.integers(1, 9, 2))
        image = rng.random(shape) < 0.6 if dtype == bool else rng.integers(0, rng.choice([5, 256]), shape).astype(dtype)
        sides = rng.choice([1, 3, 5], 2) if odd else rng.integers(1, 5, 2)
        bitmap = rng.random(sides) < rng.choice([0.4, 0.8, 1.0])
        bitmap[rng.integers(sides[0]), rng.integers(sides[1])] = True
        yield number, rng, image, bitmap


def less(upper, lower):
    """A difference that stops at 0."""
    return np.where(upper > lower, upper.astype(int) - lower.astype(int), 0).astype(upper.dtype)


def same(made, wanted, *what):
    assert np.array_equal(made, wanted), (what, made, wanted)


def grey_of_scipy(ndimage, name, image, bitmap, **options):
    """What SciPy gives, with its differences stopped at 0."""
    run = {each: getattr(ndimage, f"grey_{each}") for each in ("erosion", "dilation", "opening", "closing")}
    made = {each: run[each](image, footprint=bitmap, **options) for each in run}
    made["gradient"] = less(made["dilation"], made["erosion"])
    made["white_tophat"], made["black_tophat"] = less(image, made["opening"]), less(made["closing"], image)
    return made[name]


OPERATORS = ("erosion", "dilation", "opening", "closing", "gradient", "white_tophat", "black_tophat")
PAIRS = OPERATORS[:4]


def test_scipy():
    ndimage = pytest.importorskip("scipy.ndimage")
    for number, rng, image, bitmap in random_cases(1, (bool, np.uint8, np.uint16)):
        name = OPERATORS[number % (4 if image.dtype == bool else 7)]
        if image.dtype == bool:
            wanted = getattr(ndimage, f"binary_{name}")(image, bitmap)
        else:
            wanted = grey_of_scipy(ndimage, name, image, bitmap)
        same(getattr(morphd, name)(image, bitmap, compat="scipy"), wanted, name, image, bitmap)


def test_scipys_modes_origins_and_borders():
    ndimage = pytest.importorskip("scipy.ndimage")
    modes = ("reflect", "mirror", "nearest", "wrap", "constant")
    for number, rng, image, bitmap in random_cases(2, (np.uint8, np.int32, float)):
        name, mode = PAIRS[number % 4], modes[number % 5]
        b = morphd.Footprint(bitmap)
        shift = [int(rng.integers(-(side // 2), (side - 1) // 2 + 1)) for side in bitmap.shape]
        moved = b.at([side // 2 + by for side, by in zip(bitmap.shape, shift)])
        wanted = grey_of_scipy(ndimage, name, image.astype(int), bitmap, mode=mode, cval=3, origin=shift)
        same(getattr(morphd, name)(image, moved, mode=mode, cval=3, compat="scipy"), wanted, name, mode, shift, image, bitmap)
    for _, rng, image, bitmap in list(random_cases(3, (bool,)))[:200]:
        wanted = ndimage.binary_erosion(image, bitmap, border_value=1)
        same(morphd.erosion(image, bitmap, mode="constant", cval=1, compat="scipy"), wanted, image, bitmap)


def test_scipys_ranks():
    ndimage = pytest.importorskip("scipy.ndimage")
    modes = ("reflect", "mirror", "nearest", "wrap", "constant")
    for number, rng, image, bitmap in random_cases(4, (np.uint8, np.uint16, np.int16)):
        mode, count = modes[number % 5], int(bitmap.sum())
        options = {"footprint": bitmap, "mode": mode, "cval": 3}
        r, q = int(rng.integers(count)), int(rng.integers(101))
        same(morphd.rank(image, r + 1, bitmap, mode=mode, cval=3), ndimage.rank_filter(image, r, **options), r, mode, image, bitmap)
        if number % 4 == 0:
            same(morphd.median(image, bitmap, mode=mode, cval=3), ndimage.median_filter(image, **options), mode, image, bitmap)
            wanted = ndimage.percentile_filter(image, q, **options)
            same(morphd.percentile(image, q, bitmap, mode=mode, cval=3), wanted, q, mode, image, bitmap)


def test_scipys_hit_or_miss():
    ndimage = pytest.importorskip("scipy.ndimage")
    for _, rng, image, bitmap in random_cases(5, (bool,)):
        other = rng.random(bitmap.shape) < 0.3
        other[0, 0] = True
        wanted = ndimage.binary_hit_or_miss(image, bitmap, other)
        same(morphd.hit_or_miss(image, bitmap, other, compat="scipy"), wanted, image, bitmap, other)
    with pytest.raises(TypeError, match="uint8"):
        morphd.hit_or_miss(image.astype(np.uint8), [[1, 0]], compat="scipy")


def of_skimage(theirs, name, image, bitmap):
    """What scikit-image gives: of sets by its binary functions where it has them, and with differences stopped at 0."""
    if image.dtype == bool and name in PAIRS:
        return getattr(theirs, f"binary_{name}")(image, bitmap)
    if name == "white_tophat":
        from scipy import ndimage

        held = image.view(np.uint8) if image.dtype == bool else image
        return less(held, ndimage.grey_opening(held, footprint=bitmap)).astype(image.dtype)
    if name == "black_tophat":
        return less(theirs.closing(image, bitmap), image)
    return getattr(theirs, name)(image, bitmap)


def test_skimage():
    theirs = pytest.importorskip("skimage.morphology")
    skimage = pytest.importorskip("skimage")
    if not skimage.__version__.startswith("0.19"):
        pytest.skip(f"scikit-image {skimage.__version__} is not the 0.19 whose rules are taken")
    names = (*PAIRS, "white_tophat", "black_tophat")
    for number, _, image, bitmap in random_cases(6, (bool, np.uint8, np.uint16)):
        name = names[number // 3 % 6]
        same(getattr(morphd, name)(image, bitmap, compat="skimage"), of_skimage(theirs, name, image, bitmap), name, image, bitmap)


def test_skimages_filters():
    filters = pytest.importorskip("skimage.filters")
    for number, _, image, bitmap in list(random_cases(7, (np.uint8,), odd=True))[:400]:
        same(morphd.gradient(image, bitmap, compat="skimage"), filters.rank.gradient(image, bitmap), image, bitmap)
        same(morphd.median(image, bitmap, compat="skimage"), filters.median(image, bitmap), image, bitmap)


def test_opencv():
    cv2 = pytest.importorskip("cv2")
    operations = {"opening": cv2.MORPH_OPEN, "closing": cv2.MORPH_CLOSE, "gradient": cv2.MORPH_GRADIENT, "white_tophat": cv2.MORPH_TOPHAT,
                  "black_tophat": cv2.MORPH_BLACKHAT, "erosion": cv2.MORPH_ERODE, "dilation": cv2.MORPH_DILATE}
    for number, rng, image, bitmap in random_cases(8, (np.uint8, np.uint16)):
        name = OPERATORS[number // 2 % 7]
        origin = tuple(int(rng.integers(side)) for side in bitmap.shape)
        wanted = cv2.morphologyEx(image, operations[name], bitmap.astype(np.uint8), anchor=origin[::-1])
        same(getattr(morphd, name)(image, morphd.Footprint(bitmap, origin), compat="opencv"), wanted, name, image, bitmap, origin)


def test_opencvs_hit_or_miss():
    cv2 = pytest.importorskip("cv2")
    for _, rng, image, bitmap in list(random_cases(9, (bool,), odd=True))[:500]:
        if bitmap.all():
            continue
        kernel = np.where(bitmap, 1, -1).astype(np.int32)
        wanted = cv2.morphologyEx(image.astype(np.uint8) * 255, cv2.MORPH_HITMISS, kernel) > 0
        same(morphd.hit_or_miss(image, bitmap, compat="opencv"), wanted, image, bitmap)


def test_opencvs_median():
    cv2 = pytest.importorskip("cv2")
    rng = np.random.default_rng(10)
    for number in range(100):
        image = rng.integers(0, 256, rng.integers(1, 9, 2)).astype(np.uint8)
        side = (3, 5)[number % 2]
        same(morphd.median(image, morphd.square(side), compat="opencv"), cv2.medianBlur(image, side), side, image)


def test_a_mode_that_is_given_stands_beside_compat():
    """Also the one that stands where neither is given: the other library's footprints then go with it, and not its edges."""
    rng = np.random.default_rng(31)
    image, b = rng.integers(0, 256, (7, 8)).astype(np.uint8), morphd.Footprint([[1, 1, 0], [0, 1, 0]], (0, 2))
    for name in ("dilation", "erosion", "opening", "closing"):
        function = getattr(morphd, name)
        ours = {"dilation": -b, "closing": -b}.get(name, b)
        same(function(image, b, mode="ignore", compat="scipy"), function(image, ours, mode="ignore"), name)
        same(function(image, b, compat="scipy"), function(image, ours, mode="reflect"), name)
        assert not np.array_equal(function(image, b, mode="ignore", compat="scipy"), function(image, b, compat="scipy")), name
    for compat in ("skimage", "opencv"):
        same(morphd.median(image, morphd.square(3), mode="reflect", compat=compat), morphd.median(image, morphd.square(3)), compat)
        same(morphd.median(image, morphd.square(3), compat=compat), morphd.median(image, morphd.square(3), mode="nearest"), compat)
    same(morphd.erosion(image > 99, b, mode="ignore", compat="scipy"), morphd.erosion(image > 99, b), "set")
    assert not morphd.erosion(np.ones((3, 3), bool), morphd.square(3), compat="scipy")[0, 0]
