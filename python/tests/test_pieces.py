"""Arrays cut into pieces: results are those of one piece, byte for byte, also over seams."""
import ctypes
import threading
import weakref

import cases
import numpy as np
import pytest

import morphd
from morphd import _calls, _library, _pieces, curves
from morphd.footprints import Reach

OPERATORS = ("erosion", "dilation", "opening", "closing", "gradient", "white_tophat", "black_tophat")


@pytest.fixture
def small_limits(monkeypatch):
    """Limits that small arrays are over."""
    monkeypatch.setattr(_pieces, "LONGEST_SIDE", 17)
    monkeypatch.setattr(_pieces, "MOST_SAMPLES", 17 * 15)
    monkeypatch.setattr(_pieces, "LEAST_ROWS", 1)


def pairs(call, image):
    """What is made in one piece, and cut."""
    with pytest.MonkeyPatch.context() as wide:
        wide.setattr(_pieces, "LONGEST_SIDE", 8192)
        wide.setattr(_pieces, "MOST_SAMPLES", 1 << 24)
        whole = call(image)
    return whole, call(image)


def images():
    rng = np.random.default_rng(1)
    for dtype in cases.TYPES:
        for shape in ((40, 9), (9, 40), (31, 33)):
            yield cases.image(rng, shape, dtype), cases.footprint(rng, 5)


@pytest.mark.parametrize("mode", ["ignore", "reflect", "wrap"])
@pytest.mark.parametrize("name", OPERATORS)
def test_pieces_of_large_arrays(small_limits, stood_in, name, mode):
    import stand_in

    def counted(held):
        before = sum(stand_in.calls.values())
        made = getattr(morphd, name)(held, b, mode=mode)
        return made, sum(stand_in.calls.values()) - before

    for image, b in images():
        (whole, calls), (cut, more_calls) = pairs(counted, image)
        np.testing.assert_array_equal(whole, cut)
        assert more_calls >= 2 * calls


@pytest.mark.parametrize("workers", [2, 3, 7])
@pytest.mark.parametrize("name", OPERATORS)
def test_rows_are_shared(monkeypatch, name, workers):
    monkeypatch.setattr(_pieces, "LEAST_ROWS", 2)
    for image, b in images():
        wanted = getattr(morphd, name)(image, b)
        np.testing.assert_array_equal(getattr(morphd, name)(image, b, workers=workers), wanted)
        out = np.zeros_like(image)
        getattr(morphd, name)(image, b, workers=workers, out=out)
        np.testing.assert_array_equal(out, wanted)


def watch(monkeypatch, library):
    """The calls of the library from now on: the name, and the address and the length of the first array and of the result's."""
    import stand_in

    seen = []

    def watched(name, real):
        places = [at for at, kind in enumerate(_library.PROTOTYPES[name]) if kind is ctypes.c_void_p]

        def call(*arguments):
            seen.append((name, *(arguments[at:at + 2] for at in (places[0], places[-1]))))
            return real(*arguments)

        return call

    for name in stand_in.BODIES:
        monkeypatch.setattr(library, name, watched(name, getattr(library, name)))
    return seen


def lies_in(place, array):
    """Whether what a call was given, by its address and its length, is part of an array."""
    address, count = place
    begin = array.ctypes.data
    return begin <= address and address + count * array.itemsize <= begin + array.nbytes


@pytest.mark.parametrize("workers", [2, 5])
@pytest.mark.parametrize("name", ["erosion", "dilation", "gradient", "rank"])
def test_rows_are_made_where_they_belong(monkeypatch, stood_in, name, workers):
    """By operations of one step: no piece is copied out of the image, and none has room of its own for its result."""
    monkeypatch.setattr(_pieces, "LEAST_ROWS", 2)
    rng, b = np.random.default_rng(6), morphd.Footprint([[1, 0, 1], [0, 1, 0], [0, 1, 1], [1, 0, 0]], (2, 1))
    numbers = (2,) if name == "rank" else ()
    for dtype in cases.TYPES:
        image = cases.image(rng, (41, 9), dtype)
        wanted, out = getattr(morphd, name)(image, *numbers, b, mode="ignore"), np.zeros_like(image)
        with pytest.MonkeyPatch.context() as watching:
            seen = watch(watching, stood_in)
            getattr(morphd, name)(image, *numbers, b, mode="ignore", workers=workers, out=out)
        np.testing.assert_array_equal(out, wanted)
        assert len(seen) == workers
        for call, samples, target in seen:
            assert call.startswith("morphd_flat_rows_") and lies_in(samples, image) and lies_in(target, out)
        assert sum(target[1] for _, _, target in seen) == out.size


def test_rows_of_two_steps_have_room_of_their_own(monkeypatch, stood_in):
    monkeypatch.setattr(_pieces, "LEAST_ROWS", 2)
    seen = watch(monkeypatch, stood_in)
    morphd.opening(np.ones((40, 3), np.uint8), morphd.square(3), workers=4)
    assert [call for call, _, _ in seen] == ["morphd_flat_u8"] * 4


def test_other_operators_are_cut(small_limits):
    rng = np.random.default_rng(2)
    for shape in ((40, 9), (9, 40), (31, 33)):
        image, b = cases.image(rng, shape, bool), cases.footprint(rng, 3, with_origin=True)
        other = morphd.Footprint([[1, 0], [0, 0]], (1, 0))
        calls = [
            lambda held: morphd.threshold(held, 1),
            lambda held: morphd.median(held, b),
            lambda held: morphd.rank(held, 1, b, mode="ignore"),
            lambda held: morphd.hit_or_miss(held, morphd.Footprint([[0, 0], [1, 0]], (1, 0)), other),
            lambda held: morphd.skeleton(held, b, 2),
            lambda held: morphd.restored(morphd.skeleton(held, b, 2), b, 2),
            lambda held: morphd.spectrum(held, b, 3).volumes,
        ]
        for call in calls:
            np.testing.assert_array_equal(*pairs(call, image))


def test_spectra_by_several_workers():
    image, b = np.random.default_rng(3).integers(0, 256, (40, 13)).astype(np.uint8), morphd.Footprint([[1, 1, 0], [0, 1, 1]], (1, 2))
    np.testing.assert_array_equal(morphd.spectrum(image, b, 4, workers=2).volumes, morphd.spectrum(image, b, 4).volumes)
    field = curves._arrays.read(image, "spectrum", None).field
    for workers in (1, 2):
        np.testing.assert_array_equal(curves._by_openings(field, b, 4, workers), morphd.spectrum(image, b, 4).volumes)


def test_seams_of_skeletons(monkeypatch):
    """Footprints that look to one side alone: an overlap that is too small on the other one is seen."""
    monkeypatch.setattr(_pieces, "LEAST_ROWS", 1)
    rng = np.random.default_rng(5)
    for number in range(60):
        image = rng.random((24, 3)) < 0.9
        b = morphd.Footprint([[1], [rng.random() < 0.5], [1]], (2 * (number % 2), 0))
        levels = 1 + number % 3
        marks = morphd.skeleton(image, b, levels)
        np.testing.assert_array_equal(morphd.skeleton(image, b, levels, workers=12), marks)
        np.testing.assert_array_equal(morphd.restored(marks, b, levels, workers=12), morphd.restored(marks, b, levels))


def test_skeletons_of_one_row_whose_reach_is_all_of_it(small_limits):
    image = np.ones((3, 60), bool)
    cross = morphd.diamond(1)
    np.testing.assert_array_equal(*pairs(lambda held: morphd.skeleton(held, cross, 5), image))


def test_an_overlap_that_leaves_no_room_is_told(small_limits):
    with pytest.raises(ValueError, match="no room"):
        morphd.skeleton(np.ones((3, 60), bool), morphd.square(3), 20)


@pytest.mark.parametrize("shape", [(8195, 3), (3, 8195)])
def test_true_limits(shape):
    image, b = np.random.default_rng(4).integers(0, 256, shape).astype(np.uint8), morphd.Footprint([[1, 0, 1]], (0, 2))
    shifted = np.full(shape, 255, np.uint8)
    shifted[:, 2:] = image[:, :-2]
    np.testing.assert_array_equal(morphd.erosion(image, b), np.minimum(image, shifted))


def test_a_spectrum_over_the_true_limits():
    image = np.ones((8195, 2), bool)
    assert morphd.spectrum(image, [[1, 1]], 1).volumes.tolist() == [2 * 8195, 2 * 8195]


def test_what_the_library_takes_in_one_piece():
    for shape, is_taken in (((8192, 2048), True), ((2048, 8192), True), ((8192, 2049), False), ((8193, 1), False), ((1, 8193), False)):
        assert _pieces.fits(shape) == is_taken
        assert (len(_pieces.cut(shape, Reach(0, 0, 0, 0), 1)) == 1) == is_taken


def test_pieces_hold_every_sample_once():
    for shape in ((1, 1), (100, 3), (9000, 5), (5, 9000), (8192, 8192), (20000, 20000)):
        for reach in (Reach(0, 0, 0, 0), Reach(3, 1, 0, 7), Reach(127, 127, 127, 127)):
            for workers in (1, 4):
                check_pieces(shape, reach, workers)


def check_pieces(shape, reach, workers):
    pieces = _pieces.cut(shape, reach, workers)
    assert sum((p.rows.end - p.rows.begin) * (p.columns.end - p.columns.begin) for p in pieces) == shape[0] * shape[1]
    assert len({(p.rows.begin, p.columns.begin) for p in pieces}) == len(pieces)
    for p in pieces:
        height, width = p.rows.last - p.rows.first, p.columns.last - p.columns.first
        assert 1 <= height <= 8192 and 1 <= width <= 8192 and height * width <= 1 << 24
        assert p.rows.first == max(p.rows.begin - reach.up, 0) and p.rows.last == min(p.rows.end + reach.down, shape[0])
        assert p.columns.first == max(p.columns.begin - reach.left, 0) and p.columns.last == min(p.columns.end + reach.right, shape[1])


def test_workers_are_threads_of_their_own(monkeypatch, stood_in):
    monkeypatch.setattr(_pieces, "LEAST_ROWS", 1)
    met = threading.Barrier(4, timeout=60)
    seen = set()
    real = stood_in.morphd_flat_rows_u8

    def together(*arguments):
        met.wait()
        seen.add(threading.get_ident())
        return real(*arguments)

    monkeypatch.setattr(stood_in, "morphd_flat_rows_u8", together)
    morphd.erosion(np.ones((8, 3), np.uint8), [[1]], workers=4)
    assert len(seen) == 4


def test_a_sample_over_the_maxval_is_found_before_anything_is_written(monkeypatch):
    monkeypatch.setattr(_pieces, "LEAST_ROWS", 1)
    image, out = np.full((8, 3), 5, np.uint8), np.full((8, 3), 1, np.uint8)
    image[7, 2] = 9
    with pytest.raises(morphd.Refused, match="25 SAMPLE"):
        morphd.erosion(image, [[1]], maxval=8, workers=4, out=out)
    assert (out == 1).all()


CORNER = morphd.Footprint([[1, 0], [1, 1]], (1, 0))


def first_row(field, made):
    """The call that makes the first row alone."""
    return _calls.Flat(_library.ERODE, CORNER).rows_of(field, made)(_pieces.Span(0, 1, 0, 1))


READY = {
    "flat": _calls.Flat(_library.OPEN, CORNER).ready, "rows": first_row, "threshold": _calls.Threshold(1).ready,
    "hit-or-miss": _calls.HitOrMiss(CORNER, morphd.Footprint([[1]], (0, 0))).ready, "skeleton": _calls.Skeleton(CORNER, 2).ready,
    "restoration": _calls.Restoration(CORNER, 2).ready,
}


@pytest.mark.parametrize("name", READY)
def test_calls_hold_their_arrays(stood_in, name):
    """A thread can be in the middle of one when its caller has gone, and nobody else holds them."""
    field, made = _calls.Field(np.ones((4, 3), np.uint8), 1, True), np.zeros((4, 3), np.uint8)
    seen = [weakref.ref(field.samples), weakref.ref(made)]
    task = READY[name](field, made)
    del field, made
    assert all(one() is not None for one in seen)
    del task
    assert all(one() is None for one in seen)


@pytest.mark.parametrize("workers", [1, 3])
def test_interrupts_let_go_of_the_arrays(monkeypatch, stood_in, workers):
    """What is interrupted holds nothing behind the fault."""
    monkeypatch.setattr(_pieces, "LEAST_ROWS", 1)
    image, out = np.ones((8, 3), np.uint8), np.zeros((8, 3), np.uint8)
    seen = [weakref.ref(image), weakref.ref(out)]

    def interrupted(arrays, call):
        raise KeyboardInterrupt

    monkeypatch.setattr(_calls, "_holding", interrupted)
    with pytest.raises(KeyboardInterrupt):
        morphd.erosion(image, [[1]], workers=workers, out=out)
    del image, out
    assert all(one() is None for one in seen)


def test_want_of_memory_in_a_thread(monkeypatch, stood_in):
    monkeypatch.setattr(_pieces, "LEAST_ROWS", 1)
    stood_in.refusing = 50
    with pytest.raises(morphd.OutOfMemory):
        morphd.erosion(np.ones((8, 3), np.uint8), [[1]], workers=4)
