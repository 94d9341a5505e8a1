"""Operators over chunks, and work on many files on a cluster of processes."""
import os

import cases
import numpy as np
import pytest

da = pytest.importorskip("dask.array")

import stand_in  # noqa: E402

import morphd  # noqa: E402
import morphd.dask  # noqa: E402

OPERATORS = ("erosion", "dilation", "opening", "closing", "gradient", "white_tophat", "black_tophat")


def made(array):
    return array.compute(scheduler="synchronous")


@pytest.mark.parametrize("name", OPERATORS)
def test_chunks(name):
    rng = np.random.default_rng(1)
    for dtype in cases.TYPES:
        for chunks in ((9, 7), (1, 40), (40, 1), ((5, 1, 20, 4), (30, 3))):
            image, b = cases.image(rng, (30, 33), dtype), cases.footprint(rng, 4)
            over = getattr(morphd.dask, name)(da.from_array(image, chunks=chunks), b)
            assert over.dtype == image.dtype and over.shape == image.shape
            np.testing.assert_array_equal(made(over), getattr(morphd, name)(image, b), (name, chunks))


def test_other_operators():
    image = np.random.default_rng(2).integers(0, 256, (30, 33)).astype(np.uint8)
    b, corner = morphd.Footprint([[1, 1], [0, 1]], (0, 1)), [[0, 1], [1, 1]]
    chunks = da.from_array(image, chunks=(11, 9))
    np.testing.assert_array_equal(made(morphd.dask.threshold(chunks, 99)), image >= 99)
    np.testing.assert_array_equal(made(morphd.dask.hit_or_miss(chunks, corner)), morphd.hit_or_miss(image, corner))
    marks = morphd.dask.skeleton(chunks > 60, b, 3)
    np.testing.assert_array_equal(made(marks), morphd.skeleton(image > 60, b, 3))
    np.testing.assert_array_equal(made(morphd.dask.restored(marks, b, 3)), morphd.restored(morphd.skeleton(image > 60, b, 3), b, 3))
    far = morphd.Footprint([[1, 0, 0]], (0, 2))
    camera = image.astype(np.uint16)
    over = morphd.dask.erosion(da.from_array(camera, chunks=(11, 9)), far, maxval=4095)
    np.testing.assert_array_equal(made(over), morphd.erosion(camera, far, maxval=4095))


@pytest.mark.parametrize("mode", ["reflect", "nearest", "wrap", "ignore"])
def test_ranks(mode):
    rng = np.random.default_rng(6)
    for dtype in cases.TYPES:
        image, b = cases.image(rng, (30, 33), dtype), cases.footprint(rng, 4, with_origin=mode == "ignore")
        chunks = da.from_array(image, chunks=(11, 9))
        for name, before in (("rank", [b.count]), ("median", []), ("percentile", [40])):
            wanted = getattr(morphd, name)(image, *before, b, mode=mode)
            np.testing.assert_array_equal(made(getattr(morphd.dask, name)(chunks, *before, b, mode=mode)), wanted, name)
        usual = morphd.dask.median(chunks, b)
        np.testing.assert_array_equal(made(usual), morphd.median(image, b))
    with pytest.raises(ValueError, match="mode"):
        morphd.dask.median(chunks, b, mode="mirror")


def cut(rng, side):
    """Chunks of one, of all, or of one to three."""
    kind = rng.integers(3)
    if kind < 2:
        return (1,) * side if kind else (side,)
    ends = np.minimum(np.cumsum(rng.integers(1, 4, side)), side)
    return tuple(int(step) for step in np.diff(ends, prepend=0) if step)


@pytest.mark.parametrize("name", [*OPERATORS, "rank", "median", "percentile", "hit_or_miss", "skeleton", "restored"])
def test_reaches_that_pass_the_array(name):
    """Small arrays in small chunks, under footprints that may be larger than they are."""
    rng = np.random.default_rng(7)
    for _ in range(30):
        shape, is_ranked = rng.integers(1, 9, 2), name in ("rank", "median", "percentile")
        image = cases.image(rng, shape, cases.TYPES[rng.integers(3)])
        b = cases.footprint(rng, int(rng.choice([3, 7, 15])), with_origin=is_ranked or name == "skeleton")
        before = {"rank": [1 + int(rng.integers(b.count))], "percentile": [40]}.get(name, [])
        options = {"mode": str(rng.choice(["ignore", "reflect", "nearest", "wrap"]))} if is_ranked else {}
        behind = [1 + int(rng.integers(5))] if name in ("skeleton", "restored") else []
        if name in ("skeleton", "restored"):
            image = image > 0 if name == "skeleton" else (image % 5).astype(np.uint8)
        if name == "hit_or_miss":
            # what it is to miss is the rest of its bitmap
            b = morphd.Footprint(np.pad(b.bitmap, ((0, 1), (0, 0))), b.origin)
        words = (*before, b, *behind)
        chunks = da.from_array(image, chunks=tuple(cut(rng, int(side)) for side in shape))
        over = made(getattr(morphd.dask, name)(chunks, *words, **options))
        np.testing.assert_array_equal(over, getattr(morphd, name)(image, *words, **options), (shape, chunks.chunks, b, options))


def test_footprints_beside_their_origin():
    """A reach to one side only, shorter than the array, as long, and longer."""
    image = np.arange(1, 7, dtype=np.uint8)[None]
    chunks = da.from_array(image, chunks=(1, 1))
    for far in (1, 4, 5, 6, 7, 254):
        b = morphd.Footprint([[1] + far * [0]], (0, far))
        for each in (b, -b):
            np.testing.assert_array_equal(made(morphd.dask.erosion(chunks, each)), morphd.erosion(image, each), f"{far}")
            np.testing.assert_array_equal(made(morphd.dask.rank(chunks, 1, each)), morphd.rank(image, 1, each), f"{far}")


def test_only_the_axis_that_is_too_short_becomes_one_chunk():
    chunks = da.from_array(np.zeros((6, 40), np.uint8), chunks=(2, 10))
    tall = morphd.rectangle(15, 3)
    for over in (morphd.dask.erosion(chunks, tall), morphd.dask.median(chunks, tall)):
        assert over.chunks == ((6,), (10,) * 4)
    assert morphd.dask.erosion(chunks, morphd.square(3)).chunks == chunks.chunks


def test_the_maxval_goes_along():
    chunks, b = da.from_array(np.full((4, 5), 12, np.uint8), chunks=(2, 2)), morphd.square(2)
    calls = {**dict.fromkeys(OPERATORS, (b,)), "rank": (1, b), "median": (b,), "percentile": (40, b), "threshold": (3,),
             "hit_or_miss": ([[1, 0]],)}
    for name, words in calls.items():
        with pytest.raises(morphd.Refused, match="25 SAMPLE"):
            made(getattr(morphd.dask, name)(chunks, *words, maxval=9))
        assert made(getattr(morphd.dask, name)(chunks, *words, maxval=12)).shape == (4, 5)


def test_empty_chunks_and_chunks_of_unknown_size():
    image = np.random.default_rng(8).integers(0, 256, (6, 7)).astype(np.uint8)
    for chunks in (((0, 6), (7,)), ((3, 0, 3), (0, 3, 4, 0))):
        for name, word in (("threshold", 9), ("erosion", [[1]]), ("erosion", morphd.square(3)), ("median", morphd.square(3))):
            over = getattr(morphd.dask, name)(da.from_array(image, chunks=chunks), word)
            np.testing.assert_array_equal(made(over), getattr(morphd, name)(image, word))
    for name, word in (("threshold", 9), ("erosion", morphd.square(3)), ("median", morphd.square(3))):
        empty = made(getattr(morphd.dask, name)(da.zeros((0, 3), dtype=np.uint8), word))
        assert empty.shape == (0, 3) and empty.dtype == (bool if name == "threshold" else np.uint8)
    rows = da.from_array(image, chunks=2)[da.from_array(image, chunks=2).max(axis=1) > 0]
    np.testing.assert_array_equal(made(morphd.dask.threshold(rows, 9)), image >= 9)
    with pytest.raises(ValueError, match="compute_chunk_sizes"):
        morphd.dask.erosion(rows, morphd.square(3))


def test_chains_stay_lazy():
    image = np.random.default_rng(3).integers(0, 256, (30, 33)).astype(np.uint8)
    lazy = morphd.dask.opening(morphd.dask.closing(da.from_array(image, chunks=(8, 8)), morphd.square(3)), morphd.square(3))
    np.testing.assert_array_equal(made(lazy), morphd.opening(morphd.closing(image, morphd.square(3)), morphd.square(3)))


def test_what_is_not_taken():
    with pytest.raises(TypeError, match="float64"):
        morphd.dask.erosion(da.ones((4, 4), chunks=2), [[1]])
    with pytest.raises(ValueError, match="two axes"):
        morphd.dask.erosion(da.ones((4, 4, 4), chunks=2, dtype=np.uint8), [[1]])


@pytest.fixture(scope="module")
def cluster():
    """A cluster of two processes, which call what this one calls."""
    distributed = pytest.importorskip("distributed")
    with pytest.MonkeyPatch.context() as here:
        here.setenv("PYTHONPATH", stand_in.in_process()[0]["PYTHONPATH"])
        with distributed.Client(n_workers=2, threads_per_worker=1, processes=True, dashboard_address=":0") as client:
            yield client


def process_of(path):
    return os.getpid()


def volume(path):
    """What a night's work does with a picture. It is sent to workers by its name."""
    if "broken" in str(path):
        raise ValueError(f"{path} is\nbroken")
    return int(morphd.opening(morphd.read(path), morphd.square(3)).sum())


def dies_once(path):
    """Ends its process the first time."""
    mark = f"{path}.mark"
    if not os.path.exists(mark):
        open(mark, "w", encoding="utf-8").close()
        os._exit(1)
    return "done"


def fails_once(path):
    mark = f"{path}.tried"
    if not os.path.exists(mark):
        open(mark, "w", encoding="utf-8").close()
        raise OSError("not yet")
    return "done"


def test_a_cluster_gives_what_one_piece_gives(cluster):
    image = np.random.default_rng(4).integers(0, 256, (40, 50)).astype(np.uint8)
    lazy = morphd.dask.opening(da.from_array(image, chunks=(13, 17)), morphd.disk(2))
    np.testing.assert_array_equal(cluster.compute(lazy).result(), morphd.opening(image, morphd.disk(2)))


def test_files_on_a_cluster(cluster, tmp_path, capsys):
    rng = np.random.default_rng(5)
    paths = [tmp_path / f"{number}.pgm" for number in range(12)]
    images = [rng.integers(0, 256, (9, 9)).astype(np.uint8) for _ in paths]
    for path, image in zip(paths, images):
        morphd.write(path, image)
    outcome = morphd.dask.map_files([*paths, tmp_path / "broken"], volume, cluster, retries=1)
    assert list(outcome.results) == [str(path) for path in paths]
    assert list(outcome.results.values()) == [int(morphd.opening(image, morphd.square(3)).sum()) for image in images]
    assert list(outcome.failures) == [str(tmp_path / "broken")]
    told = capsys.readouterr().err
    assert f"{tmp_path / 'broken'}: ValueError: {tmp_path / 'broken'} is broken\n" in told
    assert len(set(morphd.dask.map_files(paths, process_of, cluster, progress=False).results.values())) == 2
    assert capsys.readouterr().err == ""


def test_work_is_tried_again(cluster, tmp_path):
    outcome = morphd.dask.map_files([str(tmp_path / "a")], fails_once, cluster, progress=False)
    assert outcome.results == {str(tmp_path / "a"): "done"} and not outcome.failures
    outcome = morphd.dask.map_files([str(tmp_path / "b")], fails_once, cluster, retries=0, progress=False)
    assert isinstance(outcome.failures[str(tmp_path / "b")], OSError)


def test_a_process_that_dies_is_replaced(cluster, tmp_path):
    outcome = morphd.dask.map_files([str(tmp_path / "a")], dies_once, cluster, progress=False)
    assert outcome.results == {str(tmp_path / "a"): "done"}


def test_a_cluster_of_its_own(monkeypatch, tmp_path):
    pytest.importorskip("distributed")
    monkeypatch.setenv("PYTHONPATH", stand_in.in_process()[0]["PYTHONPATH"])
    monkeypatch.setattr("morphd._threads.processors", lambda: 2)
    morphd.write(tmp_path / "a.pgm", np.full((5, 5), 3, np.uint8))
    assert morphd.dask.map_files([tmp_path / "a.pgm"], volume, progress=False).results == {str(tmp_path / "a.pgm"): 75}


def test_levels_are_whole_numbers():
    chunks = da.from_array(np.ones((9, 9), bool), chunks=4)
    np.testing.assert_array_equal(made(morphd.dask.skeleton(chunks, morphd.square(3), np.int64(2))),
                                  morphd.skeleton(np.ones((9, 9), bool), morphd.square(3), 2))
    for call in (morphd.dask.skeleton, morphd.dask.restored):
        with pytest.raises(TypeError, match="levels is a whole number"):
            call(chunks, morphd.square(3), 2.0)
