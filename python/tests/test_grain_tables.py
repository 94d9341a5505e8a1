"""Grains one by one: the table's columns beside slow ones and beside peers, units, choices of rows, and what it writes."""
import csv
import importlib
import io
import itertools
import pickle
import re

import numpy as np
import pytest

import morphd
from morphd import _measures

# Two grains: one whose last pixel hangs on by a corner, and one that the frame cuts.
MASK = np.array([[0, 0, 0, 0, 0, 1], [0, 1, 1, 0, 0, 1], [0, 1, 1, 0, 0, 0], [0, 0, 0, 1, 0, 0], [0, 0, 0, 0, 0, 0]], bool)
COLUMNS = ("label", "x", "y", "area", "left", "top", "right", "bottom", "width", "height", "touches_frame", "centroid_x", "centroid_y",
           "equivalent_diameter", "feret_max", "perimeter")


def random_masks(seed, count, least=1):
    rng = np.random.default_rng(seed)
    for _ in range(count):
        yield rng, rng.random(rng.integers(least, 25, 2)) < rng.choice([0.2, 0.4, 0.6])


def test_a_table():
    grains = morphd.regions(MASK)
    assert grains.columns == COLUMNS == morphd.grains.Region._fields[: len(COLUMNS)]
    assert (len(grains), grains.unit, grains.pixel, grains.shape) == (2, "pixels", 1, (5, 6))
    wanted = {"label": [1, 2], "x": [5, 1], "y": [0, 1], "area": [2, 5], "left": [5, 1], "top": [0, 1], "right": [5, 3], "bottom": [1, 3],
              "width": [1, 3], "height": [2, 3], "touches_frame": [True, False], "centroid_x": [5, 9 / 5], "centroid_y": [0.5, 9 / 5],
              "equivalent_diameter": [np.sqrt(8 / np.pi), np.sqrt(20 / np.pi)], "feret_max": [np.sqrt(5), np.sqrt(18)], "perimeter": [6, 12]}
    for name, column in wanted.items():
        np.testing.assert_allclose(grains[name], column, rtol=1e-15, err_msg=name)
    assert {name for name in COLUMNS if grains[name].dtype == np.int64} == set(COLUMNS) - {
        "touches_frame", "centroid_x", "centroid_y", "equivalent_diameter", "feret_max"}
    np.testing.assert_array_equal(grains.labels, morphd.label(MASK))


def test_what_hangs_together_by_a_corner():
    grains = morphd.regions(MASK, connectivity=1)
    assert grains["area"].tolist() == [2, 4, 1] and grains["perimeter"].tolist() == [6, 8, 4]
    np.testing.assert_array_equal(grains.labels, morphd.label(MASK, 1))


def corners(places):
    return {(x + dx, y + dy) for y, x in places for dx in (0, 1) for dy in (0, 1)}


def slow(labels, number):
    """Feret diameter and perimeter of a component, pixel by pixel."""
    places = {(y, x) for y, x in np.argwhere(labels == number).tolist()}
    far = max((x - u) ** 2 + (y - v) ** 2 for (x, y), (u, v) in itertools.product(corners(places), repeat=2))
    sides = sum(beside not in places for y, x in places for beside in ((y - 1, x), (y + 1, x), (y, x - 1), (y, x + 1)))
    return np.sqrt(far), sides


def test_feret_diameters_and_perimeters():
    for _, mask in random_masks(1, 12):
        for connectivity in (1, 2):
            grains = morphd.regions(mask, connectivity=connectivity)
            wanted = [slow(grains.labels, number) for number in grains["label"]]
            assert list(zip(grains["feret_max"], grains["perimeter"])) == wanted


def test_feret_diameters_by_convex_hulls():
    spatial = pytest.importorskip("scipy.spatial")
    from scipy.spatial.distance import pdist

    for rng, mask in random_masks(2, 20, 6):
        rows, columns = np.indices((90, 70))
        turned = (rows - 45) * np.cos(rng.random()) + (columns - 30) * rng.random()
        shape = np.abs(turned) + np.hypot(rows - 45, columns - 30) * rng.random() < 20
        for labels in (morphd.label(mask), shape.astype(np.int32)):
            runs = _measures.runs_of(labels)
            for number, made in enumerate(_measures.feret_diameters(runs, labels.max()), 1):
                points = np.array(sorted(corners(np.argwhere(labels == number).tolist())))
                assert made == pytest.approx(pdist(points[spatial.ConvexHull(points).vertices]).max(), rel=1e-14)


def test_outlines_that_bend_inwards_and_outwards():
    """An arc, and a row that lies far outside of it: each of the arc's corners is gone in its turn."""
    columns = np.arange(400)
    for reach in (0, 1, 100, 399):
        labels = np.array([(columns >= max(20, 200 - int((800 * row) ** 0.5 // 2))) & (columns < 220) for row in range(150)]).astype(np.int32)
        labels[-1, reach:220] = 1
        made = _measures.feret_diameters(_measures.runs_of(labels), 1)
        filled = np.argwhere(labels)
        ends = [(x + dx, y + dy) for row in range(150) for y, x in filled[filled[:, 0] == row][[0, -1]] for dx in (0, 1) for dy in (0, 1)]
        points = np.array(ends)
        assert made[0] ** 2 == pytest.approx(((points[:, None] - points[None]) ** 2).sum(2).max(), rel=1e-14)


def test_regions_of_scikit_image():
    measure = pytest.importorskip("skimage.measure")
    for rng, mask in random_masks(3, 25):
        image = rng.integers(0, 200, mask.shape).astype(np.uint8)
        for connectivity in (1, 2):
            if not mask.any():
                continue
            grains = morphd.regions(mask, connectivity=connectivity, intensity=image)
            told = measure.regionprops_table(measure.label(mask, connectivity=connectivity), image, properties=(
                "label", "area", "bbox", "centroid", "equivalent_diameter", "intensity_mean", "intensity_min", "intensity_max"))
            for ours, theirs, more in (
                ("label", "label", 0), ("area", "area", 0), ("top", "bbox-0", 0), ("left", "bbox-1", 0), ("bottom", "bbox-2", -1),
                ("right", "bbox-3", -1), ("centroid_y", "centroid-0", 0), ("centroid_x", "centroid-1", 0),
                ("equivalent_diameter", "equivalent_diameter", 0), ("intensity_mean", "intensity_mean", 0),
                ("intensity_min", "intensity_min", 0), ("intensity_max", "intensity_max", 0)):
                np.testing.assert_allclose(grains[ours], told[theirs] + more, rtol=1e-13, err_msg=ours)
            first = [tuple(np.argwhere(grains.labels == number)[0]) for number in grains["label"]]
            assert first == list(zip(grains["y"], grains["x"]))


def test_feret_diameters_of_scikit_image():
    """Up to a pixel shorter, since they go between the middles of sides."""
    measure = pytest.importorskip("skimage.measure")
    for _, mask in random_masks(4, 6, 8):
        # its hulls need three points that are not in a line
        grains = morphd.regions(mask)
        for region, ours in zip(measure.regionprops(grains.labels), grains["feret_max"]):
            if min(region.image.shape) > 1:
                assert ours - 1 <= region.feret_diameter_max <= ours + 1e-9


def same_tables(made, wanted):
    assert made.columns == wanted.columns and (made.unit, made.pixel) == (wanted.unit, wanted.pixel)
    for name in wanted.columns:
        assert made[name].dtype == wanted[name].dtype, name
        np.testing.assert_array_equal(made[name], wanted[name], name)


def test_labels_are_measured_as_the_set_that_they_are_of():
    for rng, mask in random_masks(21, 30):
        image = rng.integers(0, 99, mask.shape)
        for connectivity in (1, 2):
            wanted = morphd.regions(mask, connectivity=connectivity, pixel="0.5um", intensity=image)
            for dtype in ("i4", "i8", ">i2", "u1"):
                labels = morphd.label(mask, connectivity).astype(dtype)
                made = morphd.regions(labels=labels, pixel="0.5um", intensity=image)
                same_tables(made, wanted)
                np.testing.assert_array_equal(made.labels, labels)
                assert made.labels.dtype == np.int32 and (made.mask == mask).all()


def test_labels_that_touch_and_fall_apart():
    """Each number is a grain, in the order of the numbers; some are missing, and pixels of one need not hang together."""
    rng = np.random.default_rng(22)
    for number in range(30):
        labels = rng.choice([0, 2, 3, 7, 1000], rng.integers(1, 12, 2))
        grains = morphd.regions(labels=labels)
        assert grains["label"].tolist() == sorted(set(labels.flat) - {0})
        for grain in grains:
            down, right = np.nonzero(labels == grain.label)
            assert grain[1:8] == (right[0], down[0], len(down), right.min(), down.min(), right.max(), down.max())
            assert (grain.centroid_x, grain.centroid_y) == pytest.approx((right.mean(), down.mean()))
            assert (grain.feret_max, grain.perimeter) == slow(labels, grain.label)
        assert (grains[grains["label"] > 2].mask == (labels > 2)).all()
        cut = set(labels[0]) | set(labels[-1]) | set(labels[:, 0]) | set(labels[:, -1])
        assert [grain.label for grain in grains if grain.touches_frame] == sorted(cut - {0})


def test_tables_of_no_label():
    for shape in ((0, 4), (3, 0), (3, 4)):
        same_tables(morphd.regions(labels=np.zeros(shape, int)), morphd.regions(np.zeros(shape, bool)))


def test_labels_that_are_refused():
    for labels in ([[1, -1]], [[1, 2**31]]):
        with pytest.raises(morphd.Refused) as told:
            morphd.regions(labels=labels)
        assert told.value.number == 47
    with pytest.raises(morphd.Refused) as told:
        morphd.regions(labels=[[1, 2]], intensity=[[1], [2]])
    assert told.value.number == 53
    for options, told in (({}, "a mask, or labels"), ({"mask": [[True]], "labels": [[1]]}, "a mask, or labels"), ({"labels": [[True]]}, "whole"),
                          ({"labels": [[1.0]]}, "labels are whole numbers")):
        with pytest.raises(TypeError, match=told):
            morphd.regions(**options)
    for options in ({"labels": [[1]], "connectivity": 1}, {"labels": [1, 2]}):
        with pytest.raises(ValueError):
            morphd.regions(**options)


def test_frames_of_one_row_and_column():
    for mask in ([[1, 1, 0, 1]], [[1], [0], [1], [1]], [[1]]):
        grains = morphd.regions(np.array(mask, bool))
        assert grains["touches_frame"].all()
        assert [slow(grains.labels, number) for number in grains["label"]] == list(zip(grains["feret_max"], grains["perimeter"]))


@pytest.mark.parametrize("mask", [np.zeros((3, 4), bool), np.zeros((0, 4), bool), np.zeros((3, 0), bool)])
def test_no_grains(mask):
    grains = morphd.regions(mask, pixel="2um", intensity=np.zeros(mask.shape))
    assert len(grains) == 0 and list(grains) == [] and all(len(grains[name]) == 0 for name in grains.columns)
    told = grains.summary()
    assert told.count == 0 and np.isnan(told.mean) and str(told).startswith("0 grains, 0 µm² in all") and "nan" not in str(told)
    assert grains.histogram()[0].sum() == 0 and not grains.mask.any() and len(grains.inside) == 0
    out = io.StringIO()
    grains.to_csv(out)
    assert out.getvalue().count("\n") == 1
    assert "0 grains" in str(grains) and "0 grains" in grains._repr_html_()


def test_units():
    """Measures are in the unit, and numbers and places stay."""
    plain, grains = morphd.regions(MASK), morphd.regions(MASK, pixel="0.5um")
    assert (grains.pixel, grains.unit, grains.unit_of("area"), grains.unit_of("feret_max")) == (0.5, "µm", "µm²", "µm")
    assert [plain.unit_of(name) for name in ("area", "perimeter", "centroid_x", "left", "label", "touches_frame")] == [
        "pixels", "pixels", "pixels", "pixels", "", ""]
    for name in COLUMNS:
        power = {"area": 2}.get(name, 1 if name in ("width", "height", "equivalent_diameter", "feret_max", "perimeter") else 0)
        np.testing.assert_array_equal(grains[name], plain[name] * 0.5**power, name)
        np.testing.assert_array_equal(grains.in_pixels[name], plain[name], name)
    assert morphd.regions(MASK, pixel=2).unit == "units" and morphd.regions(MASK, pixel=1).unit == "pixels"
    for wrong in ("wide", 0, -1):
        with pytest.raises(ValueError, match="a pixel is"):
            morphd.regions(MASK, pixel=wrong)


def test_rows():
    grains = morphd.regions(MASK, pixel=(0.5, "mm"))
    first, second = grains
    assert first == grains[0] == grains[-2] and second == grains[np.int64(1)]
    assert (second.label, second.area, second.left, second.touches_frame, second.intensity_mean) == (2, 1.25, 1, False, None)
    assert type(second.label) is int and type(second.touches_frame) is bool and pickle.loads(pickle.dumps(second)) == second
    with pytest.raises(IndexError):
        grains[2]
    with pytest.raises(KeyError, match="the columns are label, x, .*: 'size'"):
        grains["size"]
    assert pickle.loads(pickle.dumps(grains))["area"].tolist() == grains["area"].tolist()


def test_some_rows():
    grains = morphd.regions(MASK)
    large = grains[grains["area"] > 2]
    assert large["label"].tolist() == [2] and large.labels is grains.labels
    np.testing.assert_array_equal(large.mask, morphd.label(MASK) == 2)
    np.testing.assert_array_equal(grains.mask, MASK)
    assert grains.inside["label"].tolist() == [2] and grains[1:]["label"].tolist() == [2]
    assert grains[np.argsort(-grains["area"])]["label"].tolist() == [2, 1] == grains[::-1]["label"].tolist()
    np.testing.assert_array_equal(grains.inside.mask, morphd.clear_border(MASK))


def test_large_grains_are_those_of_area_openings():
    for rng, mask in random_masks(5, 12):
        grains, least = morphd.regions(mask), int(rng.integers(1, 9))
        np.testing.assert_array_equal(grains[grains["area"] >= least].mask, morphd.area_opening(mask, least))
        np.testing.assert_array_equal(grains.inside.mask, morphd.clear_border(mask))


@pytest.mark.parametrize("dtype", ["?", "u1", ">u2", "i8", "f4", "f8"])
def test_samples_of_an_image(dtype):
    rng = np.random.default_rng(6)
    for _, mask in random_masks(7, 6, 3):
        image = (rng.random(mask.shape) * 90).astype(dtype)
        for given in (image, np.asfortranarray(image), image.tolist()):
            grains = morphd.regions(mask, intensity=given)
            for number, mean, least, most in zip(*(grains[name] for name in ("label", "intensity_mean", "intensity_min", "intensity_max"))):
                held = image[grains.labels == number]
                assert (least, most) == (held.min(), held.max()) and mean == pytest.approx(held.astype(float).mean(), rel=1e-12)
    assert grains.unit_of("intensity_mean") == "" and grains.columns[-3:] == ("intensity_mean", "intensity_min", "intensity_max")
    for wrong, fault in ((np.zeros((2, 2)), morphd.Refused), (image.astype(complex), TypeError), (np.zeros(3), ValueError)):
        with pytest.raises(fault):
            morphd.regions(mask, intensity=wrong)


def test_summaries():
    grains = morphd.regions(MASK, pixel="0.5um")
    told = grains.summary("area")
    assert (told.count, told.touching, told.area, told.area_unit, told.unit) == (2, 1, 1.75, "µm²", "µm²")
    assert told.part == pytest.approx(7 / 30) and (told.least, told.greatest) == (0.5, 1.25)
    assert (told.mean, told.spread) == (pytest.approx(0.875), pytest.approx(0.375))
    mean = (0.5 * 0.5 + 1.25 * 1.25) / 1.75
    assert told.area_mean == pytest.approx(mean)
    assert told.area_spread == pytest.approx(np.sqrt((0.5 * (0.5 - mean) ** 2 + 1.25 * (1.25 - mean) ** 2) / 1.75))
    assert str(told) == (
        "2 grains, 1 of them cut by the frame, 1.75 µm² in all, 23.3% of the frame\narea: 0.5 to 1.25 µm²\n"
        "by number: mean 0.875 µm², spread 0.375\nby area: mean 1.036 µm², spread 0.3388")
    assert "cut" not in str(grains.inside.summary()) and grains.summary().column == "equivalent_diameter"
    with pytest.raises(KeyError):
        grains.summary("size")


def test_equal_grains_have_no_spread():
    """By area, too, where a mean of thirds would be off by a rounding."""
    for count in (1, 3):
        told = morphd.regions(np.tile(np.pad(np.ones((1, 3), bool), 1), count), pixel=0.5).summary()
        assert (told.count, told.spread, told.area_spread) == (count, 0, 0)
        assert told.mean == told.area_mean == told.least == told.greatest


def test_histograms():
    grains = morphd.regions(MASK)
    heights, edges = grains.histogram("area", bins=[0, 3, 6])
    assert heights.tolist() == [1, 1] and heights.dtype.kind == "i" and edges.tolist() == [0, 3, 6]
    assert grains.histogram("area", "area", [0, 3, 6])[0].tolist() == [2, 5]
    assert len(grains.histogram(bins=7)[0]) == 7 and grains.histogram(weights="area")[0].sum() == 7
    with pytest.raises(ValueError, match="weights is 'number' or 'area'"):
        grains.histogram(weights="volume")
    with pytest.raises(KeyError):
        grains.histogram("size")


def test_csv(tmp_path):
    grains = morphd.regions(MASK, pixel="0.5um")
    out = io.StringIO()
    grains.to_csv(out)
    head, *rows = csv.reader(io.StringIO(out.getvalue()))
    assert head == ["label", "x", "y", "area in µm²", "left", "top", "right", "bottom", "width in µm", "height in µm", "touches_frame",
                    "centroid_x", "centroid_y", "equivalent_diameter in µm", "feret_max in µm", "perimeter in µm"]
    assert rows == [["1", "5", "0", "0.5", "5", "0", "5", "1", "0.5", "1", "1", "5", "0.5", "0.797884561", "1.11803399", "3"],
                    ["2", "1", "1", "1.25", "1", "1", "3", "3", "1.5", "1.5", "0", "1.8", "1.8", "1.26156626", "2.12132034", "6"]]
    for path in (tmp_path / "grains.csv", str(tmp_path / "again.csv")):
        grains.to_csv(path)
        with open(path, encoding="utf-8", newline="") as file:
            assert file.read() == out.getvalue()
    plain = io.StringIO()
    morphd.regions(MASK).to_csv(plain)
    assert plain.getvalue().startswith("label,x,y,area in pixels,left,") and "\n2,1,1,5,1,1,3,3,3,3,0,1.8,1.8," in plain.getvalue()


def test_pandas():
    pandas = pytest.importorskip("pandas")
    grains = morphd.regions(MASK, pixel="0.5um")
    frame = grains.to_pandas()
    assert isinstance(frame, pandas.DataFrame) and tuple(frame.columns) == grains.columns
    assert frame["area"].tolist() == [0.5, 1.25] and frame.attrs == {"pixel": 0.5, "unit": "µm"}
    assert frame[frame.touches_frame].label.tolist() == [1]


def test_html_and_texts():
    rng = np.random.default_rng(8)
    grains = morphd.regions(MASK, pixel=(2, "<b>"))
    page = grains._repr_html_()
    assert page.count("<tr>") == 3 and "<th>area, &lt;b&gt;²</th>" in page and "<b>" not in page and "and 1 more" not in page
    assert repr(grains) == "<Regions of 2 grains in <b>>"
    many = morphd.regions(rng.random((24, 24)) < 0.15)
    assert len(many) > 12 and f"and {len(many) - 12} more" in many._repr_html_() and f"and {len(many) - 12} more" in str(many)
    lines = str(morphd.regions(MASK)).splitlines()
    assert len(lines) == 7 and len({len(line) for line in lines[:3]}) == 1
    assert re.fullmatch(r"label +x +y +area, pixels +left.*", lines[0]) and lines[3].startswith("2 grains, 1 of them cut by the frame")


def test_plots():
    pytest.importorskip("matplotlib").use("Agg")
    pyplot = importlib.import_module("matplotlib.pyplot")
    grains = morphd.regions(MASK, pixel="0.5um")
    ax = grains.plot(bins=4)
    assert ax.get_xlabel() == "equivalent_diameter, in µm" and ax.get_ylabel() == "grains" and len(ax.patches) == 4
    assert ax.get_title() == "2 grains, mean 1.03 µm, spread 0.232, by number"
    assert grains.plot("touches_frame", "area", bins=2, ax=ax) is ax and ax.get_ylabel() == "area, in µm²"
    assert ax.get_xlabel() == "touches_frame"
    pyplot.close("all")


def test_the_table_asks_for_labels_and_regions_at_once(stood_in):
    import stand_in

    morphd.regions(MASK)
    assert stand_in.calls == {"morphd_components_set": 1}


def test_more_components_than_there_was_room_for(stood_in):
    """Their number is told, and the library asked once more."""
    import stand_in

    dots = np.zeros((20, 30), np.bool_)
    dots[::2, ::2] = True
    grains = morphd.regions(dots)
    assert stand_in.calls == {"morphd_components_set": 2}
    assert len(grains) == 150 and (grains["area"] == 1).all() and (grains["x"] == grains["left"]).all()


def test_many_grains_take_no_longer_each():
    """No cost grows with the square of their number."""
    labels = np.zeros((600, 600), np.int32)
    labels[::2, ::2] = np.arange(1, 90001).reshape(300, 300)
    runs = _measures.runs_of(labels)
    assert (_measures.feret_diameters(runs, 90000) == np.sqrt(2)).all() and (_measures.perimeters(labels, runs, 90000) == 4).all()
    across, down = _measures.centroids(runs, np.ones(90000, np.int64))
    assert across[301] == 2 and down[301] == 2
