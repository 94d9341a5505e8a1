"""Granulometries: volumes against the reference model, and what is told of them."""
import csv
import math

import cases
import numpy as np
import plain
import reference_model
import pytest

import morphd
from morphd import Refused
from morphd.curves import measured

GRAINS = np.array([[1, 0, 1, 1, 1, 0, 1]], bool)
BAR = [[1, 1, 1]]


def test_volumes():
    rng = np.random.default_rng(1)
    for dtype in cases.TYPES:
        for shape in cases.SHAPES:
            image, b = cases.image(rng, shape, dtype), cases.footprint(rng, 3)
            turned = [(column, row) for row, column in b.offsets]
            assert morphd.spectrum(image, b, 3).volumes.tolist() == reference_model.spectrum(plain.image(image), turned, 3)


def disc(width):
    """A disc that is so many pixels wide."""
    places = np.arange(width) - (width - 1) / 2
    return places[:, None] ** 2 + places**2 <= width * width / 4


def discs(*widths, gap=3):
    """Discs of these widths side by side, none at the frame."""
    made = np.zeros((max(widths) + 2 * gap, sum(widths) + gap * (len(widths) + 1)), bool)
    at = gap
    for width in widths:
        made[gap : gap + width, at : at + width] = disc(width)
        at += width + gap
    return made


def squares(side, gap=2):
    made = np.zeros((side + 2 * gap, side + 2 * gap), bool)
    made[gap:-gap, gap:-gap] = True
    return made


def told(image, footprint, *sizes):
    """The least and the greatest width in each bin in which over 2 of 100 of the area lie, with that part."""
    curve = measured(image, footprint, *sizes)
    parts = curve.falls / curve.volumes[0]
    return [(int(low + 0.5), int(high - 0.5), round(part, 3))
            for low, high, part in zip(curve.edges, curve.edges[1:], parts) if part > 0.02]


def test_three_grains():
    curve = measured(GRAINS, BAR, 3)
    assert curve.volumes.tolist() == [5, 3, 0, 0] and curve.volumes.dtype == np.uint64
    assert curve.falls.tolist() == [2, 3, 0] and curve.rest == 0
    assert curve.widths.tolist() == [1, 3, 5] and curve.unit == "pixels"
    assert curve.edges.tolist() == [0.5, 2.5, 4.5, 6.5] and curve.centres.tolist() == [1.5, 3.5, 5.5]
    assert curve.mean_size == pytest.approx((2 * 1.5 + 3 * 3.5) / 5) == curve.mean_bound
    assert curve.meaning == "Volumes are areas in pixels." and curve.shape == "line"


@pytest.mark.parametrize("footprint, sizes", [
    (morphd.square(2), 9), (morphd.square(3), 5), (morphd.square(5), 3), ([morphd.square(side) for side in range(2, 11)], None),
    ([morphd.square(3), morphd.square(4), morphd.square(7), morphd.square(11)], None)])
def test_each_width_falls_into_its_own_bin(footprint, sizes):
    """Even ones, too: a square lies between the edges of the only bin in which something falls, and where a bin holds one width
    alone its centre is that width."""
    for side in range(1, 10):
        curve = measured(squares(side), footprint, sizes, 0.65)
        (bin_,) = np.flatnonzero(curve.falls)
        assert curve.edges[bin_] < side * 0.65 < curve.edges[bin_ + 1]
        assert curve.widths[bin_] <= side * 0.65 + 1e-9
        assert curve.mean_size == pytest.approx(curve.centres[bin_])
        if curve.edges[bin_ + 1] - curve.edges[bin_] < 1.5 * 0.65:
            assert curve.centres[bin_] == pytest.approx(side * 0.65)


def test_known_discs_by_octagons():
    """Discs of 11, 21 and 41 pixels fall into the bins that hold 11, 21 and 41, with nearly all of their area."""
    image = discs(11, 21, 41)
    areas = [disc(width).sum() / image.sum() for width in (11, 21, 41)]
    found = [(low, high, part) for low, high, part in told(image, morphd.octagon(3, 2), 8) if part > 0.045]
    assert [(low, high) for low, high, _ in found] == [(7, 12), (19, 24), (37, 42)]
    assert [part for *_, part in found] == pytest.approx(areas, abs=0.07)


def test_known_discs_by_squares():
    """A square reads a disc as its diameter over the root of 2, so 11 and 21 pixels as 7 and 15."""
    for width, wanted in ((11, (7, 8)), (21, (15, 16))):
        assert max(told(discs(width), morphd.square(3), 11), key=lambda bin_: bin_[2])[:2] == wanted
    assert measured(discs(11), morphd.square(3), 5).shape == "square"
    assert "0.7 of its diameter" in measured(discs(11), morphd.square(3), 5).width_meaning


def test_known_discs_by_discs():
    """By real discs each disc falls as a whole where its width is."""
    image, family = discs(7, 11, 21), [morphd.disk(radius) for radius in (2, 4, 6, 9, 11)]
    curve = measured(image, family)
    assert curve.volumes.tolist() == [int(image.sum())] + [int(morphd.opening(image, each).sum()) for each in family]
    assert curve.widths.tolist() == [1, 5, 9, 13, 19] and curve.edges.tolist() == [0.5, 4.5, 8.5, 12.5, 18.5, 22.5]
    found = told(image, family)
    assert [(low, high) for low, high, _ in found] == [(5, 8), (9, 12), (19, 22)]
    assert [part for *_, part in found] == pytest.approx([disc(width).sum() / image.sum() for width in (7, 11, 21)], abs=0.04)
    assert curve.shape == "disc" and curve.footprint == tuple(family)
    assert "largest disc that fits" in curve.width_meaning


def test_lists():
    image = np.random.default_rng(2).integers(0, 200, (9, 11)).astype(np.uint8)
    family = [morphd.square(2), np.ones((3, 3)), morphd.disk(2)]
    curve = measured(image, family, pixel="2um", workers=2)
    assert curve.volumes.tolist() == [int(image.sum(dtype=int))] + [int(morphd.opening(image, b).sum(dtype=int)) for b in family]
    assert not curve.is_set and curve.unit == "µm" and curve.edges.tolist() == [1, 3, 5, 9] and curve.shape == "footprint"
    assert measured(image, tuple(family), 3, "2um") == curve
    assert measured(image, BAR, 2).footprint == morphd.Footprint(BAR), "a list of rows is one footprint"
    assert measured(image, [BAR, [[1] * 5]]) == measured(image, [morphd.line(3), morphd.line(5)])
    for wrong in ([morphd.square(3), morphd.disk(1)], [morphd.square(3), morphd.square(2)], [morphd.square(1)]):
        with pytest.raises(ValueError, match="footprints of a list grow"):
            morphd.spectrum(image, wrong)
    with pytest.raises(ValueError, match="leave it out"):
        morphd.spectrum(image, family, 2)
    with pytest.raises(TypeError, match="sizes"):
        morphd.spectrum(image, morphd.square(3))


def test_a_family_that_is_no_granulometry():
    """A line along rows is not open by one along columns: the later opening has what the one before has not."""
    image = np.zeros((7, 9), bool)
    image[1, 1:8] = image[3:6, 1] = True
    rows, columns = morphd.rectangle(1, 5), morphd.rectangle(3, 1)
    with pytest.warns(UserWarning, match=r"no granulometry on this picture: the openings of width 5 pixels have up to 70.0% that the"):
        curve = morphd.spectrum(image, [columns, rows])
    assert curve.volumes.tolist() == [10, 3, 7] and curve.gains.tolist() == [0, 7]
    assert curve.falls.tolist() == [7, 0]
    curve = measured(image, [morphd.rectangle(1, 3), rows])
    assert curve.gains.tolist() == [0, 0] and not any("granulometry" in line for line in curve.doubts)


@pytest.mark.parametrize("footprint, wanted", [
    (morphd.square(3), "square"), (morphd.rectangle(2, 3), "rectangle"), (morphd.line(5), "line"), (morphd.rectangle(4, 1), "line"),
    (morphd.disk(1), "diamond"), (morphd.disk(2), "diamond"), (morphd.disk(3), "footprint"), (morphd.diamond(4), "diamond"),
    (morphd.octagon(3, 2), "octagon"), (morphd.octagon(2, 1), "octagon"), ([[1, 1], [1, 0]], "footprint"),
    (morphd.line(5, 45), "footprint"), ([morphd.disk(2), morphd.disk(3)], "disc"), ([morphd.disk(3), morphd.square(9)], "footprint"),
    ([morphd.octagon(3, 2), morphd.octagon(7, 6)], "octagon"), ([morphd.diamond(1), morphd.diamond(3)], "diamond"), ([morphd.square(2), morphd.square(3)], "square"),
    ([morphd.disk(2.5), morphd.disk(3.7)], "disc")])
def test_what_a_width_is_a_width_of(footprint, wanted):
    curve = measured(GRAINS, footprint, None if isinstance(footprint, list) and isinstance(footprint[0], morphd.Footprint) else 2)
    assert curve.shape == wanted
    assert f"largest {wanted} that fits" in str(curve) and str(curve).lstrip().startswith(f"{wanted} in pixels")


def test_a_grain_has_its_width():
    """A grain that is the footprint's n-fold sum falls where that width stands."""
    image = np.zeros((20, 20), bool)
    image[4:11, 5:12] = True
    curve = morphd.spectrum(image, morphd.square(3), 6)
    assert curve.widths[np.flatnonzero(curve.falls)].tolist() == [7]
    assert curve.mean_size == 7.5


def test_widths_in_a_unit():
    curve = measured(GRAINS, BAR, 2, pixel="0.32um")
    assert curve.widths.tolist() == [0.32, 0.96] and curve.unit == "µm"
    assert curve.edges == pytest.approx([0.16, 0.8, 1.44]) and curve.centres == pytest.approx([0.48, 1.12])
    assert measured(GRAINS, BAR, 2, 0.5).widths.tolist() == [0.5, 1.5]
    assert measured(GRAINS, BAR, 2, (0.5, "mm")).unit == "mm"


def test_a_ground_stays_in_the_rest():
    levels = np.where(GRAINS, 110, 100).astype(np.uint8)
    with pytest.warns(UserWarning, match="93% is left over: a ground, or grains wider"):
        curve = morphd.spectrum(levels, BAR, 3)
    assert curve.rest == 700 and curve.falls.tolist() == [20, 30, 0]
    assert "bright ground" in curve.meaning and "white top-hat" in str(curve) and "\n" not in curve.meaning


def test_means_and_what_is_left_over():
    """What is left over is at least as wide as the last edge; over a tenth of it there is no mean."""
    image = np.zeros((15, 60), bool)
    for at in range(10):
        image[3:6, 3 + 5 * at : 6 + 5 * at] = True
    curve = measured(image, morphd.square(2), 2)
    assert curve.volumes.tolist() == [90, 90, 90] and not curve.has_mean
    assert math.isnan(curve.mean_size) and curve.mean_bound == 2.5 and "no mean, so much is left over; it is at least 2.5" in str(curve)
    curve = measured(image, morphd.square(2), 3)
    assert curve.mean_size == curve.mean_bound == 3 and "mean width 3 pixels\n" in str(curve)
    image[8:13, 10:13] = True
    image[11:13, 10:11] = False
    image[8:11, 20:23] = True
    image[7:12, 20:25] = True
    curve = measured(image, morphd.square(2), 4)
    total, rest = int(image.sum()), 25
    assert curve.rest == rest > 0.1 * total and not curve.has_mean and "mean width" not in str(curve)
    assert curve.mean_bound == pytest.approx(((curve.centres * curve.falls).sum() + 4.5 * rest) / total)
    few = Spectrum_of([100, 60, 10])
    assert few.has_mean and "mean width 2.611 pixels, at least 2.8 with what is left over" in str(few)
    assert not Spectrum_of([100, 60, 11]).has_mean


def Spectrum_of(volumes, **options):
    return morphd.Spectrum(np.array(volumes, np.uint64), morphd.square(3), **options)


def test_equality():
    curve, same = measured(GRAINS, BAR, 3), measured(GRAINS, BAR, 3)
    assert curve == same and hash(curve) == hash(same) and len({curve, same}) == 1
    others = [measured(GRAINS, BAR, 2), measured(GRAINS, BAR, 3, 0.5), measured(GRAINS, morphd.square(3), 3),
              measured(GRAINS.astype(np.uint8), BAR, 3), measured(~GRAINS, BAR, 3), measured(GRAINS, [BAR], None)]
    assert all(curve != other and not curve == other for other in others) and curve != "curve"
    assert len({curve, *others}) == 7


def test_html():
    made = measured(GRAINS, BAR, 2, (0.32, "<b>"))._repr_html_()
    assert "<td>0.32 to 0.64</td><td>2</td>" in made and "&lt;b&gt;" in made and "<b>" not in made
    assert "Widths are those of the largest line that fits" in made


def test_nothing_falls():
    with pytest.warns(UserWarning, match="the set is empty: no sample reaches the threshold"):
        curve = morphd.spectrum(np.zeros((3, 3), bool), BAR, 2)
    assert math.isnan(curve.mean_size) and curve.rest == 0 and "no mean\n" in str(curve)


def test_an_even_number_of_sizes_is_refused_by_its_number():
    for sizes in (0, 33, -1):
        with pytest.raises(Refused, match="47 PARAM"):
            morphd.spectrum(GRAINS, BAR, sizes)
    with pytest.raises(Refused, match="22 SIZE"):
        morphd.spectrum(GRAINS[:0], BAR, 2)
    with pytest.raises(TypeError, match="order of samples alone"):
        morphd.spectrum(GRAINS.astype(float), BAR, 2)
    assert morphd.spectrum(GRAINS.astype(np.uint16), BAR, 2, maxval=9).volumes.tolist() == [5, 3, 0]


def test_csv(tmp_path):
    path = tmp_path / "curve.csv"
    morphd.spectrum(GRAINS, BAR, 2, pixel="0.32um").to_csv(path)
    with path.open(encoding="utf-8", newline="") as file:
        assert list(csv.reader(file)) == [
            ["size", "least line in µm", "greatest line in µm", "volume", "fall"], ["0", "0.32", "0.64", "5", "2"],
            ["1", "0.96", "1.28", "3", "3"], ["2", "1.6", "", "0", ""]]


def test_the_text():
    assert str(measured(GRAINS, BAR, 2, pixel="0.65um")).splitlines() == [
        "             line in µm           fall", "            0.65 to 1.3              2", "            1.95 to 2.6              3",
        "left over, 3.25 or more              0", "mean width 1.755 µm", "Widths are those of the largest line that fits into a grain.",
        "Volumes are areas in pixels."]


def test_plot():
    figures = pytest.importorskip("matplotlib.figure")
    ax = figures.Figure().add_subplot()
    assert morphd.spectrum(GRAINS, BAR, 2, pixel="0.32um").plot(ax) is ax
    assert [round(bar.get_height(), 6) for bar in ax.patches] == [0.4, 0.6]
    assert [round(bar.get_x() + bar.get_width() / 2, 6) for bar in ax.patches] == [0.48, 1.12]
    assert ax.get_xlabel() == "width of the largest line that fits, in µm" and ax.get_ylabel() == "part of the area"
    assert "mean 0.864 µm, 0.0% left over" in ax.get_title()
    assert "no mean, 100.0% left over" in measured(GRAINS, [[1]], 2).plot(figures.Figure().add_subplot()).get_title()


def test_plot_makes_a_figure_of_its_own():
    pytest.importorskip("matplotlib").use("Agg")
    from matplotlib import pyplot

    figure, axes = pyplot.subplots()
    made = measured(GRAINS, BAR, 2).plot()
    assert made.figure is not figure and not axes.patches and len(made.patches) == 2
    assert pyplot.gcf() is made.figure, "notebooks and pyplot.show() show it"
    pyplot.close(made.figure)
    pyplot.close(figure)


DOUBTFUL = {
    "the set is empty: no sample reaches the threshold": lambda: np.zeros((9, 9), bool),
    "the set covers 96% of the frame: .* invert the picture": lambda: ~np.pad([[True, True]], 3),
    "grains that the frame cuts, and what touches them, have 69.2% of the area": lambda: np.pad(np.ones((3, 3), bool), ((0, 9), (0, 9))) | np.pad([[True] * 4], ((8, 3), (6, 2))),
    "100% is left over: grains wider than the last size": lambda: squares(4),
}


@pytest.mark.parametrize("line", DOUBTFUL)
def test_what_is_doubtful_is_warned_of(line):
    with pytest.warns(UserWarning, match=f"^{line}") as met:
        morphd.spectrum(DOUBTFUL[line](), morphd.square(3), 1 if "left" in line else 6)
    assert met[0].filename == __file__, "it is told of the caller's line"
    assert line.startswith("the set covers") or len(met) == 1


def test_nothing_is_warned_of_without_a_doubt(recwarn):
    morphd.spectrum(squares(4), morphd.square(3), 6)
    morphd.spectrum(squares(4).astype(np.uint8) * 9, morphd.square(3), 6)
    assert not recwarn.list
