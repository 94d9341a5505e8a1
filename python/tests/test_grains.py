"""Sizes of grains in a shell: levels by Otsu, pixels of TIFFs, and what is said of doubtful curves."""
import numpy as np
import pytest

import morphd
from morphd.__main__ import main
from morphd.curves import measured


@pytest.fixture
def grains():
    """Two bright grains on a dark ground, of levels that Otsu's parts at 101."""
    image = np.full((14, 24), 100, np.uint8)
    image[3:7, 3:7], image[3:10, 12:19] = 180, 200
    return image


def run(folder, line):
    return main([str(folder / word[1:]) if word.startswith("@") else word for word in line.split()])


def test_otsu(tmp_path, grains, capsys):
    morphd.write(tmp_path / "grains.pgm", grains)
    assert run(tmp_path, "threshold --at otsu @grains.pgm -o @mask.pbm") == 0
    np.testing.assert_array_equal(morphd.read(tmp_path / "mask.pbm"), grains > 100)
    assert capsys.readouterr().err == f"morph: {tmp_path / 'grains.pgm'}: the threshold is 101, by Otsu\n"
    morphd.write(tmp_path / "flat.pgm", np.full((3, 3), 7, np.uint8))
    assert run(tmp_path, "threshold --at otsu @flat.pgm -o @mask.pbm") == 1
    assert "all samples are the same" in capsys.readouterr().err


def test_a_threshold_over_all_samples(tmp_path, grains, capsys):
    morphd.write(tmp_path / "grains.pgm", grains)
    assert run(tmp_path, "threshold --at 201 @grains.pgm -o @mask.pbm") == 0
    told = f"morph: {tmp_path / 'grains.pgm'}: no sample reaches the threshold, so the set is empty: the greatest is 200\n"
    assert capsys.readouterr().err == told
    assert run(tmp_path, "threshold --at 200 @grains.pgm -o @mask.pbm") == 0
    assert capsys.readouterr().err == ""


@pytest.mark.parametrize("made, told", [
    (lambda f: f > 250, "the set is empty: "), (lambda f: f < 150, "the set covers 81% of the frame: "),
    (lambda f: f[:, 5:] > 150, "grains that the frame cuts, and what touches them, have 14.0% of the area: "), (lambda f: np.pad(f > 190, 9), "100% is left over: ")])
def test_doubtful_curves(tmp_path, grains, capsys, made, told):
    """A line each, and the curve as ever."""
    morphd.write(tmp_path / "mask.pbm", made(grains))
    sizes = 2 if "left" in told else 8
    assert run(tmp_path, f"spectrum --square 3 --sizes {sizes} @mask.pbm") == 0
    printed = capsys.readouterr()
    assert printed.out == f"{measured(made(grains), morphd.square(3), sizes)}\n"
    lines = printed.err.splitlines()
    assert lines[0].startswith(f"morph: {tmp_path / 'mask.pbm'}: {told}")
    assert len(lines) == 1 or "covers" in told


def test_a_curve_without_a_doubt(tmp_path, grains, capsys, recwarn):
    morphd.write(tmp_path / "mask.pbm", grains > 100)
    assert run(tmp_path, "spectrum --square 3 --sizes 4 @mask.pbm") == 0
    assert capsys.readouterr().err == "" and not recwarn.list


def test_the_pixel_of_a_tiff_counts(tmp_path, grains, capsys):
    """Where --pixel is left out; and it is in the TIFF that is made of one."""
    pytest.importorskip("tifffile")
    pytest.importorskip("PIL")
    morphd.write(tmp_path / "grains.tif", grains, pixel="0.65um")
    assert run(tmp_path, "threshold --at 120 @grains.tif -o @mask.tif") == 0
    assert morphd.load(tmp_path / "mask.tif").pixel == (0.65, "µm")
    assert run(tmp_path, "spectrum --square 3 --sizes 4 @mask.tif") == 0
    assert capsys.readouterr().out == f"{measured(grains > 120, morphd.square(3), 4, '0.65um')}\n"
    assert run(tmp_path, "spectrum --square 3 --sizes 4 --pixel 2px @mask.tif") == 0
    assert capsys.readouterr().out == f"{measured(grains > 120, morphd.square(3), 4, '2px')}\n"
    assert run(tmp_path, "opening --square 3 @grains.tif -o @opened.pgm") == 0
    morphd.write(tmp_path / "mask.pbm", grains > 120)
    assert run(tmp_path, "spectrum --square 3 --sizes 4 @mask.pbm") == 0
    assert "square in pixels" in capsys.readouterr().out


def test_the_pixels_of_a_screen_are_said_and_not_taken(tmp_path, grains, capsys):
    module = pytest.importorskip("tifffile")
    module.imwrite(tmp_path / "a.tif", grains, photometric="minisblack", resolution=((72, 1), (72, 1)), resolutionunit="INCH")
    assert run(tmp_path, "spectrum --square 3 --sizes 4 @a.tif") == 0
    told = capsys.readouterr()
    assert told.out == f"{measured(grains, morphd.square(3), 4)}\n"
    assert told.err.splitlines()[0] == (
        f"morph: {tmp_path / 'a.tif'}: 72 pixels to the inch are what programs write where nothing was measured, so they are not taken: "
        "widths are in pixels, unless --pixel tells a side")
    assert run(tmp_path, "spectrum --square 3 --sizes 4 --pixel 2um @a.tif") == 0
    told = capsys.readouterr()
    assert told.out == f"{measured(grains, morphd.square(3), 4, '2um')}\n" and "inch" not in told.err
    assert run(tmp_path, "opening --square 3 @a.tif -o @b.tif") == 0
    assert "inch" not in capsys.readouterr().err and morphd.load(tmp_path / "b.tif").pixel is None


def test_a_unit_that_no_tiff_holds_is_not_written_back(tmp_path, grains):
    module = pytest.importorskip("tifffile")
    module.imwrite(tmp_path / "a.tif", grains, imagej=True, resolution=((5, 2), (5, 2)), metadata={"unit": "furlong"})
    assert run(tmp_path, "opening --square 3 @a.tif -o @b.tif") == 0
    assert morphd.load(tmp_path / "b.tif").pixel is None
