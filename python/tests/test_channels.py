"""One channel and one page of pictures that have several, series of pages, and forms over pipes; with tifffile and without."""
import io
import sys

import numpy as np
import pytest

import morphd
from morphd import files

COLOURS = np.random.default_rng(1).integers(0, 256, (5, 7, 4)).astype(np.uint8)
GREY = COLOURS[..., 3]


@pytest.fixture(params=["tifffile", "Pillow alone"])
def tifffile(request):
    """What writes TIFFs; they are read by it, or by Pillow where it is missing."""
    module = pytest.importorskip("tifffile")
    pytest.importorskip("PIL")
    with pytest.MonkeyPatch.context() as here:
        if request.param != "tifffile":
            here.setitem(sys.modules, "tifffile", None)
        yield module


@pytest.mark.parametrize("mode, names", [
    ("RGB", ["red", "green", "blue"]), ("RGBA", ["red", "green", "blue", "alpha"]), ("LA", ["grey", "alpha"])])
def test_channels_of_a_png(tmp_path, mode, names):
    images = pytest.importorskip("PIL.Image")
    held = COLOURS[..., : len(names)]
    images.fromarray(held, mode).save(tmp_path / "a.png")
    for at, name in enumerate(names):
        for channel in (name, at):
            np.testing.assert_array_equal(morphd.read(tmp_path / "a.png", channel=channel), held[..., at])
            np.testing.assert_array_equal(morphd.read(io.BytesIO((tmp_path / "a.png").read_bytes()), channel=channel), held[..., at])
    for wrong in (len(names), -1, "yellow", "2"):
        with pytest.raises(ValueError, match=f"a.png: it has no channel {wrong}, but {', '.join(names)}"):
            morphd.read(tmp_path / "a.png", channel=wrong)
    with pytest.raises(ValueError, match=f"a.png: a picture of mode {mode} is no set .*: choose one channel"):
        morphd.read(tmp_path / "a.png")


def test_a_palette_is_one_of_colours(tmp_path, tifffile):
    images = pytest.importorskip("PIL.Image")
    few = COLOURS[..., :3] // 128 * 255
    images.fromarray(few).quantize(8).save(tmp_path / "a.png")
    colours = np.random.default_rng(2).integers(0, 65536, (3, 256)).astype(np.uint16)
    tifffile.imwrite(tmp_path / "a.tif", GREY, photometric="palette", colormap=colours)
    for at, name in enumerate(("red", "green", "blue")):
        np.testing.assert_array_equal(morphd.read(tmp_path / "a.png", channel=name), few[..., at])
        np.testing.assert_array_equal(morphd.read(tmp_path / "a.tif", channel=name), (colours[at] >> 8)[GREY])
    for path in ("a.png", "a.tif"):
        with pytest.raises(ValueError, match=f"{path}: a picture .* is no set .*: choose one channel"):
            morphd.read(tmp_path / path)


@pytest.mark.parametrize("planar", ["contig", "separate"])
def test_channels_of_a_tiff(tmp_path, tifffile, planar):
    for planes, name in ((COLOURS[None, ..., :3], "a.tif"), (np.stack([COLOURS, ~COLOURS])[..., :3], "b.tif")):
        held = np.ascontiguousarray(planes if planar == "contig" else np.moveaxis(planes, 3, 1))
        tifffile.imwrite(tmp_path / name, held if len(held) > 1 else held[0], photometric="rgb", planarconfig=planar)
        for at, channel in enumerate(("red", "green", "blue")):
            np.testing.assert_array_equal(morphd.read(tmp_path / name, channel=channel), planes.squeeze()[..., at])
            np.testing.assert_array_equal(morphd.read(tmp_path / name, channel=at, page=len(planes) - 1), planes[-1, ..., at])
        with pytest.raises(ValueError, match=f"{name}: it has no channel alpha, but red, green, blue"):
            morphd.read(tmp_path / name, channel="alpha")


def test_what_more_a_tiff_has(tmp_path, tifffile):
    tifffile.imwrite(tmp_path / "a.tif", COLOURS, photometric="rgb", extrasamples=["unassalpha"])
    np.testing.assert_array_equal(morphd.read(tmp_path / "a.tif", channel="alpha"), GREY)


def test_channels_without_a_meaning_have_numbers(tmp_path):
    module = pytest.importorskip("tifffile")
    module.imwrite(tmp_path / "a.tif", COLOURS[..., :2], photometric="minisblack", planarconfig="contig", extrasamples=["unspecified"])
    np.testing.assert_array_equal(morphd.read(tmp_path / "a.tif", channel=1), COLOURS[..., 1])
    with pytest.raises(ValueError, match="it has no channel red, but grey, 1"):
        morphd.read(tmp_path / "a.tif", channel="red")


def test_colours_of_16_bits_are_not_cut_to_8(tmp_path, tifffile):
    deep = COLOURS[..., :3].astype(np.uint16) * 257 - 1
    tifffile.imwrite(tmp_path / "a.tif", deep, photometric="rgb")
    if sys.modules["tifffile"] is None:
        with pytest.raises(ValueError, match="a.tif: of colours of 16 bits Pillow reads 8"):
            morphd.read(tmp_path / "a.tif", channel="green")
    else:
        np.testing.assert_array_equal(morphd.read(tmp_path / "a.tif", channel="green"), deep[..., 1])


def test_colours_of_16_bits_in_a_png_are_refused(tmp_path):
    cv2 = pytest.importorskip("cv2")
    cv2.imwrite(str(tmp_path / "a.png"), COLOURS[..., :3].astype(np.uint16) * 257)
    with pytest.raises(ValueError, match="a.png: of colours of 16 bits Pillow reads 8"):
        morphd.read(tmp_path / "a.png", channel="red")


def test_one_page_of_several(tmp_path, tifffile):
    pages = np.stack([GREY, ~GREY, GREY // 2])
    for name, options in (("a.tif", {}), ("b.tif", {"photometric": "miniswhite"})):
        tifffile.imwrite(tmp_path / name, pages, **{"photometric": "minisblack", **options})
        wanted = ~pages if options else pages
        np.testing.assert_array_equal(morphd.read(tmp_path / name), wanted)
        for at in range(3):
            np.testing.assert_array_equal(morphd.read(tmp_path / name, page=at), wanted[at])
            np.testing.assert_array_equal(morphd.read(io.BytesIO((tmp_path / name).read_bytes()), page=at), wanted[at])
        for wrong in (3, -1):
            with pytest.raises(ValueError, match=f"{name}: it has no page {wrong}, but 3, counted from 0"):
                morphd.read(tmp_path / name, page=wrong)


def test_several_series_are_no_stack(tmp_path, tifffile):
    for name, other in (("a.tif", GREY[:3]), ("b.tif", GREY.astype(np.uint16)), ("c.tif", COLOURS[..., :3])):
        with tifffile.TiffWriter(tmp_path / name) as file:
            file.write(GREY, photometric="minisblack")
            file.write(other, photometric="rgb" if other.ndim == 3 else "minisblack")
        with pytest.raises(ValueError, match=f"{name}: "):
            morphd.read(tmp_path / name)
        np.testing.assert_array_equal(morphd.read(tmp_path / name, page=0), GREY)
        if other.ndim == 2:
            np.testing.assert_array_equal(morphd.read(tmp_path / name, page=1), other)
        else:
            np.testing.assert_array_equal(morphd.read(tmp_path / name, page=1, channel="green"), other[..., 1])


def test_pages_of_black_and_of_white_at_0(tmp_path, tifffile):
    """They are refused, or each is turned over by itself."""
    with tifffile.TiffWriter(tmp_path / "a.tif") as file:
        for photometric in ("minisblack", "miniswhite"):
            file.write(GREY, photometric=photometric, metadata=None)
    try:
        made = morphd.read(tmp_path / "a.tif")
    except ValueError as told:
        assert "a.tif: it has 2 series" in str(told)
    else:
        np.testing.assert_array_equal(made, np.stack([GREY, ~GREY]))
    np.testing.assert_array_equal(morphd.read(tmp_path / "a.tif", page=1), ~GREY)


def test_pictures_of_one_channel_and_one_page(tmp_path):
    pytest.importorskip("PIL")
    for name in ("a.pgm", "a.png", "a.tif"):
        morphd.write(tmp_path / name, GREY)
        for options in ({"channel": 0}, {"channel": "grey"}, {"page": 0}, {"channel": 0, "page": 0}):
            np.testing.assert_array_equal(morphd.read(tmp_path / name, **options), GREY)
        for options in ({"channel": 1}, {"channel": "red"}, {"page": 1}, {"page": -1}):
            with pytest.raises(ValueError, match=f"{name}: it has no (channel|page)"):
                morphd.read(tmp_path / name, **options)


def test_first_bytes_tell_what_a_file_is(tmp_path, tifffile):
    for form, suffix in (("png", ".tif"), ("tiff", ".png"), ("pnm", ".tiff"), ("tiff", ".dat")):
        morphd.write(tmp_path / f"a{suffix}", GREY, form=form)
        np.testing.assert_array_equal(morphd.read(tmp_path / f"a{suffix}"), GREY)


@pytest.mark.parametrize("form, start", [("pnm", b"P5"), ("png", b"\x89PNG"), ("tiff", b"II*\0")])
def test_forms_over_pipes(monkeypatch, form, start):
    pytest.importorskip("PIL")
    out = io.TextIOWrapper(io.BytesIO())
    monkeypatch.setattr(sys, "stdout", out)
    morphd.write("-", GREY, form=form)
    data = out.buffer.getvalue()
    assert data.startswith(start)
    held = io.BytesIO()
    morphd.write(held, GREY, form=form)
    np.testing.assert_array_equal(morphd.read(io.BytesIO(held.getvalue())), GREY)
    monkeypatch.setattr(sys, "stdin", io.TextIOWrapper(io.BytesIO(data)))
    np.testing.assert_array_equal(morphd.read("-"), GREY)


def test_standard_streams_that_are_closed(monkeypatch):
    monkeypatch.setattr(sys, "stdin", None)
    monkeypatch.setattr(sys, "stdout", None)
    with pytest.raises(OSError, match="the standard input is closed"):
        morphd.read("-")
    with pytest.raises(OSError, match="the standard output is closed"):
        morphd.write("-", GREY)


def test_levels_are_no_pbm(tmp_path):
    for form in (None, "pnm"):
        with pytest.raises(ValueError, match="a.pbm: a PBM holds a set"):
            morphd.write(tmp_path / "a.pbm", GREY, form=form)
    assert not (tmp_path / "a.pbm").exists()
    morphd.write(tmp_path / "a.pbm", GREY > 99)
    assert morphd.read(tmp_path / "a.pbm").dtype == bool


def test_a_picture_stays_where_the_new_one_cannot_be_written(tmp_path):
    morphd.write(tmp_path / "a.pgm", GREY)
    with pytest.raises(morphd.Refused, match="25 SAMPLE"):
        morphd.write(tmp_path / "a.pgm", GREY, 1)
    np.testing.assert_array_equal(morphd.read(tmp_path / "a.pgm"), GREY)


def test_what_pillow_does_not_read_is_told_in_words(tmp_path):
    pytest.importorskip("PIL")
    (tmp_path / "a.png").write_bytes(b"nothing of that kind")
    with pytest.raises(ValueError, match="a.png: it is no picture that Pillow reads$"):
        morphd.read(tmp_path / "a.png")
    assert files.load(io.BytesIO(b"P4 1 1\n\x80")).array.tolist() == [[True]]


@pytest.mark.parametrize("compression", [None, "tiff_lzw", "tiff_adobe_deflate", "packbits", "group4"])
@pytest.mark.parametrize("kind", ["bool", "uint8", "uint16"])
def test_compressed_tiffs_in_which_white_is_zero(tmp_path, tifffile, kind, compression):
    """The tag that says so is turned in a file that Pillow wrote."""
    images = pytest.importorskip("PIL.Image")
    if compression == "group4" and kind != "bool":
        return
    array = GREY > 99 if kind == "bool" else GREY.astype(kind)
    images.fromarray(array).save(tmp_path / "a.tif", compression=compression)
    data = bytearray((tmp_path / "a.tif").read_bytes())
    at = data.index(b"\x06\x01\x03\0\x01\0\0\0") + 8
    assert data[at] == 1
    data[at] = 0
    (tmp_path / "b.tif").write_bytes(data)
    np.testing.assert_array_equal(morphd.read(tmp_path / "a.tif"), array)
    np.testing.assert_array_equal(morphd.read(tmp_path / "b.tif"), ~array)
