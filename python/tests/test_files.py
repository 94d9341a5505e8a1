"""Pictures in files: what is written is read again, and what is no picture is told."""
import io
import random
import sys

import numpy as np
import reference_model
import pytest

import morphd
from morphd import Picture, Refused, files
from morphd.pixels import pixel_size

ARRAYS = {
    "bool": np.random.default_rng(1).random((5, 11)) < 0.5,
    "uint8": np.random.default_rng(2).integers(0, 256, (5, 11)).astype(np.uint8),
    "uint16": np.random.default_rng(3).integers(0, 65536, (5, 11)).astype(np.uint16),
}


def there_and_back(path, array, **options):
    morphd.write(path, array, **options)
    made = morphd.read(path)
    assert made.dtype == array.dtype
    np.testing.assert_array_equal(made, array)


@pytest.mark.parametrize("kind", ARRAYS)
def test_netpbm(tmp_path, kind):
    there_and_back(tmp_path / f"a.{'pbm' if kind == 'bool' else 'pgm'}", ARRAYS[kind])
    there_and_back(str(tmp_path / "a.pnm"), ARRAYS[kind][::-1, ::2])


@pytest.mark.parametrize("kind", ARRAYS)
def test_png(tmp_path, kind):
    pytest.importorskip("PIL")
    there_and_back(tmp_path / "a.png", ARRAYS[kind])
    there_and_back(tmp_path / "b.PNG", np.asfortranarray(ARRAYS[kind]))


@pytest.mark.parametrize("kind", ARRAYS)
@pytest.mark.parametrize("without", [(), ("tifffile",)])
def test_tiff(tmp_path, kind, without, monkeypatch):
    pytest.importorskip("PIL")
    if not without:
        pytest.importorskip("tifffile")
    for module in without:
        monkeypatch.setitem(sys.modules, module, None)
    there_and_back(tmp_path / "a.tif", ARRAYS[kind])
    there_and_back(tmp_path / "b.tiff", np.stack([ARRAYS[kind], ~ARRAYS[kind]]))
    # these would do for the colours of a picture, too
    there_and_back(tmp_path / "c.tif", np.stack([ARRAYS[kind], ~ARRAYS[kind]])[..., :3])
    there_and_back(tmp_path / "d.tif", np.stack([ARRAYS[kind], ~ARRAYS[kind], ARRAYS[kind]]))


def test_tiffs_without_pillow(tmp_path, monkeypatch):
    pytest.importorskip("tifffile")
    monkeypatch.setitem(sys.modules, "PIL.Image", None)
    there_and_back(tmp_path / "a.tif", ARRAYS["uint16"])
    there_and_back(tmp_path / "B.TIF", np.stack([ARRAYS["uint8"], ~ARRAYS["uint8"]]))


def test_other_order_of_bytes(tmp_path):
    pytest.importorskip("PIL")
    array = ARRAYS["uint16"].astype(">u2")
    for name in ("a.pgm", "a.png", "a.tif"):
        morphd.write(tmp_path / name, array)
        np.testing.assert_array_equal(morphd.read(tmp_path / name), array)


def test_maxval_is_told(tmp_path):
    array = ARRAYS["uint16"] % 4096
    morphd.write(tmp_path / "a.pgm", array, 4095)
    assert (tmp_path / "a.pgm").read_bytes().startswith(b"P5\n11 5\n4095\n")
    loaded = files.load(tmp_path / "a.pgm")
    assert loaded.maxval == 4095
    np.testing.assert_array_equal(loaded.array, array)
    morphd.write(tmp_path / "b.pgm", ARRAYS["uint8"])
    assert files.load(tmp_path / "b.pgm").maxval is None
    with pytest.raises(Refused, match="25 SAMPLE"):
        morphd.write(tmp_path / "a.pgm", array, 9)


def test_open_files_and_pipes(monkeypatch):
    held = io.BytesIO()
    morphd.write(held, ARRAYS["uint8"])
    np.testing.assert_array_equal(morphd.read(io.BytesIO(held.getvalue())), ARRAYS["uint8"])
    monkeypatch.setattr(sys, "stdin", io.TextIOWrapper(io.BytesIO(held.getvalue())))
    np.testing.assert_array_equal(morphd.read("-"), ARRAYS["uint8"])
    out = io.TextIOWrapper(io.BytesIO())
    monkeypatch.setattr(sys, "stdout", out)
    morphd.write("-", ARRAYS["uint8"])
    assert out.buffer.getvalue() == held.getvalue()
    below = io.BytesIO()
    monkeypatch.setattr(sys, "stdout", io.TextIOWrapper(io.BufferedWriter(below)))
    morphd.write("-", ARRAYS["uint8"])
    assert below.getvalue() == held.getvalue(), "it is passed on at once"


def test_colours_are_refused(tmp_path):
    images = pytest.importorskip("PIL.Image")
    for mode in ("RGB", "RGBA", "P", "LA", "F"):
        path = tmp_path / ("a.tif" if mode == "F" else "a.png")
        images.new(mode, (3, 2)).save(path)
        with pytest.raises(ValueError, match="is no set"):
            morphd.read(path)


@pytest.fixture(params=["tifffile", "Pillow alone"])
def tifffile(request):
    """What writes TIFFs; they are read by it, or by Pillow where it is missing."""
    module = pytest.importorskip("tifffile")
    pytest.importorskip("PIL")
    with pytest.MonkeyPatch.context() as here:
        if request.param != "tifffile":
            here.setitem(sys.modules, "tifffile", None)
        yield module


def test_colours_in_tiffs_are_refused(tmp_path, tifffile):
    """Planes of colours are no stack of pictures, and numbers of a palette are no levels."""
    colours, palette = np.arange(4 * 5 * 3, dtype=np.uint8).reshape(4, 5, 3), np.zeros((3, 256), np.uint16)
    for number, (array, options) in enumerate([
        (colours, {"photometric": "rgb"}), (np.stack([colours, colours]), {"photometric": "rgb"}),
        (np.moveaxis(colours, 2, 0).copy(), {"photometric": "rgb", "planarconfig": "separate"}),
        (colours[..., 0].copy(), {"photometric": "palette", "colormap": palette}),
    ]):
        tifffile.imwrite(tmp_path / f"{number}.tif", array, **options)
        with pytest.raises(ValueError, match=f"{number}.tif: a picture .*is no set"):
            morphd.read(tmp_path / f"{number}.tif")


def test_two_channels_of_grey_are_refused(tmp_path):
    module = pytest.importorskip("tifffile")
    channels = np.zeros((4, 5, 2), np.uint8)
    module.imwrite(tmp_path / "a.tif", channels, photometric="minisblack", planarconfig="contig", extrasamples=["unspecified"])
    with pytest.raises(ValueError, match="a.tif: a picture .*is no set"):
        morphd.read(tmp_path / "a.tif")


@pytest.mark.parametrize("kind", ARRAYS)
def test_tiffs_in_which_white_is_zero(tmp_path, tifffile, kind):
    tifffile.imwrite(tmp_path / "a.tif", ARRAYS[kind], photometric="miniswhite")
    np.testing.assert_array_equal(morphd.read(tmp_path / "a.tif"), ~ARRAYS[kind])


@pytest.mark.parametrize("kind, compression", [
    ("bool", "group4"), ("uint8", "tiff_lzw"), ("uint16", "tiff_lzw"), ("uint8", "tiff_adobe_deflate")])
def test_compressed_tiffs(tmp_path, tifffile, kind, compression):
    images = pytest.importorskip("PIL.Image")
    images.fromarray(ARRAYS[kind]).save(tmp_path / "a.tif", compression=compression)
    np.testing.assert_array_equal(morphd.read(tmp_path / "a.tif"), ARRAYS[kind])


@pytest.mark.parametrize("told, wanted", [
    ({"resolution": ((200000, 13), (200000, 13)), "resolutionunit": "CENTIMETER"}, (0.65, "µm")),
    ({"resolution": ((25400, 1), (25400, 1)), "resolutionunit": "INCH"}, (1.0, "µm")),
    ({"resolution": ((1, 1), (1, 1)), "resolutionunit": "NONE"}, None), ({}, None),
    ({"resolution": ((200, 1), (100, 1)), "resolutionunit": "CENTIMETER"}, None),
    ({"resolution": ((72, 1), (72, 1)), "resolutionunit": "CENTIMETER"}, (10000 / 72, "µm")),
    ({"resolution": ((72001, 1000), (72001, 1000)), "resolutionunit": "INCH"}, (25400 / 72.001, "µm")),
    ({"resolution": ((300, 1), (300, 1)), "resolutionunit": "INCH"}, (25400 / 300, "µm"))])
def test_the_pixel_of_a_tiff(tmp_path, tifffile, told, wanted):
    tifffile.imwrite(tmp_path / "a.tif", ARRAYS["uint8"], photometric="minisblack", **told)
    assert files.load(tmp_path / "a.tif")[2:] == (wanted, ())


@pytest.mark.parametrize("dots, named", [((72, 1), 72), ((96, 1), 96), ((720000, 10000), 72)])
def test_the_pixels_of_a_screen_are_no_measure(tmp_path, tifffile, dots, named):
    """Programs write them where nothing was measured. ImageJ does not take 72 of them either."""
    tifffile.imwrite(tmp_path / "a.tif", ARRAYS["uint8"], photometric="minisblack", resolution=(dots, dots), resolutionunit="INCH")
    loaded = morphd.load(tmp_path / "a.tif")
    assert loaded.pixel is None and len(loaded.doubts) == 1 and loaded.doubts[0].startswith(f"{named} pixels to the inch ")
    # what ImageJ names itself was measured
    tifffile.imwrite(tmp_path / "b.tif", ARRAYS["uint8"], imagej=True, resolution=(dots, dots), metadata={"unit": "inch"})
    assert morphd.load(tmp_path / "b.tif")[2:] == ((1 / named, "in"), ())


@pytest.mark.parametrize("named", [72, 96, 300])
def test_the_pixels_of_a_screen_by_pillow(tmp_path, tifffile, named):
    images = pytest.importorskip("PIL.Image")
    images.fromarray(ARRAYS["uint8"]).save(tmp_path / "a.tif", dpi=(named, named))
    loaded = morphd.load(tmp_path / "a.tif")
    assert loaded.pixel == (None if named < 100 else (25400 / 300, "µm")) and len(loaded.doubts) == int(named < 100)


@pytest.mark.parametrize("unit, wanted", [
    ("micron", (0.4, "µm")), ("um", (0.4, "µm")), ("\\u00B5m", (0.4, "µm")), ("nm", (0.4, "nm")), ("pixel", None), ("furlong", (0.4, "furlong"))])
def test_the_pixel_of_imagej(tmp_path, tifffile, unit, wanted):
    tifffile.imwrite(tmp_path / "a.tif", ARRAYS["uint8"], imagej=True, resolution=((5, 2), (5, 2)), metadata={"unit": unit})
    assert morphd.load(tmp_path / "a.tif").pixel == wanted


def test_a_unit_that_no_program_names_is_none(tmp_path, tifffile):
    tifffile.imwrite(tmp_path / "a.tif", ARRAYS["uint8"], resolution=((5, 2), (5, 2)), resolutionunit="NONE", description="unit=nm",
                     metadata=None, photometric="minisblack")
    assert files.load(tmp_path / "a.tif").pixel is None


@pytest.mark.parametrize("kind", ARRAYS)
@pytest.mark.parametrize("pixel", ["0.65um", "0.0123456789 µm", "12.34 nm", "0.5mm", (1 / 3, "µm"), "2in", "3m"])
def test_pixels_are_written_back(tmp_path, tifffile, kind, pixel):
    """Into pictures and stacks, of bits too, and by either package."""
    for array in (ARRAYS[kind], np.stack([ARRAYS[kind], ~ARRAYS[kind]])):
        morphd.write(tmp_path / "a.tif", array, pixel=pixel)
        loaded = files.load(tmp_path / "a.tif")
        np.testing.assert_array_equal(loaded.array, array)
        assert loaded.pixel.unit == "µm"
        assert loaded.pixel.size == pytest.approx(pixel_size(pixel).micrometres, rel=1e-8)
        morphd.write(tmp_path / "b.tif", array, pixel=loaded.pixel)
        assert files.load(tmp_path / "b.tif").pixel == loaded.pixel


def test_pixels_that_no_tiff_tells(tmp_path, tifffile):
    for wrong in (0.5, "3 furlongs", "1e-9nm", "1e9m", "1,5um"):
        with pytest.raises(ValueError, match="pixel"):
            morphd.write(tmp_path / "a.tif", ARRAYS["uint8"], pixel=wrong)
    morphd.write(tmp_path / "a.tif", ARRAYS["uint8"], pixel=1)
    morphd.write(tmp_path / "a.png", ARRAYS["uint8"], pixel="0.65um")
    morphd.write(tmp_path / "a.pgm", ARRAYS["uint8"], pixel="0.65um")
    assert [files.load(tmp_path / name).pixel for name in ("a.tif", "a.png", "a.pgm")] == [None, None, None]


def test_pages_of_32_bits(tmp_path):
    """Pillow reads levels of 16 bits as such at times: they are taken as far as 16 bits go."""
    images = pytest.importorskip("PIL.Image")
    for least, most in ((0, 65535), (7, 9), (-1, 9), (0, 65536)):
        held = np.array([[least, most, least]], np.int32)
        images.fromarray(held).save(tmp_path / "a.tif")
        if 0 <= least and most <= 65535:
            made = files._of_pillow(tmp_path / "a.tif", "a.tif")
            assert made.dtype == np.uint16 and made.tolist() == held.tolist()
        else:
            with pytest.raises(ValueError, match="mode I is no set"):
                files._of_pillow(tmp_path / "a.tif", "a.tif")


def test_pages_that_differ(tmp_path):
    images = pytest.importorskip("PIL.Image")
    for other in (ARRAYS["uint8"][1:], ARRAYS["uint16"]):
        first, second = images.fromarray(ARRAYS["uint8"]), images.fromarray(other)
        first.save(tmp_path / "a.tif", save_all=True, append_images=[second])
        with pytest.raises(ValueError, match="a.tif: its pages differ"):
            files._of_pillow(tmp_path / "a.tif", "a.tif")


def test_what_is_not_written(tmp_path):
    with pytest.raises(TypeError, match="float64"):
        morphd.write(tmp_path / "a.pgm", np.ones((2, 2)))
    with pytest.raises(ValueError, match="suffix"):
        morphd.write(tmp_path / "a.jpg", ARRAYS["uint8"])
    with pytest.raises(TypeError, match="3"):
        morphd.write(tmp_path / "a.pgm", np.ones((2, 2, 2), np.uint8))
    with pytest.raises(ValueError, match="two axes"):
        pytest.importorskip("PIL")
        morphd.write(tmp_path / "a.png", np.ones((2, 2, 2), np.uint8))


def test_a_missing_module_is_told(tmp_path, monkeypatch):
    monkeypatch.setitem(sys.modules, "PIL.Image", None)
    with pytest.raises(ImportError, match="apt-get install python3-pil"):
        morphd.write(tmp_path / "a.png", ARRAYS["uint8"])


PAYLOADS = [
    b"P1\n3 2\n1 0 1\n010\n", b"P1 3 2 #c\n101010", b"P2\n2 1\n1000\n7 1000\n", b"P2#x\n2 1\n9\n3 4",
    b"P2 #x\n2 1\n9\n#y\n3 #z\n4 and more",
    b"P4\n3 1\n\xa0", b"P4\n9 2\n\xff\x80\x01\x00", b"P5\n2 1\n9\n\7\1", b"P5\n2 1\n300\n\1\x2c\0\1", b"P5 # \n 1\t1\r255 \x09",
    b"", b"P6\n1 1\n9\n\0", b"P5\n1 1\n", b"P5\n0 1\n9\n", b"P5\n1 1\n0\n\0", b"P5\n1 1\n65536\n\0",
    b"P2\n2 1\n9\n7", b"P2\n2 1\n9\n7 x", b"P2\n2 1\n9\n7 10",
    b"P1\n2 1\n1", b"P1\n2 1\n12", b"P1\n1 1\n1", b"P5\n2 1\n9\n\7", b"P5\n2 1\n9\n\7\1\1",
    b"P5\n2 1\n9\n\7\x0a", b"P5\n1 1\n300\n\1\x2d", b"P4\n9 1\n\0",
    # what is no white space, and no comment
    b"P2\n2 1\n9\n7#c\n1", b"P2\n2 1\n9\n7\v1", b"P2\n2 1\n9\n7\f1", b"P2\n2 1\n9\n\v7 1", b"P1\n2 1\n1\f0", b"P1\v2 1\n10", b"P1 2 1\f10",
    b"P2\n1 1\n9\n7#c\n", b"P2\n1 1\n9\n7\v", b"P2\n1 1\n9\n7x", b"P1\n1 1\n1#c\n", b"P1\n1 1\n1\f",
    b"P1\n2 1\n1#c\n0", b"P1\n2 1#c\n10", b"P1\n2 1\n#c\r1#d #e\n0 #", b"P2\n2 1\n9\n#c\n7 #d\n1", b"P2\n2 1\n9\n7 #c", b"P1\n1 1\n#1",
    b"P2\n2 1\n9\n+7 1", b"P2\n2 1\n9\n7 1_0", b"P2\n2 1\n9\n7 -0", b"P2\n2 1\n9\n\xd9\xa1 1", b"P5\n+1 1\n9\n\0", b"P5\n1 1\n 9 \0",
    # of two faults the one that comes first
    b"P1\n2 1\n2", b"P1\n2 1\n12x", b"P1\n1 1\n12", b"P2\n3 1\n9\n7 x", b"P2\n3 1\n9\n10 7", b"P2\n1 1\n9\n10x", b"P2\n2 1\n9\n7 10x",
    b"P5\n1 1\n9\n\x0a\1", b"P5\n1 1\n300\n\1\x2d\0", b"P5\n2 1\n9\n\x0a", b"P5\n0 1\n0\n", b"P5\n8193 1\n0\n", b"P5\n8193 1\n9\n\0",
    b"P4\n8192 8192\n\0", b"P2\n4096 4097\n9\nx", b"P1\n1 8193\n", b"P1\n99999999999999999999 99999999999999999999\n1",
    b"P2\n99999999999999999999 99999999999999999999\n9\n1",
    # numbers of more digits than Python reads
    b"P2\n1 1\n9\n" + 5000 * b"0" + b"7", b"P2\n1 1\n9\n" + 5000 * b"1", b"P5\n" + 5000 * b"1" + b" 1\n9\n\0",
    b"P5\n1 1\n" + 5000 * b"1" + b"\n\0", b"P5\n" + 5000 * b"0" + b"1 1\n9\n\7",
]


def read_by_the_model(payload):
    """The picture, or the number of the refusal. The model reads numbers of any length, which Python does only if it is told."""
    most = sys.get_int_max_str_digits()
    sys.set_int_max_str_digits(0)
    try:
        return reference_model.image_in(payload)
    except reference_model.Refused as refused:
        return refused.code
    finally:
        sys.set_int_max_str_digits(most)


def read_here(payload):
    """What the package reads of a payload, or the number of its refusal."""
    try:
        made = Picture.of_file(payload)
    except Refused as refused:
        return refused.number
    return reference_model.Image("BIT" if made.is_set else "GREY", made.width, made.height, made.maxval, sum(made.rows(), []))


@pytest.mark.parametrize("payload", PAYLOADS, ids=range(len(PAYLOADS)))
def test_netpbm_files_are_read_as_the_model_reads_them(payload):
    wanted = read_by_the_model(payload)
    assert read_here(payload) == wanted
    if isinstance(wanted, int):
        return
    made = Picture.of_file(payload)
    assert np.asarray(made).ravel().tolist() == wanted.samples
    assert made.file() == reference_model.image_text(wanted)
    assert Picture.of_file(made.file()) == made


GAPS = [b" ", b"\n", b"\t", b"\r", b"\r\n", b" #c\n", b"\n# a # b\r\n ", b"\n#\n"]
PIECES = [bytes([sign]) for sign in b"01279#-+_xP \t\r\n\v\f\0\xff"] + [
    b"#c\n", b" #c\r", b"00", b"256", b"65535", b"65536", b"8192", b"8193", b"P1"]


def random_file(rng):
    """A small file of any format, with gaps and zeros of every kind."""
    magic, (width, height) = rng.choice([1, 2, 4, 5]), rng.choice([(1, 1), (2, 1), (3, 2), (9, 2), (8, 1), (1, 4)])
    maxval = 1 if magic in (1, 4) else rng.choice([1, 9, 99, 255, 256, 300, 65535])
    samples = [rng.choice([0, maxval, rng.randint(0, maxval)]) for _ in range(width * height)]
    numbers = [width, height] + ([maxval] if magic in (2, 5) else [])
    head = b"P%d" % magic + b"".join(rng.choice(GAPS) + rng.choice([b"", b"", b"00"]) + b"%d" % number for number in numbers)
    head += rng.choice([b" ", b"\n", b"\t", b"\r"])
    if magic == 1:
        return head + b"".join(rng.choice([b"", b"", b"#c\n", *GAPS]) + b"%d" % sample for sample in samples) + rng.choice([b"", b"\nmore"])
    if magic == 2:
        words = [rng.choice([b"", b"", b"0"]) + b"%d" % sample for sample in samples]
        return head + rng.choice([b"", b"#c\n", *GAPS]) + rng.choice(GAPS).join(words) + rng.choice([b"", b"\nmore"])
    if magic == 4:
        return head + rng.randbytes(height * ((width + 7) // 8))
    return head + b"".join(sample.to_bytes(1 if maxval < 256 else 2, "big") for sample in samples)


def mutated(rng, data):
    """The bytes with up to three of them, or the end, put in, taken away or replaced."""
    for _ in range(rng.choice([0, 1, 1, 1, 2, 3])):
        at = rng.randrange(len(data) + 1)
        piece = rng.choice([b"", rng.choice(PIECES), rng.choice(PIECES)])
        data = data[:at] + piece + data[at + rng.choice([0, 0, 1, 1, 2, len(data)]) :]
    return data


def test_mutations_of_netpbm_files():
    """Each is the picture of the model, or has its number."""
    rng, met = random.Random(1), {}
    for _ in range(8000):
        data = mutated(rng, random_file(rng))
        wanted = read_by_the_model(data)
        assert read_here(data) == wanted, data
        kind = wanted if isinstance(wanted, int) else wanted.kind
        met[kind] = met.get(kind, 0) + 1
    assert min(met.get(kind, 0) for kind in ("BIT", "GREY", *range(20, 27))) > 50, met


def test_larger_files_than_sessions_take():
    """A whole one is read; one with any fault is refused by its size, as a session refuses it."""
    for head, raster in ((b"P5\n8193 1\n9\n", 8193 * b"\7"), (b"P4\n1 8193\n", 8193 * b"\x80"), (b"P2\n1 8193\n9\n", 8193 * b" 7")):
        assert read_by_the_model(head + raster) == 22
        assert len(Picture.of_file(head + raster).samples) == 8193
        assert read_here(head + raster[:-2]) == read_here(head + raster + b"x") == 22
    with pytest.raises(Refused, match="of 1 x 8193, refused by 24 SHORT as well: .*22 SIZE"):
        Picture.of_file(b"P5\n8193 1\n9\n")


def test_netpbm_files_are_read_as_a_session_reads_them(program):
    """The stand-in reads numbers of as many digits as Python does."""
    with morphd.Session(program=program) as session:
        for payload in [each for each in PAYLOADS if len(each) < 4000 or not program.endswith("fake")]:
            try:
                held = session.load(payload).result().file()
            except Refused as refused:
                held = refused.number
            wanted = read_here(payload)
            assert held == (wanted if isinstance(wanted, int) else reference_model.image_text(wanted)), payload


def test_pictures_of_arrays():
    for array in ARRAYS.values():
        picture = Picture.of_array(array)
        np.testing.assert_array_equal(np.asarray(picture), array)
        assert np.asarray(picture).dtype == array.dtype
        assert Picture.of_file(picture.file()) == picture
    for wrong in (np.ones((2, 2)), np.ones(3, np.uint8)):
        with pytest.raises(TypeError):
            Picture.of_array(wrong)
    with pytest.raises(TypeError, match="float"):
        Picture.of_array(ARRAYS["uint8"], 9.9)
    for maxval, number in ((0, "23 MAXVAL"), (65536, "23 MAXVAL"), (9, "25 SAMPLE")):
        with pytest.raises(Refused, match=number):
            Picture.of_array(ARRAYS["uint16"], maxval)


@pytest.mark.parametrize("dtype, maxval", [
    (np.uint8, 9), (np.uint8, 255), (np.uint8, 256), (np.uint16, 9), (np.uint16, 255), (np.uint16, 300)])
def test_samples_of_a_picture_are_as_wide_as_its_maxval(dtype, maxval):
    """And not as wide as the type of the array that it was made of."""
    array = np.array([[0, 9, 1], [3, 0, 7]], dtype)
    picture = Picture.of_array(array, maxval)
    assert picture.file() == reference_model.image_text(reference_model.Image("GREY", 3, 2, maxval, array.ravel().tolist()))
    made = np.asarray(picture)
    assert made.tolist() == picture.rows() == array.tolist()
    assert made.dtype == (np.uint8 if maxval < 256 else np.uint16) and picture.__array__(float).dtype == float
    with pytest.raises(Refused, match="22 SIZE"):
        Picture.of_array(np.ones((0, 2), np.uint8))


def test_arrays_go_to_sessions_and_come_back(program):
    with morphd.Session(program=program) as session:
        for array in ARRAYS.values():
            np.testing.assert_array_equal(session.load(array).array(), array)
        camera = ARRAYS["uint16"] % 4096
        far = morphd.Footprint([[1, 0, 0]], (0, 2))
        eroded = session.erosion(session.load(camera, 4095), far)
        np.testing.assert_array_equal(np.asarray(eroded), morphd.erosion(camera, far, maxval=4095))
        grains = np.array([[1, 0, 1, 1, 1, 0, 1]], bool)
        curve = session.spectrum(grains, [[1, 1, 1]], 2).spectrum("0.32um")
        wanted = morphd.spectrum(grains, [[1, 1, 1]], 2, "0.32um")
        assert str(curve) == str(wanted) and curve.is_set
        assert not session.spectrum(grains.astype(np.uint8), [[1, 1, 1]], 2).spectrum().is_set
        with pytest.raises(TypeError, match="no spectrum"):
            session.load(grains).spectrum()


def test_files_go_to_sessions(program, tmp_path):
    pytest.importorskip("PIL")
    morphd.write(tmp_path / "a.png", ARRAYS["uint8"])
    morphd.write(tmp_path / "a.pbm", ARRAYS["bool"])
    with morphd.Session(program=program) as session:
        np.testing.assert_array_equal(session.load(tmp_path / "a.png").array(), ARRAYS["uint8"])
        np.testing.assert_array_equal(session.load(str(tmp_path / "a.pbm")).array(), ARRAYS["bool"])
        np.testing.assert_array_equal(session.load((tmp_path / "a.pbm").read_bytes()).array(), ARRAYS["bool"])
        assert session.load(tmp_path / "a.png").result().maxval == 255
        morphd.write(tmp_path / "b.png", ARRAYS["uint16"] % 4096)
        assert session.load(tmp_path / "b.png", 4095).result() == Picture.of_array(ARRAYS["uint16"] % 4096, 4095)
