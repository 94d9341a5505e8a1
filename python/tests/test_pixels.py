"""The side of a pixel as a text."""
import math

import pytest

from morphd.pixels import Pixel, pixel_size


@pytest.mark.parametrize("given, wanted", [
    ("0.32um", (0.32, "µm")), ("0.32 µm", (0.32, "µm")), (" .5mm ", (0.5, "mm")), ("1.5e-3mm", (0.0015, "mm")), ("2.nm", (2.0, "nm")),
    ("2", (2.0, "pixels")), ("1px", (1.0, "pixels")), (1.0, (1.0, "pixels")), (0.5, (0.5, "units")), ((0.5, "micron"), (0.5, "µm")),
    ("3Å", (3.0, "Å")), ("0.1 inch", (0.1, "in")), (Pixel(2.0, "mm"), (2.0, "mm")),
    ([0.5, "um"], (0.5, "µm"))])
def test_sizes(given, wanted):
    assert pixel_size(given) == wanted


def test_both_signs_for_micro_are_one():
    assert pixel_size("0.32\u03bcm") == pixel_size("0.32\u00b5m") == (0.32, "\u00b5m")
    assert pixel_size((0.32, "\u03bcm")) == (0.32, "\u00b5m")


@pytest.mark.parametrize("wrong", [
    "um", "-1um", "0um", 0, -2.0, math.inf, math.nan, "1 2 um", "1,5um", "1/3um", "1.5.2um", "0x10um", "1_000um", "0.65um/px", "1;um", "",
    "1um2", "nan", "inf", "1e999um", (0.0, "um")])
def test_what_is_no_number_and_a_unit(wrong):
    with pytest.raises(ValueError, match="pixel"):
        pixel_size(wrong)


@pytest.mark.parametrize("wrong", [[0.5], (0.5,), ("um", 0.5), (0.5, 3), (0.5, "um", 2), {}, b"1um", 1j])
def test_what_is_nothing_of_the_kind(wrong):
    with pytest.raises(TypeError, match="a pixel is a number, a text as '0.32um', or both apart"):
        pixel_size(wrong)


def test_lengths():
    assert pixel_size("0.5mm").micrometres == 500 and pixel_size("2in").micrometres == 50800 and pixel_size(2.0).micrometres is None
    assert str(pixel_size("0.650um")) == "0.65 µm"
