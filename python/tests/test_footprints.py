"""Footprints: their shapes, origins, reflections and reaches. They need nothing but Python."""
import copy
import math
import pickle
import subprocess
import sys
import tracemalloc
from pathlib import Path

import pytest

from morphd import Footprint, Reach, Refused, diamond, disk, line, octagon, rectangle, square

CORNER = Footprint([[1, 0, 0], [1, 1, 0]], (1, 2))


def test_shapes_are_drawn():
    assert str(square(2)) == "11\n11"
    assert str(rectangle(1, 3)) == "111"
    assert str(disk(1)) == "010\n111\n010"
    assert str(disk(1.5)) == "111\n111\n111"
    assert str(disk(0)) == "1"
    assert str(diamond(2)) == "00100\n01110\n11111\n01110\n00100"
    assert str(octagon(1, 1)) == "010\n111\n010"
    assert str(octagon(3, 0)) == "111\n111\n111"


@pytest.mark.parametrize("angle, drawn", [
    (0, "11111"), (90, "1\n1\n1\n1\n1"), (45, "00001\n00010\n00100\n01000\n10000"), (135, "10000\n01000\n00100\n00010\n00001"),
    (180, "11111"), (-45, "10000\n01000\n00100\n00010\n00001"), (20, "00001\n01110\n10000")])
def test_lines(angle, drawn):
    assert str(line(5, angle)) == drawn


def test_halves_are_rounded_away_from_the_origin():
    assert str(line(5, math.degrees(math.atan(0.5)))) == "00011\n00100\n11000"
    assert str(line(5, math.degrees(math.atan(-0.5)))) == "11000\n00100\n00011"


def test_lines_of_all_angles():
    for length in (1, 2, 7, 41, 255):
        for angle in range(0, 360, 7):
            b = line(length, angle)
            assert b.count == length and b.has_origin
            assert b.width == length
            assert b.is_symmetric == (length % 2 == 1)
            assert line(length, angle + 180).count == length


def test_origins():
    assert square(4).origin == (2, 2) and square(5).origin == (2, 2)
    assert Footprint([[0, 1]]).origin == (0, 1)
    assert CORNER.at((0, 0)).origin == (0, 0) and CORNER.at((0, 0)).pixels == CORNER.pixels
    assert Footprint(CORNER).origin == (1, 2) and Footprint(CORNER, (0, 1)).origin == (0, 1)
    assert CORNER.has_origin is False and square(3).has_origin is True


def test_reflection():
    assert -CORNER == Footprint([[0, 1, 1], [0, 0, 1]], (0, 0))
    assert -(-CORNER) == CORNER
    assert sorted((-CORNER).offsets) == sorted((-row, -column) for row, column in CORNER.offsets)
    assert disk(4).is_symmetric and not CORNER.is_symmetric and not square(2).is_symmetric
    assert Footprint([[1, 0, 1, 0]], (0, 1)).is_symmetric


def test_reach():
    assert CORNER.reach == Reach(up=1, down=0, left=2, right=0)
    assert (-CORNER).reach == CORNER.reach.turned() == Reach(0, 1, 0, 2)
    assert Footprint([[0, 0, 0, 1]], (0, 0)).reach == Reach(0, 0, 0, 3)
    assert Footprint([[0, 0, 0], [0, 0, 1]], (0, 0)).reach == Reach(0, 1, 0, 2)
    assert Reach(1, 2, 3, 4) + Reach(1, 0, 0, 0) == Reach(2, 2, 3, 4)
    assert Reach(1, 2, 3, 4) * 3 == Reach(3, 6, 9, 12)
    assert Reach(1, 0, 3, 0).joined(Reach(0, 2, 2, 2)) == Reach(1, 2, 3, 2)


def test_width_is_that_of_the_pixels():
    assert Footprint([[0, 0, 0], [0, 1, 1], [0, 0, 0]]).width == 2
    assert rectangle(5, 3).width == 5


def test_offsets():
    assert CORNER.offsets == ((-1, -2), (0, -2), (0, -1))


@pytest.mark.parametrize("number, make", [
    (22, lambda: square(0)), (22, lambda: square(256)), (22, lambda: rectangle(3, -1)), (22, lambda: disk(128)),
    (22, lambda: Footprint([])),
    (31, lambda: Footprint([[1]], (0, 1))), (31, lambda: Footprint([[1]], (-1, 0))), (32, lambda: Footprint([[0, 0]])),
    (22, lambda: Footprint([[0]] * 256, (300, 0))), (31, lambda: Footprint([[0]], (1, 0))),
    (22, lambda: line(0)), (22, lambda: line(256)), (22, lambda: disk(-0.5)), (22, lambda: disk(math.inf)), (22, lambda: disk(math.nan)),
    (22, lambda: diamond(-1)), (22, lambda: diamond(128)), (22, lambda: octagon(0, 2)), (22, lambda: octagon(3, -1)),
    (22, lambda: octagon(1, 128))])
def test_refusals_in_the_librarys_order(number, make):
    with pytest.raises(Refused) as told:
        make()
    assert told.value.number == number


@pytest.mark.parametrize("make", [
    lambda: disk(1e9), lambda: disk(10**400), lambda: square(10**9), lambda: rectangle(10**9, 1), lambda: diamond(10**9),
    lambda: octagon(10**9, 10**9), lambda: line(10**9)])
def test_what_is_too_large_is_refused_before_it_is_built(make):
    tracemalloc.start()
    try:
        with pytest.raises(Refused, match="22 SIZE"):
            make()
        assert tracemalloc.get_traced_memory()[1] < 1 << 16
    finally:
        tracemalloc.stop()


@pytest.mark.parametrize("make", [
    lambda count: square(count), lambda count: rectangle(count, 3), lambda count: rectangle(3, count), lambda count: diamond(count),
    lambda count: octagon(count, 1), lambda count: octagon(1, count), lambda count: line(count), lambda count: square(3).at((count, 0)),
    lambda count: Footprint([[1, 1]], (0, count))])
def test_sides_and_places_are_whole_numbers(make):
    for wrong in (1.0, 0.9, "1", None):
        with pytest.raises(TypeError, match="is a whole number"):
            make(wrong)
    assert make(True) == make(1)


@pytest.mark.parametrize("angle", [math.inf, math.nan])
def test_an_angle_is_a_number_of_degrees(angle):
    with pytest.raises(ValueError, match="an angle is"):
        line(5, angle)


@pytest.mark.parametrize("b", [disk(3), CORNER.at((1, 1)), line(7, 20), rectangle(1, 4), rectangle(4, 1)])
def test_a_drawing_is_read_as_it_is_printed(b):
    assert Footprint(str(b), b.origin) == b
    assert Footprint(str(b).splitlines(), b.origin) == b


@pytest.mark.parametrize("bitmap", [
    "", "012", "a", ["01", "0b"], [["a"]], [["0", "1"]], [["x", 1]], [[None, 1]], [1, 0], [[[1, 0], [0, 1]]], [[(1, 0)]], [b"01"], b"01", 3, None,
    len])
def test_what_is_no_bitmap(bitmap):
    """Letters and a third axis are no pixels, though Python takes both for true."""
    with pytest.raises((ValueError, TypeError)) as told:
        Footprint(bitmap)
    assert "footprint" in str(told.value)


@pytest.mark.parametrize("name", ["pixels", "shape", "origin", "offsets", "other"])
def test_a_footprint_stays_as_it_is(name):
    b = disk(2)
    kept = hash(b)
    assert b.reach == Reach(2, 2, 2, 2)
    with pytest.raises(AttributeError):
        setattr(b, name, (0, 0))
    with pytest.raises(AttributeError):
        delattr(b, name)
    assert hash(b) == kept and b == disk(2)
    assert copy.copy(b) == copy.deepcopy(b) == b


def test_rows_of_different_lengths():
    with pytest.raises(ValueError, match="equally long"):
        Footprint([[1], [1, 1]])


def test_equal_footprints_are_one_key():
    assert len({disk(3), disk(3), -disk(3), disk(3).at((0, 0))}) == 2
    assert CORNER != "corner"
    assert pickle.loads(pickle.dumps(CORNER)) == CORNER


def test_arrays():
    numpy = pytest.importorskip("numpy")
    array = numpy.array([[0, 3], [0, 0.5]])
    assert Footprint(array) == Footprint([[0, 1], [0, 1]])
    assert Footprint(array.T).bitmap.tolist() == [[False, False], [True, True]]
    assert numpy.asarray(disk(1), int).sum() == 5
    assert Footprint([numpy.array([0, 1]), numpy.array([True, False])]) == Footprint([[0, 1], [1, 0]])
    assert Footprint([[numpy.float32(0), numpy.uint8(3)]]) == Footprint([[0, 1]])
    for wrong in (numpy.ones(3), numpy.ones((2, 2, 2)), [numpy.ones((2, 2))]):
        with pytest.raises(ValueError, match="two axes"):
            Footprint(wrong)
    for wrong in (numpy.array([["0", "1"]]), numpy.array([[None, 1]]), numpy.array([[1j]])):
        with pytest.raises(TypeError, match="numbers"):
            Footprint(wrong)


def test_they_are_those_of_scikit_image():
    theirs = pytest.importorskip("skimage.morphology")
    for radius in (0, 1, 2, 5, 31):
        assert disk(radius).bitmap.tolist() == theirs.disk(radius).astype(bool).tolist()
        assert diamond(radius).bitmap.tolist() == theirs.diamond(radius).astype(bool).tolist()
    for straight in range(1, 6):
        for slanted in range(1, 5):
            assert octagon(straight, slanted).bitmap.tolist() == theirs.octagon(straight, slanted).astype(bool).tolist()


def test_nothing_but_python_is_imported():
    """Footprints, pictures, faults and sessions work where NumPy is not installed."""
    code = ("import sys; sys.modules['numpy'] = None; import morphd; morphd.Session; morphd.Picture(1, 1, 1, True, b'\\1').file(); "
            "print(-morphd.disk(3), morphd.line(9, 30), morphd.Refused(22))")
    path = str(Path(__file__).resolve().parents[1])
    assert subprocess.run([sys.executable, "-c", code], cwd=path, capture_output=True, text=True, check=True).stdout
    code = "import sys; sys.modules['numpy'] = None; import morphd; morphd.erosion"
    told = subprocess.run([sys.executable, "-c", code], cwd=path, capture_output=True, text=True, check=False).stderr
    assert "morphd.erosion needs NumPy: apt-get install python3-numpy" in told


def test_a_disc_is_what_it_says():
    b = disk(7.3)
    far = [math.hypot(*offset) for offset in b.offsets]
    assert max(far) <= 7.3 and b.count == sum(math.hypot(x, y) <= 7.3 for x in range(-8, 9) for y in range(-8, 9))
