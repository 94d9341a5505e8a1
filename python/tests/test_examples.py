"""The scripts that measure grains from a shell: what they draw of known discs, and what they say is doubtful."""
import random
import subprocess
import sys
from pathlib import Path

import reference_model
import pytest
import quick_sets

from morphd import Picture, doubts
from morphd.levels import otsu_of_counts

EXAMPLES = Path(__file__).resolve().parents[2] / "examples"
DISCS = (EXAMPLES / "discs.pgm").read_bytes()


def ran(script, given=b"", *words, status=0):
    """The output of a script, and the lines that it tells on standard error."""
    made = subprocess.run([sys.executable, "-B", EXAMPLES / script, *words], input=given, capture_output=True, check=False)
    assert made.returncode == status, made.stderr.decode()
    return made.stdout, made.stderr.decode().splitlines()


def session(picture, *words, folder):
    (folder / "mine.pgm").write_bytes(picture)
    return ran("sizes.py", b"", folder / "mine.pgm", *words)


def bars(picture, *words, folder, shown=()):
    """The bars of a picture as pairs of a range and its part in percent, and what is told beside them."""
    text, told = session(picture, *words, folder=folder)
    out, lines = ran("curve.py", reference_model.served(text)[0], *shown)
    head, *rows = out.decode().splitlines()
    cells = [row.split() for row in rows]
    return head, [(" ".join(each[: each.index("%") - 1]), float(each[each.index("%") - 1])) for each in cells], told + lines


def grey(rows, maxval=255):
    return f"P2\n{len(rows[0])} {len(rows)}\n{maxval}\n".encode() + b"\n".join(" ".join(map(str, row)).encode() for row in rows)


def spot(top, left, side, height=9, width=20, level=200):
    """A bright square on a dark ground."""
    return [[level if top <= y < top + side and left <= x < left + side else 10 for x in range(width)] for y in range(height)]


@pytest.fixture(autouse=True)
def quickly(monkeypatch):
    """Sets are served row by row, as they are where the documents are checked."""
    monkeypatch.setattr(reference_model, "erosion", quick_sets.erosion)
    monkeypatch.setattr(reference_model, "dilation", quick_sets.dilation)


def test_quick_sets_are_those_of_the_reference_model():
    rng = random.Random(1)
    for _ in range(300):
        width, height = rng.randrange(1, 9), rng.randrange(1, 7)
        kind, top = rng.choice((("BIT", 1), ("BIT", 1), ("GREY", 9)))
        f = reference_model.Image(kind, width, height, top, [rng.randint(0, top) for _ in range(width * height)])
        b = [(dx, dy) for dx in range(-4, 5) for dy in range(-4, 5) if rng.random() < 0.1] or [(9, 0)]
        assert quick_sets.erosion(f, b) == quick_sets.plain_erosion(f, b)
        assert quick_sets.dilation(f, b) == quick_sets.plain_dilation(f, b)


def test_known_discs(tmp_path):
    """Discs of 11, 21 and 41 pixels fall into the bins that hold 11, 21 and 41."""
    head, found, told = bars(DISCS, "--above", "120", "--sizes", "7", folder=tmp_path)
    assert head == "the width of the largest octagon that fits, and the part of the area:" and not told
    assert [(width, part) for width, part in found if part > 5] == [("7 to 12 px", 5.5), ("19 to 24 px", 20.3), ("37 to 42 px", 68.7)]


def test_shapes_and_units(tmp_path):
    """A spot of 5 x 5 by each shape; and by discs as the openings say."""
    for shape, wanted in (("square", "2.5 to 3 mm"), ("octagon", "2 to 3 mm"), ("diamond", "2.5 to 3 mm"), ("disc", "2.5 to 3 mm")):
        side = ("4" if shape == "octagon" else "3",)
        words = ("--above", "99", "--shape", shape, "--side", *side, "--sizes", "3")
        head, found, told = bars(grey(spot(2, 2, 5)), *words, folder=tmp_path,
                                 shown=("--shape", shape, "--side", *side, "--pixel", "0.5", "--unit", "mm"))
        assert f"largest {shape} that" in head and found[-1][0] == wanted and sum(part for _, part in found) == pytest.approx(100, abs=0.2)
        assert not told
        if shape == "square":
            assert found[-1] == (wanted, 100)


def test_openings_by_discs(tmp_path):
    """The volumes of a picture of discs are those of its openings by discs, one by one."""
    picture = grey(spot(1, 3, 7))
    text, _ = session(picture, "--above", "99", "--shape", "disc", "--side", "3", "--sizes", "3", folder=tmp_path)
    grains = reference_model.set_where(reference_model.image_in(picture), lambda level: level >= 99)
    reference_model.erosion, reference_model.dilation = quick_sets.plain_erosion, quick_sets.plain_dilation
    wanted = [sum(grains.samples)]
    for radius in (1, 2, 3):
        far = range(-radius, radius + 1)
        disc = [(x, y) for y in far for x in far if x * x + y * y <= radius * radius]
        wanted.append(sum(reference_model.opening(grains, disc).samples))
    sys.path.insert(0, str(EXAMPLES))
    import curve

    curves, found = curve.curves_and_set(reference_model.served(text)[0])
    assert curve.volumes(curves, "disc") == wanted and curve.pixels(found) == (20, 9, bytes(grains.samples))


@pytest.mark.parametrize("picture, words, line", [
    (spot(2, 2, 5), ("--above", "201"), "the set is empty: no sample reaches the threshold"),
    (spot(2, 2, 5), ("--above", "5"), "the set covers 100% of the frame: "),
    (spot(0, 2, 5), ("--above", "99"), "grains that the frame cuts, and what touches them, have 100.0% of the area: "),
    (spot(2, 2, 5), ("--above", "99", "--sizes", "1"), "84% is left over: grains wider"),
    ([[max(level - 9, 0) for level in row] for row in spot(2, 2, 5, level=59)], (), "13% is left over: a ground, or grains")])
def test_what_is_doubtful(tmp_path, picture, words, line):
    side = ("--side", "4")
    _, found, told = bars(grey(picture), *words, *side, folder=tmp_path, shown=side)
    assert found and told[0].startswith(f"curve.py: {line}")
    assert len(told) == (2 if "covers" in line else 1)


def test_a_curve_alone(tmp_path):
    """Of the text of a curve only what its volumes show is told."""
    out, told = ran("curve.py", b"V 0 9\nV 1 9\nV 2 1\nS 0 0\nS 1 8\nR 1\n", "--side", "4")
    assert b"4 to 6 px   88.9 %" in out and told == [f"curve.py: {doubts.doubts([9, 9, 1], is_set=False)[0]}"]
    assert ran("curve.py", b"V 0 9\nV 1 0\nS 0 9\nR 0\n")[1] == []


@pytest.mark.parametrize("picture", [
    DISCS, grey(spot(2, 2, 5)), grey(spot(2, 2, 5, level=3000), 4095), b"P5 # levels\n3 2\n999\n" + bytes([0, 7, 1, 2, 3, 3] * 2)])
def test_otsu(tmp_path, picture):
    """The level is told, and the session is that of this level."""
    image = reference_model.image_in(picture)
    level = otsu_of_counts({sample: image.samples.count(sample) for sample in image.samples})
    assert Picture.of_file(picture).counts() == {sample: image.samples.count(sample) for sample in image.samples}
    made, told = session(picture, "--above", "otsu", folder=tmp_path)
    assert told == [f"{tmp_path / 'mine.pgm'}: the grains have level {level} or more, by Otsu"]
    assert made == session(picture, "--above", str(level), folder=tmp_path)[0]


def test_what_the_scripts_refuse(tmp_path):
    (tmp_path / "mine.pgm").write_bytes(grey(spot(2, 2, 5)))
    for words in (("--side", "5"), ("--side", "1"), ("--shape", "square", "--side", "4"), ("--sizes", "0"), ("--sizes", "33"),
                  ("--shape", "disc", "--side", "13", "--sizes", "22"), ("--above", "bright"), ("--shape", "ball")):
        assert "error" in ran("sizes.py", b"", tmp_path / "mine.pgm", *words, status=2)[1][-1]
    for words in (("--pixel", "0"), ("--pixel", "1,5"), ("--pixel", "-1"), ("--pixel", "inf"), ("--shape", "ball")):
        assert "error" in ran("curve.py", b"V 0 9\nV 1 0\nS 0 9\nR 0\n", *words, status=2)[1][-1]
    for picture, told in ((b"P5\n2 1\n255\n\7\7", "all samples are the same"), (b"P5\n2 1\n255\n\7", "24 SHORT")):
        (tmp_path / "mine.pgm").write_bytes(picture)
        assert told in ran("sizes.py", b"", tmp_path / "mine.pgm", "--above", "otsu", status=1)[1][-1]
    (tmp_path / "mine.png").write_bytes(b"\x89PNG")
    assert "convert it first" in ran("sizes.py", b"", tmp_path / "mine.png", status=1)[1][-1]


def test_a_set_is_measured_as_it_is(tmp_path):
    """A PBM needs no level, and is looked at for what is doubtful, too."""
    head, found, told = bars(b"P1\n6 6\n000000\n011100\n011100\n011100\n000000\n000000\n", "--shape", "square", "--side", "3", folder=tmp_path,
                             shown=("--shape", "square", "--side", "3"))
    assert found[-1] == ("3 to 4 px", 100) and not told
    *_, told = bars(b"P1\n4 2\n0001\n0000\n", folder=tmp_path)
    assert "the frame cuts" in told[0]


def test_the_examples_are_those_of_their_script(tmp_path, monkeypatch):
    sys.path.insert(0, str(EXAMPLES))
    import make_examples

    made = {}
    monkeypatch.setattr(make_examples, "write", made.__setitem__)
    monkeypatch.setattr(sys, "argv", ["make_examples.py"])
    make_examples.main()
    assert "discs.pgm" in made and "demo.session" in made
    for name, data in made.items():
        assert (EXAMPLES / name).read_bytes() == data, name


def test_the_demo_says_what_its_level_is():
    """A threshold at 120 takes 120, too."""
    sys.path.insert(0, str(EXAMPLES))
    import demo

    assert "have level 120 or more" in demo.OWN_PICTURE and "brighter" not in (EXAMPLES / "demo.py").read_text(encoding="utf-8")
    replies = reference_model.served((EXAMPLES / "demo.session").read_bytes())[0]
    assert b"the width of the largest octagon" in ran("curve.py", replies, "--side", "4")[0]
