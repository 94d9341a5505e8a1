"""The command line: results, pipes, folders, faults and exit statuses."""
import io
import os
import subprocess
import sys
import threading
from pathlib import Path

import numpy as np
import pytest
import stand_in

import morphd
from morphd.__main__ import main
from morphd.curves import measured
from shell import grains, run  # noqa: F401


CALLS = [
    ("erosion --disk 1", lambda f: morphd.erosion(f, morphd.disk(1))),
    ("dilation --square 3 --origin 0,0", lambda f: morphd.dilation(f, morphd.square(3).at((0, 0)))),
    ("opening --line 3,45", lambda f: morphd.opening(f, morphd.line(3, 45))),
    ("closing --rectangle 2x3 --reflected", lambda f: morphd.closing(f, -morphd.rectangle(2, 3))),
    ("gradient --diamond 1", lambda f: morphd.gradient(f, morphd.diamond(1))),
    ("white-tophat --octagon 1,1 --workers 2", lambda f: morphd.white_tophat(f, morphd.octagon(1, 1))),
    ("black-tophat --square 2 --compat scipy", lambda f: morphd.black_tophat(f, morphd.square(2), compat="scipy")),
    ("rank --number 2 --square 2 --mode ignore", lambda f: morphd.rank(f, 2, morphd.square(2), mode="ignore")),
    ("median --square 3", lambda f: morphd.median(f, morphd.square(3))),
    ("percentile --percent 20 --square 3 --mode constant --cval 7",
     lambda f: morphd.percentile(f, 20, morphd.square(3), mode="constant", cval=7)),
    ("threshold --at 99.5", lambda f: f >= 100),
    ("erosion --square 3 --origin 2,2 --maxval 255", lambda f: morphd.erosion(f, morphd.square(3).at((2, 2)))),
]


@pytest.mark.parametrize("line, wanted", CALLS)
def test_operations(tmp_path, grains, line, wanted):
    assert run(tmp_path, f"{line} @grains.pgm -o @made.pnm") == 0
    made = morphd.read(tmp_path / "made.pnm")
    np.testing.assert_array_equal(made, wanted(grains))
    assert made.dtype == wanted(grains).dtype


def test_sets(tmp_path, grains):
    morphd.write(tmp_path / "hit.pbm", np.array([[True, False], [True, True]]))
    morphd.write(tmp_path / "miss.pbm", np.array([[False, True], [False, False]]))
    assert run(tmp_path, "hit-or-miss --hit @hit.pbm --miss @miss.pbm @mask.pbm -o @made.pbm") == 0
    np.testing.assert_array_equal(morphd.read(tmp_path / "made.pbm"), morphd.hit_or_miss(grains > 100, [[1, 0], [1, 1]]))
    assert run(tmp_path, "hit-or-miss --hit @hit.pbm @mask.pbm -o @other.pbm") == 0
    assert (tmp_path / "other.pbm").read_bytes() == (tmp_path / "made.pbm").read_bytes()
    assert run(tmp_path, "skeleton --diamond 1 --levels 3 @mask.pbm -o @marks.pgm") == 0
    assert (tmp_path / "marks.pgm").read_bytes().startswith(b"P5\n12 9\n4\n")
    assert run(tmp_path, "restored --diamond 1 --levels 3 @marks.pgm -o @back.pbm") == 0
    assert run(tmp_path, "opening --footprint @hit.pbm @mask.pbm -o @opened.pbm") == 0
    np.testing.assert_array_equal(morphd.read(tmp_path / "opened.pbm"), morphd.opening(grains > 100, [[1, 0], [1, 1]]))


def test_maxval_of_a_file(tmp_path, grains):
    assert run(tmp_path, "erosion --square 3 --origin 2,2 @camera.pgm -o @made.pgm") == 0
    assert (tmp_path / "made.pgm").read_bytes().startswith(b"P5\n12 9\n4095\n")


def test_stacks(tmp_path, grains):
    pytest.importorskip("tifffile")
    stack = np.stack([grains, 255 - grains])
    morphd.write(tmp_path / "stack.tif", stack)
    assert run(tmp_path, "median --square 3 @stack.tif -o @made.tif") == 0
    np.testing.assert_array_equal(morphd.read(tmp_path / "made.tif"), morphd.median(stack, morphd.square(3), axes=(1, 2)))


def test_spectra(tmp_path, grains, capsys):
    pytest.importorskip("matplotlib")
    assert run(tmp_path, "spectrum --disk 1 --sizes 3 --pixel 0.32um @mask.pbm --plot @curve.svg --csv @curve.csv") == 0
    assert (tmp_path / "curve.svg").read_text(encoding="utf-8").lstrip().startswith("<?xml")
    assert (tmp_path / "curve.csv").read_text(encoding="utf-8").startswith("size,least diamond in µm,greatest diamond in µm,volume,fall\n")
    assert capsys.readouterr().out == ""
    assert run(tmp_path, "spectrum --disk 1 --sizes 3 --pixel 0.32um @mask.pbm --csv -") == 0
    assert capsys.readouterr().out == (tmp_path / "curve.csv").read_text(encoding="utf-8")
    assert run(tmp_path, "spectrum --disk 1 --sizes 3 @mask.pbm") == 0
    assert capsys.readouterr().out == f"{measured(grains > 100, morphd.disk(1), 3)}\n"
    assert run(tmp_path, "spectrum --disk 1 --sizes 3 @mask.pbm @grains.pgm --csv @curves/") == 0
    assert sorted(path.name for path in (tmp_path / "curves").iterdir()) == ["grains.csv", "mask.csv"]


@pytest.mark.parametrize("line, told", [
    ("spectrum --disk 1 --maxval 9 @grains.pgm", "25 SAMPLE"), ("threshold --at 5 --maxval 9 @grains.pgm -o @x.pbm", "25 SAMPLE"),
    ("rank --number 9 --square 2 @grains.pgm -o @made.pgm", "47 PARAM"),
    ("skeleton --square 3 --levels 2 @grains.pgm -o @made.pgm", "44 BINARY"),
    ("erosion --square 3 --maxval 9 @grains.pgm -o @made.pgm", "25 SAMPLE"),
    ("erosion --square 3 @grains.pgm -o @made.pbm", "a PBM holds a set"), ("opening --disk 1 --page 1 @grains.pgm -o @x.pgm", "no page 1"),
    ("opening --disk 1 --channel red @grains.pgm -o @x.pgm", "no channel red, but grey"),
    ("opening --disk 1 / -o @x.pgm", "morph: /: Is a directory"), ("opening --disk 1 / -o @folder/ --format pnm", "morph: /: Is a directory"),
    ("erosion --square 3 @grains.pgm -o @no/folder.pgm", "folder.pgm"),
])
def test_what_cannot_be_made(tmp_path, grains, capsys, line, told):
    assert run(tmp_path, line) == 1
    lines = capsys.readouterr().err.splitlines()
    assert len(lines) == 1 and lines[0].startswith("morph: ") and told in lines[0]
    assert not list(tmp_path.glob("made.*")) and not list(tmp_path.glob("x.*"))


@pytest.mark.parametrize("line, told", [
    ("", "morph: the following arguments are required: OPERATION"), ("opened @grains.pgm", "morph: argument OPERATION: invalid choice: 'opened'"),
    ("opening @grains.pgm -o @x.pgm", "morph opening: one of the arguments --disk"),
    ("opening --disk 1 --square 3 @grains.pgm -o @x.pgm", "morph opening: argument --square: not allowed with argument --disk"),
    ("opening --disk x @grains.pgm -o @x.pgm", "morph opening: argument --disk: x: a finite number is wanted"),
    ("opening --disk inf @grains.pgm -o @x.pgm", "morph opening: argument --disk: inf: a finite number is wanted"),
    ("opening --disk nan @grains.pgm -o @x.pgm", "morph opening: argument --disk: nan: a finite number is wanted"),
    ("opening --disk 1e9 @grains.pgm -o @x.pgm", "morph opening: argument --disk: 1e9: a disc of radius 1000000000.0: a side is 0 or too long"),
    ("opening --square 256 @grains.pgm -o @x.pgm", "morph opening: argument --square: 256: a rectangle of 256 x 256: a side is 0 or too long"),
    ("opening --square 3.5 @grains.pgm -o @x.pgm", "morph opening: argument --square: 3.5: a whole number is wanted"),
    ("opening --rectangle 3 @grains.pgm -o @x.pgm", "morph opening: argument --rectangle: 3: two whole numbers are wanted, as 3x5"),
    ("opening --rectangle 3xx4 @grains.pgm -o @x.pgm", "morph opening: argument --rectangle: 3xx4: two whole numbers are wanted"),
    ("opening --octagon 3,4,5 @grains.pgm -o @x.pgm", "morph opening: argument --octagon: 3,4,5: two whole numbers are wanted"),
    ("opening --line 5,x @grains.pgm -o @x.pgm", "morph opening: argument --line: x: a finite number is wanted"),
    ("opening --footprint @none.pbm @grains.pgm -o @x.pgm", "none.pbm: No such file or directory"),
    ("opening --footprint @grains.pgm @grains.pgm -o @x.pgm", "grains.pgm: it is no PBM file"),
    ("opening --disk 1 --origin 5 @grains.pgm -o @x.pgm", "morph opening: argument --origin: 5: two whole numbers are wanted"),
    ("opening --disk 1 --origin 9,9 @grains.pgm -o @x.pgm", "the footprint's origin lies outside its bitmap"),
    ("opening --disk 1 --mode constant --cval nan @grains.pgm -o @x.pgm", "morph opening: argument --cval: nan: a finite number is wanted"),
    ("opening --disk 1 --mode mirrored @grains.pgm -o @x.pgm", "morph opening: argument --mode: invalid choice: 'mirrored'"),
    ("opening --disk 1 --page -1 @grains.pgm -o @x.pgm", "morph opening: argument --page: -1: a number from 0 on is wanted"),
    ("opening --disk 1 @grains.pgm", "morph: -o says where the result goes"),
    ("opening --disk 1 @grains.pgm -o @x.jpg", "x.jpg: the suffix tells how it is written: .pbm,"),
    ("opening --disk 1 --jobs 0 @grains.pgm -o @x.pgm", "morph: --jobs is a number from 1 on"),
    ("opening --disk 1 --workers 0 @grains.pgm -o @x.pgm", "morph: --workers is a number from 1 on, or -1"),
    ("threshold @grains.pgm -o @x.pgm", "morph threshold: the following arguments are required: --at"),
    ("threshold --at bright @grains.pgm -o @x.pbm", "morph threshold: argument --at: bright: a finite number is wanted"),
    ("threshold --at nan @grains.pgm -o @x.pbm", "morph threshold: argument --at: nan: a finite number is wanted"),
    ("spectrum --disk 1 --pixel 1,5um @mask.pbm", "morph spectrum: argument --pixel: "),
    ("spectrum --disk 1 --pixel 1/3um @mask.pbm", "morph spectrum: argument --pixel: "),
    ("spectrum --disk 1 --pixel 0 @mask.pbm", "morph spectrum: argument --pixel: "),
    ("spectrum --disk 1 @grains.pgm --plot -", "morph: --plot takes a file"),
])
def test_wrong_words(tmp_path, grains, line, told, capsys):
    """The fault stands in the first line, and there is no other."""
    with pytest.raises(SystemExit) as ended:
        run(tmp_path, line)
    assert ended.value.code == 2
    lines = capsys.readouterr().err.splitlines()
    assert len(lines) == 1 and told in lines[0] and lines[0].startswith("morph"), lines
    assert lines[0].endswith("--help says more)")


def test_help(capsys):
    for words in (["--help"], ["opening", "--help"], ["spectrum", "--help"]):
        with pytest.raises(SystemExit) as ended:
            main(words)
        assert ended.value.code == 0
        assert "morph opening --disk 5 grains.png -o opened.png" in capsys.readouterr().out
    with pytest.raises(SystemExit):
        main(["--version"])
    assert capsys.readouterr().out == f"morph {morphd.__version__}\n"


def test_pipes(tmp_path, grains):
    environment, words = stand_in.in_process()
    picture = (tmp_path / "grains.pgm").read_bytes()
    piped = {"capture_output": True, "env": environment, "check": True}
    first = subprocess.run([*words, "white-tophat", "--disk", "2", "-"], input=picture, **piped)
    second = subprocess.run([*words, "threshold", "--at", "40", "-", "-o", "-"], input=first.stdout, **piped)
    wanted = morphd.threshold(morphd.white_tophat(grains, morphd.disk(2)), 40)
    np.testing.assert_array_equal(np.asarray(morphd.Picture.of_file(second.stdout)), wanted)


@pytest.mark.parametrize("form, suffix", [("png", ".png"), ("tiff", ".tif"), ("pnm", ".pgm")])
def test_pictures_of_each_form_over_pipes(tmp_path, grains, form, suffix):
    pytest.importorskip("PIL")
    environment, words = stand_in.in_process()
    morphd.write(tmp_path / f"a{suffix}", grains)
    words += ["opening", "--disk", "1", "-", "--format", form]
    made = subprocess.run(words, input=(tmp_path / f"a{suffix}").read_bytes(), capture_output=True, env=environment, check=True).stdout
    assert made.startswith({"png": b"\x89PNG\r\n", "tiff": b"II*\0", "pnm": b"P5\n"}[form])
    np.testing.assert_array_equal(morphd.read(io.BytesIO(made)), morphd.opening(grains, morphd.disk(1)))


@pytest.mark.parametrize("data, told", [
    (b"", "20 MAGIC"), (b"GIF89a", "20 MAGIC"), (b"\x89PNG\r\n\x1a\nxx", "no picture"), (b"II*\0", ""), (b"P6\n1 1\n255\n\1\2\3", "no set")])
def test_what_is_no_picture_over_a_pipe(tmp_path, monkeypatch, capsys, data, told):
    pytest.importorskip("PIL")
    monkeypatch.setattr(sys, "stdin", io.TextIOWrapper(io.BytesIO(data)))
    assert run(tmp_path, "opening --disk 1 - -o @made.pgm") == 1
    lines = capsys.readouterr().err.splitlines()
    assert len(lines) == 1 and lines[0].startswith("morph: ") and told in lines[0]


def test_a_pipe_that_has_a_name(tmp_path, grains):
    """As a shell gives it for `<(command)`: nobody can go back in it."""
    os.mkfifo(tmp_path / "pipe")
    for name in ("grains.pgm", "a.png"):
        if name == "a.png":
            pytest.importorskip("PIL")
            morphd.write(tmp_path / name, grains)
        writer = threading.Thread(target=lambda: (tmp_path / "pipe").write_bytes((tmp_path / name).read_bytes()))
        writer.start()
        assert run(tmp_path, "opening --disk 1 @pipe -o @made.pgm") == 0
        writer.join(60)
        np.testing.assert_array_equal(morphd.read(tmp_path / "made.pgm"), morphd.opening(grains, morphd.disk(1)))


def test_one_channel_and_one_page(tmp_path, grains):
    images = pytest.importorskip("PIL.Image")
    colours = np.dstack([grains, 255 - grains, grains // 2])
    images.fromarray(colours).save(tmp_path / "colours.png")
    for channel, at in (("red", 0), ("green", 1), ("2", 2)):
        assert run(tmp_path, f"opening --disk 1 --channel {channel} @colours.png -o @made.pgm") == 0
        np.testing.assert_array_equal(morphd.read(tmp_path / "made.pgm"), morphd.opening(colours[..., at], morphd.disk(1)))
    morphd.write(tmp_path / "stack.tif", np.stack([grains, 255 - grains]))
    assert run(tmp_path, "opening --disk 1 --page 1 @stack.tif -o @made.pgm") == 0
    np.testing.assert_array_equal(morphd.read(tmp_path / "made.pgm"), morphd.opening(255 - grains, morphd.disk(1)))
    assert run(tmp_path, "spectrum --disk 1 --sizes 2 --page 1 @stack.tif --csv @curve.csv") == 0
    wanted = measured(255 - grains, morphd.disk(1), 2)
    assert f",{int(wanted.volumes[0])}," in (tmp_path / "curve.csv").read_text(encoding="utf-8")


CLOSED = [
    ("<&-", "opening --disk 1 - -o made.pgm", 1, "morph: -: the standard input is closed"),
    (">&-", "opening --disk 1 - < grains.pgm", 1, "morph: -: the standard output is closed"),
    (">&-", "spectrum --disk 1 grains.pgm", 1, "morph: grains.pgm: the standard output is closed"),
    (">&-", "spectrum --disk 1 grains.pgm --csv -", 1, "morph: grains.pgm: the standard output is closed"),
    (">&-", "spectrum --disk 1 grains.pgm camera.pgm --csv curves.csv", 0, ""),
    ("<&- >&-", "opening --disk 1 grains.pgm -o made.pgm", 0, ""),
    ("2>&-", "opening --disk 1 nowhere.pgm -o made.pgm", 1, ""), ("2>&-", "opening --disk x", 2, ""),
    (">/dev/full", "spectrum --disk 1 grains.pgm", 1, "No space left on device"),
]


@pytest.mark.parametrize("closed, line, status, told", CLOSED)
def test_standard_streams_that_are_closed(tmp_path, grains, closed, line, status, told):
    environment, words = stand_in.in_process()
    command = f"{' '.join(words)} {line} {closed}"
    made = subprocess.run(["sh", "-c", command], cwd=tmp_path, env=environment, capture_output=True, text=True, check=False)
    assert made.returncode == status and made.stdout == ""
    lines = made.stderr.splitlines()
    assert lines == [] if not told else len(lines) == 1 and told in lines[0], lines


def test_a_reader_that_has_enough(tmp_path, grains):
    environment, words = stand_in.in_process()
    pipes = dict.fromkeys(("stdin", "stdout", "stderr"), subprocess.PIPE)
    run = subprocess.Popen([*words, "opening", "--disk", "2", "-"], env=environment, **pipes)
    run.stdout.close()
    run.stdin.write((tmp_path / "grains.pgm").read_bytes())
    run.stdin.close()
    assert run.wait(60) == 1
    assert run.stderr.read() == b""
    run.stderr.close()


def test_a_missing_library_in_a_shell(tmp_path, grains):
    environment, words = stand_in.in_process()
    environment.update(MORPHD_LIBRARY=str(tmp_path / "none.so"), PYTHONPATH=str(Path(morphd.__file__).parents[1]))
    words += ["opening", "--disk", "2", str(tmp_path / "grains.pgm"), "-o", str(tmp_path / "made.pgm")]
    made = subprocess.run(words, capture_output=True, env=environment, text=True, check=False)
    assert made.returncode == 1 and made.stderr.startswith("morph: libmorphd was not found: build it with `make library`")
