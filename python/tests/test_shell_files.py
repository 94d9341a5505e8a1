"""The command line over several files: where results go, in which order, and how it ends."""
import csv
import io
import os
import signal
import subprocess
import sys
import threading
import time
from pathlib import Path

import numpy as np
import pytest
import stand_in

import morphd
from morphd import _crew, _reports
from morphd.curves import measured
from shell import grains, run  # noqa: F401


def test_several_files_and_one_that_fails(tmp_path, grains, capsys):
    assert run(tmp_path, "opening --disk 1 @grains.pgm @nowhere.pgm @camera.pgm -o @opened --jobs 3") == 1
    assert sorted(path.name for path in (tmp_path / "opened").iterdir()) == ["camera.pgm", "grains.pgm"]
    np.testing.assert_array_equal(morphd.read(tmp_path / "opened" / "grains.pgm"), morphd.opening(grains, morphd.disk(1)))
    told = capsys.readouterr().err.splitlines()
    assert len(told) == 1 and told[0].startswith("morph: ") and "nowhere.pgm" in told[0]


def test_a_bar(tmp_path, grains, monkeypatch, capsys):
    monkeypatch.setattr("sys.stderr.isatty", lambda: True)
    assert run(tmp_path, "opening --disk 1 @grains.pgm @camera.pgm -o @opened") == 0
    assert "2" in capsys.readouterr().err
    assert run(tmp_path, "opening --disk 1 @grains.pgm @camera.pgm -o @opened --quiet") == 0
    assert capsys.readouterr().err == ""


def test_a_bar_without_tqdm(tmp_path, grains, monkeypatch, capsys):
    monkeypatch.setitem(sys.modules, "tqdm.auto", None)
    monkeypatch.setattr("sys.stderr.isatty", lambda: True)
    assert run(tmp_path, "opening --disk 1 @grains.pgm @camera.pgm -o @opened") == 0
    assert capsys.readouterr().err == "\r1 of 2 pictures\r2 of 2 pictures"


def test_spectra_of_several_files_are_told_by_name(tmp_path, grains, capsys):
    assert run(tmp_path, "spectrum --disk 1 --sizes 3 @mask.pbm @grains.pgm") == 0
    told = capsys.readouterr().out
    for name, held in (("mask.pbm", grains > 100), ("grains.pgm", grains)):
        assert f"{tmp_path / name}:\n{measured(held, morphd.disk(1), 3)}\n" in told


def test_standard_input_into_a_folder(tmp_path, grains, monkeypatch):
    monkeypatch.setattr(sys, "stdin", io.TextIOWrapper(io.BytesIO((tmp_path / "grains.pgm").read_bytes())))
    (tmp_path / "opened").mkdir()
    assert run(tmp_path, "opening --disk 1 - -o @opened") == 0
    np.testing.assert_array_equal(morphd.read(tmp_path / "opened" / "stdin.pgm"), morphd.opening(grains, morphd.disk(1)))


def test_threads_and_pictures_at_the_same_time(tmp_path, grains, monkeypatch):
    """Two pictures meet within the operator, and it is told how many threads it may have."""
    meeting, asked = threading.Barrier(2), []

    def opening(array, *arguments, workers, **options):
        asked.append(workers)
        meeting.wait(60)
        return array

    monkeypatch.setattr("morphd.operators.opening", opening)
    assert run(tmp_path, "opening --disk 1 @grains.pgm @camera.pgm -o @opened --jobs 2 --workers 3") == 0
    monkeypatch.setattr("morphd.curves.measured", lambda *given, workers, **more: asked.append(workers) or measured(*given, **more))
    assert run(tmp_path, "spectrum --disk 1 @grains.pgm --workers 4") == 0
    assert asked == [3, 3, 4]


REFUSED = [
    ("opening --disk 1 @grains.pgm @camera.pgm -o @one.png", "one.png: several results go into a folder"),
    ("opening --disk 1 @grains.pgm @camera.pgm -o @mask.pbm", "mask.pbm: several results go into a folder"),
    ("opening --disk 1 @grains.pgm @camera.pgm -o -", "several results go into a folder"),
    ("spectrum --disk 1 @grains.pgm @camera.pgm --plot @one.svg", "one.svg: several results go into a folder"),
    ("opening --disk 1 @grains.pgm @grains.pgm -o @folder", "would both be"),
    ("opening --disk 1 @grains.pgm @other/grains.pgm -o @folder", "grains.pgm would both be"),
    ("threshold --at 9 @other/grains.pbm @grains.pgm -o @folder", "would both be"),
    ("spectrum --disk 1 @grains.pgm @grains.png --csv @curves/", "would both be"),
    ("spectrum --disk 1 @grains.pgm --csv @same.csv --plot @same.csv", "would both be"),
    ("opening --disk 1 @grains.pgm @grains.png -o @folder --format png", "would both be"),
    ("opening --disk 1 @grains.pgm -o @grains.pgm", "--force writes over it"), ("opening --disk 1 @grains.pgm -o @.", "--force writes over it"),
    ("opening --disk 1 @link.pgm -o @grains.pgm", "--force writes over it"), ("opening --disk 1 @grains.pgm -o @link.pgm", "--force writes over it"),
    ("opening --disk 1 @grains.pgm -o @hard.pgm", "--force writes over it"),
    ("opening --disk 1 @grains.pgm @camera.pgm -o @.", "--force writes over it"),
    ("spectrum --disk 1 @grains.pgm --csv @grains.pgm", "--force writes over it"),
    ("spectrum --disk 1 @grains.pgm @camera.pgm --csv @camera.pgm", "--force writes over it"),
    ("opening --footprint @dot.pbm @grains.pgm -o @dot.pbm", "dot.pbm is one of the files that are read; --force writes over it"),
    ("hit-or-miss --hit @dot.pbm --miss @beside.pbm @mask.pbm -o @beside.pbm", "beside.pbm is one of the files that are read"),
    ("hit-or-miss --hit @dot.pbm @mask.pbm -o @dot.pbm", "dot.pbm is one of the files that are read"),
    ("spectrum --footprint @dot.pbm @grains.pgm --csv @dot.pbm", "dot.pbm is one of the files that are read"),
    ("opening --disk 1 - - -o @folder", "the standard input is read once"),
    ("opening --disk 1 @grains.jpg @camera.pgm -o @folder", "the suffix tells how it is written"),
]


@pytest.mark.parametrize("line, told", REFUSED)
def test_what_would_lose_a_picture_is_refused(tmp_path, grains, capsys, line, told):
    """Before any picture is read or anything written."""
    for name in ("dot", "beside"):
        (tmp_path / f"{name}.pbm").write_bytes(b"P1\n1 1\n1\n")
    (tmp_path / "link.pgm").symlink_to(tmp_path / "grains.pgm")
    (tmp_path / "hard.pgm").hardlink_to(tmp_path / "grains.pgm")
    before = {path: path.read_bytes() for path in tmp_path.iterdir()}
    with pytest.raises(SystemExit) as ended:
        run(tmp_path, line)
    assert ended.value.code == 2
    lines = capsys.readouterr().err.splitlines()
    assert len(lines) == 1 and lines[0].startswith("morph: ") and told in lines[0]
    assert {path: path.read_bytes() for path in tmp_path.iterdir()} == before


def test_a_picture_is_written_over_if_that_is_said(tmp_path, grains):
    assert run(tmp_path, "opening --disk 1 @grains.pgm -o @grains.pgm --force") == 0
    np.testing.assert_array_equal(morphd.read(tmp_path / "grains.pgm"), morphd.opening(grains, morphd.disk(1)))
    (tmp_path / "dot.pbm").write_bytes(b"P1\n1 1\n1\n")
    assert run(tmp_path, "erosion --footprint @dot.pbm @mask.pbm -o @dot.pbm --force") == 0
    np.testing.assert_array_equal(morphd.read(tmp_path / "dot.pbm"), grains > 100)
    # a file that is not read is no input, and is written over as by any other program
    assert run(tmp_path, "erosion --disk 1 @camera.pgm -o @grains.pgm") == 0


def test_results_in_a_folder_are_named_for_what_they_are(tmp_path, grains):
    pytest.importorskip("PIL")
    morphd.write(tmp_path / "other.tif", grains)
    assert run(tmp_path, "threshold --at 100 @grains.pgm @other.tif -o @sets") == 0
    assert sorted(path.name for path in (tmp_path / "sets").iterdir()) == ["grains.pbm", "other.tif"]
    assert (tmp_path / "sets" / "grains.pbm").read_bytes().startswith(b"P4")
    assert run(tmp_path, "skeleton --disk 1 --levels 2 @mask.pbm -o @marks/") == 0
    assert (tmp_path / "marks" / "mask.pgm").read_bytes().startswith(b"P5")
    assert run(tmp_path, "restored --disk 1 --levels 2 @marks/mask.pgm -o @sets") == 0
    assert (tmp_path / "sets" / "mask.pbm").read_bytes().startswith(b"P4")
    assert run(tmp_path, "opening --disk 1 @grains.pgm @other.tif -o @pngs --format png") == 0
    assert sorted(path.name for path in (tmp_path / "pngs").iterdir()) == ["grains.png", "other.png"]
    np.testing.assert_array_equal(morphd.read(tmp_path / "pngs" / "other.png"), morphd.opening(grains, morphd.disk(1)))


@pytest.fixture
def late(monkeypatch):
    """The first picture's curve comes behind the second one's."""
    second = threading.Event()

    def late_measured(array, *arguments, **options):
        made = measured(array, *arguments, **options)
        if array.dtype == bool:
            second.set()
        else:
            assert second.wait(60)
        return made

    monkeypatch.setattr("morphd.curves.measured", late_measured)


@pytest.mark.parametrize("to", ["-", "@all.csv"])
def test_a_table_of_several_files(tmp_path, grains, capsys, late, to):
    assert run(tmp_path, f"spectrum --disk 1 --sizes 2 --jobs 2 @grains.pgm @mask.pbm --csv {to}") == 0
    told = capsys.readouterr().out
    head, *rows = csv.reader(io.StringIO(told if to == "-" else (tmp_path / "all.csv").read_text(encoding="utf-8")))
    wanted_head, wanted = None, []
    for name, image in (("grains.pgm", grains), ("mask.pbm", grains > 100)):
        text = io.StringIO()
        measured(image, morphd.disk(1), 2).to_csv(text)
        wanted_head, *lines = csv.reader(io.StringIO(text.getvalue()))
        wanted += [[str(tmp_path / name), *line] for line in lines]
    assert head == ["file", *wanted_head] and rows == wanted
    assert to == "-" or told == ""


def test_curves_are_told_in_the_order_of_the_files(tmp_path, grains, capsys, late):
    assert run(tmp_path, "spectrum --disk 1 --sizes 2 --jobs 2 @grains.pgm @mask.pbm") == 0
    assert [line for line in capsys.readouterr().out.splitlines() if line.endswith(":")] == [
        f"{tmp_path / 'grains.pgm'}:", f"{tmp_path / 'mask.pbm'}:"]


def test_a_table_without_a_file_that_fails(tmp_path, grains, capsys):
    assert run(tmp_path, "spectrum --disk 1 --sizes 2 @grains.pgm @nowhere.pgm @mask.pbm --csv -") == 1
    told = capsys.readouterr()
    assert {line.partition(",")[0] for line in told.out.splitlines()[1:]} == {str(tmp_path / "grains.pgm"), str(tmp_path / "mask.pbm")}
    doubts = [f"morph: {tmp_path / name}: {doubt}" for name, image in (("grains.pgm", grains), ("mask.pbm", grains > 100))
              for doubt in measured(image, morphd.disk(1), 2).doubts]
    fault = f"morph: {tmp_path / 'nowhere.pgm'}: No such file or directory"
    assert len(doubts) > 1 and told.err.splitlines() == [doubts[0], fault, *doubts[1:]]


def test_one_table_has_one_unit(grains):
    table = _reports.Table()
    table.rows("a.pgm", measured(grains, morphd.disk(1), 2, "0.3um"))
    with pytest.raises(ValueError, match="name one --pixel"):
        table.rows("b.pgm", measured(grains, morphd.disk(1), 2))


SLOW = """
import pathlib, sys, time
import morphd.operators
def opening(array, *arguments, **options):
    with open(sys.argv[1], "a") as marks:
        marks.write("begun\\n")
    time.sleep(300)
morphd.operators.opening = opening
from morphd.__main__ import main
sys.exit(main(sys.argv[2:]))
"""


@pytest.mark.parametrize("jobs", [1, 2])
def test_an_interrupt_ends_it_at_once(tmp_path, grains, jobs):
    """What waits is never begun, and what computes is not waited for."""
    environment, words = stand_in.in_process()
    names = [f"{number}.pgm" for number in range(5)]
    for name in names:
        morphd.write(tmp_path / name, grains)
    marks = tmp_path / "marks"
    line = ["opening", "--disk", "1", "--jobs", str(jobs), "-o", "made/", *names]
    started = subprocess.Popen([sys.executable, "-c", SLOW, str(marks), *line], cwd=tmp_path, env=environment,
                               stdout=subprocess.PIPE, stderr=subprocess.PIPE, text=True)
    until = time.monotonic() + 60
    while not marks.exists() or len(marks.read_text(encoding="utf-8").splitlines()) < jobs:
        assert time.monotonic() < until and started.poll() is None
        time.sleep(0.02)
    started.send_signal(signal.SIGINT)
    out, err = started.communicate(timeout=60)
    assert started.returncode == 130 and out == "" and err == "morph: interrupted\n"
    assert marks.read_text(encoding="utf-8").splitlines() == ["begun"] * jobs
    assert list((tmp_path / "made").iterdir()) == []


def test_an_interrupt_waits_for_a_file_that_is_being_written(tmp_path, monkeypatch):
    writing, begun, go_on, written = _crew.Writing(), threading.Event(), threading.Event(), []

    def write_bytes(path, data):
        begun.set()
        assert go_on.wait(60)
        written.append(path.name)

    monkeypatch.setattr(Path, "write_bytes", write_bytes)
    threads = [threading.Thread(target=writing.write, args=(str(tmp_path / name), b""), daemon=True) for name in ("first", "second")]
    threads[0].start()
    assert begun.wait(60)
    ending = threading.Thread(target=writing.end)
    ending.start()
    ending.join(0.1)
    assert ending.is_alive() and not written
    go_on.set()
    ending.join(60)
    threads[1].start()
    threads[1].join(0.2)
    assert written == ["first"] and threads[1].is_alive()


STUCK = """
import pathlib, sys, time
from morphd import _crew, __main__
def write_bytes(path, data):
    open("mark", "w").close()
    time.sleep(300)
pathlib.Path.write_bytes = write_bytes
_crew.PATIENCE = float(sys.argv[1])
sys.exit(__main__.main(sys.argv[2:]))
"""


@pytest.mark.parametrize("interrupts, patience", [(1, 0.2), (2, 300)])
def test_an_interrupt_where_nobody_takes_the_result(tmp_path, grains, interrupts, patience):
    """What is being written is waited for with patience, and a second interrupt waits for nothing."""
    environment, _ = stand_in.in_process()
    line = ["opening", "--disk", "1", "grains.pgm", "-o", "made.pgm"]
    started = subprocess.Popen([sys.executable, "-c", STUCK, str(patience), *line], cwd=tmp_path, env=environment,
                               stderr=subprocess.PIPE, text=True)
    until = time.monotonic() + 60
    while not (tmp_path / "mark").exists():
        assert time.monotonic() < until and started.poll() is None
        time.sleep(0.02)
    for _ in range(interrupts):
        started.send_signal(signal.SIGINT)
        time.sleep(0.5)
    assert started.communicate(timeout=60)[1] == "morph: interrupted\n" and started.returncode == 130


def test_a_reader_that_has_enough_of_many_curves(tmp_path, grains):
    """What waits is cancelled there, too."""
    environment, words = stand_in.in_process()
    names = [f"{number}.pgm" for number in range(40)]
    for name in names:
        morphd.write(tmp_path / name, grains)
    run_it = subprocess.Popen([*words, "spectrum", "--disk", "1", "--sizes", "32", *names], cwd=tmp_path, env=environment,
                              stdout=subprocess.PIPE, stderr=subprocess.PIPE)
    run_it.stdout.close()
    assert run_it.wait(60) == 1
    assert run_it.stderr.read() == b""
    run_it.stderr.close()


def test_numpy_is_missing(tmp_path, grains):
    code = "import sys; sys.modules['numpy'] = None; from morphd.__main__ import main; sys.exit(main(sys.argv[1:]))"
    made = subprocess.run([sys.executable, "-c", code, "opening", "--disk", "1", "grains.pgm", "camera.pgm", "-o", "made/"], cwd=tmp_path,
                          env=stand_in.in_process()[0] | {"PYTHONPATH": str(Path(morphd.__file__).parents[1])}, capture_output=True,
                          text=True, check=False)
    assert made.returncode == 1 and len(made.stderr.splitlines()) == 1 and made.stderr.startswith("morph: ") and "numpy" in made.stderr


def test_one_fault_that_all_files_have_is_told_once(tmp_path, grains, capsys, monkeypatch):
    def opening(*arguments, **options):
        raise morphd.LibraryMissing("libmorphd was not found")

    monkeypatch.setattr("morphd.operators.opening", opening)
    assert run(tmp_path, "opening --disk 1 @grains.pgm @camera.pgm -o @folder") == 1
    assert capsys.readouterr().err == "morph: libmorphd was not found\n"
