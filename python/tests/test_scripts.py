"""The scripts of `examples`: each tells its help, none shows a traceback, and pictures are read whatever their headers look like."""
import subprocess
import sys
from pathlib import Path

import pytest

from morphd import Picture

EXAMPLES = Path(__file__).resolve().parents[2] / "examples"
SCRIPTS = sorted(path.name for path in EXAMPLES.glob("*.py"))
LEVELS = [[0, 255, 0], [255, 0, 255], [9, 9, 200]]


def ran(script, *words, given=b"", folder=None):
    return subprocess.run([sys.executable, "-B", EXAMPLES / script, *map(str, words)], input=given, capture_output=True, cwd=folder,
                          check=False)


@pytest.mark.parametrize("script", SCRIPTS)
def test_help(script, tmp_path):
    """It is told, and nothing else is done."""
    before = {path: path.stat().st_mtime_ns for path in EXAMPLES.iterdir() if path.suffix != ""}
    made = ran(script, "--help", folder=tmp_path)
    assert made.returncode == 0 and made.stdout.startswith(f"usage: {script}".encode()) and made.stderr == b""
    assert {path: path.stat().st_mtime_ns for path in EXAMPLES.iterdir() if path.suffix != ""} == before
    assert list(tmp_path.iterdir()) == []


@pytest.mark.parametrize("line", [
    "element.py", "element.py ball 3", "element.py square 4", "element.py disc -1", "element.py disc 200", "element.py square x",
    "pad.py", "pad.py none.pgm 3", "pad.py grains.session 1", "pad.py grains.pgm -99", "show.py", "show.py none.pgm", "show.py grains.session",
    "save.py one.pgm", "two_clients.py", "two_clients.py morphd port", "demo.py", "demo.py half", "make_examples.py all",
    "sizes.py", "curve.py all"])
def test_wrong_words_show_no_traceback(line):
    script, *words = line.split()
    made = ran(script, *words, folder=EXAMPLES)
    assert made.returncode in (1, 2) and made.stdout == b""
    assert made.stderr and b"Traceback" not in made.stderr


def plain(header):
    return b"P2" + header + b"\n".join(b" ".join(b"%d" % level for level in row) for row in LEVELS) + b"\n"


def raw(header):
    return b"P5" + header + bytes(sum(LEVELS, []))


HEADERS = [b"\n3 3\n255\n", b"\n# a comment\n3 3\n255\n", b" # one\n# two\n3 #three\n3\n#four\n255\n", b"\t3\r3 255\n"]


@pytest.mark.parametrize("header", HEADERS)
@pytest.mark.parametrize("form", [raw, plain])
def test_comments_in_headers(tmp_path, header, form):
    (tmp_path / "a.pgm").write_bytes(form(header))
    wanted = ran("show.py", "-", given=raw(HEADERS[0])).stdout
    assert wanted.decode().splitlines()[1:] == ["  #"]
    assert ran("show.py", tmp_path / "a.pgm").stdout == ran("show.py", "-", given=form(header)).stdout == wanted
    padded = Picture.of_file(ran("pad.py", tmp_path / "a.pgm", 1).stdout)
    assert padded.rows() == [[row[at] for at in (0, 0, 1, 2, 2)] for row in (LEVELS[0], *LEVELS, LEVELS[2])]
    assert ran("pad.py", "-", -1, given=padded.file()).stdout == raw(HEADERS[0])


def test_sets_and_wide_samples_are_padded():
    for picture in (Picture.of_file(b"P1 #c\n2 1\n10"), Picture.of_file(b"P2 2 1 999 900 7")):
        padded = Picture.of_file(ran("pad.py", "-", 2, given=picture.file()).stdout)
        a, b = picture.rows()[0]
        assert padded.rows() == [[b, a, a, b, b, a]] * 5 and padded.maxval == picture.maxval and padded.is_set == picture.is_set


def test_the_last_picture_of_a_session_is_shown():
    first, last = Picture.of_file(b"P1 1 1 0").file(), Picture.of_file(b"P1 2 1 01").file()
    replies = b"OK 1\nIMAGE 1 %d\n%sIMAGE 2 %d\n%sCURVE 3 4\nV 1\nOK 4\n" % (len(first), first, len(last), last)
    assert ran("show.py", "-", given=replies).stdout == b" @\n"
