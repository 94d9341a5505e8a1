"""`morph label`, `reconstruct`, `fill`, `clear-border` and `distance`: their results, forms and faults."""
import numpy as np
import pytest

import morphd
from morphd import _hanging
from shell import run

MASK = np.array([[sign == "#" for sign in row] for row in """
##......
.....##.
.###.#..
.#.#..#.
.###..#.
.......#
""".split()])
# By sides and corners: what touches the frame at the upper left, the hook that goes down to the right edge, and the ring.
BY_CORNERS = [[1, 1, 0, 0, 0, 0, 0, 0], [0, 0, 0, 0, 0, 2, 2, 0], [0, 3, 3, 3, 0, 2, 0, 0], [0, 3, 0, 3, 0, 0, 2, 0],
              [0, 3, 3, 3, 0, 0, 2, 0], [0, 0, 0, 0, 0, 0, 0, 2]]
BY_SIDES = [[1, 1, 0, 0, 0, 0, 0, 0], [0, 0, 0, 0, 0, 2, 2, 0], [0, 3, 3, 3, 0, 2, 0, 0], [0, 3, 0, 3, 0, 0, 4, 0],
            [0, 3, 3, 3, 0, 0, 4, 0], [0, 0, 0, 0, 0, 0, 0, 5]]


@pytest.fixture
def folder(tmp_path):
    morphd.write(tmp_path / "mask.pbm", MASK)
    morphd.write(tmp_path / "seed.pbm", np.pad([[True]], ((2, 3), (1, 6))))
    levels = np.array([[3, 4, 6, 2, 5], [9, 1, 9, 9, 9], [2, 9, 2, 2, 2]], np.uint8)
    morphd.write(tmp_path / "levels.pgm", levels)
    morphd.write(tmp_path / "low.pgm", np.where(levels == 6, 7, 0).astype(np.uint8))
    morphd.write(tmp_path / "camera.pgm", levels.astype(np.uint16) * 100, 4095)
    return tmp_path


def made(folder, line, name="made.pgm"):
    assert run(folder, f"{line} -o @{name}") == 0
    return morphd.read(folder / name)


@pytest.mark.parametrize("words, wanted", [("", BY_CORNERS), ("--connectivity 8", BY_CORNERS), ("--connectivity 4", BY_SIDES)])
def test_labels(folder, words, wanted):
    found = made(folder, f"label {words} @mask.pbm")
    assert found.tolist() == wanted and found.dtype == np.uint8


def test_many_labels_have_16_bits(folder):
    image = np.zeros((40, 40), bool)
    image[::2, ::2] = True
    morphd.write(folder / "dots.pbm", image)
    found = made(folder, "label @dots.pbm")
    assert found.dtype == np.uint16 and found.max() == 400
    assert made(folder, "label @dots.pbm", "made.png").tolist() == found.tolist()


@pytest.mark.parametrize("count, dtype", [(255, np.uint8), (256, np.uint16)])
def test_so_many_labels_have_8_bits(folder, monkeypatch, count, dtype):
    monkeypatch.setattr(_hanging, "numbered", lambda found, connectivity: (np.arange(count + 1).reshape(1, -1), count))
    found = made(folder, "label @mask.pbm")
    assert found.dtype == dtype and found.tolist() == [list(range(count + 1))]


def test_more_labels_than_a_picture_holds(folder, capsys, monkeypatch):
    monkeypatch.setattr(_hanging, "numbered", lambda found, connectivity: (np.arange(65537).reshape(1, -1), 65536))
    assert run(folder, "label @mask.pbm -o @made.pgm") == 1
    assert capsys.readouterr().err == f"morph: {folder / 'mask.pbm'}: it has 65536 components, and a picture holds numbers up to 65535\n"
    assert not (folder / "made.pgm").exists()
    monkeypatch.setattr(_hanging, "numbered", lambda found, connectivity: (np.arange(65536).reshape(1, -1), 65535))
    assert made(folder, "label @mask.pbm").max() == 65535


def test_results_in_a_folder_are_pgms(folder):
    assert run(folder, "label @mask.pbm @seed.pbm -o @labels/") == 0
    assert sorted(path.name for path in (folder / "labels").iterdir()) == ["mask.pgm", "seed.pgm"]
    assert run(folder, "distance @mask.pbm @seed.pbm -o @far/") == 0
    assert run(folder, "fill @mask.pbm @levels.pgm -o @filled/") == 0
    assert sorted(path.name for path in (folder / "filled").iterdir()) == ["levels.pgm", "mask.pbm"]


def test_holes(folder):
    wanted = MASK.copy()
    wanted[3, 2] = True
    assert made(folder, "fill @mask.pbm", "made.pbm").tolist() == wanted.tolist()
    corners = np.array([[0, 1, 0], [1, 0, 1], [0, 1, 0]], bool)
    morphd.write(folder / "corners.pbm", np.pad(corners, 1))
    assert made(folder, "fill @corners.pbm", "made.pbm").sum() == 5
    assert made(folder, "fill --connectivity 4 @corners.pbm", "made.pbm").sum() == 4
    # a pond is filled up to the lowest place of its bank, which the frame's edge is no part of
    pond = made(folder, "fill @levels.pgm")
    assert pond.tolist() == [[3, 4, 6, 2, 5], [9, 4, 9, 9, 9], [2, 9, 2, 2, 2]]
    assert made(folder, "fill @camera.pgm").tolist() == (pond.astype(int) * 100).tolist()
    assert (folder / "made.pgm").read_bytes().startswith(b"P5\n5 3\n4095\n")


def test_borders(folder):
    wanted = np.zeros_like(MASK)
    wanted[2:5, 1:4] = MASK[2:5, 1:4]
    assert made(folder, "clear-border @mask.pbm", "made.pbm").tolist() == wanted.tolist()
    wanted[1:5, 5:7] = MASK[1:5, 5:7]
    assert made(folder, "clear-border --connectivity 4 @mask.pbm", "made.pbm").tolist() == wanted.tolist()


def test_reconstructions(folder):
    wanted = np.zeros_like(MASK)
    wanted[2:5, 1:4] = MASK[2:5, 1:4]
    assert made(folder, "reconstruct @seed.pbm @mask.pbm", "made.pbm").tolist() == wanted.tolist()
    # the marker is over the mask, and so cut to it
    levels = morphd.read(folder / "levels.pgm")
    for words, cross in (("--connectivity 4", morphd.diamond(1)), ("", morphd.square(3))):
        found = made(folder, f"reconstruct {words} @low.pgm @levels.pgm")
        seed = np.where(levels == 6, 6, 0).astype(np.uint8)
        assert found.tolist() == morphd.reconstruction(seed, levels, footprint=cross).tolist()
    up = made(folder, "reconstruct --method erosion @low.pgm @levels.pgm")
    assert up.tolist() == morphd.reconstruction(np.where(levels == 6, 7, levels).astype(np.uint8), levels, "erosion").tolist()


@pytest.mark.parametrize("metric, row", [("euclidean", [0, 1, 2, 3, 4, 5, 6]), ("sqeuclidean", [0, 1, 4, 9, 16, 25, 36]),
                                         ("cityblock", [0, 1, 2, 3, 4, 5, 6]), ("chessboard", [0, 1, 2, 3, 4, 5, 6])])
def test_distances(folder, metric, row):
    morphd.write(folder / "bar.pbm", np.array([[0, 1, 1, 1, 1, 1, 1]] * 2, bool))
    assert made(folder, f"distance --metric {metric} @bar.pbm").tolist() == [row, row]
    corner = np.ones((3, 3), bool)
    corner[0, 0] = False
    morphd.write(folder / "corner.pbm", corner)
    wanted = {"euclidean": 3, "sqeuclidean": 8, "cityblock": 4, "chessboard": 2}[metric]
    assert made(folder, f"distance --metric {metric} @corner.pbm")[2, 2] == wanted
    assert metric != "euclidean" or made(folder, "distance @corner.pbm").tolist() == [[0, 1, 2], [1, 1, 2], [2, 2, 3]]


def test_distances_that_no_picture_holds(folder, capsys, monkeypatch):
    monkeypatch.setattr("morphd.geodesics.distance", lambda found, metric: np.array([[0, 300 if metric == "euclidean" else 90000]]))
    assert run(folder, "distance --metric sqeuclidean @mask.pbm -o @made.pgm") == 1
    assert "its greatest distance is 90000, and a picture holds numbers up to 65535" in capsys.readouterr().err
    assert made(folder, "distance @mask.pbm").dtype == np.uint16


@pytest.mark.parametrize("line, told", [
    ("label @levels.pgm", "label takes a set, and this has grey levels: morph threshold makes one of it"),
    ("distance @levels.pgm", "distance takes a set"), ("distance @full.pbm", "all pixels are in the set, so none has a distance"),
    ("reconstruct @seed.pbm @levels.pgm", "is a set of 6x8, and the mask uint8 of 3x5"),
    ("reconstruct @levels.pgm @camera.pgm", "is uint8 of 3x5, and the mask uint16 of 3x5"),
    ("reconstruct @nowhere.pbm @mask.pbm", "nowhere.pbm: No such file or directory"), ("fill @nowhere.pbm", "No such file"),
])
def test_what_cannot_be_made(folder, capsys, line, told):
    morphd.write(folder / "full.pbm", np.ones((2, 3), bool))
    assert run(folder, f"{line} -o @made.pgm") == 1
    lines = capsys.readouterr().err.splitlines()
    assert len(lines) == 1 and lines[0].startswith("morph: ") and told in lines[0]
    assert not (folder / "made.pgm").exists()


@pytest.mark.parametrize("line, told", [
    ("label @mask.pbm", "-o says where the result goes"), ("label --connectivity 5 @mask.pbm -o @x.pgm", "invalid choice: 5"),
    ("distance --metric round @mask.pbm -o @x.pgm", "invalid choice: 'round'"), ("reconstruct @mask.pbm -o @x.pgm", "required: MASK"),
    ("reconstruct @seed.pbm @mask.pbm @mask.pbm -o @x.pgm", "unrecognized arguments"),
    ("reconstruct - - -o @x.pbm", "the standard input is read once"),
    ("reconstruct @seed.pbm @mask.pbm -o @seed.pbm", "seed.pbm is one of the files that are read; --force writes over it"),
    ("fill --disk 3 @mask.pbm -o @x.pbm", "unrecognized arguments: --disk"),
])
def test_wrong_words(folder, capsys, line, told):
    with pytest.raises(SystemExit) as ended:
        run(folder, line)
    assert ended.value.code == 2
    lines = capsys.readouterr().err.splitlines()
    assert len(lines) == 1 and told in lines[0], lines


def test_stacks_go_plane_by_plane_where_they_can(folder, capsys):
    pytest.importorskip("tifffile")
    ring = np.zeros((2, 5, 5), np.uint8)
    ring[:, 1:4, 1:4] = 9
    ring[0, 2, 2] = 4
    morphd.write(folder / "stack.tif", ring)
    assert run(folder, "fill @stack.tif -o @made.tif") == 0
    found = morphd.read(folder / "made.tif")
    assert found[0, 2, 2] == 9 and found[1].tolist() == ring[1].tolist()
