"""`morph grains`: what it counts and measures, its table and drawing, several files, and what it refuses."""
import csv
import io
import math
import statistics

import numpy as np
import pytest

import morphd
from morphd import _measured, _overlays
from morphd._areas import area, in_digits
from morphd._report_bars import edges_of, histogram
from morphd.pixels import Pixel
from shell import run

# A ring with a hole, a square, what the left edge cuts, a speck, and two pixels that meet at a corner.
PICTURE = """
............
..###.......
..#.#...##..
..###...##..
............
##......#...
.........#..
#...........
......#.....
............
"""
ROWS = PICTURE.split()
GRAINS = np.array([[sign == "#" for sign in row] for row in ROWS])
DISC = math.sqrt(4 / math.pi)
HEAD = ("label,x,y,area{2},left,top,right,bottom,width{1},height{1},touches_frame,centroid_x,centroid_y,equivalent_diameter{1},"
        "feret_max{1},perimeter{1}")


@pytest.fixture
def folder(tmp_path):
    levels = np.where(GRAINS, 200, 20).astype(np.uint8)
    morphd.write(tmp_path / "grains.pgm", levels)
    morphd.write(tmp_path / "dark.pgm", 255 - levels)
    morphd.write(tmp_path / "set.pbm", GRAINS)
    morphd.write(tmp_path / "blank.pgm", np.full((6, 8), 20, np.uint8))
    return tmp_path


def rows_of(text):
    head, *rows = csv.reader(io.StringIO(text))
    return [dict(zip(head, row, strict=True)) for row in rows]


def measures(row, *names):
    return [float(next(value for key, value in row.items() if key.startswith(name))) for name in names]


def test_the_table_of_a_picture(folder, capsys):
    assert run(folder, "grains --at 100 @grains.pgm --csv @grains.csv") == 0
    text = (folder / "grains.csv").read_text(encoding="utf-8")
    assert text.splitlines()[0] == HEAD.replace("{1}", " in pixels").replace("{2}", " in pixels")
    rows = rows_of(text)
    # by hand: the first place by rows, the area, the box, whether it is cut, and the centre
    wanted = [(1, 2, 1, 8, 2, 1, 4, 3, 0, 3, 2), (2, 8, 2, 4, 8, 2, 9, 3, 0, 8.5, 2.5), (3, 0, 5, 2, 0, 5, 1, 5, 1, 0.5, 5),
              (4, 8, 5, 2, 8, 5, 9, 6, 0, 8.5, 5.5), (5, 0, 7, 1, 0, 7, 0, 7, 1, 0, 7), (6, 6, 8, 1, 6, 8, 6, 8, 0, 6, 8)]
    names = ("label", "x", "y", "area", "left", "top", "right", "bottom", "touches_frame", "centroid_x", "centroid_y")
    assert [tuple(measures(row, *names)) for row in rows] == wanted
    assert measures(rows[0], "feret_max") == pytest.approx([math.sqrt(18)]) and measures(rows[0], "perimeter") == [16]
    for row, (_, _, _, pixels, *_) in zip(rows, wanted):
        assert measures(row, "equivalent_diameter") == pytest.approx([DISC * math.sqrt(pixels)])
    told = capsys.readouterr()
    assert told.out.splitlines()[0] == "6 grains, 2 of them cut by the frame"
    assert told.err == (f"morph: {folder / 'grains.pgm'}: 2 of 6 grains are cut by the frame, so they are measured too small: "
                        "--clear-border leaves them out\n")


def test_a_table_in_micrometres(folder):
    assert run(folder, "grains --at 100 --fill --clear-border --min-area 0.5um2 --pixel 0.5um @grains.pgm --csv @grains.csv") == 0
    text = (folder / "grains.csv").read_text(encoding="utf-8")
    assert text.splitlines()[0] == HEAD.replace("{1}", " in µm").replace("{2}", " in µm²")
    rows = rows_of(text)
    assert [measures(row, "label", "area", "width") for row in rows] == [[1, 9 * 0.25, 1.5], [2, 1, 1], [3, 0.5, 1]]


def test_the_summary(folder, capsys):
    assert run(folder, "grains --at 100 --fill --clear-border --min-area 0.5um2 --pixel 0.5um @grains.pgm") == 0
    told = capsys.readouterr()
    areas = [2.25, 1, 0.5]
    mean, by_area = statistics.fmean(areas), statistics.fmean(areas, areas)
    diameters = [DISC * math.sqrt(each) for each in areas]
    wide, wide_by_area = statistics.fmean(diameters), statistics.fmean(diameters, areas)

    def spread(values, about, weights):
        return math.sqrt(statistics.fmean([(value - about) ** 2 for value in values], weights))

    # inside are the ring, the square, and the pair; the frame cuts one of two pixels, and two specks are too small
    density = in_digits(3.5 / (12 * 10 * 0.25) * 1e6)
    wanted = [
        "3 grains, 1 cut by the frame and left out, 2 too small",
        "mean spread least middle greatest",
        f"area in µm², by number {in_digits(mean)} {in_digits(statistics.pstdev(areas))} 0.5 1 2.25",
        f"area in µm², by area {in_digits(by_area)} {in_digits(spread(areas, by_area, areas))}",
        f"diameter in µm, by number {in_digits(wide)} {in_digits(statistics.pstdev(diameters))} "
        f"{in_digits(diameters[2])} {in_digits(diameters[1])} {in_digits(diameters[0])}",
        f"diameter in µm, by area {in_digits(wide_by_area)} {in_digits(spread(diameters, wide_by_area, areas))}",
        f"3.5 grains in 30 µm², with half of those that the frame cuts: {density} to the square millimetre",
        "Diameters are those of discs of the same area, spreads standard deviations.",
    ]
    assert [" ".join(line.split()) for line in told.out.splitlines()] == wanted
    assert told.err == ""


@pytest.mark.parametrize("words, areas, told", [
    ("--at 100 @grains.pgm", [8, 4, 2, 2, 1, 1], "6 grains, 2 of them cut by the frame"),
    ("--at otsu @grains.pgm", [8, 4, 2, 2, 1, 1], "6 grains, 2 of them cut by the frame"),
    ("@set.pbm", [8, 4, 2, 2, 1, 1], "6 grains, 2 of them cut by the frame"),
    ("--at 100 --dark @dark.pgm", [8, 4, 2, 2, 1, 1], "6 grains, 2 of them cut by the frame"),
    ("--at 100 --connectivity 4 @grains.pgm", [8, 4, 2, 1, 1, 1, 1], "7 grains, 2 of them cut by the frame"),
    ("--at 100 --clear-border @grains.pgm", [8, 4, 2, 1], "4 grains, 2 cut by the frame and left out"),
    ("--at 100 --clear-border --min-area 2 @grains.pgm", [8, 4, 2], "3 grains, 1 cut by the frame and left out, 2 too small"),
    ("--at 100 --min-area 2 @grains.pgm", [8, 4, 2, 2], "4 grains, 1 of them cut by the frame, 2 too small"),
    ("--at 100 --fill --min-area 9 @grains.pgm", [9], "1 grain, 5 too small"),
    ("--at 100 --min-area 9 @grains.pgm", [], "no grains, 6 too small"),
    ("--dark --connectivity 4 @set.pbm", [120 - 18 - 1, 1], "2 grains, 1 of them cut by the frame"),
])
def test_what_is_counted(folder, capsys, words, areas, told):
    assert run(folder, f"grains {words} --csv @grains.csv") == 0
    found = [measures(row, "area")[0] for row in rows_of((folder / "grains.csv").read_text(encoding="utf-8"))]
    assert found == areas
    first, *rest = capsys.readouterr().out.splitlines()
    assert first == told and bool(rest) == bool(areas)


def test_a_hole_of_the_ring_is_open_where_it_meets_the_ground_at_a_corner(tmp_path):
    """Grains that hang together by sides alone have a ground that hangs together by corners, too."""
    morphd.write(tmp_path / "ring.pbm", np.array([[0, 0, 0, 0, 0], [0, 0, 1, 0, 0], [0, 1, 0, 1, 0], [0, 0, 1, 0, 0], [0, 0, 0, 0, 0]], bool))
    for connectivity, areas in ((8, [5]), (4, [1] * 4)):
        assert run(tmp_path, f"grains --fill --connectivity {connectivity} @ring.pbm --csv @ring.csv") == 0
        rows = rows_of((tmp_path / "ring.csv").read_text(encoding="utf-8"))
        assert [measures(row, "area")[0] for row in rows] == areas


# Two squares with a bridge, of which the right one has a hole; what the left edge cuts, with another bridge; a speck.
HEAP = """
..............
.#####.#####..
.#####.#####..
.#########.#..
.#####.#####..
.#####.#####..
..............
###...........
####...#......
##############
..............
"""


@pytest.fixture
def heap(tmp_path):
    morphd.write(tmp_path / "heap.pbm", np.array([[sign == "#" for sign in line] for line in HEAP.split()]))
    return tmp_path


@pytest.mark.parametrize("words, areas, told", [
    ("", [50, 22], "2 grains, 1 of them cut by the frame"),
    ("--split 1 --fill", [26, 25, 22], "3 grains, 1 of them cut by the frame, 1 heap parted into 2"),
    ("--split 1.99 --fill", [26, 25, 22], "3 grains, 1 of them cut by the frame, 1 heap parted into 2"),
    ("--split 2 --fill", [51, 22], "2 grains, 1 of them cut by the frame"),
    ("--split 1e9", [50, 22], "2 grains, 1 of them cut by the frame"),
    ("--split 1 --fill --clear-border", [26, 25], "2 grains, 1 cut by the frame and left out, 1 heap parted into 2"),
    ("--split 1 --fill --min-area 26", [26], "1 grain, 2 too small, 1 heap parted into 2"),
    ("--split 1 --fill --min-area 23 --clear-border", [26, 25], "2 grains, 1 too small, 1 heap parted into 2"),
    ("--split 1 --fill --min-area 27", [], "no grains, 3 too small, 1 heap parted into 2"),
    ("--split 1 --dark --connectivity 4", [67, 1, 14], "3 grains, 2 of them cut by the frame"),
])
def test_grains_that_touch(heap, capsys, words, areas, told):
    assert run(heap, f"grains {words} @heap.pbm --csv @heap.csv") == 0
    rows = rows_of((heap / "heap.csv").read_text(encoding="utf-8"))
    assert [measures(row, "area")[0] for row in rows] == areas and [row["label"] for row in rows] == [str(it) for it in range(1, len(areas) + 1)]
    assert capsys.readouterr().out.splitlines()[0] == told


def test_a_hole_parts_a_grain_unless_it_is_filled(heap, capsys):
    """Pixels are near to it as to other ground: around it the distance falls from the root of 2 to 1, four times."""
    mask = np.zeros((9, 9), bool)
    mask[2:7, 2:7] = True
    mask[4, 4] = False
    morphd.write(heap / "ring.pbm", mask)
    for words, told in (("", "4 grains, 1 heap parted into 4"), ("--fill", "1 grain")):
        assert run(heap, f"grains --split 0.3 {words} @ring.pbm") == 0
        assert capsys.readouterr().out.splitlines()[0] == told


def test_what_the_frame_cuts_of_a_heap_takes_no_other_grain_with_it(tmp_path, capsys):
    mask = np.array([[sign == "#" for sign in line] for line in HEAP.split()])[:7, 1:]
    morphd.write(tmp_path / "cut.pbm", mask)
    assert run(tmp_path, "grains --fill --clear-border @cut.pbm") == 0
    assert capsys.readouterr().out.splitlines()[0] == "no grains, 1 cut by the frame and left out"
    assert run(tmp_path, "grains --fill --clear-border --split 1 --pixel 2um @cut.pbm --csv @cut.csv --overlay @cut.png") == 0
    assert capsys.readouterr().out.splitlines()[0] == "1 grain, 1 cut by the frame and left out, 1 heap parted into 2"
    (row,) = rows_of((tmp_path / "cut.csv").read_text(encoding="utf-8"))
    assert measures(row, "area in µm²", "x", "left", "right", "feret_max in µm") == pytest.approx([25 * 4, 6, 6, 10, 2 * math.sqrt(50)])


def test_outlines_of_grains_that_touch(heap):
    """Each has its own, on both sides of the neck."""
    images = pytest.importorskip("PIL.Image")
    assert run(heap, "grains --split 1 --fill @heap.pbm --overlay @heap.png") == 0
    drawn = np.asarray(images.open(heap / "heap.png"))
    scale = drawn.shape[1] // 14
    is_orange = (drawn == _overlays.ORANGE).all(axis=2)
    # the sides of the neck that face one another: its last column, and the first one of the square
    for column in (7 * scale - 1, 7 * scale):
        assert is_orange[3 * scale : 4 * scale, column].all()
    assert run(heap, "grains --fill @heap.pbm --overlay @whole.png") == 0
    whole = (np.asarray(images.open(heap / "whole.png")) == _overlays.ORANGE).all(axis=2)
    assert not whole[3 * scale + scale // 2, 7 * scale - 1 : 7 * scale + 1].any()


def test_heaps_of_several_files(heap, capsys):
    morphd.write(heap / "other.pbm", np.array([[sign == "#" for sign in line] for line in HEAP.split()])[:6])
    assert run(heap, "grains --split 1 --fill @heap.pbm @other.pbm") == 0
    assert "5 grains, 3 of them cut by the frame, 2 heaps parted into 4" in capsys.readouterr().out


@pytest.mark.parametrize("fall", ["-1", "nan", "inf", "1px"])
def test_falls_that_are_no_numbers(heap, capsys, fall):
    with pytest.raises(SystemExit) as told:
        run(heap, f"grains --split={fall} @heap.pbm")
    assert told.value.code == 2 and "--split" in capsys.readouterr().err


def test_several_files(folder, capsys):
    assert run(folder, "grains --at 100 --clear-border --jobs 2 @grains.pgm @blank.pgm --csv @all.csv --overlay @drawn/") == 0
    told = capsys.readouterr()
    assert told.err == f"morph: {folder / 'blank.pgm'}: no grain: no sample reaches the threshold of 100, and the greatest is 20\n"
    heads = [line for line in told.out.splitlines() if line.endswith((":", "out")) or line.startswith("no")]
    assert heads == [f"{folder / 'grains.pgm'}:", "4 grains, 2 cut by the frame and left out", f"{folder / 'blank.pgm'}:", "no grains",
                     "all 2 pictures:", "4 grains, 2 cut by the frame and left out"]
    assert told.out.splitlines()[-2] == "5 grains in 168 pixels, with half of those that the frame cuts"
    rows = rows_of((folder / "all.csv").read_text(encoding="utf-8"))
    assert [(row["file"], row["label"]) for row in rows] == [(str(folder / "grains.pgm"), str(number)) for number in (1, 2, 3, 4)]
    assert sorted(path.name for path in (folder / "drawn").iterdir()) == ["blank.png", "grains.png"]


def test_tables_in_a_folder_and_on_the_standard_output(folder, capsys):
    assert run(folder, "grains --at 100 @grains.pgm --csv -") == 0
    told = capsys.readouterr().out
    assert told.startswith("label,") and len(told.splitlines()) == 7
    assert run(folder, "grains --at 100 @grains.pgm @blank.pgm --csv @tables/") == 0
    assert (folder / "tables" / "grains.csv").read_text(encoding="utf-8") == told
    assert len((folder / "tables" / "blank.csv").read_text(encoding="utf-8").splitlines()) == 1
    assert capsys.readouterr().out.count("grain") > 2
    assert run(folder, "grains --at 100 @grains.pgm @blank.pgm --csv -") == 0
    assert [line.partition(",")[0] for line in capsys.readouterr().out.splitlines()] == ["file", *[str(folder / "grains.pgm")] * 6]


def test_the_pixel_of_a_tiff(folder, capsys):
    pytest.importorskip("PIL")
    levels = np.where(GRAINS, 200, 20).astype(np.uint8)
    morphd.write(folder / "told.tif", levels, pixel="0.5um")
    assert run(folder, "grains --at 100 --min-area 1um2 @told.tif --csv @told.csv") == 0
    assert [measures(row, "area")[0] for row in rows_of((folder / "told.csv").read_text(encoding="utf-8"))] == pytest.approx([2, 1])
    # one table has one unit, and sizes in several units have no sum
    assert run(folder, "grains --at 100 @told.tif @grains.pgm --csv @both.csv") == 1
    assert "its sizes are in pixels, and those of the files before in µm: name one --pixel" in capsys.readouterr().err
    assert run(folder, "grains --at 100 @told.tif @grains.pgm") == 0
    told = capsys.readouterr()
    assert "all 2" not in told.out and "no sum, since their sizes are in µm and in pixels: name one --pixel" in told.err


def test_otsu_is_told(folder, capsys):
    assert run(folder, "grains --at otsu --clear-border @grains.pgm") == 0
    assert capsys.readouterr().err == f"morph: {folder / 'grains.pgm'}: the threshold is 21, by Otsu\n"


@pytest.mark.parametrize("words, told", [
    ("--at 250 @grains.pgm", "no grain: no sample reaches the threshold of 250, and the greatest is 200"),
    ("--at 10 --dark @grains.pgm", "no grain: no sample lies under the threshold of 10, and the least is 20"),
    ("--at 100 --min-area 9 @grains.pgm", "no grain is left: 6 smaller than 9"),
    ("--at 100 --min-area 8 --fill @dark.pgm", "grains cover 85% of the frame: where they are darker than their ground, take --dark"),
    ("--at 100 --dark @grains.pgm", "grains cover 85% of the frame: where they are brighter than their ground, leave out --dark"),
])
def test_what_is_doubtful(folder, capsys, words, told):
    assert run(folder, f"grains {words} --clear-border --overlay @o.png --report @r.html") in (0,)
    lines = capsys.readouterr().err.splitlines()
    wanted = told if "cover" not in told else None
    assert lines and (wanted is None or lines == [f"morph: {folder}/{words.split()[-1][1:]}: {told}"])


def test_no_grain_is_left_where_the_frame_cuts_all(folder, capsys):
    morphd.write(folder / "cut.pbm", np.array([[1, 0, 0], [0, 0, 0], [0, 0, 1]], bool))
    assert run(folder, "grains --clear-border @cut.pbm") == 0
    told = capsys.readouterr()
    assert told.out == "no grains, 2 cut by the frame and left out\n" and "no grain is left: 2 cut by the frame" in told.err


@pytest.mark.parametrize("words, told", [
    ("@grains.pgm", "it has grey levels, so --at says where grains begin: a level, or otsu"),
    ("--at 100 @set.pbm", "it is a set already, which takes no --at"), ("--at otsu @set.pbm", "it is a set already"),
    ("--at otsu @blank.pgm", "Otsu's level parts two classes, and all samples are the same"),
    ("--at 9 --min-area 30um2 @grains.pgm", "--min-area 30um2 needs the side of a pixel in such a unit: --pixel tells it"),
    ("--at 9 @nowhere.pgm", "nowhere.pgm: No such file or directory"), ("--at 9 --page 1 @grains.pgm", "no page 1"),
    ("--at 9 --maxval 99 @grains.pgm", "25 SAMPLE"), ("--at 9 @noise.png", "no picture"),
])
def test_what_cannot_be_measured(folder, capsys, words, told):
    pytest.importorskip("PIL")
    (folder / "noise.png").write_bytes(b"\x89PNG\r\n\x1a\n????")
    assert run(folder, f"grains {words} --csv @made.csv") == 1
    told_all = capsys.readouterr()
    assert told_all.out == "" and len(told_all.err.splitlines()) == 1 and told in told_all.err
    assert not (folder / "made.csv").exists()


def test_a_drawing_that_cannot_be_written(folder, capsys):
    assert run(folder, "grains --at 9 @grains.pgm --overlay @no/such/folder.png") == 1
    assert capsys.readouterr().err == f"morph: {folder / 'no/such/folder.png'}: No such file or directory\n"


def test_a_closed_output_loses_no_file(folder, capsys, monkeypatch):
    monkeypatch.setattr("sys.stdout", None)
    assert run(folder, "grains --at 100 --clear-border @grains.pgm @dark.pgm --csv @made.csv --report @made.html --overlay @drawn/") == 1
    monkeypatch.undo()
    assert "grains.pgm: the standard output is closed" in capsys.readouterr().err
    assert len((folder / "made.csv").read_text(encoding="utf-8").splitlines()) == 1 + 4 + 1
    assert "Grains of 2 pictures" in (folder / "made.html").read_text(encoding="utf-8")


def test_a_report_that_cannot_be_written(folder, capsys):
    assert run(folder, "grains --at 100 --clear-border @grains.pgm --report @no/report.html") == 1
    told = capsys.readouterr()
    assert told.err == f"morph: {folder / 'no/report.html'}: No such file or directory\n" and told.out.startswith("4 grains")


def test_one_of_several_that_cannot_be_measured(folder, capsys):
    assert run(folder, "grains --at 100 --clear-border @grains.pgm @nowhere.pgm @dark.pgm --csv -") == 1
    told = capsys.readouterr()
    assert len(told.out.splitlines()) == 1 + 4 + 1 and "nowhere.pgm" in told.err


@pytest.mark.parametrize("words, told", [
    ("--at 9 --min-area 30um @grains.pgm", "an area is a number of pixels, or one with a unit and its square, as 30um2: '30um'"),
    ("--at 9 --min-area large @grains.pgm", "argument --min-area: an area is a number of pixels"),
    ("--at 9 --min-area 30um2 --pixel 0.32 @grains.pgm", "--min-area 30um2 is no area in the unit of --pixel, which is 0.32 pixels"),
    ("--at bright @grains.pgm", "argument --at: bright: a finite number is wanted"), ("--at nan @grains.pgm", "a finite number is wanted"),
    ("--at 9 --connectivity 6 @grains.pgm", "argument --connectivity: invalid choice: 6"),
    ("--at 9 --pixel wide @grains.pgm", "argument --pixel: a pixel is a number with a unit"),
    ("--at 9 --round @grains.pgm", "unrecognized arguments: --round"), ("--at 9", "the following arguments are required: FILE"),
    ("--at 9 @grains.pgm --overlay -", "--overlay takes a file that ends with .png, or a folder"),
    ("--at 9 @grains.pgm --overlay @o.jpg", "--overlay takes a file that ends with .png"),
    ("--at 9 @grains.pgm --report @r.pdf", "--report takes a file that ends with .html, or a folder"),
    ("--at 9 @grains.pgm @dark.pgm --overlay @o.png", "several results go into a folder"),
    ("--at 9 @grains.pgm --csv @same.png --overlay @same.png", "would both be"),
    ("--at 9 @grains.pgm --csv @grains.pgm", "--force writes over it"), ("--at 9 - -", "the standard input is read once"),
])
def test_wrong_words(folder, capsys, words, told):
    with pytest.raises(SystemExit) as ended:
        run(folder, f"grains {words}")
    assert ended.value.code == 2
    lines = capsys.readouterr().err.splitlines()
    assert len(lines) == 1 and told in lines[0] and lines[0].endswith("--help says more)"), lines


# ---- the drawing


def wide_picture():
    """A picture that is drawn as large as it is, with a square, another one in a corner, and a ring."""
    labels = np.zeros((40, 801), np.int32)
    labels[5:25, 10:40] = 1
    labels[8:30, 60:90], labels[12:26, 66:84] = 2, 0
    others = np.zeros_like(labels)
    others[0:9, 790:801] = 1
    return labels, others


def test_outlines_lie_on_the_grains(folder):
    labels, others = wide_picture()
    image = np.where(labels > 0, 180, 30).astype(np.uint8)
    pixels, scale, _ = _overlays.drawn(image, labels, others)
    assert scale == 1 and pixels.shape == (40, 801, 3)
    inner = np.zeros(labels.shape, bool)
    inner[6:24, 11:39] = True
    inner[9:29, 61:89], inner[11:27, 65:85] = True, False
    outline = (labels > 0) & ~inner
    # the number of a grain covers its middle, and no outline is under it here
    at_outline = (pixels == _overlays.ORANGE).all(axis=2)
    np.testing.assert_array_equal(at_outline[:, :60], outline[:, :60])
    assert (pixels[0, :700] == 30).all() and (pixels[7, 12] == 180).all()
    dashes = (pixels == _overlays.BLUE).all(axis=2)
    frame = (others > 0) & ~np.pad(np.ones((7, 9), bool), ((1, 32), (791, 1)))
    assert dashes.any() and not (dashes & ~frame).any() and (frame & ~dashes).any()
    assert (pixels[4, 795] == 30).all()


def test_numbers_are_drawn_in_the_middle():
    labels, _ = wide_picture()
    pixels, *_ = _overlays.drawn(np.zeros(labels.shape, np.uint8), labels)
    ink = (pixels == 255).all(axis=2)
    one = np.array([[sign == "#" for sign in row] for row in "..#.. .##.. ..#.. ..#.. ..#.. ..#.. .###.".split()])
    rows, columns = np.nonzero(ink[:, :45])
    found = ink[rows.min():rows.max() + 1, columns.min():columns.max() + 1]
    np.testing.assert_array_equal(found, one[:, 1:4].repeat(1, 0).repeat(1, 1))
    assert abs((rows.min() + rows.max()) / 2 - 14.5) <= 1 and abs((columns.min() + columns.max()) / 2 - 24.5) <= 1


def test_a_number_stands_on_its_grain():
    """The centre of a crescent lies outside of it."""
    labels = np.zeros((30, 30), np.int32)
    labels[2:28, 2:6] = labels[2:6, 2:28] = labels[24:28, 2:28] = 1
    (row, column, high, wide), = _overlays.places(labels, 1)
    assert labels[row, column] == 1 and (high, wide) == (26, 26)
    assert _overlays.places(labels, 3)[1:].tolist() == [[0] * 4] * 2


@pytest.mark.parametrize("shape, fits, scale", [((10, 12), False, 66), ((400, 600), True, 1), ((2000, 30), True, -2), ((2000, 30), False, 1),
                                                ((1600, 5), True, 1), ((1601, 5), True, -2), ((300, 390), False, 2)])
def test_how_large_a_picture_is_drawn(shape, fits, scale):
    labels = np.zeros(shape, np.int32)
    labels[1:-1, 1:-1] = 1
    made = _overlays.drawn(labels > 0, labels, fits=fits)
    assert made.scale == scale
    assert made.pixels.shape[:2] == tuple(-(-side // -scale) if scale < 0 else side * scale for side in shape) or scale < 0


def test_small_grains_are_drawn_larger():
    """So that the numbers of a thousand grains find room."""
    labels = np.zeros((300, 700), np.int32)
    labels[1:-1:10, 1:-1:10] = np.arange(1, 2101).reshape(30, 70)
    assert _overlays.usual_side(labels) == 1 and _overlays.drawn(labels > 0, labels).scale == 2
    assert _overlays.scale_of((100, 100), 5.0, 99, False) == 8 and _overlays.scale_of((100, 100), 0.5, 99, False) == 16


def test_outlines_of_small_grains_are_thin():
    """They would hide a grain in a large picture."""
    for side, thickness in ((30, 1), (50, 3), (100, 4)):
        labels = np.zeros((110, 3000), np.int32)
        labels[1:side + 1, 10:side + 10] = 1
        pixels, scale, unnumbered = _overlays.drawn(labels > 0, labels)
        assert scale == 1 and unnumbered == 0
        found = (pixels[:side // 4, 10:side + 10] == _overlays.ORANGE).all(axis=2)
        assert found[1:thickness + 1].all() and not found[thickness + 1:, thickness:-thickness].any()


def test_numbers_that_would_hide_grains_are_left_out_of_a_smaller_picture():
    labels = np.zeros((40, 3300), np.int32)
    labels[3:30, 10:40], labels[3:9, 100:106] = 1, 2
    image = np.zeros(labels.shape, np.uint8)
    made = _overlays.drawn(image, labels, fits=True)
    assert made.scale == -3 and made.unnumbered == 1
    white = np.nonzero((made.pixels == 255).all(axis=2))[1]
    assert white.min() >= 3 and white.max() < 14
    assert _overlays.drawn(image, labels).unnumbered == 0


@pytest.mark.parametrize("image, greys", [
    (np.array([[0, 255]], np.uint8), [[0, 255]]), (np.array([[1000, 3000, 5000]], np.uint16), [[0, 127, 255]]),
    (np.array([[7, 7]], np.uint16), [[0, 0]]), (np.array([[True, False]]), [[200, 40]])])
def test_greys(image, greys):
    assert _overlays.greys(image).tolist() == greys


def test_a_png_is_read_by_others():
    images = pytest.importorskip("PIL.Image")
    pixels = np.random.default_rng(1).integers(0, 256, (7, 5, 3)).astype(np.uint8)
    np.testing.assert_array_equal(np.asarray(images.open(io.BytesIO(_overlays.png(pixels)))), pixels)


def test_the_overlay_of_a_picture(folder):
    images = pytest.importorskip("PIL.Image")
    assert run(folder, "grains --at 100 --clear-border @grains.pgm --overlay @drawn.png") == 0
    pixels = np.asarray(images.open(folder / "drawn.png"))
    assert pixels.shape == (660, 792, 3)
    # the upper left pixel of the ring is outlined above and to the left, and the hole's sides are outlined too
    assert tuple(pixels[66, 140]) == tuple(pixels[100, 132]) == tuple(pixels[3 * 66, 3 * 66 + 30]) == _overlays.ORANGE
    assert tuple(pixels[100, 160]) == (200, 200, 200) and tuple(pixels[30, 30]) == (20, 20, 20)
    # what the frame cuts is dashed
    assert {tuple(pixel) for pixel in pixels[5 * 66, :132].tolist()} == {_overlays.BLUE, (200, 200, 200)}


# ---- areas, bins, numbers


@pytest.mark.parametrize("text, pixel, count", [
    ("30", None, 30), ("30px", "0.5um", 30), ("2.5", None, 3), ("30um2", "0.5um", 120), ("30 µm²", "0.5um", 120), ("30um^2", "500nm", 120),
    ("0.9um2", "0.3um", 10), ("1mm2", "100um", 100), ("1um2", "0.1um", 100), ("1in2", "0.01in", 10000), ("7foo2", (0.5, "foo"), 28),
    ("0", None, 0)])
def test_least_areas(text, pixel, count):
    assert area(text).in_pixels(None if pixel is None else morphd.pixels.pixel_size(pixel)) == count


def test_areas_that_cannot_be_told():
    for text in ("30um", "", "-3", "30 2", "um2", "1e400x", "3,5um2"):
        with pytest.raises(ValueError, match="an area is a number of pixels"):
            area(text)
    for pixel in (None, Pixel(1, "pixels"), Pixel(1, "foo")):
        with pytest.raises(ValueError, match="needs the side of a pixel in such a unit"):
            area("30um2").in_pixels(pixel)
    with pytest.raises(ValueError, match="is more than the 4294967295 pixels"):
        area("5m2").in_pixels(Pixel(1, "µm"))


def test_bins_are_round_and_hold_all():
    rng = np.random.default_rng(3)
    for values in (rng.lognormal(2, 0.6, 300), rng.uniform(1, 2, 5), np.array([7.0]), np.array([1e-3] * 4), np.array([3.0, 3000])):
        edges = edges_of(values)
        steps = np.diff(edges)
        assert 1 <= len(steps) <= 31 and np.allclose(steps, steps[0])
        assert f"{steps[0]:.0e}"[0] in "125" and edges[0] <= values.min() and values.max() < edges[-1]
        drawn = histogram(values, values**2)
        assert drawn.counts.sum() == len(values) and drawn.parts.sum() == pytest.approx(1)
        for low, high, count, part in zip(edges, edges[1:], drawn.counts, drawn.parts):
            held = values[(low <= values) & (values < high)]
            assert count == len(held) and part == pytest.approx((held**2).sum() / (values**2).sum())


def test_numbers_in_words():
    told = [in_digits(number) for number in (0.0, 12.0, 12.3456, 1234.5, 123456.7, 0.001234567, math.nan)]
    assert told == ["0", "12", "12.35", "1234", "123457", "0.001235", "-"]


def test_pictures_together():
    one = _measured.Counted(np.array([1.0, 2.0]), "µm", 2, 1, 1, 3, 10.0, 4.0)
    both = _measured.together([one, one])
    assert both.areas.tolist() == [1, 2, 1, 2] and (both.inside, both.cut, both.left_out, both.small) == (4, 2, 2, 6)
    assert both.frame == 20 and both.density == one.density and one.per_square_millimetre == 0.25e6
    assert _measured.Counted(np.zeros(0), "mm", 0, 0, 0, 0, 4.0, 0.0).per_square_millimetre == 0
