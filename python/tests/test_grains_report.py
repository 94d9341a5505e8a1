"""The report of `morph grains`: its numbers, that it loads nothing, that people and programs can read it, and how it looks."""
import base64
import html.parser
import io
import math
import re
import shutil
import statistics
import subprocess

import numpy as np
import pytest
import stand_in

import morphd
from morphd import _overlays
from morphd._areas import grains, in_digits
from shell import run

# The tops, lefts and sides of squares: one is cut by the left edge, and one has a hole of a pixel.
SQUARES = [(1, 2, 5), (1, 9, 4), (8, 2, 3), (8, 8, 6), (2, 15, 3), (7, 0, 1), (12, 16, 2)]
AREAS = [25, 16, 9, 35, 9, 1, 4]
SIDE = 0.5
EMPTY = {"meta", "img"}


class Page(html.parser.HTMLParser):
    """What a page has: its elements with their attributes, headings, tables by captions, and its text."""

    def __init__(self, text):
        super().__init__()
        self.elements, self.open, self.headings, self.tables, self.text = [], [], [], {}, []
        self.cells = self.caption = None
        self.feed(text)
        assert self.open == []

    def handle_starttag(self, tag, attributes):
        self.elements.append((tag, dict(attributes)))
        if tag not in EMPTY:
            self.open.append(tag)
        if re.fullmatch("h[1-6]", tag):
            self.headings.append((int(tag[1]), ""))
        elif tag == "table":
            self.caption, self.cells = "", []
        elif tag == "tr":
            self.cells.append([])
        elif tag in ("td", "th"):
            self.cells[-1].append("")

    def handle_startendtag(self, tag, attributes):
        self.elements.append((tag, dict(attributes)))

    def handle_endtag(self, tag):
        assert self.open.pop() == tag
        if tag == "table":
            self.tables[self.caption] = self.cells

    def handle_data(self, data):
        self.text.append(data)
        if self.open and re.fullmatch("h[1-6]", self.open[-1]):
            level, before = self.headings[-1]
            self.headings[-1] = level, before + data
        elif self.open and self.open[-1] == "caption":
            self.caption += data
        elif self.open and self.open[-1] in ("td", "th"):
            self.cells[-1][-1] += data

    def all(self, tag):
        return [attributes for name, attributes in self.elements if name == tag]

    def table(self, word):
        (found,) = [rows for caption, rows in self.tables.items() if word in caption]
        return found


def picture():
    image = np.full((18, 20), 30, np.uint8)
    for top, left, side in SQUARES:
        image[top:top + side, left:left + side] = 190
    image[10, 10] = 30
    return image


@pytest.fixture
def folder(tmp_path):
    morphd.write(tmp_path / "grains.pgm", picture())
    return tmp_path


def report(folder, words="--clear-border --pixel 0.5um", name="report.html", files="@grains.pgm"):
    assert run(folder, f"grains --at 100 {words} {files} --report @{name}") == 0
    text = (folder / name).read_text(encoding="utf-8")
    return text, Page(text)


def spread(values, weights):
    mean = statistics.fmean(values, weights)
    return mean, math.sqrt(statistics.fmean([(value - mean) ** 2 for value in values], weights))


def sizes(pixels):
    """The table of sizes, by hand."""
    areas = [count * SIDE**2 for count in pixels]
    diameters = [math.sqrt(4 * area / math.pi) for area in areas]
    rows = [["size", "mean", "spread", "least", "middle", "greatest"]]
    for name, unit, values in (("area", "µm²", areas), ("diameter", "µm", diameters)):
        ends = [in_digits(each) for each in (min(values), statistics.median(values), max(values))]
        rows.append([f"{name} in {unit}, by number", *map(in_digits, spread(values, [1] * len(values))), *ends])
        rows.append([f"{name} in {unit}, by area", *map(in_digits, spread(values, areas)), "", "", ""])
    return rows


def test_sizes_and_counts(folder):
    _, page = report(folder)
    whole = [area for area in AREAS if area != 1]
    assert page.table("By number each grain") == sizes(whole)
    frame = 18 * 20 * SIDE**2
    assert page.table("What was counted") == [
        ["what", "number"], ["grains that are measured", "6"], ["cut by the frame", "1"], ["of these left out", "1"],
        ["too small, and dropped", "0"], ["area of the frame in µm²", in_digits(frame)],
        ["of it covered by grains", f"{100 * sum(AREAS) / 360:.1f} %"], ["grains inside and half of those cut", "6.5"],
        ["the same to the square millimetre", in_digits(6.5 / frame * 1e6)]]
    mean, deviation = spread([math.sqrt(4 * area / math.pi) * SIDE for area in whole], [1] * 6)
    assert f"6 grains, 1 cut by the frame and left out. Mean diameter {in_digits(mean)} µm, spread {in_digits(deviation)} µm." in page.text


def test_what_was_asked_for(folder):
    _, page = report(folder, "--clear-border --fill --pixel 0.5um --min-area 0.9um2 --connectivity 4")
    told = dict(page.table("What was asked for"))
    assert told == {
        "what": "value", "file": str(folder / "grains.pgm"), "picture": "20 x 18 pixels, 10 x 9 µm", "side of a pixel": "0.5 µm",
        "grains": "samples of 100 or more", "grains that the frame cuts": "left out", "holes": "filled", "least area": "0.9um2, so 4 pixels",
        "pixels hang together": "by sides (4)", "version": f"morph {morphd.__version__}"}
    assert (f"morph grains --at 100 --clear-border --fill --pixel 0.5um --min-area 0.9um2 --connectivity 4 {folder / 'grains.pgm'} "
            f"--report {folder / 'report.html'}") in page.text
    assert run(folder, "grains --at otsu --dark @grains.pgm --report @other.html") == 0
    told = dict(Page((folder / "other.html").read_text(encoding="utf-8")).table("What was asked for"))
    assert told["grains"] == "samples under 31, by Otsu" and told["side of a pixel"] == "not known, so sizes are in pixels"
    assert told["picture"] == "20 x 18 pixels" and told["least area"] == "none" and told["holes"] == "not filled"
    assert told["grains that the frame cuts"] == "measured as far as they are seen" and told["pixels hang together"] == "by sides and corners (8)"


def test_heaps_that_are_parted(folder):
    """Two squares that overlap at a corner of two pixels: the report tells what was asked for, and how many came of it."""
    image = np.full((18, 20), 30, np.uint8)
    image[1:8, 1:8] = image[6:13, 6:13] = 190
    morphd.write(folder / "heap.pgm", image)
    _, page = report(folder, "--split 1.5 --pixel 0.5um", files="@heap.pgm")
    told = dict(page.table("What was asked for"))
    assert told["grains that touch"] == "parted where the distance from the ground falls by more than 1.5 pixels at a neck"
    counted = dict(page.table("What was counted"))
    assert (counted["grains that are measured"], counted["heaps that are parted"], counted["grains out of these"]) == ("2", "1", "2")
    areas = [float(line[1]) for line in page.table("that of Feret")[1:]]
    assert sum(areas) == pytest.approx((49 + 49 - 4) * SIDE**2)
    assert "2 grains, 1 heap parted into 2. Mean diameter" in " ".join(page.text)
    _, page = report(folder, "--split 1", files="@heap.pgm")
    assert dict(page.table("What was asked for"))["grains that touch"].endswith("by more than 1 pixel at a neck")
    _, page = report(folder, "", files="@heap.pgm")
    assert "grains that touch" not in dict(page.table("What was asked for")) and "heaps that are parted" not in dict(page.table("What was counted"))


def test_each_grain(folder):
    _, page = report(folder, "--pixel 0.5um")
    head, *rows = page.table("The greatest diameter is that of Feret")
    assert head == ["grain", "area in µm²", "diameter in µm", "greatest diameter in µm", "width in µm", "height in µm", "perimeter in µm",
                    "column", "row", "cut"]
    order = sorted(range(len(SQUARES)), key=lambda at: SQUARES[at][:2])
    wanted = []
    for number, (at, pixels) in enumerate([(at, AREAS[at]) for at in order], 1):
        top, left, side = SQUARES[at]
        # the pixel of the hole lies half a pixel beside the middle
        away = 0.5 / 35 if pixels == 35 else 0
        cells = [pixels * SIDE**2, math.sqrt(4 * pixels / math.pi) * SIDE, math.hypot(side, side) * SIDE, side * SIDE, side * SIDE,
                 (4 * side + (4 if pixels == 35 else 0)) * SIDE, left + (side - 1) / 2 + away, top + (side - 1) / 2 + away]
        wanted.append([str(number), *map(in_digits, cells), "yes" if left == 0 else "no"])
    assert rows == wanted
    assert report(folder)[1].table("that of Feret")[0][-1] == "row"


def test_the_bars_are_those_of_their_table(folder):
    _, page = report(folder)
    areas = [area * SIDE**2 for area in AREAS if area != 1]
    diameters = [math.sqrt(4 * area / math.pi) for area in areas]
    head, *rows = page.table("What the bars show")
    assert head == ["diameter in µm", "grains", "by number", "by area"]
    for name, count, number, area in rows:
        low, high = map(float, name.split(" to "))
        held = [at for at, diameter in enumerate(diameters) if low <= diameter < high]
        assert int(count) == len(held) and number == f"{100 * len(held) / 6:.1f} %"
        assert area == f"{100 * sum(areas[at] for at in held) / sum(areas):.1f} %"
    assert sum(int(row[1]) for row in rows) == 6
    for kind, column in (("number", 2), ("area", 3)):
        heights = [float(each["height"]) for each in page.all("rect") if each.get("class") == kind]
        parts = [float(row[column].split()[0]) for row in rows]
        assert len(heights) == len(parts) and max(heights) > 80
        assert [height / max(heights) for height in heights] == pytest.approx([part / max(parts) for part in parts], abs=0.01)
        bottoms = {round(float(each["y"]) + float(each["height"]), 1) for each in page.all("rect") if each.get("class") == kind}
        assert max(bottoms) - min(bottoms) <= 0.11
    # the line of the mean stands at its value, between the sides of the bars
    low, high = float(rows[0][0].split()[0]), float(rows[-1][0].split()[2])
    for kind, mean, line in zip(("number", "area"), (statistics.fmean(diameters), statistics.fmean(diameters, areas)),
                                [each for each in page.all("line") if each.get("class") == "mean"], strict=True):
        boxes = [each for each in page.all("rect") if each.get("class") == kind]
        left, right = float(boxes[0]["x"]) - 1, float(boxes[-1]["x"]) + float(boxes[-1]["width"]) + 1
        assert float(line["x1"]) == float(line["x2"]) == pytest.approx(left + (right - left) * (mean - low) / (high - low), abs=0.2)
    titles = [f"{row[0]}: {grains(int(row[1]))}, {row[column]}" for column in (2, 3) for row in rows]
    assert [text for text in page.text if text in titles] == titles
    for values in (spread(diameters, [1] * 6), spread(diameters, areas)):
        assert f"mean {in_digits(values[0])}" in page.text


def test_the_picture_stands_in_the_page(folder):
    images = pytest.importorskip("PIL.Image")
    _, page = report(folder)
    (image,) = page.all("img")
    head, _, data = image["src"].partition(",")
    assert head == "data:image/png;base64"
    pixels = np.asarray(images.open(io.BytesIO(base64.b64decode(data))))
    assert pixels.shape == (int(image["height"]), int(image["width"]), 3) == (18 * 40, 20 * 40, 3)
    assert image["alt"] == "The picture with the outlines and numbers of 6 grains, and the outlines of 1 grain cut by the frame."
    assert (pixels[8 * 40, 8 * 40:14 * 40] == _overlays.ORANGE).all() and (pixels[0] == 30).all()
    # a bar of 2 µm below a picture of 10 µm
    (bar,) = [each for each in page.all("rect") if "fill" in each]
    assert float(bar["width"]) == 200 and "2 µm" in page.text


def test_nothing_is_loaded(folder):
    text, page = report(folder)
    assert not re.search("https?:|//[a-z]|@import|@font-face|url\\(", re.sub("base64,[^\"]*", "", text))
    assert {name for name, _ in page.elements} & {"script", "link", "iframe", "object", "embed", "audio", "video", "use", "base", "form"} == set()
    for _, attributes in page.elements:
        assert not {"href", "srcset", "onload", "onclick", "background"} & set(attributes)
        assert attributes.get("src", "data:").startswith("data:")
    (policy,) = [each["content"] for each in page.all("meta") if each.get("http-equiv") == "Content-Security-Policy"]
    assert policy.startswith("default-src 'none'; img-src data:")


def test_it_can_be_read_by_programs(folder):
    """Headings go down one by one, tables have captions and headers, drawings have words."""
    for files in ("@grains.pgm", "@grains.pgm @other.pgm"):
        morphd.write(folder / "other.pgm", 220 - picture())
        text, page = report(folder, files=files)
        levels = [level for level, _ in page.headings]
        assert levels[0] == 1 and levels.count(1) == 1 and all(after - before <= 1 for before, after in zip(levels, levels[1:]))
        assert text.startswith("<!DOCTYPE html>") and page.all("html") == [{"lang": "en"}] and page.all("title")
        assert len(page.all("main")) == len(page.all("header")) == len(page.all("footer")) == 1
        assert len(page.all("caption")) == len(page.all("table")) and all(each["scope"] in ("col", "row") for each in page.all("th"))
        assert all(each["role"] == "img" and each["aria-label"] for each in page.all("svg") if each.get("aria-hidden") != "true")
        assert all(each["alt"] for each in page.all("img"))
        assert "@media print" in text and "thead { display: table-header-group; }" in text


def test_several_pictures_in_one_page(folder):
    smaller = np.full((10, 10), 30, np.uint8)
    smaller[2:6, 2:6] = 200
    morphd.write(folder / "more.pgm", smaller)
    morphd.write(folder / "blank.pgm", np.full((10, 10), 30, np.uint8))
    _, page = report(folder, files="@grains.pgm @more.pgm @blank.pgm")
    assert page.headings[0] == (1, "Grains of 3 pictures")
    assert [text for level, text in page.headings if level == 2] == [
        "All pictures", *(str(folder / f"{name}.pgm") for name in ("grains", "more", "blank"))]
    whole = [area for area in AREAS if area != 1]
    each = page.table("Each picture")
    means = [[row[1] for row in sizes(areas)[1:]] for areas in (whole, [16])]
    fields = [in_digits(count / (pixels * SIDE**2) * 1e6) for count, pixels in ((6.5, 360), (1, 100))]
    assert each[0][:4] == ["file", "grains", "cut", "to the square millimetre"]
    assert each[1:] == [[str(folder / "grains.pgm"), "6", "1", fields[0], *means[0]], [str(folder / "more.pgm"), "1", "0", fields[1], *means[1]],
                        [str(folder / "blank.pgm"), "0", "0", "0", "-", "-", "-", "-"]]
    first = page.headings.index((2, "All pictures"))
    assert page.headings[first + 1:first + 3] == [(3, "Sizes"), (3, "Histograms")] and len(page.all("img")) == 3
    assert "No grains." in page.text
    all_text = " ".join(page.text)
    assert f"7 grains, 1 cut by the frame and left out. Mean diameter {sizes([*whole, 16])[3][1]} µm" in all_text


def test_a_page_of_several_pictures_of_which_one_is_left(folder, capsys):
    assert run(folder, "grains --at 100 @grains.pgm @nowhere.pgm --report @report.html") == 1
    page = Page((folder / "report.html").read_text(encoding="utf-8"))
    assert page.table("Each picture")[0][3] == "inside and half of those cut" and page.table("Each picture")[1][:4][1:] == ["7", "1", "6.5"]
    assert page.headings[:3] == [(1, "Grains of 1 picture"), (2, "All pictures"), (3, "Sizes")]
    assert [text for level, text in page.headings if level == 2][1:] == [str(folder / "grains.pgm")]


def test_reports_in_a_folder(folder):
    morphd.write(folder / "more.pgm", 220 - picture())
    assert run(folder, "grains --at 100 @grains.pgm @more.pgm --report @reports/") == 0
    pages = {path.name: Page(path.read_text(encoding="utf-8")) for path in (folder / "reports").iterdir()}
    assert sorted(pages) == ["grains.html", "more.html"]
    assert all(page.headings[0] == (1, f"Grains of {name.replace('html', 'pgm')}") for name, page in pages.items())


def test_pages_are_the_same_again(folder):
    assert report(folder)[0] == report(folder)[0]


def test_names_are_no_markup(folder):
    name = "<b>&'\"grains.pgm"
    morphd.write(folder / name, picture())
    text, page = report(folder, files=f"@{name}")
    assert "<b>" not in text and page.headings[0] == (1, f"Grains of {name}")


def test_a_page_of_very_many_grains_tells_the_first(folder, monkeypatch):
    monkeypatch.setattr("morphd._grains_report._MOST_ROWS", 2)
    _, page = report(folder)
    assert [row[0] for row in page.table("The first 2 of 6 grains; --csv writes all.")] == ["grain", "1", "2"]


def test_a_name_that_is_no_text(folder):
    environment, program = stand_in.in_process()
    (folder / "\udcff.pgm").write_bytes((folder / "grains.pgm").read_bytes())
    words = ["grains", "--at", "100", "\udcff.pgm", "grains.pgm", "--report", "report.html", "--csv", "all.csv"]
    made = subprocess.run([*program, *words], cwd=folder, env=environment, capture_output=True, check=False)
    assert made.returncode == 0 and made.stdout.startswith(b"?.pgm:\n7 grains"), made.stderr
    assert "<h2>?.pgm</h2>" in (folder / "report.html").read_text(encoding="utf-8")
    assert b"\n\xff.pgm,1," in (folder / "all.csv").read_bytes()


def test_no_grain(folder, capsys):
    _, page = report(folder, "--min-area 99 --pixel 0.5um")
    assert [text for _, text in page.headings] == ["Grains of grains.pgm", "Picture", "Asked for"]
    assert "No grain is left: 7 smaller than 99." in page.text and "No grains, 7 too small." in page.text
    assert "no grain is left" in capsys.readouterr().err


def chromium():
    return next(filter(None, map(shutil.which, ("chromium", "chromium-browser", "google-chrome"))), None)


@pytest.mark.skipif(chromium() is None, reason="Chromium is not there: apt-get install chromium")
def test_how_it_looks(folder):
    """Chromium draws the bars and the table, and tells no fault."""
    images = pytest.importorskip("PIL.Image")
    report(folder)
    shot, profile = folder / "shot.png", folder / "profile"
    words = [chromium(), "--headless", "--no-sandbox", "--disable-gpu", "--hide-scrollbars", "--enable-logging=stderr", "--no-first-run",
             f"--user-data-dir={profile}", "--window-size=1100,3000", f"--screenshot={shot}", (folder / "report.html").as_uri()]
    made = subprocess.run(words, capture_output=True, text=True, check=False, timeout=180)
    assert shot.exists(), made.stderr
    assert [line for line in made.stderr.splitlines() if "CONSOLE" in line] == []
    pixels = np.asarray(images.open(shot).convert("RGB")).astype(int)

    def covered(*colour):
        return np.argwhere((abs(pixels - colour).sum(axis=2) < 12))

    bars, areas, outlines = covered(0, 0x72, 0xB2), covered(0xD5, 0x5E, 0), covered(*_overlays.ORANGE)
    assert len(bars) > 3000 and len(areas) > 3000 and len(outlines) > 1000
    # those by number stand to the left of those by area, both below the picture, and the table of grains below them
    assert bars[:, 1].max() < areas[:, 1].min() and abs(bars[:, 0].max() - areas[:, 0].max()) <= 2
    assert outlines[:, 0].max() < bars[:, 0].min()
    below = pixels[bars[:, 0].max() + 300:]
    assert (abs(below - (0x1C, 0x24, 0x30)).sum(axis=2) < 60).sum() > 1000
    # nothing reaches over the page's side
    assert (pixels[:, -20:] == 255).all()


def test_a_fault_of_a_page_is_noticed(folder):
    """What the test above looks for is told by Chromium, where there is any."""
    if chromium() is None:
        pytest.skip("Chromium is not there: apt-get install chromium")
    text, _ = report(folder)
    (folder / "bad.html").write_text(text.replace("</main>", "</main><script>throw 1</script>"), encoding="utf-8")
    words = [chromium(), "--headless", "--no-sandbox", "--disable-gpu", "--enable-logging=stderr", "--no-first-run",
             f"--user-data-dir={folder / 'profile'}", f"--screenshot={folder / 'shot.png'}", (folder / "bad.html").as_uri()]
    made = subprocess.run(words, capture_output=True, text=True, check=False, timeout=180)
    assert "CONSOLE" in made.stderr and "Content Security Policy" in made.stderr
