#!/usr/bin/env python3
"""Makes docs/GALLERY.md and its pictures: each operation before and after, with the line that made it.

    python3 docs/gallery/make_gallery.py [FOLDER]

The lines are run as they are shown, by the library that is built, or by the stand-in of python/tests where none is. The
pictures are those of examples/ and a bench's surface that is drawn here from a fixed seed.
"""
import os
import random
import sys

HERE = os.path.dirname(os.path.abspath(__file__))
ROOT = os.path.dirname(os.path.dirname(HERE))
sys.path[:0] = [f"{ROOT}/python", f"{ROOT}/python/tests", f"{ROOT}/docs/images"]
import numpy  # noqa: E402
import png_files  # noqa: E402
import stand_in  # noqa: E402

import morphd  # noqa: E402

ZOOM = 3
TITLE = """# Gallery

Each operation of the Python package on small pictures: the picture, the line that was run, and what it gave. The pictures are
`grains`, `mask` (defects) and `text` of `examples`, and `surface`, a bench with pits, scratches and a slanted light. All are drawn
three times as large. `docs/gallery/make_gallery.py` makes this page, and `make test` compares it.

| before | line | after |
|---|---|---|
"""
# What is run, on which picture, and what is to be said of it.
ROWS = [
    ("grains", "morphd.erosion(grains, morphd.disk(2))", "the least sample under a disc: bright grains shrink, and specks go"),
    ("grains", "morphd.dilation(grains, morphd.disk(2))", "the greatest one: grains grow"),
    ("grains", "morphd.opening(grains, morphd.disk(2))", "bright details go that hold no disc"),
    ("text", "morphd.closing(text, morphd.line(5))", "dark details go that hold no line of five pixels"),
    ("grains", "morphd.gradient(grains, morphd.square(3))", "how much samples differ: outlines"),
    ("surface", "morphd.white_tophat(surface, morphd.disk(4))", "bright scratches without the slanted light"),
    ("surface", "morphd.black_tophat(surface, morphd.disk(4))", "dark pits without it"),
    ("surface", "morphd.opening(surface, morphd.line(15, 20))", "scratches that rise by 20 degrees stay"),
    ("grains", "morphd.median(grains, morphd.square(3))", "noise and specks go, outlines stay"),
    ("grains", "morphd.rank(grains, 3, morphd.square(3), mode='ignore')", "the third sample in rising order of nine"),
    ("grains", "morphd.percentile(grains, 90, morphd.square(5))", "the sample that nine of ten lie below"),
    ("grains", "morphd.threshold(grains, 120)", "the set of the samples of 120 or more"),
    ("mask", "morphd.closing(mask, morphd.rectangle(1, 5))", "gaps in scratches are closed"),
    ("grains", "morphd.hit_or_miss(morphd.threshold(grains, 120), [[0, 0, 0], [0, 1, 0], [0, 0, 0]])", "pixels that stand alone: specks"),
    ("mask", "morphd.skeleton(mask, morphd.diamond(1), 4)", "a skeleton: brighter marks are deeper in the set"),
    ("mask", "morphd.restored(morphd.skeleton(mask, morphd.diamond(1), 4), morphd.diamond(1), 4)", "the set that it came from"),
    ("grains", "morphd.spectrum(morphd.threshold(grains, 120), morphd.octagon(2, 1), 4)",
     "how wide the largest octagon is that fits into the grains: 1 to 3, 4 to 6, .. pixels"),
    ("text", "morphd.fill_holes(~morphd.threshold(text, 128))", "letters with their holes filled"),
    ("grains", "morphd.clear_border(morphd.threshold(grains, 120))", "what the frame cuts goes, and what hangs together with it"),
    ("grains", "morphd.remove_small_objects(morphd.threshold(grains, 120), 10)", "what has fewer than ten pixels goes"),
    ("grains", "morphd.reconstruction(morphd.opening(grains, morphd.disk(3)), grains)", "grains that hold a disc come back whole"),
    ("grains", "morphd.hmax(grains, 90)", "domes are cut by 90 levels, so faint specks go"),
    ("grains", "morphd.label(morphd.remove_small_objects(morphd.threshold(grains, 120), 10))", "a number for each grain, or heap of grains"),
    ("grains", "morphd.distance(morphd.threshold(grains, 120), 'cityblock')", "how far each pixel lies from the ground"),
    ("grains", "morphd.split_grains(morphd.remove_small_objects(morphd.threshold(grains, 120), 10), h=0.5)", "a number for each grain, parted where they touch"),
    ("grains", "morphd.watershed(grains * 0, morphd.label(morphd.remove_small_objects(morphd.threshold(grains, 120), 10)))",
     "the zone of each grain: the pixels that are nearest to it by steps to a side"),
]


def surface():
    """A bench's surface: light that falls from the left, noise, bright scratches and dark pits."""
    rng, width, height = random.Random(3), 72, 40
    rows = [[90 + x + rng.randrange(9) for x in range(width)] for _ in range(height)]
    for x0, y0, length, slope in ((5, 34, 44, -36), (30, 8, 30, 20), (12, 18, 25, -36)):
        for x in range(x0, x0 + length):
            rows[y0 + (x - x0) * slope // 100][x] = 235
    for _ in range(9):
        cx, cy, r = rng.randrange(4, width - 4), rng.randrange(4, height - 4), rng.randrange(1, 4)
        for y in range(cy - r, cy + r + 1):
            for x in range(cx - r, cx + r + 1):
                if (x - cx) ** 2 + (y - cy) ** 2 <= r * r:
                    rows[y][x] = min(rows[y][x], 40 + rng.randrange(12))
    return numpy.array(rows, numpy.uint8)


def inputs():
    """The pictures before, by their names."""
    examples = {"grains": "grains.pgm", "mask": "defects.pbm", "text": "text.pgm"}
    return {**{name: morphd.read(f"{ROOT}/examples/{file}") for name, file in examples.items()}, "surface": surface()}


def bars(curve):
    """A spectrum as a picture: a bar for each fall."""
    falls = [int(fall) for fall in curve.falls]
    made = numpy.full((28, 12 * len(falls)), 255, numpy.uint8)
    for at, fall in enumerate(falls):
        made[28 - 27 * fall // max(falls):, 12 * at + 1 : 12 * at + 11] = 70
    return made


def shown(made):
    """What is drawn of a result: levels as they are, a set in white, marks as far apart as they can be."""
    if isinstance(made, morphd.Spectrum):
        return bars(made)
    if made.dtype == bool:
        return made.astype(numpy.uint8) * 255
    if made.dtype == numpy.int32:
        return (made * 255 // max(int(made.max()), 1)).astype(numpy.uint8)
    return made if made.max() > 20 else made * (255 // max(int(made.max()), 1))


def png(array):
    return png_files.png(array.repeat(ZOOM, 0).repeat(ZOOM, 1).tolist())


def made():
    """The page and its pictures: pairs of a path below docs, and bytes."""
    names = inputs()
    pictures = {f"gallery/{name}.png": png(shown(array)) for name, array in names.items()}
    page = TITLE
    for number, (before, line, text) in enumerate(ROWS, 1):
        path = f"gallery/{number:02}.png"
        pictures[path] = png(shown(eval(line, {"morphd": morphd, **names})))
        page += f"| ![{before}](gallery/{before}.png) | {text}<br>`{line}` | ![{text}]({path}) |\n"
    return {"GALLERY.md": page.encode(), **pictures}


def main():
    if stand_in.is_wanted():
        stand_in.install()
    folder = sys.argv[1] if len(sys.argv) > 1 else f"{ROOT}/docs"
    os.makedirs(f"{folder}/gallery", exist_ok=True)
    for path, data in made().items():
        with open(f"{folder}/{path}", "wb") as file:
            file.write(data)


if __name__ == "__main__":
    main()
