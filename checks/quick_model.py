"""checks/reference_model.py made quick: what it computes of sets goes by checks/bit_model.py, where a set is one number, and the samples of
levels under an element are taken run by run.

`install` puts that in the place of the plain ways, behind which all else stays as it is; `hold` stops where the two differ.
"""
import random
from collections.abc import Callable
from typing import NamedTuple

import bit_model
import reference_model
from reference_model import Image

plain_seen = reference_model.seen
PLAIN = {"erosion": reference_model.erosion, "dilation": reference_model.dilation, "rank": reference_model.rank}
QUICK = {"erosion": bit_model.erosion, "dilation": bit_model.dilation, "rank": bit_model.rank}
LINES = {"erosion": "ERODE", "dilation": "DILATE", "rank": "RANK"}
Offsets = list[tuple[int, int]]


class Run(NamedTuple):
    """The offsets of a row from one column on, up to another one that is none of them."""

    row: int
    first: int
    end: int


class Bitmap(NamedTuple):
    """The least bitmap that has the offsets and the origin, with the place of the origin in it."""

    width: int
    height: int
    x: int
    y: int
    pixels: bytes


def runs_of(offsets: Offsets) -> list[Run]:
    runs: list[Run] = []
    for dx, dy in sorted(offsets, key=lambda it: (it[1], it[0])):
        if runs and runs[-1].row == dy and runs[-1].end == dx:
            runs[-1] = runs[-1]._replace(end=dx + 1)
        else:
            runs.append(Run(dy, dx, dx + 1))
    return runs


def bitmap_of(offsets: Offsets) -> Bitmap:
    columns, rows = [0, *(dx for dx, _ in offsets)], [0, *(dy for _, dy in offsets)]
    left, top = min(columns), min(rows)
    width, height = max(columns) - left + 1, max(rows) - top + 1
    pixels = bytearray(width * height)
    for dx, dy in offsets:
        pixels[(dy - top) * width + dx - left] = 1
    return Bitmap(width, height, -left, -top, bytes(pixels))


def rows_of(samples: list[int], width: int) -> list[list[int]]:
    return [samples[at:at + width] for at in range(0, len(samples), width)]


class Kept:
    """What was made of the last list that was asked for; the list is held, so none other can stand in its place."""

    def __init__(self, make):
        self.make, self.of, self.made = make, None, None

    def __call__(self, it, *more):
        if self.of is not it:
            self.of, self.made = it, self.make(it, *more)
        return self.made


kept_runs, kept_rows, kept_bitmaps = Kept(runs_of), Kept(rows_of), Kept(bitmap_of)


def seen(f: Image, offsets: Offsets, x: int, y: int) -> list[int]:
    """The samples under the element at a place, in the order of its runs."""
    rows, found = kept_rows(f.samples, f.width), []
    for dy, first, end in kept_runs(offsets):
        if 0 <= y + dy < f.height:
            found += rows[y + dy][max(0, x + first):max(0, x + end)]
    return found


def quick(name: str) -> Callable[..., Image]:
    """An operator that goes by numbers where it is asked for a set."""
    def operator(f: Image, offsets: Offsets, *numbers: int) -> Image:
        if f.kind != "BIT":
            return PLAIN[name](f, offsets, *numbers)
        b = kept_bitmaps(offsets)
        frame = bit_model.Frame(f.width, f.height, max(b.width, b.height))
        made = QUICK[name](frame, frame.set_of(bytes(f.samples)), b, *numbers)
        return f._replace(samples=list(frame.bytes_of(made)))
    return operator


def install() -> None:
    reference_model.seen = seen
    for name, line in LINES.items():
        operator = quick(name)
        setattr(reference_model, name, operator)
        reference_model.OPERATIONS[line] = (*reference_model.OPERATIONS[line][:2], operator)


def hold(count: int = 200) -> None:
    """Stops where a quick way makes another picture than the plain one."""
    chance, now = random.Random("quick model"), reference_model.seen
    for number in range(count):
        width, height, maxval = chance.randint(1, 12), chance.randint(1, 9), chance.choice((1, 999))
        samples = [chance.randint(0, maxval) for _ in range(width * height)]
        f = Image("BIT" if maxval == 1 else "GREY", width, height, maxval, samples)
        reach = chance.choice((2, 5, 14))
        places = [(dx, dy) for dx in range(-reach, reach + 1) for dy in range(-2, 3)]
        b = chance.sample(places, chance.randint(1, 9))
        for name in PLAIN:
            numbers = (chance.randint(1, len(b)),) if name == "rank" else ()
            reference_model.seen = seen
            made = quick(name)(f, b, *numbers)
            reference_model.seen = plain_seen
            if made != PLAIN[name](f, b, *numbers):
                raise SystemExit(f"quick_model.py: {name} {numbers} by {b} of picture {number} differs")
    reference_model.seen = now
