"""What bench/awkward.py times of two libraries: flat calls on narrow and on low frames, under elements that are awkward for kernels, and
under tall elements on wide frames.

A row is told as `u8 erosion, disc of 9, 17 x 8192`. Both libraries make the call by turns, so often that a timing takes about a
millisecond or more, into one array, and it stops where they write different bytes. A time is that of the processor for one call, the best
of the turns, less what a call takes that is refused at once: that is Python's. What takes over 1.1 times as long as before is timed once more
behind all other rows, since a busy machine makes some rows dear for a while, and is told as dearer where the best of both is. All rows take
about two minutes of a processor.
"""
import functools
import random
import sys

import numpy
from library import ERODE, GRADIENT, NUMBER, OPEN, RANK, WHITE_TOP_HAT, by_turns, images_of, milliseconds, opened, prepared
from peers import disc, rectangle

# From here on a call is told as dearer.
DEARER = 1.1
# A timing takes so many milliseconds or more.
LEAST = 1
# What stands where a call is to write. No set that is made has it.
UNWRITTEN = 85
# There is no such operation.
REFUSED = 99


class Row:
    """A flat call on a frame of so many columns and rows, by an element and its origin."""

    def __init__(self, kind, operation, shape, made, frame):
        self.name = "%s %s, %s, %d x %d" % (kind, operation, shape, *frame)
        self.kind, self.operation, self.frame = kind, OPERATIONS[operation], frame
        self.element, self.origin = made

    def calls(self, libraries, out):
        """The call of each library, into one array."""
        k = (int(self.element.sum()) + 1) // 2 if self.operation == RANK else 0
        image = picture(self.kind, *self.frame)
        return [prepared(it, self.kind)(self.operation, k, image, self.element, out, self.origin) for it in libraries]


OPERATIONS = {"erosion": ERODE, "opening": OPEN, "top-hat": WHITE_TOP_HAT, "gradient": GRADIENT, "median": RANK}
KINDS = ("u8", "u16", "set")
FRAMES = ((8192, 1), (1, 8192), (8192, 17), (17, 8192), (63, 1000), (33, 4096), (65, 64), (4095, 33), (300, 300), (1000, 999), (3, 3000),
          (640, 480))
# Elements of over 100 rows are looked at on these.
WIDE_FRAMES = ((2048, 512), (4096, 256))


@functools.lru_cache(maxsize=1)
def samples():
    """As many samples of each kind as the largest frame has."""
    return {kind: image.ravel() for kind, image in images_of(1024).items()}


@functools.lru_cache(maxsize=2 * len(FRAMES + WIDE_FRAMES))
def picture(kind, width, height):
    return samples()[kind][: width * height].reshape(height, width).copy()


# Elements, each with its origin, a column and a row, or None for its middle.


def places(width, height, has):
    """An element of the places (x, y) that has says yes to."""
    return numpy.array([[has(x, y) for x in range(width)] for y in range(height)], numpy.uint8)


def whole(width, height):
    return numpy.ones((height, width), numpy.uint8)


def beside(element, columns, rows):
    """An element so many columns and rows to the right of its origin and below."""
    return numpy.pad(element, ((rows, 0), (columns, 0))), (0, 0)


def sparse(across, count):
    """An element of so many places without a pattern, and the one in its middle."""
    chosen = set(random.Random(1).sample(range(across * across), count)) | {across * across // 2}
    return places(across, across, lambda x, y: y * across + x in chosen)


def ring(across, thick):
    return disc(across) - numpy.pad(disc(across - 2 * thick), thick)


def boxes():
    sides = ((3, 3), (5, 5), (15, 15), (63, 63), (3, 1), (41, 1), (255, 1), (1, 3), (1, 41), (1, 255), (31, 3), (3, 31), (2, 2), (4, 6),
             (16, 16))
    return {"%d x %d" % it: (whole(*it), None) for it in sides}


def rounds():
    made = {"disc of %d" % it: (disc(it), None) for it in (5, 9, 15, 31)}
    made["ring of 15"] = ring(15, 2), None
    return made


def lines():
    """Lines that are one pixel wide, along neither rows nor columns or along both."""
    return {"diagonal of 41": (numpy.eye(41, dtype=numpy.uint8), None),
            "anti-diagonal of 41": (numpy.eye(41, dtype=numpy.uint8)[::-1].copy(), None),
            "plus of 63": (places(63, 63, lambda x, y: 31 in (x, y)), None)}


def gaps():
    return {"row of 41 with gaps": (places(41, 1, lambda x, y: x % 2 == 0), None),
            "column of 255 with gaps": (places(1, 255, lambda x, y: y % 2 == 1), None),
            "9 x 9 with gaps": (places(9, 9, lambda x, y: x % 2 == y % 2 == 0), None),
            "two columns 40 apart": (places(41, 9, lambda x, y: x in (0, 40)), None),
            "sparse 31 x 31": (sparse(31, 60), None)}


def origins():
    """Elements whose origin is at a corner, and outside of the box of their pixels."""
    return {"3 x 3 from its first corner": (rectangle(3), (0, 0)), "15 x 15 from its last corner": (rectangle(15), (14, 14)),
            "disc of 9 from its first corner": (disc(9), (0, 0)), "5 x 5 beside its origin": beside(rectangle(5), 7, 7),
            "disc of 9 beside its origin": beside(disc(9), 20, 0), "9 x 1 far below its origin": beside(whole(9, 1), 0, 50)}


def tall():
    """Elements of over 100 rows: of many short runs, of a long one among them, and of long ones."""
    made = {"disc of %d" % it: (disc(it), None) for it in (127, 255)}
    return made | {"ring of 151": (ring(151, 2), None), "plus of 151": (places(151, 151, lambda x, y: 75 in (x, y)), None)}


def medians():
    return {"%d x %d" % (it, it): (rectangle(it), None) for it in (3, 5, 9)} | {"disc of 9": (disc(9), None)}


def rows():
    made = boxes() | rounds() | lines() | gaps() | origins()
    for kind in KINDS:
        for operation in OPERATIONS:
            for shape, element in (medians() if operation == "median" else made).items():
                yield from (Row(kind, operation, shape, element, frame) for frame in FRAMES)
            if operation != "median":
                for shape, element in tall().items():
                    yield from (Row(kind, operation, shape, element, frame) for frame in WIDE_FRAMES)


# Times.


def written(row, call, out):
    """What a call writes."""
    out.fill(UNWRITTEN)
    if answer := call():
        sys.exit(f"{row.name}: answer {answer}")
    return out.copy()


def refused(call):
    """A call like this one that does nothing."""
    return functools.partial(call.func, NUMBER(REFUSED), *call.args[1:])


def repeat(call, times):
    for _ in range(times):
        call()


def times_of(call):
    """How often a call is made in a timing."""
    times = 1
    while milliseconds(lambda: repeat(call, times)) < LEAST:
        times *= 2
    return times


def compare(row, libraries, turns):
    """The best times of both libraries, in microseconds for a call, which wrote the same."""
    out = numpy.empty_like(picture(row.kind, *row.frame))
    calls = row.calls(libraries, out)
    old, new = (written(row, it, out) for it in calls)
    if not numpy.array_equal(old, new):
        sys.exit(f"{row.name}: the libraries write different bytes")
    times = times_of(calls[1])
    *best, idle = by_turns([functools.partial(repeat, it, times) for it in [*calls, refused(calls[1])]], turns)
    return [1000 * (it - idle) / times for it in best]


def line_of(row, best):
    before, after = best
    return "| %s | %.1f | %.1f | %.2f |" % (row.name, before, after, after / before)


def is_dearer(best):
    before, after = best
    return after > DEARER * before


def tell(old, new, wanted, turns):
    """Prints a line for each row, and gives those of the rows that are dearer."""
    named = [opened(old), opened(new)]
    libraries = [library for _, library in named]
    print("old: %s\nnew: %s" % tuple(name for name, _ in named))
    print("| call | old, µs | new, µs | new over old |\n|---|---:|---:|---:|", flush=True)
    dearer = {}
    for row in wanted:
        best = compare(row, libraries, turns)
        print(line_of(row, best), flush=True)
        if is_dearer(best):
            dearer[row] = best
    again = {row: [min(it) for it in zip(best, compare(row, libraries, turns))] for row, best in dearer.items()}
    told = [line_of(row, best) for row, best in again.items() if is_dearer(best)]
    print("\n%d of %d calls take over %.2f times as long" % (len(told), len(wanted), DEARER))
    return told
