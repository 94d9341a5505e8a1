"""Calls of libmorphd by elements of up to 255 x 255 pixels, on pictures up to the limit, beside checks/bit_model.py.

Each picture has a few levels. Small pictures go through checks/reference_model.py too, so that the two models are held beside one
another.
"""
import collections
import ctypes
import sys

import bit_model
import lent_places
import library_calls as calls

ERODE, DILATE, OPEN, CLOSE, GRADIENT, WHITE, BLACK, RANK = range(8)
ONE = {ERODE: bit_model.erosion, DILATE: bit_model.dilation, OPEN: bit_model.opening, CLOSE: bit_model.closing, RANK: bit_model.rank}
# What is taken from what; None is the picture itself.
TWO = {GRADIENT: (DILATE, ERODE), WHITE: (None, OPEN), BLACK: (CLOSE, None)}
SMALL, RANDOM = 300, 120
# How many pixels of numbers may be shifted for one element in a model's step: seconds.
BUDGET = 6e8
LIMIT = ((8192, 2048), (2048, 8192), (4096, 4096))

# A picture: "u8", "u16" or "set"; its levels, from 0 to the maxval; and of each pixel which of them it has.
Picture = collections.namedtuple("Picture", "kind width height levels indices")
# A call: its name without the kind, its numbers, its picture and its elements.
Large = collections.namedtuple("Large", "family numbers picture bitmaps")


def array_of(indices, values, kind):
    """The bytes of an array in which each index stands for a value."""
    low = indices.translate(bytes(it & 255 for it in values).ljust(256, b"\0"))
    if kind != "u16":
        return low
    wide = bytearray(2 * len(low))
    wide[0::2], wide[1::2] = low, indices.translate(bytes(it >> 8 for it in values).ljust(256, b"\0"))
    return bytes(wide)


def sum_of(arrays, weights):
    """Sums of bytes, each so many times, none of which is over 255."""
    return sum(n * int.from_bytes(it, "little") for it, n in zip(arrays, weights)).to_bytes(len(arrays[0]), "little")


def gap_for(bitmaps):
    return max((side for b in bitmaps for side in (b.width, b.height)), default=1)


# ---- what a call has to make


class Chain:
    """A picture as the sets of the places with each level or more."""

    def __init__(self, picture, bitmaps):
        self.picture, self.frame = picture, bit_model.Frame(picture.width, picture.height, gap_for(bitmaps))
        tables = [bytes(int(it >= level) for it in range(256)) for level in range(1, len(picture.levels))]
        self.sets = [self.frame.set_of(picture.indices.translate(it)) for it in tables]

    def indices(self, sets):
        return sum_of([self.frame.bytes_of(it) for it in sets], [1] * len(sets))

    def places(self, level):
        """The places with a level."""
        if level not in self.picture.levels[1:]:
            return 0
        at = self.picture.levels.index(level)
        return self.sets[at - 1] & ~(self.sets[at] if at < len(self.sets) else 0)

    def made_by(self, operation, *given):
        return self.sets if operation is None else [ONE[operation](self.frame, it, *given) for it in self.sets]

    def difference(self, more, less):
        """The array of one chain less another, and 0 where that is below 0."""
        levels = self.picture.levels
        pairs = sum_of([self.indices(more), self.indices(less)], [len(levels), 1])
        return array_of(pairs, [max(0, a - b) for a in levels for b in levels], self.picture.kind)

    def flat(self, operation, k, b):
        if operation in TWO:
            more, less = TWO[operation]
            return self.difference(self.made_by(more, b), self.made_by(less, b))
        made = self.made_by(operation, b, *([k] if operation == RANK else []))
        return array_of(self.indices(made), self.picture.levels, self.picture.kind)

    def spectrum(self, levels, b):
        steps = [high - low for low, high in zip(self.picture.levels, self.picture.levels[1:])]
        curves = [bit_model.volumes(self.frame, it, b, levels) for it in self.sets]
        return b"".join(sum(n * it for n, it in zip(steps, row)).to_bytes(8, "little") for row in zip(*curves))


def wanted(call):
    """The bytes of the result."""
    f, b = call.picture, call.bitmaps
    chain = Chain(f, b)
    if call.family == "flat":
        return chain.flat(*call.numbers, *b)
    if call.family == "flat_rows":
        width = f.width * (2 if f.kind == "u16" else 1)
        return chain.flat(*call.numbers[:2], *b)[call.numbers[2] * width:]
    if call.family == "threshold":
        return array_of(f.indices, [int(it >= call.numbers[0]) for it in f.levels], "u8")
    if call.family == "hit_or_miss":
        return chain.difference(chain.made_by(ERODE, b[0]), chain.made_by(DILATE, b[1]))
    if call.family == "skeleton":
        digits = bit_model.skeleton(chain.frame, chain.sets[0], b[0], *call.numbers)
        return sum_of([chain.frame.bytes_of(it) for it in digits], [1 << place for place in range(8)])
    if call.family == "restore":
        return chain.frame.bytes_of(bit_model.restored(chain.frame, chain.places, b[0], *call.numbers))
    return chain.spectrum(*call.numbers, *b)


# ---- what the library makes


def name_of(call):
    return "morphd_" + call.family + ("" if call.family == "skeleton" else "_" + call.picture.kind)


def made(library, call, room):
    """What the library answers, and the bytes of `out`. The arrays end before a page that nobody may touch, and those whose bytes
    fill pages begin behind one too."""
    f, name, places = call.picture, name_of(call), lent_places.BEFORE_A_FENCE
    out = places.results(calls.pointed_at(name)["out"], room)
    samples = places.places(calls.TYPES[calls.sample_type(f.kind)], len(f.indices))
    memoryview(samples).cast("B")[:] = array_of(f.indices, f.levels, f.kind)
    given = [*call.numbers, f.width, f.height, *([] if f.kind == "set" else [f.levels[-1]]), samples, len(f.indices)]
    for b in call.bitmaps:
        given += [places.array(ctypes.c_uint8, b.pixels), len(b.pixels), b.width, b.height, b.x, b.y]
    answer = getattr(library, name)(*given, out.lent, room)
    return answer, bytes(out.lent)


def room_of(call):
    if call.family == "spectrum":
        return call.numbers[0] + 1
    rows = call.picture.height - (call.numbers[2] if call.family == "flat_rows" else 0)
    return rows * call.picture.width


def differs(library, call):
    """Whether the library answers or writes something else than it has to."""
    result, room = wanted(call), room_of(call)
    return made(library, call, room) != (0, result)


def models_differ(call):
    """Whether the two models make different results of a small call."""
    f = call.picture
    image = calls.Array(f.kind, f.width, f.height, f.levels[-1], [f.levels[it] for it in f.indices])
    small = calls.Call(name_of(call), list(call.numbers), image, call.bitmaps, room_of(call))
    answer, samples = calls.wanted(small)
    size = len(wanted(call)) // room_of(call)
    return answer != 0 or b"".join(it.to_bytes(size, "little") for it in samples) != wanted(call)


# ---- random calls, and some at the limit


def box(width, height, hole=False):
    """All pixels of a rectangle, around its middle; but for one of them."""
    pixels = [1] * (width * height)
    if hole:
        pixels[width + width // 3] = 0
    return calls.Bitmap(width, height, width // 2, height // 2, pixels)


def disc(side):
    middle = side // 2
    pixels = [int((x - middle) ** 2 + (y - middle) ** 2 <= middle * middle) for y in range(side) for x in range(side)]
    return calls.Bitmap(side, side, middle, middle, pixels)


class Drawer:
    """Draws pictures and elements of all sizes."""

    def __init__(self, chance):
        self.chance = chance

    def levels(self, kind, most=5):
        if kind == "set":
            return [0, 1]
        lowest, highest = (1, 255) if kind == "u8" else (256, 65535)
        top = self.chance.choice((lowest, highest, self.chance.randint(lowest, highest)))
        return sorted({0, top, *(self.chance.randint(0, top) for _ in range(self.chance.randrange(most)))})

    def picture(self, kind, width, height, levels=None):
        """Noise, or some rectangles of any size, on a ground of one level or beside noise."""
        levels = levels or self.levels(kind)
        ground = self.chance.choice((0, len(levels) - 1, self.chance.randrange(len(levels))))
        share = self.chance.choice((0, 0, 3, 30, 255))
        table = bytes(ground if it >= share else it % len(levels) for it in range(256))
        indices = bytearray(self.chance.randbytes(width * height).translate(table))
        for _ in range(self.chance.choice((1, 5, 40))):
            left, top = self.chance.randrange(width), self.chance.randrange(height)
            right = min(width, left + self.chance.choice((1, 3, 260, self.chance.randint(1, width))))
            fill = bytes([self.chance.randrange(len(levels))]) * (right - left)
            for y in range(top, min(height, top + self.chance.choice((1, 3, 260, self.chance.randint(1, height))))):
                indices[y * width + left:y * width + right] = fill
        return Picture(kind, width, height, levels, bytes(indices))

    def sides(self):
        most = self.chance.choice((20, 300, 1200))
        width, height = self.chance.randint(1, most), self.chance.randint(1, most)
        return self.chance.choice(((width, height), (width, height), (8192, 1 + width // 10), (1 + height // 10, 8192), (width, 1)))

    def bitmap(self, f, most, budget):
        """An element with a pixel at its origin, for which the model takes no minutes."""
        while True:
            width, height = (self.chance.choice((1, 3, 15, most, self.chance.randint(1, most))) for _ in range(2))
            share = self.chance.choice((1, 1, 0.999, 0.9, 0.5, 0.002))
            bits = [int(self.chance.random() < share) for _ in range(width * height)]
            x, y = (self.chance.choice((0, it // 2, it - 1, self.chance.randrange(it))) for it in (width, height))
            bits[y * width + x] = 1
            b = calls.Bitmap(width, height, x, y, bits)
            if bit_model.count_of_runs(b) * (f.width + width) * (f.height + height) <= budget:
                return b

    def call(self, most):
        family = self.chance.choice(("flat", "flat", "flat", "flat_rows", "threshold", "hit_or_miss", "skeleton", "restore", "spectrum"))
        kinds = {"threshold": ("u8", "u16"), "restore": ("u8", "u16"), "skeleton": ("set",)}
        kind = self.chance.choice(kinds.get(family, ("u8", "u16", "set")))
        width, height = (self.chance.randint(1, 18), self.chance.randint(1, 18)) if most < 30 else self.sides()
        levels = [0, *sorted(self.chance.sample(range(1, 7), 3)), 300] if family == "restore" and kind == "u16" else None
        f = self.picture(kind, width, height, levels)
        first = self.first_number(family, f)
        if family == "hit_or_miss":
            return Large(family, [], f, self.two_bitmaps(f, most))
        # a rank adds numbers of up to 16 digits; the last three go through many steps
        dear = 40 if first == [RANK] and family.startswith("flat") else 20 if family in ("skeleton", "restore", "spectrum") else 1
        bitmaps = [] if family == "threshold" else [self.bitmap(f, 9 if dear == 20 else most, BUDGET / dear)]
        return Large(family, first + self.more_numbers(family, f, bitmaps), f, bitmaps)

    def two_bitmaps(self, f, most):
        while True:
            hit = self.bitmap(f, most, BUDGET)
            miss = calls.apart(hit, self.bitmap(f, most, BUDGET))
            if not set(calls.offsets(hit)) & set(calls.offsets(miss)):
                return [hit, miss]

    def first_number(self, family, f):
        if family in ("flat", "flat_rows"):
            return [self.chance.randrange(8) if family == "flat" else self.chance.choice(calls.OF_ONE_STEP)]
        return [self.chance.choice((0, 1, *f.levels)) if family == "threshold" else self.chance.randint(1, 6)]

    def more_numbers(self, family, f, bitmaps):
        if family not in ("flat", "flat_rows"):
            return []
        m = sum(bitmaps[0].pixels)
        k = self.chance.choice((1, m, (m + 1) // 2, self.chance.randint(1, m)))
        return [k] if family == "flat" else [k, self.chance.randrange(f.height)]

    def at_the_limit(self):
        """Calls on pictures as large as there are."""
        full, holed = box(255, 255), box(255, 255, True)
        sparse = holed._replace(pixels=[int(it % 2001 == 7) for it in range(255 * 255)])
        flat = (
            (OPEN, 0, "u8", LIMIT[0], full), (CLOSE, 0, "u16", LIMIT[2], full), (ERODE, 0, "u8", LIMIT[2], holed),
            (DILATE, 0, "set", LIMIT[1], holed), (GRADIENT, 0, "u16", LIMIT[1], sparse), (BLACK, 0, "set", LIMIT[0], full),
            (WHITE, 0, "u8", LIMIT[2], disc(63)), (RANK, 5101, "u8", LIMIT[2], box(101, 101)),
            (RANK, 300, "u16", LIMIT[0], box(31, 31)), (RANK, 65025, "set", LIMIT[2], full))
        for operation, k, kind, sides, b in flat:
            yield Large("flat", [operation, k], self.picture(kind, *sides, self.levels(kind, 2)), [b])
        yield Large("threshold", [9], self.picture("u16", *LIMIT[0]), [])
        yield Large("flat_rows", [DILATE, 0, 8000], self.picture("u8", *LIMIT[1], [0, 99, 255]), [full])
        yield Large("skeleton", [254], self.picture("set", 1500, 1100), [box(3, 3)])
        yield Large("restore", [254], self.picture("u8", *LIMIT[0], [0, 1, 9, 254, 255]), [box(3, 3)])
        yield Large("spectrum", [8], self.picture("set", *LIMIT[2]), [disc(5)])
        yield Large("spectrum", [32], self.picture("u8", 1000, 700, [0, 90, 91]), [disc(5)])
        above = calls.Bitmap(3, 20, 1, 19, [1] * 30 + [0] * 30)
        yield Large("hit_or_miss", [], self.picture("u8", *LIMIT[2], [0, 7, 9]), [box(255, 3), above])


def told(call):
    f = call.picture
    elements = ["%d x %d, origin %d %d, %d pixels" % (it.width, it.height, it.x, it.y, sum(it.pixels)) for it in call.bitmaps]
    return "%s %r on %d x %d with the levels %r by %s" % (name_of(call), call.numbers, f.width, f.height, f.levels, "; ".join(elements))


def check(library, chance):
    """Small calls beside both models, then larger ones beside one; what was tried."""
    drawer = Drawer(chance)
    for _ in range(SMALL):
        call = drawer.call(9)
        if models_differ(call):
            sys.exit("the two models DIFFER: " + told(call))
        if differs(library, call):
            sys.exit("DIFFERS: " + told(call))
    for call in (*(drawer.call(255) for _ in range(RANDOM)), *drawer.at_the_limit()):
        if differs(library, call):
            sys.exit("DIFFERS: " + told(call))
    return "%d calls by elements of up to 255 x 255 pixels, and on pictures up to the limit" % RANDOM
