"""The stored sessions, each by its name and what writes it (checks/stored_sessions.py): what kernels, plans, tiles and files are tried on.
"""
import random
from collections.abc import Callable, Iterator

import random_session
from session_parts import (BOXES, CORNERS, CROSS, ELEMENTS, LINES, Element, Script, box, by_place, disc, drawn, file_of, grey_file, mostly,
                           noise, set_file, sparse)

# The depths: of sets, of one byte, of two.
DEPTHS = {"set": 1, "byte": 255, "word": 65535}
# Rows at the seams of words and tiles, frames of one row or column, and one over four tiles.
FRAMES = ((1, 1), (1, 67), (67, 1), (63, 3), (64, 2), (65, 5), (127, 2), (128, 3), (129, 2))
PAIRS = ("OPEN", "CLOSE", "GRADIENT", "WTOPHAT", "BTOPHAT")


def picture(depth: str, name: str, width: int, height: int) -> bytes:
    maxval = DEPTHS[depth]
    return file_of(width, height, maxval, noise(name, width, height, maxval), depth == "set")


def few_and_most(width: int, height: int) -> list[bytes]:
    """Sets with few pixels, and with all but few."""
    return [set_file(width, height, mostly(f"{width} {height} {common}", width, height, common, 1 - common)) for common in (0, 1)]


def extrema(depth: str) -> Callable[[], bytes]:
    """Both extrema by each element, on each small frame."""
    def write() -> bytes:
        script = Script()
        for width, height in FRAMES:
            files = few_and_most(width, height) if depth == "set" else [picture(depth, f"{width} {height}", width, height)]
            names = [script.load(file) for file in files]
            for element in ELEMENTS:
                script.run("ERODE", names[-1], script.element(element))
                script.run("DILATE", names[0], element)
        return script.bytes()
    return write


def tiles(depth: str, elements: tuple[str, ...]) -> Callable[[], bytes]:
    """Both extrema by elements that look over the seams of several tiles."""
    def write() -> bytes:
        script = Script()
        width, height = (197, 131) if depth == "set" else (70, 66)
        name = script.load(mostly_file(depth, width, height, 0))
        other = script.load(mostly_file(depth, width, height, 1))
        for element in elements:
            script.run("ERODE", other, script.element(element))
            script.run("DILATE", name, element)
        return script.bytes()
    return write


def mostly_file(depth: str, width: int, height: int, common: int) -> bytes:
    if depth == "set":
        return set_file(width, height, mostly(f"{width} {common}", width, height, common, 1 - common, 60))
    return picture(depth, f"{width} {common}", width, height)


def derived(depth: str) -> Callable[[], bytes]:
    """Openings, closings and differences, on frames of one tile and of several."""
    def write() -> bytes:
        script = Script()
        frames = ((65, 9), (140, 70), (1, 70)) if depth == "set" else ((65, 5), (66, 65), (1, 70))
        for width, height in frames:
            name = script.load(picture(depth, f"derived {width}", width, height))
            for at, element in enumerate(("square", "disc", "rising", "away", "pair", "spread", "comb")):
                for operation in PAIRS if width < 66 else PAIRS[at % 5:at % 5 + 1]:
                    script.run(operation, name, script.element(element))
        return script.bytes()
    return write


def slopes(depth: str) -> Callable[[], bytes]:
    """Openings, closings and differences on flat parts, steps and peaks, where most differences are 0."""
    def write() -> bytes:
        script, maxval = Script(), DEPTHS[depth]
        samples = by_place(90, 20, lambda x, y: (x // 9 + y // 4) * (maxval // 16) + (maxval // 16 if (x, y) == (70, 9) else 0))
        name = script.load(grey_file(90, 20, maxval, samples))
        for operation in (*PAIRS, "ERODE", "DILATE"):
            script.run(operation, name, script.element("square"))
            script.run(operation, name, script.element("tall"))
        return script.bytes()
    return write


def hits(depth: str) -> Callable[[], bytes]:
    """Hits and misses: ends of runs, corners, places alone."""
    def write() -> bytes:
        script = Script()
        pairs = ((drawn(2, 1, lambda x, _: x == 0, 1, 0), drawn(2, 1, lambda x, _: x == -1, 1, 0)), (box(1), ELEMENTS["ring"]),
                 (drawn(3, 3, lambda x, y: x >= 0 and y >= 0), drawn(3, 3, lambda x, y: x < 0 or y < 0)),
                 (ELEMENTS["word"], ELEMENTS["bar"]))
        for width, height in ((65, 5), (129, 2), (70, 66)):
            name = script.load(picture(depth, f"hits {width}", width, height))
            for at, (hit, miss) in enumerate(pairs):
                script.run("HITMISS", name, script.element(f"hit{at}", hit), script.element(f"miss{at}", miss))
        return script.bytes()
    return write


def thresholds() -> bytes:
    """Each depth, from the least level to past the greatest, in rows around whole words."""
    script = Script()
    for width in (1, 7, 63, 64, 65, 127, 128, 129, 210):
        for maxval, levels in ((1, (0, 1, 2)), (9, (0, 5, 10)), (255, (1, 128, 255, 256, 300)), (256, (255, 256)),
                               (65535, (1, 256, 32768, 65535))):
            name = script.load(grey_file(width, 3, maxval, noise(f"{width} {maxval}", width, 3, maxval)))
            for level in levels:
                script.run("THRESHOLD", name, level)
        name = script.load(set_file(width, 3, noise(f"{width} set", width, 3, 1)))
        for level in (0, 1, 2, 65535):
            script.run("THRESHOLD", name, level)
    name = script.load(grey_file(130, 66, 255, noise("tiles", 130, 66, 255)))
    script.run("THRESHOLD", name, 128)
    return script.bytes()


# ---- ranks


def numbers_of(size: int) -> list[int]:
    """The least rank, the middle one and the greatest."""
    return sorted({1, size // 2 + 1, size})


def ranks(script: Script, name: str, element: str, numbers: list[int] | None = None) -> None:
    for k in numbers or numbers_of(script.known[script.element(element)].size()):
        script.run("RANK", name, element, k)


def set_ranks() -> bytes:
    """Elements of about as many pixels as counters have: under 16, 32, 64, 256, 1024 and 4096, and over."""
    script = Script()
    name = script.load(set_file(150, 140, noise("set ranks", 150, 140, 1)))
    for side in (3, 4, 5, 6, 7, 8, 15, 16, 31, 32):
        script.element(f"box{side}", box(side, side))
        ranks(script, name, f"box{side}", [side * side // 2 + 1, side * side] if side > 8 else None)
    for at, other in enumerate((disc(6), disc(15), drawn(9, 10, lambda x, y: (x * 5 + y * 3) % 7 < 4, 4, 3),
                                drawn(1, 40, lambda *_: True, 0, 20), box(24, 12, 23, 0), sparse("ranks", 33, 33, 5), box(4, 8))):
        script.element(f"other{at}", other)
        ranks(script, name, f"other{at}")
    return script.bytes()


def set_ranks_by_large() -> bytes:
    """Counters of 12 and 16 bits: squares of 63, 65, 127 and 255."""
    script = Script()
    name = script.load(set_file(130, 70, noise("large", 130, 70, 1)))
    for side in (63, 65, 127, 255):
        script.element(f"box{side}", box(side, side))
        for k in (1, 700, 2500, side * side):
            if k <= side * side:
                script.run("RANK", name, f"box{side}", k)
    return script.bytes()


def set_ranks_of_sizes() -> bytes:
    """Tiles of each width around a word and of each height from which words pay; sets without a pixel and full ones."""
    script = Script()
    script.element("box", box(3, 12))
    for width in (1, 2, 7, 63, 64, 65, 127, 128, 129, 130):
        for height in (1, 7, 8, 16, 65):
            ranks(script, script.load(set_file(width, height, noise(f"{width} {height}", width, height, 1))), "box", [17])
    for pixel in (0, 1):
        ranks(script, script.load(set_file(70, 20, [pixel] * 1400)), "box")
        ranks(script, script.load(set_file(70, 20, [pixel] * 1400)), "ends")
    return script.bytes()


def medians(maxval: int, widest: int) -> Callable[[], bytes]:
    """Under squares of 3 and 5, on frames of each width and height."""
    def write() -> bytes:
        script = Script()
        for side in (3, 5):
            middle = [side * side // 2 + 1]
            script.element(f"box{side}", box(side, side))
            for width in range(1, widest):
                ranks(script, script.load(grey_file(width, 7, maxval, noise(f"{width}", width, 7, maxval))), f"box{side}", middle)
            for height in range(1, 10):
                for width in (5, 40):
                    dark = mostly(f"{width} {height}", width, height, 0, maxval, 2)
                    ranks(script, script.load(grey_file(width, height, maxval, dark)), f"box{side}", middle)
        return script.bytes()
    return write


def medians_beside() -> bytes:
    """What is nearly such a median: other numbers, other squares, nine places that are no square, and squares beside the origin."""
    script = Script()
    for maxval in (255, 4000):
        name = script.load(grey_file(70, 9, maxval, noise(f"{maxval}", 70, 9, maxval)))
        ranks(script, name, "square", [1, 4, 5, 6, 9])
        for at, near in enumerate((box(2, 2), box(4, 4), box(6, 6), box(9, 1), drawn(4, 3, lambda x, y: x != y))):
            script.element(f"near{at}", near)
            ranks(script, name, f"near{at}", [min(5, near.size())])
        name = script.load(grey_file(140, 70, maxval, noise(f"tiles {maxval}", 140, 70, maxval)))
        for x, y in ((0, 0), (4, 2)):
            script.element(f"five{x}", box(5, 5, x, y))
            ranks(script, name, f"five{x}", [13])
    return script.bytes()


def counted_ranks() -> bytes:
    """Levels of one to 16 bits, from several lowest ones on, and now and then one that is far from them."""
    script = Script()
    cases = [(0, (1 << bits) - 1, 0) for bits in range(1, 17)]
    cases += [(250, 261, 65535), (255, 510, 0), (256, 512, 65535), (4000, 4015, 0), (4000, 4016, 65535), (65528, 65535, 0),
              (65280, 65535, 65535), (65279, 65535, 0), (61000, 65095, 65535), (0, 0, 65535), (65535, 65535, 0), (255, 255, 256)]
    for low, high, far in cases:
        samples = noise(f"{low} {high}", 50, 4, high, low)
        samples = [far if at % 19 == 7 else sample for at, sample in enumerate(samples)]
        name = script.load(grey_file(50, 4, 65535, samples))
        ranks(script, name, "square", [1, 4, 9])
        ranks(script, name, "low")
    return script.bytes()


def counted_elements() -> bytes:
    """Few places with gaps, beside the origin, and as many as are counted at most, or more; tiles of each width up to 40."""
    script = Script()
    samples = noise("counted", 60, 9, 60000)
    names = [script.load(grey_file(60, 9, 65535, samples)), script.load(grey_file(60, 9, 255, [it >> 8 for it in samples]))]
    for at, element in enumerate((drawn(5, 5, lambda x, y: (x + y) % 2 == 0), drawn(7, 3, lambda x, y: (x + y) % 3 != 1),
                                  box(3, 3, 2, 2), drawn(12, 3, lambda x, _: x in (0, 9, 10, 11), 0, 1), box(19, 5), box(24, 4),
                                  box(16, 16), box(15, 17), disc(8), disc(9), CROSS, LINES["rising"])):
        script.element(f"few{at}", element)
        for name in names:
            ranks(script, name, f"few{at}", numbers_of(element.size())[1:])
    script.element("cross")
    for width in range(1, 41):
        ranks(script, script.load(grey_file(width, 2, 65535, noise(f"w{width}", width, 2, 3000, 700))), "cross", [3])
    return script.bytes()


def row_ranks(maxval: int) -> Callable[[], bytes]:
    """Rectangles of few and many rows and columns, on tiles of at least eight rows and of fewer."""
    def write() -> bytes:
        script = Script()
        frames = [(70, 50), (33, 17), (7, 8), (32, 7), (32, 8)]
        names = [script.load(grey_file(*it, maxval, noise(f"{it}", *it, maxval))) for it in frames]
        for at, (columns, rows) in enumerate(((1, 31), (70, 1), (31, 2), (15, 5), (7, 6), (3, 15), (7, 7), (9, 9), (15, 16), (31, 31))):
            element = script.element(f"box{at}", box(columns, rows))
            number = numbers_of(columns * rows)[at % 3]
            for name in names if at % 2 else names[1:]:
                ranks(script, name, element, [number])
        return script.bytes()
    return write


def large_row_ranks() -> bytes:
    """Blocks that see about as many samples as are numbered at once, or more."""
    script = Script()
    name = script.load(grey_file(50, 30, 65535, noise("blocks", 50, 30, 65535)))
    for side in (63, 85, 127):
        ranks(script, name, script.element(f"box{side}", box(side, side)), [side * side // 2, 300])
    return script.bytes()


def pattern(kind: str, x: int, y: int) -> int:
    """Two far levels by turns; rows far apart with some noise; dark with bright places; noise beside a steep rise."""
    mixed = ((x * 40503 ^ y * 30011) * 2654435761 & 0xffffffff) >> 16
    if kind == "board":
        return 60535 + (x ^ y) % 2 * 5000
    if kind == "stripes":
        return y % 60 * 1000 + mixed % 20
    if kind == "dark":
        return mixed % (65536 if mixed % 200 == 0 else 51)
    return mixed % 65536 if x < 60 else y % 60 * 1000 + mixed % 900


def far_ranks(kind: str) -> Callable[[], bytes]:
    """Searches that go far from place to place, under rectangles and other elements."""
    def write() -> bytes:
        script = Script()
        name = script.load(grey_file(100, 40, 65535, by_place(100, 40, lambda x, y: pattern(kind, x, y))))
        for at, element in enumerate((box(9, 9), box(15, 15), box(31, 3), disc(6))):
            ranks(script, name, script.element(f"far{at}", element), [element.size() // 2 + 1])
        return script.bytes()
    return write


def moving_ranks() -> bytes:
    """A moving histogram: far levels by turns, an element that the sides cut, many places without a pattern."""
    script = Script()
    for maxval, pairs in ((255, ((0, 255), (0, 63), (15, 240), (16, 239), (17, 241), (100, 133))),
                          (65535, ((0, 65535), (15, 65519), (16, 65520), (17, 65521), (300, 364)))):
        for low, high in pairs:
            name = script.load(grey_file(40, 1, maxval, [(low, high)[x % 2] for x in range(40)]))
            ranks(script, name, "bar", [1, 2, 3])
            ranks(script, name, script.element("line", box(255)), [20, 128])
    gap = drawn(21, 21, lambda x, y: x * x + y * y <= 105 and (abs(x) > 1 or y < 1))
    for maxval in (255, 4095, 65535):
        name = script.load(grey_file(29, 23, maxval, noise(f"gap {maxval}", 29, 23, maxval)))
        ranks(script, name, script.element("gap", gap), [1, 30, 150, gap.size()])
        ranks(script, name, script.element("disc20", disc(20)), [600])
    return script.bytes()


# ---- what is iterated


def grains(width: int, height: int) -> bytes:
    """A set of discs, some of which touch or are cut."""
    places = ((6, 5, 4), (20, 9, 8), (33, 3, 3), (45, 14, 9), (60, 10, 6), (68, 20, 5), (2, 22, 6))
    return set_file(width, height, by_place(width, height, lambda x, y: int(any(
        (x - a) ** 2 + (y - b) ** 2 <= r * r for a, b, r in places))))


def skeletons() -> bytes:
    """Skeletons, and what is restored of them, by as many levels as there are and by fewer."""
    script = Script()
    files = (grains(72, 27), set_file(65, 5, [1] * 325), set_file(30, 30, [1] * 900), *few_and_most(66, 9))
    for name in [script.load(file) for file in files]:
        for element in ("square", "cross", "bar", "corner", "pair"):
            for levels in (1, 3, 20):
                marks = script.run("SKELETON", name, script.element(element), levels)
                script.run("RESTORE", marks, element, levels)
    return script.bytes()


def restorations() -> bytes:
    """Marks of each depth: more than levels, none, by elements without their origin too; most levels."""
    script = Script()
    for maxval in (1, 7, 255, 256, 65535):
        chance = random.Random(f"marks {maxval}")
        marks = [min(chance.getrandbits(4), maxval) if chance.getrandbits(2) == 0 else 0 for _ in range(66 * 9)]
        name = script.load(file_of(66, 9, maxval, marks, maxval == 1))
        for element in ("square", "away", "ring", "bar"):
            for levels in (1, 2, 6):
                script.run("RESTORE", name, script.element(element), levels)
    name = script.load(set_file(40, 3, [1] * 120))
    script.run("RESTORE", script.run("SKELETON", name, script.element("bar"), 254), "bar", 254)
    return script.bytes()


def spectra(depth: str) -> Callable[[], bytes]:
    """By rectangles, whose iterates are rectangles, and by others; one level and the most."""
    def write() -> bytes:
        script = Script()
        names = [script.load(picture(depth, "spectrum", 40, 9)), script.load(picture(depth, "tiles", 70, 65))]
        if depth == "set":
            names.append(script.load(grains(72, 27)))
        for at, name in enumerate(names):
            for element in ("square", "bar", "pair", "cross", "ring", "away", "falling", "corner"):
                for levels in (1, 2, 5) if at != 1 else (2,):
                    script.run("SPECTRUM", name, script.element(element), levels)
        script.run("SPECTRUM", names[0], "square", 32)
        script.run("SPECTRUM", names[0], "cross", 32)
        return script.bytes()
    return write


# ---- files, refusals, tables


def files() -> bytes:
    """Each format, with gaps, comments, leading zeros and tails, and what of it is written again."""
    script = Script()
    payloads = [b"P1\n3 2\n1 0 1\n010\n", b"P1 3 2 101010", b"P1#c\n3#\r2\n#x\n1#y\n01010 tail", b"P2\n2 1\n1000\n7 1000\n",
                b"P2\t002 1\r\n0009 1#c\n2 and so on", b"P4\n3 1\n\240", b"P4\n9 2\n\377\177\0\200", b"P5\n2 1\n9\n\7\1",
                b"P5 2 1 256 \0\7\1\0", b"P5\n2 1\n65535\n\377\377\0\1", b"P2\n1 1\n65535\n65535", b"P2\n1 1\n1\n1", b"P5\n1 1\n1\n\1"]
    for width in (1, 7, 8, 9, 15, 16, 17, 63, 64, 65, 127, 129, 200):
        pixels = noise(f"file {width}", width, 3, 1)
        payloads += [set_file(width, 3, pixels), b"P1\n%d 3\n" % width + b"".join(b"%d" % it for it in pixels)]
        levels = noise(f"grey {width}", width, 3, 999)
        payloads += [grey_file(width, 3, 999, levels), b"P2\n%d 3\n999\n" % width + b" ".join(b"%d" % it for it in levels)]
    for payload in payloads:
        script.say(f"FETCH {script.load(payload)}")
    return script.bytes()


def faults() -> bytes:
    """Each refusal that a session goes on after, by each cause."""
    script = Script()
    for payload in (b"", b"P", b"P3\n1 1\n9\n1", b"p1\n1 1\n1", b"P1", b"P1\n", b"P1\n1", b"P1\n1 ", b"P1\n1 1", b"P1\nx 1\n1", b"P5\n1 1\n9",
                    b"P5\n1 1\n\n", b"P1\n0 1\n", b"P1\n1 0\n", b"P1\n8193 1\n1", b"P1\n1 8193\n1", b"P1\n4097 4096\n", b"P5\n1 1\n0\n\0",
                    b"P5\n1 1\n65536\n\0\0", b"P5\n2 1\n9\n\1", b"P5\n2 1\n300\n\1\2\3", b"P4\n9 1\n\1", b"P1\n2 1\n1", b"P2\n2 1\n9\n1",
                    b"P2\n2 1\n9\n1 10", b"P2\n2 1\n9\n1 x", b"P2\n2 1\n9\n1#2", b"P1\n2 1\n12", b"P5\n1 1\n9\n\12", b"P5\n1 1\n300\n\2\1",
                    b"P5\n1 1\n9\n\1\1", b"P4\n1 1\n\1\1", b"P1\n1 1\n1junk", b"P2\n1 1\n9\n1#", b"P1\n#", b"P5\n1 1#", b"P2 1 1 99999999999999999999 1"):
        script.load(payload)
    script.load(b"P5\n5 1\n9\n\3\1\4\1\5")
    for payload, x, y in ((b"", 0, 0), (b"P4\n1 1\n\200", 0, 0), (b"P1\n1", 0, 0), (b"P1\n256 1\n", 0, 0), (b"P1\n1 256\n", 0, 0),
                          (b"P1\n0 1\n", 0, 0), (b"P1\n2 1\n1", 0, 0), (b"P1\n2 1\n1x", 0, 0), (b"P1\n1 1\n1x", 0, 0),
                          (b"P1\n3 1\n111", 3, 0), (b"P1\n3 1\n111", 0, 1), (b"P1\n3 1\n000", 0, 0), (b"P1\n255 1\n" + b"1" * 255, 254, 0)):
        script.say(f"ELEMENT {script.new('b')} {x} {y} {len(payload)}", payload)
    return script.bytes() + refused_runs()


def refused_runs() -> bytes:
    """The refusals of commands, first of two causes too."""
    script = Script()
    grey, mask = "g", "m"
    for name, file in ((grey, b"P5\n5 1\n9\n\3\1\4\1\5"), (mask, b"P1\n5 1\n01101")):
        script.say(f"LOAD {name} {len(file)}", file)
    for element in ("bar", "away"):
        script.element(element)
    lines = ["RUN x ERODE g g", "RUN x ERODE bar bar", "RUN x ERODE none bar", "RUN x ERODE g none", "RUN g ERODE g bar", "RUN x RANK g away 1",
             "RUN x RANK g bar 0", "RUN x RANK g bar 4", "RUN x RANK g away 0", "RUN x SKELETON g bar 1", "RUN x SKELETON g away 0",
             "RUN x SKELETON m away 0", "RUN x SKELETON m bar 0", "RUN x SKELETON m bar 255", "RUN x RESTORE g bar 0", "RUN x RESTORE g away 255",
             "RUN x SPECTRUM g bar 0", "RUN x SPECTRUM g away 33", "RUN x HITMISS g bar bar", "RUN x HITMISS g bar g", "RUN x THRESHOLD g 65536",
             "FETCH bar", "FETCH none", "STATUS none", "WAIT none", "CANCEL none", "CANCEL g", "RELEASE none", "RUN q SPECTRUM m bar 2",
             "RUN x ERODE q bar", "RELEASE q", "STATUS q", "FETCH q", "RELEASE q", "RELEASE q", "RUN a ERODE g bar", "RUN b DILATE a bar",
             "RUN c OPEN b bar", "CANCEL a", "STATUS b", "STATUS c", "FETCH c", "RELEASE a", "CANCEL a", "RUN x ERODE a bar", "RUN x ERODE c bar",
             "RELEASE g", "RUN x ERODE g bar", "STATUS g", "STATUS m", "WAIT bar", "RELEASE bar", "RUN x ERODE m bar"]
    for line in lines:
        script.say(line)
    return script.bytes()


def endings() -> Iterator[tuple[str, bytes]]:
    """Sessions that end by a refusal, at QUIT, within a line and within a payload."""
    begin = b"LOAD f 11\nP2\n1 1\n9\n5\n"
    for name, end in (("quit", b"QUIT\nSTATUS f\n"), ("line", b"load x 5\n"), ("length", b"LOAD x 134217729\n"), ("cut_line", b"STATUS f"),
                      ("cut_payload", b"LOAD x 9\nP5\n"), ("long_line", b"STATUS " + b"a" * 194 + b"\n"), ("longer_line", b"x" * 300),
                      ("no_number", b"RUN t THRESHOLD f 07\n"), ("end", b"STATUS f\n"), ("empty", None)):
        yield f"ends_{name}", b"" if end is None else begin + end
    # with --strict
    for name, end in (("fine", b"STATUS f\n"), ("refused", b"STATUS x\nSTATUS f\n"), ("refused_quit", b"FETCH x\nQUIT\n"),
                      ("refused_line", b"STATUS x\nload\n")):
        yield f"strict_{name}", begin + end


def chains() -> bytes:
    """Commands on what commands make, over four tiles, some of which are cancelled or released before they are read."""
    script = Script()
    name = script.load(set_file(130, 66, mostly("chains", 130, 66, 0, 1, 5)))
    made = name
    for at in range(12):
        made = script.run(("CLOSE", "OPEN", "DILATE", "ERODE")[at % 4], made, script.element(("square", "cross", "bar")[at % 3]),
                          is_fetched=at % 5 == 4)
    less = script.run("ERODE", made, "square", is_fetched=False)
    for at in range(6):
        script.run("DILATE", less, "cross", is_fetched=at % 2 == 0)
    script.say(f"CANCEL {less}")
    script.run("GRADIENT", made, "square")
    script.say(f"RELEASE {made}")
    script.run("ERODE", made, "cross")
    return script.bytes()


def unlike_pictures() -> bytes:
    """One value throughout, and one sample apart from it at each corner and seam, on words and beside them."""
    script = Script()
    for pixel in (0, 1):
        for x, y in ((0, 0), (63, 0), (64, 1), (65, 2), (128, 64), (129, 65), (62, 63)):
            pixels = [pixel] * (130 * 66)
            pixels[y * 130 + x] = 1 - pixel
            name = script.load(set_file(130, 66, pixels))
            for element in ("square", "word", "ring"):
                script.run("ERODE" if pixel else "DILATE", name, script.element(element))
    for maxval in (9, 300):
        flat = script.load(grey_file(66, 65, maxval, [maxval] * (66 * 65)))
        script.run("ERODE", flat, script.element("disc"))
        script.run("WTOPHAT", flat, "disc")
    return script.bytes()


def one_pixel() -> bytes:
    """The smallest pictures under the largest elements."""
    script = Script()
    full = script.element("full", box(255, 255))
    for file in (set_file(1, 1, [0]), set_file(1, 1, [1]), grey_file(1, 1, 255, [200]), grey_file(1, 1, 999, [600])):
        name = script.load(file)
        for operation in ("ERODE", "DILATE", "OPEN", "CLOSE", "GRADIENT"):
            script.run(operation, name, full)
        ranks(script, name, full, [1, 32513, 65025])
    for depth in DEPTHS:
        name = script.load(picture(depth, "full", 66, 9))
        for operation in ("ERODE", "DILATE", "OPEN"):
            script.run(operation, name, full)
            script.run(operation, name, script.element("corners", CORNERS))
    return script.bytes()


def kinds() -> Iterator[tuple[str, Callable[[], bytes]]]:
    """Each session's name, and what writes it."""
    for depth in DEPTHS:
        yield f"extrema_{depth}", extrema(depth)
        yield f"lines_{depth}", tiles(depth, tuple(LINES) if depth == "set" else ("long", "tall", "falling"))
        yield f"boxes_{depth}", tiles(depth, tuple(BOXES) if depth == "set" else ("wide", "large"))
        yield f"others_{depth}", tiles(depth, ("disc", "word", "ends", "comb", "spread") if depth == "set" else
                                       ("disc", "ends", "spread", "comb"))
        yield f"derived_{depth}", derived(depth)
        yield f"hits_{depth}", hits(depth)
        yield f"spectra_{depth}", spectra(depth)
        if depth != "set":
            yield f"slopes_{depth}", slopes(depth)
    for maxval in (255, 3, 1000, 4095, 4096, 65535):
        yield f"row_ranks_{maxval}", row_ranks(maxval)
    for maxval, widest in ((255, 71), (1, 71), (7, 35), (65535, 39), (256, 20)):
        yield f"medians_{maxval}", medians(maxval, widest)
    for kind in ("board", "stripes", "dark", "halves"):
        yield f"far_ranks_{kind}", far_ranks(kind)
    for write in (thresholds, set_ranks, set_ranks_by_large, set_ranks_of_sizes, medians_beside, counted_ranks, counted_elements,
                  large_row_ranks, moving_ranks, skeletons, restorations, files, faults, chains, unlike_pictures, one_pixel):
        yield write.__name__, write
    for name, session in endings():
        yield name, lambda session=session: session
    for number in range(RANDOM):
        yield f"random_{number:02}", lambda number=number: random_session.written(random.Random(f"stored {number}"))


RANDOM = 40
