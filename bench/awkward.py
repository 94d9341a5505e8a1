#!/usr/bin/env python3
"""Times whole sessions of `morphd batch` by one worker in two built checkouts, on what is awkward for kernels: narrow frames,
dark frames with hot pixels, stripes, lines, elements with gaps. Or the calls of two libraries, likewise.

    bench/awkward.py OLD NEW [--only WORDS] [--turns 5] [--tile SIDE] [--list]
    /usr/bin/python3 bench/awkward.py OLD.so NEW.so [--only WORDS] [--turns 5] [--list]

OLD and NEW are two checkouts in which `checks/prove.py morphd` has built the program. Each session loads a picture and an
element, runs one command so many times, waits for each result and releases it, and fetches the last one. Both programs run it by
turns, and it stops where they write different bytes. A time is that of the processor, in the program and in the system for it,
which other work on the machine hardly changes, and the best of the turns. The last lines are of the sessions that take over 1.15
times as long as before; the status is 1 where there are any.

A row's name begins with its group, which is extrema, thresholds, ranks or sets; --only takes the rows whose name has WORDS.
--tile gives all of them tiles of one side, in place of each row's own. Files lie in /dev/shm, that is in memory.

Where both are shared libraries, with @v2 or @v3 behind the path if need be, their calls are timed (bench/awkward_calls.py says
which, and from where on one is told as dearer). That needs a Python with cv2, as bench/library.py does.
"""
import argparse
import array
import filecmp
import functools
import math
import os
import random
import subprocess
import sys
import tempfile

# From here on a session is told as dearer: what is less differs from one round to the next.
DEARER = 1.15


class Row:
    """A session: a command that is run so many times on a picture, by an element."""

    def __init__(self, name, picture, element, command, times, tile):
        self.name, self.picture, self.element = name, picture, element
        self.command, self.times, self.tile = command, times, tile

    def write(self, path):
        file_made = self.picture()
        with open(path, "wb") as file:
            file.write(b"LOAD f %d\n" % len(file_made))
            file.write(file_made)
            file.write(self.element)
            for number in range(self.times):
                file.write(b"RUN r%d %s\nWAIT r%d\n" % (number, self.command, number))
                file.write((b"FETCH r%d\n" if number + 1 == self.times else b"RELEASE r%d\n") % number)


# Pictures, as Netpbm files. The same words give the same picture at each run.


def grey_file(width, height, maxval, samples):
    """A raw file of these samples, numbers in rows from the top."""
    head = b"P5\n%d %d\n%d\n" % (width, height, maxval)
    if maxval < 256:
        return head + bytes(samples)
    words = array.array("H", samples)
    if sys.byteorder == "little":
        words.byteswap()
    return head + words.tobytes()


@functools.lru_cache(maxsize=4)
def noise(width, height, maxval):
    """Samples without a pattern over all levels, of one byte or of two."""
    size = width * height * (1 if maxval < 256 else 2)
    return b"P5\n%d %d\n%d\n" % (width, height, maxval) + random.Random(1).randbytes(size)


@functools.lru_cache(maxsize=4)
def dark(width, height, maxval, levels):
    """A dark frame: a ground of so many levels without a pattern, and one of 200 pixels hot, up to the maxval."""
    chance = random.Random(1)
    above = min(1000, maxval // 8)
    samples = [above + it % levels for it in array.array("H", chance.randbytes(2 * width * height))]
    for place in chance.sample(range(width * height), width * height // 200):
        samples[place] = chance.randrange(maxval + 1)
    return grey_file(width, height, maxval, samples)


@functools.lru_cache(maxsize=4)
def soft(width, height, maxval, levels):
    """A ground that rises slowly to the lower right, over half of all levels, with so many levels of noise."""
    chance, reach = random.Random(1), 2 * (width + height)
    samples = []
    for y in range(height):
        ground = [(x + y) * maxval // reach for x in range(width)]
        samples += [it + speck % levels for it, speck in zip(ground, chance.randbytes(width))]
    return grey_file(width, height, maxval, samples)


def of_rows(width, height, maxval, level_of):
    """Rows that have a level each, with four levels of noise."""
    chance, samples = random.Random(1), []
    for y in range(height):
        level = min(level_of(y), maxval - 3)
        samples += [level + (speck & 3) for speck in chance.randbytes(width)]
    return grey_file(width, height, maxval, samples)


@functools.lru_cache(maxsize=2)
def striped(width, height, maxval):
    """Dark and bright rows by turns."""
    return of_rows(width, height, maxval, lambda y: maxval // 8 if y % 2 else maxval * 7 // 8)


@functools.lru_cache(maxsize=4)
def zigzag(width, height, maxval, step):
    """Rows that go up so many levels from one to the next, and down again from the brightest."""
    return of_rows(width, height, maxval, lambda y: abs((y * step + maxval) % (2 * maxval) - maxval))


@functools.lru_cache(maxsize=2)
def board(width, height, maxval):
    """The least and the greatest level by turns, along rows and columns."""
    rows = [[0, maxval] * (width // 2 + 1), [maxval, 0] * (width // 2 + 1)]
    return grey_file(width, height, maxval, [level for y in range(height) for level in rows[y % 2][:width]])


@functools.lru_cache(maxsize=2)
def waves(width, height, maxval, across, down, high):
    """Waves about the middle level, so many radians a column and a row and so high."""
    def level(x, y):
        return round(maxval / 2 + high * math.sin(across * x) * math.cos(down * y))
    return grey_file(width, height, maxval, [level(x, y) for y in range(height) for x in range(width)])


def one_of(chance, bits, power):
    """A number of so many bits, of which one of 2 ** power is set."""
    found = (1 << bits) - 1
    for _ in range(power):
        found &= chance.getrandbits(bits)
    return found


def set_file(width, height, rows):
    """A raw file of rows that are numbers, whose lowest bit is the last pixel."""
    packed = ((row << -width % 8).to_bytes((width + 7) // 8, "big") for row in rows)
    return b"P4\n%d %d\n" % (width, height) + b"".join(packed)


@functools.lru_cache(maxsize=4)
def grains(width, height, power):
    """A set of grains of up to 64 x 64 pixels, one in two squares of 64; one pixel of 2 ** power is turned."""
    chance, full, rows = random.Random(1), (1 << width) - 1, []
    for y in range(height):
        if y % 64 == 0:
            row = sum(((1 << chance.randrange(8, 65)) - 1) << at for at in range(0, width, 64) if chance.random() < 0.5)
        rows.append(row & full ^ one_of(chance, width, power))
    return set_file(width, height, rows)


@functools.lru_cache(maxsize=4)
def holed(width, height, power):
    """A set of all pixels but one of 2 ** power."""
    chance, full = random.Random(1), (1 << width) - 1
    return set_file(width, height, [full ^ one_of(chance, width, power) for _ in range(height)])


# Elements.


def element(width, height, has):
    """The request that names an element b of the places (x, y) that has says yes to, and how many these are."""
    rows = ["".join("1" if has(x, y) else "0" for x in range(width)) for y in range(height)]
    bitmap = b"P1\n%d %d\n" % (width, height) + "".join(it + "\n" for it in rows).encode()
    asked = b"ELEMENT b %d %d %d\n" % (width // 2, height // 2, len(bitmap)) + bitmap
    return asked, sum(it.count("1") for it in rows)


def rectangle(width, height):
    return element(width, height, lambda x, y: True)


def disc(across):
    middle = across // 2
    return element(across, across, lambda x, y: (x - middle) ** 2 + (y - middle) ** 2 <= middle**2)


def cross(across):
    return element(across, across, lambda x, y: across // 2 in (x, y))


def diagonal(across):
    return element(across, across, lambda x, y: x == y)


def column_with_gaps():
    """A column of 255 rows that has every second pixel, and so its origin."""
    return element(1, 255, lambda x, y: y % 2 == 1)


def square_without(column, row):
    """A square of 255 x 255 less one pixel."""
    return element(255, 255, lambda x, y: (x, y) != (column, row))


# Rows.


def erosion(name, picture, made, times, tile):
    return Row(name, picture, made[0], b"ERODE f b", times, tile)


def median(name, picture, made, tile=128, times=1):
    asked, count = made
    return Row(name, picture, asked, b"RANK f b %d" % ((count + 1) // 2), times, tile)


def named(maxval):
    return "%d bits" % maxval.bit_length()


WIDTHS = (1, 2, 3, 5, 8, 16, 17, 31, 33, 48, 63, 64, 65, 80, 96, 100)


def extrema():
    """Erosions of narrow and of low frames."""
    column, small = column_with_gaps(), disc(5)
    for tile in (1024, 128):
        for maxval in (255, 65535):
            picture = functools.partial(noise, 1, 8192, maxval)
            yield erosion("extrema: 1 x 8192, %s, column of 255 with gaps, tiles of %d, 1000 times" % (named(maxval), tile),
                          picture, column, 1000, tile)
    for shape, made, tile in (("column of 255 with gaps", column, 1024), ("disc of 5", small, 1024), ("disc of 5", small, 128)):
        for maxval in (255, 65535):
            for width in WIDTHS:
                picture = functools.partial(noise, width, 8192, maxval)
                times = 40 if made is column else 400 // (width // 16 + 1)
                yield erosion("extrema: %d x 8192, %s, %s, tiles of %d" % (width, named(maxval), shape, tile),
                              picture, made, times, tile)
    for shape, made in (("255 x 1", rectangle(255, 1)), ("1 x 255", rectangle(1, 255)), ("diagonal of 127", diagonal(127)),
                        ("cross of 127", cross(127))):
        yield erosion("extrema: 1024 x 1024, 8 bits, %s, tiles of 128" % shape,
                      functools.partial(noise, 1024, 1024, 255), made, 10, 128)
    for shape, made in (("255 x 255 less its middle", square_without(127, 127)),
                        ("255 x 255 less its corner", square_without(0, 0)), ("255 x 255", rectangle(255, 255))):
        for maxval in (255, 65535):
            picture = functools.partial(noise, 8192, 1, maxval)
            yield erosion("extrema: 8192 x 1, %s, %s, tiles of 64" % (named(maxval), shape), picture, made, 4, 64)


def thresholds():
    """Thresholds of narrow frames, whose sets have rows of one word or two."""
    any_element = rectangle(3, 3)[0]
    for maxval in (255, 65535):
        for width in WIDTHS:
            yield Row("thresholds: %d x 8192, %s" % (width, named(maxval)), functools.partial(noise, width, 8192, maxval),
                      any_element, b"THRESHOLD f %d" % (maxval // 2), 1500, 1024)


def dark_medians():
    picture = functools.partial(dark, 1024, 1024, 65535, 51)
    for width, height in ((31, 3), (47, 2), (19, 5), (95, 1), (9, 9)):
        yield median("ranks: dark frame of 16 bits, 51 levels, median of %d x %d" % (width, height),
                     picture, rectangle(width, height))
    yield median("ranks: dark frame of 16 bits, 21 levels, median of 95 x 1",
                 functools.partial(dark, 1024, 1024, 65535, 21), rectangle(95, 1))
    yield median("ranks: dark frame of 12 bits, 51 levels, median of 47 x 1",
                 functools.partial(dark, 1024, 1024, 4095, 51), rectangle(47, 1))


def soft_medians():
    for maxval, levels, width in ((255, 5, 80), (15, 3, 160), (4095, 40, 47)):
        yield median("ranks: soft ground of %s, median of %d x 1" % (named(maxval), width),
                     functools.partial(soft, 1024, 1024, maxval, levels), rectangle(width, 1))
    shapes = {"disc of 11": disc(11), "disc of 13": disc(13), "disc of 15": disc(15), "cross of 127": cross(127),
              "diagonal of 127": diagonal(127), "column of 255 with gaps": column_with_gaps()}
    for shape, made in shapes.items():
        yield median("ranks: soft ground of 8 bits, median of a %s" % shape, functools.partial(soft, 768, 768, 255, 5), made)


def row_medians():
    """Medians of pictures whose level goes far from one row to the next."""
    yield median("ranks: stripes of 8 bits, median of 9 x 9", functools.partial(striped, 1024, 1024, 255), rectangle(9, 9))
    for maxval, step, width, height in ((255, 20, 31, 2), (4095, 40, 9, 9), (255, 20, 101, 2), (4095, 40, 101, 2)):
        yield median("ranks: %d levels a row, %s, median of %d x %d" % (step, named(maxval), width, height),
                     functools.partial(zigzag, 1024, 1024, maxval, step), rectangle(width, height))


def noisy_medians():
    """Medians under few rows, of samples of 12 bits whose noise takes a third of all levels, or as many as a camera's may."""
    for levels in (1365, 140):
        for width, height in ((101, 2), (40, 2), (30, 3), (64, 3), (31, 4), (15, 5), (51, 5)):
            yield median("ranks: dark frame of 12 bits, %d levels, median of %d x %d" % (levels, width, height),
                         functools.partial(dark, 768, 768, 4095, levels), rectangle(width, height))


def neighbours():
    """Medians of grounds of few to many levels, by elements of few to many offsets."""
    for levels in (5, 21, 51, 300, 1000, 5000):
        picture = functools.partial(dark, 768, 768, 65535, levels)
        for width, height in ((3, 3), (5, 5), (9, 9), (15, 15), (31, 3), (95, 1)):
            for tile in (64, 128, 1024):
                yield median("ranks: dark frame of 16 bits, %d levels, median of %d x %d, tiles of %d" % (
                    levels, width, height, tile), picture, rectangle(width, height), tile)


def far_medians():
    """Medians of 16 bits whose levels lie far apart, or are many."""
    pictures = {"noise": noise, "board": board, "stripes": striped,
                "250 levels on a slope": functools.partial(soft, levels=250),
                "500 levels a row": functools.partial(zigzag, step=500),
                "low waves": functools.partial(waves, across=0.5, down=0.5, high=1000),
                "high waves": functools.partial(waves, across=0.14, down=0.2, high=20000)}
    for name, picture in pictures.items():
        for width, height in ((9, 9), (15, 15), (31, 31), (31, 3)):
            for tile in (64, 128, 1024):
                yield median("ranks: %s, 16 bits, median of %d x %d, tiles of %d" % (name, width, height, tile),
                             functools.partial(picture, 512, 512, 65535), rectangle(width, height), tile)


def small_medians():
    """Medians under 3 x 3 and 5 x 5 of narrow and of low frames, and of frames of the least and the greatest level."""
    def of_square(picture, width, height, maxval, side, times, tile=128):
        name = "ranks: %s %d x %d, %s, median of %d x %d, tiles of %d" % (
            picture.__name__, width, height, named(maxval), side, side, tile)
        return median(name, functools.partial(picture, width, height, maxval), rectangle(side, side), tile, times)

    for side in (3, 5):
        for maxval in (255, 65535):
            yield from (of_square(noise, width, 8192, maxval, side, 20) for width in WIDTHS)
            yield from (of_square(noise, 8192, height, maxval, side, 40) for height in (1, 2, 3, 5, 8))
            yield from (of_square(board, width, 8192, maxval, side, 20) for width in (20, 36, 66))
            yield from (of_square(noise, 2048, 2048, maxval, side, 4, tile) for tile in (64, 128, 1024))


def sets():
    shapes = {"255 x 1": rectangle(255, 1), "1 x 255": rectangle(1, 255)}
    shapes.update(("%d x %d" % (it, it), rectangle(it, it)) for it in (15, 16, 17, 21, 22))
    for shape, made in shapes.items():
        yield median("sets: grains, median of %s" % shape, functools.partial(grains, 1024, 1024, 4), made)
    for tile in (64, 128):
        yield erosion("sets: 4096 x 4096 with few holes, disc of 255, tiles of %d" % tile,
                      functools.partial(holed, 4096, 4096, 12), disc(255), 1, tile)
    for shape, made in (("column of 255 with gaps", column_with_gaps()), ("disc of 5", disc(5))):
        for width in WIDTHS:
            yield erosion("sets: %d x 8192 with few holes, %s, tiles of 1024" % (width, shape),
                          functools.partial(holed, width, 8192, 8), made, 100, 1024)


def rows():
    for group in (extrema, thresholds, dark_medians, soft_medians, row_medians, noisy_medians, neighbours, far_medians,
                  small_medians, sets):
        yield from group()


def rows_of(libraries):
    if not libraries:
        return rows()
    # NumPy and cv2 are wanted for calls alone
    import awkward_calls
    return awkward_calls.rows()


# Times.


def run(checkout, tile, replies):
    """The processor's milliseconds for the session in the file `session`; what is written goes to a file."""
    words = [f"{checkout}/crates/morphd/out/morphd", "batch", "--workers", "1", "--tile", str(tile)]
    with open("session", "rb") as asked, open(replies, "wb") as written:
        made = subprocess.Popen(words, stdin=asked, stdout=written)
        _, status, used = os.wait4(made.pid, 0)
    made.returncode = os.waitstatus_to_exitcode(status)
    if made.returncode:
        sys.exit("%s ended with status %d" % (" ".join(words), made.returncode))
    return 1000 * (used.ru_utime + used.ru_stime)


def refusal():
    """The first refusal in the replies, or nothing: those to the commands stand before the image."""
    with open("new", "rb") as written:
        lines = written.read().partition(b"\nIMAGE ")[0].split(b"\n")
    return next((it for it in lines if it.startswith(b"ERR ")), None)


def compare(old, new, row, tile, turns):
    """The best times of both checkouts, which ran a session by turns and wrote the same."""
    row.write("session")
    best = {"old": float("inf"), "new": float("inf")}
    for turn in range(turns):
        for name, checkout in (("old", old), ("new", new)) if turn % 2 == 0 else (("new", new), ("old", old)):
            best[name] = min(best[name], run(checkout, tile, name))
        if not filecmp.cmp("old", "new", shallow=False):
            sys.exit(f"{row.name}: {old} and {new} write different bytes")
    if refused := refusal():
        sys.exit(f"{row.name}: {refused.decode()}")
    return best["old"], best["new"]


def is_library(told):
    return os.path.isfile(told.partition("@")[0])


def read_words():
    words = argparse.ArgumentParser(description="times awkward sessions in two checkouts, or calls of two libraries, by turns")
    words.add_argument("old")
    words.add_argument("new")
    words.add_argument("--only", default="", help="rows whose name has these words")
    words.add_argument("--turns", type=int, default=5)
    words.add_argument("--tile", type=int, help="the side of all tiles")
    words.add_argument("--list", action="store_true", help="only tell the names of the rows")
    given = words.parse_args()
    given.old, given.new = os.path.realpath(given.old), os.path.realpath(given.new)
    given.libraries = is_library(given.old)
    if given.libraries != is_library(given.new) or given.libraries and given.tile:
        words.error("both have to be checkouts or both libraries, whose calls have no tiles")
    wanted = [it for it in rows_of(given.libraries) if given.only in it.name]
    if given.turns < 1 or not wanted:
        words.error("there has to be a turn, and a row whose name has the words of --only")
    return given, wanted


def tell_sessions(given, wanted):
    """Prints a line for each row, and gives those of the rows that are dearer."""
    dearer = []
    print("| input | old, ms | new, ms | new over old |\n|---|---:|---:|---:|", flush=True)
    with tempfile.TemporaryDirectory(dir="/dev/shm") as folder:
        os.chdir(folder)
        for row in wanted:
            before, after = compare(given.old, given.new, row, given.tile or row.tile, given.turns)
            line = "| %s | %.1f | %.1f | %.2f |" % (row.name, before, after, after / before)
            print(line, flush=True)
            if after > DEARER * before:
                dearer.append(line)
        os.chdir("/")
    print("\n%d of %d sessions take over %.2f times as long" % (len(dearer), len(wanted), DEARER))
    return dearer


def tell_calls(given, wanted):
    import awkward_calls
    return awkward_calls.tell(given.old, given.new, wanted, given.turns)


def main():
    given, wanted = read_words()
    if given.list:
        print("\n".join(it.name for it in wanted))
        return
    dearer = (tell_calls if given.libraries else tell_sessions)(given, wanted)
    print("".join(line + "\n" for line in dearer), end="")
    sys.exit(1 if dearer else 0)


if __name__ == "__main__":
    main()
