"""Sessions by elements of over 40,000 pixels, on skeletons of 254 levels, on spectra of 32 sizes, and on ranks of numbers of several
hundred, each with what `morphd batch` has to write. What comes out is known in closed form, and nothing here is made by the program.
"""
import reference_model

SIDE, ORIGIN = 255, 126
# The maxval of a set, of bytes and of words, and the level of what stands in a picture.
SORTS = ((1, 1), (200, 9), (60000, 50000))
BAR, SQUARE, NEIGHBOURS = (3, 1, b"111", 1, 0), (3, 3, b"1" * 9, 1, 1), (3, 1, b"101", 1, 0)


def with_bytes(line, payload):
    """A line that ends with the length of what follows it."""
    return b"%s %d\n" % (line, len(payload)) + payload


def file_of(rows, maxval):
    """The file that a FETCH writes of rows of levels; of a set where the maxval is 1."""
    image = reference_model.Image("BIT" if maxval == 1 else "GREY", len(rows[0]), len(rows), maxval, [it for row in rows for it in row])
    return reference_model.image_text(image)


def element(width, height, pixels, x, y):
    return with_bytes(b"ELEMENT b %d %d" % (x, y), b"P1\n%d %d\n" % (width, height) + pixels)


class Session:
    """A session and its output, picture by picture. All of them are run by one element."""

    def __init__(self, b):
        self.data, self.told, self.count = element(*b), b"OK 0\n", 1

    def ticket(self):
        self.count += 1
        return self.count - 1

    def runs(self, words, rows, maxval, kind, text):
        """A picture is loaded, an operation is run on it, and what comes of it is fetched."""
        f, made = self.ticket(), self.ticket()
        self.data += with_bytes(b"LOAD f%d" % f, file_of(rows, maxval)) + b"RUN r%d %s\nFETCH r%d\n" % (made, words % f, made)
        self.told += b"OK %d\nOK %d\n" % (f, made) + with_bytes(b"%s %d" % (kind, made), text)

    def draws(self, words, rows, maxval, wanted, maxval_made=None):
        self.runs(words, rows, maxval, b"IMAGE", file_of(wanted, maxval_made or maxval))

    def measures(self, words, rows, maxval, volumes):
        self.runs(words, rows, maxval, b"CURVE", reference_model.curve_text(volumes))

    def both(self):
        return self.data, self.told


# ---- openings


# Which of 255 x 255 pixels an element has: more than 40,000, among them the origin, and one in each outer row and column. The rows are
# two of each three; no other has so many runs as the columns.
FORMS = {
    "square": lambda x, y: True, "holed": lambda x, y: x != 125 or y != 126,
    "disc": lambda x, y: (x - 127) ** 2 + (y - 127) ** 2 <= 127 * 127, "rows": lambda x, y: y % 3 != 1, "columns": lambda x, y: x % 3 != 1,
}


def opened(holds):
    """An opening leaves its own element as it is, and nothing of it where its last pixel is missing: in the picture it fits into itself
    from one place alone."""
    pixels = [int(holds(x, y)) for y in range(SIDE) for x in range(SIDE)]
    session = Session((SIDE, SIDE, b"".join(b"%d" % it for it in pixels), ORIGIN, ORIGIN))
    last = SIDE * SIDE - 1 - pixels[::-1].index(1)
    for maxval, level in SORTS:
        shown = [[0] * 300 for _ in range(300)]
        for at, pixel in enumerate(pixels):
            shown[20 + at // SIDE][20 + at % SIDE] = level * pixel
        session.draws(b"OPEN f%d b", shown, maxval, shown)
        spoiled = [row[:] for row in shown]
        spoiled[20 + last // SIDE][20 + last % SIDE] = 0
        session.draws(b"OPEN f%d b", spoiled, maxval, [[0] * 300] * 300)
    return session.both()


# ---- skeletons


def row_of(lines, level=1):
    """A row of 600 levels with lines, each told by its first column and its length."""
    row = [0] * 600
    for first, length in lines:
        row[first:first + length] = [level] * length
    return row


def skeletons_of_lines():
    """Each erosion by the bar takes a pixel from both ends, but not from the end of the row: so 254 of them leave one pixel of the
    longest line. What is restored of marks of two bytes is the same."""
    session, marks = Session(BAR), [0] * 600
    lines = [row_of([(1, 1), (4, 2), (10, 509), (530, 33), (570, 30)])]
    for at, mark in ((1, 1), (4, 1), (5, 1), (264, 255), (546, 17), (599, 30)):
        marks[at] = mark
    session.draws(b"SKELETON f%d b 254", lines, 1, [marks], 255)
    session.draws(b"RESTORE f%d b 254", [marks], 255, lines, 1)
    session.draws(b"RESTORE f%d b 254", [marks], 300, lines, 1)
    return session.both()


def skeleton_of_a_block():
    """A block of 509 columns and 255 rows down to the last row, where no erosion takes a row away: its middle in that row is left."""
    session = Session(SQUARE)
    block = [[int(4 <= x < 513 and y >= 3) for x in range(520)] for y in range(258)]
    marks = [[0] * 520 for _ in range(258)]
    marks[257][258] = 255
    session.draws(b"SKELETON f%d b 254", block, 1, marks, 255)
    session.draws(b"RESTORE f%d b 254", marks, 255, block, 1)
    return session.both()


def skeleton_by_the_greatest_square():
    """All of a small picture is left by 254 erosions."""
    session = Session((SIDE, SIDE, b"1" * SIDE * SIDE, ORIGIN, ORIGIN))
    session.draws(b"SKELETON f%d b 254", [[1] * 600], 1, [[255] * 600], 255)
    session.draws(b"RESTORE f%d b 254", [[255] * 600], 255, [[1] * 600], 1)
    return session.both()


# ---- spectra


def spectra(b):
    """Of a line of even length n erosions leave two pixels or more, and then the line is made again, or none."""
    session = Session(b)
    counts = [108, *[106] * 19, *[66] * 13]
    for maxval, level in SORTS:
        lines = [row_of([(3, 66), (80, 40), (130, 2)], level)]
        session.measures(b"SPECTRUM f%d b 32", lines, maxval, [level * it for it in counts])
    return session.both()


# ---- ranks


HEIGHT = 140
# Of pictures whose levels rise with each column the columns, the maxval, and the level of a column.
RISING = ((256, 1, lambda x: int(x >= 130)), (256, 255, lambda x: x), (300, 65535, lambda x: 218 * x))
# The numbers of ranks under full squares of two sides.
RANKS = {101: (257, 300, 999, 5101), 255: (300, 512, 10000, 65025)}


def within(place, reach, count):
    """The first of the places within a reach, and how many there are."""
    first = max(0, place - reach)
    return first, min(count, place + reach + 1) - first


def ranked(width, side, k):
    """The column of the sample of this number at each place: they stand in the order of their columns, each as often as there are rows."""
    for y in range(HEIGHT):
        _, rows = within(y, side // 2, HEIGHT)
        spans = (within(x, side // 2, width) for x in range(width))
        yield [first + (min(k, columns * rows) - 1) // rows for first, columns in spans]


def ranks(side):
    session = Session((side, side, b"1" * side * side, side // 2, side // 2))
    for width, maxval, level in RISING:
        picture = [[level(x) for x in range(width)]] * HEIGHT
        for k in RANKS[side]:
            wanted = [[level(x) for x in row] for row in ranked(width, side, k)]
            session.draws(b"RANK f%%d b %d" % k, picture, maxval, wanted)
    return session.both()


# The name of a case, what makes its session and output, and the sides of tiles by which it is run.
CASES = (
    *((f"openings_by_a_large_{name}", lambda holds=holds: opened(holds), (128, 1024)) for name, holds in FORMS.items()),
    ("skeletons_of_254_levels", skeletons_of_lines, (64, 1024)),
    ("a_skeleton_of_a_block", skeleton_of_a_block, (64, 1024)),
    ("a_skeleton_by_the_greatest_square", skeleton_by_the_greatest_square, (64, 1024)),
    ("spectra_of_32_sizes_by_a_bar", lambda: spectra(BAR), (64, 1024)),
    ("spectra_of_32_sizes_by_turns", lambda: spectra(NEIGHBOURS), (64, 1024)),
    *((f"ranks_under_squares_of_{side}", lambda side=side: ranks(side), (64, 1024)) for side in RANKS),
)
