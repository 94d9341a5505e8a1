"""The operators at any size, for pictures of few levels, after the definitions (docs/dev/DEFINITIONS.md) and not after the code.

A set is one number of Python, whose bits are its pixels, so one sum or one shift goes over all of them at once. A picture of
levels is a chain of sets: of the places with each level or more. Erosions, dilations and ranks of it are those of its sets.
checks/reference_model.py goes pixel by pixel; checks/large_calls.py holds the two beside one another on small pictures.
"""
import functools
import itertools

TO_DIGITS = bytes.maketrans(b"\0\1", b"01")
FROM_DIGITS = bytes.maketrans(b"01", b"\0\1")


class Frame:
    """Where the pixels of a picture stand in a number: each row with a gap behind it, and all with one before them, so that an
    element of that many columns or rows, or fewer, finds nothing behind an edge."""

    def __init__(self, width, height, gap):
        self.width, self.height, self.gap = width, height, gap
        self.stride = width + gap
        self.start = gap * (self.stride + 1)
        self.all = self.set_of(b"\1" * (width * height))

    def set_of(self, pixels):
        """The set of the bytes that are 1; the others are 0."""
        digits, gap = pixels.translate(TO_DIGITS), b"0" * self.gap
        rows = (digits[at:at + self.width] + gap for at in range(0, len(digits), self.width))
        return int((b"0" * self.start + b"".join(rows))[::-1], 2)

    def bytes_of(self, pixels):
        digits = format(pixels, "b")[::-1].ljust(self.start + self.height * self.stride, "0").encode()
        starts = range(self.start, self.start + self.height * self.stride, self.stride)
        return b"".join(digits[at:at + self.width] for at in starts).translate(FROM_DIGITS)


# ---- sums over the pixels under an element; what is summed up is a list of sets, the digits of a number at each place


def either(a, b):
    return [a[0] | b[0]]


def plus(a, b):
    """The digits of a sum, from the lowest."""
    total, carry = [], 0
    for x, y in itertools.zip_longest(a, b, fillvalue=0):
        total.append(x ^ y ^ carry)
        carry = x & y | carry & (x ^ y)
    return [*total, carry] if carry else total


def moved(digits, by):
    """At each place what stands so many places further on."""
    return [it >> by if by >= 0 else it << -by for it in digits]


def window(digits, count, step, add):
    """The sum over so many places, from each place on, a step apart."""
    total, at, size = None, 0, 1
    while count:
        if count & 1:
            part = moved(digits, at * step)
            total, at = part if total is None else add(total, part), at + size
        count >>= 1
        if count:
            digits, size = add(digits, moved(digits, size * step)), 2 * size
    return total


def runs(row):
    """The first column and the length of each run of pixels in a row of a bitmap."""
    at = 0
    for is_in, pixels in itertools.groupby(row, bool):
        length = len(list(pixels))
        if is_in:
            yield at, length
        at += length


def bands(b):
    """The first row and the height of each band of equal rows of a bitmap, with the runs of one of them."""
    rows, top = [bytes(map(bool, b.pixels[at:at + b.width])) for at in range(0, len(b.pixels), b.width)], 0
    for row, same in itertools.groupby(rows):
        height = len(list(same))
        if any(row):
            yield top, height, list(runs(row))
        top += height


def count_of_runs(b):
    """How many steps a sum over the element's pixels takes, about."""
    return sum(len(row) for _, _, row in bands(b))


def gathered(frame, digits, b, add):
    """At each place the sum over the element's pixels of what stands under them."""
    parts = []
    for top, height, row in bands(b):
        band = functools.reduce(add, (moved(window(digits, length, 1, add), left - b.x) for left, length in row))
        parts.append(moved(window(band, height, frame.stride, add), (top - b.y) * frame.stride))
    return functools.reduce(add, parts)


def below(frame, digits, k):
    """Where the number is below k."""
    less, same = 0, frame.all
    for place in reversed(range(max(len(digits), k.bit_length()))):
        digit = digits[place] if place < len(digits) else 0
        if k >> place & 1:
            less |= same & ~digit
            same &= digit
        else:
            same &= ~digit
    return less


# ---- operators on sets


def turned(b):
    """The element turned round."""
    return b._replace(x=b.width - 1 - b.x, y=b.height - 1 - b.y, pixels=b.pixels[::-1])


def dilation(frame, f, b):
    return gathered(frame, [f], b, either)[0] & frame.all


def erosion(frame, f, b):
    return frame.all ^ dilation(frame, frame.all ^ f, b)


def opening(frame, f, b):
    return dilation(frame, erosion(frame, f, b), turned(b))


def closing(frame, f, b):
    return erosion(frame, dilation(frame, f, b), turned(b))


def rank(frame, f, b, k):
    # sample number min(k, m) of m is in the set where fewer than k of them, and fewer than m, are not
    outside = gathered(frame, [frame.all ^ f], b, plus)
    return below(frame, outside, k) & dilation(frame, f, b)


def skeleton(frame, f, b, levels):
    """The digits of the marks."""
    digits = [0] * 8

    def mark(places, number):
        for place in range(8):
            digits[place] = digits[place] & ~places | (places if number >> place & 1 else 0)

    for n in range(levels):
        less = erosion(frame, f, b)
        mark(f & ~dilation(frame, less, turned(b)), n + 1)
        f = less
    mark(f, levels + 1)
    return digits


def restored(frame, places, b, levels):
    """What marks restore; `places` gives those of a mark."""
    f = places(levels + 1)
    for n in reversed(range(levels)):
        f = dilation(frame, f, turned(b)) | places(n + 1)
    return f


def volumes(frame, f, b, levels):
    """How many pixels are left after n erosions and n dilations, for each n."""
    found, less = [f.bit_count()], f
    for n in range(1, levels + 1):
        less = again = erosion(frame, less, b)
        for _ in range(n):
            again = dilation(frame, again, turned(b))
        found.append(again.bit_count())
    return found
