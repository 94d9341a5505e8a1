"""Times OpenCV and Leptonica on what bench/library.py times of libmorphd, on the same samples and in one thread: erosions and medians
of 4096 x 4096 bytes, dilations and medians of as many 16-bit samples, and erosions and a majority of a set.

Run it with a Python that has cv2 (Debian: python3-opencv), beside Leptonica's library (Debian: libleptonica-dev), which
takes sets. Each line has the best of five runs. The C library keeps what is freed:
else each result of 16-bit samples, of 32 MiB, would be in pages that the system gives anew.
"""
import ctypes
import ctypes.util
import sys
import time

try:
    import cv2
    import numpy
except ImportError as missing:
    sys.exit(f"no times of OpenCV: {missing} (Debian: apt install python3-opencv)")

SIDE = 4096
ROUNDS = 5

# What mallopt calls the threshold from which free memory goes back to the system, and the most blocks with pages of
# their own.
TRIM_THRESHOLD, MMAP_MAX = -1, -4


def keep_freed_memory():
    library = ctypes.CDLL(None)
    library.mallopt(MMAP_MAX, 0)
    library.mallopt(TRIM_THRESHOLD, 2**31 - 1)


def levels():
    """The levels that the images are made of, one a pixel, by rows: the upper 16 bits of each state of the
    generator s -> 1664525 s + 1013904223 (mod 2^32) after state 1. Its bytes are their lower 8 bits, and its set has
    the pixels whose level is no multiple of 10."""
    states = numpy.array([1664525 + 1013904223], numpy.uint32)
    factor, summand = 1664525, 1013904223
    while len(states) < SIDE * SIDE:
        # the factor and the summand lead as many states on as there are
        ahead = states * numpy.uint32(factor) + numpy.uint32(summand)
        states = numpy.concatenate((states, ahead))
        factor, summand = factor * factor % 2**32, (factor + 1) * summand % 2**32
    return (states >> 16).astype(numpy.uint16).reshape(SIDE, SIDE)


def disc(across):
    """The places within half of `across` of the middle."""
    radius = across // 2
    y, x = numpy.mgrid[-radius : radius + 1, -radius : radius + 1]
    return (x * x + y * y <= radius * radius).astype(numpy.uint8)


def rectangle(across):
    return numpy.ones((across, across), numpy.uint8)


def best(run, rounds):
    """The least of several times, in milliseconds."""
    times = []
    for _ in range(rounds):
        start = time.perf_counter()
        run()
        times.append(time.perf_counter() - start)
    return 1000 * min(times)


def show(name, run, rounds=ROUNDS):
    print(f"| {name:<30} | {best(run, rounds):8.1f} |", flush=True)


def leptonica():
    """Leptonica's library with the types of what is called, or None where it is not installed."""
    name = ctypes.util.find_library("lept") or ctypes.util.find_library("leptonica")
    if name is None:
        return None
    library = ctypes.CDLL(name)
    pointer, number, part = ctypes.c_void_p, ctypes.c_int, ctypes.c_float
    for function, result, arguments in (
        ("pixCreate", pointer, [number] * 3),
        ("pixGetData", pointer, [pointer]),
        ("pixGetWpl", number, [pointer]),
        ("pixErode", pointer, [pointer] * 3),
        ("pixErodeBrick", pointer, [pointer] * 2 + [number] * 2),
        ("pixErodeCompBrickDwa", pointer, [pointer] * 2 + [number] * 2),
        ("pixBlockrank", pointer, [pointer] * 2 + [number] * 2 + [part]),
        ("pixDestroy", None, [ctypes.POINTER(pointer)]),
        ("selCreate", pointer, [number, number, ctypes.c_char_p]),
        ("selSetOrigin", number, [pointer, number, number]),
        ("selSetElement", number, [pointer] + [number] * 3),
    ):
        getattr(library, function).restype = result
        getattr(library, function).argtypes = arguments
    return library


def drop(library, pix):
    """Lets go of what a call made, and stops where it made nothing."""
    if pix is None:
        sys.exit("a call of Leptonica failed")
    library.pixDestroy(ctypes.byref(ctypes.c_void_p(pix)))


def show_sets(pixels):
    """Erosions of a set by rectangles and discs, and a majority."""
    library = leptonica()
    if library is None:
        print("no times of Leptonica (Debian: apt install libleptonica-dev)", file=sys.stderr)
        return
    pix = library.pixCreate(SIDE, SIDE, 1)
    # 32 pixels a word, the first in the highest bit
    words = numpy.packbits(pixels, axis=1).view(">u4").astype(numpy.uint32)
    assert words.shape == (SIDE, library.pixGetWpl(pix))
    ctypes.memmove(library.pixGetData(pix), words.ctypes.data, words.nbytes)
    for across in (3, 15, 63, 127):
        show(f"rectangle {across} x {across}, a set", lambda: drop(library, library.pixErodeBrick(None, pix, across, across)))
    # by words that were made for each of its sizes
    for across in (3, 15, 63):
        show(f"the same, {across} x {across}, composed", lambda: drop(library, library.pixErodeCompBrickDwa(None, pix, across, across)))
    for across in (5, 15, 31):
        sel = library.selCreate(across, across, b"disc")
        library.selSetOrigin(sel, across // 2, across // 2)
        for y, row in enumerate(disc(across)):
            for x, hit in enumerate(row):
                library.selSetElement(sel, y, x, int(hit))
        show(f"disc of {across}, a set", lambda: drop(library, library.pixErode(None, pix, sel)))
    show("majority of 15 x 15, a set", lambda: drop(library, library.pixBlockrank(pix, None, 7, 7, 0.5)))


def main():
    keep_freed_memory()
    cv2.setNumThreads(1)
    words = levels()
    octets = words.astype(numpy.uint8)
    print(f"| {'OpenCV ' + cv2.__version__:<30} | {'ms':>8} |")
    for bits, image, filtered in ((8, octets, cv2.erode), (16, words, cv2.dilate)):
        for across in (3, 15, 63, 127):
            element = rectangle(across)
            show(f"rectangle {across} x {across}, {bits} bits", lambda: filtered(image, element))
        for across in (5, 15, 31):
            element = disc(across)
            show(f"disc of {across}, {bits} bits", lambda: filtered(image, element))
    for bits, image in ((8, octets), (16, words)):
        for across in (3, 5):
            show(f"median {across} x {across}, {bits} bits", lambda: cv2.medianBlur(image, across))
    show("median 15 x 15, 8 bits", lambda: cv2.medianBlur(octets, 15))
    # it takes half a minute
    show("closing, disc of 255, 8 bits", lambda: cv2.morphologyEx(octets, cv2.MORPH_CLOSE, disc(255)), rounds=1)
    print(f"| {'Leptonica':<30} | {'ms':>8} |")
    show_sets(words % 10 > 0)


if __name__ == "__main__":
    main()
