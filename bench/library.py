#!/usr/bin/python3
"""Times libmorphd beside OpenCV, and openings of sets by a box beside Leptonica, both in one thread and by turns in one run, on images
of 4096 x 4096 and of 1024 x 1024, with the samples of bench/peers.py. The best of so many rounds counts, by the time of the processor,
and of small images of four times as many; both write into an array that is there already.

    /usr/bin/python3 bench/library.py LIBRARY.. [ROUNDS [WORD]]
    /usr/bin/python3 bench/library.py LIBRARY.. memory [WORD]
    /usr/bin/python3 bench/library.py LIBRARY.. alone [WORD]

A LIBRARY is a path, as out/libmorphd.so, in the build that this processor and MORPHD_CPU pick, or a path with @v2 or @v3 behind it,
in that build. It is told which build runs. Several libraries run by turns: both builds of one, or those of two commits.

With a word only the lines that have it are timed, and with a side, as 1024, those of that side: a line is told as `1024 u8 erosion, box
of 3`. With `memory` it tells instead how much memory a call on the larger images takes beyond the caller's arrays, and how often it
waits for a page, from a heap that is empty. With `alone` it only calls libmorphd, for who counts where the time goes. It needs a
Python with cv2 (Debian: python3-opencv). Where Leptonica is not installed (Debian: libleptonica-dev), its line is left out.
"""
import ctypes
import functools
import math
import os
import pathlib
import re
import resource
import shutil
import sys
import tempfile
import time

import cv2
import leptonica
import numpy
from peers import SIDE, disc, levels, rectangle

ERODE, OPEN, CLOSE, GRADIENT, WHITE_TOP_HAT, RANK = 0, 2, 3, 4, 5, 7
NUMBER, LENGTH, POINTER = ctypes.c_uint32, ctypes.c_size_t, ctypes.c_void_p
ARRAY, ELEMENT = [POINTER, LENGTH], [POINTER, LENGTH] + [NUMBER] * 4
LEVELS = {"u8": [ctypes.c_uint8], "u16": [ctypes.c_uint16], "set": []}
SIDES = (SIDE, 1024)
LEPTONICA = leptonica.loaded()


def opened(told):
    """A library in a build, of a copy, since a process loads each file once and picks a build then; and what both are called."""
    path, _, cpu = told.partition("@")
    before = os.environ.get("MORPHD_CPU")
    if cpu:
        os.environ["MORPHD_CPU"] = cpu
    with tempfile.TemporaryDirectory() as folder:
        library = ctypes.CDLL(shutil.copy(path, folder))
    if cpu:
        del os.environ["MORPHD_CPU"]
        if before is not None:
            os.environ["MORPHD_CPU"] = before
    # one from before there were two builds does not tell
    build = f"v{library.morphd_build()}" if hasattr(library, "morphd_build") else "v2"
    if cpu not in ("", build):
        sys.exit(f"{path} runs its build for x86-64-{build} here, and not for x86-64-{cpu}")
    return f"{path}, for x86-64-{build}", library


def prepared(library, kind):
    """What gets the flat call of a kind of samples ready, on arrays of NumPy that stay where they are: called, it gives the answer."""
    call = getattr(library, "morphd_flat_" + kind)
    call.restype, call.argtypes = ctypes.c_int32, [NUMBER] * 4 + LEVELS[kind] + ARRAY + ELEMENT + ARRAY

    def ready(operation, k, image, element, out, origin=None):
        (height, width), (rows, columns) = image.shape, element.shape
        tops = [] if kind == "set" else [numpy.iinfo(image.dtype).max]
        # a column and a row; the middle, if it is left out
        bitmap = (element.ctypes.data, element.size, columns, rows, *(origin or (columns // 2, rows // 2)))
        words = (operation, k, width, height, *tops, image.ctypes.data, image.size, *bitmap, out.ctypes.data, out.size)
        return functools.partial(call, *(type_of(word) for type_of, word in zip(call.argtypes, words)))
    return ready


def flat(library, kind):
    """The flat call of a kind of samples, on arrays of NumPy."""
    ready = prepared(library, kind)

    def run(operation, k, image, element, out):
        answer = ready(operation, k, image, element, out)()
        if answer:
            sys.exit("answer %d" % answer)
    return run


def slanted(degrees, across=41):
    """A line of so many pixels, one in each column, or in each row where it is steep."""
    angle, half = math.radians(degrees), across // 2
    is_steep = abs(math.sin(angle)) > abs(math.cos(angle))
    slope = 1 / math.tan(angle) if is_steep else math.tan(angle)
    places = [(round(slope * step), step) for step in range(-half, half + 1)]
    reach = max(it for it, _ in places)
    element = numpy.zeros((2 * reach + 1, across), numpy.uint8)
    for aside, step in places:
        element[reach + aside, half + step] = 1
    return numpy.ascontiguousarray(element.T) if is_steep else element


def erosions():
    """The elements of the erosions that are timed, by their names."""
    boxes = {f"box of {side}": rectangle(side) for side in (3, 5, 9, 15, 63)}
    discs = {f"disc of {side}": disc(side) for side in (5, 7, 15, 31)}
    slants = {f"line of 41 at {degrees} degrees": slanted(degrees) for degrees in (5, 15, 30, 60, 75)}
    return boxes | discs | {"diagonal of 41": numpy.eye(41, dtype=numpy.uint8)} | slants


def filters():
    """The elements of the openings and closings that are timed, by their names."""
    boxes = {f"box of {side}": rectangle(side) for side in (3, 5, 15)}
    return boxes | {"disc of 5": disc(5), "disc of 15": disc(15), "diagonal of 41": numpy.eye(41, dtype=numpy.uint8)}


class InOpenCV:
    """What OpenCV makes of an image by a call that takes the image, an element and the result. Called, it makes it anew."""

    def __init__(self, call, image, element):
        self.made = numpy.zeros_like(image)
        self.run = lambda: call(image, element, self.made)

    def __call__(self):
        self.run()

    def result(self):
        return self.made


def as_in_opencv(operation):
    """What makes in OpenCV what an operation is there."""
    return functools.partial(InOpenCV, lambda f, e, out: cv2.morphologyEx(f, operation, e, dst=out))


def lines():
    """What is timed: its name, the kind of samples, the operation with its k, the element, and what is asked of the other program."""
    for kind in ("u8", "u16"):
        for name, element in erosions().items():
            yield f"erosion, {name}", kind, ERODE, 0, element, as_in_opencv(cv2.MORPH_ERODE)
        for name, element in filters().items():
            yield f"opening, {name}", kind, OPEN, 0, element, as_in_opencv(cv2.MORPH_OPEN)
            yield f"closing, {name}", kind, CLOSE, 0, element, as_in_opencv(cv2.MORPH_CLOSE)
        for side in (5, 63):
            yield f"top-hat, disc of {side}", kind, WHITE_TOP_HAT, 0, disc(side), as_in_opencv(cv2.MORPH_TOPHAT)
        for name, element in (("box of 3", rectangle(3)), ("disc of 5", disc(5))):
            yield f"gradient, {name}", kind, GRADIENT, 0, element, as_in_opencv(cv2.MORPH_GRADIENT)
    # OpenCV has medians of 16 bits under these two squares alone
    for kind, sides in (("u8", (3, 5, 15)), ("u16", (3, 5))):
        for side in sides:
            yield (f"median, box of {side}", kind, RANK, (side * side + 1) // 2, rectangle(side),
                   functools.partial(InOpenCV, lambda f, e, out: cv2.medianBlur(f, len(e), dst=out)))
    for name, element in (("disc of 15", disc(15)), ("box of 15", rectangle(15))):
        yield f"opening, {name}", "set", OPEN, 0, element, as_in_opencv(cv2.MORPH_OPEN)
    if LEPTONICA:
        yield "opening, box of 15, and Leptonica's", "set", OPEN, 0, rectangle(15), functools.partial(leptonica.Opening, LEPTONICA)


def milliseconds(run):
    # the processor's time, on which other programs tell less; both run in one thread
    start = time.process_time()
    run()
    return 1000 * (time.process_time() - start)


def by_turns(runs, rounds):
    """The least time of each, run one after the other."""
    times = [[milliseconds(run) for run in runs] for _ in range(rounds)]
    return [min(it) for it in zip(*times)]


def resident(word):
    """A line of /proc/self/status, in KiB."""
    return int(re.search(word + r":\s+(\d+)", pathlib.Path("/proc/self/status").read_text())[1])


def taken(run):
    """How many KiB more a call makes resident while it runs, and how many pages it waits for."""
    ctypes.CDLL(None).malloc_trim(0)
    # the greatest resident size is counted anew
    pathlib.Path("/proc/self/clear_refs").write_text("5")
    before, faults = resident("VmRSS"), resource.getrusage(resource.RUSAGE_SELF).ru_minflt
    run()
    return resident("VmHWM") - before, resource.getrusage(resource.RUSAGE_SELF).ru_minflt - faults


def agrees(ours, theirs, element):
    """Whether both made the same, apart from the border, at which medians differ."""
    reach = max(element.shape)
    inner = (slice(reach, -reach), slice(reach, -reach))
    return bool((ours[inner] == theirs[inner]).all())


def tell_memory(library, images, wanted):
    # PR_SET_THP_DISABLE: else a heap grows by pages of 2 MiB
    ctypes.CDLL(None).prctl(41, 1, 0, 0, 0)
    print(f"{SIDE} x {SIDE}, a call's memory beyond the caller's arrays")
    print("| samples | what | KiB | page faults |")
    for name, kind, operation, k, element, _ in wanted:
        image, run = images[kind], flat(library, kind)
        out = numpy.ones_like(image)
        kib, faults = taken(lambda: run(operation, k, image, element, out))
        print(f"| {kind} | {name} | {kib} | {faults} |", flush=True)


def call_alone(library, images, wanted):
    for name, kind, operation, k, element, _ in wanted:
        image, run = images[kind], flat(library, kind)
        out = numpy.ones_like(image)
        print(f"{kind} {name}: {min(milliseconds(lambda: run(operation, k, image, element, out)) for _ in range(100)):.1f} ms")


def images_of(side):
    """The images of a side, by the kind of their samples."""
    samples = levels()[:side, :side].copy()
    return {"u8": samples.astype(numpy.uint8), "u16": samples, "set": (samples % 10 != 0).astype(numpy.uint8)}


def tell_times(libraries, side, wanted, rounds):
    images = images_of(side)
    each = range(1, len(libraries) + 1) if len(libraries) > 1 else [""]
    print(f"OpenCV {cv2.__version__}, one thread each, {side} x {side}, the best of {rounds} by turns, in milliseconds")
    print("| samples | what |", *(f"libmorphd{f' {it}' if it else ''} |" for it in each), "OpenCV |",
          *(f"{f'{it} ' if it else ''}times its |" for it in each), "the same |")
    for name, kind, operation, k, element, theirs in wanted:
        image = images[kind]
        outs, other = [numpy.zeros_like(image) for _ in libraries], theirs(image, element)
        runs = [lambda run=flat(it, kind), out=out: run(operation, k, image, element, out) for it, out in zip(libraries, outs)]
        *mine, its = by_turns([*runs, other], rounds)
        same = all(agrees(it, other.result(), element) for it in outs)
        print(f"| {kind} | {name} |", *(f"{it:.1f} |" for it in mine), f"{its:.1f} |", *(f"{it / its:.2f} |" for it in mine),
              f"{same} |", flush=True)


def main():
    words = sys.argv[1:]
    given = [it for it in words if not it.isdigit() and os.path.isfile(it.partition("@")[0])]
    if not given:
        sys.exit(__doc__)
    first, word = [*words[len(given):], *("7", "")[len(words) - len(given):]]
    libraries = []
    for number, (name, library) in enumerate((opened(it) for it in given), 1):
        print(f"libmorphd{f' {number}' if len(given) > 1 else ''}: {name}")
        libraries.append(library)
    cv2.setNumThreads(1)
    for side in SIDES:
        wanted = [line for line in lines() if word in f"{side} {line[1]} {line[0]}"]
        if first not in ("memory", "alone"):
            tell_times(libraries, side, wanted, int(first) * (SIDES[0] // side))
        elif side == SIDE:
            for library in libraries:
                (tell_memory if first == "memory" else call_alone)(library, images_of(side), wanted)


if __name__ == "__main__":
    main()
