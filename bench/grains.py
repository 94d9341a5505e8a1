#!/usr/bin/python3
"""Times libmorphd's operators on grains beside OpenCV, SciPy and scikit-image, each in one thread and by turns in one run.

    /usr/bin/python3 bench/grains.py out/libmorphd.so [ROUNDS [WORD [SIDE]]]
    /usr/bin/python3 bench/grains.py out/libmorphd.so memory [WORD [SIDE]]

With @v2 or @v3 behind its path the library runs in that build, as with bench/library.py.

The images have SIDE x SIDE pixels, 4096 if left out: grains (noise that was blurred, with some noise of its own), noise, a
checkerboard, a comb of lines that one row joins, a serpent of lines that are joined left and right by turns, and a spiral. With a word
only the lines that have it are timed. The best of so many rounds counts, by the time of the processor; what takes a peer over eight
seconds is run once. `the same` tells whether both made the same. With `memory` it tells how much memory a call takes beyond the caller's
arrays, and how often it waits for a page. It needs a Python with cv2, scipy and skimage (Debian: python3-opencv, python3-scipy,
python3-skimage).
"""
import ctypes
import sys

import cv2
import numpy
import scipy.ndimage
import skimage.measure
import skimage.morphology
from library import ARRAY, ELEMENT, LEVELS, NUMBER, POINTER, milliseconds, opened, taken

FOUR, EIGHT = (scipy.ndimage.generate_binary_structure(2, it).astype(numpy.uint8) for it in (1, 2))
SECONDS = 8
H = 40
BY_DILATION, MAXIMA = 0, 0
AREA_OPENING, AREA_CLOSING = range(2)
# Of area operators on levels a corner of each image is taken: scikit-image needs seconds for a megapixel.
SIDE_OF_AREAS = 1024
CITY_BLOCK, CHESSBOARD, SQUARED_EUCLID = range(3)
# Numbers that are told of each component.
COLUMNS = 7


# ---- images


def noise(side, seed):
    return numpy.random.default_rng(seed).integers(0, 256, (side, side), numpy.uint8)


def grains(side):
    blurred = noise(side, 1).astype(numpy.float32)
    for _ in range(3):
        blurred = scipy.ndimage.uniform_filter(blurred, 9)
    return numpy.clip((blurred - 127.5) * 12 + 127.5 + noise(side, 2) % 8 - 4, 0, 255).astype(numpy.uint8)


def comb(side):
    image = numpy.zeros((side, side), numpy.uint8)
    image[:, ::2], image[-1] = 1, 1
    return image


def serpent(side):
    image = numpy.zeros((side, side), numpy.uint8)
    image[::2], image[1::4, -1], image[3::4, 0] = 1, 1, 1
    return image


def spiral(side):
    """Lines of one pixel, one pixel apart, from the first corner to the middle."""
    image = numpy.zeros((side, side), numpy.uint8)
    x, y, length, turn = 0, 0, side - 1, 0
    image[0, 0] = 1
    while length > 0:
        dx, dy = ((1, 0), (0, 1), (-1, 0), (0, -1))[turn % 4]
        end_x, end_y = x + dx * length, y + dy * length
        image[min(y, end_y):max(y, end_y) + 1, min(x, end_x):max(x, end_x) + 1] = 1
        x, y, turn = end_x, end_y, turn + 1
        # the first three lines are of one length, and then two each
        if turn >= 3 and turn % 2 == 1:
            length -= 2
    return image


def images(side):
    """Each image by its name."""
    levels = grains(side)
    rows, columns = numpy.indices((side, side), numpy.uint16)
    return {
        "grains": levels, "noise": noise(side, 3), "grains of 16 bits": levels.astype(numpy.uint16) * 257,
        "set of grains": (levels > 140).astype(numpy.uint8), "noise of 50 %": (noise(side, 4) < 128).astype(numpy.uint8),
        "noise of 59 %": (noise(side, 5) < 151).astype(numpy.uint8), "checkerboard": ((rows + columns) % 2).astype(numpy.uint8),
        "comb": comb(side), "serpent": serpent(side), "spiral": spiral(side),
    }


SETS = ("set of grains", "noise of 50 %", "noise of 59 %", "checkerboard", "comb", "serpent", "spiral")


# ---- calls


def kind_of(image):
    return "u16" if image.dtype == numpy.uint16 else "u8"


def bitmap(element):
    rows, columns = element.shape
    return element.ctypes.data, element.size, columns, rows, columns // 2, rows // 2


def frame(image, kind):
    height, width = image.shape
    tops = [] if kind == "set" else [numpy.iinfo(image.dtype).max]
    return [width, height, *tops, image.ctypes.data, image.size]


class Calls:
    """The library's calls on arrays of NumPy. Each gives a function that calls it once more, and the array that it writes."""

    def __init__(self, library):
        self.library = library

    def call(self, name, types, words, out, *held):
        function = getattr(self.library, name)
        function.restype, function.argtypes = ctypes.c_int32, types

        def run():
            answer = function(*words)
            if answer:
                sys.exit(f"{name}: answer {answer}")
        # what the call is given by its address alone stays as long as the function
        run.held = held
        return run, out

    def of_image(self, name, numbers, image, kind, element, out):
        types = [NUMBER] * (len(numbers) + 2) + LEVELS[kind] + ARRAY + ELEMENT + ARRAY
        words = [*numbers, *frame(image, kind), *bitmap(element), out.ctypes.data, out.size]
        return self.call(name, types, words, out, image, element)

    def reconstruction(self, marker, mask, kind, element):
        one, out = [NUMBER] * 2 + LEVELS[kind] + ARRAY, numpy.zeros_like(mask)
        words = [BY_DILATION, *frame(marker, kind), *frame(mask, kind), *bitmap(element), out.ctypes.data, out.size]
        return self.call("morphd_reconstruct_" + kind, [NUMBER] + one + one + ELEMENT + ARRAY, words, out, marker, mask, element)

    def fill(self, image, kind, element):
        return self.of_image("morphd_fill_" + kind, [], image, kind, element, numpy.zeros_like(image))

    def labels(self, image, element):
        """Labels, and what is told of each component, by one call."""
        components, out = (ctypes.c_uint32 * 1)(), numpy.zeros(image.shape, numpy.uint32)
        told = numpy.zeros((image.size // 2 + 1, COLUMNS), numpy.uint32)
        types = [NUMBER] * 2 + ARRAY + ELEMENT + ARRAY + ARRAY + [POINTER]
        arrays = [out.ctypes.data, out.size, told.ctypes.data, told.size, ctypes.addressof(components)]
        words = [*frame(image, "set"), *bitmap(element), *arrays]
        return self.call("morphd_components_set", types, words, out, image, element, components, told)

    def labels_alone(self, image, element):
        components, out = (ctypes.c_uint32 * 1)(), numpy.zeros(image.shape, numpy.uint32)
        types = [NUMBER] * 2 + ARRAY + ELEMENT + ARRAY + [POINTER]
        words = [*frame(image, "set"), *bitmap(element), out.ctypes.data, out.size, ctypes.addressof(components)]
        return self.call("morphd_label_set", types, words, out, image, element, components)

    def large(self, image, least, element):
        return self.of_image("morphd_area_set", [least], image, "set", element, numpy.zeros_like(image))

    def area(self, kind, image, least, element):
        samples = kind_of(image)
        return self.of_image("morphd_area_" + samples, [kind, least], image, samples, element, numpy.zeros_like(image))

    def distance(self, image, metric):
        out = numpy.zeros(image.shape, numpy.uint32)
        types = [NUMBER] * 4 + ARRAY + ARRAY
        words = [metric, 2**32 - 1, *frame(image, "set"), out.ctypes.data, out.size]
        return self.call("morphd_distance_set", types, words, out, image)


# ---- what is timed


def lowered(image):
    step = H * (257 if image.dtype == numpy.uint16 else 1)
    return numpy.where(image > step, image - step, 0).astype(image.dtype)


def from_border(mask):
    """The marker from which holes are filled by dilation, of the complement."""
    marker = numpy.zeros_like(mask)
    marker[0], marker[-1], marker[:, 0], marker[:, -1] = mask[0], mask[-1], mask[:, 0], mask[:, -1]
    return marker


def same(ours, theirs):
    return bool(numpy.array_equal(ours, theirs))


def as_many(ours, theirs):
    """Whether labels are of one set, and as many."""
    return bool(((ours > 0) == (theirs > 0)).all() and ours.max() == theirs.max())


def dots(image):
    """Every 97th pixel of a set."""
    marker = numpy.zeros_like(image)
    marker.ravel()[::97] = image.ravel()[::97]
    return marker


def scipy_told(image):
    """The labels that SciPy makes, beside areas and boxes."""
    labels, count = scipy.ndimage.label(image, numpy.ones((3, 3), int))
    numpy.bincount(labels.ravel(), minlength=count + 1)
    scipy.ndimage.find_objects(labels, count)
    return labels


def skimage_told(image):
    labels = skimage.measure.label(image, connectivity=2)
    skimage.measure.regionprops_table(labels, properties=("area", "bbox"))
    return labels


def lines_of_levels(calls, given):
    """What is timed on levels: its name, our call, the peer's name, its call, and whether both made the same."""
    skimage_rebuilds = skimage.morphology.reconstruction
    for name in ("grains", "grains of 16 bits", "noise"):
        mask = given[name]
        marker = lowered(mask)
        yield (f"reconstruction, h = {H}, 8 neighbours, {name}", calls.reconstruction(marker, mask, kind_of(mask), EIGHT), "scikit-image",
               lambda marker=marker, mask=mask: skimage_rebuilds(marker, mask, footprint=EIGHT), same)
    for name, element in (("grains", EIGHT), ("noise", FOUR)):
        image = given[name]
        yield (f"fill, {element.sum() - 1} neighbours, {name}", calls.fill(image, "u8", element), "scikit-image",
               lambda image=image, element=element: 255 - skimage_rebuilds(from_border(255 - image), 255 - image, footprint=element), same)


def lines_of_areas(calls, given):
    for name, kind, word in (("grains", AREA_OPENING, "opening"), ("grains", AREA_CLOSING, "closing"),
                             ("grains of 16 bits", AREA_OPENING, "opening"), ("noise", AREA_OPENING, "opening")):
        image = numpy.ascontiguousarray(given[name][:SIDE_OF_AREAS, :SIDE_OF_AREAS])
        theirs = getattr(skimage.morphology, "area_" + word)
        yield (f"area {word}, 200, 8 neighbours, {name}, {len(image)} x {len(image)}", calls.area(kind, image, 200, EIGHT), "scikit-image",
               lambda image=image, theirs=theirs: theirs(image, 200, 2), same)


def lines_of_sets(calls, given):
    for name in ("set of grains", "noise of 59 %", "spiral"):
        mask = given[name]
        marker = dots(mask)
        yield (f"reconstruction, 8 neighbours, {name}", calls.reconstruction(marker, mask, "set", EIGHT), "SciPy",
               lambda marker=marker, mask=mask: scipy.ndimage.binary_propagation(marker, EIGHT, mask), same)
    grains_set = given["set of grains"]
    yield ("fill, 4 neighbours, set of grains", calls.fill(grains_set, "set", FOUR), "SciPy",
           lambda: scipy.ndimage.binary_fill_holes(grains_set), same)
    for name in SETS:
        for ways, element in ((4, FOUR), (8, EIGHT)):
            image = given[name]
            yield (f"labels, areas and boxes, {ways} neighbours, {name}", calls.labels(image, element), "OpenCV",
                   lambda image=image, ways=ways: cv2.connectedComponentsWithStats(image, connectivity=ways, ltype=cv2.CV_32S)[1],
                   as_many)
    yield ("labels, 8 neighbours, set of grains", calls.labels_alone(grains_set, EIGHT), "SciPy",
           lambda: scipy.ndimage.label(grains_set, numpy.ones((3, 3), int))[0], as_many)
    for peer, told in (("SciPy", scipy_told), ("scikit-image", skimage_told)):
        yield ("labels, areas and boxes, 8 neighbours, set of grains", calls.labels(grains_set, EIGHT), peer,
               lambda told=told: told(grains_set), as_many)
    yield ("area opening, 200, 8 neighbours, set of grains", calls.large(grains_set, 200, EIGHT), "scikit-image",
           lambda: skimage.morphology.remove_small_objects(grains_set > 0, 200, 2), same)


def lines_of_distances(calls, given):
    image = given["set of grains"]
    for name, metric, theirs in (("city block", CITY_BLOCK, cv2.DIST_L1), ("chessboard", CHESSBOARD, cv2.DIST_C)):
        yield (f"distance, {name}, set of grains", calls.distance(image, metric), "OpenCV",
               lambda theirs=theirs: cv2.distanceTransform(image, theirs, 3), same)
    yield ("distance, squared Euclid, set of grains", calls.distance(image, SQUARED_EUCLID), "OpenCV",
           lambda: cv2.distanceTransform(image, cv2.DIST_L2, cv2.DIST_MASK_PRECISE),
           lambda ours, theirs: bool((numpy.abs(numpy.sqrt(ours.astype(float)) - theirs) < 0.01).all()))


def lines(calls, given, word):
    for part in (lines_of_levels, lines_of_areas, lines_of_sets, lines_of_distances):
        for line in part(calls, given):
            if word in line[0]:
                yield line


def timed(run, rounds):
    """The least time of so many rounds, and what the last made."""
    kept = []
    times = []
    for _ in range(rounds):
        times.append(milliseconds(lambda: kept.append(run())))
        del kept[:-1]
        if times[-1] > 1000 * SECONDS:
            break
    return min(times), kept[-1]


def main():
    told, library = opened(sys.argv[1])
    print(f"libmorphd: {told}")
    first, word, side = [*sys.argv[2:], *("3", "", "4096")[len(sys.argv) - 2:]][:3]
    cv2.setNumThreads(1)
    wanted = lines(Calls(library), images(int(side)), word)
    if first == "memory":
        print("| what | KiB beyond the caller's arrays | bytes a pixel | page faults |")
        for name, (run, _), *_ in wanted:
            kib, faults = taken(run)
            print(f"| {name} | {kib} | {kib * 1024 / int(side) ** 2:.1f} | {faults} |", flush=True)
        return
    print(f"one thread each, {side} x {side}, the best of {first} by turns, in milliseconds")
    print("| what | libmorphd | peer | its time | times the peer's | the same |")
    for name, (run, out), peer, theirs, agrees in wanted:
        mine, _ = timed(run, int(first))
        its, made = timed(theirs, int(first))
        print(f"| {name} | {mine:.1f} | {peer} | {its:.1f} | {mine / its:.2f} | {agrees(out, made)} |", flush=True)


if __name__ == "__main__":
    main()
