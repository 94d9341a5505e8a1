"""A slow stand-in for libmorphd, with its calls, made of the reference model in checks/reference_model.py.

    import stand_in
    stand_in.install()          # from now on the package calls it

It takes and answers what the library does: arrays by their addresses, and 0 or the number of the first refusal. So tests
see everything of the package but the library itself. Programs that a test starts install it by themselves, see `in_process`.
"""
from __future__ import annotations

import ctypes
import os
import sys
from pathlib import Path

CHECKS = Path(__file__).resolve().parents[2] / "checks"
sys.path.insert(0, str(CHECKS))

import reference_model  # noqa: E402

from morphd import _library  # noqa: E402

OPERATIONS = ("ERODE", "DILATE", "OPEN", "CLOSE", "GRADIENT", "WTOPHAT", "BTOPHAT", "RANK")
OF_ONE_STEP = ("ERODE", "DILATE", "GRADIENT", "RANK")
TYPES = {"u8": ctypes.c_uint8, "u16": ctypes.c_uint16, "set": ctypes.c_uint8}
# How often each call was made, which tests look at.
calls: dict[str, int] = {}


class Faulty(Exception):
    """A number to answer."""


def unless(holds, number):
    if not holds:
        raise Faulty(number)


def cells(kind, address, count):
    return (kind * count).from_address(address) if count else []


def image(kind, width, height, maxval, address, count):
    """The picture in an array."""
    unless(1 <= width <= 8192 and 1 <= height <= 8192 and width * height <= 1 << 24, 22)
    unless(count == width * height, 11)
    samples = list(cells(TYPES[kind], address, count))
    if kind == "set":
        return reference_model.Image("BIT", width, height, 1, [int(sample != 0) for sample in samples])
    unless(maxval >= (256 if kind == "u16" else 1), 23)
    unless(all(sample <= maxval for sample in samples), 25)
    return reference_model.Image("GREY", width, height, maxval, samples)


def element(address, count, width, height, ox, oy):
    """The offsets of the footprint in a bitmap."""
    unless(1 <= width <= 255 and 1 <= height <= 255, 22)
    unless(count == width * height, 11)
    unless(ox < width and oy < height, 31)
    pixels = cells(ctypes.c_uint8, address, count)
    offsets = [(at % width - ox, at // width - oy) for at, pixel in enumerate(pixels) if pixel]
    unless(offsets, 32)
    return reference_model.Element(width, height, offsets)


def put(samples, kind, address, count):
    """Writes a result."""
    cells(kind, address, count)[:] = samples


def applied(operation, f, elements, number):
    """What the reference model makes of it, or its refusal."""
    try:
        reference_model.check_arguments(operation, f[:4], elements, number)
    except reference_model.Refused as refused:
        raise Faulty(refused.code) from None
    numbers = [] if number is None else [number]
    return reference_model.OPERATIONS[operation][2](f, *[b.offsets for b in elements], *numbers)


def flat_made(op, k, f, b):
    """The samples that a flat operation makes."""
    return applied(OPERATIONS[op], f, [b], k if OPERATIONS[op] == "RANK" else None).samples


def flat(kind):
    def call(op, k, width, height, *rest):
        top, (address, count, *figure, out, out_count) = (1, rest) if kind == "set" else (rest[0], rest[1:])
        unless(op < len(OPERATIONS), 47)
        f = image(kind, width, height, top, address, count)
        unless(out_count == count, 11)
        put(flat_made(op, k, f, element(*figure)), TYPES[kind], out, out_count)
    return call


def flat_rows(kind):
    def call(op, k, first, width, height, *rest):
        top, (address, count, *figure, out, out_count) = (1, rest) if kind == "set" else (rest[0], rest[1:])
        unless(op < len(OPERATIONS) and OPERATIONS[op] in OF_ONE_STEP, 47)
        f = image(kind, width, height, top, address, count)
        unless(out_count >= 1 and out_count % width == 0 and first * width + out_count <= count, 11)
        made = flat_made(op, k, f, element(*figure))
        put(made[first * width:first * width + out_count], TYPES[kind], out, out_count)
    return call


def threshold(kind):
    def call(k, width, height, top, address, count, out, out_count):
        unless(k <= 65535, 47)
        f = image(kind, width, height, top, address, count)
        unless(out_count == count, 11)
        put(applied("THRESHOLD", f, [], k).samples, ctypes.c_uint8, out, out_count)
    return call


def hit_or_miss(kind):
    def call(width, height, *rest):
        top, (address, count, *figures, out, out_count) = (1, rest) if kind == "set" else (rest[0], rest[1:])
        f = image(kind, width, height, top, address, count)
        unless(out_count == count, 11)
        made = applied("HITMISS", f, [element(*figures[:6]), element(*figures[6:])], None)
        put(made.samples, TYPES[kind], out, out_count)
    return call


def skeleton(levels, width, height, address, count, *rest):
    *figure, out, out_count = rest
    unless(1 <= levels <= 254, 47)
    f = image("set", width, height, 1, address, count)
    unless(out_count == count, 11)
    put(applied("SKELETON", f, [element(*figure)], levels).samples, ctypes.c_uint8, out, out_count)


def restore(kind):
    def call(levels, width, height, top, address, count, *rest):
        *figure, out, out_count = rest
        unless(1 <= levels <= 254, 47)
        f = image(kind, width, height, top, address, count)
        unless(out_count == count, 11)
        put(applied("RESTORE", f, [element(*figure)], levels).samples, ctypes.c_uint8, out, out_count)
    return call


def spectrum(kind):
    def call(levels, width, height, *rest):
        top, (address, count, *figure, out, out_count) = (1, rest) if kind == "set" else (rest[0], rest[1:])
        unless(1 <= levels <= 32, 47)
        f = image(kind, width, height, top, address, count)
        unless(out_count == levels + 1, 11)
        volumes = applied("SPECTRUM", f, [element(*figure)], levels)
        put(volumes, ctypes.c_uint64, out, out_count)
    return call


def figured(kind, *rest):
    """An image, the room for its result and an element, whose faults come in this order."""
    width, height, *rest = rest
    top, (address, count, *figure, out, out_count) = (1, rest) if kind == "set" else (rest[0], rest[1:])
    f = image(kind, width, height, top, address, count)
    unless(out_count == count, 11)
    return f, element(*figure).offsets, out, out_count


def reconstruct(kind):
    def call(method, *rest):
        unless(method < 2, 47)
        sides = 4 if kind == "set" else 5
        tops = (lambda given: (given[0], given[1], 1, *given[2:])) if kind == "set" else lambda given: given
        marker, mask = (image(kind, *tops(rest[at:at + sides])) for at in (0, sides))
        unless(marker[1:3] == mask[1:3], 53)
        unless(marker.maxval == mask.maxval, 54)
        *figure, out, out_count = rest[2 * sides:]
        unless(out_count == len(mask.samples), 11)
        made = (reference_model.reconstruction, reference_model.reconstruction_by_erosion)[method]
        put(made(element(*figure).offsets, mask, marker).samples, TYPES[kind], out, out_count)
    return call


def fill(kind):
    def call(*rest):
        f, b, out, out_count = figured(kind, *rest)
        put(reference_model.holes_filled(b, f).samples, TYPES[kind], out, out_count)
    return call


def clear_border(kind):
    def call(*rest):
        f, b, out, out_count = figured(kind, *rest)
        put(reference_model.border_cleared(b, f).samples, TYPES[kind], out, out_count)
    return call


def extrema_h(kind):
    def call(which, h, *rest):
        unless(which < 2 and 1 <= h <= 65535, 47)
        f, b, out, out_count = figured(kind, *rest)
        made = (reference_model.h_maxima, reference_model.h_minima)[which]
        put(made(b, h, f).samples, TYPES[kind], out, out_count)
    return call


def extrema_regional(kind):
    def call(which, *rest):
        unless(which < 2, 47)
        f, b, out, out_count = figured(kind, *rest)
        made = (reference_model.regional_maxima, reference_model.regional_minima)[which]
        put(made(b, f).samples, ctypes.c_uint8, out, out_count)
    return call


def label_set(*arguments):
    *rest, components = arguments
    f, b, out, out_count = figured("set", *rest)
    unless(reference_model.is_symmetric(b), 55)
    labels, count = reference_model.labelling(b, f)
    put(labels, ctypes.c_uint32, out, out_count)
    put([count], ctypes.c_uint32, components, 1)


def regions_set(width, height, address, count, *rest):
    *figure, out, out_count, components = rest
    f = image("set", width, height, 1, address, count)
    b = element(*figure).offsets
    unless(reference_model.is_symmetric(b), 55)
    rows = [reference_model.region(places) for places in reference_model.components(b, f)]
    put([len(rows)], ctypes.c_uint32, components, 1)
    unless(out_count >= 7 * len(rows), 11)
    put([number for row in rows for number in row], ctypes.c_uint32, out, 7 * len(rows))


def components_set(*arguments):
    *rest, regions, regions_count, components = arguments
    f, b, out, out_count = figured("set", *rest)
    unless(reference_model.is_symmetric(b), 55)
    rows = [reference_model.region(places) for places in reference_model.components(b, f)]
    put([len(rows)], ctypes.c_uint32, components, 1)
    unless(regions_count >= 7 * len(rows), 11)
    put(reference_model.labelling(b, f)[0], ctypes.c_uint32, out, out_count)
    put([number for row in rows for number in row], ctypes.c_uint32, regions, 7 * len(rows))


def area_set(least, *rest):
    unless(least >= 1, 47)
    f, b, out, out_count = figured("set", *rest)
    unless(reference_model.is_symmetric(b), 55)
    put(reference_model.large_components(b, least, f).samples, ctypes.c_uint8, out, out_count)


def area(kind):
    def call(which, least, *rest):
        unless(which < 2 and least >= 1, 47)
        f, b, out, out_count = figured(kind, *rest)
        unless(reference_model.is_symmetric(b), 55)
        made = (reference_model.area_opening, reference_model.area_closing)[which]
        put(made(b, least, f).samples, TYPES[kind], out, out_count)
    return call


def squared_distance(top, f):
    """`squared_distance` of the reference model, which takes the square of the time: the nearest place in each row, and the nearest of these."""
    import numpy

    is_ground = numpy.array(f.samples).reshape(f.height, f.width) == 0
    columns, rows = numpy.arange(f.width), numpy.arange(f.height)
    squares = (columns[:, numpy.newaxis] - columns) ** 2
    across = numpy.array([numpy.where(ground, squares, top).min(axis=1) for ground in is_ground])
    made = [(across + (rows - y)[:, numpy.newaxis] ** 2).min(axis=0) for y in range(f.height)]
    return numpy.minimum(made, top).ravel().tolist()


def distance_set(metric, top, width, height, address, count, out, out_count):
    unless(metric < 3 and top >= 1, 47)
    f = image("set", width, height, 1, address, count)
    unless(out_count == count, 11)
    steps = (reference_model.CROSS, reference_model.SQUARE)
    made = squared_distance(top, f) if metric == 2 else reference_model.distance(steps[metric], top, f)
    put(made, ctypes.c_uint32, out, out_count)


BODIES = {
    **{f"morphd_flat_{kind}": flat(kind) for kind in TYPES},
    **{f"morphd_flat_rows_{kind}": flat_rows(kind) for kind in TYPES},
    **{f"morphd_threshold_{kind}": threshold(kind) for kind in ("u8", "u16")},
    **{f"morphd_hit_or_miss_{kind}": hit_or_miss(kind) for kind in TYPES},
    "morphd_skeleton": skeleton,
    **{f"morphd_restore_{kind}": restore(kind) for kind in ("u8", "u16")},
    **{f"morphd_spectrum_{kind}": spectrum(kind) for kind in TYPES},
    **{f"morphd_reconstruct_{kind}": reconstruct(kind) for kind in TYPES},
    **{f"morphd_fill_{kind}": fill(kind) for kind in TYPES},
    **{f"morphd_clear_border_{kind}": clear_border(kind) for kind in TYPES},
    **{f"morphd_extrema_h_{kind}": extrema_h(kind) for kind in ("u8", "u16")},
    **{f"morphd_extrema_regional_{kind}": extrema_regional(kind) for kind in ("u8", "u16")},
    "morphd_label_set": label_set,
    "morphd_regions_set": regions_set,
    "morphd_components_set": components_set,
    "morphd_area_set": area_set,
    **{f"morphd_area_{kind}": area(kind) for kind in ("u8", "u16")},
    "morphd_distance_set": distance_set,
}
# Those whose result has samples of the image's type, or of four bytes.
OF_ITS_TYPE = ("flat", "miss", "reconstruct", "fill", "clear", "extrema_h", "area")
OF_WORDS = ("label", "regions", "components", "distance")


def size_of_result(name, of_image):
    """How many bytes a sample of a call's result has."""
    if "spectrum" in name:
        return 8
    if any(word in name for word in OF_WORDS):
        return 4
    return of_image if any(word in name for word in OF_ITS_TYPE) else 1


def arrays(name, arguments):
    """The first address and the one behind the last of each array that a call is given; the result's is the last. A number that a
    call writes beside it is no array."""
    kinds = _library.PROTOTYPES[name]
    places = [at for at, kind in enumerate(kinds[:-1]) if kind is ctypes.c_void_p]
    sizes = [1] * len(places)
    for image in range(2 if "reconstruct" in name else 1):
        sizes[image] = 2 if name.endswith("u16") else 1
    sizes[-1] = size_of_result(name, sizes[0])
    return [(arguments[at] or 0, (arguments[at] or 0) + size * arguments[at + 1]) for at, size in zip(places, sizes)]


def overlaps(name, arguments):
    """Whether the result's array lies over another one, which the library forbids and cannot tell."""
    *others, (begin, end) = arrays(name, arguments)
    return any(first < end and begin < last for first, last in others)


def answering(name, body):
    """The body as a call of C: with the library's types, and a number for what it refuses."""
    def call(*arguments):
        calls[name] = calls.get(name, 0) + 1
        try:
            unless(not overlaps(name, arguments), -1)
            body(*arguments)
        except Faulty as fault:
            return fault.args[0]
        return 0
    return ctypes.CFUNCTYPE(_library.ANSWERS[name], *_library.PROTOTYPES[name])(call)


class Library:
    """The stand-in. `refusing` is a number that each call answers from now on, None for none."""

    def __init__(self):
        self.refusing = None
        for name, body in BODIES.items():
            setattr(self, name, answering(name, self.guarded(body)))

    def guarded(self, body):
        def call(*arguments):
            if self.refusing is not None:
                raise Faulty(self.refusing)
            body(*arguments)
        return call

    def morphd_version(self):
        return _library.VERSION

    def morphd_build(self):
        return 2


library = Library()


def install():
    """Lets the package call the stand-in; gives what it called before."""
    return _library.use(library)


def is_wanted():
    """Whether tests are to use it: where no library is built."""
    try:
        _library.loaded()
    except _library.LibraryMissing:
        return True
    return False


def in_process():
    """The environment and the words in which a test starts the package's program, so that it calls what it calls here."""
    here = Path(__file__).resolve().parent
    paths = [str(here / "site")] if _library.loaded() is library else []
    paths += [str(here), str(here.parent), os.environ.get("PYTHONPATH", "")]
    environment = dict(os.environ, PYTHONPATH=os.pathsep.join(path for path in paths if path))
    return environment, [sys.executable, "-m", "morphd"]
