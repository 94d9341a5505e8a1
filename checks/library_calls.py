"""Calls of libmorphd by ctypes, with the types that include/morphd.h declares; random calls, with and without faults; and
what each of them has to be answered, by the reference model and by the header's order of refusals.
"""
import collections
import ctypes
import os
import pathlib
import re
import shutil
import tempfile

import lent_places
import reference_model
from lent_places import MARGIN, UNTOUCHED

ROOT = pathlib.Path(__file__).resolve().parent.parent
TYPES = {"int32_t": ctypes.c_int32, "uint32_t": ctypes.c_uint32, "uint8_t": ctypes.c_uint8, "uint16_t": ctypes.c_uint16,
         "uint64_t": ctypes.c_uint64, "size_t": ctypes.c_size_t}
PROTOTYPE = re.compile(r"^(u?int32_t) (morphd_\w+)\(([^;]*)\);", re.MULTILINE)
# What is told of the library itself.
OF_ITSELF = ("morphd_version", "morphd_build")
# Each build of the library, by what MORPHD_CPU has to be for it, and the number that it tells.
BUILDS = {"v3": 3, "v2": 2}
# The calls that checks/grain_calls.py makes.
OF_GRAINS = re.compile(r"morphd_(reconstruct|fill|clear_border|extrema|label|regions|components|area|distance)_")
FLAT = ("ERODE", "DILATE", "OPEN", "CLOSE", "GRADIENT", "WTOPHAT", "BTOPHAT", "RANK")
# The numbers of those of one step, of whose results rows are made alone.
OF_ONE_STEP = (0, 1, 4, 7)
LENGTH, SIZE, MAXVAL, SAMPLE, ORIGIN, EMPTY, NO_ORIGIN, OVERLAP, PARAM = 11, 22, 23, 25, 31, 32, 45, 46, 47

# An image as a call takes it: "u8", "u16" or "set"; and an element.
Array = collections.namedtuple("Array", "kind width height maxval samples")
Bitmap = collections.namedtuple("Bitmap", "width height x y pixels")
# A call: its name, its numbers before the image, the image, its elements, and the length of `out`.
Call = collections.namedtuple("Call", "name numbers image bitmaps room")


def prototypes():
    """Each function of the header: the type of its answer, and its parameters, as pairs of a type and a name."""
    text = re.sub(r"/\*.*?\*/", "", (ROOT / "include/morphd.h").read_text(encoding="utf-8"), flags=re.DOTALL)
    found = {}
    for answer, name, parameters in PROTOTYPE.findall(text):
        words = [re.fullmatch(r"(?:const )?(\w+) (\*?)(\w+)", it.strip()) for it in parameters.split(",") if it.strip() != "void"]
        found[name] = (TYPES[answer], [(ctypes.POINTER(TYPES[it[1]]) if it[2] else TYPES[it[1]], it[3]) for it in words])
    return found


def loaded(path, cpu):
    """The library with MORPHD_CPU as it is told: of a copy, since a process loads each file once, and picks a build then."""
    os.environ["MORPHD_CPU"] = cpu
    with tempfile.TemporaryDirectory() as folder:
        return ctypes.CDLL(shutil.copy(path, folder))


def opened(path, cpu):
    """One build of the library, each of its functions with the types of the header."""
    library = loaded(path, cpu)
    for name, (answer, parameters) in prototypes().items():
        function = getattr(library, name)
        function.restype, function.argtypes = answer, [it for it, _ in parameters]
    return library


def pointed_at(name):
    """The types of samples of those of a call's parameters that are arrays, by their names."""
    _, parameters = prototypes()[name]
    return {it: kind._type_ for kind, it in parameters if hasattr(kind, "contents")}


def made(library, call, places=lent_places.MEMORY):
    """What the library answers, and all of `out` with what stands on both sides of it."""
    image = call.image
    out = places.results(pointed_at(call.name)["out"], call.room)
    levels = [] if image.kind == "set" else [image.maxval]
    samples = places.array(TYPES[sample_type(image.kind)], image.samples)
    given = [*call.numbers, image.width, image.height, *levels, samples, len(image.samples)]
    for b in call.bitmaps:
        given += [places.array(ctypes.c_uint8, b.pixels), len(b.pixels), b.width, b.height, b.x, b.y]
    answer = getattr(library, call.name)(*given, out.lent, call.room)
    return answer, out.seen()


def sample_type(kind):
    return "uint16_t" if kind == "u16" else "uint8_t"


# ---- what a call has to be answered


def refusal_of_image(f):
    if not (1 <= f.width <= 8192 and 1 <= f.height <= 8192 and f.width * f.height <= 16777216):
        return SIZE
    if len(f.samples) != f.width * f.height:
        return LENGTH
    lowest, highest = {"u8": (1, 255), "u16": (256, 65535), "set": (1, 1)}[f.kind]
    if not lowest <= f.maxval <= highest:
        return MAXVAL
    return SAMPLE if f.kind != "set" and any(s > f.maxval for s in f.samples) else 0


def refusal_of_bitmap(b):
    if not (1 <= b.width <= 255 and 1 <= b.height <= 255):
        return SIZE
    if len(b.pixels) != b.width * b.height:
        return LENGTH
    if b.x >= b.width or b.y >= b.height:
        return ORIGIN
    return 0 if any(b.pixels) else EMPTY


def offsets(b):
    return [(i - b.x, j - b.y) for j in range(b.height) for i in range(b.width) if b.pixels[j * b.width + i]]


def family(call):
    """The name of a call without its kind of samples."""
    return re.sub(r"_(u8|u16|set)$", "", call.name.removeprefix("morphd_"))


def room_wanted(call):
    """How many samples the result has; of rows that are made alone any number of whole ones is right."""
    return call.numbers[0] + 1 if family(call) == "spectrum" else len(call.image.samples)


def room_fits(call):
    """Whether `out` has the length of the result, or of rows of it from the first that is asked for."""
    if family(call) != "flat_rows":
        return call.room == room_wanted(call)
    width, above = call.image.width, call.numbers[2] * call.image.width
    return width > 0 and call.room > 0 and call.room % width == 0 and above + call.room <= len(call.image.samples)


def asked_of(call, samples):
    """Those of the whole result's samples that the call asks for."""
    if family(call) != "flat_rows":
        return samples
    above = call.numbers[2] * call.image.width
    return samples[above:above + call.room]


def operation(call):
    """The word of the protocol for what a call makes."""
    what = family(call)
    if what in ("flat", "flat_rows"):
        return FLAT[call.numbers[0]]
    return {"hit_or_miss": "HITMISS"}.get(what, what.upper())


def operation_numbers(call):
    """The numbers that go with that word."""
    if family(call) in ("flat", "flat_rows"):
        return call.numbers[1:2] if operation(call) == "RANK" else []
    return call.numbers


def refusal_of_number(call):
    """What is wrong with the first number of a call."""
    limits = {"flat": (0, 7), "threshold": (0, 65535), "skeleton": (1, 254), "restore": (1, 254), "spectrum": (1, 32)}
    if family(call) == "flat_rows":
        return 0 if call.numbers[0] in OF_ONE_STEP else PARAM
    if family(call) not in limits:
        return 0
    first, last = limits[family(call)]
    return 0 if first <= call.numbers[0] <= last else PARAM


def refusal_of_pixels(call):
    """What the operation misses in the pixels of its elements."""
    elements, what = [offsets(b) for b in call.bitmaps], family(call)
    if what == "hit_or_miss":
        return OVERLAP if set(elements[0]) & set(elements[1]) else 0
    is_rank = operation(call) == "RANK"
    if (is_rank or what == "skeleton") and (0, 0) not in elements[0]:
        return NO_ORIGIN
    return PARAM if is_rank and not 1 <= call.numbers[1] <= len(elements[0]) else 0


def wanted(call):
    """The answer of a call where memory is ample, and the samples of its result."""
    cases = [refusal_of_number(call), refusal_of_image(call.image), 0 if room_fits(call) else LENGTH]
    cases += [refusal_of_bitmap(b) for b in call.bitmaps]
    answer = next((it for it in cases if it), 0) or refusal_of_pixels(call)
    return (answer, None) if answer else (0, value(call))


def value(call):
    """The samples of the result, by the reference model."""
    f, what = call.image, family(call)
    samples = [int(s != 0) for s in f.samples] if f.kind == "set" else f.samples
    g = reference_model.Image("BIT" if f.kind == "set" else "GREY", f.width, f.height, 1 if f.kind == "set" else f.maxval, samples)
    elements = [offsets(b) for b in call.bitmaps]
    result = reference_model.OPERATIONS[operation(call)][2](g, *elements, *operation_numbers(call))
    return result if what == "spectrum" else asked_of(call, result.samples)


# ---- random calls


def apart(b, c):
    """The second bitmap without the pixels that it shares with the first, if one is left then."""
    shared = set(offsets(b))
    pixels = [0 if (n % c.width - c.x, n // c.width - c.y) in shared else p for n, p in enumerate(c.pixels)]
    return c._replace(pixels=pixels) if any(pixels) else c


class Writer:
    """Writes random calls; one in `odd` has a fault or more."""

    def __init__(self, chance, odd=4):
        self.chance, self.odd = chance, odd
        self.names = sorted(it for it in prototypes() if it not in OF_ITSELF and not OF_GRAINS.match(it))

    def image(self, kind, most, sides=None):
        width, height = sides or (self.chance.randint(1, 17), self.chance.randint(1, 13))
        lowest, highest = {"u8": (1, 255), "u16": (256, 65535), "set": (1, 1)}[kind]
        maxval = self.chance.choice((lowest, highest, self.chance.randint(lowest, highest)))
        top = 255 if kind == "set" else min(most, maxval)
        samples = [self.chance.choice((0, top, self.chance.randint(0, top))) for _ in range(width * height)]
        return Array(kind, width, height, maxval, samples)

    def bitmap(self):
        width, height = self.chance.choice((1, 2, 3, 3, 5, 7)), self.chance.choice((1, 2, 3, 3, 4))
        share = self.chance.choice((0.2, 0.6, 1))
        pixels = [self.chance.choice((1, 255, 128)) if self.chance.random() < share else 0 for _ in range(width * height)]
        x, y = self.chance.randrange(width), self.chance.randrange(height)
        pixels[self.chance.randrange(len(pixels))] = 1
        if self.chance.random() < 0.7:
            pixels[y * width + x] = 1
        return Bitmap(width, height, x, y, pixels)

    def numbers(self, what, image, bitmaps):
        if what in ("flat", "flat_rows"):
            k = self.chance.randint(1, sum(1 for p in bitmaps[0].pixels if p))
            if what == "flat":
                return [self.chance.randrange(8), k]
            return [self.chance.choice(OF_ONE_STEP), k, self.chance.randrange(image.height)]
        k = self.chance.choice((0, 1, 7, 255, 300, 65535))
        return {"threshold": [k], "hit_or_miss": []}.get(what, [self.chance.randint(1, 5)])

    def call(self):
        name = self.chance.choice(self.names)
        what = family(Call(name, None, None, None, None))
        kind = name.rpartition("_")[2] if what != "skeleton" else "set"
        bitmaps = [self.bitmap() for _ in range({"threshold": 0, "hit_or_miss": 2}.get(what, 1))]
        if what == "hit_or_miss" and self.chance.random() < 0.8:
            bitmaps[1] = apart(*bitmaps)
        image = self.image(kind, 6 if what == "restore" else 65535)
        call = Call(name, self.numbers(what, image, bitmaps), image, bitmaps, 0)
        call = call._replace(room=self.room(call))
        return self.spoiled(call) if self.chance.randrange(self.odd) == 0 else call

    def room(self, call):
        """A length of `out` that is right."""
        if family(call) != "flat_rows":
            return room_wanted(call)
        return self.chance.randint(1, call.image.height - call.numbers[2]) * call.image.width

    def rows(self, whole):
        """A call for some rows of the result of a flat call of one step."""
        numbers = [*whole.numbers, self.chance.randrange(whole.image.height)]
        call = whole._replace(name=whole.name.replace("flat", "flat_rows"), numbers=numbers)
        return call._replace(room=self.room(call))

    def median(self):
        """A call for medians under a square with its origin in the middle: the whole result, or some rows of it."""
        kind, reach = self.chance.choice(("u8", "u16")), self.chance.choice((1, 2))
        side = 2 * reach + 1
        image = self.image(kind, 65535, (self.chance.randint(1, 200), self.chance.randint(1, 70)))
        square = Bitmap(side, side, reach, reach, [1] * (side * side))
        numbers = [FLAT.index("RANK"), side * side // 2 + 1]
        whole = Call("morphd_flat_" + kind, numbers, image, [square], len(image.samples))
        return self.chance.choice((whole, self.rows(whole)))

    def spoiled(self, call):
        """The call with one fault or more."""
        for _ in range(self.chance.choice((1, 1, 2, 3))):
            kind = self.chance.choice(("number", "image", "room", "bitmap", "bitmap"))
            if kind == "number" and call.numbers:
                call.numbers[self.chance.randrange(len(call.numbers))] = self.chance.choice((0, 8, 33, 255, 65536, 4294967295))
            elif kind == "image":
                call = call._replace(image=self.spoiled_image(call.image))
            elif kind == "room":
                more = self.chance.choice((-1, 1, 7, call.image.width, -call.room))
                call = call._replace(room=max(0, call.room + more))
            elif kind == "bitmap" and call.bitmaps:
                place = self.chance.randrange(len(call.bitmaps))
                call.bitmaps[place] = self.spoiled_bitmap(call.bitmaps[place])
        return call

    def spoiled_image(self, f):
        top = 255 if f.kind == "u8" else 65535
        changes = [{"width": 0}, {"height": 0}, {"width": 8193}, {"height": 4294967295}, {"width": 8192, "height": 8192},
                   {"samples": f.samples[:-1]}, {"samples": f.samples + [0]}, {"samples": []}]
        if f.kind != "set":
            changes += [{"maxval": 0}, {"maxval": top}, {"samples": f.samples[:-1] + [top]}, {"maxval": min(f.maxval, 255)}]
        return f._replace(**self.chance.choice(changes))

    def spoiled_bitmap(self, b):
        changes = [{"width": 0}, {"height": 0}, {"width": 256}, {"height": 4294967295}, {"x": b.width}, {"y": b.height},
                   {"x": 4294967295}, {"pixels": b.pixels[:-1]}, {"pixels": []}, {"pixels": b.pixels + [1]},
                   {"pixels": [0] * len(b.pixels)}]
        return b._replace(**self.chance.choice(changes))
