"""Random calls of what libmorphd measures grains by, with and without faults, and what each has to be answered by the reference
model and by the header's order of refusals. checks/library.py makes them.
"""
import collections
import ctypes

import lent_places
import library_calls as calls
import reference_model as model

FRAME, LEVELS, ONE_WAY = 53, 54, 55
# The numbers of answers that have to come, beside 0.
NUMBERS = {0, 11, 22, 23, 25, 31, 32, 47, FRAME, LEVELS, ONE_WAY}
# Numbers that are told of each component.
COLUMNS = 7
GREATEST = 2**32 - 1
# What the numbers in front of an image may be, for each family: pairs of a least and a greatest.
LIMITS = {"reconstruct": [(0, 1)], "extrema_h": [(0, 1), (1, 65535)], "extrema_regional": [(0, 1)], "distance": [(0, 2), (1, GREATEST)]}
# What those in front of the image of an area operator may be, for a set and for levels of grey.
LIMITS_OF_AREAS = {"set": [(1, GREATEST)], "u8": [(0, 1), (1, GREATEST)], "u16": [(0, 1), (1, GREATEST)]}
# Those that take a symmetric element.
OF_COMPONENTS = ("label", "regions", "components", "area")

# A call: its name, its numbers, its image or its marker and mask, its elements, the length of `out`, and that of `regions`.
Call = collections.namedtuple("Call", "name numbers images bitmaps room rows", defaults=(0,))


def kind_of(name):
    """The kind of samples that a call takes."""
    return name.rpartition("_")[2]


def pairs(image, places):
    """An image as a call takes it."""
    levels = [] if image.kind == "set" else [image.maxval]
    samples = places.array(calls.TYPES[calls.sample_type(image.kind)], image.samples)
    return [image.width, image.height, *levels, samples, len(image.samples)]


def made(library, call, places=lent_places.MEMORY):
    """What the library answers, all of `out`, and of `regions` where it is apart, with what stands on both sides of them, and how many
    components it tells."""
    kinds = calls.pointed_at(call.name)
    out, rows, told = places.results(kinds["out"], call.room), None, places.array(ctypes.c_uint32, [calls.UNTOUCHED])
    behind = [told] if "components" in kinds else []
    if "regions" in kinds:
        rows = places.results(kinds["regions"], call.rows)
        behind = [rows.lent, call.rows, *behind]
    given = list(call.numbers)
    for image in call.images:
        given += pairs(image, places)
    for b in call.bitmaps:
        given += [places.array(ctypes.c_uint8, b.pixels), len(b.pixels), b.width, b.height, b.x, b.y]
    answer = getattr(library, call.name)(*given, out.lent, call.room, *behind)
    return answer, [*out.seen(), *(rows.seen() if rows else [])], told[0]


# ---- what a call has to be answered


def refusal_of_numbers(call):
    what = calls.family(call)
    limits = LIMITS_OF_AREAS[kind_of(call.name)] if what == "area" else LIMITS.get(what, [])
    return 0 if all(least <= it <= most for it, (least, most) in zip(call.numbers, limits)) else calls.PARAM


def refusal_of_pair(call):
    """What is wrong with a marker beside its mask."""
    marker, mask = (*call.images, *call.images)[:2]
    if (marker.width, marker.height) != (mask.width, mask.height):
        return FRAME
    return LEVELS if marker.maxval != mask.maxval else 0


def refusal(call):
    """The first refusal of a call, but for that of a table that is too short."""
    images = [calls.refusal_of_image(it) for it in call.images]
    room = 0 if calls.family(call) == "regions" or call.room == len(call.images[-1].samples) else calls.LENGTH
    cases = [refusal_of_numbers(call), *images, refusal_of_pair(call), room, *map(calls.refusal_of_bitmap, call.bitmaps)]
    first = next((it for it in cases if it), 0)
    if not first and calls.family(call) in OF_COMPONENTS and not model.is_symmetric(calls.offsets(call.bitmaps[0])):
        return ONE_WAY
    return first


def picture(image):
    if image.kind == "set":
        return model.Image("BIT", image.width, image.height, 1, [int(s != 0) for s in image.samples])
    return model.Image("GREY", image.width, image.height, image.maxval, image.samples)


def distances(f, metric, top):
    if metric == 2:
        return model.squared_distance(top, f)
    return model.distance(model.SQUARE if metric else model.CROSS, top, f)


def area(b, *numbers_and_image):
    """The large components of a set, or the area opening or the area closing of levels of grey."""
    *kind, least, f = numbers_and_image
    if not kind:
        return model.large_components(b, least, f)
    return (model.area_closing if kind[0] else model.area_opening)(b, least, f)


def value(call):
    """The samples of the result."""
    f, *masks = map(picture, call.images)
    b, numbers, what = [calls.offsets(it) for it in call.bitmaps][:1], call.numbers, calls.family(call)
    if what == "reconstruct":
        return (model.reconstruction_by_erosion if numbers[0] else model.reconstruction)(*b, masks[0], f).samples
    if what == "extrema_h":
        return (model.h_minima if numbers[0] else model.h_maxima)(*b, numbers[1], f).samples
    if what == "extrema_regional":
        return (model.regional_minima if numbers[0] else model.regional_maxima)(*b, f).samples
    if what == "area":
        return area(*b, *numbers, f).samples
    if what == "distance":
        return distances(f, *numbers)
    return {"fill": model.holes_filled, "clear_border": model.border_cleared}[what](*b, f).samples


def wanted(call):
    """The answer of a call where memory is ample, what its result has, and how many components are told, if any are."""
    first, what = refusal(call), calls.family(call)
    if first:
        return first, None, None
    if what == "label":
        return 0, *model.labelling(calls.offsets(call.bitmaps[0]), picture(call.images[0]))
    if what not in ("regions", "components"):
        return 0, value(call), None
    b, f = calls.offsets(call.bitmaps[0]), picture(call.images[0])
    found = [model.region(it) for it in model.components(b, f)]
    if (call.room if what == "regions" else call.rows) < COLUMNS * len(found):
        return calls.LENGTH, None, len(found)
    rows = sum(found, [])
    return 0, rows if what == "regions" else (model.labelling(b, f)[0], rows), len(found)


def differs(told, call):
    """Whether the library answered or wrote something else than it has to."""
    answer, result, count = wanted(call)
    margin = [calls.UNTOUCHED] * calls.MARGIN
    both = result if isinstance(result, tuple) else (result, None)
    rooms = (call.room, call.rows) if calls.family(call) == "components" else (call.room,)
    whole = []
    for room, each in zip(rooms, both):
        whole += [*margin, *(each or []), *[calls.UNTOUCHED] * (room - len(each or [])), *margin]
    return told != (answer, whole, calls.UNTOUCHED if count is None else count)


def spoiled(told):
    """What a library with a fault might have answered, written and told."""
    answer, out, count = told
    yield answer ^ 1, out, count
    yield answer, [out[0] ^ 1, *out[1:]], count
    yield answer, out[:-1] + [out[-1] ^ 1], count
    yield answer, out, count ^ 1
    if len(out) > 2 * calls.MARGIN:
        yield answer, out[:calls.MARGIN] + [out[calls.MARGIN] ^ 1] + out[calls.MARGIN + 1:], count


# ---- random calls


def neighbours(chance):
    """The four or the eight neighbours, with their middle or without it."""
    has_corners, has_middle = chance.random() < 0.5, chance.random() < 0.5
    pixels = [int(has_middle if n == 4 else n % 2 == 1 or has_corners) for n in range(9)]
    return calls.Bitmap(3, 3, 1, 1, pixels)


def turned_too(b):
    """A bitmap of odd sides with its origin in its middle, which has each pixel and the one opposite it."""
    pixels = [max(p, q) for p, q in zip(b.pixels, b.pixels[::-1])]
    return b._replace(x=b.width // 2, y=b.height // 2, pixels=pixels)


class Writer(calls.Writer):
    """Writes random calls; one in `odd` has a fault or more."""

    def __init__(self, chance, odd=4):
        super().__init__(chance, odd)
        self.names = sorted(it for it in calls.prototypes() if calls.OF_GRAINS.match(it))

    def around(self, what):
        """What tells which pixels hang together."""
        if self.chance.random() < 0.6:
            return neighbours(self.chance)
        b = self.bitmap()
        while not (b.width % 2 and b.height % 2):
            b = self.bitmap()
        return turned_too(b) if what in OF_COMPONENTS and self.chance.random() < 0.9 else b

    def numbers_of(self, what, image):
        top = self.chance.choice((1, 2, 5, image.maxval, 65535))
        if what == "area":
            return [*[self.chance.randrange(2)] * (image.kind != "set"), self.chance.randint(1, 9)]
        return {"reconstruct": [self.chance.randrange(2)], "extrema_h": [self.chance.randrange(2), top],
                "extrema_regional": [self.chance.randrange(2)], "distance": [self.chance.randrange(3), top]}.get(what, [])

    def call(self):
        name = self.chance.choice(self.names)
        what = calls.family(Call(name, None, None, None, None))
        image = self.image(kind_of(name), 65535)
        images = [image]
        if what == "reconstruct":
            other = self.image(kind_of(name), image.maxval, (image.width, image.height))
            images = [other._replace(maxval=image.maxval), image]
        bitmaps = [] if what == "distance" else [self.around(what)]
        room = len(image.samples)
        rows = self.chance.choice((0, COLUMNS, COLUMNS * room, COLUMNS * room + 3))
        rooms = {"regions": (rows, 0), "components": (room, rows)}.get(what, (room, 0))
        call = Call(name, self.numbers_of(what, image), images, bitmaps, *rooms)
        return self.spoiled(call) if self.chance.randrange(self.odd) == 0 else call

    def other_marker(self, marker, mask):
        """A marker of other sides, or of the greatest maxval, which may be another than the mask's."""
        if self.chance.random() < 0.5:
            return self.image(mask.kind, 255)
        return marker._replace(maxval={"u8": 255, "u16": 65535, "set": 1}[mask.kind])

    def spoiled(self, call):
        """The call with one fault or more."""
        for _ in range(self.chance.choice((1, 1, 2, 3))):
            kind = self.chance.choice(("number", "image", "pair", "room", "bitmap", "bitmap"))
            if kind == "number" and call.numbers:
                call.numbers[self.chance.randrange(len(call.numbers))] = self.chance.choice((0, 3, 65536, GREATEST))
            elif kind == "image":
                place = self.chance.randrange(len(call.images))
                call.images[place] = self.spoiled_image(call.images[place])
            elif kind == "pair" and len(call.images) == 2:
                call.images[0] = self.other_marker(*call.images)
            elif kind == "room":
                call = call._replace(room=max(0, call.room + self.chance.choice((-1, 1, 7, -call.room))))
            elif kind == "bitmap" and call.bitmaps:
                call.bitmaps[0] = self.spoiled_bitmap(call.bitmaps[0])
        return call


# ---- full size


def of_areas(kind, level, *top):
    """The same of area operators: a component of all samples is large, or just too small."""
    all_of_it = 1 << 24
    if kind == "set":
        return [([all_of_it], 1), ([all_of_it + 1], 0)]
    return [([0, all_of_it], level), ([0, all_of_it + 1], 0), ([1, all_of_it], level), ([1, all_of_it + 1], *top)]


def of_one_value(name):
    """Calls on pictures of as many samples as there may be, all of one value, and the sample that each result has throughout."""
    kind = kind_of(name)
    level = {"u8": 200, "u16": 40000, "set": 1}[kind]
    top = {"u8": [255], "u16": [65535], "set": []}[kind]
    what = calls.family(Call(name, None, None, None, None))
    return level, top, {
        "reconstruct": [([0], level), ([1], level)], "fill": [([], level)], "clear_border": [([], 0)],
        "extrema_h": [([0, 50], level - 50), ([1, 50], level + 50)], "extrema_regional": [([0], 1), ([1], 1)], "label": [([], 1)],
        "components": [([], 1)], "area": of_areas(kind, level, *top), "distance": [([it, 9], 9) for it in range(3)],
    }.get(what, [])


def full_size(library):
    """Makes each call on 4096 x 4096 and 8192 x 2048 samples between fences; how many calls there were, or what differs."""
    count, ones, between = 0, (ctypes.c_uint8 * 9)(*[1] * 9), lent_places.BEFORE_A_FENCE
    for width, height in ((4096, 4096), (8192, 2048)):
        image = calls.Array("set", width, height, 1, bytes([1]) * (1 << 24))
        call = Call("morphd_regions_set", [], [image], [calls.Bitmap(3, 3, 1, 1, [1] * 9)], COLUMNS)
        margin = [calls.UNTOUCHED] * calls.MARGIN
        if made(library, call) != (0, [*margin, 0, 0, 1 << 24, 0, 0, width - 1, height - 1, *margin], 1):
            return "regions on %d x %d" % (width, height)
        count += 1
    for name in calls.prototypes():
        if not calls.OF_GRAINS.match(name):
            continue
        level, top, wanted = of_one_value(name)
        sample = calls.TYPES[calls.sample_type(kind_of(name))]
        samples = between.places(sample, 1 << 24)
        samples[:] = (sample * (1 << 24)).from_buffer_copy(bytes(sample(level)) * (1 << 24))
        kinds = calls.pointed_at(name)
        out, told, row = between.places(kinds["out"], 1 << 24), ctypes.c_uint32(), between.places(ctypes.c_uint32, COLUMNS)
        has_row = "regions" in kinds
        for width, height in ((4096, 4096), (8192, 2048)):
            image = [width, height, *top, samples, 1 << 24]
            given = image * (2 if calls.family(Call(name, None, None, None, None)) == "reconstruct" else 1)
            element = [] if "distance" in name else [ones, 9, 3, 3, 1, 1]
            behind = [row, COLUMNS] * has_row + [ctypes.byref(told)] * ("components" in kinds)
            for numbers, value_made in wanted:
                answer = getattr(library, name)(*numbers, *given, *element, out, 1 << 24, *behind)
                is_told = not has_row or list(row) == [0, 0, 1 << 24, 0, 0, width - 1, height - 1]
                if answer or not is_told or bytes(out) != bytes(kinds["out"](value_made)) * (1 << 24):
                    return "%s %r on %d x %d: answer %d" % (name, numbers, width, height, answer)
                count += 1
    return count
