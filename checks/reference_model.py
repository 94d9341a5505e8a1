"""What a session is answered, by slow definitions straight from docs/PROTOCOL.md and docs/dev/DEFINITIONS.md. `served` gives
the output and the exit status of `morphd batch` for any bytes of a session, memory aside. checks/soak.py holds the
program against it.
"""
import collections
import re

WORDS = {10: "LINE", 11: "LENGTH", 12: "CUT", 20: "MAGIC", 21: "HEADER", 22: "SIZE", 23: "MAXVAL", 24: "SHORT", 25: "SAMPLE",
         26: "TRAILING", 30: "NOT_PLAIN", 31: "ORIGIN", 32: "EMPTY", 40: "NAME_TAKEN", 41: "UNKNOWN", 42: "KIND", 43: "DEAD",
         44: "BINARY", 45: "NO_ORIGIN", 46: "OVERLAP", 47: "PARAM", 48: "FULL", 49: "SETTLED", 51: "RELEASED", 52: "PENDING"}
WHITE = b"\t\n\r "
DIGITS = b"0123456789"
MOST_ENTRIES = 65536
LONGEST_PAYLOAD = 134217728

# An image: "BIT" or "GREY", its sides, its maxval and its samples by rows.
Image = collections.namedtuple("Image", "kind width height maxval samples")
# An element: the sides of its bitmap, and its offsets.
Element = collections.namedtuple("Element", "width height offsets")


class Refused(Exception):
    """A request is refused by this code."""

    def __init__(self, code):
        super().__init__(code)
        self.code = code


def unless(holds, code):
    if not holds:
        raise Refused(code)


# ---- files


def behind_blank(data, at):
    """Behind white space and comments, and whether the bytes end inside a comment."""
    while at < len(data):
        if data[at] in WHITE:
            at += 1
        elif data[at:at + 1] == b"#":
            while at < len(data) and data[at] not in b"\r\n":
                at += 1
            if at == len(data):
                return at, True
        else:
            break
    return at, False


def number_at(data, at):
    """The digits from there on as a number, and what follows them; none where no digit stands."""
    end = at
    while end < len(data) and data[end] in DIGITS:
        end += 1
    return (None, at) if end == at else (int(data[at:end]), end)


def field(data, at):
    """A gap, which begins with white space, and a number."""
    unless(at < len(data) and data[at] in WHITE, 21)
    at, is_cut = behind_blank(data, at + 1)
    number, at = number_at(data, at)
    unless(not is_cut and number is not None, 21)
    return number, at


def header(data, has_maxval):
    """Width, height, maxval and where the raster begins."""
    width, at = field(data, 2)
    height, at = field(data, at)
    maxval, at = field(data, at) if has_maxval else (1, at)
    unless(at < len(data) and data[at] in WHITE, 21)
    return width, height, maxval, at + 1


def plain_samples(data, at, count, maxval, is_set):
    """The pixels or levels of a plain raster, and a tail behind them."""
    samples = []
    for left in reversed(range(count)):
        at, _ = behind_blank(data, at)
        unless(at < len(data), 24)
        if is_set:
            unless(data[at] in b"01", 25)
            sample, at = data[at] - 48, at + 1
        else:
            sample, at = number_at(data, at)
            unless(sample is not None and sample <= maxval, 25)
            unless(left == 0 or at == len(data) or data[at] in WHITE, 25)
        samples.append(sample)
    unless(at == len(data) or data[at] in WHITE, 26)
    return samples


def raw_bits(raster, width, height):
    across = (width + 7) // 8
    return [raster[y * across + x // 8] >> (7 - x % 8) & 1 for y in range(height) for x in range(width)]


def raw_samples(data, at, width, height, maxval, is_set):
    raster, count = data[at:], width * height
    size = height * ((width + 7) // 8) if is_set else count * (1 if maxval < 256 else 2)
    unless(len(raster) >= size, 24)
    if is_set:
        samples = raw_bits(raster, width, height)
    elif maxval < 256:
        samples = list(raster[:size])
    else:
        samples = [raster[2 * i] * 256 + raster[2 * i + 1] for i in range(count)]
    unless(all(sample <= maxval for sample in samples), 25)
    unless(len(raster) == size, 26)
    return samples


def image_in(data):
    """The image of a payload."""
    unless(data[:2] in (b"P1", b"P2", b"P4", b"P5"), 20)
    is_set, is_plain = data[:2] in (b"P1", b"P4"), data[:2] in (b"P1", b"P2")
    width, height, maxval, at = header(data, not is_set)
    unless(1 <= width <= 8192 and 1 <= height <= 8192 and width * height <= 16777216, 22)
    unless(1 <= maxval <= 65535, 23)
    if is_plain:
        samples = plain_samples(data, at, width * height, maxval, is_set)
    else:
        samples = raw_samples(data, at, width, height, maxval, is_set)
    return Image("BIT" if is_set else "GREY", width, height, maxval, samples)


def element_in(data, ox, oy):
    """The element of a payload, with its origin in this column and row."""
    unless(data[:2] == b"P1", 30)
    width, height, _, at = header(data, False)
    unless(1 <= width <= 255 and 1 <= height <= 255, 22)
    pixels = plain_samples(data, at, width * height, 1, True)
    unless(ox < width and oy < height, 31)
    offsets = [(i % width - ox, i // width - oy) for i, pixel in enumerate(pixels) if pixel]
    unless(offsets, 32)
    return Element(width, height, offsets)


def image_text(f):
    """The one text of an image."""
    if f.kind == "GREY":
        size = 1 if f.maxval < 256 else 2
        return b"P5\n%d %d\n%d\n" % f[1:4] + b"".join(s.to_bytes(size, "big") for s in f.samples)
    text = b"P4\n%d %d\n" % f[1:3]
    for y in range(f.height):
        row = f.samples[y * f.width:(y + 1) * f.width] + [0] * (-f.width % 8)
        text += bytes(sum(bit << (7 - i) for i, bit in enumerate(row[x:x + 8])) for x in range(0, len(row), 8))
    return text


def curve_text(volumes):
    lines = ["V %d %d\n" % pair for pair in enumerate(volumes)]
    lines += ["S %d %d\n" % (n, max(v - w, 0)) for n, (v, w) in enumerate(zip(volumes, volumes[1:]))]
    return "".join(lines + ["R %d\n" % volumes[-1]]).encode()


# ---- operators


def seen(f, offsets, x, y):
    """The samples under the element at a place; what lies outside the frame is left out."""
    return [f.samples[(y + dy) * f.width + x + dx] for dx, dy in offsets
            if 0 <= x + dx < f.width and 0 <= y + dy < f.height]


def redrawn(f, sample_at):
    return f._replace(samples=[sample_at(x, y) for y in range(f.height) for x in range(f.width)])


def pointwise(f, g, sample_of):
    return f._replace(samples=[sample_of(s, t) for s, t in zip(f.samples, g.samples)])


def erosion(f, b):
    return redrawn(f, lambda x, y: min(seen(f, b, x, y), default=f.maxval))


def dilation(f, b):
    return redrawn(f, lambda x, y: max(seen(f, b, x, y), default=0))


def turned(b):
    return [(-dx, -dy) for dx, dy in b]


def opening(f, b):
    return dilation(erosion(f, b), turned(b))


def closing(f, b):
    return erosion(dilation(f, b), turned(b))


def minus(f, g):
    return pointwise(f, g, lambda s, t: max(s - t, 0))


def rank(f, b, k):
    def sample_at(x, y):
        samples = sorted(seen(f, b, x, y))
        return samples[min(k, len(samples)) - 1] if samples else 0
    return redrawn(f, sample_at)


def set_where(f, holds):
    return f._replace(kind="BIT", maxval=1, samples=[int(holds(s)) for s in f.samples])


def times(n, operator, f, b):
    for _ in range(n):
        f = operator(f, b)
    return f


def skeleton(f, b, depth):
    """Each place of a residue has the mark of the last one that it is in; what the last erosion leaves has its own."""
    marks, eroded = [0] * len(f.samples), f
    for n in range(depth):
        opened = opening(eroded, b)
        marks = [n + 1 if s == 1 and t != 1 else mark for mark, s, t in zip(marks, eroded.samples, opened.samples)]
        eroded = erosion(eroded, b)
    marks = [depth + 1 if s == 1 else mark for mark, s in zip(marks, eroded.samples)]
    return f._replace(kind="GREY", maxval=depth + 1, samples=marks)


def restoration(g, b, depth):
    restored = set_where(g, lambda s: s == 1)
    for n in range(1, depth + 1):
        part = times(n, dilation, set_where(g, lambda s: s == n + 1), turned(b))
        restored = pointwise(restored, part, max)
    return restored


def spectrum(f, b, depth):
    volumes, eroded = [], f
    for n in range(depth + 1):
        volumes.append(sum(times(n, dilation, eroded, turned(b)).samples))
        eroded = erosion(eroded, b)
    return volumes


# The operations: how many elements and numbers each takes behind its image, and what it makes of them.
OPERATIONS = {
    "ERODE": (1, 0, erosion),
    "DILATE": (1, 0, dilation),
    "OPEN": (1, 0, opening),
    "CLOSE": (1, 0, closing),
    "GRADIENT": (1, 0, lambda f, b: minus(dilation(f, b), erosion(f, b))),
    "WTOPHAT": (1, 0, lambda f, b: minus(f, opening(f, b))),
    "BTOPHAT": (1, 0, lambda f, b: minus(closing(f, b), f)),
    "RANK": (1, 1, rank),
    "THRESHOLD": (0, 1, lambda f, k: set_where(f, lambda s: s >= k)),
    "HITMISS": (2, 0, lambda f, b, c: minus(erosion(f, b), dilation(f, c))),
    "SKELETON": (1, 1, skeleton),
    "RESTORE": (1, 1, restoration),
    "SPECTRUM": (1, 1, spectrum),
}


# ---- the machine


class Entry:
    """What was accepted under a name, and how it stands: PENDING, DONE, CANCELLED, RELEASED or the ticket that failed it."""

    def __init__(self, name, shape, inputs, outcome, make):
        self.name, self.shape, self.inputs, self.outcome = name, shape, inputs, outcome
        self.make, self.made = make, None

    def value(self):
        """The image, the element or the volumes. It depends on no outcome."""
        if self.made is None:
            self.made = self.make()
        return self.made

    def is_dead(self):
        return self.outcome == "CANCELLED" or isinstance(self.outcome, int)


def shape_after(operation, shape, number):
    """The shape of what an operation makes of an image of this shape."""
    kind, width, height, maxval = shape
    return {"THRESHOLD": ("BIT", width, height, 1), "RESTORE": ("BIT", width, height, 1),
            "SKELETON": ("GREY", width, height, (number or 0) + 1),
            "SPECTRUM": ("CURVE", (number or 0) + 1)}.get(operation, shape)


class Session:
    """The machine of one thread. It counts what it answers."""

    def __init__(self):
        self.entries, self.counts = [], collections.Counter()

    def ticket(self, name):
        return next((t for t, entry in enumerate(self.entries) if entry.name == name), None)

    def known(self, name):
        t = self.ticket(name)
        unless(t is not None, 41)
        return t, self.entries[t]

    def accept(self, entry):
        self.entries.append(entry)
        return b"OK %d\n" % (len(self.entries) - 1)

    def free(self, name):
        unless(self.ticket(name) is None, 40)
        unless(len(self.entries) < MOST_ENTRIES, 48)

    def load(self, name, payload):
        self.free(name)
        f = image_in(payload)
        return self.accept(Entry(name, f[:4], (), "DONE", lambda: f))

    def element(self, name, ox, oy, payload):
        self.free(name)
        b = element_in(payload, ox, oy)
        return self.accept(Entry(name, ("ELEMENT", b.width, b.height), (), "DONE", lambda: b))

    def input(self, name, is_element):
        t, entry = self.known(name)
        unless(entry.shape[0] == "ELEMENT" if is_element else entry.shape[0] in ("BIT", "GREY"), 42)
        unless(not entry.is_dead(), 43)
        unless(entry.outcome != "RELEASED", 51)
        return t

    def run(self, name, operation, names, numbers):
        self.free(name)
        inputs = [self.input(each, k > 0) for k, each in enumerate(names)]
        shape, elements = self.entries[inputs[0]].shape, [self.entries[t].value() for t in inputs[1:]]
        number = numbers[0] if numbers else None
        check_arguments(operation, shape, elements, number)
        operator = OPERATIONS[operation][2]

        def make():
            f = self.entries[inputs[0]].value()
            return operator(f, *[b.offsets for b in elements], *numbers)
        return self.accept(Entry(name, shape_after(operation, shape, number), tuple(inputs), "PENDING", make))

    def work(self):
        for entry in self.entries:
            if entry.outcome == "PENDING":
                entry.outcome = "DONE"

    def cancel(self, name):
        t, entry = self.known(name)
        unless(entry.outcome == "PENDING", 49)
        entry.outcome = "CANCELLED"
        for other in self.entries:
            cause = next((s for s in other.inputs if self.entries[s].is_dead()), None)
            if other.outcome == "PENDING" and cause is not None:
                other.outcome = cause
        return b"OK %d\n" % t

    def release(self, name):
        t, entry = self.known(name)
        unless(entry.outcome != "PENDING", 52)
        unless(not entry.is_dead(), 43)
        unless(entry.outcome != "RELEASED", 51)
        entry.outcome = "RELEASED"
        return b"OK %d\n" % t

    def status(self, name):
        self.work()
        t, entry = self.known(name)
        if entry.outcome == "DONE":
            return ("DONE %d %s\n" % (t, " ".join(map(str, entry.shape)))).encode()
        if isinstance(entry.outcome, int):
            return b"FAILED %d INPUT %d\n" % (t, entry.outcome)
        return ("%s %d\n" % (entry.outcome, t)).encode()

    def fetch(self, name):
        self.work()
        t, entry = self.known(name)
        unless(entry.shape[0] != "ELEMENT", 42)
        if entry.outcome != "DONE":
            return self.status(name)
        is_curve = entry.shape[0] == "CURVE"
        text = curve_text(entry.value()) if is_curve else image_text(entry.value())
        self.counts["curves" if is_curve else "images"] += 1
        return (b"CURVE" if is_curve else b"IMAGE") + b" %d %d\n" % (t, len(text)) + text


def check_arguments(operation, shape, elements, number):
    """The cases of an operation, in their order."""
    unless(operation != "SKELETON" or shape[0] == "BIT", 44)
    unless(operation not in ("RANK", "SKELETON") or (0, 0) in elements[0].offsets, 45)
    unless(operation != "HITMISS" or not set(elements[0].offsets) & set(elements[1].offsets), 46)
    if number is not None:
        least, most = {"RANK": (1, len(elements[0].offsets) if elements else 0), "THRESHOLD": (0, 65535),
                       "SKELETON": (1, 254), "RESTORE": (1, 254), "SPECTRUM": (1, 32)}[operation]
        unless(least <= number <= most, 47)


# ---- lines

NAME, NUMBER = r"([a-z0-9_-]{1,32})", r"(0|[1-9][0-9]{0,8})"


def form(*words):
    return re.compile("^" + " ".join(words) + r"\Z")


LINES = {"LOAD": form("LOAD", NAME, NUMBER), "ELEMENT": form("ELEMENT", NAME, NUMBER, NUMBER, NUMBER), "QUIT": form("QUIT")}
LINES.update({word: form(word, NAME) for word in ("CANCEL", "RELEASE", "STATUS", "WAIT", "FETCH")})
RUNS = {word: form("RUN", NAME, word, NAME, *[NAME] * elements, *[NUMBER] * numbers)
        for word, (elements, numbers, _) in OPERATIONS.items()}


def words_of(line):
    """The words of a line behind its first, or of a RUN behind its operation, and that word."""
    text = line.decode("latin-1")
    for word, found in [(word, pattern.match(text)) for word, pattern in {**LINES, **RUNS}.items()]:
        if found:
            return word, found.groups()
    raise Refused(10)


def answer(session, word, words, payload):
    if word == "LOAD":
        return session.load(words[0], payload)
    if word == "ELEMENT":
        return session.element(words[0], int(words[1]), int(words[2]), payload)
    if word in OPERATIONS:
        images = 1 + OPERATIONS[word][0]
        return session.run(words[0], word, words[1:1 + images], [int(number) for number in words[1 + images:]])
    call = {"CANCEL": session.cancel, "RELEASE": session.release, "FETCH": session.fetch}.get(word, session.status)
    return call(words[0])


def request(data, at):
    """The next request: its word, its words, its payload and what follows it."""
    end = data.find(b"\n", at, at + 201)
    unless(end >= 0 or len(data) - at > 200, 12)
    unless(end >= 0, 10)
    word, words = words_of(data[at:end])
    if word not in ("LOAD", "ELEMENT"):
        return word, words, b"", end + 1
    size = int(words[-1])
    unless(size <= LONGEST_PAYLOAD, 11)
    unless(end + 1 + size <= len(data), 12)
    return word, words, data[end + 1:end + 1 + size], end + 1 + size


def refusal(code):
    return ("ERR %d %s\n" % (code, WORDS[code])).encode()


def served(data):
    """The output for these bytes, the exit status, and counts of what was answered."""
    session, at, written = Session(), 0, []
    while at < len(data):
        try:
            word, words, payload, at = request(data, at)
        except Refused as refused:
            return b"".join(written) + refusal(refused.code), 1, session.counts
        session.counts["requests"] += 1
        session.counts[word] += 1
        if word == "QUIT":
            break
        try:
            written.append(answer(session, word, words, payload))
        except Refused as refused:
            session.counts["refused by %d" % refused.code] += 1
            written.append(refusal(refused.code))
    return b"".join(written), 0, session.counts


# ---- what hangs together


def covered(f, offsets, x, y):
    """The places that the element covers from one."""
    return [(x + dx, y + dy) for dx, dy in offsets if 0 <= x + dx < f.width and 0 <= y + dy < f.height]


def meet(f, g):
    return pointwise(f, g, min)


def union(f, g):
    return pointwise(f, g, max)


def geodesic_dilation(b, mask, f):
    return meet(union(f, dilation(f, b)), mask)


def geodesic_erosion(b, mask, f):
    return union(meet(f, erosion(f, b)), mask)


def flooded(b, mask, f, offer, is_gain):
    """Each place takes what one that the element covers from it offers, as often as that is a gain. From there on no geodesic
    dilation or erosion changes anything."""
    samples, waiting = list(f.samples), [(x, y) for y in range(f.height) for x in range(f.width)]
    while waiting:
        u, v = waiting.pop()
        for x, y in covered(f, turned(b), u, v):
            at = y * f.width + x
            offered = offer(samples[v * f.width + u], mask.samples[at])
            if is_gain(offered, samples[at]):
                samples[at] = offered
                waiting.append((x, y))
    return f._replace(samples=samples)


def reconstruction(b, mask, marker):
    return flooded(b, mask, meet(marker, mask), min, lambda s, t: s > t)


def reconstruction_by_erosion(b, mask, marker):
    return flooded(b, mask, union(marker, mask), max, lambda s, t: s < t)


def border_over(value, f):
    def sample_at(x, y):
        at_border = x in (0, f.width - 1) or y in (0, f.height - 1)
        return f.samples[y * f.width + x] if at_border else value
    return redrawn(f, sample_at)


def holes_filled(b, f):
    return reconstruction_by_erosion(b, f, border_over(f.maxval, f))


def border_cleared(b, f):
    return minus(f, reconstruction(b, f, border_over(0, f)))


def h_maxima(b, h, f):
    return reconstruction(b, f, f._replace(samples=[max(s - h, 0) for s in f.samples]))


def h_minima(b, h, f):
    return reconstruction_by_erosion(b, f, f._replace(samples=[min(s + h, f.maxval) for s in f.samples]))


def regional_maxima(b, f):
    return set_where(minus(f, h_maxima(b, 1, f)), lambda s: s >= 1)


def regional_minima(b, f):
    return set_where(minus(h_minima(b, 1, f), f), lambda s: s >= 1)


def component(b, f, x, y):
    """The places of the set that hang together with one of it, by rows from the top."""
    found, waiting = {(x, y)}, [(x, y)]
    while waiting:
        for u, v in covered(f, b, *waiting.pop()):
            if f.samples[v * f.width + u] and (u, v) not in found:
                found.add((u, v))
                waiting.append((u, v))
    return sorted(found, key=lambda place: place[::-1])


def components(b, f):
    """The components of a set by a symmetric element, in the order of their first places."""
    found, met = [], set()
    for y in range(f.height):
        for x in range(f.width):
            if f.samples[y * f.width + x] and (x, y) not in met:
                found.append(component(b, f, x, y))
                met.update(found[-1])
    return found


def labelling(b, f):
    """The labels by rows, and how many components there are."""
    parts, labels = components(b, f), [0] * (f.width * f.height)
    for label, places in enumerate(parts, 1):
        for x, y in places:
            labels[y * f.width + x] = label
    return labels, len(parts)


def region(places):
    """The first place of a component, its area, and its box with both ends."""
    columns, rows = zip(*places)
    return [*places[0], len(places), min(columns), min(rows), max(columns), max(rows)]


def large_components(b, least, f):
    kept = {place for places in components(b, f) if len(places) >= least for place in places}
    return redrawn(f, lambda x, y: int((x, y) in kept))


def area_opening(b, least, f):
    """The greatest level at which each place belongs to a large component. Levels that no sample has do what the next one does."""
    opened = [0] * len(f.samples)
    for k in sorted({*f.samples} - {0}):
        at_least = Image("BIT", f.width, f.height, 1, [int(s >= k) for s in f.samples])
        opened = [k if bit else level for bit, level in zip(large_components(b, least, at_least).samples, opened)]
    return f._replace(samples=opened)


def area_closing(b, least, f):
    def turned(g):
        return g._replace(samples=[g.maxval - s for s in g.samples])
    return turned(area_opening(b, least, turned(f)))


CROSS = [(0, -1), (-1, 0), (0, 0), (1, 0), (0, 1)]
SQUARE = [(dx, dy) for dy in (-1, 0, 1) for dx in (-1, 0, 1)]


def distance(b, top, f):
    """How many of the erosions from none on hold each place; where one changes nothing, all behind it do the same."""
    counts, eroded = [0] * len(f.samples), f
    for n in range(top):
        counts = [count + s for count, s in zip(counts, eroded.samples)]
        before, eroded = eroded, erosion(eroded, b)
        if eroded == before:
            counts = [top if s else count for count, s in zip(counts, eroded.samples)]
            break
    return counts


def squared_distance(top, f):
    outside = [(x, y) for y in range(f.height) for x in range(f.width) if not f.samples[y * f.width + x]]
    return [min([top, *((x - u) ** 2 + (y - v) ** 2 for u, v in outside)]) for y in range(f.height) for x in range(f.width)]


def is_symmetric(offsets):
    return set(offsets) == set(turned(offsets))


# ---- basins


def watershed(b, f, markers, mask, chosen=lambda labels: labels[0]):
    """The labels of a flood from markers, by rows. At each level go rounds, until one changes nothing. In a round each place of the mask
    up to the level, without a label, takes the chosen one of the labels beside it as they stood when the round began, by rows."""
    labels = [label if is_in else 0 for label, is_in in zip(markers, mask)]
    for h in sorted(set(f.samples)):
        before = None
        while labels != before:
            before = list(labels)
            for y in range(f.height):
                for x in range(f.width):
                    at = y * f.width + x
                    if mask[at] and not before[at] and f.samples[at] <= h:
                        places = sorted(v * f.width + u for u, v in covered(f, b, x, y))
                        beside = [before[place] for place in places if before[place]]
                        labels[at] = chosen(beside) if beside else 0
    return labels
