"""Writes random sessions: names, files with and without faults, small images, elements, commands of all operations on what
earlier commands make, cancels, releases, and ends of every kind.
"""
import reference_model

LETTERS = "abcdefghijklmnopqrstuvwxyz0123456789_-"
# Lines that end a session.
NO_LINES = (b"", b"quit", b"FETCH  a", b"RUN a ERODE b", b"LOAD a 07", b"x" * 300, b"STATUS " + b"a" * 33, b"STATUS A",
            b"STATUS \xe4", b"QUIT ", b"LOAD a 1000000000", b"LOAD a 134217729")


class Writer:
    """Writes a random session. A machine of the model tells it what stands under the names that it gave."""

    def __init__(self, chance):
        self.chance, self.parts, self.machine = chance, [], reference_model.Session()
        self.names = {"BIT": [], "GREY": [], "ELEMENT": [], "CURVE": []}

    def often(self, n):
        """True but for one time in n."""
        return self.chance.randrange(n) > 0

    def say(self, line, payload=b""):
        """Writes a request, and keeps the name of an entry that it makes. A FETCH makes none, and is not served."""
        request = line.encode() + b"\n" + payload
        self.parts.append(request)
        before = len(self.machine.entries)
        try:
            word, words, payload, _ = reference_model.request(request, 0)
            reference_model.answer(self.machine, "STATUS" if word == "FETCH" else word, words, payload)
        except reference_model.Refused:
            return
        for entry in self.machine.entries[before:]:
            self.names[entry.shape[0]].append(entry.name)

    def new_name(self):
        if not self.often(30) and any(self.names.values()):
            return self.old_name(None)
        return "".join(self.chance.choice(LETTERS) for _ in range(self.chance.choice((1, 2, 3, 5, 8, 32))))

    def old_name(self, kinds):
        """A name of one of these kinds; now and then another one, or one that nothing has."""
        if not self.often(80):
            return "".join(self.chance.choice(LETTERS) for _ in range(4))
        if kinds is None or not self.often(60):
            kinds = list(self.names)
        known = [name for kind in kinds for name in self.names[kind]]
        return self.chance.choice(known) if known else "none"

    # ---- payloads

    def gap(self):
        return self.chance.choice((b" ", b" ", b"\n", b"\n", b"\t", b"\r\n", b" \n  ", b" # of 3\n", b"\n#\n#x\r "))

    def spoiled(self, payload):
        """The payload with a few bytes changed, cut off, put in or put behind."""
        payload = bytearray(payload)
        for _ in range(self.chance.randrange(1, 3)):
            at = self.chance.randrange(len(payload) + 1)
            kind = self.chance.randrange(4)
            byte = self.chance.choice(b"0123456789 \n#Px\xff\x00")
            if kind == 0:
                del payload[at:]
            elif kind == 1:
                payload[at:at + 1] = bytes([byte])
            elif kind == 2:
                payload[at:at] = bytes([byte])
            else:
                payload += bytes([byte])
        return bytes(payload)

    def samples(self, count, maxval):
        """Levels without a pattern, or mostly high ones, or mostly low ones."""
        rare, common = self.chance.choice(((1, maxval), (6, maxval), (12, maxval), (5, 0)))
        return [self.chance.randint(0, maxval) if self.chance.randrange(rare) == 0 else common for _ in range(count)]

    def frame(self):
        """Small sides, or a long strip over several tiles."""
        width, height = self.chance.randint(1, 9), self.chance.randint(1, 9)
        shape = self.chance.randrange(6)
        if shape == 0:
            width = self.chance.randint(60, 200)
        elif shape == 1:
            height = self.chance.randint(60, 200)
        elif shape == 2:
            width, height = self.chance.randint(50, 80), self.chance.randint(30, 70)
        return width, height

    def raster(self, magic, width, samples, maxval):
        if magic == b"P1":
            return b"".join(self.chance.choice((b"", b"", b" ", b"\n")) + b"%d" % s for s in samples)
        if magic == b"P2":
            return b" ".join(b"%d" % s for s in samples) + self.chance.choice((b"", b"\n", b" and so on"))
        if magic == b"P5":
            return b"".join(s.to_bytes(1 if maxval < 256 else 2, "big") for s in samples)
        rows = [samples[at:at + width] for at in range(0, len(samples), width)]
        fill = [self.chance.randrange(2) for _ in range(-width % 8)]
        bits = [bit for row in rows for bit in row + fill]
        return bytes(int("".join(map(str, bits[at:at + 8])), 2) for at in range(0, len(bits), 8))

    def file(self):
        """A file of an image."""
        magic = self.chance.choice((b"P1", b"P2", b"P4", b"P5"))
        is_set = magic in (b"P1", b"P4")
        maxval = 1 if is_set else self.chance.choice((1, 3, 9, 9, 200, 255, 256, 1000, 65535))
        width, height = self.frame()
        fields = [b"%d" % width, b"%0*d" % (self.chance.choice((1, 1, 1, 6)), height)] + [b"%d" % maxval] * (not is_set)
        head = magic + b"".join(self.gap() + word for word in fields) + self.chance.choice((b"\n", b" "))
        payload = head + self.raster(magic, width, self.samples(width * height, maxval), maxval)
        return payload if self.often(8) else self.spoiled(payload)

    def bitmap(self):
        """A bitmap of an element with its origin."""
        width, height = self.chance.choice(((1, 1), (2, 1), (3, 1), (1, 3), (3, 3), (2, 3), (5, 4), (7, 2), (70, 1), (1, 66)))
        holes = self.chance.choice((0, 0, 1, 2))
        pixels = b"".join(b"0" if self.chance.randrange(3) < holes else b"1" for _ in range(width * height))
        payload = b"P1" + self.gap() + b"%d" % width + self.gap() + b"%d\n" % height + pixels
        ox, oy = self.chance.randrange(width), self.chance.randrange(height)
        if not self.often(25):
            ox += width
        return (payload if self.often(10) else self.spoiled(payload)), ox, oy

    # ---- requests

    def load(self):
        payload = self.file()
        self.say("LOAD %s %d" % (self.new_name(), len(payload)), payload)

    def element(self):
        payload, ox, oy = self.bitmap()
        self.say("ELEMENT %s %d %d %d" % (self.new_name(), ox, oy, len(payload)), payload)

    def number(self, operation):
        """A number behind an operation; now and then one that is not taken."""
        if not self.often(25):
            return self.chance.choice((0, 33, 255, 65536, 999999999))
        if operation == "THRESHOLD":
            return self.chance.choice((0, 1, 1, 5, 9, 128, 256, 65535))
        return self.chance.choice((1, 1, 2, 2, 3, 3, 4, 5) + ((7,) if self.often(4) else (30,)))

    def run(self):
        operation = self.chance.choice(list(reference_model.OPERATIONS))
        elements, numbers, _ = reference_model.OPERATIONS[operation]
        images = ("BIT",) if operation == "SKELETON" and self.often(9) else ("BIT", "GREY")
        words = ["RUN", self.new_name(), operation, self.old_name(images)]
        words += [self.old_name(("ELEMENT",)) for _ in range(elements)]
        words += [str(self.number(operation)) for _ in range(numbers)]
        self.say(" ".join(words))

    def look(self):
        kinds = ("BIT", "GREY", "CURVE") if self.often(9) else None
        self.say("%s %s" % (self.chance.choice(("FETCH", "FETCH", "FETCH", "STATUS", "WAIT")), self.old_name(kinds)))

    def end(self):
        """QUIT, or the end of the input, or a line that is none, or a cut."""
        kind = self.chance.randrange(20)
        if kind < 8:
            self.parts.append(b"QUIT\n")
        elif kind == 8:
            self.parts.append(self.chance.choice(NO_LINES) + b"\n")
        data = b"".join(self.parts)
        return data[:self.chance.randrange(len(data) + 1)] if kind == 9 else data


def written(chance, kind=Writer):
    """A random session, by a writer of this kind."""
    writer = kind(chance)
    for _ in range(chance.randint(1, 3)):
        writer.load()
    for _ in range(chance.randint(1, 4)):
        writer.element()
    requests = [writer.run] * 12 + [writer.look] * 5 + [writer.load, writer.element]
    requests += [lambda: writer.say("CANCEL " + writer.old_name(("BIT", "GREY", "CURVE"))),
                 lambda: writer.say("RELEASE " + writer.old_name(None))]
    for _ in range(chance.choice((5, 12, 25, 40))):
        chance.choice(requests)()
    for kind in ("BIT", "GREY", "CURVE"):
        for name in writer.names[kind]:
            if writer.often(3):
                writer.say("FETCH " + name)
    return writer.end()
