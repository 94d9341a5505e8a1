"""What stored sessions are written of (checks/stored_sessions.py): pictures, elements and requests.

Pictures without a pattern come of `getrandbits` alone, which gives the same in every version of Python.
"""
import random
from collections.abc import Callable, Iterable
from typing import NamedTuple

Samples = list[int]


class Element(NamedTuple):
    """The rows of a bitmap, as digits, and the place of its origin."""

    rows: list[str]
    x: int
    y: int

    def size(self) -> int:
        """How many pixels it has."""
        return sum(row.count("1") for row in self.rows)


def drawn(width: int, height: int, has: Callable[[int, int], bool], x: int | None = None, y: int | None = None) -> Element:
    """The pixels of a bitmap that `has` takes by their column and row from the origin, which is the middle if left out."""
    x, y = width // 2 if x is None else x, height // 2 if y is None else y
    return Element(["".join("01"[bool(has(column - x, row - y))] for column in range(width)) for row in range(height)], x, y)


def box(width: int, height: int = 1, x: int | None = None, y: int | None = None) -> Element:
    return drawn(width, height, lambda *_: True, x, y)


def disc(reach: int) -> Element:
    return drawn(2 * reach + 1, 2 * reach + 1, lambda x, y: x * x + y * y <= reach * (reach + 1))


def below(chance: random.Random, bound: int) -> int:
    return bound * chance.getrandbits(32) >> 32


def single(x: int, y: int) -> Element:
    """The one pixel there, from the origin."""
    return drawn(abs(x) + 1, abs(y) + 1, lambda *it: it == (x, y), max(-x, 0), max(-y, 0))


def sparse(name: str, width: int, height: int, part: int, x: int | None = None, y: int | None = None) -> Element:
    """About one pixel in so many, among them the origin."""
    chance = random.Random(name)
    return drawn(width, height, lambda *it: it == (0, 0) or below(chance, part) == 0, x, y)


POINT = box(1)
CROSS = drawn(3, 3, lambda x, y: x == 0 or y == 0)
RING = drawn(3, 3, lambda x, y: (x, y) != (0, 0))
LINES = {"bar": box(3), "post": box(1, 3), "pair": box(2, 1, 1, 0), "long": box(70, 1, 20, 0), "tall": box(1, 66, 0, 50),
         "rising": drawn(5, 5, lambda x, y: x == -y), "falling": drawn(9, 9, lambda x, y: x == y, 0, 0)}
BOXES = {"square": box(3, 3), "corner": box(2, 2, 0, 0), "low": box(7, 5), "wide": box(15, 3, 14, 0), "large": box(31, 31, 30, 30)}
OTHERS = {"cross": CROSS, "ring": RING, "disc": disc(4), "point": POINT, "away": single(3, -2), "word": single(-64, 0),
          "ends": drawn(130, 1, lambda x, _: x in (-65, 0, 64)), "comb": drawn(21, 3, lambda x, y: (x + y) % 3 != 0),
          "spread": sparse("spread", 33, 21, 12, 2, 19)}
ELEMENTS = {**LINES, **BOXES, **OTHERS}
CORNERS = drawn(255, 255, lambda x, y: abs(x) == 127 and abs(y) == 127)


# ---- pictures


def noise(name: str, width: int, height: int, maxval: int, low: int = 0) -> Samples:
    """Levels without a pattern, from the lowest to the maxval."""
    chance = random.Random(name)
    return [low + below(chance, maxval - low + 1) for _ in range(width * height)]


def mostly(name: str, width: int, height: int, common: int, other: int, part: int = 9) -> Samples:
    """One level, and about one place in so many with another."""
    chance = random.Random(name)
    return [other if below(chance, part) == 0 else common for _ in range(width * height)]


def by_place(width: int, height: int, level: Callable[[int, int], int]) -> Samples:
    return [level(x, y) for y in range(height) for x in range(width)]


def set_file(width: int, height: int, pixels: Iterable[int]) -> bytes:
    """A raw PBM."""
    digits = "".join(map(str, pixels))
    rows = [digits[at:at + width].ljust(-(-width // 8) * 8, "0") for at in range(0, width * height, width)]
    return b"P4\n%d %d\n" % (width, height) + b"".join(int(row, 2).to_bytes(len(row) // 8, "big") for row in rows)


def grey_file(width: int, height: int, maxval: int, samples: Iterable[int]) -> bytes:
    """A raw PGM."""
    size = 1 if maxval < 256 else 2
    return b"P5\n%d %d\n%d\n" % (width, height, maxval) + b"".join(sample.to_bytes(size, "big") for sample in samples)


def file_of(width: int, height: int, maxval: int, samples: Iterable[int], is_set: bool) -> bytes:
    return set_file(width, height, samples) if is_set else grey_file(width, height, maxval, samples)


# ---- requests


class Script:
    """The requests of a session. Elements are named by what they are, and all that is run is fetched."""

    def __init__(self) -> None:
        self.parts: list[bytes] = []
        self.known: dict[str, Element] = {}
        self.made = 0

    def say(self, line: str, payload: bytes = b"") -> None:
        self.parts.append(line.encode() + b"\n" + payload)

    def load(self, file: bytes) -> str:
        name = self.new("f")
        self.say(f"LOAD {name} {len(file)}", file)
        return name

    def new(self, letter: str) -> str:
        self.made += 1
        return f"{letter}{self.made}"

    def element(self, name: str, element: Element | None = None) -> str:
        """The name of an element of the list or of another one, which is sent where it is not known yet."""
        if name not in self.known:
            element = ELEMENTS[name] if element is None else element
            bitmap = f"P1\n{len(element.rows[0])} {len(element.rows)}\n{''.join(element.rows)}\n".encode()
            self.say(f"ELEMENT {name} {element.x} {element.y} {len(bitmap)}", bitmap)
            self.known[name] = element
        return name

    def run(self, operation: str, *words: object, is_fetched: bool = True) -> str:
        name = self.new("r")
        self.say(" ".join(["RUN", name, operation, *map(str, words)]))
        if is_fetched:
            self.say(f"FETCH {name}")
        return name

    def bytes(self) -> bytes:
        return b"".join(self.parts)
