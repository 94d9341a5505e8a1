"""Stored sessions on pictures of as many pixels as there may be, 4096 x 4096 and 8192 x 2048, and what has to be written.

Levels rise with each column and each row. So the least and the greatest sample under a square stand at a corner of what it sees,
and the middle one of three in a row in the middle. `hold` stops where checks/reference_model.py says something else of small ones.
"""
from collections.abc import Callable
from typing import NamedTuple

import reference_model
from session_parts import Element, Script, box


class Slope(NamedTuple):
    """A picture: its sides, its maxval, and after how many columns or rows its level rises by one."""

    width: int
    height: int
    maxval: int
    step: int

    def unit(self) -> int:
        return 2 if self.maxval > 255 else 1

    def along(self) -> bytes:
        """The samples of a diagonal, of which each row is a part; pixels as digits."""
        levels = [min(far // self.step, self.maxval) for far in range(self.width + self.height)]
        return b"".join((level + 48 * (self.maxval == 1)).to_bytes(self.unit(), "big") for level in levels)

    def head(self) -> bytes:
        return b"P4\n%d %d\n" % self[:2] if self.maxval == 1 else b"P5\n%d %d\n%d\n" % self[:3]

    def file(self, row_of: Callable[[int, int], tuple[int, int, int, int]]) -> bytes:
        """A raw picture. Of each row: how often its first sample stands there, and its last one, and from where to where between."""
        samples, size, rows = self.along(), self.unit(), []
        for y in range(self.height):
            before, start, end, behind = row_of(y, self.width)
            first, last = samples[start * size:(start + 1) * size], samples[(end - 1) * size:end * size]
            row = first * before + samples[start * size:end * size] + last * behind
            rows.append(row if self.maxval > 1 else packed(row))
        return self.head() + b"".join(rows)

    def here(self) -> bytes:
        return self.file(lambda y, width: (0, y, y + width, 0))

    def least(self, reach: int) -> bytes:
        """The least under a square that reaches so far to each side."""
        return self.file(lambda y, width: (reach, max(y - reach, 0), max(y - reach, 0) + width - reach, 0))

    def greatest(self, reach: int) -> bytes:
        def row(y: int, width: int) -> tuple[int, int, int, int]:
            below = min(y + reach, self.height - 1)
            return 0, below + reach, below + width, reach
        return self.file(row)

    def middle(self) -> bytes:
        """Number two of three in a row: at the left side of the frame that is the second of two."""
        return self.file(lambda y, width: (1, y + 1, y + width, 0))


def packed(row: bytes) -> bytes:
    """The bits of a row of digits."""
    filled = row + b"0" * (-len(row) % 8)
    return int(filled, 2).to_bytes(len(filled) // 8, "big")


def plain(slope: Slope, magic: bytes) -> bytes:
    """A set as a plain file; as levels of grey where the magic says so."""
    samples, head = slope.along(), magic + b"\n%d %d\n" % slope[:2] + (b"300\n" if magic == b"P2" else b"")
    rows = (samples[y:y + slope.width].decode() for y in range(slope.height))
    return head + b"".join(" ".join(row).encode() + b"\n" for row in rows)


def session(slope: Slope, sides: tuple[int, ...], is_ranked: bool = True) -> tuple[bytes, bytes]:
    """Extrema by squares, and the middle one of three in a row; and what has to be written."""
    script, wanted, ticket = Script(), [b"OK 0\n"], 0
    name = script.load(slope.here())

    def next_reply(file: bytes | None = None) -> None:
        nonlocal ticket
        ticket += 1
        wanted.append(b"OK %d\n" % ticket + (b"IMAGE %d %d\n" % (ticket, len(file)) + file if file else b""))

    for side in sides:
        script.element(f"b{side}", box(side, side))
        next_reply()
        script.run("ERODE", name, f"b{side}")
        next_reply(slope.least(side // 2))
        script.run("DILATE", name, f"b{side}")
        next_reply(slope.greatest(side // 2))
    if is_ranked:
        script.element("line", Element(["111"], 1, 0))
        next_reply()
        script.run("RANK", name, "line", 2)
        next_reply(slope.middle())
    return script.bytes(), b"".join(wanted)


def plain_session() -> tuple[bytes, bytes]:
    """Plain files of a set and of levels, and where the levels are 1 or more."""
    slope, script, wanted = Slope(4096, 4096, 1, 4096), Script(), []
    for ticket, magic in ((0, b"P1"), (1, b"P2")):
        wanted.append(b"OK %d\n" % ticket)
        name = script.load(plain(slope, magic))
        if magic == b"P1":
            script.say(f"FETCH {name}")
            wanted.append(b"IMAGE 0 %d\n" % len(slope.here()) + slope.here())
    script.run("THRESHOLD", name, 1)
    wanted.append(b"OK 2\nIMAGE 2 %d\n" % len(slope.here()) + slope.here())
    return script.bytes(), b"".join(wanted)


SESSIONS = {
    "full_set": lambda: session(Slope(4096, 4096, 1, 4096), (3, 255)),
    "full_wide_set": lambda: session(Slope(8192, 2048, 1, 4096), (15,)),
    "full_bytes": lambda: session(Slope(4096, 4096, 255, 32), (3,), False),
    "full_wide_bytes": lambda: session(Slope(8192, 2048, 255, 40), ()),
    "full_words": lambda: session(Slope(4096, 4096, 65535, 1), (), True),
    "full_wide_words": lambda: session(Slope(8192, 2048, 65535, 6), (15,), False),
    "full_plain": plain_session,
}


def hold() -> None:
    """Stops where the reference model says something else of small slopes."""
    for slope in (Slope(20, 9, 1, 12), Slope(9, 20, 255, 3), Slope(17, 12, 999, 1)):
        given, wanted = session(slope, (3, 5))
        if reference_model.served(given)[0] != wanted:
            raise SystemExit(f"full_sizes.py: the reference model says something else of {slope}")
