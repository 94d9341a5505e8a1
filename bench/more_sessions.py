#!/usr/bin/env python3
"""Sessions for `make costs`, each for a choice that changes no byte of what is written, but what that takes.

    python3 bench/more_sessions.py NAME > session

The same session comes at each call: its pictures are made of Python's generator with a seed that is the session's name.
"""
import random
import sys

SIDE = 384


def picture(chance, maxval, width=SIDE, height=SIDE, low=0, high=None):
    """A raw PGM of levels without a pattern, from `low` up to `high` or the maxval."""
    high = maxval if high is None else high
    levels = [low + (high - low + 1) * chance.getrandbits(20) // (1 << 20) for _ in range(width * height)]
    size = 2 if maxval > 255 else 1
    return b"P5\n%d %d\n%d\n" % (width, height, maxval) + b"".join(level.to_bytes(size, "big") for level in levels)


def ground(chance, maxval, noise):
    """A raw PGM of 16 bits that rises to the right and downwards, with so many levels of noise."""
    slope = [(x + y) * (maxval - noise) // (2 * SIDE) for y in range(SIDE) for x in range(SIDE)]
    levels = [level + noise * chance.getrandbits(16) // (1 << 16) for level in slope]
    return b"P5\n%d %d\n%d\n" % (SIDE, SIDE, maxval) + b"".join(level.to_bytes(2, "big") for level in levels)


def mask(chance, share):
    """A raw PBM, of whose 256 pixels so many are set."""
    rows = bytearray()
    for _ in range(SIDE * SIDE // 8):
        rows.append(sum((chance.getrandbits(8) < share) << bit for bit in range(8)))
    return b"P4\n%d %d\n" % (SIDE, SIDE) + bytes(rows)


def blocks():
    """A raw PBM of two rectangles, of which one takes 100 erosions by a square of three and the other 60."""
    rows = bytearray()
    for y in range(SIDE):
        line = [20 <= x < 220 and 20 <= y < 225 or 240 <= x < 360 and 100 <= y < 370 for x in range(SIDE)]
        rows += bytes(sum(line[8 * place + bit] << (7 - bit) for bit in range(8)) for place in range(SIDE // 8))
    return b"P4\n%d %d\n" % (SIDE, SIDE) + bytes(rows)


def element(name, columns, rows, has=lambda x, y: True):
    """The lines that define an element from its middle: the places from there that `has` takes."""
    across, down = columns // 2, rows // 2
    pixels = "".join("1" if has(x, y) else "0" for y in range(-down, rows - down) for x in range(-across, columns - across))
    bitmap = f"P1\n{columns} {rows}\n{pixels}\n".encode()
    return b"ELEMENT %s %d %d %d\n" % (name.encode(), across, down, len(bitmap)) + bitmap


def square(name, side):
    return element(name, side, side)


def disc(name, side):
    return element(name, side, side, lambda x, y: x * x + y * y <= (side // 2) ** 2)


def load(file):
    return b"LOAD f %d\n" % len(file) + file


def runs(*commands):
    """Commands on what is loaded, each fetched."""
    return b"".join(b"RUN r%d %s\nFETCH r%d\n" % (n, command.encode(), n) for n, command in enumerate(commands))


def set_ranks(chance):
    """Ranks of sets: counted by words, and by levels."""
    elements = square("b", 3) + disc("c", 15) + square("d", 41)
    return load(mask(chance, 128)) + elements + runs("RANK f b 5", "RANK f c 60", "RANK f d 840", "RANK f d 3")


def counted_ranks(chance):
    """Ranks of 16 bits under few offsets: counted bit by bit."""
    cross = element("b", 3, 3, lambda x, y: x == 0 or y == 0)
    return load(ground(chance, 60000, 40)) + cross + disc("c", 9) + runs("RANK f b 3", "RANK f c 20")


def moving_ranks(chance):
    """Ranks of 16 bits under a disc: a moving histogram."""
    return load(ground(chance, 60000, 4000)) + disc("b", 31) + runs("RANK f b 355", "RANK f b 600")


def row_ranks(chance):
    """Ranks of 12 bits under a square: eight rows at a time."""
    return load(ground(chance, 4095, 300)) + square("b", 15) + runs("RANK f b 113", "RANK f b 40")


def numbered_ranks(chance):
    """Ranks of 16 bits without a pattern under a square: eight rows at a time, over the numbers of levels."""
    return load(picture(chance, 65535)) + square("b", 31) + element("c", 45, 25) + runs("RANK f b 480", "RANK f c 700")


def networks(chance):
    """Medians under squares of 3 x 3 and 5 x 5."""
    narrow = picture(chance, 65535, 24, 4000)
    pictures = load(picture(chance, 65535)) + b"LOAD g %d\n" % len(narrow) + narrow
    return pictures + square("b", 3) + square("c", 5) + runs("RANK f b 5", "RANK f c 13", "RANK g b 5", "RANK g c 13")


def many_steps(chance):
    """Plans of 764 and 763 steps."""
    return load(blocks()) + square("b", 3) + runs("SKELETON f b 254", "RESTORE r0 b 254")


def many_runs(chance):
    """Elements of many runs, and the same turned round: a large disc, and rows with gaps."""
    gaps = element("c", 63, 63, lambda x, y: (x * 5 + y * 3) % 7 != 0)
    return load(picture(chance, 255)) + disc("b", 101) + gaps + runs("OPEN f b", "CLOSE f b", "OPEN f c")


def full_table(_chance):
    """65,536 entries, all commands pending; then each second one is cancelled, and at last the one that all others wait for."""
    lines = [b"LOAD f 11\nP2\n1 1\n9\n5\n", element("b", 1, 1), b"RUN n2 ERODE f b\n"]
    lines += [b"RUN n%d ERODE n2 b\n" % n for n in range(3, 65536)]
    lines += [b"CANCEL n%d\n" % n for n in range(3, 65536, 2)]
    lines += [b"CANCEL n2\n", b"STATUS n65535\n"]
    return b"".join(lines)


def long_log(_chance):
    """200,000 calls."""
    return load(b"P2\n1 1\n9\n5\n") + b"STATUS f\nSTATUS x\n" * 100000


def many_tiles(chance):
    """Three commands on a set of 1,024 tiles of 64 columns and rows."""
    side = 2048
    mask_of_tiles = b"P4\n%d %d\n" % (side, side) + chance.getrandbits(side * side).to_bytes(side * side // 8, "big")
    return load(mask_of_tiles) + square("b", 3) + runs("OPEN f b", "CLOSE f b", "GRADIENT f b")


def long_chain(_chance):
    """2,000 commands, of which each reads the one before, on a picture of nine tiles."""
    chance = random.Random("chain")
    lines = [load(picture(chance, 255, 300, 300)), square("b", 3), b"RUN n0 ERODE f b\n"]
    lines += [b"RUN n%d %s n%d b\n" % (n, b"DILATE" if n % 2 else b"ERODE", n - 1) for n in range(1, 2000)]
    return b"".join(lines) + b"FETCH n1999\n"


SESSIONS = {it.__name__: it for it in (set_ranks, counted_ranks, moving_ranks, row_ranks, numbered_ranks, networks, many_steps, many_runs,
                                       full_table, long_log, many_tiles, long_chain)}


def session(name):
    """The bytes of a session."""
    return SESSIONS[name](random.Random(name))


if __name__ == "__main__":
    if len(sys.argv) != 2 or sys.argv[1] not in SESSIONS:
        sys.exit(f"which? {' '.join(SESSIONS)}")
    sys.stdout.buffer.write(session(sys.argv[1]))
