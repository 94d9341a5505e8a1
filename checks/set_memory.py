#!/usr/bin/env python3
"""Measures the greatest resident size of sessions of `morphd batch` on sets of 4096 x 4096 pixels, which take 2 MiB each as
words of 64 pixels and would take 16 with a byte a pixel: so each session here has to stay under what one plane of bytes takes,
with the program itself.

    python3 checks/set_memory.py crates/morphd/out/morphd [--tile SIDE ..]

The first lines are of each command that sets meet, run on a set without a pattern by one worker. A skeleton and what it is
restored from are levels of one byte, and stand apart with that frame allowed. Behind them stands what a stored set takes: the
difference between sessions of 4 and of 36 loads, for each of the 32.
"""
import os
import random
import tempfile

from resident import asked_for, resident

SIDE = 4096
HEAD = b"P4\n%d %d\n" % (SIDE, SIDE)
FRAME = SIDE * SIDE / 2**20
FEW, MANY = 4, 36
COMMANDS = ("ERODE p b", "DILATE p b", "OPEN p b", "CLOSE p b", "GRADIENT p b", "WTOPHAT p b", "BTOPHAT p b", "RANK p b 5",
            "THRESHOLD p 1", "HITMISS p b g", "SPECTRUM p b 4")
# What these read or make is levels of grey, which have a byte a sample.
OF_LEVELS = ("SKELETON p b 4", "SKELETON p b 4\nRUN q RESTORE r b 4")


def write_set(file, chance):
    file.write(b"%d\n%s" % (len(HEAD) + SIDE * SIDE // 8, HEAD))
    file.writelines(chance.randbytes(SIDE // 8) for _ in range(SIDE))


def write_bitmap(file, name, rows):
    bitmap = b"P1\n3 3\n" + rows
    file.write(b"ELEMENT %s 1 1 %d\n%s" % (name, len(bitmap), bitmap))


def write_command(command):
    """A session that runs a command on a set, with the element b of 3 x 3 pixels, and g of two that b does not have."""
    with open("session", "wb") as file:
        file.write(b"LOAD p ")
        write_set(file, random.Random(1))
        hits = b"000\n111\n000\n" if command.startswith("HITMISS") else b"111\n111\n111\n"
        write_bitmap(file, b"b", hits)
        write_bitmap(file, b"g", b"010\n000\n010\n")
        file.write(b"RUN r %s\nSTATUS r\nFETCH r\n" % command.encode())


def write_loads(count):
    chance = random.Random(1)
    with open("session", "wb") as file:
        for number in range(count):
            file.write(b"LOAD p%d " % number)
            write_set(file, chance)


def refusals():
    """The lines of the replies that are refusals, looked for in the short ones at the front."""
    with open("replies", "rb") as file:
        return [line for line in file.read(200).split(b"\n")[:5] if line.startswith(b"ERR ")]


def measure(program, tile, command, limit):
    """A line of the table; whether the session stayed under the limit, and was refused nothing."""
    write_command(command)
    size = resident(program, tile)
    print("| %s | %d | %.1f | %.0f |" % (command.replace("\n", ", "), tile, size, limit), flush=True)
    if refused := refusals():
        raise SystemExit("%s: %r" % (command, refused))
    return size <= limit


def stored(program):
    """What each further set takes, in MiB."""
    sizes = []
    for count in (FEW, MANY):
        write_loads(count)
        sizes.append(resident(program, SIDE // 4))
    return (sizes[1] - sizes[0]) / (MANY - FEW)


def main():
    (program, tiles), over = asked_for("the greatest resident size of sessions on sets"), []
    with tempfile.TemporaryDirectory(dir="/dev/shm") as folder:
        os.chdir(folder)
        print("| command | tiles | MiB | at most |")
        print("|---|---:|---:|---:|")
        limits = [(it, FRAME) for it in COMMANDS] + [(it, 3 * FRAME) for it in OF_LEVELS]
        for command, limit in limits:
            over += [(command, tile) for tile in tiles if not measure(program, tile, command, limit)]
        each = stored(program)
    print("each stored set: %.2f MiB" % each)
    if each > 2.2:
        over.append(("a stored set takes %.2f MiB" % each, SIDE // 4))
    if over:
        raise SystemExit("too large: " + "; ".join("%s, tiles of %d" % it for it in over))


if __name__ == "__main__":
    main()
