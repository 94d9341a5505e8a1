#!/usr/bin/env python3
"""Measures what a FETCH adds to the greatest resident size of `morphd batch`: pictures of 4096 x 4096 without a pattern, a set
and levels of one and of two bytes, are loaded and opened by 5 x 5, and the result is fetched, or its STATUS asked for in place
of that. An image goes out row by row, so a FETCH may add at most a tenth of what a frame takes in memory, or 1 MiB.

    python3 checks/fetch_memory.py crates/morphd/out/morphd [--tile SIDE ..]
"""
import os
import random
import tempfile

from resident import asked_for, resident

SIDE, ACROSS = 4096, 5
# The header of a picture, how many bytes a row of it has in the file, and how many a sample takes in memory.
KINDS = {
    "set": (b"P4\n%d %d\n" % (SIDE, SIDE), SIDE // 8, 1 / 8),
    "one byte": (b"P5\n%d %d\n255\n" % (SIDE, SIDE), SIDE, 1),
    "two bytes": (b"P5\n%d %d\n65535\n" % (SIDE, SIDE), 2 * SIDE, 2),
}
ASKED = ("STATUS", "FETCH")


def write_session(name, asked, chance):
    head, row, _ = KINDS[name]
    bitmap = b"P1\n%d %d\n" % (ACROSS, ACROSS) + (b"1" * ACROSS + b"\n") * ACROSS
    with open("session", "wb") as file:
        file.write(b"LOAD f %d\n%s" % (len(head) + row * SIDE, head))
        file.writelines(chance.randbytes(row) for _ in range(SIDE))
        file.write(b"ELEMENT b 2 2 %d\n%s" % (len(bitmap), bitmap))
        file.write(b"RUN r OPEN f b\n%s r\n" % asked.encode())


def main():
    (program, tiles), over = asked_for("what a FETCH adds to the resident size"), []
    with tempfile.TemporaryDirectory(dir="/dev/shm") as folder:
        os.chdir(folder)
        print("| opened and fetched | tiles | a frame, MiB | with STATUS | with FETCH |")
        print("|---|---:|---:|---:|---:|")
        for name, (head, row, sample) in KINDS.items():
            sizes = {}
            for asked in ASKED:
                write_session(name, asked, random.Random(1))
                for tile in tiles:
                    sizes[asked, tile] = resident(program, tile)
                    wrote = os.path.getsize("replies")
                    if asked == "FETCH" and wrote < len(head) + row * SIDE:
                        raise SystemExit("%s, tiles of %d: no image was written" % (name, tile))
            frame = sample * SIDE * SIDE / 2**20
            for tile in tiles:
                before, after = (sizes[asked, tile] for asked in ASKED)
                print("| %s | %d | %.0f | %.1f | %.1f |" % (name, tile, frame, before, after))
                if after - before > max(frame / 10, 1):
                    over.append("%s, tiles of %d: %.1f MiB more" % (name, tile, after - before))
    if over:
        raise SystemExit("a FETCH adds over a tenth of a frame, or 1 MiB: " + "; ".join(over))


if __name__ == "__main__":
    main()
