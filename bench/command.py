#!/usr/bin/env python3
"""Times whole commands: a session that loads a raw PGM of 4096 x 4096 samples, erodes it by 15 x 15 and fetches the
result, through files and through pipes; what the pipes take by themselves; and ImageMagick's convert on the same image.

    python3 bench/command.py crates/morphd/out/morphd [ROUNDS]

Each line is the best of the rounds, which go over all commands in turn. Files lie in /dev/shm, that is in memory.
"""
import os
import random
import subprocess
import sys
import tempfile
import time

SIDE, ELEMENT = 4096, 15
CONVERT = "/usr/bin/convert"


def main():
    program = os.path.abspath(sys.argv[1])
    rounds = int(sys.argv[2]) if sys.argv[2:] else 7
    with tempfile.TemporaryDirectory(dir="/dev/shm") as folder:
        os.chdir(folder)
        image = b"P5\n%d %d\n255\n" % (SIDE, SIDE) + random.Random(1).randbytes(SIDE * SIDE)
        row = b"1" * ELEMENT + b"\n"
        square = b"P1\n%d %d\n" % (ELEMENT, ELEMENT) + row * ELEMENT
        with open("in.pgm", "wb") as file:
            file.write(image)
        with open("session", "wb") as file:
            file.write(b"LOAD f %d\n%sELEMENT b 7 7 %d\n%sRUN e ERODE f b\nFETCH e\n" % (len(image), image, len(square), square))
        commands = {
            "morphd, files": f"{program} batch < session > replies",
            "morphd, files, large pages": f"GLIBC_TUNABLES=glibc.malloc.hugetlb=1 {program} batch < session > replies",
            "morphd, pipes": f"cat session | {program} batch | cat > /dev/null",
            "load and fetch alone, files": f"{program} batch < copy > replies",
            "cat, files": "cat < session > replies",
            "cat, pipes": "cat session | cat | cat > /dev/null",
            "convert": f"{CONVERT} in.pgm -morphology Erode Square:{ELEMENT // 2} out.pgm",
        }
        with open("copy", "wb") as file:
            file.write(b"LOAD f %d\n%sFETCH f\n" % (len(image), image))
        if not os.path.exists(CONVERT):
            del commands["convert"]
        best = dict.fromkeys(commands, float("inf"))
        for turn in range(rounds):
            for name, command in commands.items():
                if name == "convert" and turn >= 3:
                    continue
                begun = time.perf_counter()
                subprocess.run(command, shell=True, check=True)
                best[name] = min(best[name], time.perf_counter() - begun)
        for name, command in commands.items():
            print("%-28s %8.1f ms   %s" % (name, best[name] * 1000, command.replace(program, "morphd")))
        subprocess.run(commands["morphd, files"], shell=True, check=True)
        if "convert" in commands:
            agree(open("replies", "rb").read(), open("out.pgm", "rb").read())


def agree(replies, converted):
    """Says whether both programs made the same samples."""
    samples = SIDE * SIDE
    print("convert made the same image" if replies[-samples:] == converted[-samples:] else "convert made ANOTHER image")


if __name__ == "__main__":
    main()
