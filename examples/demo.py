#!/usr/bin/env python3
"""The two halves of `make demo`, on the session examples/demo.session: a picture of grains, opened, and the sizes of its grains.

    python3 examples/demo.py trial     builds a trial copy of morphd by `rt try`, which proves nothing, and shows what it writes
    python3 examples/demo.py proved    runs the program that was proved and built, shows what it writes, and compares it with
                                       what the trial copy wrote

Where the proved program is there already, the first half builds nothing.
"""
import argparse
import os
import subprocess
import sys
import time

HERE = os.path.dirname(os.path.abspath(__file__))
ROOT = os.path.dirname(HERE)
CRATE = f"{ROOT}/crates/morphd"
PROGRAM = f"{CRATE}/out/morphd"
SESSION = f"{HERE}/demo.session"
# What the trial copy wrote. Folders of this name are no part of the repository.
KEPT = f"{HERE}/out/trial.replies"
OWN_PICTURE = """the same for a picture of your own, whose grains have level 120 or more, of 255:
    convert mine.png -colorspace Gray -depth 8 mine.pgm
    python3 examples/sizes.py mine.pgm --above 120 > mine.session
    crates/morphd/out/morphd batch < mine.session | python3 examples/curve.py"""


def script(name, given=b"", *words):
    """Runs a script of this folder."""
    sys.stdout.flush()
    subprocess.run([sys.executable, f"{HERE}/{name}", *words], input=given, check=True)


def replies_of(words, folder):
    """What a program writes on the demo's session."""
    with open(SESSION, "rb") as session:
        ran = subprocess.run(words, cwd=folder, stdin=session, capture_output=True)
    if ran.returncode:
        sys.exit(f"{' '.join(words)} ended with {ran.returncode}: {ran.stderr.decode(errors='replace').strip()}")
    return ran.stdout


def show(replies):
    print("the same, opened by a ball five pixels wide:")
    script("show.py", replies, "-")
    print("the grains are the places of level 120 or more; how wide they are:")
    script("curve.py", replies, "--side", "4")


def trial():
    print("a picture of grains:")
    script("show.py", b"", f"{HERE}/grains.pgm")
    if os.path.exists(PROGRAM):
        return
    print("Building a trial copy of morphd, which takes one to two minutes.", flush=True)
    began = time.monotonic()
    replies = replies_of(["rt", "try", "--", "batch"], CRATE)
    show(replies)
    print(f"Shown by a trial build, which proves nothing yet, after {time.monotonic() - began:.0f} seconds.")
    os.makedirs(os.path.dirname(KEPT), exist_ok=True)
    with open(KEPT, "wb") as file:
        file.write(replies)
    print("Now morphd is proved and built. To stop loses nothing: `make morphd` goes on.", flush=True)


def proved():
    replies = replies_of([PROGRAM, "batch"], ROOT)
    show(replies)
    if os.path.exists(KEPT):
        with open(KEPT, "rb") as file:
            is_same = file.read() == replies
        os.remove(KEPT)
        if not is_same:
            sys.exit("the proved program does not write what the trial build wrote")
        print(f"Shown by the proved program, which writes the same {len(replies)} bytes as the trial build.")
    print(OWN_PICTURE)


if __name__ == "__main__":
    HALVES = {"trial": trial, "proved": proved}
    parser = argparse.ArgumentParser(description="The two halves of make demo.")
    parser.add_argument("half", choices=HALVES, help="a trial build, or the program that was proved and built")
    HALVES[parser.parse_args().half]()
