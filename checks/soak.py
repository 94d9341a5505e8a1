#!/usr/bin/env python3
"""Runs random sessions of all operations by a built morphd, and holds each output, byte for byte, and each exit status
against a reference model (checks/reference_model.py): names, files with and without faults, small images over tiles of three
sides, commands on what earlier commands make, cancels, releases, and sessions that end anywhere.

    python3 checks/soak.py crates/morphd/out/morphd [SECONDS [SEED]]

It goes on for 60 seconds, or for as long as is asked for, and prints what it compared and the greatest resident size of the
program. At a difference it keeps the session in checks/out/, prints where, and ends with status 1. It begins by spoiling
what the program wrote for some sessions, and stops where it does not notice that.

It ends by itself: a session that the program does not end in two minutes is told, with status 1; one that takes the plain
model longer than a minute behind the time that was asked for is left out, and that is told too.
"""
import collections
import os
import pathlib
import random
import resource
import signal
import subprocess
import sys
import time

import reference_model
from random_session import written

HERE = pathlib.Path(__file__).resolve().parent
SIDES = (64, 128, 1024)
# How long the program may take for a session, and the last session behind the time that was asked for, in seconds.
LONGEST, GRACE = 120, 60
# How often it is told how far it is, in seconds.
TELLS = 10


class OutOfTime(Exception):
    """The time that was asked for is over, and the grace too."""


def ring(*_):
    raise OutOfTime


def ran(program, session, side):
    """What the program writes for a session, its exit status, and what it tells of faults."""
    made = subprocess.run([program, "batch", "--tile", str(side)], input=session, capture_output=True, timeout=LONGEST)
    return made.stdout, made.returncode, made.stderr


REASONS = {b"LINE": b"no request", b"LENGTH": b"a payload of more than 134217728 bytes", b"CUT": b"the input ends inside it"}


def told_of(output, status, requests):
    """What is told of a session with this output and status that had so many requests: which request ended it, and why."""
    if status == 0:
        return b""
    word = output.split()[-1]
    hint = b" (a picture, as PGM or PBM, comes behind LOAD)" if word == b"LINE" and requests == 0 else b""
    return b"error: line %d: %s%s\n" % (requests + 1, REASONS[word], hint)


def differs(made, output, status, requests):
    """Whether the program wrote something else than the model, ended otherwise, or told something else of its end."""
    return made != (output, status, told_of(output, status, requests))


def spoiled_outputs(made):
    """What a program with a fault might have written."""
    output, status, _ = made
    middle = len(output) // 2
    return [(output[:middle] + bytes([output[middle] ^ 1]) + output[middle + 1:], status, b""), (output[:-1], status, b""),
            (output + b"\n", status, b""), (output, status ^ 1, b""), (output, status, b"error: input\n")]


# A session with an image, a curve and a refusal, which the model is quick with: the check of the check takes no time.
WORKED = (b"LOAD f 19\nP2\n5 1\n9\n3 1 4 1 5\nELEMENT b 1 0 11\nP1\n3 1\n111\nRUN e ERODE f b\nRUN q SPECTRUM f b 2\n"
          b"FETCH q\nSTATUS z\nFETCH e\n")


def notices(program):
    """Whether each spoiled output of a session is seen to differ, and the output itself is not."""
    output, status, found = reference_model.served(WORKED)
    made = ran(program, WORKED, SIDES[0])
    wanted = (output, status, found["requests"])
    return not differs(made, *wanted) and all(differs(spoiled, *wanted) for spoiled in spoiled_outputs(made))


def keep(session, side, seed, number, made, wanted):
    """Keeps a session that was answered otherwise, with both outputs."""
    folder = HERE / "out"
    folder.mkdir(exist_ok=True)
    path = folder / ("soak.%s.%d.session" % (seed, number))
    path.write_bytes(session)
    path.with_suffix(".found").write_bytes(made[0])
    path.with_suffix(".wanted").write_bytes(wanted[0])
    at = next((k for k, pair in enumerate(zip(made[0], wanted[0])) if pair[0] != pair[1]), min(len(made[0]), len(wanted[0])))
    print("DIFFERS: %s, tiles of %d, from byte %d on: status %d for %d, %r" % (path, side, at, made[1], wanted[1], made[2]))
    print("  found  %r\n  wanted %r" % (made[0][max(at - 40, 0):at + 40], wanted[0][max(at - 40, 0):at + 40]))


class Soak:
    """Sessions one after another, what was counted of them, and what is at work."""

    def __init__(self, program, seed):
        self.program, self.seed, self.number, self.at_work = program, seed, 0, "the reference model"
        self.counts = collections.Counter()

    def one_more(self):
        """Runs and compares the next session."""
        session, side = written(random.Random("%s %d" % (self.seed, self.number))), SIDES[self.number % 3]
        self.at_work = "the reference model"
        output, status, found = reference_model.served(session)
        self.at_work = "the program"
        made = ran(self.program, session, side)
        if differs(made, output, status, found["requests"]):
            keep(session, side, self.seed, self.number, made, (output, status))
            sys.exit(1)
        self.counts.update(found)
        self.number += 1

    def go_on_for(self, seconds):
        """As many sessions as fit."""
        begun = told = time.monotonic()
        while time.monotonic() < begun + seconds:
            self.one_more()
            if time.monotonic() > told + TELLS:
                told = time.monotonic()
                print("  %d sessions after %.0f s" % (self.number, told - begun), flush=True)

    def to_the_end(self, seconds):
        """Goes on for so many seconds, within a time limit of its own."""
        signal.signal(signal.SIGALRM, ring)
        signal.setitimer(signal.ITIMER_REAL, seconds + GRACE)
        try:
            self.go_on_for(seconds)
        except (OutOfTime, subprocess.TimeoutExpired):
            print("  session %d of seed %s took %s too long" % (self.number, self.seed, self.at_work), flush=True)
            if self.at_work == "the program":
                sys.exit(1)
        finally:
            signal.setitimer(signal.ITIMER_REAL, 0)

    def tell(self):
        counts, size = self.counts, resource.getrusage(resource.RUSAGE_CHILDREN).ru_maxrss
        print("%d sessions, %d requests, %d images and %d curves compared; greatest resident size %d kB; seed %s"
              % (self.number, counts["requests"], counts["images"], counts["curves"], size, self.seed))
        print("  " + ", ".join("%s %d" % (word, counts[word]) for word in sorted(counts) if word.isupper()))
        print("  " + ", ".join("%s %d times" % (word, counts[word]) for word in sorted(counts) if word.startswith("refused")))


def main():
    program = os.path.abspath(sys.argv[1])
    seconds = float(sys.argv[2]) if len(sys.argv) > 2 else 60.0
    seed = sys.argv[3] if len(sys.argv) > 3 else "%d" % time.time()
    try:
        if not notices(program):
            sys.exit("soak.py: a spoiled output was not noticed, or a worked session was answered otherwise")
    except subprocess.TimeoutExpired as late:
        sys.exit("soak.py: a worked session did not end: %s" % late)
    print("soak.py: spoiled outputs are noticed; seed %s" % seed, flush=True)
    soak = Soak(program, seed)
    soak.to_the_end(seconds)
    soak.tell()
    if soak.number == 0:
        sys.exit("soak.py: no session was compared")


if __name__ == "__main__":
    main()
