#!/usr/bin/env python3
"""Runs what checks/soak.py and checks/soak_listen.py run, with seeds that do not change, and sessions at full size, by each of the
built programs that are named: in a minute or two, so the gate makes it.

    python3 -B checks/fixed_soaks.py crates/morphd/out/morphd [PROGRAM..]

Each session of `morphd batch` is held, byte for byte, against the reference model (checks/reference_model.py) or what is known in closed
form (checks/full_size.py, checks/large_forms.py). At a board 64 clients work at once, and each image and curve that comes is held against the plain
definitions. It begins by spoiling what each program writes, and stops where it does not notice that. A program that does
not end is told after LONGEST seconds.
"""
import os
import random
import subprocess
import sys
import time

import full_size
import large_forms
import reference_model
import soak
import soak_listen
from board_knowledge import Differs
from random_session import written
from server import NoAnswer

# Random sessions, chains of commands with cancels, and for how many seconds clients work at a board.
SESSIONS, CHAINS, BOARD = 200, 4, 6
# The sides of tiles and the workers that sessions take by turns.
SIDES, WORKERS = (64, 128, 1024), (1, 2, 4, 7)
# How long a program may take for one session, in seconds.
LONGEST = 120


class Quick(soak_listen.Small):
    """Small images, that the reference model is quick with; some lie over two tiles, and a few over four."""

    def frame(self):
        return super().frame() if self.often(15) else (66, 65)


class Case:
    """A session, what has to be written, and the words of the command line."""

    def __init__(self, name, data, wanted, status, words):
        self.name, self.data, self.wanted, self.status, self.words = name, data, wanted, status, words

    def fault(self, program):
        """How the program differs; nothing where it does not."""
        try:
            made = subprocess.run([program, "batch", *self.words], input=self.data, capture_output=True, timeout=LONGEST)
        except subprocess.TimeoutExpired:
            return "it did not end within %d seconds" % LONGEST
        # What is told of a line that ends a session is not looked at here.
        is_told_of = made.stderr and not (self.status == 1 and made.stderr.startswith(b"error: line "))
        if (made.stdout, made.returncode) == (self.wanted, self.status) and not is_told_of:
            return ""
        at = len(os.path.commonprefix([made.stdout, self.wanted]))
        return "status %d for %d, %r; from byte %d on %r for %r" % (
            made.returncode, self.status, made.stderr[:80], at, made.stdout[at:at + 40], self.wanted[at:at + 40])


def words_of(number):
    return ["--tile", str(SIDES[number % len(SIDES)]), "--workers", str(WORKERS[number % len(WORKERS)])]


def by_the_model(name, data, number):
    wanted, status, _ = reference_model.served(data)
    return Case(name, data, wanted, status, words_of(number))


# ---- chains


class Chain:
    """Commands that read what commands before them make: along a chain, many of one, and some of any. Then cancels, releases and
    looks at all of them, by turns."""

    def __init__(self, chance):
        self.chance, self.count = chance, 0
        self.parts = [b"LOAD f 19\nP2\n5 1\n9\n3 1 4 1 5\nELEMENT b 1 0 11\nP1\n3 1\n111\n"]

    def some(self):
        """One of the last twelve, or any."""
        least = max(self.count - 12, 0) if self.chance.randrange(2) else 0
        return self.chance.randrange(least, self.count)

    def command(self, reads):
        self.parts.append(b"RUN n%d ERODE %s b\n" % (self.count, b"f" if reads is None else b"n%d" % reads))
        self.count += 1

    def look_at_all(self):
        self.parts += [b"STATUS n%d\n" % number for number in range(self.count)]

    def write(self):
        for reads in [None, *range(99), *[50] * 100]:
            self.command(reads)
        self.parts += [b"CANCEL n%d\n" % number for number in (self.count - 1, 90, 50)]
        self.look_at_all()
        for _ in range(10):
            for _ in range(30):
                word, number = self.chance.choice((b"RUN", b"RUN", b"RUN", b"CANCEL", b"RELEASE")), self.some()
                if word == b"RUN":
                    self.command(None if self.chance.randrange(3) == 0 else number)
                else:
                    self.parts.append(b"%s n%d\n" % (word, number))
            self.look_at_all()
        return b"".join(self.parts)


# ---- all cases


def random_cases():
    for number in range(SESSIONS):
        yield by_the_model("random session %d" % number, written(random.Random("fixed %d" % number), Quick), number)


def chain_cases():
    for number in range(CHAINS):
        yield by_the_model("chain %d" % number, Chain(random.Random("chain %d" % number)).write(), number)


def large_cases():
    for name, make, sides in (*full_size.CASES, *large_forms.CASES):
        data, wanted = make()
        for side in sides:
            yield Case("%s, tiles of %d" % (name, side), data, wanted, 0, ["--tile", str(side), "--workers", "2"])


def batch_faults(programs):
    """What the programs do otherwise, and how many sessions each had. A case is made once for all programs."""
    count, faults = 0, []
    for make in (random_cases, chain_cases, large_cases):
        for case in make():
            count += 1
            for program in programs:
                told = case.fault(program)
                if told:
                    faults.append("%s: %s: %s" % (program, case.name, told))
                    print("DIFFERS: " + faults[-1], flush=True)
    return count, faults


def notices(program):
    """Whether spoiled output is noticed: of batch, and of listen."""
    try:
        return soak.notices(program) and soak_listen.notices(program)
    except subprocess.TimeoutExpired:
        return False


def board_fault(program):
    """What is wrong with what clients at a board of the program see; nothing where all is well."""
    play = soak_listen.Soak(program, BOARD, "fixed")
    try:
        play.to_the_end()
    except (Differs, NoAnswer) as fault:
        return "%s: listen: %s" % (program, fault)
    return ""


def main():
    programs = [os.path.abspath(word) for word in sys.argv[1:]]
    if not programs:
        sys.exit(__doc__)
    for program in programs:
        if not notices(program):
            sys.exit("fixed_soaks.py: %s: a spoiled output was not noticed, or a worked session was answered otherwise" % program)
    begun = time.monotonic()
    count, faults = batch_faults(programs)
    for program in programs:
        told = board_fault(program)
        if told:
            faults.append(told)
            print("DIFFERS: " + told, flush=True)
    print("fixed_soaks.py: %d sessions and a board of %d clients by %d programs in %.0f s: %d differ"
          % (count, soak_listen.CONNECTIONS, len(programs), time.monotonic() - begun, len(faults)), flush=True)
    # Clients of a board that failed are not waited for.
    os._exit(1 if faults else 0)


if __name__ == "__main__":
    main()
