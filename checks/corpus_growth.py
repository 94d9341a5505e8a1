#!/usr/bin/env python3
"""Looks for sessions that reach code of a built morphd which none before reached, and holds each against the models.

    python3 -B checks/corpus_growth.py SEEDS FOUND PROGRAM [SECONDS [SEED]]

It begins with the files in SEEDS (checks/corpus.py --seeds), changes what it kept (checks/corpus_mutator.py), and counts the instructions of
the program that a session reaches, by Debian's callgrind, so any build will do. What reaches new ones is kept in FOUND, which may have
something from before. Each session is also run by itself, and has to end as the models say: a difference is written to FOUND as
`differs-NAME`, and the status is 1. Between two that are counted, TRIED others are only compared, since counting takes a second.
"""
import os
import random
import subprocess
import sys
import tempfile
import time

import corpus
import corpus_mutator
import quick_model
import replay
import stored_sessions

WORDS = ("batch", "--workers", "1", "--tile", "64")
CALLGRIND = ("valgrind", "--tool=callgrind", "--dump-instr=yes", "--compress-pos=no", "--compress-strings=no")
# So many changed sessions are compared for each that is counted, and a session has no more bytes.
TRIED, MOST = 20, 4096
TELLS = 60


class Growth:
    def __init__(self, program, found, seed):
        self.program, self.found, self.chance = os.path.abspath(program), found, random.Random(seed)
        self.reached, self.kept, self.counts = set(), [], {"compared": 0, "counted": 0, "differ": 0, "slow": 0}

    def instructions(self, given):
        """The addresses in the program that a session reaches."""
        with tempfile.NamedTemporaryFile(suffix=".callgrind") as told:
            words = [*CALLGRIND, f"--callgrind-out-file={told.name}", self.program, *WORDS]
            subprocess.run(words, input=given, stdout=subprocess.DEVNULL, stderr=subprocess.DEVNULL, check=False)
            with open(told.name, encoding="utf-8", errors="replace") as rows:
                return self.addresses(rows)

    def addresses(self, rows):
        found, is_own = set(), False
        for row in rows:
            if row.startswith("ob="):
                is_own = row[3:].strip() == self.program
            elif is_own and row.startswith("0x"):
                found.add(row.partition(" ")[0])
        return found

    def is_right(self, given):
        """Whether the program ends a session as the models say; also where they are too slow to say it."""
        said = corpus.said_of(corpus.name_of(given), given)
        if not said:
            self.counts["slow"] += 1
            return True
        self.counts["compared"] += 1
        fault = replay.fault_of(replay.Replay(self.program, WORDS[1:], said))
        if fault:
            self.counts["differ"] += 1
            stored_sessions.write(f"{self.found}/differs-{said.name}", given)
            print(fault, flush=True)
        return not fault

    def take(self, given):
        """Keeps a session that reaches what none before reached."""
        self.counts["counted"] += 1
        new = self.instructions(given) - self.reached
        if new:
            self.reached |= new
            self.kept.append(given)
            stored_sessions.write(f"{self.found}/{corpus.name_of(given)}", given)

    def changed(self, others):
        return bytes(corpus_mutator.fuzz(self.chance.choice(self.kept), self.chance.choice(others), MOST))

    def grow(self, given, seconds):
        """First each session that is given, the short ones first; then changed ones, until the time is over."""
        ends = told = time.monotonic()
        ends += seconds
        left = sorted(given, key=len)
        while time.monotonic() < ends:
            one = left.pop(0) if left else self.changed(given)
            if self.is_right(one):
                self.take(one)
            for _ in range(TRIED if self.kept else 0):
                self.is_right(self.changed(given))
            if time.monotonic() > told + TELLS:
                told = time.monotonic()
                print("  " + self.words(), flush=True)

    def words(self):
        told = ", ".join(f"{count} {word}" for word, count in self.counts.items())
        return f"{told}; {len(self.kept)} kept, which reach {len(self.reached)} instructions"


def main():
    if not 4 <= len(sys.argv) <= 6:
        sys.exit(__doc__)
    seeds, found, program = sys.argv[1:4]
    seconds, seed = float((sys.argv[4:5] or ["3600"])[0]), (sys.argv[5:6] or ["one"])[0]
    quick_model.install()
    corpus_mutator.init(seed)
    os.makedirs(found, exist_ok=True)
    growth = Growth(program, found, seed)
    given = [*corpus.sessions_of(found).values(), *corpus.sessions_of(seeds).values()]
    growth.grow(given, seconds)
    print(f"corpus_growth.py: {growth.words()}")
    sys.exit(bool(growth.counts["differ"]))


if __name__ == "__main__":
    main()
