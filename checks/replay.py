#!/usr/bin/env python3
"""Replays the stored sessions of checks/sessions on built programs, by several workers and sides of tiles, and compares each output
byte for byte and each exit status with what is stored (checks/stored_sessions.py says where that comes from).

    python3 -B checks/replay.py PROGRAM [PROGRAM ..]
    python3 -B checks/replay.py --once PROGRAM [PROGRAM ..]      each session in one way, but for those that take long, as on a trial build
    python3 -B checks/replay.py --trial      builds a trial copy of morphd by `rt try`, which proves nothing, and replays on it
    python3 -B checks/replay.py --test       replays on stand-ins that go wrong, and sees that each is told; and what is stored so too

It prints one line with the counts. At a difference it tells each session with its first one, and its status is 1.
"""
import os
import subprocess
import sys
import tempfile
import time
from concurrent.futures import ThreadPoolExecutor
from typing import NamedTuple

import full_sizes
import reached
import stored_sessions
from stored_sessions import Stored, difference

ROOT = os.path.dirname(os.path.dirname(os.path.realpath(__file__)))
# Workers and sides of tiles. The largest pictures are replayed in the first way alone.
WAYS = (("--workers", "4"), ("--workers", "1", "--tile", "64"), ("--workers", "3", "--tile", "64"), ("--workers", "2", "--tile", "1024"))
# How long a program may take for a session, in seconds; and where each is replayed once, behind which it is left out.
LONGEST, LONG_FOR_ONE = 120, 10
# What stands in the place of a fault where a session is left out.
LEFT_OUT = "left out"
# What a trial run may write, in bytes.
MOST_TRIED = 1 << 20
# How many faults are told.
MOST_TOLD = 20


class Replay(NamedTuple):
    """A session to be run by a program in one way."""

    program: str
    way: tuple[str, ...]
    session: Stored
    seconds: int = LONGEST


def fault_of(it: Replay) -> str:
    """What a program does otherwise than is stored; none where it does the same."""
    words = [it.program, "batch", *it.session.words, *it.way]
    try:
        ran = subprocess.run(words, input=it.session.given, capture_output=True, timeout=it.seconds, check=False)
    except subprocess.TimeoutExpired:
        if it.seconds < LONGEST:
            return LEFT_OUT
        fault = f"it had not ended after {LONGEST} s"
    else:
        fault = difference(ran.stdout, it.session.wanted)
        if not fault and ran.returncode != it.session.status:
            fault = f"its status is {ran.returncode}, and has to be {it.session.status}"
        if not fault and ran.stderr and ran.returncode == 0:
            fault = f"it tells of a fault: {ran.stderr[:200]!r}"
    return f"checks/sessions/{it.session.name}, {' '.join(words)}: {fault}" if fault else ""


def replays(programs: list[str], is_once: bool) -> list[Replay]:
    sessions = [stored_sessions.stored(name) for name in stored_sessions.names()]
    ways, seconds = (WAYS[2:3], LONG_FOR_ONE) if is_once else (WAYS, LONGEST)
    return [Replay(program, way, it, seconds) for it in sorted(sessions, key=lambda it: -len(it.wanted)) for program in programs
            for way in (WAYS[:1] if it.name in full_sizes.SESSIONS else ways) if not (is_once and it.name in full_sizes.SESSIONS)]


def faults_of(found: list[Replay]) -> list[str]:
    with ThreadPoolExecutor(os.cpu_count()) as threads:
        return [fault for fault in threads.map(fault_of, found) if fault]


def replay(programs: list[str], is_once: bool) -> None:
    for program in programs:
        if not os.access(program, os.X_OK):
            sys.exit(f"replay.py: {program} is missing: make morphd builds it")
    began, found = time.monotonic(), replays([os.path.abspath(it) for it in programs], is_once)
    told = faults_of(found)
    faults = [it for it in told if it != LEFT_OUT]
    if faults:
        sys.exit("\n".join([*faults[:MOST_TOLD], f"replay.py: {len(faults)} of {len(found)} replays differ"]))
    left = len(told)
    if left * 2 > len(found):
        sys.exit(f"replay.py: {left} of {len(found)} replays took over {LONG_FOR_ONE} s")
    done, seconds = len(found) - left, time.monotonic() - began
    print(f"replay.py: {len({it.session.name for it in found}) - left} stored sessions by {len(programs)} programs: {done} replays wrote what is stored, in "
          f"{seconds:.0f} s" + (f"; {left} that take long are left out" if left else ""))


# ---- by a trial build


def trial() -> None:
    """Replays the stored sessions by a build that checks what it does and proves nothing. A case that writes too much for it is left out, and told."""
    sessions = [stored_sessions.stored(name) for name in stored_sessions.names()]
    small = [it for it in sessions if len(it.wanted) < MOST_TRIED]
    with tempfile.TemporaryDirectory() as folder:
        for it in small:
            for ending, data in (("", it.given), (".stdout", it.wanted), (".args", "\n".join(it.words).encode())):
                with open(f"{folder}/{it.name}{ending}", "wb") as file:
                    file.write(data)
        words = ["rt", "try", "morphd", "--seconds", str(LONGEST), "--cases", folder, "--", "batch", *WAYS[2]]
        ran = subprocess.run(words, cwd=ROOT, stdin=subprocess.DEVNULL, check=False)
    if ran.returncode:
        sys.exit(f"replay.py: a trial build does otherwise: status {ran.returncode}")
    print(f"replay.py: {len(small)} stored sessions by a trial build, and {len(sessions) - len(small)} left out")


# ---- that a fault is told

# A program that writes what is stored, with one fault: it finds the session by what it reads.
STAND_IN = """#!{python}
import os, sys, time
sys.path.insert(0, {checks!r})
import stored_sessions
given = sys.stdin.buffer.read()
session = next(it for it in map(stored_sessions.stored, {names!r}) if it.given == given)
wanted, status, kind = session.wanted, session.status, {kind!r}
middle = len(wanted) // 2
sys.stdout.buffer.write({{"turned": wanted[:middle] + bytes([wanted[middle] ^ 1]) + wanted[middle + 1:], "short": wanted[:-1],
                         "long": wanted + b"x", "nothing": b""}}.get(kind, wanted))
if kind == "tells":
    sys.stderr.write("error: input\\n")
sys.exit(status ^ 1 if kind == "status" else status)
"""


def test() -> None:
    """Stand-ins of which one does what is stored, and the others not."""
    stored_sessions.test()
    reached.test()
    kinds = ("turned", "short", "long", "nothing", "status", "tells")
    sessions = [stored_sessions.stored(name) for name in ("ends_line", "ends_quit")]
    with tempfile.TemporaryDirectory() as folder:
        for kind in ("right", *kinds):
            text = STAND_IN.format(python=sys.executable, checks=os.path.dirname(os.path.realpath(__file__)), kind=kind,
                                   names=[it.name for it in sessions])
            with open(f"{folder}/{kind}", "w", encoding="utf-8") as file:
                file.write(text)
            os.chmod(f"{folder}/{kind}", 0o755)
            faults = faults_of([Replay(f"{folder}/{kind}", WAYS[0], it) for it in sessions])
            # who ends with status 1 may say why
            wrong = [it for it in sessions if kind != "right" and (kind != "tells" or it.status == 0)]
            if len(faults) != len(wrong):
                sys.exit(f"replay.py: of a program that is {kind} it tells {faults}")
    print(f"replay.py: programs of {len(kinds)} faults are told")


def main() -> None:
    words = sys.argv[1:]
    is_once = words[:1] == ["--once"]
    programs = words[is_once:]
    if words in (["--test"], ["--trial"]):
        {"--test": test, "--trial": trial}[words[0]]()
    elif programs and not any(it.startswith("-") for it in programs):
        replay(programs, is_once)
    else:
        sys.exit(__doc__)


if __name__ == "__main__":
    main()
