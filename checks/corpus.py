#!/usr/bin/env python3
"""The sessions of checks/corpus: each reached instructions of `morphd batch` that none before it reached. They are replayed on
built programs, and each output is compared, byte for byte, and each exit status, with what the models say (checks/reference_model.py
made quick by checks/quick_model.py): a crash, a session that does not end and another byte are told.

    python3 -B checks/corpus.py PROGRAM [PROGRAM ..]
    python3 -B checks/corpus.py --once PROGRAM [PROGRAM ..]       each session in one way, as on a trial build
    python3 -B checks/corpus.py --found FOLDER PROGRAM ..         the same of the files in a folder
    python3 -B checks/corpus.py --seeds FOLDER                    writes what the search for others begins with
    python3 -B checks/corpus.py --keep FOLDER PROGRAM             keeps the files of a folder in place of those that are kept
    python3 -B checks/corpus.py --test                            replays on stand-ins that go wrong, and sees that each is told

checks/corpus_growth.py looks for more. Its line at the end has the counts; at a difference its status is 1.
"""
import hashlib
import os
import random
import signal
import sys
import tempfile
import time
from concurrent.futures import ProcessPoolExecutor

import quick_model
import random_session
import reference_model
import replay
import stored_sessions
from stored_sessions import Stored

FOLDER = os.path.join(os.path.dirname(os.path.realpath(__file__)), "corpus")
# What may be kept: so many files, of so many bytes in all; and what the models have to say of one within so many seconds.
MOST_FILES, MOST_BYTES, LONG_FOR_MODEL = 300, 300_000, 20
# Seeds: stored sessions and random ones that are no longer, and so many random ones.
LONGEST_SEED, RANDOM_SEEDS = 2500, 120


class TooLong(Exception):
    """The models are too slow with a session."""


def ring(*_):
    raise TooLong


def sessions_of(folder: str) -> dict[str, bytes]:
    """The sessions in the files of a folder, by their names."""
    names = sorted(it for it in os.listdir(folder) if os.path.isfile(f"{folder}/{it}") and it != "README.txt")
    return {name: stored_sessions.read(f"{folder}/{name}") for name in names}


def said_of(name: str, given: bytes) -> Stored | None:
    """What the models say; None where they are too slow."""
    signal.signal(signal.SIGALRM, ring)
    signal.alarm(LONG_FOR_MODEL)
    try:
        output, status, _ = reference_model.served(given)
    except TooLong:
        return None
    finally:
        signal.alarm(0)
    return Stored(name, given, output, status)


def by_models(given: dict[str, bytes]) -> list[Stored | None]:
    with ProcessPoolExecutor(len(os.sched_getaffinity(0)), initializer=quick_model.install) as processes:
        return list(processes.map(said_of, given.keys(), given.values(), chunksize=4))


def faults_of(sessions: list[Stored], programs: list[str], is_once: bool) -> tuple[int, list[str]]:
    """How many replays there were, and what went wrong in them."""
    ways = replay.WAYS[2:3] if is_once else replay.WAYS
    found = [replay.Replay(os.path.abspath(program), way, it) for it in sessions for program in programs for way in ways]
    return len(found), [it.replace("checks/sessions/", "", 1) for it in replay.faults_of(found)]


def replayed(folder: str, programs: list[str], is_once: bool) -> None:
    begun, given = time.monotonic(), sessions_of(folder)
    if not given:
        sys.exit(f"corpus.py: there is nothing in {folder}")
    said = by_models(given)
    sessions = [it for it in said if it]
    slow = len(said) - len(sessions)
    if slow and folder == FOLDER:
        sys.exit(f"corpus.py: of {slow} sessions the models say nothing within {LONG_FOR_MODEL} s")
    count, faults = faults_of(sessions, programs, is_once)
    if faults:
        sys.exit("\n".join([*faults[:replay.MOST_TOLD], f"corpus.py: {len(faults)} of {count} replays differ"]))
    print(f"corpus.py: {len(sessions)} stored sessions of a corpus by {len(programs)} programs: {count} replays wrote what the models say, in "
          f"{time.monotonic() - begun:.0f} s" + (f"; with {slow} more the models are too slow" if slow else ""))


# ---- how it is made


def seeds(folder: str) -> None:
    os.makedirs(folder, exist_ok=True)
    count = 0
    for name in stored_sessions.names():
        given = stored_sessions.stored(name).given if os.path.exists(f"{stored_sessions.FOLDER}/{name}.in") else b""
        given and len(given) <= LONGEST_SEED and stored_sessions.write(f"{folder}/{name}", given)
    for number in range(10 * RANDOM_SEEDS):
        given = random_session.written(random.Random(f"corpus {number}"))
        if len(given) <= LONGEST_SEED and count < RANDOM_SEEDS:
            count += 1
            stored_sessions.write(f"{folder}/random_{number}", given)
    print(f"corpus.py: {len(os.listdir(folder))} seeds are in {folder}")


def keep(folder: str, program: str) -> None:
    """Keeps what no model is slow with and the program answers as they do, the shortest first, as much as may be kept."""
    given = sessions_of(folder)
    short = sorted((it for it in by_models(given) if it), key=lambda it: len(it.given))
    count, faults = faults_of(short, [program], True)
    if faults:
        sys.exit("\n".join([*faults, "corpus.py: nothing is kept while a session differs"]))
    for name in os.listdir(FOLDER):
        os.remove(f"{FOLDER}/{name}")
    size = 0
    for it in short[:MOST_FILES]:
        size += len(it.given)
        if size <= MOST_BYTES:
            stored_sessions.write(f"{FOLDER}/{name_of(it.given)}", it.given)
    print(f"corpus.py: {len(os.listdir(FOLDER))} of {len(given)} sessions are kept")


def name_of(given: bytes) -> str:
    return hashlib.sha256(given).hexdigest()[:12]


# ---- that a fault is told


def fault_of_folder(folder: str) -> str:
    """What is wrong with what is kept; nothing where each file has its name, and there is not too much."""
    kept = sessions_of(folder)
    wrong = [name for name, given in kept.items() if name != name_of(given)]
    size = sum(map(len, kept.values()))
    if wrong:
        return f"{wrong[0]} is not what was kept under this name"
    return f"{len(kept)} files of {size} bytes are too much" if len(kept) > MOST_FILES or size > MOST_BYTES else ""


# A program that writes what the models say, with one fault.
STAND_IN = """#!{python}
import os, sys, time
sys.path.insert(0, {checks!r})
import reference_model
wanted, status, _ = reference_model.served(sys.stdin.buffer.read())
middle, kind = len(wanted) // 2, {kind!r}
sys.stdout.buffer.write({{"turned": wanted[:middle] + bytes([wanted[middle] ^ 1]) + wanted[middle + 1:], "short": wanted[:-1],
                         "long": wanted + b"x"}}.get(kind, wanted))
sys.stdout.flush()
if kind == "dies":
    os.abort()
sys.exit(status ^ 1 if kind == "status" else status)
"""


def test() -> None:
    if fault := fault_of_folder(FOLDER):
        sys.exit(f"corpus.py: {fault}")
    quick_model.install()
    kinds = ("turned", "short", "long", "status", "dies")
    told = [said_of(name, given) for name, given in list(sessions_of(FOLDER).items())[:3]]
    sessions = [it for it in told if it and it.wanted]
    if not sessions:
        sys.exit("corpus.py: no session of the corpus is answered")
    with tempfile.TemporaryDirectory() as folder:
        for kind in ("right", *kinds):
            stored_sessions.write(f"{folder}/{kind}", STAND_IN.format(python=sys.executable, kind=kind, checks=os.path.dirname(FOLDER)).encode())
            os.chmod(f"{folder}/{kind}", 0o755)
            count, faults = faults_of(sessions, [f"{folder}/{kind}"], True)
            if len(faults) != (0 if kind == "right" else count):
                sys.exit(f"corpus.py: of a program that is {kind} it tells {faults}")
        stored_sessions.write(f"{folder}/{name_of(b'QUIT')}", b"QUIT\n")
        if not fault_of_folder(folder):
            sys.exit("corpus.py: a file that was changed is not told")
    print(f"corpus.py: programs of {len(kinds)} faults are told")


def main() -> None:
    words = sys.argv[1:]
    is_once = words[:1] == ["--once"]
    programs = words[is_once:]
    if words == ["--test"]:
        test()
    elif words[:1] == ["--seeds"] and len(words) == 2:
        seeds(words[1])
    elif words[:1] == ["--keep"] and len(words) == 3:
        keep(*words[1:])
    elif words[:1] == ["--found"] and len(words) > 2:
        replayed(words[1], words[2:], True)
    elif programs and not any(it.startswith("-") for it in programs):
        replayed(FOLDER, programs, is_once)
    else:
        sys.exit(__doc__)


if __name__ == "__main__":
    main()
