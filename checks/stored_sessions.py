#!/usr/bin/env python3
"""The stored sessions of checks/sessions: what `morphd batch` reads (NAME.in) and what it must write (NAME.out), with its status
where that is not 0 (NAME.status) and words of the command line (NAME.args). The largest are packed (NAME.in.xz). checks/replay.py
holds programs against them.

    python3 -B checks/stored_sessions.py           compares each stored output with what the models say
    python3 -B checks/stored_sessions.py --make    writes anew those that checks/session_kinds.py has
    python3 -B checks/stored_sessions.py --test    spoils copies of outputs, and sees that each is told

No program has a part in what is stored: sessions are written by checks/session_kinds.py, and what is expected of them is what
checks/reference_model.py says, which goes pixel by pixel after the documents. Of pictures up to the limit checks/full_sizes.py says it.
"""
import lzma
import os
import sys
from concurrent.futures import ProcessPoolExecutor
from typing import NamedTuple

import full_sizes
import reference_model
import quick_model
import session_kinds

FOLDER = os.path.join(os.path.dirname(os.path.realpath(__file__)), "sessions")
# From how many bytes on a file is packed, and how.
PACKED = 1 << 20
PACKING = [{"id": lzma.FILTER_LZMA2, "preset": 1, "nice_len": 273, "depth": 200}]


class Stored(NamedTuple):
    """A session: its name, what is read, what has to be written, the status at its end, and words behind `batch`."""

    name: str
    given: bytes
    wanted: bytes
    status: int = 0
    words: tuple[str, ...] = ()


def read(path: str) -> bytes:
    if os.path.exists(path):
        with open(path, "rb") as file:
            return file.read()
    with lzma.open(f"{path}.xz") as packed:
        return packed.read()


def write(path: str, data: bytes) -> None:
    if len(data) < PACKED:
        with open(path, "wb") as file:
            file.write(data)
    else:
        with lzma.open(f"{path}.xz", "wb", filters=PACKING) as packed:
            packed.write(data)


def names(folder: str = FOLDER) -> list[str]:
    return sorted(it.partition(".")[0] for it in os.listdir(folder) if ".in" in it)


def stored(name: str, folder: str = FOLDER) -> Stored:
    at = f"{folder}/{name}"
    status = int(read(f"{at}.status")) if os.path.exists(f"{at}.status") else 0
    words = tuple(read(f"{at}.args").decode().split()) if os.path.exists(f"{at}.args") else ()
    return Stored(name, read(f"{at}.in"), read(f"{at}.out"), status, words)


def keep(session: Stored, folder: str = FOLDER) -> None:
    at = f"{folder}/{session.name}"
    write(f"{at}.in", session.given)
    write(f"{at}.out", session.wanted)
    if session.status:
        write(f"{at}.status", b"%d\n" % session.status)
    if session.words:
        write(f"{at}.args", "\n".join([*session.words, ""]).encode())


def difference(found: bytes, wanted: bytes) -> str:
    """Where two outputs part, in few words; none where they are the same."""
    if found == wanted:
        return ""
    at = next((k for k, pair in enumerate(zip(found, wanted)) if pair[0] != pair[1]), min(len(found), len(wanted)))
    return f"from byte {at} on: {found[at:at + 20]!r} in the place of {wanted[at:at + 20]!r}"


# ---- what the models say


def said(name: str, given: bytes) -> Stored:
    """What has to be written on a session of small pictures. With `--strict` a refusal that a session goes on after is told by 3."""
    output, status, counts = reference_model.served(given)
    words = ("--strict",) if name.startswith("strict") else ()
    is_refused = any(word.startswith("refused") for word in counts)
    return Stored(name, given, output, 3 if words and is_refused and status == 0 else status, words)


def written(name: str) -> Stored:
    """A session as it is written anew."""
    if name in full_sizes.SESSIONS:
        return Stored(name, *full_sizes.SESSIONS[name]())
    return said(name, dict(session_kinds.kinds())[name]())


def fault_of(session: Stored) -> str:
    """What is wrong with a stored session; none where the models say what is stored."""
    wanted = written(session.name) if session.name in full_sizes.SESSIONS else said(session.name, session.given)
    if (session.given, session.words) != (wanted.given, wanted.words):
        return "it reads something else, or has other words, than it is written with"
    if session.status != wanted.status:
        return f"its status is {session.status}, and has to be {wanted.status}"
    return difference(session.wanted, wanted.wanted)


def told_of(name: str) -> tuple[str, str]:
    return name, fault_of(stored(name))


# ---- by all processors


def begin() -> None:
    quick_model.install()


def by_all(work, given):
    with ProcessPoolExecutor(os.cpu_count(), initializer=begin) as processes:
        yield from processes.map(work, given)


def make() -> None:
    wanted = [*(name for name, _ in session_kinds.kinds()), *full_sizes.SESSIONS]
    if len(set(wanted)) < len(wanted):
        sys.exit("stored_sessions.py: two sessions have one name")
    for name in os.listdir(FOLDER):
        if name.partition(".")[0] in wanted:
            os.remove(f"{FOLDER}/{name}")
    for session in by_all(written, wanted):
        keep(session)
    tell("are there")


def compare() -> None:
    faults = [f"checks/sessions/{name}: {fault}" for name, fault in by_all(told_of, names()) if fault]
    if faults:
        sys.exit("\n".join(faults))
    tell("hold what the models say")


def tell(what: str) -> None:
    size = sum(os.path.getsize(f"{FOLDER}/{it}") for it in os.listdir(FOLDER))
    print(f"stored_sessions.py: {len(names())} sessions of {size:,} bytes {what}")


def test() -> None:
    """Of one small session each byte in turn is turned, and others are cut, longer or of another status."""
    begin()
    quick_model.hold()
    full_sizes.hold()
    small = stored("ends_quit")
    spoiled = [small._replace(wanted=small.wanted[:at] + bytes([small.wanted[at] ^ 1]) + small.wanted[at + 1:])
               for at in range(len(small.wanted))]
    for name in ("ends_line", "files", "hits_set"):
        one = stored(name)
        middle = len(one.wanted) // 2
        turned = one.wanted[:middle] + bytes([one.wanted[middle] ^ 128]) + one.wanted[middle + 1:]
        spoiled += [one._replace(wanted=turned), one._replace(wanted=one.wanted[:-1]), one._replace(wanted=one.wanted + b"\n"),
                    one._replace(status=one.status ^ 1)]
        if fault_of(one):
            sys.exit(f"stored_sessions.py: {name} is told to be wrong: {fault_of(one)}")
    if not all(map(fault_of, spoiled)):
        sys.exit("stored_sessions.py: a spoiled output is not told")
    print(f"stored_sessions.py: {len(spoiled)} spoiled outputs are told")


def main() -> None:
    words = sys.argv[1:]
    if words not in ([], ["--make"], ["--test"]):
        sys.exit(__doc__)
    {"--make": make, "--test": test}.get(words[0] if words else "", compare)()


if __name__ == "__main__":
    main()
