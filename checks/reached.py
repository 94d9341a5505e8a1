#!/usr/bin/env python3
"""Which functions of the built program the stored sessions reach, counted under Debian's valgrind, beside checks/reached.txt.

    python3 -B checks/reached.py PROGRAM           tells what was reached and is no more, and what is new and never reached
    python3 -B checks/reached.py PROGRAM --anew    writes the table
    python3 -B checks/reached.py --test            sees that a function that is no longer reached is told, and a new one

A function is a symbol of the program whose name begins with one of our crates, and whose code is run. Those that the compiler has put
into their callers count with these; generic ones count apart for each type of samples. One line of the table is `+` and a function
that some session reaches, or `-` and one that none reaches. Functions that are gone are passed over: the program may be built otherwise.
"""
import os
import re
import shutil
import subprocess
import sys
import tempfile
from bisect import bisect_left
from collections.abc import Iterable
from concurrent.futures import ThreadPoolExecutor

import full_sizes
import stored_sessions

HERE = os.path.dirname(os.path.realpath(__file__))
TABLE = f"{HERE}/reached.txt"
HEAD = "# The functions of morphd that stored sessions reach (+), and those that none reaches (-). checks/reached.py writes it."
OURS = re.compile(r"(?:mw_|morphd::)")
# The crates in which a new function has to be reached: samples, kernels, tasks and plans. Others have servers, or want of memory.
KERNELS = set("""
mw_pixel_words mw_pixel mw_element_runs mw_element mw_grid mw_tile mw_lane mw_line mw_offset mw_bits_rows mw_bits mw_rank_bits mw_rank mw_rank_medians
mw_rank_counts mw_rank_numbers mw_rank_rows mw_tile_pieces mw_step_task mw_step mw_plan mw_gran mw_tile_slots mw_tile_planes
""".split())
VALGRIND = ("valgrind", "--tool=callgrind", "--compress-strings=no", "--compress-pos=no", "--dump-instr=yes")
WAYS = (("--workers", "3", "--tile", "64"), ("--workers", "1", "--tile", "1024"))


def functions_of(program: str) -> dict[str, range]:
    """The places of the code of each function."""
    listed = subprocess.run(["nm", "--print-size", "--defined-only", program], capture_output=True, text=True, check=True).stdout
    found = (line.split(" ", 3) for line in listed.splitlines() if re.match("[0-9a-f]+ [0-9a-f]+ [tTwW] ", line))
    return {name: range(int(at, 16), int(at, 16) + int(size, 16)) for at, size, _, name in found if OURS.match(name)}


def places_in(told: Iterable[str], program: str) -> set[int]:
    """The places of the program's instructions that were counted."""
    places, is_ours = set(), False
    for line in told:
        if line.startswith("ob="):
            is_ours = line[3:].strip() == program
        elif is_ours and line.startswith("0x"):
            places.add(int(line.partition(" ")[0], 16))
    return places


def reached_by(program: str, given: bytes, way: tuple[str, ...]) -> set[int]:
    """The places of the instructions that a program runs on a session."""
    with tempfile.NamedTemporaryFile("r", encoding="utf-8", errors="replace") as told:
        words = [*VALGRIND, f"--callgrind-out-file={told.name}", program, "batch", *way]
        subprocess.run(words, input=given, stdout=subprocess.DEVNULL, stderr=subprocess.PIPE, check=False)
        return places_in(told, program)


def reached(program: str, functions: dict[str, range]) -> set[str]:
    """The functions that some session reaches. The largest pictures are left out, as they reach nothing more and take long."""
    sessions = [stored_sessions.stored(name) for name in stored_sessions.names() if name not in full_sizes.SESSIONS]
    given = [(it.given, (*it.words, *WAYS[number % len(WAYS)])) for number, it in enumerate(sessions)]
    with ThreadPoolExecutor(os.cpu_count()) as threads:
        places = sorted(set().union(*threads.map(lambda it: reached_by(program, *it), given)))
    return {name for name, code in functions.items() if bisect_left(places, code.start) < bisect_left(places, code.stop)}


def crate_of(name: str) -> str:
    return name.partition("::")[0]


def table() -> dict[str, str]:
    with open(TABLE, encoding="utf-8") as file:
        return {line[2:].rstrip("\n"): line[0] for line in file if line[0] in "+-"}


def faults_of(functions: set[str], found: set[str], kept: dict[str, str]) -> list[str]:
    """What is no longer reached, and what of kernels is not reached and not known to be."""
    beside = sorted(functions - found)
    lost = [f"no session reaches {name} any more" for name in beside if kept.get(name) == "+"]
    return lost + [f"no session reaches {name}, which is new" for name in beside if name not in kept and crate_of(name) in KERNELS]


def write(functions: set[str], found: set[str]) -> None:
    with open(TABLE, "w", encoding="utf-8") as file:
        file.write("\n".join([HEAD, *(f"{'+' if name in found else '-'} {name}" for name in sorted(functions))]) + "\n")


def test() -> None:
    functions, found = {"mw_bits::f", "mw_bits::g", "mw_bits::h", "mw_server_listen::new"}, {"mw_bits::f"}
    cases = (({"mw_bits::f": "+", "mw_bits::g": "+", "mw_bits::h": "-"}, 1), ({"mw_bits::f": "-", "mw_bits::g": "-"}, 1),
             ({"mw_bits::g": "+"}, 2), ({"mw_server_listen::new": "+", "mw_bits::g": "-"}, 2),
             ({"mw_bits::g": "-", "mw_bits::h": "-", "mw_b::gone": "+"}, 0))
    for kept, wanted in cases:
        if len(faults_of(functions, found, kept)) != wanted:
            sys.exit(f"reached.py: of {kept} it tells {faults_of(functions, found, kept)}")
    if not any(kind == "+" for kind in table().values()):
        sys.exit(f"reached.py: {TABLE} has no function that is reached")
    print(f"reached.py: {len(cases)} tables are told from one another")


def main() -> None:
    words = sys.argv[1:]
    if words == ["--test"]:
        return test()
    if not words or words[0].startswith("-") or words[1:] not in ([], ["--anew"]):
        sys.exit(__doc__)
    if not shutil.which("valgrind"):
        print("reached.py: valgrind is missing, so nobody looks which functions the stored sessions reach: install Debian's package valgrind")
        return None
    program = os.path.realpath(words[0])
    code = functions_of(program)
    if not code:
        sys.exit(f"reached.py: {words[0]} has no function of ours")
    functions, found = set(code), reached(program, code)
    if words[1:]:
        write(functions, found)
    faults = faults_of(functions, found, table())
    if faults:
        sys.exit("\n".join(["reached.py:", *faults]))
    print(f"reached.py: stored sessions reach {len(found)} of the {len(functions)} functions of {words[0]}")
    return None


if __name__ == "__main__":
    main()
