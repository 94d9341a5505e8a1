#!/usr/bin/env python3
"""Counts the instructions of each workload of bench/workloads.txt and bench/more_workloads.txt, and compares them with those that
bench/costs.txt and bench/more_costs.txt keep.

    python3 checks/costs.py [--only NAME] [--anew]
    python3 checks/costs.py --test

It prints both, and its status is 1 where a workload takes over 2 of 100 more than what is kept; where one takes over 2 of 100
less, it says that the table is to be taken anew. --anew does that, of both tables. --test looks, without a count, whether a table of
which one figure is turned by 3 of 100 is found out.

The first list has the jobs that users wait for. The second has a workload for each choice of a way that changes no result: which
kernel makes a rank, what is looked at where a task ends, how a table grows. Its sessions are made by bench/more_sessions.py.

The workloads are run by the proved programs (`checks/prove.py bench_sessions morphd`) with the number 1 for SEED, under Debian's
valgrind, side by side. Those of the library are run by bench/library_costs.c over out/libmorphd.so, in its build for x86-64-v2, and left
out where it is not linked (`make library`). A count is the same at each run, on a busy machine as on a quiet one. The C library picks
its copies and fills by the processor that it finds, and by the size of its caches, so it is told which to take: those without AVX. A
change of the compiler, of the C library or of valgrind may change all counts.
"""
import argparse
import contextlib
import io
import os
import re
import shutil
import subprocess
import sys
import tempfile
from concurrent.futures import ThreadPoolExecutor
from typing import NamedTuple

ROOT = os.path.dirname(os.path.dirname(os.path.realpath(__file__)))
sys.path.append(f"{ROOT}/bench")

import more_sessions  # noqa: E402

BENCH = f"{ROOT}/bench"
# Each list of workloads, and the table of what is kept of them.
LISTS = ((f"{BENCH}/workloads.txt", f"{BENCH}/costs.txt"), (f"{BENCH}/more_workloads.txt", f"{BENCH}/more_costs.txt"))
LIBRARY = f"{ROOT}/out/libmorphd.so"
VALGRIND = ("valgrind", "--tool=callgrind")
# Of the C library: no vectors of 32 bytes, no copies or fills by one instruction, of the others those for any place in memory,
# and one size from which on these pass by the caches. What x86-64-v2 has must stay, or the programs refuse to run. A program
# is given no other words of the environment, which it would look through.
ENVIRONMENT = {
    "PATH": os.environ.get("PATH", os.defpath),
    "GLIBC_TUNABLES": "glibc.cpu.hwcaps=-AVX2,-AVX_Fast_Unaligned_Load,-ERMS,Fast_Unaligned_Copy"
                      ":glibc.cpu.x86_non_temporal_threshold=0xc0000",
}
# Of the library: its build that every processor takes.
BUILD = {"MORPHD_CPU": "v2"}
SEED = "1"
# A rise or a fall is told from here on, in parts of 100.
TOLD = 2


class Workload(NamedTuple):
    """A name, a crate or `library`, the words of its program, and what this reads, if anything."""

    name: str
    crate: str
    words: list[str]
    given: str | None


def workloads(path):
    """The workloads of a list."""
    found = []
    with open(path, encoding="utf-8") as file:
        for name, crate, *words in (row.split() for row in file if row.strip()):
            given = words.pop()[1:] if words and words[-1].startswith("<") else None
            found.append(Workload(name, crate, [SEED if it == "SEED" else it for it in words], given))
    return found


def can_be_counted(workload):
    return workload.crate != "library" or os.path.isfile(LIBRARY)


def program_of(workload, folder):
    """The program that runs a workload."""
    if workload.crate == "library":
        return f"{folder}/library_costs"
    return f"{ROOT}/crates/{workload.crate}/out/{workload.crate}"


def prepare(rows, folder):
    """Puts the sessions into a folder, and the program that calls the library."""
    for row in rows:
        if row.given == "SESSION":
            with open(f"{folder}/{row.name}", "wb") as file:
                file.write(more_sessions.session(row.name))
    if any(row.crate == "library" for row in rows):
        subprocess.run(["cc", "-O1", f"-I{ROOT}/include", f"{BENCH}/library_costs.c", LIBRARY, f"-Wl,-rpath,{ROOT}/out", "-o",
                        f"{folder}/library_costs"], check=True)


def counted(workload, folder):
    """The instructions that a workload takes."""
    program = program_of(workload, folder)
    if not os.path.isfile(program):
        sys.exit(f"{program} is missing: python3 checks/prove.py {workload.crate}")
    given = f"{folder}/{workload.name}" if workload.given == "SESSION" else os.path.join(BENCH, workload.given or os.devnull)
    around = ENVIRONMENT | BUILD if workload.crate == "library" else ENVIRONMENT
    with open(given, "rb") as stdin, tempfile.NamedTemporaryFile("r", encoding="utf-8") as told:
        ran = subprocess.run([*VALGRIND, f"--callgrind-out-file={told.name}", program, *workload.words], cwd=BENCH,
                             env=around, stdin=stdin, stdout=subprocess.DEVNULL, stderr=subprocess.PIPE, check=False)
        found = re.search(r"^summary: (\d+)", told.read(), re.MULTILINE)
    if ran.returncode or not found:
        said = ran.stderr.decode(errors="replace")
        sys.exit(f"{program} {' '.join(workload.words)} ended with status {ran.returncode}: {said}")
    return int(found[1])


def read(path):
    """The lines at the head of a table, and the count of each workload."""
    with open(path, encoding="utf-8") as file:
        lines = file.read().splitlines()
    rows = (it.split() for it in lines if it and not it.startswith("#"))
    return [it for it in lines if it.startswith("#")], {name: int(count) for name, count in rows}


def write(path, head, counts):
    with open(path, "w", encoding="utf-8") as file:
        file.writelines(f"{line}\n" for line in head)
        file.writelines(f"{name} {count}\n" for name, count in counts.items())


def fault(name, before, after):
    """What is to be said of a workload's two counts, and whether it fails the check; None stands for no count."""
    if None in (before, after):
        return f"{name} has no count {'in the table' if before is None else 'now'}: take the table anew", True
    if 100 * after > (100 + TOLD) * before:
        return f"{name} takes {100 * (after / before - 1):.1f} of 100 more", True
    if 100 * after < (100 - TOLD) * before:
        return f"{name} takes {100 * (1 - after / before):.1f} of 100 less: take the table anew", False
    return "", False


def compare(kept, now):
    """Prints both tables, and tells whether no workload takes more than it may."""
    print("| workload | instructions kept | now | now over kept |\n|---|---:|---:|---:|")
    said, is_well = [], True
    for name in dict.fromkeys([*kept, *now]):
        before, after = kept.get(name), now.get(name)
        ratio = f"{after / before:.4f}" if before and after else ""
        print(f"| {name} | {before or 0:,} | {after or 0:,} | {ratio} |")
        words, fails = fault(name, before, after)
        said += [words] if words else []
        is_well = is_well and not fails
    print("\n".join(said or [f"no workload takes over {TOLD} of 100 more or less"]))
    return is_well


def answer(kept, now):
    """What a comparison tells, and what it prints."""
    with contextlib.redirect_stdout(io.StringIO()) as printed:
        is_well = compare(kept, now)
    return is_well, printed.getvalue()


def test_list(listed, table):
    """Turns each figure of a table in turn, in a copy of it, and looks what is told of the others."""
    head, kept = read(table)
    now = {row.name: kept.get(row.name, 10**9) for row in workloads(listed)}
    if len(now) < len(workloads(listed)):
        sys.exit(f"{listed} has one name twice")
    with tempfile.TemporaryDirectory() as folder:
        for name, count in now.items():
            for parts, is_well, words in ((-3, False, "more"), (-1, True, "no workload"), (3, True, "less")):
                spoiled = f"{folder}/costs.txt"
                write(spoiled, head, {**now, name: count + count * parts // 100})
                told, printed = answer(read(spoiled)[1], now)
                if told != is_well or words not in printed.splitlines()[-1]:
                    sys.exit(f"a table with {parts} of 100 of {name} is answered {told}: {printed}")
        without = {name: count for name, count in now.items() if name != next(iter(now))}
        if answer(without, now)[0] or answer(now, without)[0]:
            sys.exit("a table without a workload is taken")


def test():
    for listed, table in LISTS:
        test_list(listed, table)
    given = {row.name for _, rows, _ in chosen(None) for row in rows if row.given == "SESSION"}
    if given != set(more_sessions.SESSIONS):
        sys.exit(f"of workloads and sessions only one has {given ^ set(more_sessions.SESSIONS)}")
    print("a table of which a figure is turned is found out")


def chosen(name):
    """Of each table its path, the workloads of this name, or all, and what is kept of them."""
    for listed, table in LISTS:
        rows = [row for row in workloads(listed) if name in (None, row.name)]
        kept = {key: count for key, count in read(table)[1].items() if name in (None, key)}
        yield table, rows, kept


def all_counted(rows, kept):
    """The count of each workload, those first that took longest."""
    first = sorted(rows, key=lambda row: -kept.get(row.name, 0))
    with tempfile.TemporaryDirectory() as folder, ThreadPoolExecutor(len(os.sched_getaffinity(0))) as crew:
        prepare(rows, folder)
        return dict(zip((row.name for row in first), crew.map(lambda row: counted(row, folder), first)))


def take(tables):
    """Keeps the counts; those that were kept of what is not counted here stay."""
    for table, rows, now in tables:
        head, kept = read(table)
        write(table, head, {row.name: count for row in rows if (count := now.get(row.name, kept.get(row.name))) is not None})


def main():
    words = argparse.ArgumentParser(description="counts the instructions of the workloads, and compares them with those kept")
    words.add_argument("--only", help="one workload")
    words.add_argument("--anew", action="store_true", help="keep what is counted")
    words.add_argument("--test", action="store_true", help="look whether a table that is spoiled is found out")
    given = words.parse_args()
    if given.test:
        return test()
    if not shutil.which("valgrind"):
        sys.exit("valgrind is missing: install Debian's package valgrind")
    tables = list(chosen(given.only))
    every = [row for _, rows, _ in tables for row in rows]
    if not every or given.only and given.anew:
        words.error("--only wants the name of a workload, and --anew all of them")
    now = all_counted([row for row in every if can_be_counted(row)], {key: it for _, _, kept in tables for key, it in kept.items()})
    left_out = [row.name for row in every if not can_be_counted(row)]
    is_well = compare({key: it for _, _, kept in tables for key, it in kept.items() if key not in left_out}, now)
    if left_out:
        print(f"not counted, as out/libmorphd.so is not linked (make library): {' '.join(left_out)}")
    if given.anew:
        take((table, rows, now) for table, rows, _ in tables)
    elif not is_well:
        sys.exit(1)


if __name__ == "__main__":
    main()
