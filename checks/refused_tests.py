#!/usr/bin/env python3
"""Runs tests that make each refused call once more, with each of their allocations refused in turn: each has to pass,
whichever allocation it is. One that does not end is told as such.

    python3 checks/refused_tests.py crates/test_kernels/out/test_kernels_tests [MODULE..]

The program is what `rt test` leaves. Without modules it takes those that are made for it. The library refuse.so is built
from refuse.c.
"""
import itertools
import os
import subprocess
import sys
import tempfile

from refused_memory import built_refuser, counted, refusing

MODULES = {
    "test_kernels_tests": ["files", "makers", "medians", "results", "sharing"],
    "test_core_tests": ["calls", "events", "owners", "results"],
    "test_c_tests": ["direct_memory", "geodesic_memory"],
    "test_pool_tests": ["refused"],
}
SECONDS = 60


def names(program, module):
    """The tests of a module, by their full names."""
    listed = subprocess.run([program, "--list"], capture_output=True, check=True, text=True).stdout.splitlines()
    found = [line.rpartition(": ")[0] for line in listed if line.endswith(": test")]
    return [name for name in found if name.split("::")[0] == module]


def fault(program, name, number, count):
    """What is wrong with a run in which this allocation is refused; nothing where the test passes."""
    try:
        made = subprocess.run([program, name], capture_output=True, env=refusing(number, count), timeout=SECONDS)
    except subprocess.TimeoutExpired:
        return "HANGS: %s, allocation %d: it did not end within %d seconds" % (name, number, SECONDS)
    if made.returncode:
        return "FAILS: %s, allocation %d: %r" % (name, number, made.stdout[-200:] + made.stderr[-200:])
    return ""


def refused(program, name, count):
    """Runs a test with each of its allocations refused: how many there were, and in how many of the runs it failed."""
    bad = last = 0
    for number in itertools.count(0):
        told = fault(program, name, number, count)
        calls, _ = counted(count)
        last = max(last, calls)
        if told:
            bad += 1
            print(told, flush=True)
        if number > last:
            return number - 1, bad


def main():
    program = os.path.abspath(sys.argv[1])
    runs = bad = 0
    built_refuser()
    with tempfile.TemporaryDirectory() as folder:
        for module in sys.argv[2:] or MODULES[os.path.basename(program)]:
            tests = names(program, module)
            if not tests:
                sys.exit("no test of the module " + module)
            for name in tests:
                allocations, failed = refused(program, name, os.path.join(folder, "count"))
                print("%s: %d allocations refused in turn" % (name, allocations))
                runs, bad = runs + allocations, bad + failed
    print("%d allocations refused, %d runs failed" % (runs, bad))
    sys.exit(bad != 0)


if __name__ == "__main__":
    main()
