#!/usr/bin/env python3
"""Looks whether all files of the crates are laid out as `rt fmt` lays them out.

    python3 checks/laid_out.py

The gate refuses a crate that is not, but says so at its end. The files are copied, so none is changed here.
"""
import os
import shutil
import subprocess
import sys
import tempfile
from concurrent.futures import ThreadPoolExecutor

ROOT = os.path.dirname(os.path.dirname(os.path.realpath(__file__)))
PARTS = ("src", "specs", "proofs")


def copied(room):
    """Copies the sources of all crates, and gives the names of these."""
    shutil.copyfile(f"{ROOT}/crates.txt", f"{room}/crates.txt")
    names = sorted(os.listdir(f"{ROOT}/crates"))
    for name in names:
        for part in PARTS:
            if os.path.isdir(f"{ROOT}/crates/{name}/{part}"):
                shutil.copytree(f"{ROOT}/crates/{name}/{part}", f"{room}/crates/{name}/{part}")
    return names


def changed(room, name):
    """The files of a crate that are laid out otherwise, as `rt fmt` names them where it lays them out."""
    ran = subprocess.run(["rt", "fmt"], cwd=f"{room}/crates/{name}", capture_output=True, text=True)
    said = ran.stdout + ran.stderr
    if ran.returncode:
        sys.exit(f"{name}: rt fmt ended with {ran.returncode}: {said}")
    return [f"crates/{name}/{line.split()[-1]}" for line in said.splitlines() if line.startswith("rt: formatted ")]


def main():
    with tempfile.TemporaryDirectory() as room, ThreadPoolExecutor(os.cpu_count()) as crew:
        names = copied(room)
        found = sum(crew.map(changed, [room] * len(names), names), [])
    for file in found:
        print(f"{file}: run rt fmt in the crate's folder", file=sys.stderr)
    sys.exit(1 if found else 0)


if __name__ == "__main__":
    main()
