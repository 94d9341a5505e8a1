#!/usr/bin/env python3
"""Builds a trial copy of morphd, which can be started many times, as out/trial/morphd.

    python3 checks/trial.py     prints its path; where nothing changed since, nothing is built

`rt try` proves nothing. It builds the program with checks for what a proof would rule out, runs it, and keeps no file. So it is asked
for a service, which runs until it is killed, and while that runs, the program from which it was started is copied.
"""
import os
import shutil
import signal
import subprocess
import sys
import tempfile
import time

import prove

ROOT = prove.ROOT
CRATE = "morphd"
FOLDER = f"{ROOT}/out/trial"
PROGRAM, SUM = f"{FOLDER}/{CRATE}", f"{FOLDER}/sum"
SERVICE = ["rt", "try", "--seconds", "60", "--", "serve"]
# All that `rt` says where its build was killed, most likely for memory: then it is tried once more.
KILLED = "run=none proved=no"


def started_from(room):
    """The program in a folder from which a process was started, by itself or by a loader; None where there is none yet."""
    for process in filter(str.isdigit, os.listdir("/proc")):
        try:
            with open(f"/proc/{process}/cmdline", encoding="utf-8", errors="replace") as file:
                words = file.read().split("\0")
        except OSError:
            # It has ended.
            continue
        is_loader = os.path.basename(words[0]).startswith("ld-linux")
        found = [it for it in (words if is_loader else words[:1]) if it.startswith(f"{room}/") and os.access(it, os.X_OK)]
        if found:
            return found[0]
    return None


def copied():
    """Copies the program while `rt try` runs it; whether it came to that, and what `rt` said."""
    with tempfile.TemporaryDirectory(prefix="trial-") as room, open(f"{room}/said", "w+", encoding="utf-8", errors="replace") as said:
        room = os.path.realpath(room)
        how = {"stdin": subprocess.DEVNULL, "stdout": said, "stderr": subprocess.STDOUT}
        run = subprocess.Popen(SERVICE, cwd=f"{ROOT}/crates/{CRATE}", env={**os.environ, "TMPDIR": room}, **how)
        try:
            while not (found := started_from(room)) and run.poll() is None:
                time.sleep(0.2)
            if found:
                os.makedirs(FOLDER, exist_ok=True)
                shutil.copyfile(found, f"{PROGRAM}.new")
        finally:
            if run.poll() is None:
                run.send_signal(signal.SIGTERM)
            run.wait()
        said.seek(0)
        return bool(found), said.read()


def build():
    """Builds the copy; ends where `rt try` does not come to run it."""
    is_copied, said = copied()
    if not is_copied and said.strip() == KILLED:
        is_copied, said = copied()
    if not is_copied:
        sys.exit(f"rt try built no morphd that runs: {said}")
    os.chmod(f"{PROGRAM}.new", 0o755)
    os.replace(f"{PROGRAM}.new", PROGRAM)


def built():
    """The path of a trial copy of morphd as it is now."""
    names = sorted({CRATE, *prove.all_below(CRATE, prove.needs_by_crate())})
    head = (prove.kit(), *prove.rows_of(names))
    total = prove.sum_of([path for name in names for path in sorted(prove.sources(name))], head)
    if not os.path.isfile(PROGRAM) or prove.text(SUM) != total:
        build()
        with open(SUM, "w", encoding="utf-8") as file:
            file.write(total)
    return PROGRAM


if __name__ == "__main__":
    print(built())
