#!/usr/bin/env python3
"""What the gate costs: runs `rt ci` and prints, as a Markdown table, the processor seconds of each crate's proof, of its
tests' check and of its must-fail edits, and the totals.

    python3 checks/gate_times.py [--keep FILE]             at the top of the repository; the figures go into FILE too
    python3 checks/gate_times.py --keep FILE --parts CRATE..   the same of `rt ci CRATE..`, joined with what FILE has
    python3 checks/gate_times.py --read FILE               prints the table of figures that were kept
    python3 checks/gate_times.py --read FILE --proofs      writes them into checks/proof_times.txt, for checks/prove.py

`rt ci` prints no times, so the processes that it starts are looked at ten times a second: what runs `rattle` for a crate
in a folder `rt-edit-..` tries an edit, with `--test` it checks tests, and otherwise it proves or compiles the crate. What
the table has beside the crates is `rt` itself, the layout's checks and the runs of programs and tests.

In some kits `rt ci` takes names of crates, and what earlier runs on the same machine proved of the same files, so that such a
crate costs nothing. So the gate's figures come from a machine that has kept nothing, in one run or in parts; of a crate that was
tried in several parts the dearest counts.
"""
import argparse
import json
import os
import re
import subprocess
import sys
import time

import prove

TICKS = os.sysconf("SC_CLK_TCK")
KINDS = ("proof", "tests", "edits")
INTERVAL = 0.1
# The most memory that a check takes, in bytes.
MOST_MEMORY = 4 << 30


def read(path):
    try:
        with open(path, "rb") as file:
            return file.read().decode(errors="replace")
    except OSError:
        return ""


def processes():
    """Of each process its parent, the ticks that it and those of its children that have ended took, and when it began."""
    found = {}
    for name in os.listdir("/proc"):
        # What stands before the last parenthesis is the program's name, which can have blanks.
        fields = read(f"/proc/{name}/stat").rpartition(")")[2].split() if name.isdigit() else []
        if fields:
            found[int(name)] = int(fields[1]), sum(map(int, fields[11:15])), fields[19]
    return found


def crate_and_kind(process):
    """The crate that a process of `rattle` works for and what it does there, or None."""
    words = read(f"/proc/{process}/cmdline").split("\0")
    if "--crate-name" not in words or os.path.basename(words[0]) != "rattle":
        return None
    folder = os.path.basename(os.path.realpath(f"/proc/{process}/cwd"))
    kind = "edits" if folder.startswith("rt-edit-") else "tests" if "--test" in words else "proof"
    return words[words.index("--crate-name") + 1], kind


class Watch:
    """The processes of a run: what each crate's took, by kind."""

    def __init__(self, top):
        self.top, self.kinds, self.ticks = top, {}, {}

    def look(self):
        found = processes()
        now = {}
        for process, (_, ticks, _) in found.items():
            owner = self.owner(process, found)
            if owner:
                now[owner] = now.get(owner, 0) + ticks
        for owner, ticks in now.items():
            self.ticks[owner] = max(ticks, self.ticks.get(owner, 0))

    def owner(self, process, found):
        """The number and the begin of the process below the top that this one is or comes from, if that works for a crate."""
        while process in found and found[process][0] != self.top:
            process = found[process][0]
        if process not in found:
            return None
        owner = process, found[process][2]
        if not self.kinds.get(owner):
            self.kinds[owner] = crate_and_kind(process)
        return owner if self.kinds[owner] else None

    def seconds(self):
        took = {}
        for process, ticks in self.ticks.items():
            crate, kind = self.kinds[process]
            of_crate = took.setdefault(crate, dict.fromkeys(KINDS, 0.0))
            of_crate[kind] += ticks / TICKS
        return took


def listed():
    """The crates of crates.txt in their order, each with its lines and the number of its edits."""
    rows = [row.partition("#")[0].partition(":")[0].split() for row in read("crates.txt").splitlines()]
    return {row[0]: {"lines": lines_of(row[0]), "number": edits_of(row[0])} for row in rows if row}


def lines_of(name):
    files = (os.path.join(at, it) for at, _, names in os.walk(f"crates/{name}") for it in names if "/out" not in at)
    return sum(read(it).count("\n") for it in files if it.endswith((".rt", ".antt")))


def edits_of(name):
    folder = f"crates/{name}/must-fail"
    return len([it for it in os.listdir(folder) if it.endswith(".edit")]) if os.path.isdir(folder) else 0


def one_job_a_check():
    """The environment in which `rt ci` gives each check one job, where memory holds a check on each processor. Else `rt` lends a check
    the processors that no other waits for, and each job more reads the libraries once more."""
    processors = len(os.sched_getaffinity(0))
    has_room = processors * MOST_MEMORY <= prove.free_memory()
    return {**({"RT_JOBS": str(processors)} if has_room else {}), **os.environ}


def run_gate(names):
    """Runs the gate, or the part of it that proves some crates; its output goes on as it is. Returns the figures."""
    crates, began = listed(), time.monotonic()
    run = subprocess.Popen(["rt", "ci", *names], stdout=sys.stderr, env=one_job_a_check())
    watch, ended = Watch(run.pid), 0
    while not ended:
        watch.look()
        time.sleep(INTERVAL)
        ended, status, used = os.wait4(run.pid, os.WNOHANG)
    run.returncode = os.waitstatus_to_exitcode(status)
    for name, took in watch.seconds().items():
        crates[name] |= took
    whole = {"wall": time.monotonic() - began, "processor": used.ru_utime + used.ru_stime}
    return {"crates": crates, **whole, "processors": len(os.sched_getaffinity(0)), "status": run.returncode}


def joined(earlier, figures):
    """The figures of a part of the gate, with those of earlier parts."""
    for name, of_crate in figures["crates"].items():
        before = earlier["crates"].get(name, {})
        for kind in KINDS:
            of_crate[kind] = max(of_crate.get(kind, 0), before.get(kind, 0))
    for whole in ("wall", "processor"):
        figures[whole] += earlier[whole]
    return figures


def table(figures):
    """The figures as Markdown, the dearest crate first."""
    rows = []
    for name, of_crate in figures["crates"].items():
        took = [of_crate.get(kind, 0) for kind in KINDS]
        rows.append((sum(took), name, of_crate["lines"], took, of_crate["number"]))
    rows.sort(key=lambda it: (-it[0], it[1]))
    yield "| crate | lines | proof | tests | edits | sum |"
    yield "|---|---:|---:|---:|---:|---:|"
    for whole, name, lines, (proof, tests, edits), number in rows:
        tried = f"{edits:.0f} ({number})" if number else ""
        yield f"| `{name}` | {lines:,} | {proof:.0f} | {f'{tests:.0f}' if tests else ''} | {tried} | {whole:.0f} |"
    sums = [sum(row[3][at] for row in rows) for at in range(3)]
    rest = figures["processor"] - sum(sums)
    yield f"| all crates | {sum(row[2] for row in rows):,} | {' | '.join(f'{it:.0f}' for it in sums)} | {sum(sums):.0f} |"
    yield f"| beside the crates | | | | | {rest:.0f} |"
    yield ""
    processors = f"on {figures['processors']} processors"
    yield f"{figures['wall'] / 60:.1f} minutes {processors}, {figures['processor'] / 60:.1f} processor minutes in all."


PROOFS = "checks/proof_times.txt"
HEAD = "# Of each crate the processor seconds of its proof and of its tests' check, as checks/gate_times.py --proofs writes them.\n"


def write_proofs(figures):
    rows = [f"{name} {it.get('proof', 0):.0f} {it.get('tests', 0):.0f}\n" for name, it in figures["crates"].items()]
    with open(PROOFS, "w", encoding="utf-8") as file:
        file.write(HEAD + "".join(rows))


def main():
    wanted = argparse.ArgumentParser(description=__doc__.split("\n\n")[0])
    wanted.add_argument("--keep", metavar="FILE", help="where the figures are to be kept")
    wanted.add_argument("--read", metavar="FILE", help="figures that an earlier run kept")
    wanted.add_argument("--parts", metavar="CRATE", nargs="+", default=[], help="crates whose part of the gate is run alone")
    wanted.add_argument("--proofs", action="store_true", help=f"write the seconds of proofs and tests into {PROOFS}")
    wanted = wanted.parse_args()
    figures = json.loads(read(wanted.read)) if wanted.read else run_gate(wanted.parts)
    if wanted.parts and wanted.keep and os.path.isfile(wanted.keep):
        figures = joined(json.loads(read(wanted.keep)), figures)
    if wanted.keep:
        with open(wanted.keep, "w", encoding="utf-8") as file:
            json.dump(figures, file, indent=1)
    if wanted.proofs:
        write_proofs(figures)
    print("\n".join(table(figures)))
    sys.exit(figures["status"])


if __name__ == "__main__":
    main()
