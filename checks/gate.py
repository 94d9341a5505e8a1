#!/usr/bin/env python3
"""The long parts of `make quick` and `make test`.

    python3 checks/gate.py unproved    what takes minutes: replays sessions on a trial build, and tests the Python package over stand-ins
    python3 checks/gate.py proofs      runs `rt ci`, tells how far it is, and ends with its status, or with 1 where a must-fail edit
                                       could not be tried; all that it says is in out/ci.log
    python3 checks/gate.py built       replays the sessions on both proved builds, and runs the Python tests that start the program
    python3 checks/gate.py --test      reads what an `rt` says that proves nothing, and sees what is told of it

How long the rest takes is reckoned by what each proof and each check of tests took on some quiet day (checks/proof_times.txt), by how
fast this machine has been with those that are done, and by the processors that it really had.
"""
import contextlib
import functools
import os
import queue
import re
import shutil
import signal
import subprocess
import sys
import tempfile
import threading
import time
from concurrent.futures import ThreadPoolExecutor

import gate_times
import prove

ROOT = prove.ROOT
LOG = f"{ROOT}/out/ci.log"
# What `rt ci` says of a must-fail edit that no longer compiles, or cannot be applied. It counts that for nothing, and not as failed.
BAD_EDIT = re.compile(r"^.*: BAD EDIT: .*$", re.M)
# Both builds that `rt ci` leaves: LLVM's, and that of Rattle's own compiler.
BUILDS = tuple(f"{ROOT}/crates/morphd/out/morphd{it}" for it in ("", ".by-rattle"))
# What replays sessions on each program that it is given, and says in its last line how many; and the words by which it takes no more
# than a trial build can do in a minute, which is some ten times as slow; None where nothing of it is for a trial build.
REPLAYS = {"replay_stored_run.py": (), "replay.py": ("--once",), "corpus.py": ("--once",), "replay_served.py": None, "fixed_soaks.py": None}
REPLAYED = re.compile(r"(\d+)(?: of \d+)? (?:stored sessions?|cases passed)")
PASSED = re.compile(r"(\d+) passed")
PYTHON = [sys.executable, "-B", f"{ROOT}/checks/python_package.py"]
# The Python tests are run in so many groups of files, side by side with the trial build.
GROUPS = 4
# The processor seconds of an edit, once its crate's first one is tried; that one takes as long as the crate's proof.
SECONDS_AN_EDIT = 40
# So many seconds pass between two lines about what goes on, and before the processors that the run had count.
SECONDS_BETWEEN, SECONDS_TO_SETTLE = 60, 120


# ---- what is replayed and tested


def called(words, **around):
    """Runs a command; its status, and what it says."""
    how = {"stdout": subprocess.PIPE, "stderr": subprocess.STDOUT, "text": True, "errors": "replace", "check": False}
    ran = subprocess.run(words, cwd=ROOT, env={**os.environ, **around}, **how)
    return ran.returncode, ran.stdout


def counted(pattern, said):
    return sum(int(it) for it in pattern.findall(said))


def replayed(programs, is_trial):
    """Replays all sessions on programs: whether all went well, how many they are, and what was said."""
    status, count, told = 0, 0, ""
    for script, words in REPLAYS.items():
        if is_trial and words is None:
            continue
        failed, said = called([sys.executable, "-B", f"{ROOT}/checks/{script}", *((is_trial and words) or ()), *programs])
        status, count, told = status or failed, count + counted(REPLAYED, said), told + said
    return status, count, told


def on_a_trial_build():
    """Replays all sessions on a build that proves nothing. Where a machine has no room for one, they are replayed behind the proofs alone."""
    status, said = called([sys.executable, "-B", f"{ROOT}/checks/trial.py"])
    if status:
        return 0, None, f"{said.strip()}\nSo no session is replayed before the proofs.\n"
    return replayed(said.splitlines()[-1:], True)


def over_stand_ins(files):
    """The Python tests of some files; a program that was built from other files takes no part."""
    status, said = called([*PYTHON, "test", *files], MORPHD=f"{ROOT}/out/none")
    return status, counted(PASSED, said), said


def unproved():
    """What needs no proof, side by side: a session that differs is told before hours of proofs."""
    files = sorted(f"tests/{it}" for it in os.listdir(f"{ROOT}/python/tests") if it.startswith("test_"))
    with ThreadPoolExecutor(max(2, len(os.sched_getaffinity(0)))) as lanes:
        begun = [lanes.submit(on_a_trial_build), *(lanes.submit(over_stand_ins, files[at::GROUPS]) for at in range(GROUPS))]
        counts = []
        for part in begun:
            status, count, said = part.result()
            print(said, end="", flush=True)
            counts.append(count or 0)
            if status or count == 0:
                return status or 1
    print(f"Unproved so far: {counts[0]} sessions and {sum(counts[1:])} tests passed.")
    return 0


def built():
    """Replays the sessions, and runs the Python tests that start the program, over what was proved."""
    status, count, said = replayed(BUILDS, False)
    print(said, end="", flush=True)
    return status or (0 if count else 1) or subprocess.run([*PYTHON, "program"], cwd=ROOT, check=False).returncode


# ---- how far `rt ci` is


PROOF, TESTS, EDITS = gate_times.KINDS
ENDED = re.compile(r"rt: (\w+)(: its tests are)? (proved|NOT PROVED)\b")
KEPT = re.compile(r"rt: (\w+) is kept: ")
BEGUN = re.compile(r"rt: (\w+): trying its must-fail edits \((\d+)\)")
# What each edit came to is said once all is proved, and then what runs.
CAME_TO = re.compile(r"rt: must-fail (\w+)/")
RAN = re.compile(r"rt: \w+(: its tests (passed|FAILED)| ran\b)")


class Progress:
    """What of `rt ci` is done, by what it says, and what the rest takes, by what its processes took."""

    def __init__(self, needs, tested, edits, lanes):
        self.needs, self.lanes = needs, lanes
        self.edits = {it: count for it, count in edits.items() if count}
        # Of these, those that no earlier run tried.
        self.new_edits = dict(self.edits)
        self.timed = {(it, PROOF): self.seconds_of(it, PROOF) for it in needs}
        self.timed |= {(it, TESTS): self.seconds_of(it, TESTS) for it in tested}
        self.timed |= {(it, EDITS): self.seconds_of_edits(it) for it in self.edits}
        self.done, self.new, self.spent, self.tried = set(), set(), {}, {}
        # The crates of which it was said what their edits came to.
        self.settled = set()
        self.took = 0

    def seconds_of(self, name, kind):
        proof, tests = prove.times().get(name, (0, 0))
        return (proof if kind == PROOF else tests) or prove.SECONDS_A_LINE * gate_times.lines_of(name)

    def seconds_of_edits(self, name):
        return self.timed[name, PROOF] + SECONDS_AN_EDIT * (self.new_edits[name] - 1)

    def read(self, line):
        """Takes in what `rt` says; whether it is to be told."""
        if found := ENDED.match(line):
            task = found[1], TESTS if found[2] else PROOF
            self.done.add(task)
            self.new.add(task)
        elif found := KEPT.match(line):
            # Nothing is said of its tests and its edits, where these are kept too. A process tells that they are not.
            self.done |= {(found[1], kind) for kind in gate_times.KINDS}
            return False
        elif found := BEGUN.match(line):
            self.done.discard((found[1], EDITS))
            self.new_edits[found[1]] = int(found[2])
            self.timed[found[1], EDITS] = self.seconds_of_edits(found[1])
        elif found := CAME_TO.match(line):
            self.done.add((found[1], EDITS))
            self.settled.add(found[1])
            return False
        return bool(found or RAN.match(line))

    def look(self, seconds, ended, elapsed):
        """Takes in the seconds of each crate's processes by kind, how many of those for edits ended, and the time that has passed."""
        self.spent = {(name, kind): it for name, kinds in seconds.items() for kind, it in kinds.items()}
        # Of several edits the first process and the last one look at the crate as it is.
        self.tried = {name: count - (self.new_edits.get(name, 0) > 1) for name, count in ended.items()}
        self.done -= {it for it, seconds in self.spent.items() if seconds and it[1] == EDITS and it[0] not in self.settled}
        self.took = elapsed

    def processors(self):
        """How many the run has had, as far as that can be told."""
        if self.took < SECONDS_TO_SETTLE:
            return self.lanes
        return min(self.lanes, max(0.25, sum(self.spent.values()) / self.took))

    def pace(self):
        new = [it for it in self.new if it in self.timed and self.spent.get(it)]
        return prove.pace_of(sum(self.spent[it] for it in new), sum(self.timed[it] for it in new))

    @functools.cache
    def behind(self, name):
        """The timed seconds of the longest chain that waits for a crate's proof."""
        above = [self.timed[it, PROOF] + self.behind(it) for it, needs in self.needs.items() if name in needs]
        return max([*above, *(self.timed.get((name, kind), 0) for kind in (TESTS, EDITS))])

    def seconds_left(self):
        pace = self.pace()
        rest = {it: prove.rest_of(pace * timed, self.spent.get(it, 0)) for it, timed in self.timed.items() if it not in self.done}
        chains = [it + pace * self.behind(name) for (name, kind), it in rest.items() if kind == PROOF]
        return prove.seconds_of(rest.values(), chains, self.processors())

    def counts(self):
        parts = []
        for kind, what in ((PROOF, "crates"), (TESTS, "checks of tests")):
            every = [it for it in self.timed if it[1] == kind]
            parts.append(f"{sum(it in self.done for it in every)} of {len(every)} {what}")
        tried = sum(self.edits_tried(it) for it in self.edits)
        return ", ".join([*parts, f"{tried} of {sum(self.edits.values())} edits"])

    def edits_tried(self, name):
        count, new = self.edits[name], self.new_edits[name]
        return count if (name, EDITS) in self.done else count - new + max(0, min(new, self.tried.get(name, 0)))


class Processes(gate_times.Watch):
    """What the processes of the run took, and how many that tried edits have ended."""

    def __init__(self, top):
        super().__init__(top)
        self.alive = set()

    def ended(self):
        found = {}
        for owner, work in self.kinds.items():
            if work and work[1] == EDITS and not os.path.exists(f"/proc/{owner[0]}"):
                found[work[0]] = found.get(work[0], 0) + 1
        return found


def planned():
    """The work of the gate by the files as they are."""
    needs = prove.needs_by_crate()
    tested = [it for it in needs if any(file.endswith(".rt") and "#[test]" in prove.text(file) for file in prove.sources(it))]
    return Progress(needs, tested, {it: gate_times.edits_of(it) for it in needs}, len(os.sched_getaffinity(0)))


def spoken(run, log):
    """The lines of a run, as they come; None where none came for a second. All of them go into a log."""
    lines = queue.Queue()

    def pass_on():
        for line in run.stdout:
            log.write(line)
            log.flush()
            lines.put(line)
        lines.put("")

    threading.Thread(target=pass_on, daemon=True).start()
    while True:
        try:
            line = lines.get(timeout=1)
        except queue.Empty:
            yield None
            continue
        if not line:
            return
        yield line.rstrip("\n")


def followed(run, progress, log):
    """Tells how far a run is, until it ends."""
    watch, began, last = Processes(run.pid), time.monotonic(), 0
    for line in spoken(run, log):
        now = time.monotonic() - began
        if line is None or now - last > SECONDS_BETWEEN:
            watch.look()
            progress.look(watch.seconds(), watch.ended(), now)
        told = line is not None and progress.read(line)
        if told or now - last > SECONDS_BETWEEN:
            last = now
            what = line.removeprefix("rt: ") if told else ".."
            print(f"[{progress.counts()}] {what}; about {prove.as_time(progress.seconds_left())} to go", flush=True)
    return run.wait()


def stop(run):
    """Ends a run with all that it started. At an interrupt it gives back what it had set aside, else the next run does."""
    for number in (signal.SIGINT, signal.SIGTERM, signal.SIGKILL):
        with contextlib.suppress(ProcessLookupError):
            os.killpg(run.pid, number)
        with contextlib.suppress(subprocess.TimeoutExpired):
            run.wait(timeout=10)
            return


def proofs():
    """Runs `rt ci`; its status."""
    os.chdir(ROOT)
    progress = planned()
    left = prove.as_time(progress.seconds_left())
    print(f"Now the proofs, about {left}, less what this machine keeps of earlier ones; to stop loses nothing that is kept.", flush=True)
    os.makedirs(os.path.dirname(LOG), exist_ok=True)
    how = {"stdin": subprocess.DEVNULL, "stdout": subprocess.PIPE, "stderr": subprocess.STDOUT, "text": True, "errors": "replace"}
    for it in (signal.SIGINT, signal.SIGTERM):
        signal.signal(it, signal.default_int_handler)
    with open(LOG, "w", encoding="utf-8", errors="replace") as log:
        run = subprocess.Popen(["rt", "ci"], start_new_session=True, env=gate_times.one_job_a_check(), **how)
        try:
            status = followed(run, progress, log)
        except KeyboardInterrupt:
            stop(run)
            return 130
    said = prove.text(LOG)
    bad = BAD_EDIT.findall(said)
    status = status or (1 if bad else 0)
    print(said if status else "\n".join(said.splitlines()[-2:]), flush=True)
    print("" if status else "All of it is in out/ci.log.\n", end="")
    print("".join(f"mend this edit, which shows nothing as it is: {it}\n" for it in bad), end="")
    return status


# ---- the test of what is told


CALLED = """#!/bin/sh
echo 'rt: low is kept: an earlier run on this machine proved the same files over the same libraries'
echo '== high'; echo 'logic=proved'
echo 'rt: high proved'
echo 'rt: high_tests proved'
echo 'rt: high: trying its must-fail edits (2)'
echo 'rt: high_tests: its tests are proved' >&2
echo 'rt: must-fail high/one.edit: refused, as it must be'
echo 'rt: high_tests: its tests passed'
echo "$LAST"
exit "$STATUS"
"""
FILES = {
    "crates.txt": "low:\nhigh: low\nhigh_tests: high\n",
    "crates/low/src/lib.rt": "fn one() {}\n",
    "crates/low/must-fail/one.edit": "file: src/lib.rt\n",
    "crates/high/src/lib.rt": "fn two() {}\n",
    "crates/high/must-fail/one.edit": "file: src/lib.rt\n",
    "crates/high/must-fail/two.edit": "file: src/lib.rt\n",
    "crates/high_tests/src/lib.rt": "#[test]\nfn three() {}\n",
    "checks/proof_times.txt": "low 600 0\nhigh 1200 0\nhigh_tests 60 600\n",
    "bin/rt": CALLED,
}
# The lines about what goes on, without the time that is left.
TOLD = [
    "[2 of 3 crates, 0 of 1 checks of tests, 1 of 3 edits] high proved",
    "[3 of 3 crates, 0 of 1 checks of tests, 1 of 3 edits] high_tests proved",
    "[3 of 3 crates, 0 of 1 checks of tests, 1 of 3 edits] high: trying its must-fail edits (2)",
    "[3 of 3 crates, 1 of 1 checks of tests, 1 of 3 edits] high_tests: its tests are proved",
    "[3 of 3 crates, 1 of 1 checks of tests, 3 of 3 edits] high_tests: its tests passed",
]


def test_reader(room, of_rt, status, last):
    """What is told of an `rt` that ends with some status and says this last."""
    around = {**os.environ, "PATH": f"{room}/bin:{os.environ.get('PATH', '')}", "STATUS": str(of_rt), "LAST": last}
    ran = subprocess.run([sys.executable, "-B", f"{room}/checks/gate.py", "proofs"], env=around, capture_output=True, text=True, check=False)
    told = [it.rpartition("; about")[0] for it in ran.stdout.splitlines() if it.startswith("[")]
    if ran.returncode != status or told != TOLD:
        sys.exit(f"gate.py: of an rt that ends with {status} it tells, with status {ran.returncode}: {ran.stdout}{ran.stderr}")
    log = prove.text(f"{room}/out/ci.log")
    if around["LAST"] not in log or (log in ran.stdout) != bool(status) or around["LAST"] not in ran.stdout:
        sys.exit(f"gate.py: of an rt that ends with {status} the log is not shown as it is to be: {ran.stdout}")


def test_reckoning():
    """The rest is reckoned by the work, by the pace of what is done, and by the processors that there were."""
    needs = {"low": [], "high": ["low"]}
    progress = Progress(needs, [], {"low": 1, "high": 0}, 2)
    progress.timed = {("low", PROOF): 1000, ("high", PROOF): 500, ("low", EDITS): 1000}
    left = [progress.seconds_left()]
    progress.read("rt: low proved")
    progress.look({"low": {PROOF: 2000 + prove.SECONDS_TO_TRUST}}, {}, 0)
    left.append(progress.seconds_left())
    progress.look({"low": {PROOF: 2000 + prove.SECONDS_TO_TRUST}}, {}, 4240)
    left.append(progress.seconds_left())
    progress.read("rt: high proved")
    progress.read("rt: low is kept: ")
    left.append(progress.seconds_left())
    progress.look({"low": {PROOF: 2000 + prove.SECONDS_TO_TRUST, EDITS: 500}}, {}, 0)
    left.append(progress.seconds_left())
    progress.read("rt: must-fail low/one.edit: refused, as it must be")
    left.append(progress.seconds_left())
    pace = 2240 / 1120
    wanted = [(1000 + 1000) / 1.5, pace * 1500 / 2, pace * 1500 / 0.5, 0, (pace * 1000 - 500) / 2, 0]
    if [round(it) for it in left] != [round(it) for it in wanted]:
        sys.exit(f"gate.py: the rest is told as {left}, and not {wanted}")


def test():
    with tempfile.TemporaryDirectory() as room:
        for path, text in FILES.items():
            prove.write(f"{room}/{path}", text)
        os.chmod(f"{room}/bin/rt", 0o755)
        for name in ("gate.py", "gate_times.py", "prove.py"):
            shutil.copy(f"{os.path.dirname(os.path.realpath(__file__))}/{name}", f"{room}/checks")
        test_reader(room, 0, 0, "3 passed, 0 failed")
        test_reader(room, 1, 1, "2 passed, 1 failed")
        test_reader(room, 0, 1, "rt: must-fail high/two.edit: BAD EDIT: it did not reach the prover")
    test_reckoning()
    print("what rt ci does is told, and its status and its log are handed on")
    return 0


def main():
    parts = {"unproved": unproved, "proofs": proofs, "built": built, "--test": test}
    if len(sys.argv) != 2 or sys.argv[1] not in parts:
        sys.exit(__doc__)
    sys.exit(parts[sys.argv[1]]())


if __name__ == "__main__":
    main()
