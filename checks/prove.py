#!/usr/bin/env python3
"""Proves and builds crates, and all that they need, as wide as the machine allows.

    python3 checks/prove.py [--jobs N] CRATE..

A library is proved and built; a program is built and runs once, on its files `args` and `stdin`; the tests of a crate of
tests are proved and run. A library for C is also built for other processors, as `out/libNAME.CPU.a`: a proof knows of none, so the
second build takes what the first one has kept of it. It prints how many crates are done, which run, and about how long the rest will
take: by what each crate took when the gate was timed (checks/proof_times.txt), by how fast this machine has been so far, and by the
longest chain.

`rt` locks a crate and all crates below it for as long as it works. So each crate is proved in a folder of its own, with
copies of its sources, with links to what was proved of the crates below it, and with the crate's own `out/`, which goes
there and comes back. `rt` in the repository waits meanwhile. What earlier checks left in `out/` is used again.

Of a program, or of a library for C, `out/proved` keeps a sum of all that was read for it and of what was built. Where the sum
is still the same, nothing is run: that takes a second. Tests are run each time. Of each crate `out/read` keeps the sum of what
was read when it was last done: where that is still the same, `rt` needs seconds, and so the rest is told.

    python3 checks/prove.py --test     changes a small repository in many ways, and sees when `rt` is called again
"""
import argparse
import fcntl
import functools
import hashlib
import os
import re
import shutil
import signal
import subprocess
import sys
import tempfile
import time

ROOT = os.path.dirname(os.path.dirname(os.path.realpath(__file__)))
PARTS = ("src", "specs", "proofs")
RUN_ON = ("args", "stdin", "status")
# Of what `rt` leaves in out/: what only a later check reads; and what is kept here beside it.
CHECKED, SUM, READ = "incremental", "proved", "read"
# Of each crate the processor seconds of its proof and of its tests' check on some quiet day (checks/gate_times.py writes them).
TIMES = "checks/proof_times.txt"
# Of a crate that is not timed yet: processor seconds for a line of code or of proofs.
SECONDS_A_LINE = 0.08
# Of a crate that is as it was when it was last done.
SECONDS_AS_IT_WAS = 4
# The seconds of timed work after which this machine's own pace counts as much as that of the timed one.
SECONDS_TO_TRUST = 120
MOST_JOBS = 4
# What a library for C is built for besides the processors that `rt` builds for by itself.
MORE_CPUS = ("x86-64-v3",)


def needs_by_crate(root=ROOT):
    """Of each crate that crates.txt lists, the crates of the repository that it stands on."""
    rows = {}
    with open(f"{root}/crates.txt", encoding="utf-8") as file:
        for line in file:
            # Behind a crate's name may stand what its verdict may have, as may_wait=15.
            name, _, needs = line.partition("#")[0].partition(":")
            if name.strip():
                rows[name.split()[0]] = needs.split()
    return {name: [it for it in needs if it in rows] for name, needs in rows.items()}


def rows_of(names):
    """The lines of crates.txt that list these crates."""
    with open(f"{ROOT}/crates.txt", encoding="utf-8") as file:
        return [it for it in file if it.partition(":")[0].split()[:1] and it.split(":")[0].split()[0] in names]


def all_below(name, needs):
    """The crates that a crate stands on, at any depth."""
    found = set()
    for below in needs[name]:
        found |= {below} | all_below(below, needs)
    return found


def sources(name):
    for part in PARTS:
        for folder, _, files in os.walk(f"{ROOT}/crates/{name}/{part}"):
            yield from (f"{folder}/{file}" for file in files)


def text(path):
    if not os.path.isfile(path):
        return ""
    with open(path, encoding="utf-8", errors="replace") as file:
        return file.read()


def sum_of(paths, head=()):
    """A sum of files, with their names, and of some words before them."""
    total = hashlib.sha256(repr(head).encode())
    for path in paths:
        if os.path.isfile(path):
            with open(path, "rb") as file:
                data = file.read()
            total.update(f"{os.path.relpath(path, ROOT)} {len(data)}\n".encode() + data)
    return total.hexdigest()


def built(folder):
    """The files that `rt` left in a folder, but for those that only a later check reads."""
    for at, inner, names in os.walk(folder):
        inner[:] = sorted(it for it in inner if it != CHECKED)
        yield from (f"{at}/{it}" for it in sorted(names) if it not in (SUM, READ))


@functools.cache
def kit():
    """The kit that proves and builds."""
    return subprocess.run(["rt", "version"], check=True, capture_output=True, text=True).stdout.strip()


def logic():
    """What the kit takes for a proof, which is the same in kits that differ in tools alone; all of `rt version` where that names none."""
    return kit().partition(" logic ")[2] or kit()


@functools.cache
def times():
    """Of each crate that was timed, the seconds of its proof and of its tests' check."""
    rows = [it.split() for it in text(f"{ROOT}/{TIMES}").splitlines() if it and it[0] != "#"]
    return {name: (float(proof), float(tests)) for name, proof, tests in rows}


class Crate:
    """A crate to prove: its work in lines and in seconds, and the run that proves it."""

    def __init__(self, name, needs, is_wanted, room):
        self.name, self.needs, self.below = name, needs[name], all_below(name, needs)
        self.home, self.top = f"{ROOT}/crates/{name}", f"{room}/{name}"
        self.place, self.said_file = f"{self.top}/crates/{name}", f"{room}/{name}.said"
        texts = {file: text(file) for file in sources(name)}
        # Each check reads the libraries below first, which takes as long as some lines.
        self.lines = 150 + sum(it.count("\n") for it in texts.values())
        # Of a crate that is only needed by others the library alone is wanted.
        self.is_tested = is_wanted and any("#[test]" in it for file, it in texts.items() if file.endswith(".rt"))
        self.is_program = os.path.isfile(f"{self.home}/src/main.rt")
        self.cpus = MORE_CPUS if any("staticlib" in it.partition(":")[0].split() for it in rows_of({name})) else ()
        # The build for the processor that `rt` takes by itself comes last, and keeps the name that `rt` gives each.
        self.run, self.took, self.builds = None, 0, [*self.cpus, None]
        self.seconds = SECONDS_AS_IT_WAS if self.is_as_it_was() else self.timed()

    def timed(self):
        """The processor seconds that it took where it was timed, or as many as its lines would."""
        proof, tests = times().get(self.name, (0, 0))
        return proof + (tests if self.is_tested else 0) or SECONDS_A_LINE * self.lines

    def is_as_it_was(self):
        """Whether all that it is proved from is as it was when it was last done here."""
        return text(f"{self.home}/out/{READ}") == self.read_sum()

    def keep_read(self):
        os.makedirs(f"{self.home}/out", exist_ok=True)
        with open(f"{self.home}/out/{READ}", "w", encoding="utf-8") as file:
            file.write(self.read_sum())

    def is_kept(self, needs):
        """Whether its sum is kept: nothing stands on it, so its `out/` is all that is wanted, and it has no tests to run."""
        return not self.is_tested and not any(self.name in it for it in needs.values())

    def read_sum(self):
        """A sum of all that is read to prove and build the crate."""
        names = sorted({self.name, *self.below})
        head = [kit(), *self.words(1), *self.cpus, *rows_of(names)]
        return sum_of([path for name in names for path in sorted(sources(name))] + [f"{self.home}/{it}" for it in RUN_ON], head)

    def is_as_proved(self):
        return text(f"{self.home}/out/{SUM}") == f"{self.read_sum()} {sum_of(built(f'{self.home}/out'))}"

    def keep_sum(self, read):
        """Keeps its sum, if all that was read is as it was before."""
        if read == self.read_sum():
            with open(f"{self.home}/out/{SUM}", "w", encoding="utf-8") as file:
                file.write(f"{read} {sum_of(built(f'{self.home}/out'))}")

    def memory(self):
        """The bytes that a check of the crate is likely to take with one job."""
        return 1_000_000_000 + 500_000 * self.lines

    def words(self, jobs):
        if self.is_program:
            return ["rt", "run", "--jobs", str(jobs), "--", *text(f"{self.home}/args").splitlines()]
        return ["rt", "test" if self.is_tested else "lib", "--jobs", str(jobs)]

    def wanted_status(self):
        return int(text(f"{self.home}/status").strip() or 0) if self.is_program else 0

    def furnish(self):
        """Lays out a repository of this crate and those below it in the crate's own folder."""
        for name in [self.name, *self.below]:
            for part in PARTS:
                if os.path.isdir(f"{ROOT}/crates/{name}/{part}"):
                    shutil.copytree(f"{ROOT}/crates/{name}/{part}", f"{self.top}/crates/{name}/{part}")
        for name in self.below:
            linked(f"{ROOT}/crates/{name}/out/rlib", f"{self.top}/crates/{name}/out/rlib")
        with open(f"{self.top}/crates.txt", "w", encoding="utf-8") as file:
            file.writelines(rows_of({self.name, *self.below}))
        if os.path.isdir(f"{self.home}/out"):
            os.rename(f"{self.home}/out", f"{self.place}/out")

    def start(self, jobs):
        self.jobs, self.began = jobs, time.monotonic()
        self.furnish()
        self.said = open(self.said_file, "w+", errors="replace")
        self.begin()

    def begin(self):
        """Begins the next build; that of a library for C for one more processor goes over the proof that the one before has kept."""
        words = self.words(self.jobs) + (["--cpu", self.builds[0]] if self.builds[0] else [])
        given = f"{self.home}/stdin"
        with open(given if self.is_program and os.path.isfile(given) else os.devnull, "rb") as stdin:
            how = {"stdin": stdin, "stdout": self.said, "stderr": subprocess.STDOUT}
            self.run = subprocess.Popen(words, cwd=self.place, **how)

    def ended(self):
        """Whether all its runs have ended; then what they took stands in `took`: more than processor seconds on a busy machine."""
        ended, status, used = os.wait4(self.run.pid, os.WNOHANG)
        if not ended:
            return False
        self.run.returncode = os.waitstatus_to_exitcode(status)
        self.took += used.ru_utime + used.ru_stime
        cpu = self.builds.pop(0)
        if cpu and self.is_well():
            archive = f"{self.place}/out/lib{self.name}"
            os.replace(f"{archive}.a", f"{archive}.{cpu}.a")
            self.begin()
            return False
        self.took = max(self.took, time.monotonic() - self.began)
        return True

    def is_well(self):
        return self.run.returncode == self.wanted_status()

    def give_back(self):
        """Puts the crate's out/ back, and takes down the folder that it was proved in."""
        if os.path.isdir(f"{self.place}/out"):
            shutil.rmtree(f"{self.home}/out", ignore_errors=True)
            os.rename(f"{self.place}/out", f"{self.home}/out")
        shutil.rmtree(self.top, ignore_errors=True)


def linked(source, target):
    """Copies a folder by hard links: nothing writes into what was proved."""
    if os.path.isdir(source):
        shutil.copytree(source, target, copy_function=os.link)


def pace_of(took, timed):
    """How many seconds this machine takes for one of the timed machine's, by the seconds that timed work took here."""
    return (took + SECONDS_TO_TRUST) / (timed + SECONDS_TO_TRUST)


def seconds_of(rest, chains, lanes):
    """The seconds of the rest of the work over all processors, or of its longest chain of crates, whichever is more."""
    return max([sum(rest) / lanes, *(it / 1.5 for it in chains)], default=0)


def rest_of(expected, spent):
    """The seconds that work still takes: what is over its time is taken to need a third of it more."""
    return max(expected - spent, spent / 3)


class Proving:
    """All crates that are to be proved: those that wait, those that run, and those that are done."""

    def __init__(self, crates, lanes):
        self.crates, self.lanes = crates, lanes
        self.waiting, self.running, self.done, self.failed = list(crates.values()), [], [], []
        self.memory = 0.85 * free_memory()
        self.chains = {}
        for crate in reversed(self.waiting):
            above = [self.chains[it.name] for it in self.waiting if crate.name in it.needs]
            self.chains[crate.name] = crate.seconds + max(above, default=0)
        self.waiting.sort(key=lambda it: -self.chains[it.name])

    def pace(self):
        """How many seconds this machine takes for one of the timed machine's, by the crates that are done."""
        # What `rt` kept elsewhere on this machine takes seconds, and says nothing of the others.
        new = [it for it in self.done if it.seconds > SECONDS_AS_IT_WAS and it.took > it.seconds / 10]
        return pace_of(sum(it.took for it in new), sum(it.seconds for it in new))

    def seconds_left(self):
        """The rest of the work over all processors, or that of the longest chain of crates, whichever is more."""
        pace, now = self.pace(), time.monotonic()
        rest = {it.name: pace * it.seconds for it in self.waiting}
        for it in self.running:
            rest[it.name] = rest_of(pace * it.seconds, it.jobs * (now - it.began))
        chains = [pace * (self.chains[name] - self.crates[name].seconds) + it for name, it in rest.items()]
        return seconds_of(rest.values(), chains, self.lanes)

    def say(self, what):
        running = ", ".join(it.name for it in self.running)
        left = self.seconds_left()
        rest = f"; running: {running}; about {as_time(left)} to go" if running else ""
        print(f"[{len(self.done)}/{len(self.crates)}] {what}{rest}", flush=True)

    def start_some(self):
        done = {it.name for it in self.done}
        ready = [it for it in self.waiting if done.issuperset(it.needs)]
        for at, crate in enumerate(ready):
            idle = self.lanes - sum(it.jobs for it in self.running)
            room = self.memory - sum(it.memory() * (1 + it.jobs) / 2 for it in self.running)
            if idle <= 0 or self.running and room < crate.memory():
                return
            # A processor that no other crate waits for goes to this one.
            spare = min(MOST_JOBS, idle // (len(ready) - at), int(2 * room / crate.memory() - 1))
            self.waiting.remove(crate)
            self.running.append(crate)
            crate.start(max(1, spare))

    def settle(self, crate):
        self.running.remove(crate)
        crate.give_back()
        (self.done if crate.is_well() else self.failed).append(crate)
        if crate.is_well():
            crate.keep_read()
        if not self.failed:
            self.start_some()
        took = as_time(time.monotonic() - crate.began)
        self.say(f"{crate.name} {'done' if crate.is_well() else 'FAILED'} after {took}")
        if not crate.is_well():
            crate.said.seek(0)
            print(crate.said.read(), flush=True)

    def to_the_end(self):
        last = time.monotonic()
        self.start_some()
        while self.running or self.waiting and not self.failed:
            for crate in [it for it in self.running if it.ended()]:
                self.settle(crate)
                last = time.monotonic()
            if time.monotonic() - last > 30:
                self.say("..")
                last = time.monotonic()
            time.sleep(0.1)
        return not self.failed

    def stop(self):
        started = [it.run for it in self.running if it.run]
        for run in started:
            run.terminate()
        for run in started:
            run.wait()
        for crate in self.running:
            crate.give_back()


def as_time(seconds):
    return f"{seconds:.0f} s" if seconds < 90 else f"{seconds / 60:.0f} minutes"


def free_memory():
    rows = dict(row.split(":") for row in text("/proc/meminfo").splitlines())
    return 1024 * int(rows["MemAvailable"].split()[0])


def locked(names):
    """Waits for each `rt` that works in these crates' folders, and keeps others out until the files are closed."""
    files = [os.open(f"{ROOT}/crates/{name}", os.O_RDONLY) for name in sorted(names)]
    for file in files:
        fcntl.flock(file, fcntl.LOCK_EX)
    return files


def work_room():
    """A folder on the repository's own disk that no check reads: in git's folder, or beside the repository."""
    found = subprocess.run(["git", "-C", ROOT, "rev-parse", "--absolute-git-dir"], capture_output=True, text=True)
    room = f"{found.stdout.strip()}/prove" if found.returncode == 0 else f"{ROOT}-prove"
    os.makedirs(room, exist_ok=True)
    return room


def take_back(room):
    """Gives crates what a run that was killed left in its folder."""
    for name in os.listdir(room):
        left, home = f"{room}/{name}/crates/{name}/out", f"{ROOT}/crates/{name}"
        if os.path.isdir(left) and os.path.isdir(home) and not os.path.exists(f"{home}/out"):
            os.rename(left, f"{home}/out")
    shutil.rmtree(room)
    os.makedirs(room)


def end(*_):
    sys.exit(130)


def with_all_below(names, needs):
    """These crates and those that they stand on, each behind those below it."""
    found = set(names).union(*(all_below(it, needs) for it in names))
    return sorted(found, key=lambda it: len(all_below(it, needs)))


def prove(wanted, needs, jobs, room):
    """Proves these crates, but for those that are as they were proved; the crates that failed."""
    crates = {it: Crate(it, needs, it in wanted, room) for it in with_all_below(wanted, needs)}
    kept = [it for it in wanted if crates[it].is_kept(needs)]
    done = [it for it in kept if crates[it].is_as_proved()]
    sums = {it: crates[it].read_sum() for it in set(kept) - set(done)}
    if done:
        print(f"as they were proved and built: {', '.join(done)}")
    names = with_all_below(set(wanted) - set(done), needs)
    began, proving = time.monotonic(), Proving({it: crates[it] for it in names}, jobs)
    try:
        is_well = proving.to_the_end()
    finally:
        proving.stop()
    if is_well and names:
        for name, read in sums.items():
            crates[name].keep_sum(read)
        print(f"all {len(names)} crates done in {as_time(time.monotonic() - began)}")
    return proving.failed


# ---- the test of what is kept: a repository of three crates, and an `rt` that writes down each call

CALLED = """#!/bin/sh
if [ "$1" = version ]; then cat "$ROOM/kit"; exit; fi
case "$*" in *--cpu*) for=":$5";; *) for=;; esac
mkdir -p out/rlib && { cat src/*.rt; echo "$for"; } > "out/lib$(basename "$PWD").a"
echo "$(basename "$PWD")$for" >> "$ROOM/calls"
"""


def write(path, what):
    os.makedirs(os.path.dirname(path), exist_ok=True)
    with open(path, "w", encoding="utf-8") as file:
        file.write(what)


def changes(room):
    """What is changed in turn, and the crates that are proved again for that."""
    top, everything = f"{room}/crates/top", ["low", *(f"top:{it}" for it in MORE_CPUS), "top"]
    yield "nothing, at first", everything, lambda: None
    yield "nothing", [], lambda: None
    yield "a file that nothing reads", [], lambda: write(f"{top}/must-fail/one.edit", "file: src/lib.rt\n")
    yield "a crate on which it does not stand", [], lambda: write(f"{room}/crates/other/src/lib.rt", "fn two() {}\n")
    yield "its code", everything, lambda: write(f"{top}/src/lib.rt", "fn more() {}\n")
    yield "a proof below it", everything, lambda: write(f"{room}/crates/low/proofs/Lib.antt", "-- another\n")
    yield "its row", everything, lambda: write(f"{room}/crates.txt", "low:\nother:\ntop staticlib: low # a library for C\n")
    yield "what was built", everything, lambda: write(f"{top}/out/libtop.a", "another\n")
    yield "what was built for another processor", everything, lambda: write(f"{top}/out/libtop.{MORE_CPUS[0]}.a", "another\n")
    yield "nothing of what is built", [], lambda: None
    yield "what is gone", everything, lambda: os.remove(f"{top}/out/libtop.a")
    yield "the kit", everything, lambda: write(f"{room}/kit", "kit 2\n")
    yield "a row of another kind", ["low", "top"], lambda: write(f"{room}/crates.txt", "low:\nother:\ntop: low\n")
    yield "a test in it", ["low", "top"], lambda: write(f"{top}/src/lib.rt", "#[test]\nfn more() {}\n")
    yield "nothing, where tests are run", ["low", "top"], lambda: None


TOLD = re.compile(r"about (\d+) (s|minutes) to go")


def told_first(said):
    """The seconds to go that a run tells first."""
    number, unit = TOLD.search(said).groups()
    return int(number) * (1 if unit == "s" else 60)


def test_estimates(copy, around, room):
    """The rest is told by the times that are kept, by the pace of what is done, and in seconds where nothing changed."""
    write(f"{room}/checks/proof_times.txt", "# seconds\nlow 2 0\ntop 3000 0\n")
    write(f"{room}/crates/low/src/lib.rt", "fn one() {}\n")
    slow = CALLED.replace("mkdir", "case $PWD in */low) sleep 1;; *) sleep 2;; esac; mkdir")
    write(f"{room}/bin/rt", slow)
    write(f"{room}/kit", "kit 3\n")
    said = {}
    for name in ("changed", "as it was"):
        if name == "as it was":
            os.remove(f"{room}/crates/top/out/{SUM}")
        ran = subprocess.run([sys.executable, "-B", copy, "--jobs", "2", "top"], env=around, capture_output=True, text=True, check=True)
        said[name] = told_first(ran.stdout)
    # A chain is taken to be proved by one and a half processors.
    if not 1500 <= said["changed"] <= 2500 or said["as it was"] > 10:
        sys.exit(f"the seconds to go are told as {said}")
    print("the rest of the time is told by what crates took, and in seconds where nothing changed")


def test():
    with tempfile.TemporaryDirectory() as room:
        write(f"{room}/bin/rt", CALLED)
        os.chmod(f"{room}/bin/rt", 0o755)
        write(f"{room}/kit", "kit 1\n")
        write(f"{room}/crates.txt", "low:\nother:\ntop staticlib: low\n")
        for name in ("low", "other", "top"):
            write(f"{room}/crates/{name}/src/lib.rt", "fn one() {}\n")
        copy = f"{room}/checks/prove.py"
        os.makedirs(os.path.dirname(copy))
        shutil.copy(__file__, copy)
        around = {**os.environ, "ROOM": room, "PATH": f"{room}/bin:{os.environ.get('PATH', '')}", "GIT_DIR": f"{room}/none"}
        count = 0
        for what, wanted, change in changes(room):
            change()
            write(f"{room}/calls", "")
            ran = subprocess.run([sys.executable, "-B", copy, "top"], env=around, capture_output=True, text=True, check=False)
            if ran.returncode or text(f"{room}/calls").split() != wanted:
                sys.exit(f"{what}: proved {text(f'{room}/calls').split()}, not {wanted}: {ran.stdout}{ran.stderr}")
            count += 1
        test_estimates(copy, around, room)
        shutil.rmtree(f"{room}-prove", ignore_errors=True)
    print(f"after each of {count} changes what has to be proved again is proved again")


def main():
    wanted = argparse.ArgumentParser(description=__doc__.split("\n")[0])
    wanted.add_argument("--jobs", type=int, default=len(os.sched_getaffinity(0)), help="how many processors to use")
    wanted.add_argument("--test", action="store_true", help="see when a crate is proved again")
    wanted.add_argument("crates", nargs="*", metavar="CRATE")
    given = wanted.parse_args()
    if given.test:
        return test()
    if not given.crates:
        wanted.error("which crates?")
    needs = needs_by_crate()
    for name in given.crates:
        if name not in needs:
            sys.exit(f"crates.txt lists no crate {name}")
    held, room = locked(with_all_below(given.crates, needs)), work_room()
    take_back(room)
    for it in (signal.SIGINT, signal.SIGTERM):
        signal.signal(it, end)
    try:
        failed = prove(given.crates, needs, max(1, given.jobs), room)
    finally:
        shutil.rmtree(room, ignore_errors=True)
        for file in held:
            os.close(file)
    if failed:
        sys.exit(f"not proved: {', '.join(it.name for it in failed)}")


if __name__ == "__main__":
    main()
