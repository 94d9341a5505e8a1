#!/usr/bin/env python3
"""Tries the wrong bodies that `rt ci` does not try in each run.

    python3 checks/wrong_bodies.py                 tries those of the crates that changed since theirs were refused last
    python3 checks/wrong_bodies.py CRATE..         tries those of these crates
    python3 checks/wrong_bodies.py --list          names the crates that changed, and what is gone; status 1 where there is any
    python3 checks/wrong_bodies.py --few           tries a few, drawn by the commit, over what `rt ci` kept on this machine
    python3 checks/wrong_bodies.py --gone CRATE..  takes away the rows of crates whose wrong bodies are gone on purpose
    python3 checks/wrong_bodies.py --renamed MAP   keeps the rows of crates of which only names changed; MAP has an old and a new
                                                   name a line, and behind them the crates or the files (CRATE/src/FILE.rt) where
                                                   it is new, if not in all. The text with the new names mapped back has to be the old one
    python3 checks/wrong_bodies.py --moved COMMIT [--names MAP]
                                                   keeps the rows of crates whose text, and what they see of others, only moved
                                                   since then (checks/moved_bodies.py); MAP has an old and a new name a line
    python3 checks/wrong_bodies.py --widen         once: takes over rows of the sums that covered less, of the same text
    python3 checks/wrong_bodies.py --test          spoils a small repository in many ways, and sees what is told of each

A file crates/CRATE/wrong-bodies/NAME.edit is written as those in must-fail/ are, and the prover has to refuse it as well. It is
let through only where its crate, or one below, promises less than before. So checks/wrong_bodies.txt keeps of each crate how many it
has, and the sum of all that they were refused over (checks/crate_sums.py). `make test` ends at once where a sum is another: tried
there, they would want the crates below to be proved once more. A row that nobody earned is found by what `make test` draws.

Each run begins with a look at all edits, also those in must-fail/: the text that one turns has to stand in its file once.
"""
import argparse
import collections
import os
import random
import re
import shutil
import subprocess
import sys
import tempfile
from concurrent.futures import ThreadPoolExecutor

import crate_sums
import moved_bodies
import prove

ROOT = prove.ROOT
FOLDER, GATE = crate_sums.EDITS, "must-fail"
KEPT = f"{ROOT}/checks/wrong_bodies.txt"
HEAD = """# Of each crate how many wrong bodies it has, and the sum of what all of them were refused over (checks/crate_sums.py).
# `widened` stands behind a row that was taken over from a sum of the crate's own code, definitions and wrong bodies: these are known
# to be as they were when all were refused. The rest that the sum covers (its proofs, its row of crates.txt, the kit's logic, and what the crates
# below promise) is as it was when the row was taken over. `moved` stands where text moved between crates since all were refused
# (checks/moved_bodies.py). `due` stands where a crate, or what it stands on, came to say the same in other words, and its wrong bodies
# were not tried since: a run without names tries them. To try the crate takes these words away.
"""
# How many wrong bodies `--few` draws at most, and the seconds of proofs that it may take, by the times of checks/proof_times.txt.
FEW, SECONDS = 3, 150
# A check that begins from nothing reads the libraries first: no crate is taken to cost less, or it would be drawn in each run.
LEAST_SECONDS = 40
Row = collections.namedtuple("Row", "count sum mark")


# ---- edits, and rows of what was refused


def edits_in(home, folder):
    """The paths of a crate's edits in one of the two folders."""
    path = f"{home}/{folder}"
    names = os.listdir(path) if os.path.isdir(path) else []
    return [f"{path}/{it}" for it in sorted(names) if it.endswith(".edit")]


def home_of(name):
    return f"{ROOT}/crates/{name}"


def fault_of(edit, home):
    """Why an edit cannot be applied, or None."""
    texts, path, old, pairs = {}, None, None, 0
    for line in prove.text(edit).splitlines():
        word, _, rest = line.partition(" ")
        if word == "file:":
            path = rest.strip()
            texts.setdefault(path, prove.text(f"{home}/{path}"))
        elif word == "old:":
            old = rest
        elif word == "new:":
            found = texts[path].count(old) if path and old else 0
            if found != 1:
                return f"an old text stands in {path} {found} times, and not once"
            texts[path], old, pairs = texts[path].replace(old, rest), None, pairs + 1
    return None if pairs else "it turns nothing"


def lines_kept(path=KEPT):
    return [it.split() for it in prove.text(path).splitlines() if it and it[0] != "#"]


def rows(path=KEPT):
    """The row of each crate."""
    return {name: Row(int(count), total, mark) for name, count, total, *mark in filter(lambda it: len(it) > 2, lines_kept(path))}


def write(kept):
    with open(KEPT, "w", encoding="utf-8") as file:
        file.write(HEAD)
        file.writelines(" ".join([it, str(kept[it].count), kept[it].sum, *kept[it].mark]) + "\n" for it in sorted(kept))


def sums_now(names=None):
    return crate_sums.Sums(ROOT, prove.needs_by_crate(), prove.logic(), names)


def keep(name, sums):
    """Writes down that all wrong bodies of a crate, as it is, were refused."""
    kept, count = rows(), len(edits_in(home_of(name), FOLDER))
    if name in kept and kept[name].count > count:
        print(f"{name}: {count} wrong bodies, and {kept[name].count} before")
    write({**kept, name: Row(count, sums.wide(name), [])})


def changed(names):
    """The crates whose wrong bodies were not tried over all that they stand on, as it is."""
    kept, sums = rows(), sums_now()
    has_any = [it for it in names if edits_in(home_of(it), FOLDER)]
    return [it for it in has_any if it not in kept or kept[it].sum != sums.wide(it)]


def due(names):
    """The crates whose rows say that their wrong bodies are to be tried."""
    kept = rows()
    return [it for it in names if it in kept and "due" in kept[it].mark]


def lost():
    """Of each crate that has fewer wrong bodies than were refused, what is to be said of it."""
    for name, row in rows().items():
        count = len(edits_in(home_of(name), FOLDER))
        if not count:
            yield f"{name}: all of its {row.count} wrong bodies are gone. If that is meant: checks/wrong_bodies.py --gone {name}"
        elif count < row.count:
            yield f"{name}: {row.count - count} of its {row.count} wrong bodies are gone"


# ---- trying those of whole crates


def laid_out(name, needs, room):
    """A copy of a crate and of those below it, in which its wrong bodies are the edits that `rt` tries."""
    crate = prove.Crate(name, needs, False, room)
    crate.furnish()
    if os.path.isdir(f"{crate.place}/out"):
        # The crate's own out/ goes back at once, since copies of other crates link to what was proved there.
        os.rename(f"{crate.place}/out", f"{crate.home}/out")
    shutil.copytree(f"{crate.home}/{FOLDER}", f"{crate.place}/{GATE}")
    return crate


def tried(crate):
    """Whether the prover refuses each wrong body of a crate, and what `rt` says."""
    ran = subprocess.run(["rt", GATE, crate.name], cwd=crate.top, capture_output=True, text=True, errors="replace", check=False)
    return ran.returncode == 0, ran.stdout + ran.stderr


def try_all(names, jobs):
    """Tries the wrong bodies of crates side by side; returns the crates of which one was not refused."""
    needs, sums = prove.needs_by_crate(), sums_now()
    below = sorted({low for it in names for low in needs[it]})
    if below:
        subprocess.run([sys.executable, f"{ROOT}/checks/prove.py", "--jobs", str(jobs), *below], check=True)
    held = prove.locked(set(names).union(*(prove.all_below(it, needs) for it in names)))
    failed = []
    try:
        with tempfile.TemporaryDirectory(dir=prove.work_room()) as room, ThreadPoolExecutor(jobs) as lanes:
            # The sums are those of what is tried, whatever is written meanwhile.
            crates = [(laid_out(it, needs, room), sums.wide(it)) for it in names]
            for (crate, total), (well, said) in zip(crates, lanes.map(lambda it: tried(it[0]), crates)):
                print(said, end="", flush=True)
                if well and total == sums_now().wide(crate.name):
                    keep(crate.name, sums)
                else:
                    print(f"{crate.name}: {'files changed meanwhile: try it again' if well else 'not all are refused'}")
                    failed.append(crate.name)
    finally:
        for file in held:
            os.close(file)
    return failed


# ---- trying a few


def seconds_of(name):
    """The seconds that a check of the crate from nothing takes, as it was timed or by its lines."""
    lines = sum(prove.text(it).count("\n") for it in prove.sources(name))
    return max(LEAST_SECONDS, prove.times().get(name, (0, 0))[0] or prove.SECONDS_A_LINE * lines)


def drawn(costs, seed):
    """Crates that are drawn by a seed, the cheap ones more often; behind the first only what the seconds are left for."""
    chance, found, left = random.Random(seed), [], SECONDS
    while len(found) < FEW:
        able = [it for it in sorted(costs) if it not in found and (not found or costs[it] <= left)]
        if not able:
            break
        found += chance.choices(able, [costs[it] ** -2 for it in able])
        left -= costs[found[-1]]
    return [(it, chance.random()) for it in found]


def few_laid_out(names, edits, room):
    """A repository of some crates and those below them, with these wrong bodies as all that the gate tries."""
    needs = prove.needs_by_crate()
    every = {*names, *(low for it in names for low in prove.all_below(it, needs))}
    os.mkdir(f"{room}/.git")
    for name in every:
        for part in prove.PARTS:
            if os.path.isdir(f"{home_of(name)}/{part}"):
                shutil.copytree(f"{home_of(name)}/{part}", f"{room}/crates/{name}/{part}")
    for name, edit in edits.items():
        os.mkdir(f"{room}/crates/{name}/{GATE}")
        shutil.copy(edit, f"{room}/crates/{name}/{GATE}")
    if os.path.isfile(f"{ROOT}/HANDLES"):
        shutil.copy(f"{ROOT}/HANDLES", room)
    with open(f"{room}/crates.txt", "w", encoding="utf-8") as file:
        file.writelines(prove.rows_of(every))


def gate_over(names, edits):
    """What `rt ci` says of some crates and those below them, and of these wrong bodies alone."""
    with tempfile.TemporaryDirectory(prefix="few-") as room:
        few_laid_out(names, edits, room)
        how = {"capture_output": True, "text": True, "errors": "replace", "check": False}
        return subprocess.run(["rt", "ci"], cwd=room, stdin=subprocess.DEVNULL, **how)


def keeps_proofs():
    """Whether `rt ci` finds on this machine what an earlier run proved, which not every kit can: it is asked of the cheapest crate."""
    least = min((it for it, below in prove.needs_by_crate().items() if not below), key=lambda it: (prove.times().get(it, (0, 0))[0], it))
    return bool(re.search(rf"^rt: {least} is kept: ", gate_over([least], {}).stdout, re.M))


def commit():
    """What the draw goes by: the commit, or where git has none the rows."""
    found = subprocess.run(["git", "-C", ROOT, "rev-parse", "HEAD"], capture_output=True, text=True, check=False)
    return found.stdout.strip() or prove.text(KEPT)


def try_few():
    """Tries a few wrong bodies, over what `rt ci` kept: then that of each crate takes one check of the crate."""
    if not keeps_proofs():
        print("no wrong body is tried: rt ci keeps nothing on this machine, so all crates would be proved once more")
        return 0
    every = {it: edits_in(home_of(it), FOLDER) for it in prove.needs_by_crate()}
    costs = {it: seconds_of(it) for it, edits in every.items() if edits}
    edits = {name: every[name][int(at * len(every[name]))] for name, at in drawn(costs, commit())}
    names = [f"{name}/{os.path.basename(edit)}" for name, edit in edits.items()]
    print(f"of {sum(map(len, every.values()))} wrong bodies these are drawn: {', '.join(names)}", flush=True)
    ran = gate_over(edits, edits)
    refused = [it for it in names if re.search(rf"^rt: must-fail {re.escape(it)}: refused\b", ran.stdout, re.M)]
    if ran.returncode or refused != names:
        print(ran.stdout + ran.stderr)
    print(f"{len(refused)} of {len(names)} are refused")
    return 0 if not ran.returncode and refused == names else 1


# ---- rows that are taken over


def taken_over(old_rows, names):
    """The rows of crates whose own text, with the new names mapped back, has the sum that it had before the sums were widened."""
    sums, before, found = sums_now(), sums_now(names), rows()
    for name in sums.rows:
        edits = edits_in(home_of(name), FOLDER)
        if edits and old_rows.get(before.back(name)) == before.narrow(name) and not before.has_old_names(name):
            found[name] = Row(len(edits), sums.wide(name), ["widened"])
    return found


def renamed(names):
    """The rows of crates, with new sums where the text is that of the old row once the new names are mapped back."""
    sums, before, kept, found = sums_now(), sums_now(names), rows(), {}
    homes = {before.back(it): it for it in sums.rows}
    for old, row in kept.items():
        name = homes.get(old, old)
        is_same = name in sums.rows and row.sum == before.wide(name) and not before.has_old_names(name)
        found[name] = row._replace(sum=sums.wide(name)) if is_same else row
    return found


def names_in(path):
    """The old name of each new one in a file, or the old name and the places where it is new; ends where it cannot be mapped back."""
    lines = [it.split() for it in prove.text(path).splitlines() if it.strip()]
    if not lines or any(len(it) < 2 for it in lines):
        sys.exit(f"{path}: each line has an old and a new name, and behind them the crates or files where it is new, if not in all")
    news, all_olds = [it[1] for it in lines], [it[0] for it in lines if len(it) == 2]
    words = [*news, *all_olds]
    twice = {it for it in words if words.count(it) > 1} | {it[0] for it in lines if len(it) > 2 and it[0] in words}
    for at, line in enumerate(lines):
        twice |= {line[0] for it in lines[:at] if it[0] == line[0] and meets(it[2:], line[2:])}
    if twice:
        sys.exit(f"{path}: these names stand there twice, so they cannot be mapped back: {' '.join(sorted(twice))}")
    return {it[1]: it[0] if len(it) == 2 else (it[0], frozenset(it[2:])) for it in lines}


def meets(places, others):
    """Whether two lists of crates or files have one in common, or a file and its crate."""
    return any(it == other or it.startswith(f"{other}/") or other.startswith(f"{it}/") for it in places for other in others)


def take_over(is_widened, names):
    """Takes rows over, and says of which crates they could not be."""
    old_rows = {it[0]: it[1] for it in lines_kept() if len(it) == 2}
    write(taken_over(old_rows, names) if is_widened else renamed(names))
    left = changed(prove.needs_by_crate())
    print(f"{len(rows())} rows; to be tried, since their text is not the one that was tried: {' '.join(left) or 'none'}")
    return 0


def moved(commit, path):
    """Keeps the rows of crates whose text only moved since a commit, and says what is new in the others."""
    pairs = [it.split()[:2] for it in prove.text(path).splitlines() if it.strip()] if path else []
    found, new = moved_bodies.kept_rows(commit, pairs, rows(), rows)
    write({name: Row(*row) for name, row in found.items()})
    for name, parts in new.items():
        print(f"{name}: {len(parts)} parts are new, the first of them: {min(parts)[:160]}")
    return 0


def give_up(names):
    """Takes away the rows of crates that have no wrong bodies any more."""
    kept = rows()
    if wrong := [it for it in names if it not in kept or edits_in(home_of(it), FOLDER)]:
        sys.exit(f"these crates have wrong bodies, or no row: {' '.join(wrong)}")
    write({it: row for it, row in kept.items() if it not in names})
    return 0


# ---- the command


def faults_of_all(names):
    """Each edit that cannot be applied, and why."""
    for name in names:
        for edit in [*edits_in(home_of(name), GATE), *edits_in(home_of(name), FOLDER)]:
            if why := fault_of(edit, home_of(name)):
                yield f"{os.path.relpath(edit, ROOT)}: {why}"


def tell(left):
    """Names the crates that changed and what is gone; status 1 where there is any."""
    gone = list(lost())
    for it in gone:
        print(it)
    print(f"crates that changed since their wrong bodies were tried (make wrong-bodies): {' '.join(left) or 'none'}")
    return 1 if left or gone else 0


def words():
    found = argparse.ArgumentParser(description=__doc__.split("\n")[0])
    found.add_argument("crates", nargs="*", metavar="CRATE")
    found.add_argument("--jobs", type=int, default=len(os.sched_getaffinity(0)), help="how many crates to try at once")
    found.add_argument("--list", action="store_true", help="name the crates that changed and what is gone, and try nothing")
    found.add_argument("--few", action="store_true", help="try a few, drawn by the commit, over what rt ci kept")
    found.add_argument("--gone", action="store_true", help="take away the rows of these crates, which have no wrong bodies")
    found.add_argument("--renamed", metavar="MAP", help="keep rows where only these names changed")
    found.add_argument("--moved", metavar="COMMIT", help="keep rows where text only moved since a commit")
    found.add_argument("--names", metavar="MAP", help="with --moved: names that count as one word")
    found.add_argument("--widen", action="store_true", help="take over rows of the sums that covered less")
    found.add_argument("--test", action="store_true", help="see that changes are told")
    return found


def main():
    given, names = words().parse_args(), list(prove.needs_by_crate())
    faults = list(faults_of_all(names))
    print("".join(f"{it}\n" for it in faults), end="")
    if faults:
        return 1
    if given.test:
        import wrong_bodies_spoiled
        return wrong_bodies_spoiled.test()
    if given.widen or given.renamed:
        return take_over(given.widen, names_in(given.renamed) if given.renamed else {})
    if given.moved:
        return moved(given.moved, given.names)
    if given.few:
        return try_few()
    if given.gone:
        return give_up(given.crates)
    if lacking := [it for it in given.crates if not edits_in(home_of(it), FOLDER)]:
        words().error(f"these crates have no wrong bodies: {' '.join(lacking)}")
    wanted = given.crates or changed(names)
    if given.list or not (wanted or due(names)):
        return tell(wanted)
    wanted = given.crates or sorted({*wanted, *due(names)}, key=names.index)
    failed = try_all(wanted, max(1, given.jobs))
    print(f"{len(wanted) - len(failed)} of {len(wanted)} crates refuse each of their wrong bodies")
    return 1 if failed else 0


if __name__ == "__main__":
    sys.exit(main())
