#!/usr/bin/env python3
"""Keeps in checks/passed.txt on which commit and day each check that `make test` leaves out passed last.

    python3 checks/passed.py                  tells it in one line, as the end of `make test`
    python3 checks/passed.py --state          prints the commit, with a + and a sum of what was changed since, if anything was
    python3 checks/passed.py TARGET [STATE]   writes down that a target passed; nothing if the state is no longer the one given
    python3 checks/passed.py --test           passes and changes a small repository, and sees what is told of it

A row has the target, the commit and the day. Behind a commit stands + where the tree held changes that were not in it. The file
is committed as any other; it counts neither as a change nor as a commit.
"""
import argparse
import datetime
import hashlib
import os
import subprocess
import sys
import tempfile

ROOT = os.path.dirname(os.path.dirname(os.path.realpath(__file__)))
TARGETS = ("check-dist", "check-library", "check-python", "memory", "soak", "races")
KEPT = "checks/passed.txt"
ALL_ELSE = (".", f":(exclude){KEPT}")


def git(root, *words):
    """What git prints, or None where it fails."""
    try:
        ran = subprocess.run(["git", "-C", root, *words], capture_output=True, check=False)
    except FileNotFoundError:
        return None
    return ran.stdout.decode(errors="replace").strip() if ran.returncode == 0 else None


def state(root):
    """The commit, with a + and a sum of what was changed since, if anything was; None where git knows of none."""
    commit = git(root, "rev-parse", "--short=8", "HEAD")
    changed = git(root, "status", "--porcelain", "--", *ALL_ELSE)
    if not commit or not changed:
        return commit
    text = f"{changed}\n{git(root, 'diff', 'HEAD', '--', *ALL_ELSE)}"
    return f"{commit}+{hashlib.sha256(text.encode()).hexdigest()[:16]}"


def rows(root):
    """The commit and the day of each target that passed."""
    path = f"{root}/{KEPT}"
    if not os.path.isfile(path):
        return {}
    with open(path, encoding="utf-8") as file:
        words = [line.split() for line in file]
    return {row[0]: (row[1], row[2]) for row in words if len(row) == 3}


def keep(root, target, before, day):
    """Writes down that a target passed; what is to be said of it."""
    now = state(root)
    if not now:
        return f"{target} passed; without git {KEPT} cannot say on which commit"
    if before not in (None, now):
        return f"{target} passed, but files changed while it ran, so {KEPT} does not say so"
    commit = now.split("+")[0] + ("+" if "+" in now else "")
    kept = {**rows(root), target: (commit, day)}
    with open(f"{root}/{KEPT}", "w", encoding="utf-8") as file:
        file.writelines(f"{it} {' '.join(kept[it])}\n" for it in sorted(kept))
    return f"{target} passed on {commit}: {KEPT} says so"


def age(root, commit):
    """How long ago a commit was, in commits that changed anything else than what is kept here."""
    count = None
    if git(root, "merge-base", "--is-ancestor", commit, "HEAD") is not None:
        count = git(root, "rev-list", "--count", f"{commit}..HEAD", "--", *ALL_ELSE)
    return "which is not in this history" if count is None else f"{count} commit{'s' * (count != '1')} ago"


def told(root):
    """One line about all targets."""
    kept, parts = rows(root), []
    for target in TARGETS:
        commit, day = kept.get(target, ("", ""))
        where = f"on {commit.rstrip('+')}{' with changes' * commit.endswith('+')}, {age(root, commit.rstrip('+'))}, {day}"
        parts.append(f"{target} {where if commit else 'never'}")
    return f"make test leaves out, and passed last: {'; '.join(parts)}"


# ---- the test of this script


class Trial:
    """A small repository in which targets pass."""

    def __init__(self, root):
        self.root, self.count = root, 0
        os.makedirs(f"{root}/checks")
        self.git("init", "--quiet")
        self.commit("code")

    def git(self, *words):
        named = ["-c", "user.name=trial", "-c", "user.email=trial@example.org", "-c", "commit.gpgsign=false"]
        subprocess.run(["git", "-C", self.root, *named, *words], check=True, capture_output=True)

    def write(self, name):
        self.count += 1
        with open(f"{self.root}/{name}", "a", encoding="utf-8") as file:
            file.write(f"{self.count}\n")

    def commit(self, name=None):
        if name:
            self.write(name)
        self.git("add", "--all")
        self.git("commit", "--quiet", "--allow-empty", "--message=one more")

    def passes(self, target, meanwhile=None):
        before = state(self.root)
        if meanwhile:
            self.write(meanwhile)
        keep(self.root, target, before, "2030-01-02")

    def says(self, target, *wanted):
        """Ends the test where the part of the line about a target does not have these words, or another line comes."""
        line = told(self.root)
        part = next((it for it in line.partition(": ")[2].split("; ") if it.split()[0] == target), "")
        if not all(it in part for it in wanted) or "\n" in line or any(it not in line for it in TARGETS):
            sys.exit(f"of {target} is told {part!r}, and not {wanted}")


def test():
    with tempfile.TemporaryDirectory() as root:
        trial = Trial(root)
        trial.says("memory", "never")
        trial.passes("memory")
        first = state(root)
        trial.says("memory", f"on {first}, 0 commits ago, 2030-01-02")
        trial.says("soak", "never")
        trial.passes("soak")
        trial.says("soak", f"on {first}, 0 commits ago")
        trial.commit()
        trial.says("memory", f"on {first}, 0 commits ago")
        trial.commit("code")
        trial.says("memory", f"on {first}, 1 commit ago")
        trial.commit("more")
        trial.says("memory", f"on {first}, 2 commits ago")
        trial.write("code")
        trial.passes("memory")
        trial.says("memory", f"on {git(root, 'rev-parse', '--short=8', 'HEAD')} with changes, 0 commits ago")
        trial.passes("soak", "code")
        trial.says("soak", f"on {first}, 2 commits ago")
        trial.commit()
        trial.write("unknown")
        trial.passes("check-library")
        trial.says("check-library", "with changes")
        trial.commit()
        trial.passes("check-python")
        trial.git("commit", "--amend", "--message=another", "--allow-empty")
        trial.says("check-python", "not in this history")
        trial.passes("check-python", "unknown")
        trial.says("check-python", "not in this history")
    print("of a repository that is changed in many ways it is told when each target passed")


def main():
    words = argparse.ArgumentParser(description=__doc__.split("\n")[0])
    words.add_argument("target", nargs="?", choices=TARGETS, help="what has passed")
    words.add_argument("before", nargs="?", metavar="STATE", help="the state in which it was begun")
    words.add_argument("--state", action="store_true", help="print the commit and what was changed")
    words.add_argument("--test", action="store_true", help="see what is told of a small repository")
    given = words.parse_args()
    if given.test:
        test()
    elif given.state:
        print(state(ROOT) or "")
    elif given.target:
        print(keep(ROOT, given.target, given.before, datetime.date.today().isoformat()))
    else:
        print(told(ROOT))


if __name__ == "__main__":
    main()
