"""The test of checks/wrong_bodies.py: a small repository that is spoiled in many ways, and an `rt` that refuses what it is told to."""
import hashlib
import os
import re
import shutil
import subprocess
import sys
import tempfile

import crate_sums
import prove
import wrong_bodies

SCRIPTS = ("wrong_bodies.py", "crate_sums.py", "moved_bodies.py", "prove.py")
# It refuses each edit, but where the file `answer` has another word.
CALLED = """#!/bin/sh
case "$1" in
version) cat "$ROOM/kit";;
lib) mkdir -p out/rlib;;
must-fail) grep -q refused "$ROOM/answer";;
ci) for crate in $(test -f "$ROOM/forgets" || ls crates); do echo "rt: $crate is kept: proved before"; done
    for edit in crates/*/must-fail/*.edit; do
      test -f "$edit" || continue
      name=${edit#crates/}; echo "rt: must-fail ${name%%/*}/${edit##*/}: $(cat "$ROOM/answer")"
    done; ! grep -q 'NOT REFUSED' "$ROOM/answer";;
esac
"""
LOW = """//! What is held.
ghost use Rattle.low.specs.Held.{Held};

pub struct Box {
    pub side: u32,
}

pub trait Holder {
    fn hold(&self) -> u32
        ensures held { result ≡ self.now.held }
    {
        1
    }
}

/// The half.
pub fn half(n: u32) -> u32
    requires { 0 < n }
    ensures { Held result }
{
    let c = '}';
    let text = "a  b";
    n / 2
}

pub(crate) fn inner(n: u32) -> u32
    ensures { result ≡ n }
{
    n
}

pub fn spare(n: u32) -> u32
    ensures { Held n }
{
    n
}

impl Box {
    pub fn eq(&self, other: &Box) -> bool
        ensures { Held result }
    {
        true
    }
}
"""
TOP = """#![tactic(auto)]
use low::{half, Box};

pub fn quarter(n: u32) -> u32
    requires { 0 < n }
    ensures { Held result }
{
    half(half(n))
}

const TEXT: &str = "a  b";
"""
FILES = {
    "bin/rt": CALLED,
    "kit": "kit 1 logic one\n",
    "answer": "refused, as it must be\n",
    "crates.txt": "low:\nother:\ntop: low # more\n",
    "crates/low/src/lib.rt": LOW,
    "crates/low/specs/Held.antt": "-- held\nHeld : ℕ → Type 0\n",
    "crates/low/proofs/Lib.antt": "one : 1 ≡ 1\n",
    "crates/other/src/lib.rt": "pub fn other() {}\n",
    "crates/top/src/lib.rt": TOP,
    "crates/top/specs/Lib.antt": "two : 2 ≡ 2\n",
    "crates/top/proofs/Lib.antt": "three : 3 ≡ 3\n",
    "crates/top/wrong-bodies/once.edit": "file: src/lib.rt\nold:     half(half(n))\nnew:     half(n)\n",
    "crates/top/wrong-bodies/never.edit": "file: src/lib.rt\nold:     half(half(n))\nnew:     n\n",
}
EDIT = "crates/top/wrong-bodies/never.edit"
# What is changed: a file, a text in it and what it becomes; and whether the crate `top` is to be tried again.
CHANGES = (
    ("a comment", False, "crates/top/src/lib.rt", "#![tactic(auto)]", "#![tactic(auto)]\n// One more."),
    ("the layout of code", False, "crates/top/src/lib.rt", "use low::{half, Box};", "use low::{\n    Box,\n    half,\n};"),
    ("code", True, "crates/top/src/lib.rt", "half(half(n))\n", "half(half(n)) + 0\n"),
    ("a blank in a text", True, "crates/top/src/lib.rt", "a  b", "a b"),
    ("a definition", True, "crates/top/specs/Lib.antt", "2 ≡ 2", "2 ≡ 3"),
    ("a proof", True, "crates/top/proofs/Lib.antt", "3 ≡ 3", "3 ≡ 4"),
    ("a wrong body", True, EDIT, "new:     n", "new:     n + n"),
    ("its row", True, "crates.txt", "top: low", "top: low other"),
    ("a comment of its row", False, "crates.txt", "# more", "# less"),
    ("the logic of the kit", True, "kit", "logic one", "logic two"),
    ("a kit of the same logic", False, "kit", "kit 1", "kit 2"),
    ("a definition below", True, "crates/low/specs/Held.antt", "ℕ → Type 0", "ℕ → ℕ → Type 0"),
    ("a comment of a definition below", False, "crates/low/specs/Held.antt", "-- held", "-- is held"),
    ("a public clause below", True, "crates/low/src/lib.rt", "ensures { Held result }", "ensures { Held n }"),
    ("a public premise below", True, "crates/low/src/lib.rt", "requires { 0 < n }\n", ""),
    ("a clause of a trait below", True, "crates/low/src/lib.rt", "result ≡ self.now.held", "result ≡ 0"),
    ("a type below", True, "crates/low/src/lib.rt", "side: u32", "side: u16"),
    ("what a word of a clause below is", True, "crates/low/src/lib.rt", "low.specs.Held", "low.specs.Other"),
    ("a body below", False, "crates/low/src/lib.rt", "n / 2", "n - n / 2"),
    ("a trait's own body below", False, "crates/low/src/lib.rt", "        1\n", "        2\n"),
    ("a function below that no other crate can call", False, "crates/low/src/lib.rt", "result ≡ n }", "result ≡ n + 0 }"),
    ("a proof below", False, "crates/low/proofs/Lib.antt", "1 ≡ 1", "1 ≡ 1 + 0"),
    ("a crate on which it does not stand", False, "crates/other/src/lib.rt", "other", "others"),
)
# An old and a new name a line.
MAP = "low base\nhalf the_halved_one\n"


class Small:
    """The small repository."""

    def __init__(self, room):
        self.room, self.kept = room, f"{room}/checks/wrong_bodies.txt"
        for path, text in FILES.items():
            prove.write(f"{room}/{path}", text)
        os.chmod(f"{room}/bin/rt", 0o755)
        os.makedirs(f"{room}/checks")
        for name in SCRIPTS:
            shutil.copy(f"{os.path.dirname(os.path.realpath(__file__))}/{name}", f"{room}/checks")
        self.around = {**os.environ, "ROOM": room, "PATH": f"{room}/bin:{os.environ.get('PATH', '')}", "GIT_DIR": f"{room}/none"}

    def run(self, *words):
        """The status and the output of checks/wrong_bodies.py."""
        script = [sys.executable, "-B", f"{self.room}/checks/wrong_bodies.py", "--jobs", "1", *words]
        ran = subprocess.run(script, env=self.around, capture_output=True, text=True, check=False)
        return ran.returncode, ran.stdout + ran.stderr

    def put(self, path, text):
        prove.write(f"{self.room}/{path}", text)

    def turn(self, path, old, new):
        """Turns a text that stands in a file, and gives what puts it back."""
        text = prove.text(f"{self.room}/{path}")
        assert old in text, (path, old)
        self.put(path, text.replace(old, new, 1))
        return lambda: self.put(path, text)

    def is_told(self):
        """Whether it is told that `top` is to be tried, or that something is gone."""
        status, said = self.run("--list")
        return status == 1 and ("wrong-bodies): top\n" in said or "gone" in said)

    def rename(self, names):
        """Changes names in all files and folders of the crates, and in the rows."""
        files = [*crate_sums.files_in(self.room, ["crates"]), f"{self.room}/crates.txt"]
        for path in files:
            text = prove.text(path)
            for old, new in names.items():
                text = re.sub(rf"\b{old}\b", new, text)
            with open(path, "w", encoding="utf-8") as file:
                file.write(text)
        for old, new in names.items():
            if os.path.isdir(f"{self.room}/crates/{old}"):
                os.rename(f"{self.room}/crates/{old}", f"{self.room}/crates/{new}")


def before(home):
    """The sum of a crate as it was taken before the sums were widened."""
    total = hashlib.sha256()
    for part in ("src", "specs", "wrong-bodies"):
        for at, inner, names in os.walk(f"{home}/{part}"):
            inner.sort()
            for path in (f"{at}/{it}" for it in sorted(names)):
                text = crate_sums.without_comments(path, prove.text(path))
                total.update(f"{os.path.relpath(path, home)}\n{text}\n".encode())
    return total.hexdigest()[:32]


def of_changes(small):
    """Of each change whether it is told as it is to be."""
    for what, wanted, path, old, new in CHANGES:
        put_back = small.turn(path, old, new)
        yield what, small.is_told() == wanted
        put_back()
    yield "nothing", not small.is_told()


def of_trying(small):
    """Rows are written where all are refused, and only there."""
    small.put("answer", "NOT REFUSED\n")
    yield "wrong bodies that are not refused", small.run()[0] == 1 and small.is_told()
    small.put("answer", FILES["answer"])
    yield "wrong bodies that are refused", small.run()[0] == 0 and not small.is_told()
    yield "how many they are", prove.text(small.kept).splitlines()[-1].startswith("top 2 ")


def of_losses(small):
    """Wrong bodies and rows that go are told."""
    for path, text in ((it, FILES[it]) for it in FILES if "wrong-bodies" in it):
        os.remove(f"{small.room}/{path}")
        status, said = small.run("--list")
        last = path.endswith("never.edit")
        wanted = "top: all of its 2 wrong bodies are gone" if last else "top: 1 of its 2 wrong bodies are gone"
        yield "the last wrong body that goes" if last else "a wrong body that goes", status == 1 and wanted in said
    yield "that all are gone on purpose", small.run("--gone", "top")[0] == 0 and small.run("--list")[0] == 0
    for path in FILES:
        if "wrong-bodies" in path:
            small.put(path, FILES[path])
    yield "a row that is gone", small.is_told()
    yield "wrong bodies that are there and are said to be gone", small.run("--gone", "top")[0] != 0
    small.run()
    put_back = small.turn("crates/top/src/lib.rt", "half(half(n))", "half(n)")
    yield "an edit of text that is gone", small.run("--list")[0] == 1 and "0 times" in small.run("--list")[1]
    put_back()


def of_few(small):
    """A row that nobody earned is told by what is drawn."""
    yield "what is drawn and refused", small.run("--few")[0] == 0
    for answer in ("NOT REFUSED", "BAD EDIT", "NOT TRIED"):
        small.put("answer", f"{answer}\n")
        yield f"what is drawn and {answer}", small.run("--few")[0] == 1
    small.put("forgets", "")
    status, said = small.run("--few")
    yield "that nothing is kept", status == 0 and "no wrong body is tried" in said
    os.remove(f"{small.room}/forgets")
    small.put("answer", FILES["answer"])
    costs = {"a": 40.0, "b": 60.0, "c": 90.0, "d": 100.0, "e": 345.0}
    draws = [[it for it, _ in wrong_bodies.drawn(costs, f"commit {number}")] for number in range(3000)]
    yield "what is drawn again by the same commit", draws[0] == [it for it, _ in wrong_bodies.drawn(costs, "commit 0")]
    yield "that each crate is drawn", {it for draw in draws for it in draw} == set(costs)
    seconds = [sum(costs[it] for it in draw) for draw in draws]
    yield "what a draw costs", all(it <= wrong_bodies.SECONDS or len(draw) == 1 for it, draw in zip(seconds, draws))
    yield "that dear draws are few", sum(it > wrong_bodies.SECONDS for it in seconds) < len(seconds) / 20


def of_widening(small):
    """Rows are taken over where the sum that covered less is that of the present text."""
    total = before(f"{small.room}/crates/top")
    small.put("checks/wrong_bodies.txt", f"top {total}\n")
    yield "a row that covers less", small.is_told()
    put_back = small.turn("crates/top/specs/Lib.antt", "2 ≡ 2", "2 ≡ 3")
    small.run("--widen")
    yield "another text, where rows are taken over", small.is_told() and "widened" not in prove.text(small.kept).splitlines()[-1]
    put_back()
    small.put("checks/wrong_bodies.txt", f"top {total}\n")
    small.run("--widen")
    yield "the same text, where rows are taken over", not small.is_told() and prove.text(small.kept).endswith(" widened\n")
    put_back = small.turn("crates/low/specs/Held.antt", "ℕ → Type 0", "ℕ → ℕ → Type 0")
    yield "a definition below, once the row is taken over", small.is_told()
    small.run()
    yield "that it was tried then", not small.is_told() and "widened" not in prove.text(small.kept).splitlines()[-1]
    put_back()
    small.run()


def of_names(small):
    """Rows stay where nothing but names changed."""
    small.put("map", MAP)
    kept = prove.text(small.kept)
    small.rename(dict(it.split() for it in MAP.splitlines()))
    yield "names that changed", small.is_told()
    put_back = small.turn("crates/top/src/lib.rt", "the_halved_one(n))", "the_halved_one(n + 0))")
    small.turn(EDIT, "the_halved_one(n))", "the_halved_one(n + 0))")
    small.turn(EDIT.replace("never", "once"), "the_halved_one(n))", "the_halved_one(n + 0))")
    small.run("--renamed", f"{small.room}/map")
    yield "more than names that changed", small.is_told()
    put_back()
    for edit in (EDIT, EDIT.replace("never", "once")):
        small.turn(edit, "n + 0", "n")
    small.put("checks/wrong_bodies.txt", kept)
    put_back = small.turn("crates/base/src/lib.rt", "fn the_halved_one", "fn half")
    small.run("--renamed", f"{small.room}/map")
    yield "a name that changed in some places alone", small.is_told()
    put_back()
    small.put("checks/wrong_bodies.txt", kept)
    small.run("--renamed", f"{small.room}/map")
    yield "a row that stays where names changed", not small.is_told()
    small.put("map", "low base\nother base\n")
    yield "a name that stands twice among the names", small.run("--renamed", f"{small.room}/map")[0] == 1


# What moves the text of `top` to another file, and what makes it another text: a file, and what it holds then.
MOVED = {
    "crates/top/src/lib.rt": "#![tactic(auto)]\nmod quarters;\n\npub use quarters::quarter;\n\nconst TEXT: &str = \"a  b\";\n",
    "crates/top/src/quarters.rt": TOP.replace("#![tactic(auto)]\n", "").partition("const")[0].replace("half(half", "halved(halved"),
    "crates/top/wrong-bodies/once.edit": "file: src/quarters.rt\nold:     halved(halved(n))\nnew:     halved(n)\n",
    EDIT: "file: src/quarters.rt\nold:     halved(halved(n))\nnew:     n\n",
    "crates/low/src/lib.rt": LOW.replace("half", "halved").replace("inner(n: u32) -> u32\n    ensures { result ≡ n }", "inner(n: u32) -> u32\n    ensures { n ≡ result }")
    .replace("spare(n: u32) -> u32\n    ensures { Held n }", "spare(n: u32) -> u32\n    ensures { Held result }")
    .replace("pub struct Box", "pub const NOUGHT: u32 = 0;\n\npub struct Box").replace("requires { 0 < n }", "requires { NOUGHT < n }"),
    "crates/top/specs/Lib.antt": "",
    "crates/low/specs/More.antt": "use Rattle.std.specs.Prelude.{ℕ}\n\ntwo :\n  2 ≡ 2\n\nfour :\n  4 ≡ 4\n",
    "crates/low/src/more.rt": "pub fn whole(n: u32) -> u32\n    ensures { result ≡ n }\n{\n    n\n}\n\nimpl Box {\n    pub fn hold_twice(&self) -> u32 {\n        2\n    }\n}\n",
}
NOT_MOVED = (
    ("a definition that is another where it went", "crates/low/specs/More.antt", "2 ≡ 2", "2 ≡ 3"),
    ("code that is other code where it went", "crates/top/src/quarters.rt", "halved(halved(n))\n", "halved(halved(n)) + 0\n"),
    ("a clause below that is new", "crates/low/src/lib.rt", "ensures { Held result }", "ensures { Held n }"),
    ("a clause below of what is called without its name", "crates/low/src/lib.rt", "bool\n        ensures { Held result }", "bool\n        ensures { Held self }"),
    ("a new clause of what stood below", "crates/low/src/more.rt", "whole", "halved"),
    ("a new definition of what stood below", "crates/low/specs/More.antt", "four :", "Held :"),
    ("a wrong body that is new", EDIT, "new:     n", "new:     n + n"),
    ("a proof that is new", "crates/top/proofs/Lib.antt", "3 ≡ 3", "3 ≡ 4"),
)


def of_moves(small):
    """Rows stay where text moved and nothing else changed."""
    for path, text in FILES.items():
        small.put(path, text)
    shutil.rmtree(f"{small.room}/crates/base", ignore_errors=True)
    small.put("map", "half halved\n0 NOUGHT\n")
    small.run()
    git = ["git", "--work-tree", small.room, "-c", "user.name=a", "-c", "user.email=a@b"]
    for words in (["init", "-q"], ["add", "crates", "crates.txt", "checks"], ["commit", "-qm", "as it was"]):
        subprocess.run([*git, *words], env=small.around, cwd=small.room, check=True)
    kept = prove.text(small.kept)
    for path, text in MOVED.items():
        small.put(path, text)
    yield "text that moved", small.is_told()
    for what, path, old, new in NOT_MOVED:
        put_back = small.turn(path, old, new)
        if path == "crates/top/src/quarters.rt":
            small.turn(EDIT, "halved(halved(n))", "halved(halved(n)) + 0")
            small.turn(EDIT.replace("never", "once"), "halved(halved(n))", "halved(halved(n)) + 0")
        small.run("--moved", "HEAD", "--names", f"{small.room}/map")
        yield what, small.is_told()
        put_back()
        small.put(EDIT, MOVED[EDIT])
        small.put(EDIT.replace("never", "once"), MOVED[EDIT.replace("never", "once")])
        small.put("checks/wrong_bodies.txt", kept)
    small.run("--moved", "HEAD")
    yield "a name that is new, where text moved", small.is_told()
    small.run("--moved", "HEAD", "--names", f"{small.room}/map")
    yield "a row that stays where text moved", not small.is_told() and prove.text(small.kept).endswith(" moved\n")


def test():
    told = wrong = 0
    with tempfile.TemporaryDirectory() as room:
        small = Small(room)
        for cases in (of_trying, of_changes, of_losses, of_few, of_widening, of_names, of_moves):
            for what, is_well in cases(small):
                told, wrong = told + 1, wrong + (not is_well)
                print("" if is_well else f"{what}: not told as it is to be\n", end="", flush=True)
        shutil.rmtree(f"{room}-prove", ignore_errors=True)
    print(f"{told - wrong} of {told} changes of a small repository are told as they are to be")
    return 1 if wrong else 0
