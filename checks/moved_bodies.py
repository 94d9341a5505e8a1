"""Which rows of checks/wrong_bodies.txt stay true where text only moved between files and crates, for checks/wrong_bodies.py.

A wrong body is let through only where what its crate stands on promises other things than before. A crate keeps its row where each of
its wrong bodies, each part of its own text, and each part of what it sees of the crates below stood to the letter in the repository
as it was at a commit, whose rows were true. So nothing is new on which a wrong body could be proved; less there may be. A part is what
stands between two empty lines. Lines that name modules and words of others do not count, nor do layout and who may call a function,
since a wrong body calls what it called before; and names of one line of a map count as one word, as does a number with the name that
it got. Of functions below, those count that the crate names, or calls without their names. What is new does not count where all its
names are new: neither a wrong body nor a part that stood before names it, and what nobody names proves nothing.
"""
import functools
import os
import re
import subprocess
import tempfile
import typing

import crate_sums
import prove

ANTT_USE = re.compile(r"^(?:pub )?(?:use|mod) .*$", re.M)
RT_USE = re.compile(crate_sums.USE)
# What is said to the tactics, whose paths name modules.
TACTIC = re.compile(r"#\[tactic\((?:[^()]|\([^()]*\))*\)\]")
MODULES = re.compile(r"(?<![\w:])(?:\$?[a-z_][a-z0-9_]*::)+")
PARTS = ("src", "specs", "proofs")
# What code and definitions give a name to.
DECLARED = re.compile(r"\b(?:fn|struct|enum|trait|const|type|macro_rules!) +(\w+)")
DEFINED = re.compile(r"^(?:(?:abbrev|record|data|opaque|pub|private) )*([^\s:(|]+)", re.M)
# A method: who had none of its name calls none.
METHOD = re.compile(r"\bfn +(\w+)(?:<[^(]*>)?\((?:&(?:mut )?)?self\b")
# What a block of methods begins with.
BLOCK = re.compile(r"^((?:#\[[^]]*\] )*(?:impl|trait)\b[^{]*)\{ ")
# Methods that code calls without their names: by an operator, a loop, a `?`, or where a value ends.
UNNAMED = set("""add add_assign bitand bitor bitxor clone cmp default deref deref_mut div drop eq fmt from index index_mut into into_iter
mul ne neg next not partial_cmp rem shl shr sub sub_assign""".split())
# A number whose name, by the map, is one word with it.
NUMBER = re.compile(r"const (\w+): \w+ = \1;")


class Part(typing.NamedTuple):
    """A part in one line, and the names that it gives to something: none where that is not plain to see."""
    text: str
    names: tuple


class Words(typing.NamedTuple):
    """All words of a repository's crates, and those among them that are names of methods."""
    all: set
    methods: set


def words_as_one(pairs):
    """A function that writes the last of the names that a chain of pairs joins for each of them."""
    first = {}

    def root(word):
        while first.get(word, word) != word:
            word = first[word]
        return word

    for old, new in pairs:
        first[root(old)] = root(new)
    return crate_sums.renaming({it: root(it) for it in first})


def parts_of(path, text, as_one):
    """The parts of a file's text, each in one line."""
    mark = crate_sums.COMMENTS.get(os.path.splitext(path)[1], "#")
    text = "\n".join("" if it.isspace() else it for it in text.splitlines() if not it.lstrip().startswith(mark))
    text = (RT_USE if path.endswith(".rt") else ANTT_USE).sub("", text)
    text = re.sub(r"\bpub(?:\(\w+\))? ", "", text)
    text = TACTIC.sub(lambda it: re.sub(r"\w+::", "", it[0]), text)
    text = MODULES.sub("", text)
    line = crate_sums.one_line if path.endswith(".rt") else lambda it: re.sub(r"\s+", " ", it)
    names = declared if path.endswith(".rt") else defined
    found = {Part(unbraced(line(it).strip()), names(it)) for it in re.split(r"\n\s*\n", as_one(text))}
    return {it for it in found if it.text not in ("", "}", "{")}


def unbraced(text):
    """A part without the braces that end what began before it: its last function may have become another."""
    while text.endswith("}") and text.count("{") < text.count("}"):
        text = text[:-1].rstrip()
    return text


def shown(code):
    """Code without what its own crate alone can call."""
    parts = re.split(r"\n\s*\n", code)
    return "\n\n".join(it for it in parts if not re.search(r"\bpub\(crate\) fn\b", it) or len(re.findall(r"\bfn +\w", it)) != 1)


def without_body(part):
    """A part of code that is one function, without its body, which no other crate sees."""
    text = unbraced(BLOCK.sub(r"\1: ", part.text))
    if len(re.findall(r"\bfn +\w", text)) != 1 or not text.endswith("}"):
        return part
    depth, at = 0, len(text)
    while at and (depth or at == len(text)):
        at -= 1
        depth += {"}": 1, "{": -1}.get(text[at], 0)
    has_body = not re.search(r"\b(?:ensures|requires)(?: +\w+)? *$", text[:at])
    return Part(text[:at].rstrip(), part.names) if has_body else part


def declared(code):
    """What a part of code gives a name to; nothing where it says which type has a trait."""
    return () if re.search(r"\bimpl\b[^{]*\bfor\b", code) else tuple(DECLARED.findall(code))


def defined(text):
    return tuple(DEFINED.findall(text))


def words_in(texts):
    return {word for it in texts for word in re.findall(r"[\w'-]+|[^\s\w(){};,]+", it)}


def is_named(part, words):
    """Whether a part below is anything but functions, or a crate's words name one of them: of the others it knows no clause."""
    functions = re.findall(r"\bfn +(\w+)", part.text)
    return len(functions) < len(part.names) or not functions or bool((words | UNNAMED) & {*functions})


def is_added(part, words):
    """Whether all that a part gives a name to has one that nothing had before, or the part names a number that stood there before."""
    methods = METHOD.findall(part.text)
    used = words.methods if methods and len(methods) == len(part.names) else words.all
    return bool(part.names) and not used & {*part.names} or bool(NUMBER.fullmatch(part.text))


class Tree:
    """The parts of the crates of a repository, in which names that a map joins are one word."""

    def __init__(self, root, as_one):
        self.root, self.as_one, self.rows = root, as_one, prove.needs_by_crate(root)
        self.sums = crate_sums.Sums(root, self.rows, prove.logic())

    def edits(self, name):
        """The turned and the new texts of each of a crate's wrong bodies."""
        texts = [re.sub(r"^file: .*\n", "", prove.text(it), flags=re.M) for it in self.sums.edits(name)]
        return [MODULES.sub("", self.as_one(it)) for it in texts]

    @functools.cache
    def own(self, name):
        files = list(crate_sums.files_in(f"{self.root}/crates/{name}", PARTS))
        return set().union(*(parts_of(it, prove.text(it), self.as_one) for it in files))

    @functools.cache
    def seen(self, name, every=False):
        """The parts of what other crates see of a crate; or of what is said of all its functions."""
        found = set()
        for path in crate_sums.files_in(f"{self.root}/crates/{name}", crate_sums.SEEN):
            text = prove.text(path)
            is_code = path.endswith(".rt")
            if is_code:
                text = crate_sums.promised(text, every)
            parts = parts_of(path, shown(text) if is_code and not every else text, self.as_one)
            found |= {without_body(it) for it in parts} if is_code else parts
        return found

    def every(self, parts):
        return set().union(*(parts(it) for it in self.rows))

    def words(self):
        parts = [*(it.text for it in self.every(self.own)), *(it for name in self.rows for it in self.edits(name))]
        return Words(words_in(parts), {name for part in parts for name in METHOD.findall(part)})


def was_true(tree, kept):
    """The crates of a repository whose row is that of their text there."""
    return [it for it in tree.rows if it in kept and kept[it].sum == tree.sums.wide(it)]


def kept_rows(commit, pairs, kept, rows_in):
    """The rows with those of crates whose text only moved since the commit, and what is new in each of the others."""
    as_one = words_as_one(pairs)
    with tempfile.TemporaryDirectory() as room:
        shown = subprocess.run(["git", "-C", prove.ROOT, "archive", commit, "crates", "crates.txt", "checks"], capture_output=True, check=True)
        subprocess.run(["tar", "-x", "-C", room], input=shown.stdout, check=True)
        old, now = Tree(room, as_one), Tree(prove.ROOT, as_one)
        sure = was_true(old, rows_in(f"{room}/checks/wrong_bodies.txt"))
        bodies = {body for it in sure for body in old.edits(it)}
        old_rows = rows_in(f"{room}/checks/wrong_bodies.txt")
        marks = {body: old_rows[it].mark for it in sure for body in old.edits(it)}
        own, seen = old.every(old.own), old.every(lambda it: old.seen(it) | old.seen(it, True))
        words = old.words()
        found, new = dict(kept), {}
        for name in now.rows:
            edits = now.edits(name)
            if not edits or name in kept and kept[name].sum == now.sums.wide(name):
                continue
            below = set().union(*(now.seen(it) for it in prove.all_below(name, now.rows))) - seen
            said = words_in([*(it.text for it in now.own(name)), *edits])
            changed = {it for it in now.own(name) - own | {it for it in below if is_named(it, said)} if not is_added(it, words)}
            new[name] = [*(set(edits) - bodies), *(it.text for it in changed)]
            if not new[name]:
                mark = sorted({word for it in edits for word in marks[it]} | {"moved"})
                found[name] = (len(edits), now.sums.wide(name), mark)
        gone = [it for it in kept if it not in now.rows or not now.edits(it)]
        everywhere = {body for it in now.rows for body in now.edits(it)}
        for name in gone:
            if name in sure and set(old.edits(name)) <= everywhere:
                del found[name]
    return found, {name: parts for name, parts in new.items() if parts}
