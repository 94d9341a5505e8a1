"""What the wrong bodies of a crate were refused over, as a sum, for checks/wrong_bodies.py.

A crate's sum covers its own src/, specs/, proofs/ and wrong-bodies/, its row of crates.txt, the logic of the kit, and of each crate
that it stands on what a caller sees: its specs/, and its src/ without bodies and without the functions that no other crate can call.
Comments are not in it, nor is what `rt fmt` may change of code once a name is longer: ends of lines, commas before a closing bracket,
and the order of `use` and `mod`.

Names can be mapped back to what they were before: then the sum is that of the text before they were changed.
"""
import functools
import hashlib
import os
import re

import prove

EDITS = "wrong-bodies"
OWN = ("src", "specs", "proofs", EDITS)
SEEN = ("src", "specs")
# What the sums covered before: the crate's own code, definitions and edits, and nothing else.
NARROW = ("src", "specs", EDITS)
COMMENTS = {".rt": "//", ".antt": "--"}


def without_comments(path, text):
    """The lines of a file that are no comment."""
    mark = COMMENTS.get(os.path.splitext(path)[1])
    lines = (it.rstrip() for it in text.splitlines())
    return "\n".join(it for it in lines if it and not (mark and it.lstrip().startswith(mark)))


# ---- code without its layout

QUOTED = r"""(?s:"(?:[^"\\]|\\.)*"|'(?:[^'\\\n]|\\[^'\n]*.)')"""
USE = r"(?<!\w)(?:pub(?:\(\w+\))? )?(?:(?:ghost )?use [^;]*|mod \w+);"


def sorted_names(found):
    return "{" + ", ".join(sorted(it.strip() for it in found[1].split(","))) + "}"


def one_line(code):
    """Code as one line, in which the lines that name modules and words of others stand sorted; texts in quotes stay as they are."""
    texts = re.findall(QUOTED, code)
    line = unquoted_line(re.sub(QUOTED, '""', code))
    return "\n".join([line, *texts])


def unquoted_line(code):
    code = re.sub(r"([(\[])\n\s*", r"\1", code)
    code = re.sub(r",?\n\s*([)\]])", r"\1", code)
    code = re.sub(r",?\n\s*}", " }", code)
    code = re.sub(r"\n\s*(\.\w)", r"\1", code)
    code = re.sub(r"\s+", " ", code)
    code = re.sub(USE, lambda it: re.sub(r"{([^{}]*)}", sorted_names, it[0]), code)
    return re.sub(rf"{USE}(?: {USE})+", lambda it: " ".join(sorted(re.findall(USE, it[0]))), code)


# ---- what a caller sees of code

TOKEN = re.compile(rf"{QUOTED}|" + r"""[^"'()\[\]{};#]+|.""", re.S)
CLAUSE = re.compile(r"\b(requires|ensures)(\s+\w+)?\s*\Z")
ITEM = re.compile(r'\s*(?P<public>pub(?P<within>\s*\([^)]*\))?\s+)?(?:(?:unsafe|extern\s+"C"|const(?=\s+(?:unsafe\s+)?fn\b))\s+)*(?P<kind>\w+)')
OPENING, CLOSING = ("(", "[", "{"), (")", "]", "}")


class Code:
    """The code of a file, which is read item by item; `seen` is the text of those that a caller sees."""

    def __init__(self, code):
        self.tokens, self.at, self.seen = [*TOKEN.findall(code), ""], 0, ""

    def take(self):
        self.at += 1
        return self.tokens[self.at - 1]

    def is_at(self, *tokens):
        return self.tokens[self.at] in tokens

    def group(self):
        """The text of the group in brackets that begins here."""
        text, depth = "", 0
        while not text or depth:
            if self.is_at(""):
                raise ValueError("a bracket is not closed")
            depth += self.is_at(*OPENING) - self.is_at(*CLOSING)
            text += self.take()
        return text

    def attributes(self):
        text = ""
        while self.is_at("#") or self.tokens[self.at].isspace():
            text += self.take()
            if text.endswith("#"):
                text += (self.take() if self.is_at("!") else "") + self.group()
        return text

    def head(self):
        """The text up to the next group in braces, or to the end of the item."""
        text = ""
        while not self.is_at("{", "}", ";", ""):
            text += self.group() if self.is_at("(", "[") else self.take()
        return text

    def function(self, head):
        """The head and the clauses of a function."""
        while CLAUSE.search(head):
            head += self.group() + self.head()
        if self.is_at(";"):
            return head + self.take()
        self.group()
        return head

    def item(self, all_are_seen):
        attributes, head = self.attributes(), self.head()
        if self.is_at("") and not head:
            self.seen += attributes
            return
        found = ITEM.match(head)
        kind = found["kind"] if found else ""
        is_public = bool(found and found["public"] and not found["within"])
        if kind == "fn":
            function = self.function(head)
            self.seen += f"{attributes}{function}" if all_are_seen or is_public else ""
            return
        self.seen += attributes + head
        if kind in ("impl", "trait", "mod") and self.is_at("{"):
            self.seen += self.take()
            self.items(kind == "trait" or kind == "impl" and bool(re.search(r"\bfor\b(?!\s*<)", head)))
        elif kind in ("struct", "enum", "macro_rules") and self.is_at("{"):
            self.seen += self.group()
            return
        while self.is_at("{"):
            self.seen += self.group() + self.head()
        if self.is_at(""):
            raise ValueError("an item does not end")
        self.seen += self.take()

    def items(self, all_are_seen):
        """The items of a file or of a block; functions that are not public are only seen where all are."""
        while not self.is_at("}", ""):
            self.item(all_are_seen)
            self.seen += self.take() if self.tokens[self.at].isspace() else ""


def promised(code, of_all=False):
    """What a caller sees of a file's code, or what is said of all its functions; all of it where it cannot be read."""
    read = Code(code)
    try:
        read.items(of_all)
    except ValueError:
        return code
    return read.seen if read.is_at("") else code


# ---- sums

def renaming(names):
    """Maps the names of a text back, of which `names` has the old one of each new one."""
    if not names:
        return lambda text: text
    words = "|".join(sorted(map(re.escape, names), key=len, reverse=True))
    return lambda text: re.sub(rf"(?<!\w)(?:{words})(?!\w)", lambda it: names[it[0]], text)


def files_in(home, parts):
    """The paths of a crate's files in these parts of it."""
    for part in parts:
        for at, inner, names in os.walk(f"{home}/{part}"):
            inner.sort()
            yield from (f"{at}/{it}" for it in sorted(names))


def as_walked(path):
    """Orders paths as they are met where folders are walked: the files of a folder before the folders in it."""
    *folders, name = path.split("/")
    return [(NARROW.index(folders[0]), ""), *((1, it) for it in folders[1:]), (0, name)]


def digest(parts):
    total = hashlib.sha256()
    for part in parts:
        total.update(f"{len(part)}\n{part}".encode())
    return total.hexdigest()[:32]


class Sums:
    """The sums of the crates of a repository as it stands, or as it was before names were changed; `names` has the old ones of these."""

    def __init__(self, root, rows, logic, names=None):
        self.root, self.rows, self.logic = root, rows, logic
        # Names that are new in some files alone have behind them the crates or files, as CRATE or CRATE/src/FILE.rt.
        self.names = {new: old for new, old in (names or {}).items() if isinstance(old, str)}
        self.within = {new: old for new, old in (names or {}).items() if not isinstance(old, str)}
        self.back = renaming(self.names)

    def names_within(self, name, path):
        """The names that are new in a file of a crate, with the old ones."""
        here = {new: old for new, (old, places) in self.within.items() if name in places or f"{name}/{path}" in places}
        return {**self.names, **here}

    def back_in(self, name, path):
        """Maps the names of a file back."""
        return renaming(self.names_within(name, path)) if self.within else self.back

    def home(self, name):
        return f"{self.root}/crates/{name}"

    def edits(self, name):
        """The paths of a crate's wrong bodies."""
        return [it for it in files_in(self.home(name), [EDITS]) if it.endswith(".edit")]

    @functools.cache
    def texts(self, name, parts):
        """The path and the text of each file in parts of a crate, without comments."""
        home = self.home(name)
        return [(os.path.relpath(it, home), without_comments(it, prove.text(it))) for it in files_in(home, parts)]

    def part(self, name, parts, view):
        """A sum of parts of a crate, whose code is viewed in some way."""
        found = sorted((self.back_in(name, path)(path), self.back_in(name, path)(text)) for path, text in self.texts(name, parts))
        return digest(it for path, text in found for it in (path, one_line(view(text)) if path.endswith(".rt") else text))

    @functools.cache
    def own(self, name):
        return self.part(name, OWN, lambda code: code)

    @functools.cache
    def promise(self, name):
        return self.part(name, SEEN, promised)

    def wide(self, name):
        """The sum of a crate."""
        below = sorted((self.back(it), self.promise(it)) for it in prove.all_below(name, self.rows))
        row = [self.back(name), *sorted(self.back(it) for it in self.rows[name])]
        return digest([self.logic, " ".join(row), self.own(name), *(it for pair in below for it in pair)])

    def narrow(self, name):
        """The sum that was taken before: of a crate's own code, definitions and wrong bodies alone, by lines."""
        found = [(self.back(path), self.back(text)) for path, text in self.texts(name, NARROW)]
        lines = (f"{path}\n{text}\n" for path, text in sorted(found, key=lambda it: as_walked(it[0])))
        return hashlib.sha256("".join(lines).encode()).hexdigest()[:32]

    def has_old_names(self, name):
        """Whether an old name still stands in what the sum covers: then one name became two, and mapping back joins them."""
        texts = [(name, it) for it in self.texts(name, OWN)]
        texts += [(low, it) for low in prove.all_below(name, self.rows) for it in self.texts(low, SEEN)]
        return any(self.is_old(crate, path, text) for crate, (path, text) in texts)

    def is_old(self, crate, path, text):
        """Whether an old name still stands in a file in which it has a new one."""
        names = self.names_within(crate, path)
        olds = {*names.values()} - {*names}
        words = re.compile(rf"(?<!\w)(?:{'|'.join(map(re.escape, olds))})(?!\w)") if olds else None
        return bool(words) and bool(words.search(path) or words.search(text))
