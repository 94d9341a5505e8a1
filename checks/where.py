#!/usr/bin/env python3
"""Prints where a type, a function, a constant or a word of definitions stands, and where lemmas of that name do.

    python3 checks/where.py NAME..    or: make where NAME=..

A method is told with its type. Of a name that nothing defines, the lines of use are told that give it to something.
"""
import os
import re
import sys

ROOT = os.path.dirname(os.path.dirname(os.path.realpath(__file__)))
PARTS = ("src", "specs", "proofs")
CODE = r"^\s*(?:pub(?:\(\w+\))? )?(?:unsafe |const |ghost |extern \S+ )*(?:fn|struct|enum|trait|type|union|const|static|mod) {}\b"
WORD = r"^(?:  )*(?:pub |abbrev |unfoldable |opaque )*(?:(?:record|data) {0}(?![\w'-])|{0} ?:(?!:))"
GIVEN = r"\b(?:use\b.*)?\w+ as {}\b"


def files():
    for at, inner, names in os.walk(f"{ROOT}/crates"):
        # Of a crate's folders those of sources alone.
        inner[:] = sorted(it for it in inner if os.path.dirname(at) != f"{ROOT}/crates" or it in PARTS)
        for name in sorted(names):
            if name.endswith((".rt", ".antt")):
                yield f"{at}/{name}"


def owner(lines, number):
    """The type whose function begins at a line."""
    if not lines[number].startswith(" "):
        return ""
    for line in reversed(lines[:number]):
        if found := re.match(r"(?:impl\b(?:<.*?>)? (?:.* for )?&?(?:\w+::)*(\w+)|(?:pub(?:\(\w+\))? )?trait (\w+))", line):
            return f"{found[1] or found[2]}::"
    return ""


def places(name):
    """Each line that defines a name, or else that gives it."""
    found, given = [], []
    quoted = re.escape(name)
    patterns = {".rt": re.compile(CODE.format(quoted)), ".antt": re.compile(WORD.format(quoted))}
    as_name = re.compile(GIVEN.format(quoted))
    for path in files():
        with open(path, encoding="utf-8") as file:
            text = file.read()
        if name not in text:
            continue
        lines = text.splitlines()
        for number, line in enumerate(lines):
            told = f"{os.path.relpath(path, ROOT)}:{number + 1}: "
            if patterns[os.path.splitext(path)[1]].match(line):
                type_name = owner(lines, number) if path.endswith(".rt") else ""
                found.append(f"{told}{type_name and f'({type_name}{name}) '}{line.strip()[:110]}")
            elif as_name.search(line):
                given.append(f"{told}{line.strip()[:110]}")
    return found or given


def main():
    names = sys.argv[1:]
    if not names:
        sys.exit(__doc__)
    for name in names:
        print("\n".join(places(name)) or f"nothing has the name {name}")


if __name__ == "__main__":
    main()
