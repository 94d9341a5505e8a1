#!/usr/bin/env python3
"""Looks for code that lets go of what it owns without dropping it: no .rt file says `forget`, `ManuallyDrop`, `MaybeUninit`,
`leak`, `into_raw` or `unsafe`.

    python3 checks/no_leaks.py [FOLDER..]

No contract can see that a value is never dropped, so a result that leaks is proved as well as one that does not. Comments
and strings are left out, and so is the attribute by which C knows a function's name: it makes no code unsafe.
"""
import os
import re
import sys

ROOT = os.path.dirname(os.path.dirname(os.path.realpath(__file__)))
WORDS = re.compile(r"\b(forget|ManuallyDrop|MaybeUninit|leak|into_raw\w*|unsafe)\b")
# What is no code: comments, strings, raw strings and characters. A block comment may hold others.
OTHER = re.compile(
    r"""//[^\n]*|/\*|[bc]?r(?P<marks>\#*)".*?"(?P=marks)|[bc]?"(?:\\.|[^"\\])*"|b?'(?:\\[^\n]+?|[^'\\\n])'""", re.DOTALL
)
# What stands before a function that C calls.
EXPORT = re.compile(r"^#\[unsafe\(no_mangle\)\]$")


def end_of_comment(text, at):
    """Where the block comment that begins at `at` ends."""
    depth = 0
    for found in re.compile(r"/\*|\*/").finditer(text, at):
        depth += 1 if found[0] == "/*" else -1
        if not depth:
            return found.end()
    return len(text)


def code_of(text):
    """The text with blanks for comments, strings and characters; lines stay where they are."""
    parts, at = [], 0
    while found := OTHER.search(text, at):
        end = end_of_comment(text, found.start()) if found[0] == "/*" else found.end()
        parts += [text[at : found.start()], re.sub(r"[^\n]", " ", text[found.start() : end])]
        at = end
    return "".join([*parts, text[at:]])


def files_below(folders):
    for folder in folders:
        for at, inner, files in os.walk(folder):
            inner[:] = sorted(it for it in inner if it not in ("out", ".git"))
            yield from (os.path.join(at, it) for it in sorted(files) if it.endswith(".rt"))


def main():
    files = list(files_below(sys.argv[1:] or [f"{ROOT}/crates"]))
    found = 0
    for path in files:
        with open(path, encoding="utf-8") as file:
            code = code_of(file.read())
        for number, line in enumerate(code.split("\n"), 1):
            for word in [] if EXPORT.match(line) else WORDS.findall(line):
                found += 1
                print(f"{os.path.relpath(path)}:{number}: `{word}` lets go of a value without dropping it", file=sys.stderr)
    if not files:
        sys.exit("there is no .rt file to look at")
    if found:
        sys.exit(f"{found} leaks in code: what a value owns has to be dropped with it")


if __name__ == "__main__":
    main()
