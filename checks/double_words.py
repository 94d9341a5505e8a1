#!/usr/bin/env python3
"""Words of definitions that stand twice: two files of specs/ define a public word of the same name, so that a reader has to look which.

    python3 checks/double_words.py            tells each
"""
import os
import re
import sys

ROOT = os.path.dirname(os.path.dirname(os.path.realpath(__file__)))
WORD = re.compile(r"^(?:abbrev |unfoldable |opaque )*pub (?:abbrev |unfoldable |opaque )*(?:record |data )?([^\W\d][\w'-]*)(?= |$)", re.MULTILINE)
NO_WORDS = {"use", "mod", "infix", "infixl", "infixr", "ruleset", "record", "data"}


def words():
    """Each public word of definitions with the files that define it."""
    found = {}
    for crate in sorted(os.listdir(f"{ROOT}/crates")):
        home = f"{ROOT}/crates/{crate}/specs"
        for name in sorted(os.listdir(home)) if os.path.isdir(home) else ():
            if name.endswith(".antt"):
                with open(f"{home}/{name}", encoding="utf-8") as file:
                    for word in {*WORD.findall(file.read())} - NO_WORDS:
                        found.setdefault(word, []).append(f"crates/{crate}/specs/{name}")
    return found


def faults():
    """The file, the line and what is wrong, as checks/docs.py tells it."""
    for word, files in sorted(words().items()):
        if len(files) > 1:
            yield files[0], 1, f"{word} stands twice, in {' and '.join(files)}: give it a name of its own"


def main():
    told = list(faults())
    for path, line, what in told:
        print(f"{path}:{line}: {what}", file=sys.stderr)
    return sys.exit(1 if told else 0)


if __name__ == "__main__":
    main()
