#!/usr/bin/env python3
"""Makes the picture of docs/dev/DESIGN.md and the order of docs/dev/CRATES.md of crates.txt, where each crate stands once.

    python3 checks/floors.py            tells where they differ from crates.txt; status 1 where they do
    python3 checks/floors.py --write    writes them; a crate that docs/dev/CRATES.md lacks gets a row with its line

crates.txt has sections, from the floor up. Each begins with `## ` and its name; behind a crate's row stands # and what the crate is.
"""
import os
import re
import sys

ROOT = os.path.dirname(os.path.dirname(os.path.realpath(__file__)))
DESIGN, CRATES = "docs/dev/DESIGN.md", "docs/dev/CRATES.md"
# The sections that the picture leaves out.
BESIDE = ("tests", "wrong bodies", "times")
HEAD = "| crate | what it is | the contract that carries it |\n|---|---|---|\n"
RULE = " " + "-" * 89 + "\n"


def read(path):
    with open(f"{ROOT}/{path}", encoding="utf-8") as file:
        return file.read()


def sections():
    """The name of each section with its crates and what they are."""
    found = []
    for line in read("crates.txt").splitlines():
        if line.startswith("## "):
            found.append((line[3:].strip(), []))
        elif line.strip() and not line.startswith("#"):
            row, _, what = line.partition("#")
            if not found or not what.strip():
                sys.exit(f"crates.txt: {row.split(':')[0]} stands in no section, or without a word on what it is")
            found[-1][1].append((row.split(":")[0].split()[0], what.strip()))
    return found


def picture(found):
    """The floors, the lowest at the bottom."""
    floors = [it for it in reversed(found) if it[0] not in BESIDE]
    wide = max(len(name) for _, crates in floors for name, _ in crates)
    parts = []
    for title, crates in floors:
        names = [title, *[""] * len(crates)]
        parts.append("".join(f" {names[n]:14} {name:{wide}}  {what}\n" for n, (name, what) in enumerate(reversed(crates))))
    return RULE.join(parts)


def design(text, found):
    """The text with the picture between its first fences."""
    start = text.index("```\n") + 4
    return text[:start] + picture(found) + text[text.index("```", start):]


def crates(text, found):
    """The text with a table for each section; each row as it stands, in the section of its first crate."""
    rows = {re.search(r"`(\w+)`", it)[1]: it for it in re.findall(r"^\| `.*$", text, re.MULTILINE)}
    named = {name for row in rows.values() for name in re.findall(r"`(\w+)`", row.split("|")[1])}
    front = text[:re.search(r"^(## |\| crate )", text, re.MULTILINE).start()]
    parts = []
    for title, inner in found:
        lines = [rows.get(name) or f"| `{name}` | {what} | |" for name, what in inner if name in rows or name not in named]
        parts.append(f"## {title[0].upper()}{title[1:]}\n\n{HEAD}" + "".join(f"{it}\n" for it in lines))
    return front + "\n".join(parts)


def main():
    found, wrong = sections(), []
    for path, make in ((DESIGN, design), (CRATES, crates)):
        text = read(path)
        made = make(text, found)
        if made != text:
            wrong.append(path)
            if sys.argv[1:] == ["--write"]:
                with open(f"{ROOT}/{path}", "w", encoding="utf-8") as file:
                    file.write(made)
    if wrong and sys.argv[1:] != ["--write"]:
        sys.exit("".join(f"{it} is not as crates.txt has it: run checks/floors.py --write\n" for it in wrong))


if __name__ == "__main__":
    main()
