#!/usr/bin/env python3
"""Tells rows of crates.txt that name more than they need.

    python3 checks/thin_rows.py [--test]

`rt` sums up the sources below a crate along every path of rows, so an entry that another entry of its row reaches costs time in
each crate above. Rows of libraries have no such entry but `mw_model`, whose words all crates use, `mw_grid`, whose words many use,
`mw_element_runs`, by whose runs an element is counted, and `mw_step_task`, whose steps who shares out tasks has to tell apart. On static libraries, crates of tests and leaves for wrong bodies (edits_*) nothing stands, and on some libraries only such crates
or libraries of that kind, so these rows name what they use. With --test it looks at rows that are spoiled.
"""
import os
import sys

ROOT = os.path.dirname(os.path.dirname(os.path.realpath(__file__)))
# What a row may name beside the crates that reach it.
ALWAYS = ("mw_model", "mw_grid", "mw_element_runs", "mw_step_task")


def rows_of(text):
    """Each crate with the entries of its row that are crates of the repository."""
    rows = {}
    for line in text.splitlines():
        name, _, needs = line.partition("#")[0].partition(":")
        if name.strip():
            # Behind a crate's name may stand what it is, as staticlib, or what its verdict may have, as may_wait=15.
            rows[name.split()[0]] = needs.split(), name.split()[1:]
    return {name: ([it for it in needs if it in rows], words) for name, (needs, words) in rows.items()}


def all_below(rows, name):
    """The crates that a crate stands on, at any depth."""
    found = set()
    for it in rows[name]:
        found |= {it} | all_below(rows, it)
    return found


def at_the_top(rows_and_words):
    """Crates of tests, leaves, static libraries, and the libraries on which only these and such libraries stand."""
    top = {name for name, (_, words) in rows_and_words.items()
           if name.startswith(("test_", "edits_")) or "staticlib" in words}
    users = {name: {it for it, (needs, _) in rows_and_words.items() if name in needs} for name in rows_and_words}
    for _ in rows_and_words:
        top |= {name for name, found in users.items() if found and found <= top}
    return top


def needless(rows_and_words):
    """The entries of libraries' rows that another entry reaches."""
    rows = {name: needs for name, (needs, _) in rows_and_words.items()}
    below = {name: all_below(rows, name) for name in rows}
    top = at_the_top(rows_and_words)
    libraries = {it for name, needs in rows.items() if name not in top for it in needs if it not in top}
    for name in [it for it in rows if it in libraries]:
        for entry in rows[name]:
            through = [it for it in rows[name] if entry in below[it]]
            if entry not in ALWAYS and through:
                yield f"crates.txt: {name} need not name {entry}, which {through[0]} reaches"


def test():
    """Sees that a needless entry of a library is told, and nothing else."""
    rows = "mw_facts:\nmw_model: mw_facts\nlow: mw_model\nhigh: mw_model low\ntop: mw_model high low\n"
    for text, wanted in (
        (rows, []),
        (rows.replace("low: mw_model", "low: mw_facts mw_model"), ["crates.txt: low need not name mw_facts, which mw_model reaches"]),
        (rows + "above: top\n", ["crates.txt: top need not name low, which high reaches"]),
        (rows.replace("low: mw_model", "mw_grid: mw_model\nlow: mw_model mw_grid").replace("high: ", "high: mw_grid "), []),
        (rows + "test_top: top\n", []),
        (rows + "top_c staticlib: top\n", []),
        (rows + "edits_top: top\n", []),
        (rows + "calls: high top\ntop_c staticlib: calls\ntest_calls: calls\n", []),
        (rows + "calls: top\ntop_c staticlib: calls\nprogram: calls\n", ["crates.txt: top need not name low, which high reaches"]),
    ):
        found = list(needless(rows_of(text)))
        if found != wanted:
            sys.exit(f"checks/thin_rows.py tells {found} where it is to tell {wanted}, of\n{text}")


def main():
    if sys.argv[1:] == ["--test"]:
        return test()
    with open(f"{ROOT}/crates.txt", encoding="utf-8") as file:
        told = list(needless(rows_of(file.read())))
    if told:
        sys.exit("\n".join(told))


if __name__ == "__main__":
    main()
