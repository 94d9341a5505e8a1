#!/usr/bin/env python3
"""Looks whether the gate tries each wrong body that an engineer of the field would write first, and whether each edit can be applied.

    python3 checks/edits.py           tells each fault; status 1 where there is one
    python3 checks/edits.py --test    spoils a copy of the crates, one place each, and sees that each is told

Nothing is proved here. Each name below has its edit crates/CRATE/must-fail/NAME.edit in the code of some crate, or, where no contract can
see the wrong body, tests that tell it. The text that an edit turns stands in its file once.

The crates named edits_* are leaves: nothing stands on them. Each of their public functions names another one in its comment, repeats the
contract of that, word for word, and only calls it. So a wrong body that is refused there is refused by the real contract too. That holds
only while the contracts are the same: a look at both says so. Of a method the leaf's function takes the object as its first parameter.
What a leaf tries by a name that stands in real code lies in its wrong-bodies, and is tried where a contract has changed.
"""
import argparse
import os
import re
import shutil
import sys
import tempfile

import prove
import wrong_bodies

LEAF = "edits_"
NAMES = """
type_top_as_neutral opening_without_reflection tile_without_halo finish_trusts_numbers late_tile_revives cancel_spares_dependents
image_under_another_ticket sample_over_maxval crlf_as_one_delimiter skeleton_without_residue rank_pads_with_zero idle_with_ready_task
ready_count_zero never_settles settles_early iterate_by_one_element status_of_opening_state call_alters_older_entry audit_always_yes
audit_always_no script_runs_no_work line_by_whole_window number_with_leading_zero two_blanks serve_skips_request forgets_running_task
refuses_innocent_ticket pass_swaps_image
""".split()
# The wrong bodies that no contract sees, each with the tests that tell it.
TESTS = {
    "reply_without_asking_core": ("test_pool::reply_without_asking_core",),
    "core_for_each_pass": ("test_pool::core_for_each_pass",),
    "computes_under_lock": ("test_pool::computes_under_lock",),
    "always_no_memory": ("test_core::always_no_memory",),
    "board_swaps_pixels": ("test_pool::board_swaps_pixels",),
}
# A public function of a leaf: the function that it names, and its own name.
NAMED = re.compile(r"^/// `(\w+(?:::\w+)+)`\.\n(?:#\[.*\]\n)*pub fn (\w+)", re.MULTILINE)


def sources(home):
    """The texts of the .rt files of a crate."""
    for at, inner, names in os.walk(f"{home}/src"):
        inner.sort()
        yield from (prove.text(f"{at}/{it}") for it in sorted(names) if it.endswith(".rt"))


def is_tested(root, test):
    """Whether a crate of tests has the test."""
    crate, _, name = test.partition("::")
    wanted = re.compile(rf"#\[test\]\n(?:#\[.*\]\n)*fn {name}\(")
    return any(wanted.search(it) for it in sources(f"{root}/crates/{crate}"))


def of_names(root, crates):
    """The names that nothing in the gate stands for."""
    homes = [f"{root}/crates/{it}" for it in crates if not it.startswith(LEAF)]
    tried = {os.path.basename(it) for home in homes for it in wrong_bodies.edits_in(home, wrong_bodies.GATE)}
    yield from (f"no crate tries {it} in its own code" for it in NAMES if f"{it}.edit" not in tried)
    yield from (f"there is no test {it}, which is to tell {name}"
                for name, tests in TESTS.items() for it in tests if not is_tested(root, it))


def of_edits(root, crates):
    """The edits that cannot be applied."""
    for home in (f"{root}/crates/{it}" for it in crates):
        for edit in (it for folder in (wrong_bodies.GATE, wrong_bodies.FOLDER) for it in wrong_bodies.edits_in(home, folder)):
            why = wrong_bodies.fault_of(edit, home)
            if why:
                yield f"{os.path.relpath(edit, root)}: {why}"


def contracts(text, name):
    """The parameters and clauses of each public function of this name, with one blank between words and without comments."""
    for found in re.finditer(rf"^( *)pub fn {name}\b", text, re.MULTILINE):
        end = text.find(f"\n{found[1]}{{", found.end())
        head = re.sub(r"^ *//.*$", "", text[found.end():end], flags=re.MULTILINE)
        yield re.sub(r" ([,)])", r"\1", re.sub(r"([(]) ", r"\1", " ".join(head.split()))).replace(",)", ")")


def as_method(contract):
    """The contract of a function as that of a method of its first parameter."""
    found = re.match(r"\((\w+): (&mut |&)?\w+", contract)
    if not found:
        return contract
    return f"({found[2] or ''}self" + re.sub(rf"\b{found[1]}\b", "self", contract[found.end():])


def only_calls(text, name, real):
    """Whether the body of a public function is one call of the function of this name, of the crate or of the first parameter."""
    body = re.search(rf"^pub fn {name}\b.*?^{{\n(.*?)^}}$", text, re.MULTILINE | re.DOTALL)
    called = rf"(?:{real[0]}(?:::\w+)*::{real[-1]}(?:::<[\w, ]+>)?|\w+\.{real[-1]})\([\w\s,]*\)"
    return body is not None and re.fullmatch(called, body[1].strip()) is not None


def of_leaves(root, crates):
    """The functions of leaves that name no other, that do more than call it, and those whose contract is another than its own."""
    for leaf in (it for it in crates if it.startswith(LEAF)):
        for text in sources(f"{root}/crates/{leaf}"):
            named = NAMED.findall(text)
            yield from (f"{leaf}: {it} names no function in its comment"
                        for it in re.findall(r"^pub fn (\w+)", text, re.MULTILINE) if it not in [name for _, name in named])
            for path, name in named:
                real = path.split("::")
                own = next(contracts(text, name))
                known = [it for other in sources(f"{root}/crates/{real[0]}") for it in contracts(other, real[-1])]
                if own not in known and as_method(own) not in known:
                    yield f"{leaf}: the contract of {name} is not that of {path}"
                if not only_calls(text, name, real):
                    yield f"{leaf}: {name} does more than call {path}"


CHECKS = (of_names, of_edits, of_leaves)


def faults(root, crates):
    return [it for check in CHECKS for it in check(root, crates)]


# ---- the test of this check: each line spoils a file, and says which fault has to be told of it

SPOILED = [
    ("mw_grid/must-fail/tile_without_halo.edit", None, "no crate tries tile_without_halo in its own code"),
    ("test_pool/src/sessions.rt", ("fn board_swaps_pixels(", "fn board_keeps_pixels("),
     "there is no test test_pool::board_swaps_pixels"),
    ("mw_grid/src/rectangles.rt", ("let y = rect.y.saturating_sub(", "let y = 0 + rect.y.saturating_sub("), None),
    ("mw_grid/src/rectangles.rt", ("rect.x.saturating_sub(reach.left)", "rect.x.saturating_sub(reach.up)"),
     "mw_grid/must-fail/tile_without_halo.edit: "),
    ("edits_kernels/src/sliding.rt", ("ensures small ", "ensures low "), "edits_kernels: the contract of "),
    ("mw_line/src/rectangles.rt", ("IfOk result (λ r. (f : Raster P)", "IfOk result (λ r. (g : Raster P)"),
     "edits_kernels: the contract of rectangle"),
    ("mw_grid/src/grid.rt", ("result ≡ tile_at self i", "tile_at self i ≡ result"), "edits_kernels: the contract of rect"),
    ("edits_kernels/src/tiles.rt", ("/// `mw_grid::Grid::rect`.", "/// The grid's."), "edits_kernels: rect names no function"),
    ("edits_kernels/src/tiles.rt", ("    grid.rect(i)", "    grid.rect(i + 0)"), "edits_kernels: rect does more than call"),
]


def test():
    with tempfile.TemporaryDirectory() as room:
        shutil.copytree(f"{prove.ROOT}/crates", f"{room}/crates", ignore=shutil.ignore_patterns("out", "specs", "proofs"))
        crates = list(prove.needs_by_crate())
        wrong = 0
        for path, change, wanted in SPOILED:
            before = prove.text(f"{room}/crates/{path}")
            if change and change[0] not in before:
                sys.exit(f"{path} has no {change[0]!r} to spoil")
            write(f"{room}/crates/{path}", before.replace(*change) if change else None)
            found = faults(room, crates)
            is_told = any(wanted in it for it in found) if wanted else not found
            if not is_told:
                print(f"{path}: {wanted or 'nothing'} is to be told, and {found} is")
                wrong += 1
            write(f"{room}/crates/{path}", before)
    print(f"{len(SPOILED) - wrong} of {len(SPOILED)} spoiled files are told as they are to be")
    return 1 if wrong else 0


def write(path, text):
    """Writes a file anew, or removes it where there is no text."""
    if text is None:
        os.remove(path)
        return
    with open(path, "w", encoding="utf-8") as file:
        file.write(text)


def main():
    words = argparse.ArgumentParser(description=__doc__.split("\n")[0])
    words.add_argument("--test", action="store_true", help="see that faults are told")
    if words.parse_args().test:
        return test()
    found = faults(prove.ROOT, list(prove.needs_by_crate()))
    for fault in found:
        print(fault, file=sys.stderr)
    return 1 if found else 0


if __name__ == "__main__":
    sys.exit(main())
