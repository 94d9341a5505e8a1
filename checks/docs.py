#!/usr/bin/env python3
"""Compares the documents with the repository: the README's size, links, counts, the tables of crates and tests, the floors, and
each crate, file and name that stands in `backticks`; and replays the examples (checks/doc_examples.py).

    python3 checks/docs.py           tells each fault with its file and line; status 1 where there is one
    python3 checks/docs.py --test    spoils copies of the documents, one place each, and sees that each is told at its line

Nothing has to be built. CHANGELOG.md and docs/PERF.md are records of what was, so their names are not compared.
"""
import os
import re
import sys

import doc_examples
import double_words
from doc_examples import fenced, line_at

sys.path.append(os.path.join(os.path.dirname(os.path.dirname(os.path.realpath(__file__))), "docs", "images"))
import make_micrograph  # noqa: E402
import png_files  # noqa: E402

OWN, RENAMED = "checks/docs.py", "checks/renamed.txt"
ROOT = os.path.dirname(os.path.dirname(os.path.realpath(__file__)))
MOST_README = 8192
MOST_BYTES = {"README.md": MOST_README, "docs/dev/DECISIONS.md": 37376}
PARTS = ("src", "specs", "proofs")
# Files beside the crates whose words documents may name.
TEXTS = (".py", ".pyi", ".c", ".h", ".toml", ".txt", "Makefile", "HANDLES")
RECORDS = ("CHANGELOG.md", "docs/PERF.md")
# Names of other programs stand in these, beside those of the repository.
FOREIGN = ("docs/CONVENTIONS.md", "docs/dev/PERFORMANCE.md")
# What documents name of std, the C library, the kit, the system and other programs.
FROM_ELSEWHERE = set("""
BufWriter ManuallyDrop MaybeUninit OnceLock OnceToken MODULE WORD NAME TEXT ImageMagick median_filter ptr_eq set_nodelay
extend_from_slice may_wait xs
""".split())
CODE = re.compile(r"(?<!`)`([^`\n]+)`(?!`)")
LINK = re.compile(r"\]\(([^)\s]+)\)")
CRATE = re.compile(r"\b(?:mw|bench)_[a-z0-9_]+\b")
PATH = re.compile(r"[\w./*-]*[\w*-]\.(?:rt|antt|py|md|txt|edit)\b|\b(?:crates|checks|bench|examples|docs|python)/[\w./*-]*[\w*-]")
NAME = re.compile(r"[A-Za-z][\w-]*(?:::[\w-]+)*")


def read(path):
    with open(path, encoding="utf-8", errors="replace") as file:
        return file.read()


class Tree:
    """What the repository has: its crates, files, words and counts."""

    def __init__(self):
        rows = [line.partition("#")[0].partition(":")[0].split() for line in read(f"{ROOT}/crates.txt").splitlines()]
        self.crates = [row[0] for row in rows if row]
        self.files, self.words, self.words_of, self.tests_of, self.lines, self.proofs = [], set(), {}, {}, 0, 0
        for name in sorted(os.listdir(ROOT)):
            if os.path.isfile(f"{ROOT}/{name}"):
                self.files.append(name)
            elif name != "crates" and not name.startswith("."):
                self.files += files_below(name)
        self.words |= words_in(it for it in self.files if it.endswith(TEXTS) and it not in (OWN, RENAMED))
        for crate in self.crates:
            self.look_at(crate)
        self.edits = sum(it.endswith(".edit") for it in self.files)
        self.tried = sum(it.endswith(".edit") and "/must-fail/" in it for it in self.files)

    def look_at(self, crate):
        found = files_below(f"crates/{crate}")
        self.files += found
        self.words_of[crate] = words_in(found)
        self.words |= self.words_of[crate]
        for path in found:
            part = path.split("/")[2]
            if part in PARTS:
                text = read(f"{ROOT}/{path}")
                self.lines += text.count("\n")
                self.proofs += text.count("\n") if part == "proofs" else 0
                if part == "src":
                    self.tests_of[crate] = self.tests_of.get(crate, 0) + text.count("#[test]")

    def has_file(self, path):
        """Whether a file or folder ends with the path, in which capitals and single letters stand for any name."""
        parts = ["[^/]+" if it.isupper() or len(it) == 1 else re.escape(it).replace(r"\*", "[^/]*")
                 for it in path.strip("/").split("/")]
        wanted = re.compile(r"(?:^|/)" + "/".join(parts) + "(?:/|$)")
        return any(wanted.search(it) for it in self.files)


def files_below(folder):
    found = []
    for at, inner, names in os.walk(f"{ROOT}/{folder}"):
        inner[:] = sorted(it for it in inner if it not in ("out", "__pycache__"))
        found += [os.path.relpath(os.path.join(at, it), ROOT) for it in sorted(names)]
    return found


def words_in(paths):
    words = set()
    for path in paths:
        words.update(re.findall(r"[A-Za-z_][\w-]*", text := read(f"{ROOT}/{path}")), re.findall(r"\w+", text))
        words.update(os.path.splitext(path)[0].split("/"))
    return words


def documents():
    """The text of each document, by its path."""
    names = [*os.listdir(ROOT), *(f"{folder}/{it}" for folder in ("docs", "docs/dev") for it in os.listdir(f"{ROOT}/{folder}"))]
    return {name: read(f"{ROOT}/{name}") for name in sorted(names) if name.endswith(".md")}


# ---- each check gives the faults: the document, the line, and what is wrong


def of_size(texts, tree):
    for name, most in MOST_BYTES.items():
        size = len(texts[name].encode())
        if size > most:
            yield name, texts[name].count("\n"), f"it has {size:,} bytes, and may have {most:,}"


def anchors(text):
    """What links may name in a document: its headings as they are spelled in links."""
    titles = re.findall(r"^#+ (.*)$", text, re.MULTILINE)
    return {re.sub(r"[^\w -]", "", it.lower()).replace(" ", "-") for it in titles}


def of_links(texts, tree):
    for name, text in texts.items():
        for found in LINK.finditer(text):
            target, _, anchor = found[1].partition("#")
            if "://" in target:
                continue
            path = os.path.normpath(os.path.join(os.path.dirname(name), target)) if target else name
            if not os.path.exists(f"{ROOT}/{path}"):
                yield name, line_at(text, found.start()), f"there is no {path} to link to"
            elif anchor and anchor not in anchors(texts.get(path, "")):
                yield name, line_at(text, found.start()), f"{path} has no heading #{anchor}"


def crates_of_tests(tree):
    return [it for it in tree.crates if tree.tests_of.get(it)]


def told_counts(tree):
    """Where a count is told: the document, the words with it, the count, and how far what is told may lie from it."""
    tests = crates_of_tests(tree)
    return [
        ("docs/dev/CRATES.md", r"each of the (\d+) crates", len(tree.crates), 0),
        ("docs/dev/TESTS.md", r"^(\d+) tests stand", sum(tree.tests_of.values()), 0),
        ("docs/dev/TESTS.md", r"tests stand in (\d+) crates", len(tests), 0),
        ("docs/dev/SEARCH.md", r"There are (\d+) edits", tree.edits, 0),
        ("docs/dev/SEARCH.md", r"The gate tries (\d+) edits", tree.tried, 0),
        ("docs/dev/SEARCH.md", r"^The other (\d+) stand", tree.edits - tree.tried, 0),
        ("docs/dev/DESIGN.md", r"Proofs take some ([\d,]+) of", tree.proofs, 2000),
        ("docs/dev/DESIGN.md", r"of the ([\d,]+) lines", tree.lines, 2000),
    ]


def of_counts(texts, tree):
    for name, words, count, slack in told_counts(tree):
        text = texts.get(name, "")
        found = re.search(words, text, re.MULTILINE)
        if not found:
            yield name, 1, f"it does not say {words}"
        elif abs(int(found[1].replace(",", "")) - count) > slack:
            yield name, line_at(text, found.start(1)), f"it says {found[1]}, and there are {count:,}"
    text = texts.get("docs/GLOSSARY.md", "")
    rows = [line for line in text.splitlines() if line.startswith("| ")][1:]
    found = re.search(r"^(\d+) words", text, re.MULTILINE)
    if not found or int(found[1]) != len(rows):
        yield "docs/GLOSSARY.md", line_at(text, found.start() if found else 0), f"it explains {len(rows)} words"


def first_cells(text, head):
    """The crates in the first cells of the tables with this head, each with its line."""
    rows, start = [], text.find(head)
    while start >= 0:
        for number, line in enumerate(text[start:].split("\n"), line_at(text, start)):
            if not line.startswith("|"):
                break
            rows += [(it, number) for it in re.findall(r"`(\w+)`", line.split("|")[1])]
        start = text.find(head, start + 1)
    return rows


def compared(name, rows, wanted):
    """The faults of a list that has to name each wanted crate once, and nothing else."""
    if not rows:
        yield name, 1, "its table is missing"
        return
    seen = {}
    for crate, line in rows:
        if crate not in wanted:
            yield name, line, f"there is no such crate as {crate}"
        elif crate in seen:
            yield name, line, f"{crate} stands there twice"
        seen[crate] = line
    for crate in wanted:
        if crate not in seen:
            yield name, rows[-1][1], f"{crate} is missing"


def of_tables(texts, tree):
    yield from compared("docs/dev/CRATES.md", first_cells(texts["docs/dev/CRATES.md"], "| crate | what it is"), tree.crates)
    told = first_cells(texts["docs/dev/TESTS.md"], "| crate | what it tests")
    yield from compared("docs/dev/TESTS.md", told, crates_of_tests(tree))
    design = texts["docs/dev/DESIGN.md"]
    floors = next(fenced(design), None)
    found = CRATE.finditer(floors.text) if floors else ()
    rows = [(it[0], floors.line + line_at(floors.text, it.start())) for it in found]
    wanted = [it for it in tree.crates if it.startswith("mw_")]
    yield from compared("docs/dev/DESIGN.md", rows, wanted)


def of_names(texts, tree):
    for name, text in texts.items():
        if name in RECORDS:
            continue
        for found in CRATE.finditer(text):
            is_part = text[found.start() - 1:found.start()] in ("/", ".") or text[found.end():found.end() + 1] in (".", "*")
            if found[0] not in tree.crates and not is_part and not is_of_gate(name, text, found.start()):
                yield name, line_at(text, found.start()), f"there is no such crate as {found[0]}"
        for number, line in enumerate(without_blocks(text).split("\n"), 1):
            if line.count("`") % 2:
                yield name, number, "a word between backticks ends in another line"
        for found in CODE.finditer(text):
            for what in faults_of_code(found[1], tree, name in FOREIGN):
                yield name, line_at(text, found.start()), what


def without_blocks(text):
    """The text with empty lines for blocks between fences."""
    return re.sub(r"^```.*?^```$", lambda found: "\n" * found[0].count("\n"), text, flags=re.MULTILINE | re.DOTALL)


def is_of_gate(name, text, at):
    """Whether a place is in the table of what the gate took on some day, which may name crates that have gone since."""
    return name == "docs/dev/PERFORMANCE.md" and text.rfind("\n", 0, at) + 1 == text.rfind("\n| `", 0, at) + 1


def faults_of_code(code, tree, is_foreign):
    """What is wrong with the paths and names between two backticks."""
    rest = code
    for found in PATH.finditer(code):
        rest = rest.replace(found[0], " ")
        if "/out" not in found[0] and not tree.has_file(found[0].rstrip("/")):
            yield f"there is no file {found[0]}"
    for found in NAME.finditer(rest):
        path = found[0].split("::")
        if path[0] in tree.crates:
            for part in path[1:]:
                if part not in tree.words_of[path[0]]:
                    yield f"{path[0]} has no {part}"
        elif not is_foreign:
            for part in path:
                if is_name(part) and part not in tree.words and part not in FROM_ELSEWHERE:
                    yield f"nothing has the name {part}"


def is_name(word):
    """Whether a word is one of code: it has an underscore, or a capital behind a small letter."""
    return "_" in word.strip("_") or re.search(r"[a-z][A-Z]", word) is not None


def of_images(texts, tree):
    """The pictures are those that their script makes, whichever zlib packed them."""
    for name, data in make_micrograph.pictures():
        path = f"docs/images/{name}"
        with open(f"{ROOT}/{path}", "rb") as file:
            if drawn(name, file.read()) != drawn(name, data):
                yield path, 1, "docs/images/make_micrograph.py makes another picture"


def drawn(name, data):
    return png_files.raster_of(data) if name.endswith(".png") else data


def of_search(texts, tree):
    """Each library stands once in the table of what was searched."""
    wanted = [it for it in tree.crates if it.startswith("mw_")]
    yield from compared("docs/dev/SEARCH.md", first_cells(texts["docs/dev/SEARCH.md"], "| crates | what was searched"), wanted)


def of_definitions(texts, tree):
    """Each name in a row of docs/dev/CRATES.md is one of the row's crate, and each definition in docs/dev/DEFINITIONS.md one of its file."""
    for name in ("docs/dev/CRATES.md", "docs/dev/DEFINITIONS.md"):
        text, title = texts[name], ""
        for number, line in enumerate(text.split("\n"), 1):
            title = line if line.startswith("## ") else title
            cells = line.split("|")
            if len(cells) < 4 or not cells[1].strip().startswith("`"):
                continue
            known = known_in(tree, title, cells[1])
            # The last column of a row of definitions says what they rule out.
            named = cells[1:-2] if name == "docs/dev/DEFINITIONS.md" else cells[1:-1]
            for code in CODE.findall("|".join(named)):
                if code.startswith("make "):
                    continue
                for word in re.findall(r"[A-Za-z_][\w-]*", PATH.sub(" ", code)):
                    if known and word not in known and word not in tree.crates and word not in FROM_ELSEWHERE:
                        yield name, number, f"nothing there has the name {word}"


def known_in(tree, title, cell):
    """The words of the crates that a row names first, or of the files of definitions that its section is titled by."""
    crates = [it for it in re.findall(r"`(\w+)`", cell) if it in tree.crates]
    if crates:
        return set().union(*(tree.words_of[it] for it in crates))
    files = [f"crates/mw_model/specs/{it}.antt" for it in re.findall(r"`(\w+)`", title)]
    return words_in(it for it in files if it in tree.files)


def of_words(texts, tree):
    """No new word of definitions stands twice."""
    yield from double_words.faults()


CHECKS = {"size": of_size, "links": of_links, "counts": of_counts, "tables": of_tables, "search": of_search, "words": of_words,
          "definitions": of_definitions, "names": of_names,
          "images": of_images, "examples": doc_examples.faults}


def faults(texts, tree, kinds=CHECKS):
    return [it for kind in kinds for it in CHECKS[kind](texts, tree)]


# ---- the test of these checks: each line spoils one place of a document, and names the check that has to tell it

SPOILED = [
    ("README.md", "## Ways in", "## Ways in\n" + "x" * MOST_README, "size"),
    ("README.md", "docs/PROTOCOL.md", "docs/PROTOCOLL.md", "links"),
    ("docs/CONVENTIONS.md", "(COOKBOOK.md#", "(COOKBOOK.md#no-", "links"),
    ("docs/dev/CRATES.md", "each of the ", "each of the 1", "counts"),
    ("docs/dev/TESTS.md", " tests stand in ", " tests stand in 1", "counts"),
    ("docs/dev/SEARCH.md", "There are ", "There are 1", "counts"),
    ("docs/dev/SEARCH.md", "The other ", "The other 1", "counts"),
    ("docs/GLOSSARY.md", " words", "1 words", "counts"),
    ("docs/dev/DESIGN.md", "Proofs take some ", "Proofs take some 1", "counts"),
    ("docs/dev/CRATES.md", "| `mw_model` ", "| `mw_modell` ", "tables"),
    ("docs/dev/TESTS.md", "| `test_c` ", "| `trial_c` ", "tables"),
    ("docs/dev/DESIGN.md", "mw_core_waves ", "mw_wall ", "tables"),
    ("docs/dev/SEARCH.md", "| `mw_pool`, ", "| `mw_pond`, ", "search"),
    ("docs/dev/CRATES.md", "`say_fetched`", "`run_script`", "definitions"),
    ("docs/dev/DEFINITIONS.md", "`IsPicture`", "`IsFigure`", "definitions"),
    ("docs/PROOFS.md", "`mw_batch::batch`", "`mw_batch::patch`", "names"),
    ("docs/dev/DECISIONS.md", "`finish_own`", "`finish_owned`", "names"),
    ("CONTRIBUTING.md", "`checks/no_leaks.py`", "`checks/no_leeks.py`", "names"),
    ("docs/dev/DESIGN.md", "`mw_session_fetch`", "`mw_patched`", "names"),
    ("docs/GLOSSARY.md", "`LOAD`,", "`LOAD,", "names"),
    ("docs/PROTOCOL.md", "`ERR 41 UNKNOWN`", "`ERR 42 KIND`", "examples"),
    ("docs/PROTOCOL.md", "IMAGE 2 14\n", "IMAGE 2 15\n", "examples"),
    ("docs/PROTOCOL.md", "| 47 | `PARAM`", "| 46 | `PARAM`", "examples"),
    ("docs/PROTOCOL.md", "`P5\\n2 1\\n9\\n\\7\\1`", "`P5\\n2 2\\n9\\n\\7\\1`", "examples"),
    ("docs/COOKBOOK.md", "S 6 1209\n", "S 6 1210\n", "examples"),
    ("README.md", "tail -n +5", "tail -n +4", "examples"),
]


def changed_lines(before, after):
    """The lines at which a document was spoiled, and the last one."""
    start = next(n for n, (x, y) in enumerate(zip(before, after)) if x != y)
    return before[:start].count("\n") + 1


def test(texts, tree):
    for name, old, new, kind in SPOILED:
        text = texts.get(name, "")
        if old not in text:
            sys.exit(f"{name} has no {old!r} to spoil")
        beside = {} if kind == "examples" else texts
        spoiled = {**beside, name: text.replace(old, new, 1)}
        line = changed_lines(text, spoiled[name])
        told = [it for it in faults(spoiled, tree, [kind]) if it[0] == name]
        # Of a script and of the README's size another line is told than the one that is wrong.
        room = {"size": MOST_README, "examples": 20}.get(kind, 0)
        if not any(abs(it[1] - line) <= room for it in told):
            sys.exit(f"{name}:{line}: {new[:40]!r} in the place of {old!r} is not told, but {told}")
    print(f"each of {len(SPOILED)} spoiled documents is told")


def main():
    texts, tree = documents(), Tree()
    if sys.argv[1:] == ["--test"]:
        return test(texts, tree)
    found = faults(texts, tree)
    for name, line, what in found:
        print(f"{name}:{line}: {what}", file=sys.stderr)
    sys.exit(1 if found else 0)


if __name__ == "__main__":
    main()
