#!/usr/bin/env python3
"""Compares what says a version: the release in VERSION with the program, the header, the Python package and CHANGELOG.md; the number of
the library's calls in all that names the library's file; the least C library; and the licences that the Python package brings.

    python3 checks/versions.py
    python3 checks/versions.py --test    spoils copies, one place each, and sees that each is told

What is built is compared by checks/dist.py.
"""
import pathlib
import re
import sys

ROOT = pathlib.Path(__file__).resolve().parent.parent
# Of each version the files that say it, and how: all places in a file that look so have to say the same.
PLACES = {
    "release": [
        ("VERSION", r"\A(.*)\n\Z"),
        ("crates/mw_cli/src/line.rt", r'^pub const VERSION: &str = "(.*)";$'),
        ("include/morphd.h", r'^#define MORPHD_VERSION "(.*)"$'),
        ("python/morphd/__init__.py", r'^__version__ = "(.*)"$'),
        ("CHANGELOG.md", r"\A# Changes\n(?:(?!## ).*\n)*## (\S+?),? "),
    ],
    "number of the library": [
        ("include/morphd.h", r"The version of this file, which is (\d+)"),
        ("library/link.py", r'^SONAME = "libmorphd\.so\.(\d+)"$'),
        ("python/morphd/_library.py", r"^VERSION = (\d+)$"),
        ("python/morphd/_library.py", r'^NAME = "libmorphd\.so\.(\d+)"$'),
        ("python/pyproject.toml", r'"libmorphd\.so\.(\d+)"'),
        ("checks/python_package.py", r'"libmorphd\.so\.(\d+)"'),
        ("packaging/layout.py", r'^SONAME = "libmorphd\.so\.(\d+)"$'),
        ("packaging/layout.py", r'"libmorphd(\d+)"'),
        ("packaging/debian/control", r"\blibmorphd(\d+)\b"),
        ("packaging/debian/libmorphd1.shlibs", r"\blibmorphd (\d+) "),
    ],
    "least C library": [
        ("packaging/INSTALL", r"glibc (\d[\d.]*\d)"),
        ("packaging/pages.py", r"glibc (\d[\d.]*\d)"),
        ("packaging/debian/control", r"libc6 \(>= (.*?)\)"),
        ("docs/SERVER.md", r"glibc (\d[\d.]*\d)"),
        ("docs/LIBRARY.md", r"glibc (\d[\d.]*\d)"),
    ],
    "least Python": [
        ("python/pyproject.toml", r'^requires-python = ">=(.*)"$'),
        ("packaging/INSTALL", r"Python (\d[\d.]*\d)"),
        ("packaging/debian/control", r"python3 \(>= (.*?)\)"),
        ("python/README.md", r"Python (\d[\d.]*\d)"),
    ],
}
DYNAMIC = ("python/pyproject.toml", r'^version = \{attr = "morphd\.__version__"\}$')
LICENCES = ("LICENSE-MIT", "LICENSE-APACHE")
COPIES = {f"python/{name}": name for name in LICENCES}


def texts():
    """The text of each file that is compared, by its path."""
    paths = {path for rows in PLACES.values() for path, _ in rows} | {DYNAMIC[0], *COPIES, *COPIES.values()}
    return {path: (ROOT / path).read_text(encoding="utf-8") for path in sorted(paths)}


def faults(files):
    """What does not agree, a line each."""
    for what, rows in PLACES.items():
        wanted = None
        for path, pattern in rows:
            said = set(re.findall(pattern, files[path], re.MULTILINE))
            if not said:
                yield f"{path} says no {what}, as {pattern}"
            wanted = min(said, default=None) if wanted is None else wanted
            for other in sorted(said - {wanted}):
                yield f"{path} says {other}, and {rows[0][0]} {wanted}, as the {what}"
    if not re.search(DYNAMIC[1], files[DYNAMIC[0]], re.MULTILINE):
        yield f"{DYNAMIC[0]} does not take its version from the package"
    for copy, own in COPIES.items():
        if files[copy] != files[own]:
            yield f"{copy} is another text than {own}"


def spoiled(files):
    """Copies with one place changed or taken away, each with the path that has to be told."""
    for path, pattern in [row for rows in PLACES.values() for row in rows]:
        for found in re.finditer(pattern, files[path], re.MULTILINE):
            yield path, {**files, path: f"{files[path][:found.end(1)]}1{files[path][found.end(1):]}"}
        yield path, {**files, path: re.sub(pattern, "", files[path], flags=re.MULTILINE)}
    path, pattern = DYNAMIC
    yield path, {**files, path: re.sub(pattern, 'version = "1"', files[path], flags=re.MULTILINE)}
    for path in COPIES:
        yield path, {**files, path: files[path].replace("the", "teh", 1)}


def test(files):
    count = 0
    for path, copy in spoiled(files):
        told, count = list(faults(copy)), count + 1
        if copy == files or not any(re.search(rf"(^|, and ){re.escape(path)} ", it) for it in told):
            sys.exit(f"{path} was spoiled, and is not told, but {told}")
    print(f"each of {count} spoiled versions and licences is told")


def main():
    files = texts()
    found = list(faults(files))
    for what in found:
        print(f"versions: {what}", file=sys.stderr)
    if found or sys.argv[1:] != ["--test"]:
        sys.exit(1 if found else 0)
    test(files)


if __name__ == "__main__":
    main()
