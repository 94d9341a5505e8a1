"""The command lines of the documents: each block of `console` prints what stands in it.

    python3 python/tests/test_shell_documents.py --write     puts what they print into the documents

Blocks of Python of the same section that import morphd are run before, so they can draw the pictures.
"""
import os
import re
import shlex
import subprocess
import sys
import tempfile
from pathlib import Path

import pytest

ROOT = Path(__file__).resolve().parents[2]
BLOCK = re.compile(r"^```(python|console)\n(.*?)^```$", re.MULTILINE | re.DOTALL)
PAGES = ("README.md", "docs/COOKBOOK.md")
# Of each page at least so many blocks have to be found, so that none gets lost unseen.
LEAST = {"README.md": 1, "docs/COOKBOOK.md": 1}


def sections(text):
    """The places where the sections of a page begin and end."""
    starts = [found.start() for found in re.finditer("^## ", text, re.MULTILINE)]
    return list(zip([0, *starts], [*starts, len(text)]))


def printed(line, room, environment, program):
    """What a command line prints, with what it tells on the standard error first."""
    words = shlex.split(line)
    assert words[0] == "morph", line
    ran = subprocess.run([*program, *words[1:]], cwd=room, env=environment, capture_output=True, text=True, check=False, timeout=300)
    return ran.stderr + ran.stdout


def replayed(text):
    """Each block of command lines with its place and what it should be."""
    import stand_in

    environment, program = stand_in.in_process()
    for begin, end in sections(text):
        blocks = [found for found in BLOCK.finditer(text, begin, end) if found[1] == "console" or "import morphd" in found[2]]
        if not any(found[1] == "console" for found in blocks):
            continue
        with tempfile.TemporaryDirectory() as room:
            os.symlink(ROOT / "examples", Path(room) / "examples")
            for found in blocks:
                if found[1] == "python":
                    subprocess.run([sys.executable, "-c", found[2]], cwd=room, env=environment, check=True, timeout=300)
                    continue
                lines = [line[2:] for line in found[2].splitlines() if line.startswith("$ ")]
                yield found, "".join(f"$ {line}\n{printed(line, room, environment, program)}" for line in lines)


@pytest.mark.parametrize("name", PAGES)
def test_command_lines_print_what_stands_there(name):
    path = ROOT / name
    if not (ROOT / "docs").exists():
        pytest.skip("a source archive has no documents")
    pytest.importorskip("numpy")
    found = list(replayed(path.read_text(encoding="utf-8")))
    assert len(found) >= LEAST[name]
    for block, wanted in found:
        assert block[2] == wanted


def test_the_grain_size_number_is_that_of_the_count():
    """The number that is told is computed of the one that the command line prints."""
    path = ROOT / "docs" / "COOKBOOK.md"
    if not path.exists():
        pytest.skip("a source archive has no documents")
    text = path.read_text(encoding="utf-8")
    told = re.findall(r"half of those that the frame cuts: ([\d.]+) to the square millimetre", text)
    assert told and re.findall(r"log10\(([\d.]+)\)", text) == told


def main():
    import conftest  # noqa: F401

    for name in PAGES:
        path = ROOT / name
        text = path.read_text(encoding="utf-8")
        for block, wanted in reversed(list(replayed(text))):
            text = text[: block.start(2)] + wanted + text[block.end(2) :]
        path.write_text(text, encoding="utf-8")


if __name__ == "__main__":
    if sys.argv[1:] != ["--write"]:
        sys.exit(__doc__)
    main()
