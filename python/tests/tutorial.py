"""Runs the blocks of docs/TUTORIAL.md, section by section, and compares what they print with the blocks of text behind them.

    python3 python/tests/tutorial.py [DOCUMENT]         shows what differs; status 1 where something does
    python3 python/tests/tutorial.py --write [DOCUMENT] puts what they print into the document
"""
import os
import re
import subprocess
import sys
import tempfile
from pathlib import Path

ROOT = Path(__file__).resolve().parents[2]
BLOCK = re.compile(r"^```(python|text)\n(.*?)^```$", re.MULTILINE | re.DOTALL)
MARK = "---- the end of a block"
# How long all blocks may take, in seconds.
LONGEST = 600


def blocks(text):
    """Pairs of a block of Python and the place of the text that it prints, None where no text follows."""
    found = list(BLOCK.finditer(text))
    for at, block in enumerate(found):
        if block[1] == "python":
            behind = found[at + 1] if at + 1 < len(found) and found[at + 1][1] == "text" else None
            yield block[2], behind


def printed(codes, environment):
    """What each block prints, run one after the other in a folder with the examples."""
    script = f"\nprint({MARK!r}, flush=True)\n".join(codes) + "\n"
    with tempfile.TemporaryDirectory() as room:
        for name in ("examples", "docs", "checks", "python"):
            os.symlink(ROOT / name, Path(room) / name)
        # not from the standard input: processes that it starts would look for a file of that name
        ran = subprocess.run([sys.executable, "-c", script], capture_output=True, text=True, cwd=room, check=False, timeout=LONGEST,
                             env=dict(environment, MPLBACKEND="Agg", PYTHONDONTWRITEBYTECODE="1"))
    if ran.returncode:
        raise RuntimeError(ran.stderr[-3000:])
    return ran.stdout.split(MARK + "\n")


def differences(text, environment):
    """Pairs of what a block is told to print and what it prints, for those that differ."""
    held = list(blocks(text))
    made = printed([code for code, _ in held], environment)
    pairs = [(behind[2] if behind else "", out) for (_, behind), out in zip(held, made, strict=True)]
    return [(wanted, out) for wanted, out in pairs if wanted != out]


def written(text, environment):
    """The document with what its blocks print."""
    held = list(blocks(text))
    made = printed([code for code, _ in held], environment)
    for (_, behind), out in reversed(list(zip(held, made, strict=True))):
        if behind:
            text = text[: behind.start(2)] + out + text[behind.end(2) :]
    return text


def main():
    import conftest  # noqa: F401
    import stand_in

    words = [word for word in sys.argv[1:] if word != "--write"]
    path = Path(words[0] if words else ROOT / "docs" / "TUTORIAL.md")
    text, environment = path.read_text(encoding="utf-8"), stand_in.in_process()[0]
    if "--write" in sys.argv:
        path.write_text(written(text, environment), encoding="utf-8")
        return
    found = differences(text, environment)
    for wanted, out in found:
        print(f"wanted:\n{wanted}printed:\n{out}")
    sys.exit(bool(found))


if __name__ == "__main__":
    main()
