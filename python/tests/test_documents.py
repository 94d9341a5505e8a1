"""The documents: the tutorial's blocks print what stands behind them, the gallery is what its script makes."""
import codeop
import sys
from pathlib import Path

import numpy  # noqa: F401
import pytest
import stand_in
import tutorial

DOCS = Path(__file__).resolve().parents[2] / "docs"


def test_the_tutorial():
    for module in ("PIL", "matplotlib", "distributed", "tqdm"):
        pytest.importorskip(module)
    text = (DOCS / "TUTORIAL.md").read_text(encoding="utf-8")
    assert len(list(tutorial.blocks(text))) == text.count("```python\n") > 10
    assert tutorial.differences(text, stand_in.in_process()[0]) == []


def unfinished(code):
    """The lines that Python still waits for an end of, where a block is pasted into it."""
    held = []
    for line in code.splitlines():
        held.append(line)
        if codeop.compile_command("\n".join(held)):
            held.clear()
    return held


def test_the_tutorial_can_be_pasted():
    for code, _ in tutorial.blocks((DOCS / "TUTORIAL.md").read_text(encoding="utf-8")):
        assert unfinished(code) == []
    assert unfinished("for x in range(3):\n    print(x)\n") != []
    with pytest.raises(SyntaxError):
        unfinished("for x in range(3):\n    print(x)\nprint(x)\n")


def test_a_spoiled_tutorial_is_noticed():
    text = "```python\nprint(1)\nprint(2)\n```\n\n```text\n1\n3\n```\n\n```python\nx = 1\n```\n"
    assert tutorial.differences(text, stand_in.in_process()[0]) == [("1\n3\n", "1\n2\n")]
    assert "\n1\n2\n```" in tutorial.written(text, stand_in.in_process()[0])


@pytest.mark.parametrize("folder, picture, name", [("python", "grains.pgm", "grains.png"), ("", "discs.pgm", "mine.png")])
def test_the_readme(folder, picture, name):
    for module in ("PIL", "matplotlib"):
        pytest.importorskip(module)
    text = (DOCS.parent / folder / "README.md").read_text(encoding="utf-8")
    given = f"```python\nimport morphd\nmorphd.write('{name}', morphd.read('examples/{picture}'))\n```\n"
    assert "```python\nimport morphd\n" in text
    assert tutorial.differences(given + text, stand_in.in_process()[0]) == []


def test_the_gallery(monkeypatch):
    monkeypatch.syspath_prepend(str(DOCS / "gallery"))
    import make_gallery

    made = make_gallery.made()
    assert (DOCS / "GALLERY.md").read_bytes() == made.pop("GALLERY.md")
    raster = sys.modules["png_files"].raster_of
    assert sorted(made) == sorted(f"gallery/{path.name}" for path in (DOCS / "gallery").glob("*.png"))
    for name, data in made.items():
        assert raster((DOCS / name).read_bytes()) == raster(data), name
