"""The package's names: what it has, what each of them needs, and what type checkers see."""
import subprocess
import sys
from pathlib import Path

import numpy  # noqa: F401
import pytest

import morphd

HERE = Path(morphd.__file__).parents[1]


def ran(code):
    return subprocess.run([sys.executable, "-c", code], cwd=HERE, capture_output=True, text=True, check=False)


@pytest.mark.parametrize("name", morphd._SUBMODULES)
def test_modules_are_there_without_an_import_of_their_own(name):
    if name == "dask":
        pytest.importorskip("dask.array")
    made = ran(f"import morphd; print(morphd.{name}.__name__, {name!r} in dir(morphd))")
    assert made.stdout == f"morphd.{name} True\n", made.stderr


def test_all_names_are_there():
    assert set(morphd.__all__) == set(morphd._HOMES)
    assert all(getattr(morphd, name) is not None for name in morphd.__all__)
    assert set(morphd.__all__) <= set(dir(morphd))
    with pytest.raises(AttributeError, match="no attribute 'openning'"):
        morphd.openning


@pytest.mark.parametrize("missing, name, told", [
    ("numpy", "erosion", "morphd.erosion needs NumPy: apt-get install python3-numpy"),
    ("numpy", "curves", "morphd.curves needs NumPy: apt-get install python3-numpy"),
    ("dask", "dask", "morphd.dask needs Dask: apt-get install python3-dask"),
    ("dask.array", "dask", "morphd.dask needs Dask: apt-get install python3-dask")])
def test_what_is_missing_is_told(missing, name, told):
    made = ran(f"import sys; sys.modules[{missing!r}] = None; import morphd; morphd.{name}")
    assert made.stderr.splitlines()[-1] == f"ModuleNotFoundError: {told}"


def test_help_works_where_dask_is_missing():
    """It asks for each name that `dir` tells."""
    code = ("import importlib.util, sys; found = importlib.util.find_spec; "
            "importlib.util.find_spec = lambda name, *more: None if name == 'dask' else found(name, *more); "
            "sys.modules['dask'] = None; import morphd; print(len([getattr(morphd, name) for name in dir(morphd)]))")
    assert int(ran(code).stdout) > len(morphd.__all__)


CALLER = """\
import morphd
made = morphd.erosion([[1]], [[1]], mode="reflect", compat="scipy")
morphd.dask.opening
morphd.openning
morphd.erosion([[1]], [[1]], mode="mirrored")
morphd.erosion([[1]], [[1]], compat="matlab")
number: int = made
labels, count = morphd.label([[True]], return_num=True)
count = morphd.label([[True]])
morphd.distance([[True]], "taxicab")
morphd.reconstruction([[1]], [[1]], "opening")
grains = morphd.regions([[True]], pixel="2um")
mean: float = grains.inside.summary("area").area_mean + grains[0].feret_max + grains["area"].max()
mean = grains["area"]
grains.histogram(weights="volume")
"""


def test_type_checkers_see_names_and_modes(tmp_path):
    """A caller's slips are found, and the package itself passes in strict mode."""
    pytest.importorskip("mypy")
    caller = tmp_path / "caller.py"
    caller.write_text(CALLER, encoding="utf-8")
    words = [sys.executable, "-m", "mypy", "--strict", "--cache-dir", str(tmp_path / "cache"), "morphd", str(caller)]
    made = subprocess.run(words, cwd=HERE, capture_output=True, text=True, check=False)
    told = [line.removeprefix(f"{caller}:").partition(":") for line in made.stdout.splitlines()[:-1]]
    assert [number for number, _, _ in told] == ["4", "5", "6", "7", "9", "10", "11", "14", "15"], made.stdout + made.stderr
