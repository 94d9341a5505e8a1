"""How the library is found and called."""
import ctypes
import os
import re
import shutil
import subprocess
import sys
from pathlib import Path

import conftest
import numpy as np
import pytest

import morphd
from morphd import _library

HEADER = Path(__file__).resolve().parents[2] / "include" / "morphd.h"
C_TYPES = {"uint8_t": ctypes.c_uint8, "uint16_t": ctypes.c_uint16, "uint32_t": ctypes.c_uint32, "size_t": ctypes.c_size_t,
           "int32_t": ctypes.c_int32}


def prototypes(text):
    """The calls of a header, with the types of their answers and arguments."""
    text = re.sub(r"/\*.*?\*/|//[^\n]*", "", text, flags=re.DOTALL)
    for answer, name, arguments in re.findall(r"(\w+)\s+(morphd_\w+)\s*\(([^)]*)\)\s*;", text):
        kinds = [each.strip() for each in arguments.split(",") if each.strip() not in ("", "void")]
        types = [ctypes.c_void_p if "*" in each else C_TYPES[re.sub(r"\bconst\b", "", each).split()[0]] for each in kinds]
        yield name, C_TYPES[answer], tuple(types)


def test_calls_are_those_of_the_header():
    if not HEADER.exists():
        pytest.skip("include/morphd.h is not there yet")
    found = {name: (answer, types) for name, answer, types in prototypes(HEADER.read_text(encoding="utf-8"))}
    assert found == {name: (_library.ANSWERS[name], types) for name, types in _library.PROTOTYPES.items()}


def test_prototypes_are_read():
    text = "/* int32_t morphd_x(int); */ int32_t morphd_y(uint32_t a, const uint8_t *b,\n size_t c);\nuint32_t morphd_version(void);"
    assert list(prototypes(text)) == [
        ("morphd_y", ctypes.c_int32, (ctypes.c_uint32, ctypes.c_void_p, ctypes.c_size_t)), ("morphd_version", ctypes.c_uint32, ())]


def test_the_built_library():
    if conftest.USES_STAND_IN:
        pytest.skip("no library is built")
    assert isinstance(_library.loaded(), ctypes.CDLL)
    assert morphd.library_version() == _library.VERSION
    assert morphd.library_build() in ("x86-64-v2", "x86-64-v3")


def build_for(monkeypatch, folder, told):
    """A build of the library, of a copy, since a process loads each file once and picks a build then."""
    place = _library.loaded()._name
    if not os.path.isabs(place):
        pytest.skip(f"the library is {place} of the system")
    monkeypatch.setenv("MORPHD_CPU", told)
    return _library._opened(shutil.copy(place, folder / f"{told}.so"))


def made_of(image, other):
    """What each kind of call makes of a picture and of another of its sides: arrays by a name."""
    bars = morphd.line(9, 45), morphd.disk(2), morphd.disk(8), morphd.square(3), morphd.square(9), morphd.rectangle(17, 1)
    for name in ("erosion", "dilation", "opening", "closing", "gradient", "white_tophat", "black_tophat", "median"):
        for number, footprint in enumerate(bars):
            yield f"{name} {number}", getattr(morphd, name)(image, footprint)
    yield "rank", morphd.rank(image, 5, morphd.disk(4))
    yield "hit or miss", morphd.hit_or_miss(image, morphd.square(3), [[1, 0, 0, 0, 1]])
    yield "spectrum", np.asarray(morphd.spectrum(image, morphd.square(3), 4).volumes)
    yield "holes", morphd.fill_holes(image)
    yield "border", morphd.clear_border(image)
    yield "reconstruction", morphd.reconstruction(np.minimum(image, other), image)
    if image.dtype == bool:
        yield "skeleton", morphd.skeleton(image, morphd.square(3), 5)
        yield "labels", morphd.label(image)
        yield "distances", morphd.distance(image, metric="euclidean")
        yield "areas", morphd.area_opening(image, 5)
        yield "regions", morphd.regions(image)["area"]
    else:
        yield "threshold", morphd.threshold(image, int(image.mean()))
        yield "maxima", morphd.local_maxima(image)
        yield "domes", morphd.hmax(image, 7)


@pytest.mark.filterwarnings("ignore::UserWarning")
def test_both_builds_make_the_same(monkeypatch, tmp_path):
    if conftest.USES_STAND_IN:
        pytest.skip("no library is built")
    older = build_for(monkeypatch, tmp_path, "v2")
    try:
        newer = build_for(monkeypatch, tmp_path, "v3")
    except morphd.LibraryMissing:
        pytest.skip("this processor has no x86-64-v3")
    assert (older.morphd_build(), newer.morphd_build()) == (2, 3)
    chance = np.random.default_rng(7)
    before = _library.use(older)
    try:
        for width in (1, 15, 31, 33, 64, 130):
            for kind in (np.uint8, np.uint16):
                image, other = chance.integers(0, np.iinfo(kind).max, (2, 37, width), kind)
                for pair in ((image, other), (image % 3 > 0, other % 3 > 0)):
                    _library.use(older)
                    assert morphd.library_build() == "x86-64-v2"
                    wanted = dict(made_of(*pair))
                    _library.use(newer)
                    assert morphd.library_build() == "x86-64-v3"
                    for name, made in made_of(*pair):
                        assert np.array_equal(made, wanted[name]), (name, width, pair[0].dtype)
    finally:
        _library.use(before)


@pytest.mark.parametrize("told", ["v4", "V2", "x86-64-v2", "2"])
def test_a_build_that_is_not_there_is_told(monkeypatch, tmp_path, told):
    if conftest.USES_STAND_IN:
        pytest.skip("no library is built")
    with pytest.raises(morphd.LibraryMissing, match=f"MORPHD_CPU is '{told}', which is not v2, or v3 on .*for x86-64-v[23]$"):
        build_for(monkeypatch, tmp_path, told)


def test_no_word_for_a_build_is_none(monkeypatch, tmp_path):
    if conftest.USES_STAND_IN:
        pytest.skip("no library is built")
    assert build_for(monkeypatch, tmp_path, "").morphd_build() in (2, 3)


def test_a_missing_library_says_how_to_build_it(monkeypatch, tmp_path):
    monkeypatch.setenv("MORPHD_LIBRARY", str(tmp_path / "libmorphd.so"))
    before = _library.use(None)
    try:
        with pytest.raises(morphd.LibraryMissing, match="make library"):
            morphd.erosion(np.ones((2, 2), np.uint8), [[1]])
    finally:
        _library.use(before)


@pytest.mark.parametrize("calls, told", [
    (["morphd_version"], "has no call morphd_flat_u8"), (list(_library.PROTOTYPES), "has version 99, and this package needs 1")])
def test_another_library_is_told(monkeypatch, tmp_path, calls, told):
    if shutil.which("cc") is None:
        pytest.skip("cc is missing")
    text = "".join(f"unsigned {name}(void) {{ return 99; }}\n" for name in calls)
    (tmp_path / "other.c").write_text(text, encoding="utf-8")
    subprocess.run(["cc", "-shared", "-fPIC", "-o", tmp_path / "other.so", tmp_path / "other.c"], check=True)
    monkeypatch.setenv("MORPHD_LIBRARY", str(tmp_path / "other.so"))
    before = _library.use(None)
    try:
        with pytest.raises(morphd.LibraryMissing, match=told):
            _library.loaded()
    finally:
        _library.use(before)


def with_libraries(monkeypatch, folder, package):
    """A package in a folder, with the library in it, in a folder `out` above it, and under other names."""
    monkeypatch.setattr(_library, "__file__", str(folder / package / "_library.py"))
    for place in (package, "out"):
        (folder / place).mkdir(parents=True, exist_ok=True)
        for name in ("libmorphd.so.1", "libmorphd.so", "libmorphd.dylib"):
            (folder / place / name).touch()


@pytest.mark.parametrize("told", [None, ""])
def test_places(monkeypatch, tmp_path, told):
    monkeypatch.delenv("MORPHD_LIBRARY", raising=False)
    if told is not None:
        monkeypatch.setenv("MORPHD_LIBRARY", told)
    with_libraries(monkeypatch, tmp_path, "site-packages/morphd")
    assert _library._places() == [str(tmp_path / "site-packages" / "morphd" / "libmorphd.so.1"), "libmorphd.so.1"]
    (tmp_path / "site-packages" / "morphd" / "libmorphd.so.1").unlink()
    assert _library._places() == ["libmorphd.so.1"]


def test_places_in_a_checkout(monkeypatch, tmp_path):
    monkeypatch.delenv("MORPHD_LIBRARY", raising=False)
    with_libraries(monkeypatch, tmp_path, "python/morphd")
    (tmp_path / "python" / "pyproject.toml").touch()
    assert [Path(place).parent.name for place in _library._places()] == ["morphd", "out", ""]


def test_the_name_is_that_of_the_version():
    assert _library.NAME == f"libmorphd.so.{_library.VERSION}"


@pytest.mark.parametrize("flags, lacking", [
    ("flags\t\t: fpu cx16 lahf_lm pni popcnt sse4_1 sse4_2 ssse3 avx", ""), ("Features\t: fp asimd", ""), ("", ""),
    ("flags\t\t: fpu cx16 lahf_lm pni sse4_1 ssse3", "popcnt, sse4_2"), ("flags\t\t: fpu sse4_2x", "cx16, lahf_lm, pni")])
def test_a_processor_without_sse4_is_told(monkeypatch, tmp_path, flags, lacking):
    """Before anything of the library runs: there the process would be killed."""
    (tmp_path / "cpuinfo").write_text(f"processor\t: 0\n{flags}\n", encoding="ascii")
    monkeypatch.setattr(_library, "_PROCESSORS", str(tmp_path / "cpuinfo"))
    monkeypatch.setenv("MORPHD_LIBRARY", str(tmp_path / "none.so"))
    before = _library.use(None)
    try:
        with pytest.raises(morphd.LibraryMissing, match=f"SSE4.2.*lacks {lacking}" if lacking else "not found"):
            _library.loaded()
    finally:
        _library.use(before)


def test_a_system_that_tells_no_instructions(monkeypatch, tmp_path):
    monkeypatch.setattr(_library, "_PROCESSORS", str(tmp_path / "none"))
    assert _library._lacking() == []


def test_a_number_without_a_name():
    assert str(morphd.Refused(99, "x")) == "x: a refusal without a name (99 )"


def test_the_package_names_what_it_has():
    assert set(morphd.__all__) <= set(dir(morphd))
    assert all(getattr(morphd, name) is not None for name in morphd.__all__)
    with pytest.raises(AttributeError):
        morphd.random_walker


def test_examples_of_docstrings():
    """Run where NumPy prints as the examples have it."""
    import doctest

    from morphd import areas, curves, footprints, geodesics, grains, operators, watersheds

    for module in (footprints, operators, geodesics, areas, grains, curves, watersheds):
        outcome = doctest.testmod(module)
        assert outcome.failed == 0
    assert outcome.attempted > 0


def test_every_public_function_tells_its_parameters():
    """As NumPy has them: each parameter stands in the docstring."""
    import inspect

    from morphd import areas, curves, geodesics, grains, operators, watersheds

    for module in (operators, geodesics, areas, grains, curves, watersheds):
        for name in module.__all__:
            function = getattr(module, name)
            if inspect.isfunction(function):
                assert "Parameters\n----------" in function.__doc__ and "Returns\n-------" in function.__doc__, name
                for parameter in inspect.signature(function).parameters:
                    assert re.search(rf"^{parameter}( :|,)|, {parameter} :", function.__doc__, re.M), (name, parameter)
                assert "%(" not in function.__doc__


CHECK = Path(__file__).resolve().parents[2] / "checks" / "python_package.py"
in_repository = pytest.mark.skipif(not CHECK.exists(), reason="a source archive has no checks")


def executable(path, text):
    path.write_text(f"#!/bin/sh\n{text}\n", encoding="utf-8")
    path.chmod(0o755)
    return path


def with_python(folder, modules, **environment):
    """An environment in which the check finds one Python, which has these modules alone, and those empty."""
    for name in modules:
        (folder / f"{name}.py").touch()
    fake = executable(folder / "python", f'PYTHONPATH="{folder}" exec "{sys.executable}" -S "$@"')
    return dict(os.environ, PYTHON=str(fake), **environment)


@in_repository
@pytest.mark.parametrize("word", ["test", "needs"])
@pytest.mark.parametrize("has, told", [
    ([], "has no pytest and no numpy: apt-get install python3-pytest python3-numpy"),
    (["pytest"], "has no numpy: apt-get install python3-numpy"), (["numpy", "PIL"], "has no pytest: apt-get install python3-pytest")])
def test_pytest_and_numpy_have_to_be_there(tmp_path, word, has, told):
    made = subprocess.run([sys.executable, CHECK, word], env=with_python(tmp_path, has), capture_output=True, text=True, check=False)
    assert made.returncode == 1
    assert made.stderr == f"python package: not tested, since Python {told}\n"


@in_repository
def test_other_modules_are_told_and_skipped(tmp_path):
    """An empty module in the place of pytest passes."""
    environment = with_python(tmp_path, ["pytest", "numpy", "PIL"])
    for word, is_told in (("needs", False), ("test", True)):
        made = subprocess.run([sys.executable, CHECK, word], env=environment, capture_output=True, text=True, check=False)
        assert (made.returncode, made.stderr) == (0, "")
        assert ("is skipped: scipy (Debian: python3-scipy), skimage" in made.stdout) == is_told
        assert "python3-pil" not in made.stdout and "python3-pytest" not in made.stdout
    made = subprocess.run([sys.executable, CHECK, "built"], env=environment, capture_output=True, text=True, check=False)
    assert made.returncode == 1


@in_repository
@pytest.mark.parametrize("user, has_network, wanted", [
    (0, True, ["update", "install -y --no-install-recommends python3-pytest python3-numpy .*python3-mypy"]),
    (0, False, ["update", "install .* python3-mypy", "install -y --no-install-recommends python3-pytest python3-numpy"]),
    (1000, True, [])])
def test_the_gate_installs_what_is_missing(tmp_path, user, has_network, wanted):
    """Whatever becomes of that, it ends as `make test` does."""
    executable(tmp_path / "apt-get", f'echo "$@" >> "{tmp_path}/asked"; exit {0 if has_network else 100}')
    executable(tmp_path / "id", f"echo {user}")
    executable(tmp_path / "python3", f'exec "{sys.executable}" "$@"')
    executable(tmp_path / "make", f'echo "$@" > "{tmp_path}/made"; exit 7')
    environment = with_python(tmp_path, [], PATH=f"{tmp_path}{os.pathsep}{os.environ['PATH']}")
    assert subprocess.run([CHECK.parents[1] / ".ci" / "run"], env=environment, check=False).returncode == 7
    assert (tmp_path / "made").read_text(encoding="utf-8") == "test\n"
    asked = (tmp_path / "asked").read_text(encoding="utf-8").splitlines() if wanted else []
    assert len(asked) == len(wanted) and all(re.fullmatch(each, line) for each, line in zip(wanted, asked))
    assert (tmp_path / "asked").exists() == bool(wanted)
