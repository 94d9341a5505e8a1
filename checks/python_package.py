#!/usr/bin/env python3
"""Tests the Python package in python/, and makes its wheel.

    python3 checks/python_package.py test     its tests, over the library that is built, or over a slow stand-in
    python3 checks/python_package.py built    the same, where a library and all that the tests take has to be there
    python3 checks/python_package.py program  those of its tests that start the program, which has to be built
    python3 checks/python_package.py needs    fails where what the tests cannot do without is missing
    python3 checks/python_package.py lacks    prints Debian's packages of what the tests take and its Python lacks
    python3 checks/python_package.py wheel    out/morphd-VERSION-py3-none-PLATFORM.whl, with the library in it

The stand-in is made of checks/reference_model.py. `test` fails where pytest or NumPy is missing. Of other modules it says what is missing
and what is skipped for that. It takes the Python that has most of them, or the one that PYTHON names. Nothing is fetched from a network.
"""
import glob
import os
import re
import shutil
import subprocess
import sys
import tempfile

ROOT = os.path.dirname(os.path.dirname(os.path.realpath(__file__)))
LIBRARY = os.path.join(ROOT, "out", "libmorphd.so")
PROGRAM = os.path.join(ROOT, "crates", "morphd", "out", "morphd")
DEBIANS_PYTHON = "/usr/bin/python3"
LEAST = (3, 11)
# Modules that tests take, with Debian's package of each.
MODULES = {
    "pytest": "python3-pytest", "numpy": "python3-numpy", "scipy": "python3-scipy", "skimage": "python3-skimage", "cv2": "python3-opencv",
    "PIL": "python3-pil", "tifffile": "python3-tifffile", "matplotlib": "python3-matplotlib", "dask": "python3-dask",
    "distributed": "python3-distributed", "hypothesis": "python3-hypothesis", "tqdm": "python3-tqdm", "mypy": "python3-mypy",
}
# Without these nothing is tested.
NEEDED = ("pytest", "numpy")
FINDS = """
import importlib.util, sys
print(*sys.version_info[:2], *(name for name in %r if importlib.util.find_spec(name)))
"""


def pythons(modules):
    """Each Python of this machine that is new enough, with those of the modules that it has."""
    named = os.environ.get("PYTHON")
    places = [shutil.which(named)] if named else [sys.executable, shutil.which("python3"), DEBIANS_PYTHON]
    # as it is named: behind the link of a virtual environment there is another Python
    for place in dict.fromkeys(it for it in places if it and os.path.exists(it)):
        words = subprocess.run([place, "-c", FINDS % (list(modules),)], capture_output=True, text=True, check=True).stdout.split()
        if (int(words[0]), int(words[1])) >= LEAST:
            yield place, words[2:]


def best_python(modules, needed):
    """The Python that has most of the modules, of those that have the needed ones if there is one."""
    found = list(pythons(modules))
    if not found:
        sys.exit("python_package.py: Python %d.%d is needed" % LEAST)
    return max(found, key=lambda one: (len(set(needed) & set(one[1])), len(one[1])))


def tell(python, missing):
    print("python package: %s; library: %s; program: %s" % (
        python, "out/libmorphd.so" if os.path.exists(LIBRARY) else "none is built, a slow stand-in takes its place",
        "crates/morphd/out/morphd" if os.path.exists(PROGRAM) else "none is built, a stand-in takes its place"), flush=True)
    told = ", ".join("%s (Debian: %s)" % (it, MODULES[it]) for it in missing if it not in NEEDED)
    if told:
        print("python package: missing, and what needs it is skipped: " + told, flush=True)


def check_needed(missing):
    """Ends where nothing could be tested, and says what is to be installed."""
    lacking = [name for name in NEEDED if name in missing]
    if lacking:
        sys.exit("python package: not tested, since Python has no %s: apt-get install %s" % (
            " and no ".join(lacking), " ".join(MODULES[name] for name in lacking)))


def missing_modules():
    """The Python that tests are run by, and what it lacks."""
    python, has = best_python(MODULES, NEEDED)
    return python, [name for name in MODULES if name not in has]


def needs():
    check_needed(missing_modules()[1])
    return 0


def lacks():
    """Prints what Debian's Python lacks, unless another Python has all."""
    if missing_modules()[1]:
        has = dict(pythons(MODULES)).get(DEBIANS_PYTHON, ())
        print(*(package for name, package in MODULES.items() if name not in has))
    return 0


def environment(room):
    """What the tests run in: nothing is written into the tree, and what this tree has built is taken."""
    kept = dict(os.environ, PYTHONDONTWRITEBYTECODE="1", HYPOTHESIS_STORAGE_DIRECTORY=room, MPLCONFIGDIR=room)
    for name, place in (("MORPHD_LIBRARY", LIBRARY), ("MORPHD", PROGRAM)):
        if os.path.exists(place):
            kept.setdefault(name, place)
    return kept


def of_the_program():
    """The files of tests that start the program, or its server."""
    files = sorted(glob.glob(os.path.join(ROOT, "python", "tests", "test_*.py")))
    found = []
    for path in files:
        with open(path, encoding="utf-8") as file:
            if re.search(r"def test_\w+\([^)]*\b(?:program|server)\b", file.read()):
                found.append(os.path.relpath(path, os.path.join(ROOT, "python")))
    return found


def program():
    if not os.path.exists(PROGRAM) or not of_the_program():
        sys.exit("python package: the program is not built, or no test starts it")
    return test(False, of_the_program())


def test(is_strict, files=()):
    python, missing = missing_modules()
    tell(python, missing)
    check_needed(missing)
    if is_strict and (missing or not os.path.exists(LIBRARY)):
        sys.exit("python package: not tested; `make library` builds the library, and apt-get install gets the packages")
    with tempfile.TemporaryDirectory() as room:
        command = [python, "-m", "pytest", "-q", "-p", "no:cacheprovider", *files, *sys.argv[2:]]
        return subprocess.run(command, cwd=os.path.join(ROOT, "python"), env=environment(room), check=False).returncode


def copied(room, library):
    """A copy of python/, with the library in the package and the model beside the tests that take it."""
    copy = os.path.join(room, "python")
    shutil.copytree(os.path.join(ROOT, "python"), copy, ignore=shutil.ignore_patterns("__pycache__", "build", "*.egg-info", ".*", "libmorphd.*"))
    shutil.copy(library, os.path.join(copy, "morphd", "libmorphd.so.1"))
    shutil.copy(os.path.join(ROOT, "checks", "reference_model.py"), os.path.join(copy, "tests"))
    return copy


def packed(room, library):
    """The paths of a wheel with the library in it, which was tried, and of the source archive, which has the tests; both in `room`."""
    needed = ("setuptools", "wheel", "pip", "numpy")
    python, has = best_python(needed, needed)
    if set(needed) - set(has):
        sys.exit("python package: no wheel without " + ", ".join(sorted("python3-" + it for it in set(needed) - set(has))))
    backend = "import setuptools.build_meta as backend; backend.build_sdist(%r); backend.build_wheel(%r)" % (room, room)
    ran = subprocess.run([python, "-W", "ignore", "-c", backend], cwd=copied(room, library), capture_output=True, text=True, check=False)
    if ran.returncode:
        sys.exit("python package: no wheel was made: " + ran.stderr)
    made = glob.glob(os.path.join(room, "*.whl"))[0]
    try_out(python, made, os.path.join(room, "installed"))
    return made, glob.glob(os.path.join(room, "*.tar.gz"))[0]


def wheel():
    """Makes the wheel in a copy, sees that it can be installed and works, and puts it into out/."""
    if not os.path.exists(LIBRARY):
        sys.exit("python package: no wheel without a library: `make library` builds it")
    with tempfile.TemporaryDirectory() as room:
        made = packed(room, LIBRARY)[0]
        # An earlier one may have another name, and the documents install out/morphd-*.whl.
        for earlier in glob.glob(os.path.join(ROOT, "out", "morphd-*.whl")):
            os.remove(earlier)
        print(shutil.copy(made, os.path.join(ROOT, "out")))
    return 0


def try_out(python, made, place):
    """Installs the wheel somewhere, and calls the library that is in it, in the build that it picks and in the one for x86-64-v2."""
    pip = [python, "-m", "pip", "install", "--quiet", "--no-index", "--no-deps", "--target", place, made]
    subprocess.run(pip, check=True, env=dict(os.environ, PIP_ROOT_USER_ACTION="ignore"))
    code = ("import morphd, numpy; assert morphd.__file__.startswith(%r); "
            "print('library version', morphd.library_version(), 'for', morphd.library_build()); "
            "assert morphd.erosion(numpy.array([[3, 1, 4, 1, 5]], numpy.uint8), [[1, 1, 1]]).tolist() == [[1] * 5]" % place)
    kept = {name: value for name, value in os.environ.items() if name not in ("MORPHD_LIBRARY", "MORPHD_CPU")}
    older = code + "; assert morphd.library_build() == 'x86-64-v2'"
    subprocess.run([python, "-c", code], check=True, cwd=place, env=kept)
    subprocess.run([python, "-c", older], check=True, cwd=place, env=dict(kept, MORPHD_CPU="v2"))


def main():
    work = {"test": lambda: test(False), "built": lambda: test(True), "program": program, "needs": needs, "lacks": lacks, "wheel": wheel}
    if len(sys.argv) < 2 or sys.argv[1] not in work:
        sys.exit(__doc__)
    sys.exit(work[sys.argv[1]]())


if __name__ == "__main__":
    main()
