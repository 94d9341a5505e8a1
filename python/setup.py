"""Makes the wheel: one that holds the library is for Linux on x86-64, and for any Python 3.

Its tag names the least version of the C library that libmorphd takes, so pip refuses it where that is older.
"""
from pathlib import Path

from setuptools import setup
from setuptools.dist import Distribution

HERE = Path(__file__).resolve().parent
HOLDS_LIBRARY = any((HERE / "morphd").glob("libmorphd.*"))
PLATFORM = "manylinux_2_17_x86_64"


class Held(Distribution):
    """A package that is no pure Python where it holds the library."""

    def has_ext_modules(self):
        return HOLDS_LIBRARY


def commands():
    """The command that names the wheel."""
    from wheel.bdist_wheel import bdist_wheel

    class Wheel(bdist_wheel):
        def get_tag(self):
            return "py3", "none", PLATFORM

    return {"bdist_wheel": Wheel}


setup(distclass=Held, cmdclass=commands() if HOLDS_LIBRARY else {})
