"""Proved flat morphology: arrays, files, curves, servers and clusters.

    import morphd
    image = morphd.read("grains.png")
    opened = morphd.opening(image, morphd.disk(5))
    curve = morphd.spectrum(morphd.threshold(opened, morphd.otsu(opened)), morphd.octagon(3, 2), 16, pixel="0.32um")

Images, labels and areas come from libmorphd or from the program `morphd`: this package has no operator of its own, but for the flooding
of `watersheds`. That module, `operators`, `geodesics`, `areas`, `grains`, `curves` and `files` need NumPy, `dask` needs Dask;
`footprints`, `session`, `pixels`, `doubts` and `errors` need nothing but Python. What a name needs is imported when the name is used.
"""
from __future__ import annotations

import importlib
import importlib.util
from typing import TYPE_CHECKING, Any

__version__ = "0.1.0"

_MODULES = {
    "errors": (
        "Cancelled", "InputFailed", "LibraryMissing", "OutOfMemory", "ProgramMissing", "Refused", "SessionEnded",
    ),
    "footprints": ("Footprint", "Reach", "diamond", "disk", "line", "octagon", "rectangle", "square"),
    "operators": (
        "black_tophat", "closing", "dilation", "erosion", "gradient", "hit_or_miss", "median", "opening", "percentile",
        "rank", "restored", "skeleton", "threshold", "white_tophat",
    ),
    "geodesics": (
        "clear_border", "distance", "fill_holes", "h_maxima", "h_minima", "hmax", "hmin", "label", "local_maxima",
        "local_minima", "reconstruction",
    ),
    "areas": ("area_closing", "area_opening", "remove_small_objects"),
    "grains": ("Regions", "Summary", "regions"),
    "watersheds": ("split_grains", "watershed"),
    "curves": ("Spectrum", "spectrum"),
    "files": ("Loaded", "load", "read", "write"),
    "levels": ("otsu",),
    "netpbm": ("Picture",),
    "pixels": ("Pixel",),
    "session": ("Handle", "Session"),
    "_library": ("library_build", "library_version"),
}
_HOMES = {name: module for module, names in _MODULES.items() for name in names}
# What modules need: its name in words, and the package that has it.
_NEEDS = {"numpy": ("NumPy", "python3-numpy"), "dask": ("Dask", "python3-dask")}
_SUBMODULES = (
    "areas", "curves", "dask", "doubts", "errors", "files", "footprints", "geodesics", "grains", "levels", "netpbm", "operators",
    "pixels", "session", "watersheds",
)

if TYPE_CHECKING:
    from . import (
        areas, curves, dask, doubts, errors, files, footprints, geodesics, grains, levels, netpbm, operators, pixels, session, watersheds,
    )
    from ._library import library_build, library_version
    from .areas import area_closing, area_opening, remove_small_objects
    from .curves import Spectrum, spectrum
    from .errors import Cancelled, InputFailed, LibraryMissing, OutOfMemory, ProgramMissing, Refused, SessionEnded
    from .files import Loaded, load, read, write
    from .footprints import Footprint, Reach, diamond, disk, line, octagon, rectangle, square
    from .geodesics import (
        clear_border, distance, fill_holes, h_maxima, h_minima, hmax, hmin, label, local_maxima, local_minima, reconstruction,
    )
    from .grains import Regions, Summary, regions
    from .levels import otsu
    from .netpbm import Picture
    from .operators import (
        black_tophat, closing, dilation, erosion, gradient, hit_or_miss, median, opening, percentile, rank, restored,
        skeleton, threshold, white_tophat,
    )
    from .pixels import Pixel
    from .session import Handle, Session
    from .watersheds import split_grains, watershed

__all__ = [
    "Cancelled", "Footprint", "Handle", "InputFailed", "LibraryMissing", "Loaded", "OutOfMemory", "Picture", "Pixel",
    "ProgramMissing", "Reach", "Refused", "Regions", "Session", "SessionEnded", "Spectrum", "Summary",
    "area_closing", "area_opening", "black_tophat", "clear_border", "closing", "diamond", "dilation", "disk", "distance",
    "erosion", "fill_holes", "gradient", "h_maxima", "h_minima", "hit_or_miss", "hmax", "hmin", "label", "library_build",
    "library_version", "line", "load", "local_maxima", "local_minima", "median", "octagon", "opening", "otsu",
    "percentile", "rank", "read", "reconstruction", "rectangle", "regions", "remove_small_objects", "restored",
    "skeleton", "spectrum", "split_grains", "square", "threshold", "watershed", "white_tophat", "write",
]


def _imported(name: str) -> Any:
    """A module of this package, or what one of them has by this name."""
    try:
        module = importlib.import_module(f".{_HOMES.get(name, name)}", __name__)
    except ModuleNotFoundError as missing:
        needed = str(missing.name).partition(".")[0]
        if needed in _NEEDS:
            what, package = _NEEDS[needed]
            raise ModuleNotFoundError(f"morphd.{name} needs {what}: apt-get install {package}", name=missing.name) from missing
        raise
    return module if name in _SUBMODULES else getattr(module, name)


if not TYPE_CHECKING:
    # not for type checkers, who would take any name for one of this package
    def __getattr__(name: str) -> Any:
        if name not in _HOMES and name not in _SUBMODULES:
            raise AttributeError(f"module 'morphd' has no attribute {name!r}")
        globals()[name] = value = _imported(name)
        return value


def __dir__() -> list[str]:
    return sorted({*globals(), *__all__, *(name for name in _SUBMODULES if name != "dask" or importlib.util.find_spec("dask"))})
