"""The calls of libmorphd, by ctypes, which lets go of the interpreter's lock while a call runs.

`PROTOTYPES` says what each call takes, as include/morphd.h does. Nothing above this module knows of ctypes.
"""
from __future__ import annotations

import ctypes
import os
from collections.abc import Callable
from pathlib import Path
from typing import Any

from .errors import LibraryMissing, OutOfMemory, Refused

_U8, _U16, _U32, _SIZE, _POINTER = ctypes.c_uint8, ctypes.c_uint16, ctypes.c_uint32, ctypes.c_size_t, ctypes.c_void_p
_ARRAY = (_POINTER, _SIZE)
_FRAME = (_U32, _U32)
_ELEMENT = (*_ARRAY, _U32, _U32, _U32, _U32)
# What stands for the maxval: sets have none.
_TOPS: dict[str, tuple[Any, ...]] = {"u8": (_U8,), "u16": (_U16,), "set": ()}

# Each call with the types of its arguments. Those of one family differ in the samples that they take.
PROTOTYPES: dict[str, tuple[Any, ...]] = {
    **{f"morphd_flat_{kind}": (_U32, _U32, *_FRAME, *top, *_ARRAY, *_ELEMENT, *_ARRAY) for kind, top in _TOPS.items()},
    **{f"morphd_flat_rows_{kind}": (_U32, _U32, _U32, *_FRAME, *top, *_ARRAY, *_ELEMENT, *_ARRAY) for kind, top in _TOPS.items()},
    **{f"morphd_threshold_{kind}": (_U32, *_FRAME, *_TOPS[kind], *_ARRAY, *_ARRAY) for kind in ("u8", "u16")},
    **{f"morphd_hit_or_miss_{kind}": (*_FRAME, *top, *_ARRAY, *_ELEMENT, *_ELEMENT, *_ARRAY) for kind, top in _TOPS.items()},
    "morphd_skeleton": (_U32, *_FRAME, *_ARRAY, *_ELEMENT, *_ARRAY),
    **{f"morphd_restore_{kind}": (_U32, *_FRAME, *_TOPS[kind], *_ARRAY, *_ELEMENT, *_ARRAY) for kind in ("u8", "u16")},
    **{f"morphd_spectrum_{kind}": (_U32, *_FRAME, *top, *_ARRAY, *_ELEMENT, *_ARRAY) for kind, top in _TOPS.items()},
    **{f"morphd_reconstruct_{kind}": (_U32, *2 * (*_FRAME, *top, *_ARRAY), *_ELEMENT, *_ARRAY) for kind, top in _TOPS.items()},
    **{f"morphd_fill_{kind}": (*_FRAME, *top, *_ARRAY, *_ELEMENT, *_ARRAY) for kind, top in _TOPS.items()},
    **{f"morphd_clear_border_{kind}": (*_FRAME, *top, *_ARRAY, *_ELEMENT, *_ARRAY) for kind, top in _TOPS.items()},
    **{f"morphd_extrema_h_{kind}": (_U32, _U32, *_FRAME, *_TOPS[kind], *_ARRAY, *_ELEMENT, *_ARRAY) for kind in ("u8", "u16")},
    **{f"morphd_extrema_regional_{kind}": (_U32, *_FRAME, *_TOPS[kind], *_ARRAY, *_ELEMENT, *_ARRAY) for kind in ("u8", "u16")},
    "morphd_label_set": (*_FRAME, *_ARRAY, *_ELEMENT, *_ARRAY, _POINTER),
    "morphd_regions_set": (*_FRAME, *_ARRAY, *_ELEMENT, *_ARRAY, _POINTER),
    "morphd_components_set": (*_FRAME, *_ARRAY, *_ELEMENT, *_ARRAY, *_ARRAY, _POINTER),
    "morphd_area_set": (_U32, *_FRAME, *_ARRAY, *_ELEMENT, *_ARRAY),
    **{f"morphd_area_{kind}": (_U32, _U32, *_FRAME, *_TOPS[kind], *_ARRAY, *_ELEMENT, *_ARRAY) for kind in ("u8", "u16")},
    "morphd_distance_set": (_U32, _U32, *_FRAME, *_ARRAY, *_ARRAY),
    "morphd_version": (),
    "morphd_build": (),
}
ANSWERS = {name: _U32 if name in ("morphd_version", "morphd_build") else ctypes.c_int32 for name in PROTOTYPES}

# The numbers of the operations of the flat calls.
ERODE, DILATE, OPEN, CLOSE, GRADIENT, WHITE_TOPHAT, BLACK_TOPHAT, RANK = range(8)
# The methods of reconstructions, the kinds of extrema and of area operators, and the metrics of distances.
BY_DILATION, BY_EROSION = range(2)
MAXIMA, MINIMA = range(2)
AREA_OPENING, AREA_CLOSING = range(2)
CITY_BLOCK, CHESSBOARD, SQUARED_EUCLID = range(3)

MEMORY = 50
# The version of include/morphd.h that this module speaks.
VERSION = 1
# The name by which programs ask for the library: its number is that of the version above.
NAME = "libmorphd.so.1"
_HOW = (
    "libmorphd was not found: build it with `make library` at the top of the repository, or install a wheel that "
    "`make python` made, or set MORPHD_LIBRARY to the path of libmorphd.so.1. Looked for: "
)
# What x86-64-v2 has beyond the first x86-64, as Linux calls it: libmorphd uses all of it without asking. What x86-64-v3 has more it
# looks for itself, unless this variable is v2.
_CPU = "MORPHD_CPU"
_INSTRUCTIONS = frozenset(("cx16", "lahf_lm", "pni", "popcnt", "sse4_1", "sse4_2", "ssse3"))
_PROCESSORS = "/proc/cpuinfo"
_ANEW = "`make library` makes it anew"
_loaded: Any = None


def _places() -> list[str]:
    """Where the library may be, the first first: as the environment says, in the package, in a checkout, in the system."""
    told = os.environ.get("MORPHD_LIBRARY")
    if told:
        return [told]
    here = Path(__file__).resolve().parent
    own = [here / NAME]
    # A folder of installed packages has no such file: there, a folder `out` beside it is anybody's.
    if (here.parent / "pyproject.toml").exists():
        own.append(here.parents[1] / "out" / NAME)
    return [*(str(path) for path in own if path.exists()), NAME]


def _lacking() -> list[str]:
    """The instructions that the library needs and this processor lacks, as far as the system tells."""
    try:
        with open(_PROCESSORS, encoding="ascii", errors="replace") as file:
            flags = next((line.partition(":")[2].split() for line in file if line.startswith("flags")), None)
    except OSError:
        return []
    return [] if flags is None else sorted(_INSTRUCTIONS.difference(flags))


def _opened(place: str) -> Any:
    """The library at a place, with the types of its calls."""
    library = ctypes.CDLL(place)
    for name, types in PROTOTYPES.items():
        try:
            call = getattr(library, name)
        except AttributeError:
            raise LibraryMissing(f"{place} has no call {name}: it is no libmorphd, or an old one; {_ANEW}") from None
        call.argtypes, call.restype = types, ANSWERS[name]
    if library.morphd_version() != VERSION:
        raise LibraryMissing(f"{place} has version {library.morphd_version()}, and this package needs {VERSION}; {_ANEW}")
    told, runs = os.environ.get(_CPU), f"v{library.morphd_build()}"
    if told and told != runs:
        raise LibraryMissing(f"{_CPU} is {told!r}, which is not v2, or v3 on a processor that has it: {place} runs its build for x86-64-{runs}")
    return library


def loaded() -> Any:
    """The library, opened at the first call that needs it."""
    global _loaded
    if _loaded is None:
        lacking = _lacking()
        if lacking:
            raise LibraryMissing(f"libmorphd needs a processor with x86-64-v2 (SSE4.2), and this one lacks {', '.join(lacking)}")
        faults = []
        for place in _places():
            try:
                _loaded = _opened(place)
                break
            except OSError as fault:
                faults.append(f"{place} ({fault})")
        else:
            raise LibraryMissing(_HOW + ", ".join(faults))
    return _loaded


def use(library: Any) -> Any:
    """Calls this library from now on, None for the one that is found; gives the one before."""
    global _loaded
    before, _loaded = _loaded, library
    return before


def ready(name: str, asked: Callable[[], str], *arguments: Any) -> Callable[[], None]:
    """A call of the library that any thread may make, and that raises what its answer stands for.

    `asked` tells what was asked for, if it is refused. Arrays among the arguments are addresses: who holds the call holds them too.
    """
    function = getattr(loaded(), name)

    def run() -> None:
        number = function(*arguments)
        if number == MEMORY:
            raise OutOfMemory(asked())
        if number:
            raise Refused(number, asked())

    return run


def call(name: str, asked: Callable[[], str], *arguments: Any) -> None:
    """Makes a call of the library at once."""
    ready(name, asked, *arguments)()


def library_version() -> int:
    """The number of the library's version, as it tells it.

    Returns
    -------
    int
    """
    return int(loaded().morphd_version())


def library_build() -> str:
    """The level of x86-64 that the library's build is for which runs here, as it tells it.

    There are two of them, ``x86-64-v2`` and ``x86-64-v3``, which make the same; the second one uses vectors of 32 bytes. The library picks
    it where the processor has all that it needs. With ``MORPHD_CPU=v2`` in the environment it picks the first one.

    Returns
    -------
    str
    """
    return f"x86-64-v{loaded().morphd_build()}"
