"""Parameters that many functions share, told once and put into the docstring of each."""
from __future__ import annotations

import textwrap
from collections.abc import Callable
from typing import Any, TypeVar

Function = TypeVar("Function", bound=Callable[..., Any])

_AXES = """\
axes : (int, int), optional
    Which axes are the rows and the columns of a plane, for arrays with more than two. Planes are treated by themselves."""
_PARTS = {
    "axes": _AXES,
    "image": """\
image : array_like
    Two axes, unless `axes` is given. An array of bool is a set; uint8 and uint16 are taken as they are. {types}
    Any strides and order of bytes do, and read-only arrays, too.""",
    "footprint": """\
footprint : Footprint or array_like
    What the operator looks through, see `morphd.footprints`.""",
    "mode": """\
mode : {{'ignore', 'reflect', 'mirror', 'nearest', 'wrap', 'constant'}}, optional
    What stands outside the frame. 'ignore' leaves it out, as the library does, whose calls are proved. The others are those of
    scipy.ndimage: a rim is put around the array before each step, which is tested and not proved. If left out it is that of
    `compat`, or else '{usual}'.""",
    "cval": """\
cval : scalar
    The sample outside with ``mode='constant'``; among floats the nearest one of the image's type. What that type does not
    hold is refused: NaN, a fraction among integers, a number outside the limits.""",
    "options": f"""\
maxval : int, optional
    The greatest sample that an array of uint8 or uint16 can have, 4095 for a camera of 12 bits; the type's if left out.
    It is what an erosion gives where its footprint sees nothing; a dilation gives 0. A sample over it is refused.
{_AXES}""",
    "compat": """\
compat : {{'scipy', 'skimage', 'opencv'}}, optional
    Whose rules are taken for reflected footprints, the origin of even sides and edges: those of SciPy 1.10,
    scikit-image 0.19 or OpenCV 4.6. A `mode` that is given stands in the place of their edges. Differences stop at 0, where
    some of theirs wrap round.""",
    "out": """\
out : ndarray, optional
    Where the result is written: an array of the image's shape and of the result's type. It may be `image`. A refusal leaves
    it as it was; want of memory, or an interrupt, can leave a part of the result in it.
workers : int, optional
    How many threads share the rows; -1 is one for each processor that this process may use. The result is the same. An
    interrupt is raised when the threads have ended what they had begun.""",
    "bands": """\
workers : int, optional
    How many threads share the rows; -1 is one for each processor that this process may use. Bands are labelled by the library, whose
    call is proved, and joined by NumPy, which is tested; the result is the same.""",
    "around": """\
footprint : Footprint or array_like, optional
    Which pixels hang together: p with those at p + b, b in the footprint. The square of 3 x 3 if left out, as scikit-image has
    it: pixels that share a side or a corner.""",
    "whole": f"""\
maxval : int, optional
    The greatest sample that an array of uint8 or uint16 can have; the type's if left out. A sample over it is refused.
{_AXES}
out : ndarray, optional
    Where the result is written: an array of the image's shape and of the result's type. It may be `image`.""",
    "planes": f"""\
{_AXES}
out : ndarray of bool, optional
    Where the result is written: an array of the shape of `mask`, which it may be.""",
    "mask": """\
mask : array_like of bool
    Two axes. An array of uint8 is taken, too, where it has a single value that is not 0, as masks in files have 255.""",
    "connectivity": """\
connectivity : {{1, 2}}, optional
    1 where pixels hang together that share a side, 2, or left out, where those that share a corner do, too.""",
    "raises": """\
Refused
    Where the library refuses it: by number and word, see docs/PROTOCOL.md.
OutOfMemory
    Where there is not enough memory.
TypeError, ValueError
    Where an argument or the image's type is none that is taken.""",
}
_BOOKS = {
    "serra": 'J. Serra, "Image Analysis and Mathematical Morphology", Academic Press, 1982.',
    "soille": 'P. Soille, "Morphological Image Analysis", 2nd edition, Springer, 2003.',
    "heijmans": 'H. J. A. M. Heijmans, "Morphological Image Operators", Academic Press, 1994.',
    "herk": 'M. van Herk, "A fast algorithm for local minimum and maximum filters on rectangular and octagonal kernels", Pattern\n'
            "   Recognition Letters 13, 1992, pp. 517-521.",
    "rivest": 'J.-F. Rivest, P. Soille and S. Beucher, "Morphological gradients", Journal of Electronic Imaging 2, 1993, pp. 326-336.',
    "meyer": 'F. Meyer, "Iterative image transformations for an automatic screening of cervical smears", Journal of Histochemistry\n'
             "   and Cytochemistry 27, 1979, pp. 128-135.",
    "huang": 'T. S. Huang, G. J. Yang and G. Y. Tang, "A fast two-dimensional median filtering algorithm", IEEE Transactions on\n'
             "   Acoustics, Speech and Signal Processing 27, 1979, pp. 13-18.",
    "vincent": 'L. Vincent, "Morphological grayscale reconstruction in image analysis: applications and efficient algorithms", IEEE\n'
               "   Transactions on Image Processing 2, 1993, pp. 176-201.",
    "vincent_areas": 'L. Vincent, "Grayscale area openings and closings, their efficient implementation and applications", EURASIP\n'
                     "   Workshop on Mathematical Morphology, Barcelona, 1993, pp. 22-27.",
    "meijster": 'A. Meijster and M. H. F. Wilkinson, "A comparison of algorithms for connected set openings and closings", IEEE\n'
                "   Transactions on Pattern Analysis and Machine Intelligence 24, 2002, pp. 484-494.",
    "lantuejoul": 'C. Lantuejoul, "La squelettisation et son application aux mesures topologiques des mosaiques polycristallines",\n'
                  "   thesis, Ecole des Mines de Paris, 1978.",
    "beucher": 'S. Beucher and C. Lantuejoul, "Use of watersheds in contour detection", International Workshop on Image Processing,\n'
               "   Rennes, 1979.",
    "meyer_1991": 'F. Meyer, "Un algorithme optimal pour la ligne de partage des eaux", 8e congres de reconnaissance des formes et\n'
                  "   intelligence artificielle, Lyon, 1991, pp. 847-857.",
}
COMPARES = """\
Other integers and
    floats are taken, too, with up to 65,536 values in a plane and no NaN, since the operator only compares samples; 0.0 and
    -0.0 are one value. Where a footprint sees nothing, an erosion gives the plane's greatest value, and a dilation its least."""
FILLS = """\
Other integers and
    floats are taken, too, with up to 65,536 values in a plane and no NaN, since holes only compare samples."""
DROPS = "Other types are refused, since what belongs to nothing so large drops to the level 0, or of the complement."
COMPUTES = "Other types are refused, since the operator subtracts samples."


def documented(types: str = COMPARES, usual: str = "ignore") -> Callable[[Function], Function]:
    """Puts the shared parts in the place of their names, as `%(image)s`."""

    def filled(function: Function) -> Function:
        parts = {**_BOOKS, **{name: part.format(types=types, usual=usual) for name, part in _PARTS.items()}}
        text = textwrap.dedent(f"    {function.__doc__}")
        function.__doc__ = text % parts
        return function

    return filled
