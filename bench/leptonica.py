"""Leptonica's openings of sets by full rectangles, on arrays of NumPy with a byte a pixel, for bench/library.py. Leptonica packs 32
pixels into a word; that stands outside the time that is taken.
"""
import ctypes
import ctypes.util

import numpy

POINTER, NUMBER = ctypes.c_void_p, ctypes.c_int


def loaded():
    """The library, or None where it is not installed."""
    name = ctypes.util.find_library("lept")
    if not name:
        return None
    library = ctypes.CDLL(name)
    for call, answer, words in (("pixCreate", POINTER, [NUMBER] * 3), ("pixGetData", POINTER, [POINTER]), ("pixGetWpl", NUMBER, [POINTER]),
                                ("pixOpenCompBrickDwa", POINTER, [POINTER, POINTER, NUMBER, NUMBER])):
        function = getattr(library, call)
        function.restype, function.argtypes = answer, words
    return library


class Opening:
    """The opening of a set by a full rectangle, by what Leptonica compiled for such elements. Called, it makes it anew."""

    def __init__(self, library, image, element):
        self.library, self.sides, self.element = library, image.shape, element.shape
        self.source, self.made = (library.pixCreate(*reversed(image.shape), 1) for _ in range(2))
        packed = numpy.packbits(image, axis=1)
        bytes_of_rows = numpy.zeros((len(image), 4 * library.pixGetWpl(self.source)), numpy.uint8)
        bytes_of_rows[:, : packed.shape[1]] = packed
        # the first pixel of a word is its highest bit
        words = bytes_of_rows.view(">u4").astype("=u4")
        ctypes.memmove(library.pixGetData(self.source), words.ctypes.data, words.nbytes)

    def __call__(self):
        rows, columns = self.element
        self.library.pixOpenCompBrickDwa(self.made, self.source, columns, rows)

    def result(self):
        """What was made, a byte a pixel."""
        (height, width), words = self.sides, self.library.pixGetWpl(self.made)
        data = ctypes.cast(self.library.pixGetData(self.made), ctypes.POINTER(ctypes.c_uint32))
        rows = numpy.ctypeslib.as_array(data, (height, words)).astype(">u4").view(numpy.uint8)
        return numpy.unpackbits(rows, axis=1)[:, :width]
