"""Calls of the library that look through the whole frame from each place, so that no array is cut for them."""
from __future__ import annotations

from abc import ABC, abstractmethod
from collections.abc import Callable
from dataclasses import dataclass
from typing import Any

import numpy as np

from . import _library
from ._calls import Field, Samples, array_at, element_of, frame_of, ready_with
from .errors import Refused
from .footprints import Footprint

_EXTREMA = ("maxima", "minima")
_AREA = ("opening", "closing")
_METRICS = {_library.CITY_BLOCK: "city-block", _library.CHESSBOARD: "chessboard", _library.SQUARED_EUCLID: "squared Euclidean"}
# What the library tells of a component: the column and row of its first place, its area, and its box with both ends.
REGION = ("x", "y", "area", "left", "top", "right", "bottom")


class Whole(ABC):
    """What such calls have."""

    def dtype(self, field: Field) -> Any:
        """The type of the result's samples."""
        return field.samples.dtype

    @abstractmethod
    def ready(self, field: Field, out: Samples) -> Callable[[], None]:
        """The call itself, which writes the result. It holds both arrays."""

    def made(self, field: Field, out: Samples | None) -> Samples:
        """The result, in `out` where it is given."""
        held = np.empty(field.samples.shape, self.dtype(field)) if out is None else out
        self.ready(field, held)()
        return held


def _arguments(field: Field, footprint: Footprint, out: Samples) -> tuple[Any, ...]:
    return (*frame_of(field), *field.top, *array_at(field.samples), *element_of(footprint), *array_at(out))


class Around(Whole):
    """Such calls in which a footprint tells what hangs together."""

    footprint: Footprint

    def call(self, name: str, field: Field, out: Samples, *numbers: int) -> Callable[[], None]:
        """The call of a family for this kind of samples, with these numbers before the image."""
        arguments = (*numbers, *_arguments(field, self.footprint, out))
        return ready_with(f"morphd_{name}_{field.kind}", lambda: f"{self} of {field}", arguments, field.samples, out)


def reconstruction(method: int, marker: Field, mask: Field, footprint: Footprint, out: Samples) -> Callable[[], None]:
    """The reconstruction of a mask from a marker of its kind."""
    arguments = (method, *frame_of(marker), *marker.top, *array_at(marker.samples), *_arguments(mask, footprint, out))
    name = "dilation" if method == _library.BY_DILATION else "erosion"

    def asked() -> str:
        return f"reconstruction by {name} with {footprint!r} of {mask} from {marker}"

    return ready_with(f"morphd_reconstruct_{mask.kind}", asked, arguments, marker.samples, mask.samples, out)


@dataclass(frozen=True)
class Filled(Around):
    """The image with its holes filled."""

    footprint: Footprint

    def ready(self, field: Field, out: Samples) -> Callable[[], None]:
        return self.call("fill", field, out)

    def __str__(self) -> str:
        return f"filled holes by {self.footprint!r}"


@dataclass(frozen=True)
class Cleared(Around):
    """The image less what is reconstructed from its border."""

    footprint: Footprint

    def ready(self, field: Field, out: Samples) -> Callable[[], None]:
        return self.call("clear_border", field, out)

    def __str__(self) -> str:
        return f"cleared border by {self.footprint!r}"


@dataclass(frozen=True)
class ClearedBand(Whole):
    """The image less what is reconstructed from a band of so many rows and columns at its border."""

    footprint: Footprint
    band: int

    def ready(self, field: Field, out: Samples) -> Callable[[], None]:
        marker = field.samples.copy()
        marker[self.band : -self.band, self.band : -self.band] = 0
        call = reconstruction(_library.BY_DILATION, field._replace(samples=marker), field, self.footprint, out)

        def run() -> None:
            call()
            np.subtract(field.samples, out, out=out)

        return run


@dataclass(frozen=True)
class Cut(Around):
    """The image with h cut off its domes, or filled into its basins."""

    kind: int
    h: int
    footprint: Footprint

    def ready(self, field: Field, out: Samples) -> Callable[[], None]:
        return self.call("extrema_h", field.levels, out, self.kind, self.h)

    def __str__(self) -> str:
        return f"h-{_EXTREMA[self.kind]} of {self.h} by {self.footprint!r}"


@dataclass(frozen=True)
class Regional(Around):
    """The set of the regional maxima or minima."""

    kind: int
    footprint: Footprint

    def dtype(self, field: Field) -> Any:
        return np.uint8

    def ready(self, field: Field, out: Samples) -> Callable[[], None]:
        return self.call("extrema_regional", field.levels, out, self.kind)

    def __str__(self) -> str:
        return f"regional {_EXTREMA[self.kind]} by {self.footprint!r}"


@dataclass(frozen=True)
class Large(Around):
    """The components of a set that have so many pixels or more."""

    least: int
    footprint: Footprint

    def ready(self, field: Field, out: Samples) -> Callable[[], None]:
        return self.call("area", field, out, self.least)

    def __str__(self) -> str:
        return f"components of {self.least} pixels and more by {self.footprint!r}"


@dataclass(frozen=True)
class AreaFiltered(Around):
    """The area opening or the area closing."""

    kind: int
    least: int
    footprint: Footprint

    def ready(self, field: Field, out: Samples) -> Callable[[], None]:
        return self.call("area", field.levels, out, self.kind, self.least)

    def __str__(self) -> str:
        return f"area {_AREA[self.kind]} of {self.least} pixels by {self.footprint!r}"


@dataclass(frozen=True)
class Distances(Whole):
    """How far each pixel of a set is from the nearest one outside, or the top."""

    metric: int
    top: int

    def dtype(self, field: Field) -> Any:
        return np.uint32

    def ready(self, field: Field, out: Samples) -> Callable[[], None]:
        arguments = (self.metric, self.top, *frame_of(field), *array_at(field.samples), *array_at(out))
        return ready_with("morphd_distance_set", lambda: f"{self} of {field}", arguments, field.samples, out)

    def __str__(self) -> str:
        return f"{_METRICS[self.metric]} distances"


def labels(field: Field, footprint: Footprint, out: Samples) -> tuple[Samples, int]:
    """The labels of a set, from 1 by the first places of its components, and how many they are."""
    count = np.zeros(1, np.uint32)
    arguments = (*_arguments(field, footprint, out), count.ctypes.data)
    ready_with("morphd_label_set", lambda: f"labels by {footprint!r} of {field}", arguments, field.samples, out, count)()
    return out, int(count[0])


def regions(field: Field, footprint: Footprint, out: Samples) -> tuple[Samples, Samples]:
    """The labels of a set, and a row of the numbers of `REGION` for each of its components, by their first places.

    There is room at first for a component in 8 pixels; memory is taken for those that are found. Of a set that has more of them the
    library tells how many there are, and is asked once more.
    """
    found = np.zeros(1, np.uint32)

    def asked() -> str:
        return f"regions by {footprint!r} of {field}"

    def rows_of(most: int) -> Samples:
        rows = np.empty((most, len(REGION)), np.uint32)
        arguments = (*_arguments(field, footprint, out), *array_at(rows), found.ctypes.data)
        ready_with("morphd_components_set", asked, arguments, field.samples, out, rows, found)()
        return rows[: int(found[0])]

    most = field.samples.size // 8 + 16
    try:
        return out, rows_of(most).copy()
    except Refused:
        if found[0] <= most:
            raise
    return out, rows_of(int(found[0]))
