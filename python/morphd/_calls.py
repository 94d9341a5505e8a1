"""One call of the library on one array, as a value: what is asked for, how far it looks, and what its result is made of.

A call knows nothing of edges, cores or arrays that are too large; `_pieces`, `_edges` and `_plans` do.
"""
from __future__ import annotations

from collections.abc import Callable
from dataclasses import dataclass, replace
from functools import partial
from typing import Any, NamedTuple, Protocol

import numpy as np
from numpy.typing import NDArray

from . import _library
from .footprints import Footprint, Reach

Samples = NDArray[Any]
NOWHERE = Reach(0, 0, 0, 0)
_TWO_STEPS = (_library.OPEN, _library.CLOSE, _library.WHITE_TOPHAT, _library.BLACK_TOPHAT)
_NAMES = ("erosion", "dilation", "opening", "closing", "gradient", "white top-hat", "black top-hat", "rank")


class Field(NamedTuple):
    """Samples as the library takes them: two axes, by rows without gaps, uint8 or uint16; a set is of uint8."""

    samples: Samples
    maxval: int
    is_set: bool

    @property
    def kind(self) -> str:
        """What the library calls this kind of samples."""
        return "set" if self.is_set else "u8" if self.samples.dtype == np.uint8 else "u16"

    @property
    def top(self) -> tuple[int, ...]:
        """The maxval as an argument: sets have none."""
        return () if self.is_set else (self.maxval,)

    @property
    def levels(self) -> Field:
        """This field where sets are not taken: levels up to 1."""
        return self._replace(is_set=False)

    def __str__(self) -> str:
        rows, columns = self.samples.shape
        return f"a set of {rows} x {columns}" if self.is_set else f"{rows} x {columns} samples up to {self.maxval}"


class Rows(Protocol):
    """Rows of a result, from `begin` to `end`, and those of the image that they see, from `first` to `last`."""

    @property
    def begin(self) -> int: ...

    @property
    def end(self) -> int: ...

    @property
    def first(self) -> int: ...

    @property
    def last(self) -> int: ...


class Call(Protocol):
    """What all calls have."""

    @property
    def reach(self) -> Reach: ...

    @property
    def transposed(self) -> Call:
        """The call that makes the transposed result of the transposed array."""

    def dtype(self, field: Field) -> Any:
        """The type of the result's samples."""

    def ready(self, field: Field, out: Samples) -> Callable[[], None]:
        """The call itself, which writes the result. It holds both arrays."""


def array_at(samples: Samples) -> tuple[int, int]:
    return samples.ctypes.data, samples.size


def _holding(_arrays: tuple[Samples, ...], call: Callable[[], None]) -> None:
    call()


def ready_with(name: str, asked: Callable[[], str], arguments: tuple[Any, ...], *arrays: Samples) -> Callable[[], None]:
    """A call of the library that holds the arrays whose addresses it has: a thread can be in the middle of it when nobody else does."""
    return partial(_holding, arrays, _library.ready(name, asked, *arguments))


def frame_of(field: Field) -> tuple[int, int]:
    return field.samples.shape[1], field.samples.shape[0]


def element_of(footprint: Footprint) -> tuple[bytes, int, int, int, int, int]:
    (rows, columns), (row, column) = footprint.shape, footprint.origin
    return footprint.pixels, len(footprint.pixels), columns, rows, column, row


def _transposed(footprint: Footprint) -> Footprint:
    return Footprint(footprint.bitmap.T, footprint.origin[::-1])


@dataclass(frozen=True)
class Flat:
    """One of the eight flat operations."""

    op: int
    footprint: Footprint
    k: int = 0

    @property
    def reach(self) -> Reach:
        own = self.footprint.reach
        return own + own.turned() if self.op in _TWO_STEPS else own

    @property
    def transposed(self) -> Flat:
        return replace(self, footprint=_transposed(self.footprint))

    @property
    def has_one_step(self) -> bool:
        """Whether rows of the result can be made alone."""
        return self.op not in _TWO_STEPS

    def dtype(self, field: Field) -> Any:
        return field.samples.dtype

    def _arguments(self, field: Field, out: Samples) -> tuple[Any, ...]:
        return (*frame_of(field), *field.top, *array_at(field.samples), *element_of(self.footprint), *array_at(out))

    def ready(self, field: Field, out: Samples) -> Callable[[], None]:
        arguments = (self.op, self.k, *self._arguments(field, out))
        return ready_with(f"morphd_flat_{field.kind}", lambda: f"{self} of {field}", arguments, field.samples, out)

    def rows_of(self, field: Field, out: Samples) -> Callable[[Rows], Callable[[], None]]:
        """What makes, of rows of the result, the call that writes them alone, where the operation has one step.

        What is the same for all rows is worked out once.

        Parameters
        ----------
        field : Field
            The samples.
        out : Samples
            Room for the whole result.
        """
        name, width = f"morphd_flat_rows_{field.kind}", field.samples.shape[1]
        (start, _), (target, _), step = array_at(field.samples), array_at(out), width * field.samples.itemsize

        def ready(rows: Rows) -> Callable[[], None]:
            seen = rows.last - rows.first
            samples = start + rows.first * step, seen * width
            room = target + rows.begin * step, (rows.end - rows.begin) * width
            begin = rows.begin - rows.first
            arguments = (self.op, self.k, begin, width, seen, *field.top, *samples, *element_of(self.footprint), *room)
            return ready_with(name, lambda: f"rows of {self} of {field}", arguments, field.samples, out)

        return ready

    def __str__(self) -> str:
        number = f" number {self.k}" if self.op == _library.RANK else ""
        return f"{_NAMES[self.op]}{number} by {self.footprint!r}"


@dataclass(frozen=True)
class Threshold:
    """The set of the samples of k or more."""

    k: int
    reach = NOWHERE

    @property
    def transposed(self) -> Threshold:
        return self

    def dtype(self, field: Field) -> Any:
        return np.uint8

    def ready(self, field: Field, out: Samples) -> Callable[[], None]:
        arguments = (self.k, *frame_of(field), field.maxval, *array_at(field.samples), *array_at(out))
        return ready_with(f"morphd_threshold_{field.levels.kind}", lambda: f"{self} of {field}", arguments, field.samples, out)

    def __str__(self) -> str:
        return f"threshold at {self.k}"


@dataclass(frozen=True)
class HitOrMiss:
    """Erosion by the one footprint less dilation by the other."""

    hit: Footprint
    miss: Footprint

    @property
    def reach(self) -> Reach:
        return self.hit.reach.joined(self.miss.reach)

    @property
    def transposed(self) -> HitOrMiss:
        return HitOrMiss(_transposed(self.hit), _transposed(self.miss))

    def dtype(self, field: Field) -> Any:
        return field.samples.dtype

    def ready(self, field: Field, out: Samples) -> Callable[[], None]:
        elements = (*element_of(self.hit), *element_of(self.miss))
        arguments = (*frame_of(field), *field.top, *array_at(field.samples), *elements, *array_at(out))
        return ready_with(f"morphd_hit_or_miss_{field.kind}", lambda: f"{self} of {field}", arguments, field.samples, out)

    def __str__(self) -> str:
        return f"hit-or-miss by {self.hit!r} and {self.miss!r}"


@dataclass(frozen=True)
class Skeleton:
    """Marks of the residues of so many erosions."""

    footprint: Footprint
    levels: int

    @property
    def reach(self) -> Reach:
        # the last residue looks through all erosions, and back once
        return self.footprint.reach * self.levels + self.footprint.reach.turned()

    @property
    def transposed(self) -> Skeleton:
        return replace(self, footprint=_transposed(self.footprint))

    def dtype(self, field: Field) -> Any:
        return np.uint8

    def ready(self, field: Field, out: Samples) -> Callable[[], None]:
        arguments = (self.levels, *frame_of(field), *array_at(field.samples), *element_of(self.footprint), *array_at(out))
        return ready_with("morphd_skeleton", lambda: f"{self} of {field}", arguments, field.samples, out)

    def __str__(self) -> str:
        return f"skeleton of {self.levels} levels by {self.footprint!r}"


@dataclass(frozen=True)
class Restoration:
    """The set that the marks of a skeleton came from."""

    footprint: Footprint
    levels: int

    @property
    def reach(self) -> Reach:
        return self.footprint.reach.turned() * self.levels

    @property
    def transposed(self) -> Restoration:
        return replace(self, footprint=_transposed(self.footprint))

    def dtype(self, field: Field) -> Any:
        return np.uint8

    def ready(self, field: Field, out: Samples) -> Callable[[], None]:
        arguments = (self.levels, *frame_of(field), field.maxval, *array_at(field.samples), *element_of(self.footprint), *array_at(out))
        return ready_with(f"morphd_restore_{field.levels.kind}", lambda: f"{self} of {field}", arguments, field.samples, out)

    def __str__(self) -> str:
        return f"restoration of {self.levels} levels by {self.footprint!r}"


def volumes(field: Field, footprint: Footprint, levels: int) -> Samples:
    """The volumes of a spectrum: of the array, and behind each of so many openings."""
    out = np.zeros(max(levels, 0) + 1, np.uint64)
    arguments = (levels, *frame_of(field), *field.top, *array_at(field.samples), *element_of(footprint), *array_at(out))
    _library.call(f"morphd_spectrum_{field.kind}", lambda: f"spectrum of {levels} sizes by {footprint!r} of {field}", *arguments)
    return out
