"""Operators as steps of the library's calls, by the conventions of this package and of others.

With the mode `ignore` and our own convention each operator is one call, whose result is proved. A rim has to be put around
the array anew before each step, so with another mode an opening is two calls; so it is where another library reflects
other footprints. What is put together of several calls is tested, not proved. The rules of SciPy 1.10, scikit-image 0.19
and OpenCV 4.6 stand in `_STEPS` and were found by comparing.
"""
from __future__ import annotations

from collections.abc import Callable
from dataclasses import dataclass
from typing import Literal, NamedTuple, Union, get_args

import numpy as np

from . import _edges
from ._calls import Call, Field, Flat, Samples
from ._edges import Edges
from ._geodesic_calls import Whole
from ._library import BLACK_TOPHAT, CLOSE, DILATE, ERODE, GRADIENT, OPEN, WHITE_TOPHAT
from .footprints import Footprint, Reach

Compat = Literal["scipy", "skimage", "opencv"]
COMPAT: tuple[Compat, ...] = get_args(Compat)


@dataclass(frozen=True)
class Chain:
    """Steps one after the other."""

    steps: tuple[Plan, ...]


@dataclass(frozen=True)
class Less:
    """A difference that stops at 0. None stands for the array itself."""

    upper: Plan | None
    lower: Plan | None


@dataclass(frozen=True)
class Rimmed:
    """A plan on the array with a rim of its nearest samples, which is cut off behind it."""

    rim: Reach
    plan: Plan


Plan = Union[Call, Chain, Less, Rimmed, Whole]


class Run(NamedTuple):
    """How plans are run: on what, with which edges, by how many threads."""

    field: Field
    edges: Edges
    workers: int


def _erode(footprint: Footprint) -> Flat:
    return Flat(ERODE, footprint)


def _dilate(footprint: Footprint) -> Flat:
    return Flat(DILATE, footprint)


def _built(name: str, erode: Footprint, dilate: Footprint, then_dilate: Footprint, then_erode: Footprint) -> Plan:
    """One of the seven operators, where openings and closings end by these footprints."""
    if name == "erosion":
        return _erode(erode)
    if name == "dilation":
        return _dilate(dilate)
    if name == "gradient":
        return Less(_dilate(dilate), _erode(erode))
    if name in ("opening", "white_tophat"):
        opening = Chain((_erode(erode), _dilate(then_dilate)))
        return opening if name == "opening" else Less(None, opening)
    closing = Chain((_dilate(dilate), _erode(then_erode)))
    return closing if name == "closing" else Less(closing, None)


def _ours(name: str, b: Footprint) -> Plan:
    back = -b
    return _built(name, b, b, back, back)


def _scipy(name: str, b: Footprint) -> Plan:
    """Its dilation takes p - b, and so does the first step of its closing."""
    back = -b
    return _built(name, b, back, back, b)


def _opencv(name: str, b: Footprint) -> Plan:
    """Both steps of its openings and closings take p + b."""
    return _built(name, b, b, b, b)


def _skimage(name: str, b: Footprint) -> Plan:
    """As OpenCV, but first steps have the origin of even sides before the middle, and pairs of steps a rim on those axes.
    Its gradient is that of `filters.rank`, and its white top-hat SciPy's."""
    if name == "gradient":
        return _ours(name, b)
    if name == "white_tophat":
        return _scipy(name, b)
    first = b.at([(side - 1) // 2 for side in b.shape])
    if name == "black_tophat":
        return Less(_skimage("closing", b), None)
    plan = _built(name, first, first, b, b)
    if name in ("erosion", "dilation"):
        return plan
    rows, columns = (0 if side % 2 else side - 1 for side in b.shape)
    return Rimmed(Reach(rows, rows, columns, columns), plan)


_STEPS: dict[Compat | None, Callable[[str, Footprint], Plan]] = {None: _ours, "scipy": _scipy, "skimage": _skimage, "opencv": _opencv}
_PAIRS = ("erosion", "dilation", "opening", "closing")


def of(name: str, footprint: Footprint, compat: Compat | None, is_set: bool) -> Plan:
    """The plan of an operator."""
    if compat == "skimage" and is_set and name in _PAIRS:
        return _scipy(name, footprint)
    return _STEPS[compat](name, footprint)


def check_compat(compat: str | None) -> None:
    """Refuses what is no name of a convention."""
    if compat is not None and compat not in COMPAT:
        raise ValueError(f"compat is one of {', '.join(COMPAT)}, or None: {compat!r}")


def edges_of(name: str, compat: Compat, is_set: bool) -> Edges:
    """The edges of an operator of another library."""
    if compat == "scipy":
        return Edges("constant", 0) if is_set and name in (*_PAIRS, "hit_or_miss") else Edges("reflect")
    if compat == "skimage":
        leaves_out = name == "gradient" or (is_set and name in _PAIRS)
        return Edges("nearest") if name == "median" else Edges("ignore") if leaves_out else Edges("reflect")
    return Edges("nearest") if name == "median" else Edges("ignore")


def _one_call(plan: Plan, edges: Edges) -> Plan:
    """The library's one call for several steps, where there is one."""
    if isinstance(plan, Less):
        upper, lower = (None if part is None else _one_call(part, edges) for part in (plan.upper, plan.lower))
        ops = {part.op: part.footprint for part in (upper, lower) if isinstance(part, Flat)}
        if set(ops) == {DILATE, ERODE} and ops[DILATE] == ops[ERODE]:
            return Flat(GRADIENT, ops[ERODE])
        if edges.mode == "ignore" and upper is None and set(ops) == {OPEN}:
            return Flat(WHITE_TOPHAT, ops[OPEN])
        if edges.mode == "ignore" and lower is None and set(ops) == {CLOSE}:
            return Flat(BLACK_TOPHAT, ops[CLOSE])
    if isinstance(plan, Chain) and edges.mode == "ignore" and len(plan.steps) == 2:
        first, second = plan.steps
        if isinstance(first, Flat) and isinstance(second, Flat) and _is_same(second.footprint, -first.footprint):
            return Flat({(ERODE, DILATE): OPEN, (DILATE, ERODE): CLOSE}[first.op, second.op], first.footprint)
    return plan


def _is_same(one: Footprint, other: Footprint) -> bool:
    """Whether both have the same offsets."""
    return one == other or (one.count == other.count and sorted(one.offsets) == sorted(other.offsets))


def _difference(upper: Samples, lower: Samples, out: Samples | None) -> Samples:
    """The one less the other, 0 where it would be less."""
    greater = np.maximum(upper, lower)
    return np.subtract(greater, lower, out=greater if out is None else out)


def run(plan: Plan, on: Run, out: Samples | None = None) -> Samples:
    """What the plan makes, in `out` where it is given, which holds none of the samples that are read."""
    plan = _one_call(plan, on.edges)
    if isinstance(plan, Chain):
        field = on.field
        for step in plan.steps[:-1]:
            field = field._replace(samples=run(step, on._replace(field=field)))
        return run(plan.steps[-1], on._replace(field=field), out)
    if isinstance(plan, Less):
        upper, lower = (on.field.samples if part is None else run(part, on) for part in (plan.upper, plan.lower))
        return _difference(upper, lower, out)
    if isinstance(plan, Rimmed):
        return _run_rimmed(plan, on, out)
    if isinstance(plan, Whole):
        return plan.made(on.field, out)
    return _edges.apply(plan, on.field, on.edges, out, on.workers)


def _run_rimmed(plan: Rimmed, on: Run, out: Samples | None) -> Samples:
    if not any(plan.rim):
        return run(plan.plan, on, out)
    whole = run(plan.plan, on._replace(field=_edges.with_rim(on.field, plan.rim, Edges("nearest"))))
    (height, width), (up, _, left, _) = on.field.samples.shape, plan.rim
    inner = whole[up : up + height, left : left + width]
    if out is None:
        return np.ascontiguousarray(inner)
    out[...] = inner
    return out
