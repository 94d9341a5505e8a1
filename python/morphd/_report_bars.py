"""Bars of a report as inline SVG, which needs no script, no font and no network.

    drawn = histogram(counted.diameters, weights)
    bars(drawn, Words("Diameters, by number", "diameter in µm", "part of the grains"), "#0072B2")
"""
from __future__ import annotations

import math
from html import escape
from typing import NamedTuple

import numpy as np
from numpy.typing import NDArray

from ._areas import grains, in_digits

Numbers = NDArray[np.float64]

# How many bars are wanted at least and at most; up to two and a half times as many are made, since their width is round.
_FEW, _MANY = 4, 12
# The sides of a drawing and of the room for its bars.
_WIDE, _HIGH = 460, 280
_LEFT, _RIGHT, _TOP, _BELOW = 64, 446, 40, 228


class Histogram(NamedTuple):
    """How values are spread: the edges of bins, how many values lie in each, and what part of the whole they weigh."""

    edges: Numbers
    counts: NDArray[np.int64]
    parts: Numbers
    mean: float


class Words(NamedTuple):
    """What is written beside bars."""

    title: str
    below: str
    beside: str


def round_step(most: float) -> float:
    """The greatest of 1, 2 and 5 times a power of ten that is not more."""
    power = 10.0 ** math.floor(math.log10(most) + 1e-9)
    return max(step * power for step in (1, 2, 5) if step * power <= most * (1 + 1e-9))


def edges_of(values: Numbers) -> Numbers:
    """The edges of bins of a round width, from one below all values to one above them."""
    low, high = float(values.min()), float(values.max())
    count = min(_MANY, max(_FEW, math.ceil(math.sqrt(len(values)))))
    width = round_step((high - low or high or 1.0) / count)
    first = math.floor(low / width)
    edges: Numbers = np.arange(first, max(math.floor(high / width), first) + 2) * width
    return edges


def histogram(values: Numbers, weights: Numbers) -> Histogram:
    """The spread of values, of which there is at least one, that count by their weights."""
    edges = edges_of(values)
    counts, _ = np.histogram(values, edges)
    weighed, _ = np.histogram(values, edges, weights=weights)
    total = float(weights.sum())
    return Histogram(edges, counts, weighed / total, float((values * weights).sum() / total))


def _text(x: float, y: float, words: str, more: str = "") -> str:
    return f'<text x="{x:.1f}" y="{y:.1f}"{more}>{escape(words)}</text>'


def _grid(top: float, steps: int) -> list[str]:
    """The lines behind the bars, with their percents."""
    lines = []
    for at in range(steps + 1):
        y = _BELOW - (_BELOW - _TOP) * at / steps
        lines.append(f'<line class="grid" x1="{_LEFT}" x2="{_RIGHT}" y1="{y:.1f}" y2="{y:.1f}"/>')
        lines.append(_text(_LEFT - 8, y + 4, f"{100 * top * at / steps:.3g} %", ' class="end"'))
    return lines


def _place(drawn: Histogram, value: float) -> float:
    """How far to the right a value lies."""
    low, high = float(drawn.edges[0]), float(drawn.edges[-1])
    return _LEFT + (_RIGHT - _LEFT) * (value - low) / (high - low)


def _marks(drawn: Histogram) -> list[str]:
    """The values below the bars: of all edges, or of each second or third one where they would lie over each other."""
    every = -(-len(drawn.edges) // 8)
    return [_text(_place(drawn, edge), _BELOW + 18, in_digits(edge), ' class="middle"') for edge in drawn.edges.tolist()[::every]]


def _mean(drawn: Histogram) -> list[str]:
    """A line at the mean, with its value beside it on the side that has room."""
    x = _place(drawn, drawn.mean)
    beside = ' class="end"' if x > (_LEFT + _RIGHT) / 2 else ""
    words = _text(x + (-6 if beside else 6), _TOP - 8, f"mean {in_digits(drawn.mean)}", beside)
    return [f'<line class="mean" x1="{x:.1f}" x2="{x:.1f}" y1="{_TOP - 16}" y2="{_BELOW}"/>', words]


def bars(drawn: Histogram, words: Words, kind: str) -> str:
    """A histogram as SVG, whose bars are of a class of the page's style."""
    step = round_step(float(drawn.parts.max()) / 2.5)
    steps = math.ceil(float(drawn.parts.max()) / step - 1e-9)
    high = (_BELOW - _TOP) / (steps * step)
    ends = drawn.edges.tolist()
    made = []
    for low, up, count, part in zip(ends, ends[1:], drawn.counts.tolist(), drawn.parts.tolist()):
        left, right = _place(drawn, low) + 1, _place(drawn, up) - 1
        told = f"{in_digits(low)} to {in_digits(up)}: {grains(count)}, {100 * part:.1f} %"
        box = f'x="{left:.1f}" y="{_BELOW - part * high:.1f}" width="{right - left:.1f}" height="{part * high:.1f}"'
        made.append(f'<rect class="{kind}" {box}><title>{escape(told)}</title></rect>')
    about = f"{words.title}: {len(made)} bars from {in_digits(ends[0])} to {in_digits(ends[-1])}, whose numbers stand in the table below."
    return "\n".join([
        f'<svg class="bars" viewBox="0 0 {_WIDE} {_HIGH}" role="img" aria-label="{escape(about)}">',
        *_grid(steps * step, steps), *made, f'<line class="axis" x1="{_LEFT}" x2="{_RIGHT}" y1="{_BELOW}" y2="{_BELOW}"/>',
        *_marks(drawn), *_mean(drawn), _text((_LEFT + _RIGHT) / 2, _HIGH - 8, words.below, ' class="middle"'),
        _text(14, (_TOP + _BELOW) / 2, words.beside, f' class="middle" transform="rotate(-90 14 {(_TOP + _BELOW) / 2:.1f})"'), "</svg>"])
