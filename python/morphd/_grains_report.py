"""A report on grains: one HTML page that needs no network, no script and no font of its own, and prints well.

    Path("report.html").write_text(page([measured]), encoding="utf-8")

Of several pictures the page has their grains together first, and then a part for each of them.
"""
from __future__ import annotations

import base64
from collections.abc import Iterable, Sequence
from html import escape
from pathlib import Path
from typing import Any, NamedTuple

import numpy as np
from numpy.typing import NDArray

from . import __version__
from ._areas import grains, in_digits, squared
from ._measured import COLUMNS, Asked, Counted, Measured, together
from ._overlays import Drawing, drawn, png
from ._report_bars import Words, bars, histogram
from .grains import _mean_and_spread

# Nothing may be loaded: a browser that keeps to this asks no network.
_POLICY = "default-src 'none'; img-src data:; style-src 'unsafe-inline'"
_STYLE = """
:root { color-scheme: light; --ink: #1c2430; --soft: #55606e; --line: #d5dae0; --tint: #f4f6f8; --number: #0072b2; --area: #d55e00; }
* { box-sizing: border-box; }
body { margin: 0 auto; padding: 2rem 1.25rem 4rem; max-width: 64rem; color: var(--ink); background: #fff;
  font: 16px/1.5 system-ui, -apple-system, "Segoe UI", Roboto, "Noto Sans", "DejaVu Sans", Arial, sans-serif; }
h1 { font-size: 1.9rem; line-height: 1.2; margin: 0 0 .25rem; overflow-wrap: anywhere; }
h2 { font-size: 1.3rem; margin: 2.5rem 0 .75rem; padding-top: .6rem; border-top: 2px solid var(--ink); overflow-wrap: anywhere; }
h3 { font-size: 1.05rem; margin: 1.75rem 0 .5rem; }
p { margin: .4rem 0; max-width: 46rem; }
.lead { font-size: 1.15rem; max-width: none; }
.soft, figcaption, caption, footer { color: var(--soft); font-size: .9rem; }
.doubt { border-left: 4px solid var(--area); padding: .35rem .75rem; background: #fdf3ec; }
table { border-collapse: collapse; margin: .5rem 0; font-variant-numeric: tabular-nums; }
caption { text-align: left; padding-bottom: .3rem; }
th, td { padding: .28rem .7rem; border-bottom: 1px solid var(--line); text-align: right; vertical-align: top; }
thead th { border-bottom: 2px solid var(--soft); background: var(--tint); }
tbody th { font-weight: 600; }
.words th, .words td { text-align: left; overflow-wrap: anywhere; }
.named tbody th, .named thead th:first-child { text-align: left; }
.each { width: 100%; font-size: .9rem; }
.scroll { overflow-x: auto; }
figure { margin: 1rem 0; }
figure img { display: block; width: 100%; height: auto; background: #000; }
.small img { image-rendering: pixelated; }
.scale { display: block; width: 100%; height: auto; margin-top: .3rem; }
.pair { display: grid; grid-template-columns: repeat(auto-fit, minmax(19rem, 1fr)); gap: 1rem 2rem; }
.pair figure { margin: 0; }
code { overflow-wrap: anywhere; }
svg text { fill: var(--ink); font-size: 14px; }
svg .middle { text-anchor: middle; } svg .end { text-anchor: end; }
svg .grid { stroke: var(--line); } svg .axis { stroke: var(--ink); } svg .mean { stroke: var(--ink); stroke-dasharray: 5 4; }
.number { fill: var(--number); } .area { fill: var(--area); }
.key { display: inline-block; width: 1.6em; vertical-align: middle; }
footer { margin-top: 3rem; border-top: 1px solid var(--line); padding-top: .75rem; }
@media print {
  @page { margin: 15mm; }
  body { padding: 0; max-width: none; font-size: 10pt; }
  h2, h3, caption { break-after: avoid; } .part, .list { break-before: page; }
  figure, .doubt, .named, .words, tr { break-inside: avoid; } thead { display: table-header-group; }
  .held { max-width: calc(140mm * var(--ratio)); } .pair { grid-template-columns: 1fr 1fr; }
  .scroll { overflow: visible; } th, td { padding: .12rem .5rem; }
  * { print-color-adjust: exact; -webkit-print-color-adjust: exact; }
}
"""


def _row(head: str, cells: Iterable[str]) -> str:
    return f'<tr><th scope="row">{escape(head)}</th>{"".join(f"<td>{escape(cell)}</td>" for cell in cells)}</tr>'


def _table(caption: str, head: Sequence[str], rows: Iterable[str], kind: str) -> str:
    cells = "".join(f'<th scope="col">{escape(cell)}</th>' for cell in head)
    # what is wider than its room can be moved by keys, too
    focus = ' tabindex="0"' if kind == "each" else ""
    return (f'<div class="scroll"{focus}><table class="{kind}"><caption>{escape(caption)}</caption>'
            f'<thead><tr>{cells}</tr></thead><tbody>{"".join(rows)}</tbody></table></div>')


def _sizes(counted: Counted) -> str:
    """The means and spreads, and what was counted."""
    rows = (_row(name, values) for name, values in counted.rows())
    made = _table("By number each grain counts once; by area it counts as much as it covers.", ["size", *COLUMNS], rows, "named")
    unit = squared(counted.unit)
    told = [("grains that are measured", str(len(counted.areas))), ("cut by the frame", str(counted.cut)),
            ("of these left out", str(counted.left_out)), ("too small, and dropped", str(counted.small)),
            (f"area of the frame in {unit}", in_digits(counted.frame)),
            *([("heaps that are parted", str(counted.heaps)), ("grains out of these", str(counted.parts))] if counted.heaps else []),
            ("of it covered by grains", f"{100 * counted.covered / counted.frame:.1f} %"),
            ("grains inside and half of those cut", in_digits(counted.inside + counted.cut / 2))]
    if counted.per_square_millimetre is not None:
        told.append(("the same to the square millimetre", in_digits(counted.per_square_millimetre)))
    return made + _table("What was counted.", ["what", "number"], (_row(name, [value]) for name, value in told), "named")


def _histograms(counted: Counted) -> str:
    """The two histograms of diameters, and a table of their bars."""
    values, unit = counted.diameters, counted.unit
    by_number, by_area = histogram(values, np.ones(len(values))), histogram(values, counted.areas)
    below = f"diameter in {unit}"
    drawings = [("number", "By number", "part of the grains", by_number), ("area", "By area", "part of the grains' area", by_area)]
    figures = [f'<figure><figcaption>{title}</figcaption>{bars(one, Words(f"{title}: {beside} by diameter", below, beside), kind)}</figure>'
               for kind, title, beside, one in drawings]
    ends = [in_digits(edge) for edge in by_number.edges.tolist()]
    cells = zip(ends, ends[1:], by_number.counts.tolist(), by_number.parts.tolist(), by_area.parts.tolist())
    rows = (_row(f"{low} to {high}", [str(count), f"{100 * part:.1f} %", f"{100 * area:.1f} %"]) for low, high, count, part, area in cells)
    table = _table("What the bars show. A bar has its lower end, and not its upper one.",
                   [below, "grains", "by number", "by area"], rows, "named")
    return f'<div class="pair">{"".join(figures)}</div>{table}'


def _scale_bar(columns: int, side: float, unit: str) -> str:
    """A bar of a round length below a picture of so many columns, about a fifth as long."""
    whole = columns * side
    power = 10.0 ** np.floor(np.log10(whole / 5))
    length = max(step * power for step in (1, 2, 5) if step * power <= whole / 5)
    part, told = 1000 * length / whole, f"{in_digits(float(length))} {unit}"
    return (f'<svg class="scale" viewBox="0 0 1000 44" role="img" aria-label="A bar as long as {escape(told)}">'
            f'<rect x="1" y="6" width="{part:.2f}" height="8" fill="#1c2430"/><text x="1" y="34">{escape(told)}</text></svg>')


def _key(colour: str, dashes: str) -> str:
    return (f'<svg class="key" viewBox="0 0 26 8" aria-hidden="true"><line x1="1" x2="25" y1="4" y2="4" stroke="{colour}" '
            f'stroke-width="3" stroke-dasharray="{dashes}"/></svg>')


def _size_of(drawing: Drawing) -> str:
    if drawing.scale > 0:
        return f" It is drawn {drawing.scale} times as large." if drawing.scale > 1 else ""
    hidden = f", and {grains(drawing.unnumbered)} without a number" if drawing.unnumbered else ""
    return f" It is drawn {-drawing.scale} times smaller{hidden}."


def _picture(found: Measured) -> str:
    """The picture with outlines and numbers."""
    drawing = drawn(found.image, found.regions.labels, found.others, fits=True)
    rows, columns = drawing.pixels.shape[:2]
    data = base64.b64encode(png(drawing.pixels)).decode()
    count = len(found.counted.areas)
    about = f"The picture with the outlines and numbers of {grains(count)}"
    told = f"{_key('#e69f00', 'none')} grains that are measured, with their numbers in the table below."
    if found.counted.left_out:
        about += f", and the outlines of {grains(found.counted.left_out)} cut by the frame"
        told += f" {_key('#56b4e9', '5 3')} grains that the frame cuts, left out."
    kind = ' class="small"' if drawing.scale > 1 else ""
    bar = _scale_bar(found.image.shape[1], found.pixel.size, found.pixel.unit)
    return (f'<figure{kind}><div class="held" style="--ratio: {columns / rows:.4f}">'
            f'<img alt="{escape(about)}." width="{columns}" height="{rows}" src="data:image/png;base64,{data}">{bar}</div>'
            f"<figcaption>{told}{_size_of(drawing)}</figcaption></figure>")


def _asked(found: Measured) -> list[tuple[str, str]]:
    """What was asked for, in words."""
    asked, pixel = found.asked, found.pixel
    rows, columns = found.image.shape
    sides = f"{columns} x {rows} pixels"
    if pixel.unit != "pixels" or pixel.size != 1:
        sides += f", {in_digits(columns * pixel.size)} x {in_digits(rows * pixel.size)} {pixel.unit}"
    return [
        ("file", found.path), ("picture", sides),
        ("side of a pixel", "not known, so sizes are in pixels" if pixel.unit == "pixels" and pixel.size == 1 else str(pixel)),
        ("grains", _threshold(asked)), *([] if asked.split is None else [("grains that touch", _split(asked.split))]),
        ("grains that the frame cuts", "left out" if asked.clears else "measured as far as they are seen"),
        ("holes", "filled" if asked.fills else "not filled"),
        ("least area", "none" if asked.least is None else f"{asked.least.text}, so {asked.least.in_pixels(pixel)} pixels"),
        ("pixels hang together", "by sides and corners (8)" if asked.connectivity == 8 else "by sides (4)"),
        ("version", f"morph {__version__}"),
    ]


def _split(fall: float) -> str:
    return f"parted where the distance from the ground falls by more than {fall:g} pixel{'' if fall == 1 else 's'} at a neck"


def _threshold(asked: Asked) -> str:
    if asked.at is None:
        return "what is outside the set that is given" if asked.is_dark else "the set that is given"
    told = f"samples under {asked.at:g}" if asked.is_dark else f"samples of {asked.at:g} or more"
    return told + (", by Otsu" if asked.is_otsu else "")


# So many grains are told one by one.
_MOST_ROWS = 10_000
# The columns of the table of grains, and how they are called.
_COLUMNS = {
    "label": "grain", "area": "area", "equivalent_diameter": "diameter", "feret_max": "greatest diameter", "width": "width",
    "height": "height", "perimeter": "perimeter", "centroid_x": "column", "centroid_y": "row", "touches_frame": "cut",
}


def _each(found: Measured) -> str:
    """The table of all grains, or of as many as a page takes."""
    table = found.regions[:_MOST_ROWS]
    measures = ("area", "equivalent_diameter", "feret_max", "width", "height", "perimeter")
    columns = {name: told for name, told in _COLUMNS.items() if name != "touches_frame" or not found.asked.clears}
    head = [f"{told} in {table.unit_of(name)}" if name in measures else told for name, told in columns.items()]
    cells = zip(*(_cells(table[name]) for name in columns))
    lines = (_row(number, rest) for number, *rest in cells)
    about = ("The greatest diameter is that of Feret, width and height are those of the box around a grain, column and row tell its centre of "
             "area, counted from 0 at the picture's upper left.")
    if len(found.regions) > _MOST_ROWS:
        about = f"The first {_MOST_ROWS} of {len(found.regions)} grains; --csv writes all. {about}"
    return _table(about, head, lines, "each")


def _cells(column: NDArray[Any]) -> list[str]:
    """The values of a column in words."""
    if column.dtype == np.bool_:
        return ["yes" if value else "no" for value in column.tolist()]
    return [str(value) if isinstance(value, int) else in_digits(value) for value in column.tolist()]


def _doubts(found: Measured) -> str:
    return "".join(f'<p class="doubt">{escape(doubt[0].upper() + doubt[1:])}.</p>' for doubt in found.doubts)


class Part(NamedTuple):
    """What a page tells of one picture: its name, what was counted, and its part of the page."""

    path: str
    counted: Counted
    text: str


def part_of(found: Measured, level: int = 2) -> Part:
    """The part of the page for a picture, whose headings are of a level."""
    def headed(words: str, text: str, kind: str = "") -> str:
        return f"<h{level}{kind}>{words}</h{level}>{text}"

    asked = _table("What was asked for, and of what.", ["what", "value"], (_row(name, [value]) for name, value in _asked(found)), "words")
    parts = [f'<p class="lead">{escape(_lead(found.counted))}</p>{_doubts(found)}']
    if len(found.counted.areas):
        parts.append(headed("Sizes", _sizes(found.counted)))
    parts.append(headed("Picture", _picture(found)))
    if len(found.counted.areas):
        parts.append(headed("Histograms", _histograms(found.counted)))
    parts.append(headed("Asked for", asked))
    if len(found.counted.areas):
        parts.append(headed("Each grain", _each(found), ' class="list"'))
    return Part(found.path, found.counted, "".join(parts))


def _lead(counted: Counted) -> str:
    """What matters most."""
    if not len(counted.areas):
        return f"{counted.head().capitalize()}."
    mean, spread = (in_digits(value) for value in _mean_and_spread(counted.diameters, np.ones(len(counted.areas))))
    return f"{counted.head()}. Mean diameter {mean} {counted.unit}, spread {spread} {counted.unit}."


def _field(counted: Counted) -> list[str]:
    """What is told of one of several pictures in a row."""
    density = counted.per_square_millimetre
    shown = counted.inside + counted.cut / 2 if density is None else density
    return [str(len(counted.areas)), str(counted.cut), in_digits(shown), *(values[0] for _, values in counted.rows())]


def _all(parts: Sequence[Part]) -> str:
    """What is told of all pictures together."""
    counted = together([part.counted for part in parts])
    rows = [_row(part.path, _field(part.counted)) for part in parts]
    density = "to the square millimetre" if counted.per_square_millimetre is not None else "inside and half of those cut"
    head = ["file", "grains", "cut", density, *(f"mean {name}" for name, _ in counted.rows())]
    made = f'<h2>All pictures</h2><p class="lead">{escape(_lead(counted))}</p>{_table("Each picture.", head, rows, "named")}'
    if len(counted.areas):
        made += f"<h3>Sizes</h3>{_sizes(counted)}<h3>Histograms</h3>{_histograms(counted)}"
    return made


_NOTES = """\
An area is the number of a grain's pixels times the area of one. A diameter is that of a disc of the same area. A spread is a standard
deviation: the root of the mean of the squared deviations. By area a grain weighs as much as it covers. A grain is cut by the frame if
it has a pixel in the first or last row or column."""


def page(parts: Sequence[Part], command: str, are_several: bool = False) -> str:
    """The page of one picture, or of several whose sizes have one unit, and the command that made it. Of several only one may be left."""
    if not are_several:
        title, body = f"Grains of {Path(parts[0].path).name}", f"<section>{parts[0].text}</section>"
    else:
        title = f"Grains of {len(parts)} picture{'s' if len(parts) > 1 else ''}"
        sections = (f'<section class="part"><h2>{escape(part.path)}</h2>{part.text}</section>' for part in parts)
        body = f"<section>{_all(parts)}</section>{''.join(sections)}"
    return "\n".join([
        "<!DOCTYPE html>", '<html lang="en">', "<head>", '<meta charset="utf-8">',
        f'<meta http-equiv="Content-Security-Policy" content="{_POLICY}">',
        '<meta name="viewport" content="width=device-width, initial-scale=1">', f"<title>{escape(title)}</title>",
        f"<style>{_STYLE}</style>", "</head>", "<body>", f"<header><h1>{escape(title)}</h1></header>", f"<main>{body}</main>",
        f"<footer><p>{_NOTES}</p><p>Made by morph {__version__}: <code>{escape(command)}</code></p></footer>", "</body>", "</html>", ""])
