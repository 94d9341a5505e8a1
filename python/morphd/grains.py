"""Grains one by one: a table of the components of a set and their measures.

    grains = morphd.regions(mask, pixel="0.32um")
    print(grains.summary())
    morphd.regions(labels=morphd.split_grains(mask))        # where grains touch one another
    grains["equivalent_diameter"]                   # in µm
    grains[grains["area"] > 5].to_csv("grains.csv")
    grains.inside.histogram(weights="area", bins=20)

Labels, areas in pixels, boxes and first places of a set come from libmorphd, and are proved to be those of the definition. What is
made of them beyond (centroids, diameters, perimeters, samples of an image, sums and means), and all that is measured on labels that are
given, is NumPy's, and tested.
"""
from __future__ import annotations

import csv
import html
import importlib
import math
import os
from collections.abc import Iterator, Mapping
from dataclasses import dataclass, replace
from itertools import starmap
from typing import IO, Any, Literal, NamedTuple, overload

import numpy as np
from numpy.typing import ArrayLike, NDArray

from . import _arrays, _geodesic_calls, _measures
from ._docs import documented
from ._threads import worker_count
from .errors import Refused
from .geodesics import as_set, neighbours, regioned
from .pixels import pixel_size

__all__ = ["Region", "Regions", "Summary", "regions"]

Column = NDArray[Any]
# The columns that are measures, and the power of the side of a pixel that they grow with. All others are numbers or places.
_POWERS = {"area": 2, "width": 1, "height": 1, "equivalent_diameter": 1, "feret_max": 1, "perimeter": 1}
_DIAMETER = "equivalent_diameter"
# So many rows are shown in a notebook or on a terminal.
_SHOWN = 12


class Region(NamedTuple):
    """A row of a table, with its columns as `Regions` has them."""

    label: int
    x: int
    y: int
    area: float
    left: int
    top: int
    right: int
    bottom: int
    width: float
    height: float
    touches_frame: bool
    centroid_x: float
    centroid_y: float
    equivalent_diameter: float
    feret_max: float
    perimeter: float
    intensity_mean: float | None = None
    intensity_min: float | None = None
    intensity_max: float | None = None


@dataclass(frozen=True)
class Summary:
    """What a table of grains tells of one of its columns.

    Attributes
    ----------
    column : str
        Which column.
    unit : str
        Its unit; '' where it has none.
    count : int
        How many grains there are.
    touching : int
        How many of them touch the frame.
    area : float
        Their area, in `area_unit`.
    area_unit : str
        'pixels', or the square of the pixel's unit, as 'µm²'.
    part : float
        Their part of the frame, from 0 to 1.
    least, greatest : float
        The ends of the column.
    mean, spread : float
        Its mean and standard deviation, each grain counting once: by number.
    area_mean, area_spread : float
        The same, each grain counting by its area.
    """

    column: str
    unit: str
    count: int
    touching: int
    area: float
    area_unit: str
    part: float
    least: float
    greatest: float
    mean: float
    spread: float
    area_mean: float
    area_spread: float

    def __str__(self) -> str:
        grains = "1 grain" if self.count == 1 else f"{self.count} grains"
        cut = "cut by the frame" if self.count == 1 else f"{self.touching} of them cut by the frame"
        touching = f", {cut}" if self.touching else ""
        part = "" if math.isnan(self.part) else f", {self.part:.1%} of the frame"
        lines = [f"{grains}{touching}, {self.area:.6g} {self.area_unit} in all{part}"]
        if self.count:
            unit = f" {self.unit}" if self.unit else ""
            lines += [
                f"{self.column}: {self.least:.4g} to {self.greatest:.4g}{unit}",
                f"by number: mean {self.mean:.4g}{unit}, spread {self.spread:.4g}",
                f"by area: mean {self.area_mean:.4g}{unit}, spread {self.area_spread:.4g}",
            ]
        return "\n".join(lines)


def _mean_and_spread(values: Column, weights: Column) -> tuple[float, float]:
    """The mean and the standard deviation, weighed; NaN where nothing weighs."""
    total = float(weights.sum())
    if not total:
        return math.nan, math.nan
    # from the first value on, so that equal values have no spread
    first = float(values[0])
    apart = values - first
    mean = float((apart * weights).sum() / total)
    return first + mean, math.sqrt(float(((apart - mean) ** 2 * weights).sum() / total))


@dataclass(frozen=True, eq=False)
class Regions:
    """The components of a set, a row each, in the order of their first pixels; or grains by labels, in the order of these.

    ``len(grains)`` is how many there are; iterating gives a named tuple for each. ``grains["area"]`` is a column, ``grains[3]`` a row,
    and ``grains[grains["area"] > 50]`` the table of some of them, which keep their labels.

    Numbers and places stay in pixels, so that they can be used with the array: label; x, y, the column and the row of the first pixel,
    row after row; left, top, right, bottom, the box around it, both ends included; centroid_x, centroid_y, the mean of its pixels, where
    the middle of the first pixel is 0, 0. Measures are in `unit`, and areas in its square: area; width and height of the
    box; equivalent_diameter, that of a disc of the same area; feret_max, the greatest distance of two corners of its pixels;
    perimeter, the length of the sides of pixels that part it from what is no pixel of it, holes and the frame's edge too.
    touches_frame tells of those with a pixel in the first or last row or column: they are cut, so their measures are of a part.
    With an image there are intensity_mean, intensity_min and intensity_max, of the samples on each.

    label, area, x, y and the box of components come from the library, whose call is proved; all else is NumPy's.

    Attributes
    ----------
    pixel : float
        The side of a pixel, in `unit`.
    unit : str
        'pixels', if no other was told.
    shape : (int, int)
        The rows and columns of the array.
    labels : ndarray of int32
        The label of each pixel, as `label` gives it, or as it was given; also of the grains that were left out of the table.
    """

    _held: Mapping[str, Column]
    labels: NDArray[np.int32]
    pixel: float = 1.0
    unit: str = "pixels"

    @property
    def shape(self) -> tuple[int, int]:
        rows, columns = self.labels.shape
        return rows, columns

    @property
    def columns(self) -> tuple[str, ...]:
        """The names of the columns."""
        return tuple(self._held)

    @property
    def in_pixels(self) -> Regions:
        """The same grains, measured in pixels."""
        return replace(self, pixel=1.0, unit="pixels")

    @property
    def inside(self) -> Regions:
        """The grains that do not touch the frame."""
        return self[~self._held["touches_frame"]]

    @property
    def mask(self) -> NDArray[np.bool_]:
        """The set of the grains in the table."""
        is_held = np.zeros(int(self.labels.max(initial=0)) + 1, np.bool_)
        is_held[self._held["label"]] = True
        made: NDArray[np.bool_] = is_held.take(self.labels)
        return made

    def unit_of(self, column: str) -> str:
        """The unit of a column; '' where it has none."""
        power = _POWERS.get(column, 0)
        if not power:
            return "pixels" if column not in ("label", "touches_frame") and not column.startswith("intensity") else ""
        return f"{self.unit}²" if power == 2 and self.unit != "pixels" else self.unit

    def _column(self, name: str) -> Column:
        held = self._held.get(name)
        if held is None:
            raise KeyError(f"the columns are {', '.join(self._held)}: {name!r}")
        power = _POWERS.get(name, 0)
        return held * self.pixel**power if power and self.pixel != 1 else held

    def __len__(self) -> int:
        return len(self._held["label"])

    def __iter__(self) -> Iterator[Region]:
        return starmap(Region, zip(*(self._column(name).tolist() for name in self.columns)))

    @overload
    def __getitem__(self, key: str) -> Column: ...

    @overload
    def __getitem__(self, key: int) -> Region: ...

    @overload
    def __getitem__(self, key: slice | Column) -> Regions: ...

    def __getitem__(self, key: Any) -> Any:
        if isinstance(key, str):
            return self._column(key)
        if isinstance(key, (int, np.integer)):
            return Region(*(self._column(name)[key].item() for name in self.columns))
        return replace(self, _held={name: held[key] for name, held in self._held.items()})

    def _weights(self, weights: str) -> Column:
        if weights not in ("number", "area"):
            raise ValueError(f"weights is 'number' or 'area': {weights!r}")
        return np.ones(len(self)) if weights == "number" else self._column("area")

    def summary(self, column: str = _DIAMETER) -> Summary:
        """The mean and the spread of a column, by number and by area.

        The spread is the standard deviation of these grains, the root of the mean square. By area a mean is one of pixels: that of
        the grains that a pixel belongs to.

        Parameters
        ----------
        column : str, optional
            Which one.

        Returns
        -------
        Summary
            Its text tells it in four lines.
        """
        values, area = self._column(column), self._column("area")
        frame = self.labels.size * self.pixel**2
        ends = (float(values.min()), float(values.max())) if len(self) else (math.nan, math.nan)
        return Summary(
            column, self.unit_of(column), len(self), int(self._held["touches_frame"].sum()), float(area.sum()), self.unit_of("area"),
            float(area.sum() / frame) if frame else math.nan, *ends, *_mean_and_spread(values, self._weights("number")),
            *_mean_and_spread(values, area))

    def histogram(
        self, by: str = _DIAMETER, weights: Literal["number", "area"] = "number", bins: Any = 10,
    ) -> tuple[Column, NDArray[np.float64]]:
        """How many grains lie in each bin of a column, or how much area they have.

        Parameters
        ----------
        by : str, optional
            The column.
        weights : {'number', 'area'}, optional
            Whether each grain counts once, or by its area.
        bins : int, sequence or str, optional
            As `numpy.histogram` takes them.

        Returns
        -------
        heights : ndarray
            Numbers of grains, or areas in the table's unit.
        edges : ndarray of float64
            The edges of the bins, one more than there are heights.
        """
        values, weighed = self._column(by), None if weights == "number" else self._weights(weights)
        heights, edges = np.histogram(values.astype(np.uint8) if values.dtype == np.bool_ else values, bins, weights=weighed)
        return heights, edges

    def plot(self, by: str = _DIAMETER, weights: Literal["number", "area"] = "number", bins: Any = 10, ax: Any = None) -> Any:
        """Draws a histogram, with the mean in its title.

        Parameters
        ----------
        by, weights, bins
            As `histogram` takes them.
        ax : matplotlib.axes.Axes, optional
            Where; a new figure of pyplot if left out.

        Returns
        -------
        matplotlib.axes.Axes
        """
        heights, edges = self.histogram(by, weights, bins)
        if ax is None:
            from matplotlib import pyplot

            ax = pyplot.subplots(layout="constrained")[1]
        ax.bar(edges[:-1], heights, width=np.diff(edges), align="edge", edgecolor="white")
        unit = self.unit_of(by)
        ax.set_xlabel(f"{by}, in {unit}" if unit else by)
        ax.set_ylabel("grains" if weights == "number" else f"area, in {self.unit_of('area')}")
        mean, spread = _mean_and_spread(self._column(by), self._weights(weights))
        ax.set_title(f"{len(self)} grains, mean {mean:.3g} {unit}, spread {spread:.3g}, by {weights}", fontsize="medium")
        return ax

    def to_csv(self, path: str | os.PathLike[str] | IO[str]) -> None:
        """Writes a line for each grain, behind one with the columns, of which measures tell their unit.

        Parameters
        ----------
        path : str, path or text file
        """
        if isinstance(path, (str, os.PathLike)):
            with open(path, "w", newline="", encoding="utf-8") as file:
                self.to_csv(file)
            return
        rows = csv.writer(path, lineterminator="\n")
        rows.writerow([f"{name} in {self.unit_of(name)}" if name in _POWERS else name for name in self.columns])
        rows.writerows(zip(*(_words(self._column(name)) for name in self.columns)))

    def to_pandas(self) -> Any:
        """The table as a data frame of pandas, with the unit in its `attrs`.

        Returns
        -------
        pandas.DataFrame
        """
        # by its name, for type checkers that know nothing of pandas
        pandas = importlib.import_module("pandas")
        frame = pandas.DataFrame({name: self._column(name) for name in self.columns})
        frame.attrs.update(pixel=self.pixel, unit=self.unit)
        return frame

    def _shown(self) -> list[list[str]]:
        """The first rows in words, behind the columns."""
        heads = [f"{name}, {self.unit_of(name)}" if name in _POWERS else name for name in self.columns]
        columns = [_words(self._column(name)[:_SHOWN], 5) for name in self.columns]
        return [heads, *([*row] for row in zip(*columns))]

    @property
    def _left_out(self) -> str:
        return f"and {len(self) - _SHOWN} more" if len(self) > _SHOWN else ""

    def __str__(self) -> str:
        rows = self._shown()
        widths = [max(map(len, column)) for column in zip(*rows)]
        lines = ["  ".join(f"{cell:>{width}}" for cell, width in zip(row, widths)) for row in rows]
        return "\n".join([*lines, *([self._left_out] if self._left_out else []), str(self.summary())])

    def __repr__(self) -> str:
        return f"<Regions of {len(self)} grains in {self.unit}>"

    def _repr_html_(self) -> str:
        """The first grains as a table, for notebooks."""
        head, *rows = self._shown()
        lines = ["".join(f"<td>{html.escape(cell)}</td>" for cell in row) for row in rows]
        heads = "".join(f"<th>{html.escape(name)}</th>" for name in head)
        told = "<br>".join(html.escape(line) for line in str(self.summary()).splitlines())
        more = f"<tr><td colspan=\"{len(head)}\">{self._left_out}</td></tr>" if self._left_out else ""
        return f"<table><caption>{told}</caption><tr>{heads}</tr>{''.join(f'<tr>{line}</tr>' for line in lines)}{more}</table>"


def _words(column: Column, digits: int = 9) -> list[str]:
    """The values of a column as texts: whole numbers and flags as 0 and 1, others with so many digits."""
    if column.dtype.kind in "biu":
        return [str(int(value)) for value in column.tolist()]
    return [f"{value:.{digits}g}" for value in column.tolist()]


def _checked_image(intensity: Any, shape: tuple[int, ...]) -> Column:
    """The image whose samples are measured."""
    image = _arrays.as_plane(intensity)
    if image.dtype.kind not in "biuf":
        raise TypeError(f"intensity is an array of bool, integers or floats, and this is one of {image.dtype}")
    if image.shape != shape:
        raise Refused(53, f"regions of {shape} with samples of {image.shape}")
    return image


@documented()
def regions(
    mask: ArrayLike | None = None, *, connectivity: int | None = None, pixel: float | str | tuple[float, str] | None = None,
    intensity: ArrayLike | None = None, labels: ArrayLike | None = None, workers: int | None = None,
) -> Regions:
    """A table of the components of a set, or of grains that have labels: places, areas and other measures of each.

    Parameters
    ----------
    %(mask)s
        Left out where `labels` are given.
    %(connectivity)s
        Labels take none.
    pixel : float, str or (float, str), optional
        The side of a pixel, as 0.32 or '0.32um'; measures are in pixels if left out.
    intensity : array_like, optional
        An image of the same shape, whose samples are measured on each component.
    labels : array_like of int, optional
        In the place of `mask`, the number of the grain at each pixel, as `split_grains`, `watershed` and `label` give it: 0 where there is
        none. Each other number is a grain, whether it hangs together or not.
    %(bands)s
        What else is measured is measured by one.

    Returns
    -------
    Regions

    Raises
    ------
    %(raises)s

    See Also
    --------
    label : The label of each pixel.
    split_grains : Labels of grains that touch one another.
    clear_border, area_opening, fill_holes : What is often done before.
    spectrum : Sizes by openings.
    skimage.measure.regionprops_table : Boxes end behind the last pixel there; its feret_diameter_max goes between middles of the
        sides of pixels, and is up to a pixel shorter; its perimeter is another estimate.

    Notes
    -----
    Labels, areas, first places and boxes of a set are those of the library, whose calls are proved. All else is computed of them by
    NumPy, and so are areas, places and boxes where labels are given.

    References
    ----------
    .. [1] %(soille)s

    Examples
    --------
    >>> import numpy as np, morphd
    >>> mask = np.array([[1, 0, 0, 0], [1, 1, 0, 0], [0, 0, 0, 1]], bool)
    >>> grains = morphd.regions(mask, pixel="0.5um")
    >>> grains["area"], grains.in_pixels["area"]
    (array([0.75, 0.25]), array([3, 1]))
    >>> grains["left"], grains["right"], grains["touches_frame"]
    (array([0, 3]), array([1, 3]), array([ True,  True]))
    >>> grains["feret_max"]
    array([1.41421356, 0.70710678])
    """
    b, (size, unit), threads = neighbours(connectivity), pixel_size(1 if pixel is None else pixel), worker_count(workers)
    if (mask is None) == (labels is None):
        raise TypeError("regions takes a mask, or labels")
    if labels is not None:
        if connectivity is not None:
            raise ValueError("connectivity goes with a mask: labels tell what is a grain")
        held_labels = _checked_labels(labels)
        image = None if intensity is None else _checked_image(intensity, held_labels.shape)
        return _by_labels(held_labels, image, size, unit)
    field = as_set(mask, "regions")
    image = None if intensity is None else _checked_image(intensity, field.samples.shape)
    made, told = regioned(field, b, threads)
    held: dict[str, Column] = {"label": np.arange(1, len(told) + 1), **dict(zip(_geodesic_calls.REGION, told.T.astype(np.int64)))}
    held.update(_measured(held, made, _measures.runs_of(made), image))
    return Regions(held, made, size, unit)


def _checked_labels(labels: Any) -> NDArray[np.int32]:
    array = _arrays.as_plane(labels)
    if array.dtype.kind not in "iu":
        raise TypeError(f"labels are whole numbers, and these are of {array.dtype}: a set is a mask")
    least, most = int(array.min(initial=0)), int(array.max(initial=0))
    if least < 0 or most > np.iinfo(np.int32).max:
        raise Refused(47, f"regions by a label of {least if least < 0 else most}")
    return array.astype(np.int32)


def _by_labels(labels: NDArray[np.int32], image: Column | None, size: float, unit: str) -> Regions:
    """The table of the grains that have labels, of which some numbers may be missing."""
    runs, dense = _measures.runs_of(labels), labels
    numbers = np.unique(runs.label)
    if len(numbers) and numbers[-1] > len(numbers):
        dense = np.searchsorted(numbers, labels).astype(np.int32) + (labels > 0)
        runs = _measures.runs_of(dense)
    held: dict[str, Column] = {"label": numbers, **_measures.places_and_boxes(runs, len(numbers))}
    held.update(_measured(held, dense, runs, image))
    return Regions(held, labels, size, unit)


def _measured(told: Mapping[str, Column], labels: NDArray[np.int32], runs: _measures.Runs, image: Column | None) -> dict[str, Column]:
    """The columns that are computed of places and boxes, of the labels with their runs, and of an image."""
    (rows, columns), area = labels.shape, told["area"]
    across, down = _measures.centroids(runs, area)
    return {
        "width": told["right"] - told["left"] + 1, "height": told["bottom"] - told["top"] + 1,
        "touches_frame": (told["left"] == 0) | (told["top"] == 0) | (told["right"] == columns - 1) | (told["bottom"] == rows - 1),
        "centroid_x": across, "centroid_y": down, _DIAMETER: np.sqrt(area * (4 / math.pi)),
        "feret_max": _measures.feret_diameters(runs, len(area)), "perimeter": _measures.perimeters(labels, runs, len(area)),
        **({} if image is None else _measures.sample_measures(runs, area, image)),
    }
