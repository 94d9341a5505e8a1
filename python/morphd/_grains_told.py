"""What `morph grains` tells and writes: a summary, a table and a report of each picture, or of all, and pictures with outlines."""
from __future__ import annotations

import io
from argparse import Namespace
from collections.abc import Callable
from dataclasses import dataclass
from pathlib import Path
from typing import IO

from ._grains_report import Part, page, part_of
from ._measured import Asked, Counted, Measured, together
from ._overlays import drawn, png
from ._reports import Table, standard_output, tell

Write = Callable[[str, bytes], None]


@dataclass(frozen=True)
class Found:
    """What is left of a picture when its own files are written."""

    counted: Counted
    doubts: tuple[str, ...]
    table: str
    part: Part | None

    def to_csv(self, path: IO[str]) -> None:
        """Writes a line for each grain, behind the names of the columns."""
        path.write(self.table)


def asked_of(words: Namespace) -> Asked:
    """What the words of a command line ask for."""
    is_otsu = words.at == "otsu"
    at = None if is_otsu else words.at
    return Asked(at, is_otsu, words.dark, words.clear_border, words.fill, words.min_area, words.connectivity, words.split)


def encoded(text: str) -> bytes:
    """The bytes of a text, in which a file's name that is none has question marks."""
    return text.encode("utf-8", "replace")


def written(found: Measured, words: Namespace, write: Write) -> Found:
    """Writes the files that a picture has for itself."""
    text = io.StringIO()
    found.regions.to_csv(text)
    level = 2 if words.reports is not None or len(words.files) == 1 else 3
    told = Found(found.counted, found.doubts, text.getvalue(), None if words.report is None else part_of(found, level))
    if words.curves is not None:
        write(words.curves.of(found.path), told.table.encode())
    if words.plots is not None:
        write(words.plots.of(found.path), png(drawn(found.image, found.regions.labels, found.others).pixels))
    if words.reports is not None and told.part is not None:
        write(words.reports.of(found.path), encoded(page([told.part], words.command)))
    return told


class Grains:
    """Where the grains of all files are told: summaries on the standard output, a table and a report.

    Parameters
    ----------
    words : Namespace
        Of the command line: `table` is the file of a table of all files, '-' for the standard output, which then has no summary;
        `report` is that of one report, unless there is one for each file.
    """

    def __init__(self, words: Namespace) -> None:
        self._words, self._names, self._table = words, len(words.files) > 1, Table()
        self._lines: list[str] = []
        self._counts: list[Counted] = []
        self._parts: list[Part] = []

    def put(self, path: str, found: Found) -> None:
        """Tells the grains of a file."""
        words, unit = self._words, self._counts[0].unit if self._counts else found.counted.unit
        if found.counted.unit != unit and (words.table is not None or (words.report is not None and words.reports is None)):
            raise ValueError(f"its sizes are in {found.counted.unit}, and those of the files before in {unit}: name one --pixel")
        if words.table is not None:
            lines = self._table.rows(path, found) if self._names else found.table
            if words.table == "-":
                standard_output().write(lines)
            self._lines.append(lines)
        self._counts.append(found.counted)
        if found.part is not None and words.reports is None:
            self._parts.append(found.part)
        if words.table != "-":
            name = encoded(path).decode()
            print(f"{name}:\n{found.counted}" if self._names else found.counted, file=standard_output())

    def end(self) -> None:
        """Writes what is one for all files, and tells them together."""
        words, units = self._words, list(dict.fromkeys(counted.unit for counted in self._counts))
        if words.table not in (None, "-") and self._lines:
            Path(words.table).write_text("".join(self._lines), encoding="utf-8", errors="surrogateescape")
        if self._parts:
            Path(words.report).write_bytes(encoded(page(self._parts, words.command, self._names)))
        if len(units) > 1:
            tell(f"the pictures have no sum, since their sizes are in {' and in '.join(units)}: name one --pixel")
        elif words.table != "-" and len(self._counts) > 1:
            print(f"all {len(self._counts)} pictures:\n{together(self._counts)}", file=standard_output())
