"""What a command line tells: curves on the standard output, in the order of the files, and faults on the other one, each in a line."""
from __future__ import annotations

import csv
import io
import sys
from pathlib import Path
from typing import IO, TYPE_CHECKING, Any, Protocol, TextIO

if TYPE_CHECKING:
    from .curves import Spectrum


def standard_output() -> TextIO:
    """The standard output, which a shell may have closed."""
    if sys.stdout is None:
        raise OSError("the standard output is closed")
    return sys.stdout


def tell(fault: str) -> None:
    """Tells a fault, unless a shell has closed the standard error."""
    if sys.stderr is not None:
        print(f"morph: {fault}", file=sys.stderr, flush=True)


def in_words(path: str, fault: BaseException) -> str:
    """A fault with the file that has it, in one line."""
    if isinstance(fault, OSError) and fault.strerror:
        return f"{path if fault.filename is None else fault.filename}: {fault.strerror}"
    text = " ".join(str(fault).split()) or type(fault).__name__
    return text if text.startswith(f"{path}:") else f"{path}: {text}"


class Tabled(Protocol):
    """What has a table: a curve, or grains."""

    def to_csv(self, path: IO[str]) -> None:
        """Writes it as comma-separated values."""


class Table:
    """The tables of several files as one of comma-separated values, with a column for the file."""

    def __init__(self) -> None:
        self._head: list[str] | None = None

    def rows(self, path: str, held: Tabled) -> str:
        """The lines of one file, behind the head where they are the first."""
        text, made = io.StringIO(), io.StringIO()
        held.to_csv(text)
        head, *rows = csv.reader(io.StringIO(text.getvalue()))
        if self._head is not None and self._head != head:
            raise ValueError(f"its columns are {', '.join(head)}, and those of the files before {', '.join(self._head)}: name one --pixel")
        out = csv.writer(made, lineterminator="\n")
        out.writerows([] if self._head is not None else [["file", *head]])
        out.writerows([path, *row] for row in rows)
        self._head = head
        return made.getvalue()


class Told(Protocol):
    """Where what is found in all files is told, one after the other."""

    def put(self, path: str, found: Any) -> None:
        """Tells what was found in a file."""

    def end(self) -> None:
        """Tells what stands behind all."""


class Curves:
    """Where the curves of all files are told: printed, or in a table.

    Parameters
    ----------
    table : str or None
        The table's file, '-' for the standard output; None where curves are told in words.
    has_names : bool
        Whether each is told with the name of its file.
    is_told : bool
        Whether they are told at all, and not in files of their own alone.
    """

    def __init__(self, table: str | None, has_names: bool, is_told: bool = True) -> None:
        self._to, self._has_names, self._is_told, self._table = table, has_names, is_told, Table()
        self._lines: list[str] = []

    def put(self, path: str, curve: Spectrum) -> None:
        """Tells a curve."""
        if not self._is_told:
            return
        if self._to is None:
            print(f"{path}:\n{curve}" if self._has_names else curve, file=standard_output())
        elif not self._has_names:
            curve.to_csv(standard_output())
        elif self._to == "-":
            standard_output().write(self._table.rows(path, curve))
        else:
            self._lines.append(self._table.rows(path, curve))

    def end(self) -> None:
        """Writes the table's file."""
        if self._to is not None and self._to != "-" and self._lines:
            Path(self._to).write_text("".join(self._lines), encoding="utf-8")
