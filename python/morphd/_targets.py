"""Where the results of a command line go: their names, and what is refused before anything is read.

Results of several files go into a folder, under the files' own names. No two go into one file, and none over one that is read,
unless that is said.
"""
from __future__ import annotations

import os
import stat
from collections.abc import Sequence
from dataclasses import dataclass, field
from pathlib import Path
from typing import NamedTuple

from .files import FORMS, Form, form_of

# What operations make, where it is not what they read: sets of levels, or levels of sets.
_RENAMED = {
    "threshold": {".pgm": ".pbm"}, "restored": {".pgm": ".pbm"}, "skeleton": {".pbm": ".pgm"}, "label": {".pbm": ".pgm"},
    "distance": {".pbm": ".pgm"},
}
_SUFFIXES: dict[Form, str] = {"pnm": ".pgm", "png": ".png", "tiff": ".tif"}


class WrongTarget(ValueError):
    """Words of the command line that name no place for a result."""


class Target(NamedTuple):
    """Where one result goes."""

    said: str
    path: str
    file: str


@dataclass(frozen=True)
class Output:
    """An option that says where results go.

    Attributes
    ----------
    option : str
        Its name.
    to : str
        What it says: a file, a folder, or '-' for the standard output.
    paths : sequence of str
        What is read.
    suffixes : dict of str to str
        In a folder, what stands in the place of suffixes; the key '' is for all others.
    """

    option: str
    to: str
    paths: Sequence[str]
    suffixes: dict[str, str] = field(default_factory=dict)

    @property
    def is_folder(self) -> bool:
        """Whether it is a folder, which may not be there yet."""
        if self.to == "-":
            return False
        is_named = not Path(self.to).suffix and not os.path.exists(self.to)
        return self.to.endswith("/") or os.path.isdir(self.to) or (len(self.paths) > 1 and is_named)

    def of(self, path: str) -> str:
        """Where the result of a file goes."""
        if not self.is_folder:
            return self.to
        name = Path("stdin.pgm" if path == "-" else Path(path).name or "picture")
        suffix = self.suffixes.get(name.suffix.lower(), self.suffixes.get("", name.suffix))
        return os.path.join(self.to, name.with_suffix(suffix).name)

    def targets(self) -> list[Target]:
        """Where each result goes. Several do not go into one file."""
        if len(self.paths) > 1 and not self.is_folder:
            raise WrongTarget(f"{self.option} {self.to}: several results go into a folder, as {self.option} FOLDER/")
        return [Target(f"{self.option} {self.to}", path, self.of(path)) for path in self.paths]

    def make_folder(self) -> None:
        """Makes the folder, where it is one and not there."""
        if self.is_folder:
            os.makedirs(self.to, exist_ok=True)


def of_pictures(operation: str, to: str, form: Form | None, paths: Sequence[str]) -> Output:
    """Where pictures go. A form that is named tells their suffix in a folder."""
    renamed = _RENAMED.get(operation, {})
    if form is None:
        return Output("-o", to, paths, renamed)
    kept = {suffix: suffix for suffix, known in FORMS.items() if known == form}
    return Output("-o", to, paths, {**kept, **(renamed if form == "pnm" else {}), "": _SUFFIXES[form]})


def _place(path: str) -> object:
    """What is the same for all names of a file, links among them."""
    try:
        held = os.stat(path)
    except OSError:
        return os.path.realpath(path)
    return (held.st_dev, held.st_ino) if stat.S_ISREG(held.st_mode) else os.path.realpath(path)


def check(targets: Sequence[Target], paths: Sequence[str], bitmaps: Sequence[str], may_overwrite: bool) -> None:
    """Refuses results that would go into one file, or over a file that is read: a picture, or a footprint's bitmap."""
    if paths.count("-") > 1:
        raise WrongTarget("-: the standard input is read once")
    read, taken = {_place(path) for path in [*(it for it in paths if it != "-"), *bitmaps]}, dict[object, str]()
    for said, path, file in targets:
        place = _place(file)
        if file == "-":
            continue
        if place in taken:
            raise WrongTarget(f"{said}: the results of {taken[place]} and {path} would both be {file}")
        if place in read and not may_overwrite:
            raise WrongTarget(f"{said}: {file} is one of the files that are read; --force writes over it")
        taken[place] = path


def check_forms(targets: Sequence[Target], form: Form | None) -> None:
    """Refuses names that tell no form of a picture, where none is named."""
    for _, _, file in targets:
        if file != "-" and form is None:
            try:
                form_of(file)
            except ValueError as fault:
                raise WrongTarget(str(fault)) from None
