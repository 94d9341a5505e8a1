"""What is installed, and where: one list, by which `make install`, the tarball and Debian's packages are made.

Each file belongs to one of four packages: morphd (the program), libmorphd1 (the library), libmorphd-dev (what C programs are built
by) and python3-morphd (the Python package). The Python package itself stands in Debian's packages alone; else it is a wheel.
"""
from __future__ import annotations

import os
import subprocess
from collections.abc import Callable
from dataclasses import dataclass
from datetime import datetime, timezone
from pathlib import Path

import pages

ROOT = Path(__file__).resolve().parent.parent
PACKAGES = ("morphd", "libmorphd1", "libmorphd-dev", "python3-morphd")
SONAME = "libmorphd.so.1"
LICENCES = ("LICENSE-MIT", "LICENSE-APACHE")


def version() -> str:
    return (ROOT / "VERSION").read_text(encoding="ascii").strip()


def moment() -> int:
    """The time that all files have: SOURCE_DATE_EPOCH, or the beginning of the commit's day, or of that of VERSION."""
    told = os.environ.get("SOURCE_DATE_EPOCH")
    if told:
        return int(told)
    ran = subprocess.run(["git", "-C", str(ROOT), "log", "-1", "--format=%ct"], capture_output=True, text=True, check=False)
    seconds = int(ran.stdout) if ran.returncode == 0 and ran.stdout.strip() else int((ROOT / "VERSION").stat().st_mtime)
    return seconds - seconds % 86400


def day() -> str:
    return datetime.fromtimestamp(moment(), timezone.utc).strftime("%Y-%m-%d")


@dataclass(frozen=True)
class Built:
    """What was built before: the program, and a folder with both forms of the library."""

    program: Path
    library: Path

    def missing(self) -> list[str]:
        """What is not there, each with the target that makes it."""
        made = {self.program: "make morphd", self.library / SONAME: "make library", self.library / "libmorphd.a": "make library"}
        return [f"{path} is missing: `{how}` makes it" for path, how in made.items() if not path.exists()]


@dataclass(frozen=True)
class Place:
    """Where things go: the prefix as programs see it, and the folder of libraries below it."""

    prefix: str
    libraries: str = "lib"
    units: str = "lib/systemd/system"
    documents: str = "share/doc/morphd"


@dataclass(frozen=True)
class Item:
    """A file below the prefix, or a link."""

    package: str
    path: str
    content: Callable[[], bytes]
    mode: int = 0o644
    link: str = ""


def file_item(package: str, path: str, source: Path, mode: int = 0o644) -> Item:
    return Item(package, path, source.read_bytes, mode)


def pkg_config(place: Place) -> bytes:
    """What pkg-config says. Where the prefix is empty, it is found from the file's own place, so the tree can be moved."""
    up = "/".join(".." for _ in f"{place.libraries}/pkgconfig".split("/"))
    return (f"prefix={place.prefix or '${pcfiledir}/' + up}\nlibdir=${{prefix}}/{place.libraries}\nincludedir=${{prefix}}/include\n\n"
            f"Name: morphd\nDescription: flat mathematical morphology on arrays\nVersion: {version()}\n"
            "Libs: -L${libdir} -lmorphd\nCflags: -I${includedir}\n").encode()


def unit(place: Place) -> bytes:
    """The unit for systemd, which names the program by its whole path."""
    text = (ROOT / "examples/morphd.service").read_text(encoding="utf-8")
    return text.replace("/usr/local/bin/morphd", f"{place.prefix or '/usr/local'}/bin/morphd").encode()


def program_items(built: Built, place: Place) -> list[Item]:
    return [
        file_item("morphd", "bin/morphd", built.program, 0o755),
        Item("morphd", "share/man/man1/morphd.1", lambda: pages.morphd_page(built.program, version(), day()).encode()),
        Item("morphd", "share/bash-completion/completions/morphd",
             lambda: pages.completion("morphd", pages.helps_of_morphd(built.program), False).encode()),
        Item("morphd", f"{place.units}/morphd.service", lambda: unit(place)),
    ]


def library_items(built: Built, place: Place) -> list[Item]:
    folder = place.libraries
    return [
        file_item("libmorphd1", f"{folder}/{SONAME}", built.library / SONAME),
        Item("libmorphd-dev", f"{folder}/libmorphd.so", bytes, link=SONAME),
        file_item("libmorphd-dev", f"{folder}/libmorphd.a", built.library / "libmorphd.a"),
        Item("libmorphd-dev", f"{folder}/pkgconfig/morphd.pc", lambda: pkg_config(place)),
        file_item("libmorphd-dev", "include/morphd.h", ROOT / "include/morphd.h"),
    ]


def shell_items() -> list[Item]:
    """What the shell of the Python package has beside it."""
    return [
        Item("python3-morphd", "share/man/man1/morph.1", lambda: pages.morph_page(version(), day()).encode()),
        Item("python3-morphd", "share/bash-completion/completions/morph",
             lambda: pages.completion("morph", pages.helps_of_morph(), True).encode()),
    ]


def documents(place: Place) -> list[Item]:
    """Each document with the package that it is about."""
    rows = [("morphd", "docs/PROTOCOL.md"), ("morphd", "docs/SERVER.md"), ("libmorphd-dev", "docs/LIBRARY.md"),
            ("morphd", "CHANGELOG.md"), *(("morphd", it) for it in LICENCES)]
    return [file_item(package, f"{place.documents}/{Path(name).name}", ROOT / name) for package, name in rows]


def items(built: Built, place: Place) -> list[Item]:
    """All files of the program, the library and the shell, and their documents."""
    found = [*program_items(built, place), *library_items(built, place), *shell_items(), *documents(place)]
    return sorted(found, key=lambda it: it.path)


def write(folder: Path, item: Item) -> None:
    """Writes a file below a folder, in the place of what stands there."""
    path = folder / item.path
    path.parent.mkdir(parents=True, exist_ok=True)
    # A program that runs, or a library that is in use, keeps its own file.
    path.unlink(missing_ok=True)
    if item.link:
        path.symlink_to(item.link)
    else:
        path.write_bytes(item.content())
        path.chmod(item.mode)
