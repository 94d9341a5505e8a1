#!/usr/bin/env python3
"""Puts what is built into place, or takes it away again: `make install` and `make uninstall`.

    python3 packaging/install.py install PROGRAM LIBRARIES     PREFIX and DESTDIR in the environment, as make passes them on
    python3 packaging/install.py uninstall PROGRAM LIBRARIES

PROGRAM is the built program, and LIBRARIES the folder of the built library. Where only one of both is built, the other is left
out. Nothing is proved or built here. Files that were there before, of the same names, are overwritten.
"""
import os
import sys
from pathlib import Path

import layout


def wanted(built: layout.Built, place: layout.Place) -> list[layout.Item]:
    """What can be installed of what is built."""
    found = [*layout.shell_items(), *layout.documents(place)]
    if built.program.exists():
        found += layout.program_items(built, place)
    if (built.library / layout.SONAME).exists():
        found += layout.library_items(built, place)
    return found


def install(built: layout.Built, place: layout.Place, folder: Path) -> None:
    missing = built.missing()
    if not built.program.exists() and not (built.library / layout.SONAME).exists():
        sys.exit("install: " + "\ninstall: ".join(missing))
    os.umask(0o022)
    for item in wanted(built, place):
        layout.write(folder, item)
        print(f"{folder / item.path}")
    for what in missing:
        print(f"install: left out, since {what}", file=sys.stderr)
    if not os.environ.get("DESTDIR"):
        print("a program that takes the library finds it after `ldconfig`", file=sys.stderr)


def uninstall(built: layout.Built, place: layout.Place, folder: Path) -> None:
    """Takes away each file of the list, and the folder that is the program's own."""
    for item in layout.items(built, place):
        path = folder / item.path
        if path.is_symlink() or path.exists():
            path.unlink()
            print(f"{path}")
    own = folder / place.documents
    if own.is_dir() and not any(own.iterdir()):
        own.rmdir()


def main() -> None:
    if len(sys.argv) != 4 or sys.argv[1] not in ("install", "uninstall"):
        sys.exit(__doc__)
    built = layout.Built(Path(sys.argv[2]), Path(sys.argv[3]))
    prefix = os.environ.get("PREFIX", "/usr/local").rstrip("/")
    folder = Path(f"{os.environ.get('DESTDIR', '')}{prefix}")
    {"install": install, "uninstall": uninstall}[sys.argv[1]](built, layout.Place(prefix), folder)


if __name__ == "__main__":
    main()
