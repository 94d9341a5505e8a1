"""Debian's packages, by dpkg-deb: what stands in packaging/debian around the files of packaging/layout.py."""
from __future__ import annotations

import hashlib
import os
import re
import subprocess
import zipfile
from email.utils import formatdate
from functools import partial
from pathlib import Path

import archives
import layout
from layout import Item

HERE = Path(__file__).resolve().parent / "debian"
PLACE = layout.Place("/usr", "lib/x86_64-linux-gnu", "../lib/systemd/system", "share/doc/morphd")
MAINTAINER = "Pelvendo maintainers <maintainers@users.noreply.pelvendo.example>"
MODULES = "lib/python3/dist-packages"
# What lintian is not to tell: the bytes are those that were built of the proved code, and no tool comes behind that.
UNSTRIPPED = {"morphd": "usr/bin/morphd", "libmorphd1": f"usr/lib/x86_64-linux-gnu/{layout.SONAME}"}
RUN = """#!/usr/bin/python3
import sys

from morphd.__main__ import main

sys.exit(main())
"""


def debian_version() -> str:
    return f"{layout.version()}-1"


def filled(text: str, package: str) -> str:
    for name, value in {"VERSION": debian_version(), "UPSTREAM": layout.version(), "PACKAGE": package}.items():
        text = text.replace(f"@{name}@", value)
    return text


def paragraphs() -> dict[str, str]:
    """What the control file says of each package."""
    text = (HERE / "control").read_text(encoding="utf-8")
    return {it.split()[1]: it.strip() for it in text.split("\n\n")}


def copyright_text() -> bytes:
    """Whose it is, with the text of the shorter licence; Debian has the longer one on every system."""
    licence = (layout.ROOT / "LICENSE-MIT").read_text(encoding="utf-8").partition("\n\n")[2].partition("\n\n")[2]
    lines = "\n".join(f" {line}" if line else " ." for line in licence.strip().split("\n"))
    return (HERE / "copyright").read_text(encoding="utf-8").replace("@EXPAT@", lines).encode()


def changelog() -> bytes:
    """The one entry of this version."""
    text = (f"morphd ({debian_version()}) unstable; urgency=medium\n\n  * Version {layout.version()}: see changelog.gz.\n\n"
            f" -- {MAINTAINER}  {formatdate(layout.moment())}\n")
    return archives.gzipped(text.encode())


def debian_documents(package: str) -> list[Item]:
    folder = f"share/doc/{package}"
    news = (layout.ROOT / "CHANGELOG.md").read_bytes()
    told = f"{package}: unstripped-binary-or-object [{UNSTRIPPED.get(package)}]\n".encode()
    overrides = [Item(package, f"share/lintian/overrides/{package}", lambda: told)] if package in UNSTRIPPED else []
    return [*overrides, Item(package, f"{folder}/copyright", copyright_text),
            Item(package, f"{folder}/changelog.gz", lambda: archives.gzipped(news)),
            Item(package, f"{folder}/changelog.Debian.gz", changelog)]


def package_items(wheel: Path) -> list[Item]:
    """The Python package out of its wheel, without the library, which Debian has in a package of its own."""
    found = [Item("python3-morphd", "bin/morph", RUN.encode, 0o755)]
    with zipfile.ZipFile(wheel) as file:
        for name in sorted(file.namelist()):
            is_taken = name.startswith("morphd/") and not name.startswith("morphd/libmorphd")
            if is_taken or re.search(r"dist-info/(METADATA|entry_points\.txt|top_level\.txt)$", name):
                found.append(Item("python3-morphd", f"{MODULES}/{name}", partial(bytes, file.read(name))))
    return found


def as_debian_has_it(item: Item) -> list[Item]:
    """A file of the list where Debian keeps it: pages packed, documents with their package, licences in `copyright`."""
    name = Path(item.path).name
    if "share/man/" in item.path:
        return [Item(item.package, f"{item.path}.gz", lambda: archives.gzipped(item.content()))]
    if item.path.startswith("share/doc/"):
        if name in (*layout.LICENCES, "CHANGELOG.md"):
            return []
        return [Item(item.package, f"share/doc/{item.package}/{name}", item.content)]
    return [item]


def items_of(package: str, built: layout.Built, wheel: Path) -> list[Item]:
    given = [*layout.items(built, PLACE), *package_items(wheel)]
    found = [it for one in given if one.package == package for it in as_debian_has_it(one)]
    return [*found, *debian_documents(package)]


def sums(folder: Path) -> str:
    names = [it for it in archives.all_below(folder) if not it.startswith("DEBIAN/") and not (folder / it).is_symlink()]
    return "".join(f"{hashlib.md5((folder / it).read_bytes()).hexdigest()}  {it}\n" for it in names)


def control_files(package: str, folder: Path) -> dict[str, tuple[str, int]]:
    """What dpkg reads of a package, with the mode of each."""
    size = sum((folder / it).lstat().st_size + 1023 >> 10 for it in archives.all_below(folder))
    head, _, rest = paragraphs()[package].partition("\n")
    control = (f"{head}\nSource: morphd\nVersion: @VERSION@\nMaintainer: {MAINTAINER}\nPriority: optional\n"
               f"Installed-Size: {size}\n{rest}\n")
    found = {"control": (control, 0o644), "md5sums": (sums(folder), 0o644)}
    if package in ("morphd", "libmorphd1"):
        found["preinst"] = ((HERE / "preinst").read_text(encoding="utf-8"), 0o755)
    for path in sorted(HERE.glob(f"{package}.*")):
        kind = path.suffix[1:]
        found[kind] = (path.read_text(encoding="utf-8"), 0o644 if kind in ("shlibs", "triggers") else 0o755)
    return found


def build(package: str, built: layout.Built, wheel: Path, room: Path, target: Path) -> Path:
    """Makes one package; gives its path."""
    folder = room / package
    for item in items_of(package, built, wheel):
        layout.write(folder / "usr", item)
    control = control_files(package, folder)
    (folder / "DEBIAN").mkdir(parents=True)
    for name, (text, mode) in control.items():
        path = folder / "DEBIAN" / name
        path.write_text(filled(text, package), encoding="utf-8")
        path.chmod(mode)
    archives.set_times(folder, layout.moment())
    kind = "all" if "Architecture: all" in paragraphs()[package] else "amd64"
    made = target / f"{package}_{debian_version()}_{kind}.deb"
    around = dict(os.environ, SOURCE_DATE_EPOCH=str(layout.moment()))
    command = ["dpkg-deb", "--root-owner-group", "-Zxz", "--build", str(folder), str(made)]
    subprocess.run(command, env=around, check=True, stdout=subprocess.DEVNULL)
    return made
