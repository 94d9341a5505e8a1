#!/usr/bin/env python3
"""Makes what is given to users, of what is built: `make dist`.

    python3 packaging/dist.py PROGRAM LIBRARIES FOLDER

Into FOLDER come the tarball morphd-VERSION-linux-x86_64.tar.gz, the wheel, the source archive of the Python package, Debian's packages
and SHA256SUMS. Nothing is proved or built here: PROGRAM and the library in the folder LIBRARIES are taken as they are, and
what is known of their proof is told. The same files give the same bytes, on the same day of commit or with SOURCE_DATE_EPOCH.
"""
import os
import shutil
import sys
import tempfile
from pathlib import Path

import archives
import deb
import layout

sys.path.append(str(layout.ROOT / "checks"))
import prove  # noqa: E402
import python_package  # noqa: E402


def is_as_proved(crate: str) -> bool:
    """Whether what was built of a crate is what its last proof left, and none of its sources was written since."""
    sum_file = Path(f"{prove.ROOT}/crates/{crate}/out/{prove.SUM}")
    kept = prove.text(sum_file).split()
    if len(kept) != 2 or kept[1] != prove.sum_of(prove.built(f"{prove.ROOT}/crates/{crate}/out")):
        return False
    names = [crate, *prove.all_below(crate, prove.needs_by_crate())]
    return all(os.path.getmtime(path) <= sum_file.stat().st_mtime for name in names for path in prove.sources(name))


def tell_of_proof(built: layout.Built) -> None:
    """Says where nothing tells that the program or the library is the proved one."""
    programs = {Path(f"{prove.ROOT}/crates/morphd/out/morphd"): "morphd"}
    for path, crate in ((built.program, "morphd"), (built.library / layout.SONAME, "mw_c")):
        own = programs.get(path.resolve(), "mw_c" if path.parent.resolve() == layout.ROOT / "out" else "")
        if own != crate or not is_as_proved(crate):
            print(f"dist: nothing here tells that {path} is proved as it stands: `make morphd library` does", file=sys.stderr)


def tarball(built: layout.Built, wheel: Path, room: Path, target: Path) -> Path:
    """The tree that may lie anywhere, packed."""
    name = f"morphd-{layout.version()}-linux-x86_64"
    folder = room / name
    for item in layout.items(built, layout.Place("")):
        layout.write(folder, item)
    for licence in layout.LICENCES:
        shutil.copy(layout.ROOT / licence, folder)
    text = (layout.ROOT / "packaging/INSTALL").read_text(encoding="utf-8")
    (folder / "INSTALL").write_text(text.replace("@VERSION@", layout.version()), encoding="utf-8")
    shutil.copy(wheel, folder)
    archives.write_sums(folder)
    archives.pack(folder, target / f"{name}.tar.gz", layout.moment())
    return target / f"{name}.tar.gz"


def packed_again(source: Path, room: Path, target: Path) -> Path:
    """The source archive of the Python package, with one time for all files."""
    archives.unpack(source, room)
    archives.pack(room / source.name.removesuffix(".tar.gz"), target / source.name, layout.moment())
    return target / source.name


def make(built: layout.Built, target: Path) -> list[Path]:
    """Makes all; gives the paths."""
    os.umask(0o022)
    os.environ["SOURCE_DATE_EPOCH"] = str(layout.moment())
    with tempfile.TemporaryDirectory() as name:
        room = Path(name)
        wheel, source = (Path(it) for it in python_package.packed(str(room), str(built.library / layout.SONAME)))
        made = [tarball(built, wheel, room / "tree", target), Path(shutil.copy(wheel, target)), packed_again(source, room, target)]
        made += [deb.build(it, built, wheel, room / "debian", target) for it in layout.PACKAGES]
    archives.write_sums(target)
    return [*made, target / "SHA256SUMS"]


def main() -> None:
    if len(sys.argv) != 4:
        sys.exit(__doc__)
    built, target = layout.Built(Path(sys.argv[1]), Path(sys.argv[2])), Path(sys.argv[3])
    missing = built.missing()
    if not shutil.which("dpkg-deb"):
        missing.append("dpkg-deb is missing: install Debian's package dpkg")
    if missing:
        sys.exit("dist: " + "\ndist: ".join(missing))
    tell_of_proof(built)
    shutil.rmtree(target, ignore_errors=True)
    target.mkdir(parents=True)
    for path in make(built, target):
        print(path)


if __name__ == "__main__":
    main()
