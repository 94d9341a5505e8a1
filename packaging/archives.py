"""Archives with the same bytes for the same files: names in order, one time, no owners."""
from __future__ import annotations

import gzip
import hashlib
import os
import subprocess
import tarfile
from pathlib import Path
from typing import IO, cast


def all_below(folder: Path) -> list[str]:
    """The files and links below a folder, by their paths from there, in order."""
    return sorted(str(it.relative_to(folder)) for it in folder.rglob("*") if it.is_symlink() or not it.is_dir())


def sum_of(path: Path) -> str:
    return hashlib.sha256(path.read_bytes()).hexdigest()


def write_sums(folder: Path) -> None:
    """SHA256SUMS of all files of a folder, as sha256sum reads it."""
    names = [it for it in all_below(folder) if it != "SHA256SUMS" and not (folder / it).is_symlink()]
    (folder / "SHA256SUMS").write_text("".join(f"{sum_of(folder / it)}  {it}\n" for it in names), encoding="utf-8")


def set_times(folder: Path, seconds: int) -> None:
    """Gives all below a folder, and itself, one time, and modes that do not hang on who made them."""
    for path in [folder, *folder.rglob("*")]:
        if not path.is_symlink():
            path.chmod(0o755 if path.is_dir() or path.stat().st_mode & 0o100 else 0o644)
        os.utime(path, (seconds, seconds), follow_symlinks=False)


def owned_by_nobody(member: tarfile.TarInfo) -> tarfile.TarInfo:
    member.uid = member.gid = 0
    member.uname = member.gname = "root"
    return member


def pack(folder: Path, target: Path, seconds: int) -> None:
    """A folder as TARGET.tar.gz, under its own name."""
    set_times(folder, seconds)
    with open(target, "wb") as file, gzip.GzipFile("", "wb", 9, file, seconds) as packed:
        with tarfile.open(mode="w", fileobj=cast(IO[bytes], packed), format=tarfile.GNU_FORMAT) as archive:
            for path in [folder, *sorted(folder.rglob("*"))]:
                archive.add(path, str(path.relative_to(folder.parent)), recursive=False, filter=owned_by_nobody)


def unpack(archive: Path, folder: Path) -> None:
    """Unpacks by tar: Python's own module asks for a filter in later versions, and does not know of one in earlier ones."""
    folder.mkdir(parents=True, exist_ok=True)
    subprocess.run(["tar", "-x", "-z", "-p", "-C", str(folder), "-f", str(archive)], check=True)


def gzipped(data: bytes) -> bytes:
    return gzip.compress(data, 9, mtime=0)
