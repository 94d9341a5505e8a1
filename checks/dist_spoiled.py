"""The test of checks/dist.py: copies of what was made are spoiled, one thing or a few at a time, and each has to be told."""
import re
import shutil
import subprocess
import sys
import zipfile
from functools import partial

import archives
import dist
import layout

TIME = layout.moment()


def replace(path, old, new):
    """Puts other bytes in the place of some, of which there have to be some."""
    data = path.read_bytes()
    if old not in data:
        sys.exit(f"{path} has no {old!r} to spoil")
    path.write_bytes(data.replace(old, new))


def retar(one, change, has_sums=True, archive=None, seconds=TIME):
    """Changes what is in a tarball, whose sums are right again unless they are what is spoiled."""
    path = archive or one.tarball
    home = one.room / "retar"
    shutil.rmtree(home, ignore_errors=True)
    subprocess.run(["tar", "-x", "--one-top-level=" + str(home), "-f", path], check=True)
    tree = next(home.iterdir())
    change(tree)
    if has_sums and path == one.tarball:
        archives.write_sums(tree)
    archives.pack(tree, path, seconds)


def rezip(one, change):
    """Changes what is in the wheel."""
    home = one.new("rezip")
    with zipfile.ZipFile(one.wheel) as file:
        file.extractall(home)
    change(home)
    with zipfile.ZipFile(one.wheel, "w") as file:
        for name in archives.all_below(home):
            file.write(home / name, name)


def redeb(one, package, change, is_root=True):
    """Changes what is in one of Debian's packages."""
    home = one.new("redeb")
    subprocess.run(["dpkg-deb", "--raw-extract", one.debs[package], home], check=True)
    change(home)
    owner = ["--root-owner-group"] * is_root
    subprocess.run(["dpkg-deb", *owner, "--build", home, one.debs[package]], check=True, stdout=subprocess.DEVNULL)


def owned(one):
    """Packs the tarball with an owner, and its names out of order."""
    home = one.room / "retar"
    retar(one, lambda tree: None)
    order = sorted(archives.all_below(home), reverse=True)
    words = ["tar", "-c", "-z", "--owner=1000", "--mtime=@1", "-C", home, "-f", one.tarball, "--no-recursion", "--"]
    subprocess.run([*words, *order], check=True)


def leaves(home):
    (home / "DEBIAN/postinst").write_text("#!/bin/sh\ntouch /var/lib/left\n", encoding="ascii")
    (home / "DEBIAN/postinst").chmod(0o755)


def other_program(tree):
    """A program that takes more than the C library."""
    shutil.copy(shutil.which("ls"), tree / "bin/morphd")


def silent_program(tree):
    shutil.copy(shutil.which("true"), tree / "bin/morphd")


def longer(tree):
    with open(tree / "bin/morphd", "ab") as file:
        file.write(b"x")


def no_link(tree):
    (tree / "lib/libmorphd.so").unlink()
    (tree / "lib/libmorphd.so").touch()


def other_licence(home):
    replace(next(home.glob("*.dist-info")) / "METADATA", b"License: ", b"Licence: ")


def rename_library(home):
    (home / "morphd" / layout.SONAME).rename(home / "morphd/libmorphd.so")


def without(*parts):
    """Takes a file away, which has to be there."""
    return lambda home: next(iter(home.glob("/".join(parts)))).unlink()


def changed(name, old, new):
    return lambda home: replace(home / name, old, new)


PAGE, OTHER_PAGE = "share/man/man1/morphd.1", "share/man/man1/morph.1"
HELP = "share/bash-completion/completions/morph"
LIBRARY = f"lib/{layout.SONAME}"
UNIT = "lib/systemd/system/morphd.service"
# A check, with what is spoiled before it and the words that it then has to say.
SPOILED = [
    ("files", [(lambda one: one.source.unlink(), r"morphd-\S+\.tar\.gz is missing"),
               (lambda one: (one.folder / "more").touch(), "more is not wanted"),
               (lambda one: one.tarball.write_bytes(one.tarball.read_bytes() + b"x"), r"linux-x86_64\.tar\.gz: FAILED")]),
    ("files", [(lambda one: (one.folder / "SHA256SUMS").unlink(), "has no SHA256SUMS")]),
    ("tarball", [(owned, "files of an owner"), (lambda one: None, "in no order"), (lambda one: None, "other times")]),
    ("tarball", [(partial(retar, change=without("include/morphd.h")), r"include/morphd\.h is missing"),
                 (partial(retar, change=lambda tree: (tree / "bin/more").touch()), "bin/more is not wanted"),
                 (partial(retar, change=no_link), "is no link"),
                 (partial(retar, change=lambda tree: (tree / "INSTALL").open("a").write("11.\n")), "ten lines"),
                 (partial(retar, change=lambda tree: (tree / "bin/morphd").chmod(0o644)), "bin/morphd .* another mode")]),
    ("tarball", [(partial(retar, change=longer, has_sums=False), "bin/morphd: FAILED"),
                 (lambda one: None, "bin/morphd .* other bytes")]),
    ("needs", [(partial(retar, change=changed("bin/morphd", b"GLIBC_2.34", b"GLIBC_2.39")), r"bin/morphd needs glibc 2\.39"),
               (partial(retar, change=changed(LIBRARY, b"libmorphd.so.1", b"libmorphd.so.2")), "does not call itself"),
               (partial(retar, change=changed(LIBRARY, b"morphd_skeleton", b"morphd_Skeleton")), "differ in morphd_Skeleton"),
               (partial(retar, change=changed(LIBRARY, b"GLIBC_2.14", b"GLIBC_2.33")), r"needs glibc 2\.33")]),
    ("needs", [(partial(retar, change=other_program), "bin/morphd needs libselinux")]),
    ("bare root", [(partial(retar, change=other_program), "bin/morphd batch in a bare root: status 127"),
                   (partial(retar, change=changed("lib/pkgconfig/morphd.pc", b"Version: ", b"Version: 9")), "pkg-config tells"),
                   (partial(retar, change=changed("lib/pkgconfig/morphd.pc", b"-lmorphd", b"-lother")), "cc -o .* fails"),
                   (partial(retar, change=changed("include/morphd.h", b"MORPHD_OPEN = 2", b"MORPHD_OPEN = 0")), "static in a bare root")]),
    ("bare root", [(partial(retar, change=silent_program), "batch in a bare root: status 0, b''"), (lambda one: None, "--version in a")]),
    ("pages", [(partial(retar, change=changed(PAGE, b"RUN name DILATE", b"RUN name DILUTE")), "have 'RUN name DILATE"),
               (partial(retar, change=changed(PAGE, b"47 \\fBPARAM", b"48 \\fBPARAM")), "tell 47 PARAM"),
               (partial(retar, change=changed(PAGE, b"until\\-end", b"until")), "have '--until-end'"),
               (partial(retar, change=changed(PAGE, b"SSE4", b"SSE3")), "what it needs"),
               (partial(retar, change=changed(OTHER_PAGE, b".SH NOTES", b".XX NOTES")), r"man says of morph\(1\)"),
               (partial(retar, change=changed(OTHER_PAGE, b"percentile", b"percent")), "have 'percentile'")]),
    ("completions", [(partial(retar, change=changed(HELP, b" --output", b"")), "--ou"),
                     (partial(retar, change=changed(HELP, b" reflect ", b" ")), "--mode re"),
                     (partial(retar, change=changed(f"{HELP}d", b" serve ", b" serv ")), "morphd serve"),
                     (partial(retar, change=changed(f"{HELP}d", b"serve:--port) return", b"serve:--pork) return")), "serve --port")]),
    ("wheel", [(partial(rezip, change=rename_library), r"has no morphd/libmorphd\.so\.1"), (lambda one: None, r"has morphd/libmorphd\.so$"),
               (lambda one: None, "takes the library"),
               (partial(rezip, change=without("*.dist-info", "LICENSE-MIT")), "has no .*LICENSE-MIT"),
               (partial(rezip, change=other_licence), "does not say License")]),
    ("source", [(lambda one: retar(one, without("LICENSE-MIT"), archive=one.source), "no LICENSE-MIT"),
                (lambda one: retar(one, without("tests/plain.py"), archive=one.source), r"no tests/plain\.py"),
                (lambda one: retar(one, changed("morphd/footprints.py", b"def disk", b"def disc"), archive=one.source), "pytest fails")]),
    ("control", [(lambda one: redeb(one, "morphd", changed("DEBIAN/control", b"libc6 (>= 2.34)", b"libc6")), "does not need libc6"),
                 (lambda one: redeb(one, "libmorphd-dev", changed("DEBIAN/control", b"Version: ", b"Version: 9")), "says another version"),
                 (lambda one: redeb(one, "python3-morphd", without("usr/share/doc/python3-morphd/copyright")), "has no copyright"),
                 (lambda one: redeb(one, "libmorphd1", without("DEBIAN/triggers")), "lintian: .*ldconfig")]),
    ("debian", [(lambda one: redeb(one, "morphd", without("DEBIAN/preinst")), "morphd is installed without SSE4"),
                (lambda one: redeb(one, "morphd", changed(UNIT, b" /usr/bin", b" /usr/sbin")), "which is not installed"),
                (lambda one: redeb(one, "morphd", without("DEBIAN/postrm")), r"leave behind .*wants/morphd\.service"),
                (partial(retar, change=changed("INSTALL", b"xargs rm &&", b"true &&")), "INSTALL: find .*rmdir"),
                (lambda one: redeb(one, "libmorphd1", leaves), "leave behind .*var/lib/left"),
                (lambda one: redeb(one, "python3-morphd", without("DEBIAN/prerm")), "leave behind .*morphd/__pycache__")]),
    ("making", [(lambda one: one.source.write_bytes(b"x"), "has other bytes when it is made again"),
                (lambda one: (one.room / "rt-was-called").touch(), "rt was called")]),
]


def told_of(kind, spoils, folder, built, room):
    """What a check says of a spoiled copy."""
    shutil.copytree(folder, room / "copy")
    one = dist.Dist(room / "copy", built, room / "work")
    one.room.mkdir()
    for spoil, _ in spoils:
        spoil(one)
    try:
        return list(dist.CHECKS[kind](one))
    finally:
        shutil.rmtree(room / "copy")
        shutil.rmtree(one.room)


def test(folder, built, room):
    count = 0
    for kind, spoils in SPOILED:
        told = told_of(kind, spoils, folder, built, room)
        for _, words in spoils:
            if not any(re.search(words, it) for it in told):
                sys.exit(f"{kind}: {words!r} is not told, but {told}")
            count += 1
    one = dist.Dist(folder, built, room)
    told = list(dist.of_installing(one, "help"))
    if not any("leaves prefix/bin/morphd" in it for it in told):
        sys.exit(f"installing: what stays is not told, but {told}")
    print(f"each of {count + 1} spoiled things is told")
