#!/usr/bin/env python3
"""Looks at what `make dist` made, and tries it: the tarball in a root that has the C library alone; the wheel in an environment of its
own; Debian's packages in a root with the least Debian, where they are installed, tried, removed and have to leave nothing behind.

    python3 checks/dist.py FOLDER PROGRAM LIBRARIES           tells each fault; status 1 where there is one
    python3 checks/dist.py --test FOLDER PROGRAM LIBRARIES    spoils copies, and sees that each is told (checks/dist_spoiled.py)

FOLDER is that of `make dist`; PROGRAM and LIBRARIES are what it was made of. All is made a second time, too, and has to be the same,
byte for byte, and is installed and removed by `make`; an `rt` that stands first on PATH then tells of any call. The roots are made of
what this machine has (checks/bare_roots.py): it has to be a Debian with python3-numpy, python3-venv, gcc, pkg-config, man-db, lintian
and python3-pytest. Nothing is fetched from a network.
"""
import os
import re
import shutil
import subprocess
import sys
import tarfile
import tempfile
import zipfile
from pathlib import Path

import bare_roots
from bare_roots import said

ROOT = Path(__file__).resolve().parent.parent
sys.path.append(str(ROOT / "packaging"))
import archives  # noqa: E402
import layout  # noqa: E402

PYTHON = "/usr/bin/python3"
NEEDED = {"dpkg-deb": "dpkg", "lintian": "lintian", "man": "man-db", "pkg-config": "pkgconf", "cc": "gcc", "objdump": "binutils"}
LEAST_GLIBC = (2, 34)
# What `systemctl enable` makes.
ENABLED = "etc/systemd/system/multi-user.target.wants/morphd.service"
SESSION, REPLIES = (ROOT / "crates/morphd" / it for it in ("stdin", "stdout"))
ERODED = ("import morphd, numpy; assert morphd.erosion(numpy.array([[3, 1, 4, 1, 5]], numpy.uint8), [[1, 1, 1]]).tolist() == [[1] * 5]; "
          "print(*{line.split()[-1] for line in open('/proc/self/maps') if 'libmorphd' in line})")
NO_PROC = ERODED.partition("; print")[0]


def release():
    return (ROOT / "VERSION").read_text(encoding="ascii").strip()


class Dist:
    """What was made, and a folder to work in."""

    def __init__(self, folder, built, room):
        self.folder, self.built, self.room = Path(folder).resolve(), built, Path(room)
        version = release()
        self.tree_name = f"morphd-{version}-linux-x86_64"
        self.tarball = self.folder / f"{self.tree_name}.tar.gz"
        self.source = self.folder / f"morphd-{version}.tar.gz"
        self.wheel = next(iter(sorted(self.folder.glob(f"morphd-{version}-py3-none-manylinux_*_x86_64.whl"))), self.folder / "wheel")
        kinds = {it: "all" if it.startswith("python3") else "amd64" for it in layout.PACKAGES}
        self.debs = {it: self.folder / f"{it}_{version}-1_{kind}.deb" for it, kind in kinds.items()}

    def new(self, name):
        """An empty folder of this name."""
        path = self.room / name
        shutil.rmtree(path, ignore_errors=True)
        path.mkdir(parents=True)
        return path

    def tree(self):
        """The tarball, unpacked."""
        folder = self.new("tree")
        archives.unpack(self.tarball, folder)
        return folder / self.tree_name


def ran(words, **more):
    return subprocess.run([str(it) for it in words], capture_output=True, text=True, check=False, **more)


def fault_of(words, **more):
    """What a program says that fails, on one line; None where it does not."""
    done = ran(words, **more)
    told = " ".join((done.stdout + done.stderr).split())
    return None if done.returncode == 0 else f"{' '.join(map(str, words[:3]))} fails: {told[-400:]}"


# ---- each check gives the faults of what was made


def of_files(dist):
    """All is there, nothing else, and as SHA256SUMS says."""
    wanted = {it.name for it in (dist.tarball, dist.wheel, dist.source, *dist.debs.values())} | {"SHA256SUMS"}
    found = {it.name for it in dist.folder.iterdir()}
    for name in sorted(wanted ^ found):
        yield f"{name} is {'missing' if name in wanted else 'not wanted'}"
    yield from of_sums(dist.folder)


def of_sums(folder):
    """SHA256SUMS has each file that is no link, once, and its sum."""
    path = folder / "SHA256SUMS"
    if not path.exists():
        yield f"{folder.name} has no SHA256SUMS"
        return
    named = [line.split("  ", 1)[1] for line in path.read_text(encoding="utf-8").splitlines()]
    files = [it for it in archives.all_below(folder) if it != "SHA256SUMS" and not (folder / it).is_symlink()]
    if named != files:
        yield f"SHA256SUMS of {folder.name} names other files than are there: {', '.join(sorted(set(named) ^ set(files)))}"
    bad = fault_of(["sha256sum", "--check", "--strict", "--quiet", "SHA256SUMS"], cwd=folder)
    if bad:
        yield bad


def of_tarball(dist):
    """Names in order, one time, no owner but root, and the files of the list with their bytes and modes."""
    with tarfile.open(dist.tarball) as archive:
        members = archive.getmembers()
    if [it.name for it in members] != sorted((it.name for it in members), key=lambda it: it.split("/")):
        yield "the names in the tarball are in no order"
    if {it.mtime for it in members} != {layout.moment()}:
        yield f"the tarball's files have other times than {layout.moment()}"
    if any((it.uid, it.gid, it.uname, it.gname) != (0, 0, "root", "root") for it in members):
        yield "the tarball has files of an owner"
    if any(not it.name.startswith(dist.tree_name) for it in members):
        yield "the tarball has files beside its folder"
    tree = dist.tree()
    wanted = {it.path: it for it in layout.items(dist.built, layout.Place(""))}
    beside = {*layout.LICENCES, "INSTALL", "SHA256SUMS", dist.wheel.name}
    for name in sorted({*wanted, *beside} ^ set(archives.all_below(tree))):
        yield f"{name} is {'missing in' if name in wanted or name in beside else 'not wanted in'} the tarball"
    for name, item in wanted.items():
        path = tree / name
        if item.link and (not path.is_symlink() or os.readlink(path) != item.link):
            yield f"{name} in the tarball is no link to {item.link}"
        elif not item.link and path.exists() and (path.stat().st_mode & 0o777, path.read_bytes()) != (item.mode, item.content()):
            yield f"{name} in the tarball has another mode or other bytes than it should"
    yield from of_sums(tree)
    if len((tree / "INSTALL").read_text(encoding="utf-8").splitlines()) != 10 or release() not in (tree / "INSTALL").read_text():
        yield "INSTALL does not have ten lines, or not the version"


def glibc_of(path):
    """The least C library that a program, a library or an object says it needs."""
    found = re.findall(r"GLIBC_(\d+(?:\.\d+)+)", said("objdump", "-T", str(path)))
    return max((tuple(map(int, it.split("."))) for it in found), default=(0,))


def of_needs(dist):
    """The program and the library need what they say they need: a C library, by its version, and no other."""
    tree = dist.tree()
    tag = tuple(map(int, re.search(r"manylinux_(\d+)_(\d+)_", dist.wheel.name).groups()))
    for name, least in (("bin/morphd", LEAST_GLIBC), (f"lib/{layout.SONAME}", min(LEAST_GLIBC, tag))):
        if glibc_of(tree / name) > least:
            yield f"{name} needs glibc {'.'.join(map(str, glibc_of(tree / name)))}, and is said to need {'.'.join(map(str, least))}"
        needed = re.findall(r"NEEDED\s+(\S+)", said("objdump", "-p", str(tree / name)))
        if needed != ["libc.so.6"]:
            yield f"{name} needs {', '.join(needed)}"
    if f"SONAME               {layout.SONAME}" not in said("objdump", "-p", str(tree / "lib" / layout.SONAME)):
        yield f"the library does not call itself {layout.SONAME}"
    own = {it.split()[-1] for it in said("nm", "-D", "--defined-only", str(tree / "lib" / layout.SONAME)).splitlines()}
    header = re.sub(r"/\*.*?\*/", "", (tree / "include/morphd.h").read_text(encoding="utf-8"), flags=re.DOTALL)
    different = own ^ set(re.findall(r"\b(morphd_\w+)\(", header))
    if different:
        yield f"header and library differ in {', '.join(sorted(different))}"


def example():
    """The first program in C of docs/LIBRARY.md, and what it prints."""
    text = (ROOT / "docs/LIBRARY.md").read_text(encoding="utf-8")
    return re.search(r"```c\n(.*?)```", text, re.DOTALL)[1], re.search(r"```text\n(.*?)```", text, re.DOTALL)[1]


def of_bare_root(dist):
    """The tree runs where there is nothing but the C library: the program, and a program in C with either form of the library."""
    tree, root = dist.tree(), dist.new("libc")
    bare_roots.with_libc_alone(root, dist.built.program)
    code, printed = example()
    (tree / "a.c").write_text(code, encoding="utf-8")
    around = dict(os.environ, PKG_CONFIG_PATH=str(tree / "lib/pkgconfig"))
    done = ran(["pkg-config", "--cflags", "--libs", "morphd"], env=around)
    told = ran(["pkg-config", "--modversion", "morphd"], env=around).stdout.strip()
    if done.returncode or told != release():
        yield f"pkg-config tells the version {told!r}: {done.stderr}"
    for name, how in (("shared", done.stdout.split()), ("static", ["-I", tree / "include", tree / "lib/libmorphd.a"])):
        bad = fault_of(["cc", "-o", tree / name, tree / "a.c", *how])
        if bad:
            yield bad
    shutil.copytree(tree, root / "tree", symlinks=True)
    tries = [("bin/morphd --version", b"", f"morphd {release()}\n".encode()),
             ("bin/morphd batch", SESSION.read_bytes(), REPLIES.read_bytes()),
             ("shared", b"", printed.encode()), ("static", b"", printed.encode())]
    for words, given, wanted in tries:
        done = bare_roots.run_in(root, [f"/tree/{words.split()[0]}", *words.split()[1:]], given, LD_LIBRARY_PATH="/tree/lib")
        if (done.returncode, done.stdout) != (0, wanted):
            yield f"{words} in a bare root: status {done.returncode}, {done.stdout[:200]}, {done.stderr[:200]}"


def shown(page):
    """A man page as text, and what man complains about."""
    around = dict(os.environ, LC_ALL="C.UTF-8", MANWIDTH="100", MANROFFOPT="-ww", MAN_KEEP_FORMATTING="")
    done = ran(["man", "--warnings", "--encoding=UTF-8", "--local-file", page], env=around)
    return re.sub(r"\x1b\[[0-9;]*m|.\x08", "", done.stdout), done.stderr.strip() or ("" if done.returncode == 0 else "it fails")


def of_pages(dist):
    """Man shows the pages without a word, and they have each line, refusal, limit, command and option of documents and help."""
    tree = dist.tree()
    protocol = (ROOT / "docs/PROTOCOL.md").read_text(encoding="utf-8")
    lines = re.findall(r"^\| `([A-Z][^`]*)`", protocol, re.MULTILINE)
    refusals = re.findall(r"^\| (\d+) \| `(\w+)`", protocol, re.MULTILINE)
    titles = [it.upper() for it in re.findall(r"^## (.*)", protocol, re.MULTILINE)]
    wanted = {"morphd": [*lines, *titles], "morph": []}
    for name, words in help_words(tree).items():
        wanted[name] += words
    for name, all_words in wanted.items():
        text, told = shown(tree / f"share/man/man1/{name}.1")
        if told:
            yield f"man says of {name}(1): {told[:300]}"
        flat = " ".join(text.split())
        for words in all_words:
            if " ".join(words.split()) not in flat:
                yield f"{name}(1) does not have {words!r}"
        for number, word in refusals if name == "morphd" else ():
            if not re.search(rf"^ +{number} {word}( |$)", text, re.MULTILINE):
                yield f"morphd(1) does not tell {number} {word}"
        if not re.search(r"glibc 2\.34.*SSE4\.2", flat) or f"morphd {release()}" not in flat:
            yield f"{name}(1) does not say what it needs, or its version"


def help_words(tree):
    """The commands and options of both programs, read off their help anew and in a plainer way."""
    found = {}
    around = dict(os.environ, PYTHONPATH=str(ROOT / "python"), PYTHONDONTWRITEBYTECODE="1", COLUMNS="200")
    for name, words in (("morphd", [tree / "bin/morphd"]), ("morph", [sys.executable, "-m", "morphd"])):
        text = ran([*words, "--help"], env=around).stdout
        commands = [it for it in re.findall(r"^ {2,4}([a-z][\w-]+)(?:  |$)", text.partition("ptions:")[0], re.MULTILINE) if it != "help"]
        texts = [text, *(ran([*words, it, "--help"], env=around).stdout for it in commands)]
        found[name] = [*commands, *sorted({it for text in texts for it in re.findall(r"(?<![\w-])--[a-z][\w-]+", text)})]
        if len(commands) < 3:
            raise ValueError(f"the help of {name} cannot be read: {text}")
    return found


def completed(path, name, words):
    """What bash offers for the last of some words."""
    quoted = " ".join(f"'{it}'" for it in words)
    script = f'source "{path}"; COMP_WORDS=({quoted}); COMP_CWORD={len(words) - 1}; _{name}; printf "%s\\n" "${{COMPREPLY[@]}}"'
    done = ran(["bash", "--norc", "-euc", script])
    return (done.stdout.split(), done.stderr.strip())


def of_completions(dist):
    """Bash completes commands, the options of each, and words that an option takes."""
    tree = dist.tree()
    rows = [("morphd", ["morphd", "b"], ["batch"]), ("morphd", ["morphd", "serve", "--un"], ["--until-end"]),
            ("morphd", ["morphd", "serve", "--port", ""], []), ("morph", ["morph", "opening", "--mode", "re"], ["reflect"]),
            ("morph", ["morph", "opening", "a.png", "--ou"], ["--output"]), ("morph", ["morph", "rank", "--nu"], ["--number"]),
            ("morph", ["morph", "opening", "a.p"], [])]
    for name, words in help_words(tree).items():
        commands = [it for it in words if not it.startswith("-")]
        rows += [(name, [name, it], [it]) for it in commands if sum(other.startswith(it) for other in commands) == 1]
    for name, words, wanted in rows:
        found, told = completed(tree / f"share/bash-completion/completions/{name}", name, words)
        if found != wanted or told:
            yield f"of {' '.join(words)!r} bash makes {found}, and not {wanted} {told}"


def of_wheel(dist):
    """The wheel has the library by its name and the licences; installed as python/README.md says, it takes its own library."""
    with zipfile.ZipFile(dist.wheel) as file:
        names = file.namelist()
        metadata = next((file.read(it).decode() for it in names if it.endswith("dist-info/METADATA")), "")
    wanted = [f"morphd/{layout.SONAME}", "morphd/py.typed", *(f"morphd-{release()}.dist-info/{it}" for it in layout.LICENCES)]
    for name in wanted:
        if name not in names:
            yield f"the wheel has no {name}"
    for line in (f"Version: {release()}", "License: MIT OR Apache-2.0", *(f"License-File: {it}" for it in layout.LICENCES)):
        if line not in metadata.splitlines():
            yield f"the wheel does not say {line}"
    others = [it for it in names if "libmorphd" in it and it != wanted[0]]
    if others:
        yield f"the wheel has {', '.join(others)}"
    env = dist.new("venv")
    around = {"PATH": bare_roots.PATHS, "HOME": str(env), "LC_ALL": "C.UTF-8"}
    for words in ([PYTHON, "-m", "venv", "--system-site-packages", env],
                  [env / "bin/pip", "install", "--quiet", "--no-index", "--no-deps", "--disable-pip-version-check", dist.wheel]):
        bad = fault_of(words, env=around, cwd=env)
        if bad:
            yield bad
            return
    done = ran([env / "bin/python", "-c", ERODED], env=around, cwd=env)
    if not re.fullmatch(rf"{re.escape(str(env))}/\S*/morphd/{re.escape(layout.SONAME)}\n", done.stdout):
        yield f"the installed wheel takes the library {done.stdout!r} {done.stderr[-300:]}"
    told = ran([env / "bin/morph", "--version"], env=around, cwd=env).stdout
    if told != f"morph {release()}\n":
        yield f"the installed wheel says the version {told!r}"


def of_source(dist):
    """The source archive has the tests and the licences, and its tests run."""
    folder = dist.new("source")
    archives.unpack(dist.source, folder)
    home = folder / dist.source.name.removesuffix(".tar.gz")
    names = set(archives.all_below(home))
    tests = {str(it.relative_to(ROOT / "python")) for it in (ROOT / "python/tests").rglob("*.py")}
    for name in sorted({*layout.LICENCES, "tests/reference_model.py", "pyproject.toml", "setup.py", "README.md", *tests} - names):
        yield f"the source archive has no {name}"
    if any("libmorphd" in it for it in names):
        yield "the source archive has a library"
    around = {**os.environ, "PYTHONDONTWRITEBYTECODE": "1", "MORPHD_LIBRARY": str(dist.built.library / layout.SONAME)}
    bad = fault_of([PYTHON, "-m", "pytest", "-q", "-p", "no:cacheprovider", "tests/test_footprints.py", "tests/test_curves.py"],
                   cwd=home, env=around) if home.is_dir() else f"the source archive has no {home.name}"
    if bad:
        yield bad


def of_control(dist):
    """Each package says its version, what it needs and whose it is, and lintian finds no fault in it."""
    needs = {"morphd": "libc6 (>= 2.34)", "libmorphd1": "libc6 (>= 2.34)", "libmorphd-dev": f"libmorphd1 (= {release()}-1)",
             "python3-morphd": f"python3-numpy, libmorphd1 (>= {release()})"}
    for name, path in dist.debs.items():
        if said("dpkg-deb", "--field", str(path), "Version").strip() != f"{release()}-1":
            yield f"{path.name} says another version"
        if needs[name] not in said("dpkg-deb", "--field", str(path), "Depends"):
            yield f"{path.name} does not need {needs[name]}"
        if f"./usr/share/doc/{name}/copyright" not in said("dpkg-deb", "--contents", str(path)):
            yield f"{path.name} has no copyright"
        if re.findall(r"^[-dl]\S+ (?!root/root )", said("dpkg-deb", "--contents", str(path)), re.MULTILINE):
            yield f"{path.name} has files of an owner"
    # No upload to Debian closes a report of these.
    how = ["--allow-root", "--fail-on", "error,warning", "--suppress-tags", "initial-upload-closes-no-bugs"]
    done = ran(["lintian", *how, *dist.debs.values()])
    if done.returncode:
        yield f"lintian: {'; '.join(done.stdout.splitlines())[:1000]}"


class Debian:
    """A root with the least Debian, and packages that come and go."""

    def __init__(self, dist):
        self.root, self.dist = dist.new("debian"), dist
        bare_roots.with_debian(self.root, [])
        for place in ("packages", str(Path(ENABLED).parent)):
            (self.root / place).mkdir(parents=True)
        for path in dist.debs.values():
            shutil.copy(path, self.root / "packages")

    def dpkg(self, how, names, **around):
        words = [f"/packages/{self.dist.debs[it].name}" for it in names] if how == "--install" else names
        done = bare_roots.run_in(self.root, ["dpkg", how, *words], **around)
        return done.returncode, (done.stdout + done.stderr).decode(errors="replace")

    def come_and_go(self, names, tries):
        """Installs, tries and removes packages; the faults."""
        before = bare_roots.all_of(self.root)
        status, told = self.dpkg("--install", names)
        if status:
            yield f"dpkg does not install {', '.join(names)}: {' '.join(told.split())[-500:]}"
            return
        yield from tries(self.root)
        if "morphd" in names:
            (self.root / ENABLED).symlink_to("/lib/systemd/system/morphd.service")
        for how in ("--remove", "--purge"):
            status, told = self.dpkg(how, names)
            if status:
                yield f"dpkg {how} fails: {' '.join(told.split())[-500:]}"
        after = bare_roots.all_of(self.root)
        # What Python keeps of its own modules is not of these packages; of theirs nothing may stay.
        left = sorted(it for it in {*before, *after} if before.get(it) != after.get(it) and ("__pycache__" not in it or "morph" in it))
        if left:
            yield f"{', '.join(names)} leave behind or change {', '.join(left[:10])}"
        known = bare_roots.run_in(self.root, ["dpkg-query", "--show", "--showformat=${Package} ${db:Status-Status}\n", *names])
        if b"installed\n" in known.stdout.replace(b"not-installed", b"") or b"config-files" in known.stdout:
            yield f"dpkg still knows of {known.stdout.decode().strip()}"


def of_instructions(debian):
    """The tarball comes and goes as its INSTALL says; the folders that others use may stay."""
    commands = re.findall(r"`([^`]*(?:sha256sum|/usr/local)[^`]*)`", (debian.dist.tree() / "INSTALL").read_text(encoding="utf-8"))
    if len(commands) != 3:
        yield f"INSTALL has other commands than three: {commands}"
        return
    shutil.copytree(debian.dist.tree(), debian.root / "tree", symlinks=True)
    before = bare_roots.all_of(debian.root)
    for at, command in enumerate(commands):
        if at == 2:
            yield from tries_of_tree(debian.root)
        done = bare_roots.run_in(debian.root, ["sh", "-ec", f"cd /tree; {command}"])
        if done.returncode or done.stdout + done.stderr:
            yield f"INSTALL: {command}: {(done.stdout + done.stderr).decode()[-300:]}"
            return
    left = set(bare_roots.all_of(debian.root)) - set(before)
    if any(not (debian.root / it).is_dir() or it.endswith("doc/morphd") for it in left):
        yield f"what INSTALL says leaves behind {', '.join(sorted(left))}"


def tries_of_tree(root):
    """The tree in /usr/local: its program runs, the loader knows its library, and the unit starts what is there."""
    done = bare_roots.run_in(root, ["morphd", "batch"], SESSION.read_bytes())
    known = bare_roots.run_in(root, ["ldconfig", "--print-cache"]).stdout.decode()
    unit = (root / "usr/local/lib/systemd/system/morphd.service").read_text(encoding="utf-8")
    if done.stdout != REPLIES.read_bytes() or f"/usr/local/lib/{layout.SONAME}" not in known or " /usr/local/bin/morphd " not in unit:
        yield f"as INSTALL says the tree is not in place: {done.stdout[:100]} {done.stderr[:200]}"


def tries_of_program(root):
    """What the program, library and header have to do in Debian."""
    done = bare_roots.run_in(root, ["morphd", "batch"], SESSION.read_bytes())
    if (done.returncode, done.stdout) != (0, REPLIES.read_bytes()):
        yield f"the installed program: status {done.returncode}, {done.stdout[:200]}, {done.stderr[:200]}"
    if layout.SONAME not in bare_roots.run_in(root, ["ldconfig", "--print-cache"]).stdout.decode():
        yield "the loader does not know the installed library"
    unit = (root / "lib/systemd/system/morphd.service").read_text(encoding="utf-8")
    started = re.search(r"^ExecStart=.* (/\S+) serve ", unit, re.MULTILINE)[1]
    if not (root / started[1:]).exists():
        yield f"the unit starts {started}, which is not installed"
    folder = root / "usr/lib/x86_64-linux-gnu/pkgconfig"
    around = {"PATH": bare_roots.PATHS, "PKG_CONFIG_LIBDIR": str(folder), "PKG_CONFIG_SYSROOT_DIR": str(root)}
    if ran(["pkg-config", "--modversion", "morphd"], env=around).stdout.strip() != release():
        yield "pkg-config does not find the installed library"


def tries_of_python(root):
    """What the Python package and its shell have to do in Debian."""
    done = bare_roots.run_in(root, ["python3", "-c", NO_PROC])
    if done.returncode:
        yield f"the installed Python package: {done.stderr.decode()[-300:]}"
    done = bare_roots.run_in(root, ["morph", "erosion", "--rectangle", "1x3", "-", "-o", "-"], b"P2\n5 1\n9\n3 1 4 1 5\n")
    if (done.returncode, done.stdout) != (0, b"P5\n5 1\n9\n\1\1\1\1\1"):
        yield f"the installed shell: {done.stdout[:100]} {done.stderr.decode()[-300:]}"


def of_debian(dist):
    """Packages come and go in a root with the least Debian, and not where the processor lacks SSE4."""
    debian = Debian(dist)
    for name in ("morphd", "libmorphd1"):
        status, told = debian.dpkg("--install", [name], GLIBC_TUNABLES="glibc.cpu.hwcaps=-SSE4_2")
        if status == 0 or f"{name} needs a processor with SSE4.2" not in told:
            yield f"{name} is installed without SSE4.2, or does not say what it lacks: {' '.join(told.split())[-300:]}"
            debian.dpkg("--purge", [name])
    yield from of_instructions(debian)
    names = [it for it in dist.debs if it != "python3-morphd"]
    yield from debian.come_and_go(names, tries_of_program)
    bare_roots.with_debian(debian.root, ["python3", "python3-numpy"])
    yield from debian.come_and_go(["libmorphd1", "python3-morphd"], tries_of_python)


def without_kit(room):
    """An environment in which a call of `rt` is told, and what else hangs on who builds is another."""
    path = room / "bin"
    path.mkdir(exist_ok=True)
    (path / "rt").write_text(f"#!/bin/sh\necho called >> {room}/rt-was-called\nexit 1\n", encoding="ascii")
    (path / "rt").chmod(0o755)
    kept = {name: value for name, value in os.environ.items() if not name.startswith(("MAKE", "MFLAGS", "PREFIX", "DESTDIR"))}
    return {**kept, "PATH": f"{path}:{os.environ['PATH']}", "TZ": "Asia/Tokyo", "LC_ALL": "C", "SOURCE_DATE_EPOCH": str(layout.moment())}


def of_making(dist):
    """Made again, by another user's habits, all has the same bytes; neither takes the kit."""
    again, around = dist.new("again"), without_kit(dist.room)
    words = [sys.executable, "-B", ROOT / "packaging/dist.py", dist.built.program, dist.built.library, again / "dist"]
    bad = fault_of(words, env=around, umask=0o077)
    if bad:
        yield bad
        return
    for path in sorted((again / "dist").iterdir()):
        if not (dist.folder / path.name).exists() or path.read_bytes() != (dist.folder / path.name).read_bytes():
            yield f"{path.name} has other bytes when it is made again"
    yield from called(dist)


def called(dist):
    if (dist.room / "rt-was-called").exists():
        yield "rt was called"


def of_installing(dist, uninstall="uninstall"):
    """`make install` brings the files of the list, each of which `make uninstall` takes away."""
    place, around = dist.new("installed"), without_kit(dist.room)
    built = f"BUILT={dist.built.program.resolve()} {dist.built.library.resolve()}"
    words = ["make", "--silent", "-C", ROOT, built, "PREFIX=/prefix", f"DESTDIR={place}"]
    bad = fault_of([*words, "install"], env=around, umask=0o077)
    if bad:
        yield bad
    wanted = {it.path: it for it in layout.items(dist.built, layout.Place("/prefix"))}
    found = set(archives.all_below(place / "prefix"))
    for name in sorted(set(wanted) ^ found):
        yield f"{name} is {'not ' * (name in wanted)}installed"
    for name in sorted(set(wanted) & found):
        path, item = place / "prefix" / name, wanted[name]
        if not item.link and (path.stat().st_mode & 0o777, path.read_bytes()) != (item.mode, item.content()):
            yield f"{name} is installed with another mode or other bytes"
    if any(it.is_dir() and it.stat().st_mode & 0o777 != 0o755 for it in (place / "prefix").rglob("*")):
        yield "folders are installed that not all may read"
    (place / "prefix/bin/other").touch()
    bad = fault_of([*words, uninstall], env=around)
    if bad:
        yield bad
    if archives.all_below(place) != ["prefix/bin/other"]:
        yield f"make uninstall leaves {', '.join(archives.all_below(place))}"
    yield from called(dist)


CHECKS = {"files": of_files, "tarball": of_tarball, "needs": of_needs, "bare root": of_bare_root, "pages": of_pages,
          "completions": of_completions, "wheel": of_wheel, "source": of_source, "control": of_control, "debian": of_debian,
          "making": of_making, "installing": of_installing}


def main():
    words = [it for it in sys.argv[1:] if it != "--test"]
    missing = [f"{name} (Debian: {package})" for name, package in NEEDED.items() if not shutil.which(name)]
    if len(words) != 3:
        sys.exit(__doc__)
    if missing:
        sys.exit(f"dist: not checked without {', '.join(missing)}")
    built = layout.Built(Path(words[1]), Path(words[2]))
    with tempfile.TemporaryDirectory() as room:
        if "--test" in sys.argv:
            import dist_spoiled

            return dist_spoiled.test(Path(words[0]), built, Path(room))
        dist, count = Dist(words[0], built, room), 0
        for name, check in CHECKS.items():
            for what in check(dist):
                print(f"dist: {name}: {what}", file=sys.stderr)
                count += 1
            print(f"dist: {name}: looked at", flush=True)
            if name == "files" and count:
                sys.exit("dist: what is not as it was made is not tried")
        with zipfile.ZipFile(dist.wheel) as file:
            if not any(b"\nProject-URL: " in file.read(it) for it in file.namelist() if it.endswith("dist-info/METADATA")):
                print("dist: left open: the wheel names no address of the project, as python/pyproject.toml has none")
    sys.exit(1 if count else 0)


if __name__ == "__main__":
    main()
