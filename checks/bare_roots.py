"""Bare roots to try programs in, made without a network of what this machine has: one with the C library alone, and one with the
least Debian and some packages, out of the packages that are installed here.
"""
import os
import re
import shutil
import subprocess
from pathlib import Path

# What dpkg and ldconfig write for themselves, and a device that is a file here: these are not the packages' own.
OF_DPKG = ("var/lib/dpkg/", "var/log/", "var/cache/ldconfig/", "var/cache/debconf/", "etc/ld.so.cache", "dev/null")
# What is in no package, but made where Debian is installed.
FOLDERS = """proc dev tmp root run var/log var/lib/dpkg/info var/lib/dpkg/updates var/lib/dpkg/triggers
    usr/local/bin usr/local/include usr/local/lib usr/local/share"""
PATHS = "/usr/local/bin:/usr/sbin:/usr/bin:/sbin:/bin"


def said(*words, **more):
    return subprocess.run(words, check=True, capture_output=True, text=True, **more).stdout


def command_in(root, words):
    """The words that run a program in a root: by its own rights or, for a user, in a space of names where he is root."""
    if os.geteuid() == 0:
        return [shutil.which("chroot", path=PATHS) or "chroot", str(root), *words]
    return ["unshare", "--map-root-user", f"--root={root}", *words]


def run_in(root, words, given=b"", **around):
    """Runs a program in a root, with nothing of this machine's environment; gives what `subprocess.run` does."""
    environment = {"PATH": PATHS, "HOME": "/root", "LC_ALL": "C.UTF-8", "DEBIAN_FRONTEND": "noninteractive", **around}
    return subprocess.run(command_in(root, words), input=given, env=environment, cwd="/", capture_output=True, check=False, timeout=300)


def with_libc_alone(root, program):
    """A root with the C library and its loader, and what else it takes to run nothing else."""
    for path in re.findall(r"(/\S*/(?:libc\.so\.6|ld-linux-x86-64\.so\.2))\b", said("ldd", str(program))):
        target = root / path[1:]
        target.parent.mkdir(parents=True, exist_ok=True)
        shutil.copy(path, target)


# ---- Debian


def installed():
    """Of each installed package its row: whether it is essential, the groups of those of which it needs one, and what it stands for."""
    form = "${db:Status-Status}\t${Package}\t${Essential}\t${Pre-Depends}, ${Depends}\t${Provides}\n"
    rows = {}
    for line in said("dpkg-query", "--show", f"--showformat={form}").splitlines():
        state, name, essential, needs, provides = line.split("\t")
        if state == "installed":
            groups = [[re.split(r"[\s:(]", it.strip())[0] for it in group.split("|")] for group in needs.split(",") if group.strip()]
            rows[name] = (essential == "yes", groups, [re.split(r"[\s(]", it.strip())[0] for it in provides.split(",") if it.strip()])
    return rows


def closed(rows, wanted):
    """These packages and the essential ones, with all that they need."""
    providers = {virtual: name for name, (_, _, provides) in rows.items() for virtual in provides}
    found, left = set(), [*wanted, *(name for name, row in rows.items() if row[0])]
    while left:
        name = left.pop()
        if name not in found:
            found.add(name)
            for group in rows[name][1]:
                one = next((providers.get(it, it) if it not in rows else it for it in group if it in rows or it in providers), None)
                if one is None:
                    raise LookupError(f"{name} needs {' or '.join(group)}, which is not installed")
                left.append(one)
    return sorted(found)


def copy(path, root):
    """Copies a file, link or folder of this machine to the same place in a root."""
    target = root / str(path)[1:]
    if path.is_symlink():
        target.parent.mkdir(parents=True, exist_ok=True)
        if not target.is_symlink() and not target.exists():
            target.symlink_to(os.readlink(path))
    elif path.is_dir():
        target.mkdir(parents=True, exist_ok=True)
    elif path.is_file() and not target.exists():
        target.parent.mkdir(parents=True, exist_ok=True)
        shutil.copy2(path, target)


def copy_alternatives(root):
    """The links by which Debian chooses among programs, where the one that is chosen here is there too."""
    for path in sorted(Path("/var/lib/dpkg/alternatives").iterdir()):
        lines = path.read_text(encoding="utf-8").split("\n\n")[0].splitlines()
        for name, link in [(path.name, lines[1]), *zip(lines[2::2], lines[3::2])]:
            chosen = Path("/etc/alternatives") / name
            if chosen.is_symlink() and (root / os.readlink(chosen)[1:]).exists():
                copy(chosen, root)
                copy(Path(link), root)


def with_debian(root, wanted):
    """A root with the least Debian, these packages and what they need, and dpkg's own records of them."""
    packages = closed(installed(), wanted)
    for link in Path("/").iterdir():
        if link.is_symlink() and os.readlink(link).startswith("usr/"):
            (root / os.readlink(link)).mkdir(parents=True, exist_ok=True)
            copy(link, root)
    for place in FOLDERS.split():
        (root / place).mkdir(parents=True, exist_ok=True)
    for path in said("dpkg-query", "--listfiles", *packages).splitlines():
        if path.startswith("/") and path != "/.":
            copy(Path(path), root)
    for path in Path("/var/lib/dpkg/info").iterdir():
        if path.stem.partition(":")[0] in packages:
            copy(path, root)
    copy_alternatives(root)
    (root / "var/lib/dpkg/status").write_text(said("dpkg-query", "--status", *packages), encoding="utf-8")
    (root / "var/lib/dpkg/available").touch()
    (root / "etc/passwd").write_text("root:x:0:0:root:/root:/bin/sh\n", encoding="ascii")
    (root / "etc/group").write_text("root:x:0:\n", encoding="ascii")
    run_in(root, ["ldconfig"])


def all_of(root):
    """What is in a root, but for what dpkg writes for itself: of each path what it is."""
    found = {}
    for at, folders, names in os.walk(root):
        for name in [*folders, *names]:
            path = Path(at) / name
            where = str(path.relative_to(root))
            if not where.startswith(OF_DPKG):
                kind = path.lstat()
                found[where] = os.readlink(path) if path.is_symlink() else (kind.st_mode, 0 if path.is_dir() else kind.st_size)
    return found
