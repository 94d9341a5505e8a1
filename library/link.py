#!/usr/bin/env python3
"""Links both builds of the proved library into libmorphd.so and libmorphd.a: what `make library` does behind the proof.

    python3 library/link.py FOLDER V2 V3 MEMORY
    python3 library/link.py --test    links small builds in C, calls both, and sees that builds are refused that do not go together

V2 and V3 are the static libraries that were built of the proved crate for x86-64-v2 and x86-64-v3, and MEMORY is that of the kit, by
which they ask for memory. It stops where V2 has an instruction that x86-64-v2 lacks, or V3 none, since they are mixed up then. In each build the functions of morphd.h get a prefix, and all other names become its own. In
their place stand the jumps of calls.s, which picker.c guides. Both forms of the library show the functions of the header alone, so a
program may have any other name for its own.
"""
import os
import re
import subprocess
import sys
import tempfile
from pathlib import Path

HERE = Path(__file__).resolve().parent
INCLUDE = HERE.parent / "include"
SHOWN = "morphd_*"
SONAME = "libmorphd.so.1"
# Of the instructions that x86-64-v3 has beyond x86-64-v2 those that compilers write; all vectors of AVX begin with v.
OF_V3 = re.compile(r"\t(v[a-z0-9]+|andn|bextr|blsi|blsmsk|blsr|bzhi|lzcnt|movbe|mulx|pdep|pext|rorx|sarx|shlx|shrx)(\s|$)", re.MULTILINE)


def run(*words):
    subprocess.run([str(it) for it in words], check=True)


def functions(path):
    """The functions that a build shows to C."""
    listed = subprocess.run(["nm", "--defined-only", "--extern-only", path], capture_output=True, check=True, text=True).stdout
    rows = (line.split() for line in listed.splitlines())
    return sorted(row[2] for row in rows if len(row) == 3 and row[1] == "T" and row[2].startswith("morphd_"))


def is_for_v3(path):
    """Whether a build has an instruction that x86-64-v2 lacks."""
    words = ["objdump", "--disassemble", "--no-show-raw-insn", path]
    return bool(OF_V3.search(subprocess.run(words, capture_output=True, check=True, text=True).stdout))


def renamed(build, prefix, names, room):
    """An object with all of a build, whose functions have a prefix, and which shows them alone."""
    made, pairs = room / f"{prefix}build.o", room / f"{prefix}names"
    run("ld", "-r", "-o", made, "--whole-archive", build)
    run("objcopy", "--wildcard", f"--keep-global-symbol={SHOWN}", made)
    pairs.write_text("".join(f"{it} {prefix}{it}\n" for it in names), encoding="ascii")
    run("objcopy", f"--redefine-syms={pairs}", made)
    return made


def picking(names, room):
    """The objects of the picker and of the jumps."""
    calls = room / "calls.s"
    calls.write_text((HERE / "calls.s").read_text(encoding="ascii") + "".join(f"picked {it}\n" for it in names), encoding="ascii")
    made = []
    for source in (HERE / "picker.c", calls):
        made.append(room / f"{source.name}.o")
        run("cc", "-O2", "-fPIC", "-I", INCLUDE, "-c", source, "-o", made[-1])
    return made


def shared(folder, objects, memory, room):
    shown = room / "map"
    shown.write_text(f"{{ global: {SHOWN}; local: *; }};\n", encoding="ascii")
    run("cc", "-shared", "-o", folder / "libmorphd.so", f"-Wl,-soname,{SONAME}", f"-Wl,--version-script={shown}",
        "-Wl,--gc-sections", "-Wl,-z,defs", *objects, memory)
    link = folder / SONAME
    link.unlink(missing_ok=True)
    link.symlink_to("libmorphd.so")


def static(folder, objects, memory, room):
    whole, archive = room / "morphd.o", folder / "libmorphd.a"
    run("ld", "-r", "-o", whole, *objects, memory)
    run("objcopy", "--wildcard", f"--keep-global-symbol={SHOWN}", whole)
    archive.unlink(missing_ok=True)
    run("ar", "rcs", archive, whole)


def link(folder, v2, v3, memory):
    names = functions(v2)
    if not names or names != functions(v3):
        sys.exit(f"link: {v2} and {v3} show other functions: {', '.join(sorted({*names} ^ {*functions(v3)})) or 'none'}")
    if is_for_v3(v2) or not is_for_v3(v3):
        sys.exit(f"link: {v2} is not for x86-64-v2, or {v3} not for x86-64-v3")
    folder.mkdir(parents=True, exist_ok=True)
    with tempfile.TemporaryDirectory() as name:
        room = Path(name)
        objects = [*picking(names, room), renamed(v2, "v2_", names, room), renamed(v3, "v3_", names, room)]
        shared(folder, objects, memory, room)
        static(folder, objects, memory, room)
    return f"linked {folder}/libmorphd.so and {folder}/libmorphd.a: {len(names)} functions, each for x86-64-v2 and x86-64-v3"


# ---- the test: builds of a few lines, of which each tells which it is, and has an inner function of the same name

BUILD = """
#include <stdint.h>
uint64_t memory(void);
uint64_t inner(uint64_t a, uint64_t b) { return ((a >> (b & 63)) & ~b) + 1000 * NUMBER + memory(); }
uint64_t morphd_sum(uint64_t a, uint64_t b, uint64_t c, uint64_t d, uint64_t e, uint64_t f, uint64_t g, double h) {
    return inner(a, b) + c + d + e + f + 10 * g + 100 * (uint64_t)h;
}
#ifdef MORE
int morphd_more(void) { return 0; }
#endif
"""
MEMORY = "int memory(void) { return 0; }\n"


def built(room, name, text, *flags):
    """A static library of a text in C."""
    source, made = room / f"{name}.c", room / f"{name}.a"
    source.write_text(text, encoding="ascii")
    run("cc", "-O2", "-fPIC", "-fno-inline", *flags, "-c", source, "-o", room / f"{name}.o")
    run("ar", "rcs", made, room / f"{name}.o")
    return made


def test():
    with tempfile.TemporaryDirectory() as name:
        room = Path(name)
        for_v2, for_v3 = ("-march=x86-64-v2", "-DNUMBER=2"), ("-march=x86-64-v3", "-DNUMBER=3")
        v2, v3, more = built(room, "v2", BUILD, *for_v2), built(room, "v3", BUILD, *for_v3), built(room, "more", BUILD, "-DMORE", *for_v3)
        memory = built(room, "memory", MEMORY)
        link(room / "out", v2, v3, memory)
        call = "import ctypes, sys; f = ctypes.CDLL(sys.argv[1]); print(f.morphd_build(), f.morphd_sum(8, 1, 1, 1, 1, 1, 3, ctypes.c_double(9)))"
        told = []
        for cpu in ("v2", "v3"):
            ran = subprocess.run([sys.executable, "-c", call, room / "out" / SONAME], env={**os.environ, "MORPHD_CPU": cpu},
                                 capture_output=True, check=True, text=True)
            told.append(ran.stdout.split())
        if told[0] != ["2", "2938"] or told[1] not in (["3", "3938"], told[0]):
            sys.exit(f"link: the builds tell {told}")
        for first, second, wanted in ((v3, v2, "is not for x86-64-v2"), (v2, v2, "is not for x86-64-v2"), (v2, more, "morphd_more")):
            try:
                link(room / "other", first, second, memory)
            except SystemExit as end:
                if wanted in str(end):
                    continue
            sys.exit(f"link: {first.name} and {second.name} are not refused by {wanted!r}")
    print("builds that do not go together are refused, and of others the right one is called with all its arguments")


def main():
    if sys.argv[1:] == ["--test"]:
        test()
    elif len(sys.argv) == 5:
        print(link(*(Path(it) for it in sys.argv[1:])))
    else:
        sys.exit(__doc__)


if __name__ == "__main__":
    main()
