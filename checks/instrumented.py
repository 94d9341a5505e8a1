#!/usr/bin/env python3
"""Builds unproved copies of morphd with instruments in them, for what looks at a running program and never for a result:

    python3 -B checks/instrumented.py threads      out/instrumented/threads, by ThreadSanitizer, which checks/races.py runs
    python3 -B checks/instrumented.py coverage     out/instrumented/coverage, with the counters of AFL++, which afl-fuzz runs

`rt try` lowers the program and proves nothing. Here it does so in a kit of links whose compiler is a script, which keeps the module. What a
trial adds is taken out of it, the kit's clang compiles it with instruments, and Debian's clang links it: packages clang and libclang-rt-dev,
for coverage afl++. It takes some minutes; where nothing changed since, nothing is built. At its end it prints the path.
"""
import os
import re
import shutil
import subprocess
import sys
import tempfile

import prove

ROOT = prove.ROOT
FOLDER = f"{ROOT}/out/instrumented"
# What a trial adds: calls that check, fills of what has no value yet, traps, and words of functions.
ADDED = re.compile(r'\s*call void @"rattle-(?:llvm-checks::|try::site-)|\s*call void @llvm\.memset\.p0\.i64\(ptr [^,]*, i8 -86,|\s*call .*@llvm\.trap\(\)')
WORDS = {"threads": "sanitize_thread", "coverage": ""}
FLAGS = ("--target=x86_64-unknown-linux-gnu", "--no-default-config", "-fintegrated-cc1", "-Wno-override-module", "-c", "-x", "ir", "-fPIE", "-O1",
         "-ffunction-sections", "-mllvm", "-trap-unreachable")
INSTRUMENTS = {"threads": ("-Xclang", "-fsanitize=thread"),
               "coverage": ("-Xclang", "-fsanitize-coverage-type=3", "-Xclang", "-fsanitize-coverage-trace-pc-guard")}
AFL = "/usr/lib/afl/afl-compiler-rt.o"
# Newer compilers call these, and Debian's runtime knows them as what it watches itself.
SHIM = """
#include <stddef.h>
void *memset(void *, int, size_t);
void *memcpy(void *, const void *, size_t);
void *memmove(void *, const void *, size_t);
void *__tsan_memset(void *to, int byte, size_t count) { return memset(to, byte, count); }
void *__tsan_memcpy(void *to, const void *from, size_t count) { return memcpy(to, from, count); }
void *__tsan_memmove(void *to, const void *from, size_t count) { return memmove(to, from, count); }
"""
# Stands in the place of the compiler: keeps the module of the program, and ends the trial there.
KEEPS = """#!/usr/bin/python3 -S
import os, shutil, sys
if "module.bc" in sys.argv and os.path.getsize("module.bc") > 2000:
    shutil.copy("module.bc", {kept!r})
    sys.exit(1)
os.execv({clang!r}, sys.argv)
"""


def kit():
    """The folder of the kit."""
    return os.path.dirname(subprocess.run(["rt", "doc"], check=True, capture_output=True, text=True).stdout.strip())


def linked_kit(room, kept):
    """A kit of links to the other one, with a compiler that keeps a module."""
    real, made = kit(), f"{room}/kit"
    for inner in ("", "bin", "toolchain", "toolchain/bin"):
        os.makedirs(f"{made}/{inner}", exist_ok=True)
        for name in os.listdir(f"{real}/{inner}"):
            if not os.path.exists(f"{made}/{inner}/{name}") and (inner, name) not in (("", "bin"), ("", "toolchain"), ("toolchain", "bin")):
                os.symlink(f"{real}/{inner}/{name}", f"{made}/{inner}/{name}")
    for name in ("rt", "rtlib.py"):
        # It finds its kit by where it lies itself.
        os.remove(f"{made}/bin/{name}")
        shutil.copy(f"{real}/bin/{name}", f"{made}/bin/{name}")
    clang = f"{made}/toolchain/bin/clang"
    os.remove(clang)
    with open(clang, "w", encoding="ascii") as file:
        file.write(KEEPS.format(kept=kept, clang=f"{real}/toolchain/bin/clang"))
    os.chmod(clang, 0o755)
    return made


def lowered(room):
    """The module of the program as text, as a trial lowers it."""
    kept = f"{room}/kept.bc"
    made = linked_kit(room, kept)
    words = [f"{made}/bin/rt", "try", "--seconds", "60", "--", "serve"]
    ran = subprocess.run(words, cwd=f"{ROOT}/crates/morphd", stdin=subprocess.DEVNULL, capture_output=True, text=True, check=False)
    if not os.path.exists(kept):
        sys.exit(f"instrumented.py: rt try gave no module: {ran.stdout}{ran.stderr}")
    text = f"{room}/kept.ll"
    words = [f"{kit()}/toolchain/bin/clang", "-S", "-emit-llvm", "-Xclang", "-disable-llvm-passes", "-O1", "-x", "ir", kept, "-o", text]
    subprocess.run(words, check=True, stderr=subprocess.DEVNULL)
    return text


def rewritten(source, to, word):
    """The module without what a trial adds, each function with a word for the instruments."""
    with open(source, encoding="utf-8") as lines, open(to, "w", encoding="utf-8") as made:
        for line in lines:
            if ADDED.match(line):
                continue
            if line.startswith("attributes #"):
                line = line.replace(" sanitize_address", "").replace('"target-cpu"="x86-64"', '"target-cpu"="x86-64-v2"')
                line = line.replace("{ }", "{ nounwind }").replace("= {", "= { " + word, 1)
            made.write(line)


def needs(kind):
    """Ends where what links it is missing."""
    if kind == "threads" and not shutil.which("clang"):
        sys.exit("instrumented.py: clang is missing: install Debian's packages clang and libclang-rt-dev")
    if kind == "coverage" and not os.path.exists(AFL):
        sys.exit("instrumented.py: there is no runtime of AFL++: install Debian's package afl++")


def build(kind, program):
    needs(kind)
    with tempfile.TemporaryDirectory(prefix="instrumented-") as room:
        rewritten(lowered(room), f"{room}/all.ll", WORDS[kind])
        subprocess.run([f"{kit()}/toolchain/bin/clang", *FLAGS, *INSTRUMENTS[kind], f"{room}/all.ll", "-o", f"{room}/all.o"], check=True)
        with open(f"{room}/shim.c", "w", encoding="ascii") as file:
            file.write(SHIM)
        parts = [f"{room}/all.o", f"{kit()}/c/libos_c.a", f"{kit()}/c/liblibc_c.a"]
        if kind == "threads":
            subprocess.run(["clang", "-O1", "-fPIE", "-fno-builtin", "-c", f"{room}/shim.c", "-o", f"{room}/shim.o"], check=True)
            words = ["clang", "-pie", "-fsanitize=thread", *parts, f"{room}/shim.o"]
        else:
            words = ["cc", "-pie", *parts, AFL]
        subprocess.run([*words, "-o", f"{program}.new"], check=True)
    os.replace(f"{program}.new", program)


def built(kind):
    """The path of such a copy of morphd as it is now."""
    program = f"{FOLDER}/{kind}"
    names = sorted({"morphd", *prove.all_below("morphd", prove.needs_by_crate())})
    head = (prove.kit(), *prove.rows_of(names), prove.text(os.path.realpath(__file__)))
    total = prove.sum_of([path for name in names for path in sorted(prove.sources(name))], head)
    if not os.path.isfile(program) or prove.text(f"{program}.sum") != total:
        os.makedirs(FOLDER, exist_ok=True)
        build(kind, program)
        with open(f"{program}.sum", "w", encoding="utf-8") as file:
            file.write(total)
    return program


if __name__ == "__main__":
    if sys.argv[1:] not in (["threads"], ["coverage"]):
        sys.exit(__doc__)
    print(built(sys.argv[1]))
