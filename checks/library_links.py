"""What the linked library shows: both forms of it the functions of the header and nothing else, so that a program may have any
other name for its own, and two libraries made alike stand in one program.
"""
import pathlib
import subprocess
import sys

import library_calls as calls

HEADERS = calls.ROOT / "include"
# It calls the library, and the second one where there is one.
PROGRAM = """
#include <morphd.h>
#include <stdlib.h>
#ifdef TWO
uint32_t twin_morphd_version(void);
int32_t twin_morphd_threshold_u8(uint32_t k, uint32_t width, uint32_t height, uint8_t maxval, const uint8_t *samples, size_t count,
    uint8_t *out, size_t out_count);
#else
#define twin_morphd_version morphd_version
#define twin_morphd_threshold_u8 morphd_threshold_u8
#endif

int main(void) {
    const uint8_t samples[4] = {1, 2, 3, 4}, ones[1] = {1};
    uint8_t out[4] = {0, 0, 0, 0};
    if (morphd_version() != 1 || twin_morphd_version() != 1) return 1;
    if (morphd_flat_u8(MORPHD_OPEN, 0, 2, 2, 9, samples, 4, ones, 1, 1, 1, 0, 0, out, 4) || out[3] != 4) return 2;
    return twin_morphd_threshold_u8(3, 2, 2, 9, samples, 4, out, 4) || out[0] || out[1] || !out[2] || !out[3] ? 3 : 0;
}
"""


def names(path, *flags):
    """The symbols of an object, with the letter that nm gives each."""
    listed = subprocess.run(["nm", *flags, path], capture_output=True, check=True, text=True).stdout
    rows = [line.split(maxsplit=2) for line in listed.splitlines() if line[:1] in "0123456789abcdef" and len(line.split()) > 2]
    return {name: kind for _, kind, name in rows}


def shows_the_header(path, *flags):
    shown, wanted = set(names(path, *flags, "--defined-only")), set(calls.prototypes())
    if shown != wanted:
        sys.exit("%s and the header differ in what it shows: %s" % (path.name, ", ".join(sorted(shown ^ wanted))))


def run(folder, name, sources, *flags):
    """Links a program, and runs it."""
    program = folder / name
    linked = subprocess.run(["cc", "-I", HEADERS, *flags, *sources, "-o", program], capture_output=True, text=True, check=False)
    if linked.returncode:
        sys.exit("%s: not linked:\n%s" % (name, linked.stderr))
    if status := subprocess.run([program], check=False).returncode:
        sys.exit("%s: ended with %d" % (name, status))


def with_its_own_names(archive, source, folder):
    """Links a program with a function of its own for each name in the archive, which would end it if the library called that."""
    taken = sorted(name for name, kind in names(archive).items() if kind in "tTwWdDbB" and not name.startswith("morphd_"))
    own = folder / "own.s"
    lines = ['.globl "%s"\n"%s": ud2\n' % (it, it) for it in taken if not it.startswith(".")]
    own.write_text(".text\n" + "".join(lines) + '.section .note.GNU-stack,"",@progbits\n', encoding="utf-8")
    run(folder, "with_its_own_names", [source, own, archive])
    return len(lines)


def with_two(archive, source, folder):
    """Links a program with a second library, whose functions have other names."""
    twin = folder / "libtwin.a"
    renamed = ["--redefine-sym=%s=twin_%s" % (it, it) for it in calls.prototypes()]
    subprocess.run(["objcopy", *renamed, archive, twin], check=True)
    run(folder, "with_two", [source, archive, twin], "-DTWO")


def check(out, folder):
    archive, folder = out / "libmorphd.a", pathlib.Path(folder)
    shows_the_header(out / "libmorphd.so", "-D")
    shows_the_header(archive, "-g")
    source = folder / "linked.c"
    source.write_text(PROGRAM, encoding="utf-8")
    count = with_its_own_names(archive, source, folder)
    with_two(archive, source, folder)
    return "both libraries show the header's functions alone: programs with %d names of its insides, and with two of it, link" % count
