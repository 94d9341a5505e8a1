#!/usr/bin/env python3
"""Holds a built libmorphd against the reference model (checks/reference_model.py) on random images, elements, origins and numbers,
with and without faults, from one thread and from four, in arrays that mostly stand against a page that nobody may touch; against
checks/bit_model.py by elements of up to 255 x 255 pixels and on pictures up to the limit; refuses each of its allocations in turn,
and counts them; looks which names it shows; and runs the programs of docs/LIBRARY.md, the one in C also with the sanitizers of
addresses and of undefined behaviour. All of it is done with each build of the library, and which of them is picked is tried on
processors that are pretended.

    python3 checks/library.py out [MORPHD]

`out` is the folder that `make library` makes. Where a built morphd is given, `morphd batch` has to make the same of the same
images. It begins by spoiling what the library makes, and stops where it does not notice that. It needs a C compiler, and fails at its
end where the processor takes no more than the build for x86-64-v2.
"""
import faulthandler
import pathlib
import random
import re
import subprocess
import sys
import tempfile
import threading

import grain_calls
import large_calls
import lent_places
import library_calls as calls
import library_links
import library_memory
import reference_model

ROOT = calls.ROOT
CALLS, BATCHES, MEDIANS = 3000, 200, 300
NUMBERS = {0, 11, 22, 23, 25, 31, 32, 45, 46, 47}


def differs(made, call):
    """Whether the library answered or wrote something else than it has to."""
    answer, samples = calls.wanted(call)
    margin = [calls.UNTOUCHED] * calls.MARGIN
    inner = samples if answer == 0 else [calls.UNTOUCHED] * call.room
    return made != (answer, margin + list(inner) + margin)


def spoiled(made):
    """What a library with a fault might have answered and written."""
    answer, out = made
    first = calls.MARGIN
    yield (answer ^ 1, out)
    yield (answer, out[:-1] + [out[-1] ^ 1])
    yield (answer, [out[0] ^ 1] + out[1:])
    if len(out) > 2 * first:
        yield (answer, out[:first] + [out[first] ^ 1] + out[first + 1:])


def one_by_one(library, chance):
    """Random calls one after the other: how often each number was answered."""
    writer, seen = calls.Writer(chance), {}
    for number in range(CALLS):
        call = writer.call()
        made = calls.made(library, call, chance.choice(lent_places.ALL))
        if differs(made, call):
            sys.exit("DIFFERS: %r\nmade %r\nwanted %r" % (call, made, calls.wanted(call)))
        if number < 100 and not all(differs(it, call) for it in spoiled(made)):
            sys.exit("a spoiled result of %r was not noticed" % (call,))
        seen[made[0]] = seen.get(made[0], 0) + 1
    missing = NUMBERS - set(seen)
    if missing or set(seen) - NUMBERS:
        sys.exit("answers that never came: %s; that should not have come: %s" % (sorted(missing), sorted(set(seen) - NUMBERS)))
    return seen


def grains_one_by_one(library, chance):
    """Random calls of what grains are measured by: how often each number was answered."""
    writer, seen = grain_calls.Writer(chance), {}
    for number in range(CALLS):
        call = writer.call()
        told = grain_calls.made(library, call, chance.choice(lent_places.ALL))
        if grain_calls.differs(told, call):
            sys.exit("DIFFERS: %r\nmade %r\nwanted %r" % (call, told, grain_calls.wanted(call)))
        if number < 100 and not all(grain_calls.differs(it, call) for it in grain_calls.spoiled(told)):
            sys.exit("a spoiled result of %r was not noticed" % (call,))
        seen[told[0]] = seen.get(told[0], 0) + 1
    if set(seen) != grain_calls.NUMBERS:
        sys.exit("answers that never came, or should not have come: %s" % sorted(grain_calls.NUMBERS ^ set(seen)))
    return seen


def side_by_side(library, chance):
    """Calls from four threads at once: each has to make what it made alone."""
    writer = calls.Writer(chance)
    work = [writer.call() for _ in range(200)]
    alone, wrong = [calls.made(library, call) for call in work], []

    def run(start):
        for number in range(len(work)):
            place = (start + number) % len(work)
            if calls.made(library, work[place]) != alone[place]:
                wrong.append(work[place])

    threads = [threading.Thread(target=run, args=(50 * number,)) for number in range(4)]
    for thread in threads:
        thread.start()
    for thread in threads:
        thread.join()
    if wrong:
        sys.exit("DIFFERS from four threads: %r" % (wrong[0],))


def medians(library, chance):
    """Medians under squares of 3 x 3 and 5 x 5, in frames from one pixel to 200 x 70: how many calls."""
    writer = calls.Writer(chance)
    for _ in range(MEDIANS):
        call = writer.median()
        if differs(calls.made(library, call, chance.choice(lent_places.ALL)), call):
            sys.exit("DIFFERS: medians %r of %d x %d samples %s" % (call.numbers, call.image.width, call.image.height, call.image.kind))
    return MEDIANS


def rows_beside_whole(library, chance):
    """Rows that are made alone, beside the same rows of the whole result, also in frames of several strips."""
    writer, count = calls.Writer(chance), 0
    for sides in ((8192, 40), (37, 64), (1, 300), (300, 1)):
        for kind in ("u8", "u16", "set"):
            image = writer.image(kind, 65535, sides)
            for number in calls.OF_ONE_STEP:
                b = writer.bitmap()
                b.pixels[b.y * b.width + b.x] = 1
                whole = calls.Call("morphd_flat_" + kind, [number, 1], image, [b], len(image.samples))
                answer, out = calls.made(library, whole)
                for call in (writer.rows(whole) for _ in range(3)):
                    margin = [calls.UNTOUCHED] * calls.MARGIN
                    rows = calls.asked_of(call, out[calls.MARGIN:-calls.MARGIN])
                    if answer or calls.made(library, call) != (0, margin + rows + margin):
                        sys.exit("DIFFERS from the whole result: %r of %d x %d by %r" % (call.numbers, *sides, b))
                    count += 1
    return count


# ---- beside the program


def session_of(call):
    """A session that does what a call does, or none where a call has no session."""
    f = call.image
    samples = [int(s != 0) for s in f.samples] if f.kind == "set" else f.samples
    kind = "BIT" if f.kind == "set" else "GREY"
    text = reference_model.image_text(reference_model.Image(kind, f.width, f.height, 1 if f.kind == "set" else f.maxval, samples))
    parts = [b"LOAD f %d\n" % len(text), text]
    for name, b in zip("bc", call.bitmaps):
        bitmap = b"P1\n%d %d\n" % (b.width, b.height) + b"".join(b"1" if p else b"0" for p in b.pixels)
        parts += [b"ELEMENT %s %d %d %d\n" % (name.encode(), b.x, b.y, len(bitmap)), bitmap]
    names = ["f"] + ["b", "c"][:len(call.bitmaps)]
    words = [calls.operation(call), *names, *map(str, calls.operation_numbers(call))]
    parts.append(" ".join(["RUN r", *words]).encode() + b"\nFETCH r\n")
    return b"".join(parts)


def beside_program(library, program, chance):
    """Calls without faults, and the sessions that do the same."""
    writer, count = calls.Writer(chance, odd=10**9), 0
    while count < BATCHES:
        call = writer.call()
        if calls.wanted(call)[0]:
            continue
        count += 1
        output = subprocess.run([program, "batch"], input=session_of(call), capture_output=True, check=True).stdout
        text = output.split(b"\n", 3 + len(call.bitmaps))[-1]
        _, out = calls.made(library, call)
        samples = out[calls.MARGIN:-calls.MARGIN]
        if calls.family(call) == "spectrum":
            same = reference_model.curve_text(samples) == text
        else:
            same = list(calls.asked_of(call, reference_model.image_in(text).samples)) == samples
        if not same:
            sys.exit("DIFFERS from morphd batch: %r" % (call,))
    return count


# ---- programs in C


def built(folder, name, sources, *flags):
    program = pathlib.Path(folder) / name
    subprocess.run(["cc", "-Wall", "-Wextra", "-Werror", "-I", ROOT / "include", *sources, "-o", program, *flags], check=True)
    return program


def said_by(out, folder, name):
    """What one of the programs prints that stand between the library and malloc."""
    sources = [ROOT / "checks" / (name + ".c"), out / "libmorphd.a"]
    program = built(folder, name, sources, "-O1", "-Wl,--wrap=malloc,--wrap=realloc,--wrap=free")
    said = subprocess.run([program], capture_output=True, text=True, check=False)
    if said.returncode:
        sys.exit("%s: %s%s" % (name, said.stdout, said.stderr))
    return said.stdout.strip()


def examples(text):
    """The programs of the document, each with what it prints: the language, the program, the output."""
    blocks = re.findall(r"^```(c|python|text)\n(.*?)^```$", text, re.MULTILINE | re.DOTALL)
    pairs = [(one[0], one[1], other[1]) for one, other in zip(blocks, blocks[1:]) if one[0] != "text" and other[0] == "text"]
    if [it[0] for it in pairs] != ["c", "python"]:
        sys.exit("docs/LIBRARY.md has not one program in C and one in Python, each with its output behind it")
    return pairs


def documents(out, folder):
    """The programs of docs/LIBRARY.md print what stands there."""
    (_, c_text, c_output), (_, python_text, python_output) = examples((ROOT / "docs/LIBRARY.md").read_text(encoding="utf-8"))
    source = pathlib.Path(folder) / "example.c"
    source.write_text(c_text, encoding="utf-8")
    archive = out / "libmorphd.a"
    for name, flags in (("shared", ["-L", out, "-lmorphd", "-Wl,-rpath," + str(out)]), ("static", [archive]),
                        ("checked", [archive, "-g", "-fsanitize=address,undefined", "-fno-sanitize-recover=all"])):
        said = subprocess.run([built(folder, name, [source], *flags)], capture_output=True, text=True)
        if (said.returncode, said.stdout, said.stderr) != (0, c_output, ""):
            sys.exit("the program in C, %s, printed %r %r" % (name, said.stdout, said.stderr))
    said = subprocess.run([sys.executable, "-c", python_text], capture_output=True, text=True, cwd=ROOT)
    if (said.returncode, said.stdout, said.stderr) != (0, python_output, ""):
        sys.exit("the program in Python printed %r %r" % (said.stdout, said.stderr))
    subprocess.run(["c++", "-Wall", "-Wextra", "-Werror", "-fsyntax-only", "-x", "c++", ROOT / "include/morphd.h"], check=True)


def picker(folder):
    """Which build is picked, on processors that are pretended."""
    said = subprocess.run([built(folder, "picker", [ROOT / "checks/picker.c"], "-O1")], capture_output=True, text=True)
    if said.returncode:
        sys.exit("the picker: " + said.stdout)
    return said.stdout.strip()


def hold(library, out, program):
    """All of the above with one build, which MORPHD_CPU tells the programs in C."""
    chance = random.Random(41)
    if library.morphd_version() != 1:
        sys.exit("the version is not 1")
    seen = one_by_one(library, chance)
    told = ", ".join("%d: %d" % it for it in sorted(seen.items()))
    print("%d random calls beside the reference model; answers: %s" % (CALLS, told))
    told = ", ".join("%d: %d" % it for it in sorted(grains_one_by_one(library, chance).items()))
    print("%d random calls on grains beside the reference model; answers: %s" % (CALLS, told))
    full = grain_calls.full_size(library)
    if isinstance(full, str):
        sys.exit("DIFFERS: " + full)
    print("%d calls on grains on pictures up to the limit" % full)
    side_by_side(library, chance)
    print("four threads at once make the same")
    print("%d calls for rows beside the whole result" % rows_beside_whole(library, chance))
    print("%d medians under squares beside the reference model" % medians(library, chance))
    print(large_calls.check(library, chance))
    with tempfile.TemporaryDirectory() as folder:
        print(library_links.check(out, folder))
        # each allocation of calls of each kind is refused in turn; all of others are counted
        print(said_by(out, folder, "refused_calls"))
        print(library_memory.check(said_by(out, folder, "counted_calls")))
        documents(out, folder)
    print("the programs of docs/LIBRARY.md print what stands there")
    if program:
        print("%d calls beside morphd batch" % beside_program(library, program, chance))


def main():
    out, program = pathlib.Path(sys.argv[1]).resolve(), sys.argv[2] if len(sys.argv) > 2 else None
    with tempfile.TemporaryDirectory() as folder:
        print(picker(folder))
    if not lent_places.fences_stop():
        sys.exit("a read past an array's end stops nobody")
    faulthandler.enable()
    left_out = []
    for cpu, number in calls.BUILDS.items():
        library = calls.opened(out / "libmorphd.so", cpu)
        if library.morphd_build() == number:
            print("the build for x86-64-%s:" % cpu, flush=True)
            hold(library, out, program)
        elif number == 2:
            sys.exit("MORPHD_CPU=v2 does not take the build for x86-64-v2")
        else:
            left_out.append("x86-64-" + cpu)
    if left_out:
        sys.exit("this processor takes no build for %s, so it was not tried" % " and ".join(left_out))


if __name__ == "__main__":
    main()
